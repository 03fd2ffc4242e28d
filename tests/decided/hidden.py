"""The plies that no picture showed, as `recover` reports them: tests/decisions/hidden.json."""

from live.game.game import Course
from live.game.hidden import between, leads_back, pairs_in

from decided.cases import cases
from decided.table import same


def pairs() -> None:
    for name, report, expected in cases("hidden", "pairs"):
        same(name, [[pair.moves, pair.offset] for pair in pairs_in(report)], expected)


def put_in() -> None:
    for name, sent, made, offset, expected in cases("hidden", "put in"):
        same(name, list(between(bytes(sent), bytes(made), offset)), expected)


def back() -> None:
    for name, fens, stays, expected in cases("hidden", "leads back"):
        course = Course("")
        course.fens = fens
        same(name, leads_back(course, stays), expected)


TABLES = [pairs, put_in, back]
