"""The way back, in words: what is asked and told, and which alarms end, given what the program says. Worked by hand from what the
screen prints."""

from types import SimpleNamespace
from typing import Optional, cast

from live.child.lines import Move
from live.game.files import Paths, PutIn
from live.game.game import Game
from live.game.kept import Capture
from live.game.looks import OVER, Look, Looks
from live.game.typed import Said, Way, asked_of, not_back, not_instead, nothing_goes, numbered, played_since, read_answer, stays_of, taken_up, way_of
from live.game.undone import Obeyed, Undone, alike, to_undo
from live.run.refused import NotDone

from decided.cases import cases
from decided.table import same

PLIES = [Move(*ply) for ply in cases("way_back", "plies")]


def said_of(text: str) -> Said:
    """What the program says, as it writes it behind `back: `."""
    return read_answer("back", 0 if text.startswith("plies") else 1, f"back: {text}\n", b"")


def answers() -> None:
    """What the program has done, or why it hasn't."""
    for text, expected in cases("way_back", "answers"):
        way = way_of(said_of(text), PLIES)
        same(text, way and [way.stays, len(way.gone), way.result], expected)
    for text, to, expected in cases("way_back", "refused"):
        said = said_of(text)
        same(f"{text}, {to}", str(not_back(said, to, PLIES)), expected)
        same(f"{text} is no way", way_of(said, PLIES), None)
    same("how many were to stay", [stays_of(said_of(text)) for text in ("moved 11 6... Qxe4+", "unseen 7", "nearest 4. Bxc6", "none")], [11, 7, 0, 0])
    for count, to, expected in cases("way_back", "nothing"):
        same(f"{to} of {count}", str(nothing_goes(Way(PLIES[:count], count, "*", b""), to)), expected)
    same("numbered", [numbered(to) for to in ("14. Bxf6", "14.", "14... Qd7", "Bxf6", "14 Bxf6", "", "all")], [True, True, True, False, False, False, False])


def instead() -> None:
    """Other moves come in place of the last ones."""
    for text, line, told, asked in cases("way_back", "instead"):
        way = way_of(read_answer("instead", 0, f"instead: {text}\n", b"new"), PLIES, line)
        same(f"{text}, {line}", way and [way.words, way.question, way.changes_nothing, way.content], [told, asked, False, b"new"])
    for text, line, expected in cases("way_back", "no instead"):
        said = read_answer("instead", 1, f"instead: {text}\n", b"")
        same(f"{text}, {line}", [str(not_instead(said, line, None, PLIES)), way_of(said, PLIES, line)], [expected, None])


def undone() -> None:
    """The line that was typed last is taken back."""
    for line, had, behind, result, has, more, now, told in cases("way_back", "undone"):
        before, after = ([*PLIES[:count], *(Move(*ply) for ply in rest)] for count, rest in ((had, behind), (has, more)))
        way = Undone(before, alike(before, after), result, b"new", typed=line, now=after, has=now)
        same(told, (way.words, way.question, way.front), (told, "", b"new" if now == "*" else b""))
    for kept, made, begins, ends, sent, left in cases("way_back", "taken out"):
        put = PutIn(kept and "game.before-1.dgt", len(kept), made, range(begins, ends))
        same(f"{kept} and {sent}", put.taken_out(sent.encode(), kept.encode()).decode(), left)
        same(f"{kept} and {sent}, before", put.before, len(kept) or begins)
    same("a game that was over ends by itself", Undone(PLIES, 12, "*", b"new", put=PutIn(end=3)).front, b"")


def what_is_undone() -> None:
    """Which line is taken back; or why none is, and what to type."""
    first, anew, second = (cast(Capture, SimpleNamespace(path=f"blitz-{number}.dgt")) for number in (1, 1, 2))
    put = PutIn(added=range(67, 134))

    def asked(last: Optional[Obeyed], capture: Capture) -> object:
        game = cast(Game, SimpleNamespace(capture=capture, paths=Paths(capture.path[: -len(".dgt")])))
        try:
            return to_undo(last, game)
        except NotDone as why:
            return str(why)

    by_hand = "Take plies off with back, and a result with *"
    for name, last, capture, expected in (
        ("the last line", Obeyed("Nf3", first, put), first, ("Nf3", put)),
        ("none", None, first, f"nothing was typed since this recording began, and what was typed before can't be undone. {by_hand}"),
        ("one that can't be", Obeyed("ok", first, why="why"), first, "why"),
        ("the next game", Obeyed("1-0", first, put), second, '"1-0" was typed before blitz-2 began. Put blitz-1 right by its name, as * blitz-1'),
        ("the same game anew", Obeyed("1-0", first, put), anew, f'"1-0" was typed last, and can\'t be undone. {by_hand}'),
    ):
        same(name, asked(last, capture), expected)


def plies() -> None:
    """What is asked and told."""
    for stays, asked in cases("way_back", "questions"):
        same(f"{stays} stay", Way(PLIES, stays, "*", b"").question, asked)
    for stays, result, expected in cases("way_back", "told"):
        way = Way(PLIES, stays, result, b"")
        same(expected, (way.words, way.changes_nothing), (expected, stays == len(PLIES) and result == "*"))


def looks() -> None:
    """What there is still to look at: that of plies which were taken off was looked at."""
    for before, stays, after in cases("way_back", "settled"):
        left = Looks(tuple(Look(what, "why") for what in before)).without(Way(PLIES, stays, "*", b"").settled)
        same(f"{stays} plies stay", [look.what for look in left.open], after)
    over = Looks((Look("after 6. Nf3", "why", OVER),))
    same("after a result that is gone", over.without(Way(PLIES, 9, "1-0", b"").settled), Looks())


def taken_up_again() -> None:
    """A game that is over goes on with `*`."""
    for had, count, expected in cases("way_back", "asked_of"):
        same(f"{had} of {count}", asked_of(had, count), expected)
    for name, had, text, is_there, expected in cases("way_back", "taken_up"):
        same(f"{name}: {text}", taken_up(had, said_of(text), is_there), expected)
    for count, stand, more, expected in cases("way_back", "played_since"):
        now = [*PLIES[:stand], *(Move(*ply) for ply in more)]
        same(expected, played_since(PLIES[:count], now), expected)


TABLES = [answers, instead, undone, what_is_undone, plies, looks, taken_up_again]
