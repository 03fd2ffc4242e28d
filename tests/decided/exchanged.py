"""Whether the cables of two boards may have been exchanged, though nothing shows it; which boards have one number; and what is said then."""

from live.board.state import Return, Returned, came_back, may_be_exchanged, same_number, told_of_exchange, told_of_same_number

from decided.cases import cases
from decided.table import same


def returned(heard_at: float, came_at: float, number: str, placement: str) -> Returned:
    return Returned(Return(heard_at, came_at), number, placement)


def returns() -> None:
    """When a board was away."""
    for name, heard_at, has_slept, now, expected in cases("exchanged", "returns"):
        same(name, came_back(heard_at, has_slept, now), expected and Return(*expected))


def boards() -> None:
    for name, first, second, expected in cases("exchanged", "boards"):
        one, other = returned(*first), returned(*second)
        same(name, [may_be_exchanged(one, other), may_be_exchanged(other, one)], [expected, expected])


def told() -> None:
    """One message, whose place the next one takes."""
    for others, expected in cases("exchanged", "told"):
        look = told_of_exchange(others)
        same(expected, look.text, expected)
        same("one alarm", look.about, told_of_exchange([*others, 99]).about)


def numbers() -> None:
    """Boards with one serial number."""
    for name, serials, board, expected in cases("exchanged", "same_number"):
        same(name, same_number(dict(serials), board), expected)
    for others, expected in cases("exchanged", "told_of_number"):
        look = told_of_same_number(others)
        same(expected, look.text, expected)
        same("one alarm", look.about, told_of_exchange(others).about)


TABLES = [returns, boards, told, numbers]
