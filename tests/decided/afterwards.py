"""A board whose game is over: what somebody must look at, and where the next game begins."""

from live.game.looks import Looks, corrected, is_read_anew, is_set_up, next_begins, unheard, went_on

from decided.cases import cases
from decided.table import same


def looks() -> None:
    """What is said of moves, as the program counts them."""
    for after, moves, result, expected in cases("afterwards", "went_on"):
        same(expected, went_on(after, moves, result).text, expected)
    for ply, expected in cases("afterwards", "corrected"):
        same(expected, corrected(ply).text, expected)
    for ply, expected in cases("afterwards", "unheard"):
        same(expected, unheard(ply).text, expected)
    same("more replace it", Looks().with_one_more(went_on("38. Kf2", 2, "1-0")).with_one_more(went_on("38. Kf2", 3, "1-0")).all,
         "LOOK after 38. Kf2: 3 moves were made, and the game is over: 1-0")  # fmt: skip


def next_game() -> None:
    for name, stood, start, plies, expected in cases("afterwards", "is_read_anew"):
        same(name, is_read_anew(stood, start, plies), expected)
    for name, pictures, end, start, expected in cases("afterwards", "next_begins"):
        same(name, next_begins(pictures, end, start), expected)


def set_up() -> None:
    """A board in a round whose game is over: when it isn't heard any more."""
    start, after_e4 = "rnbqkbnr/pppppppp/8/8/8/8/PPPPPPPP/RNBQKBNR", "rnbqkbnr/pppppppp/8/8/4P3/8/PPPP1PPP/RNBQKBNR"
    for name, shown, plies, expected in (
        ("the pieces are at the start again", start, 38, True),
        ("they stand as after the last move", after_e4, 1, False),
        ("a piece of a game that isn't played was set straight", start, 0, False),
        ("somebody has come late", after_e4, 0, False),
    ):
        same(name, is_set_up(shown, start, plies), expected)
    same("another start", is_set_up(start, after_e4, 38), False)


TABLES = [looks, next_game, set_up]
