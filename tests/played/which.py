"""What a typed line is meant for: a game that is named at its end, and a result before the first move."""

import pathlib

from play_board import BLACK, KING
from played import words
from played.recorder import Live
from played.renamed import until_tags
from played.stage import a_board, begin_game, begun, bytes_of, movetext, same, stop, until, until_game, until_line


def named_in_a_series(folder: pathlib.Path) -> None:
    """In a series a name may be followed by that of its game, the first one too, or the one before. A name that ends so itself is
    put in quotes, or the game is named behind it. The name of an earlier game is no part of a name."""
    board = a_board(folder)
    name = str(folder / "blitz")
    live = Live(board.device, name, "--series", typed=True)
    begun(live)
    live.type(f"name White=Ben {name}-1")
    until_tags(f"{name}-1", 'White "Ben"')
    live.type(f'name Black="Ben {name}-1"')
    until_tags(f"{name}-1", 'White "Ben"', f'Black "Ben {name}-1"')
    live.type(f"name White=Ben {name}-1 {name}-1")
    until_tags(f"{name}-1", f'White "Ben {name}-1"')
    for number in (1, 2):
        board.play("e2e4")
        until_game(f"{name}-{number}", "1. e4 *")
        board.kings_in_centre("e4", "d5")
        until_line(live, f"{name}-{number + 1} {words.BEGINS}")
        board.set_up(last=(KING, BLACK + KING))
        until_line(live, f"in {name}-{number + 1}.dgt")
    live.type(f"name White=Cara {name}-2")
    until_tags(f"{name}-2", 'White "Cara"')
    live.type(f"name White=Dan {name}-1")
    until_line(live, f"{name}-1 is another game: put its names right by dgt_live --white Ben {name}-1")
    until_tags(f"{name}-3", f'White "Ben {name}-1"')
    same(stop(live), 0)


def result_before_a_move(folder: pathlib.Path) -> None:
    """A result is typed before the first move: it is asked about, and another one is asked about anew; the second time it counts. A player
    who hasn't come has words of his own, and so have typed moves: neither is asked about."""
    board = a_board(folder)
    live = Live(board.device, folder / "game", typed=True)
    begun(live)
    again = "all the same, type it again within a minute"
    live.type("1-0")
    until_line(live, f"no move was made yet. If Black has not come, type +-. For 1-0 {again}")
    live.type("0-1")
    until_line(live, f"no move was made yet. If White has not come, type -+. For 0-1 {again}")
    live.type("1/2-1/2")
    until_line(live, f"no move was made yet. For 1/2-1/2 {again}")
    same(movetext(live.name), "*")
    live.type("1/2-1/2")
    until(lambda: movetext(live.name) == "1/2-1/2", "the result that was typed twice")
    live.type("*")
    until(lambda: movetext(live.name) == "*", "that it is taken off")
    live.type("-+")
    until(lambda: movetext(live.name) == "0-1", "the forfeit")
    live.type("*")
    until(lambda: movetext(live.name) == "*", "that it is taken off")
    live.type("e4 e5")
    until(lambda: movetext(live.name) == "1. e4 e5 *", "the moves")
    live.type("1-0")
    until(lambda: movetext(live.name) == "1. e4 e5 1-0", "the result")
    same(stop(live), 0)


def said_once(folder: pathlib.Path) -> None:
    """Moves are made after a result: the second one is an alarm, and is said. The others are counted, and not said again."""
    board, live = begin_game(folder, typed=True)
    live.type("1-0")
    until_game(live.name, "1. e4 e5 1-0")
    board.play("g1f3")
    until_line(live, "over 1-0\n")
    for number, move in enumerate(("b8c6", "f1b5", "a7a6"), 2):
        board.play(move)
        until(lambda: b"%d moves" % number in bytes_of(f"{live.name}.look"), f"move {number} in the alarm that is kept")
    until(lambda: b"LOOK after 1... e5: 4 moves were made" in bytes_of(f"{live.name}.log"), "the fourth move in the log")
    same(live.lines().count("moves were made, and the game is over"), 1)
    same(stop(live), 0)


CASES = [named_in_a_series, result_before_a_move, said_once]
