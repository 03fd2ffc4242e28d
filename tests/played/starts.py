"""How often the program is started for a game."""

import pathlib

from play_board import BLACK, EMPTY, KING, PAWN
from played import words
from played.failing import counted
from played.recorder import Live
from played.stage import RUY, a_board, begun, bytes_of, go_on, kill, rest, same, stop, until_game, until_line

OPENED = ["--help", "live"]  # whether it runs; and what reads the game, gives its text, and attends the board
BACK = "back to 2... Nc6; taken off: 3. Bb5"


def opened_once(folder: pathlib.Path) -> None:
    """A game is begun, stopped and killed, and begun again: each time one child reads it, gives its text and attends its board. A name
    begins another one, since the text needs it, and what is published alone begins none."""
    door, started = counted(folder)
    board = a_board(folder)
    live = Live(board.device, folder / "game", "--white", "Anne", "--tag", "WhiteElo=2050", program=door, typed=True)
    begun(live)
    same(started(), OPENED)
    for number, move in enumerate(RUY[:3]):
        board.play(move)
        until_game(live.name, ("1. e4 *", "1. e4 e5 *", "1. e4 e5 2. Nf3 *")[number])
        if number == 0:
            same((stop(live), started()), (0, ["record"]))
        elif number == 1:
            kill(live)
        if number < 2:
            live = go_on(board, live, program=door, typed=True)
            begun(live)
            same(started(), OPENED)
    live.type("name White=Anna")
    until_line(live, "White is now Anna, and was Anne")
    board.play("b8c6")
    until_game(live.name, "1. e4 e5 2. Nf3 Nc6 *")
    assert b'[White "Anna"]' in bytes_of(f"{live.name}.pgn")
    same(started(), ["live"])
    live.type("name WhiteElo=2060")
    until_line(live, "WhiteElo is now 2060")
    rest(1)
    same(started(), [])
    same(stop(live), 0)
    assert b'[WhiteElo "2060"]' in bytes_of(f"{live.name}.broadcast.pgn")


def never_waited_for(folder: pathlib.Path) -> None:
    """A ply is taken off, and a result: the board was there all the time, and isn't said to be waited for."""
    board = a_board(folder)
    live = Live(board.device, folder / "game", typed=True)
    begun(live)
    for number, move in enumerate(RUY):
        board.play(move)
        until_line(live, f"{number // 2 + 1}.{'' if number % 2 == 0 else '..'} ")
    until_game(live.name, "1. e4 e5 2. Nf3 Nc6 3. Bb5 *")
    waited = live.lines().count(words.WAITS)
    board.play("b5f1")
    live.type("back")
    until_line(live, BACK)
    until_line(live, words.AGREES, 2)
    board.play("f1c4")
    until_game(live.name, "1. e4 e5 2. Nf3 Nc6 3. Bc4 *")
    for typed, text in (("1-0", "1-0"), ("*", "*")):
        live.type(typed)
        until_game(live.name, f"1. e4 e5 2. Nf3 Nc6 3. Bc4 {text}")
    same((stop(live), live.lines().count(words.WAITS)), (0, waited))


def position_known(folder: pathlib.Path) -> None:
    """A game from a position is begun, and again with the same one: the program is asked about it once."""
    door, started = counted(folder)
    board = a_board(folder, [{4: BLACK + KING, 52: PAWN, 60: KING}.get(number, EMPTY) for number in range(64)])
    for wanted in (["record", *OPENED], OPENED):
        live = Live(board.device, folder / "game", "--fen", "4k3/8/8/8/8/8/4P3/4K3 w - - 0 1", program=door)
        begun(live)
        same(sorted(started()), sorted(wanted))
        same(stop(live), 0)
        same(started(), ["record"])


CASES = [position_known, opened_once, never_waited_for]
