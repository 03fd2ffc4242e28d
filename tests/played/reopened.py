"""Games that are over go on: plies, or nothing, are taken off, while they are recorded and by a command."""

import pathlib
import re

from played import words
from played.back import answered, call, is_whole, ruy, sans
from played.recorder import Live
from played.stage import (
    RUY,
    RUY_TEXT,
    a_board,
    begin_game,
    begun,
    bytes_of,
    ended,
    go_on,
    movetext,
    rest,
    same,
    stop,
    until,
    until_game,
    until_line,
)

SET_UP = "game is over: the pieces are at the start again"


def set_up_and_back(folder: pathlib.Path) -> None:
    """The pieces were tried before the game, and set up: that has ended it. All plies are taken off, and the game begins with
    the pieces at the start, as if it were the first. It is ended so again: without a ply taken off it goes on all the same, as
    soon as the board stands as it does."""
    board = a_board(folder)
    live = Live(board.device, folder / "game")
    begun(live)
    for number, move in enumerate(RUY[:3]):
        board.play(move)
        until(lambda: len(sans(live)) == number + 1, move)
    rest(1.5)
    board.set_up([])
    until_line(live, f"{SET_UP}. Type its result, as dgt_live --add 1-0 {live.name}; if the game goes on, dgt_live --add \"*\" {live.name}\n")
    same(ended(live), 0)
    until_game(live.name, "1. e4 e5 2. Nf3 *")
    same(call("--back", "0", live.name).stderr, "dgt_live: takes off 3 plies, from 1. e4: type it again\n")
    answer = call("--back", "0", live.name)
    same((answer.returncode, answer.stderr, movetext(live.name)), (0, "", "*"))
    again = go_on(board, live)
    begun(again)
    for number, move in enumerate(("d2d4", "d7d5", "c2c4")):
        board.play(move)
        until(lambda: len(sans(again)) == number + 1, move)
    until_game(live.name, "1. d4 d5 2. c4 *")
    rest(1.5)
    board.set_up([])
    until_line(again, SET_UP)
    same(ended(again), 0)
    answer = call("--add", "*", live.name)
    same((answer.returncode, answer.stderr, movetext(live.name)), (0, "", "1. d4 d5 2. c4 *"))
    once_more = go_on(board, live, typed=True)
    until_line(once_more, words.IN_HAND)
    rest(1.5)
    assert SET_UP not in once_more.lines(), once_more.lines()
    for move in ("d2d4", "d7d5"):
        board.play(move)
    rest(1.5)
    answered(once_more, "back", "back to 1... d5; taken off: 2. c4")
    until(lambda: once_more.lines().endswith(words.AGREES + "\n"), "that it agrees")
    board.play("g1f3")
    until_game(live.name, "1. d4 d5 2. Nf3 *")
    same(stop(once_more), 0)
    is_whole(live)


def reopened_without_times(folder: pathlib.Path) -> None:
    """A game whose pieces were set up is reopened, and goes on; then its times are lost. It goes on when it is recorded again."""
    board, live = ruy(folder)
    board.set_up([])
    until_line(live, SET_UP)
    same(ended(live), 0)
    same(call("--add", "*", live.name).returncode, 0)
    again = go_on(board, live)
    until_line(again, words.SETTING_UP)
    for move in RUY:
        board.play(move)
    until(lambda: again.lines().endswith(words.AGREES + "\n"), "that it agrees")
    same(stop(again), 0)
    pathlib.Path(f"{live.name}.times").unlink()
    once_more = go_on(board, live)
    begun(once_more)
    board.play("a7a6")
    until(lambda: sans(live)[-1:] == ["a6"], "the ply after")
    same(stop(once_more), 0)
    is_whole(live)


def set_up_after_it(folder: pathlib.Path) -> None:
    """A ply too many is taken off a game that is over, by a command; then the pieces are set up, and it is recorded again: the start
    ends it with each ply that was to stay, though all have one time."""
    board, live = ruy(folder)
    board.play("a7a6")
    until(lambda: len(sans(live)) == 6, "the last ply")
    front = movetext(live.name).partition(" 3... a6")[0]
    same(stop(live), 0)
    same(call("--add", "1-0", live.name).returncode, 0)
    answer = call("--back", "3. Bb5", live.name)
    same((answer.returncode, answer.stderr, movetext(live.name)), (0, "", f"{front} *"))
    board.set_up([])
    again = go_on(board, live)
    until_line(again, SET_UP)
    same(ended(again), 0)
    same(movetext(live.name), f"{front} *")
    is_whole(live)


def carried_home(folder: pathlib.Path) -> None:
    """All plies are taken off while the pieces stand where they were tried; they are carried home one by one, the first pawn
    last, which looks like a move: the game begins with the start all the same."""
    board, live = ruy(folder)
    answered(live, "back 0", "takes off 5 plies, from 1. e4: type it again")
    answered(live, "back 0", "back to the start; taken off: 1. e4 e5 2. Nf3 Nc6 3. Bb5")
    until_game(live.name, "*")
    for move in ("b5f1", "c6b8", "f3g1", "e5e7"):
        board.play(move)
        rest(0.3)
    until(lambda: sans(live) == ["e4"], "a move that isn't one")
    board.play("e4e2")
    until_line(live, "the pieces have been set up: ")
    until_game(live.name, "*")
    board.play("d2d4")
    until(lambda: sans(live) == ["d4"], "1. d4")
    same(stop(live), 0)
    is_whole(live)


def withdrawn_at_once(folder: pathlib.Path) -> None:
    """A result is typed, and goes a second later, before it ends the game: the recorder looks at what waits in between and afterwards, and
    the board is heard all the time."""
    board, live = begin_game(folder, typed=True)
    for result, ply, text in (("1-0", "1... e5", "1. e4 e5"), ("0-1", "2. Nf3", "1. e4 e5 2. Nf3")):
        answered(live, result, f"added by hand: the result {result}")
        until_game(live.name, f"{text} {result}")
        rest(1.5)
        answered(live, "*", f"back to {ply}; no ply is taken off; the result {result} is gone")
        until_game(live.name, f"{text} *")
        rest(2.5)
        board.play("g1f3" if result == "1-0" else "b8c6")
    until_game(live.name, "1. e4 e5 2. Nf3 Nc6 *")
    same(stop(live), 0)
    is_whole(live)


def series_goes_on(folder: pathlib.Path) -> None:
    """Between two games of a series the one that is over goes on: where the players have gone back by a ply; and, once it was put
    right while the board showed what was taken off, with `*`. It is ended by setting up, and the next one begins."""
    board = a_board(folder)
    live = Live(board.device, folder / "round", "--series", typed=True)
    begun(live)
    for number, move in enumerate(RUY):
        board.play(move)
        until(lambda: len(re.findall(r"[a-h][1-8]", movetext(folder / "round-1"))) == number + 1, move)
    until_game(folder / "round-1", RUY_TEXT)
    live.type("1-0")
    until_line(live, f"round-2 {words.BEGINS}")
    rest(1.5)
    board.play("b5f1")
    rest(1.5)
    answered(live, "back", "back to 2... Nc6; taken off: 3. Bb5; the result 1-0 is gone. What the board had sent is kept in")
    until(lambda: live.lines().endswith(words.AGREES + "\n"), "that it agrees")
    board.play("f1c4")
    until_game(folder / "round-1", "1. e4 e5 2. Nf3 Nc6 3. Bc4 *")
    live.type("0-1")
    until_line(live, f"round-2 {words.BEGINS}", 2)
    rest(1.5)
    answered(live, "back", "back to 2... Nc6; taken off: 3. Bc4; the result 0-1 is gone. What the board had sent is kept in")
    until_line(live, "round-1.before-2.dgt. The game stays over")
    rest(2.5)  # until the next dump
    answered(live, "*", "the board still shows 3. Bc4: it would come back at once. ")
    board.play("c4f1")
    rest(1.5)
    answered(live, "*", "goes on: back to 2... Nc6; no ply is taken off")
    board.play("d2d4")
    until_game(folder / "round-1", "1. e4 e5 2. Nf3 Nc6 3. d4 *")
    rest(1.5)
    board.set_up([])
    until_line(live, f"round-1 is over: the pieces are at the start again. Type its result, as 1-0 {folder}/round-1")
    until_game(folder / "round-1", "1. e4 e5 2. Nf3 Nc6 3. d4 *")
    until(lambda: len(bytes_of(folder / "round-2.dgt")) >= 67, "the second game")
    board.play("c2c4")
    until_game(folder / "round-2", "1. c4 *")
    same(stop(live), 0)
