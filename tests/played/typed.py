"""Typed lines beside everything else: what the board sends while one is answered, their order, and what was typed by mistake."""

import itertools
import os
import pathlib
import subprocess
import sys
from typing import Dict

from played import words
from played.back import answered, is_whole
from played.recorder import LIVE, Live
from played.stage import (
    RUY,
    RUY_TEXT,
    a_board,
    begin_game,
    begun,
    bytes_of,
    ended,
    go_on,
    kill,
    movetext,
    rest,
    same,
    stop,
    until,
    until_game,
    until_kept,
    until_line,
)

# A call of the program waits as long as a file is there: before it begins, or with each line that it writes.
BEGINS_LATE = "import os, sys, time\nwhile os.path.exists({stuck!r}): time.sleep(0.01)\nos.execv(sys.argv[1], sys.argv[1:])\n"
REPORTS_LATE = """
import os, subprocess, sys, time
with subprocess.Popen(sys.argv[1:], stdout=subprocess.PIPE) as watch:
    for line in watch.stdout:
        while os.path.exists({stuck!r}):
            time.sleep(0.01)
        sys.stdout.buffer.write(line)
        sys.stdout.buffer.flush()
"""
HELD_UP = """
import subprocess, sys
start = subprocess.Popen.__init__
def starts(self, words, *more, **named):
    late = [sys.executable, "-S", "-c", {script!r}] if any(word in words for word in {calls!r}) else []
    if late:
        named.pop("executable", None)
    start(self, [*late, *words], *more, **named)
subprocess.Popen.__init__ = starts
"""
ENDING = "the game is just being ended. Type it again"


def held_up(folder: pathlib.Path, script: str, *calls: str) -> Dict[str, str]:
    """The environment of a recorder whose calls wait as long as there is a file `stuck`."""
    (folder / "sitecustomize.py").write_text(HELD_UP.format(script=script.format(stuck=str(folder / "stuck")), calls=calls))
    return {"PYTHONPATH": str(folder)}


def kept_meanwhile(folder: pathlib.Path) -> None:
    """While a typed line is answered, the board plays on: that is recorded and told, and the answer is right for it. The lines
    are answered in their order."""
    environment, stuck = held_up(folder, BEGINS_LATE, "add", "positions"), folder / "stuck"
    board, live = begin_game(folder, typed=True, start=[sys.executable], environment=environment)
    stuck.touch()
    live.type("Nf3")
    live.type("help")
    live.type("Nc6")
    rest(0.3)
    board.play("g1f3")
    until_line(live, "2. Nf3")
    same(("refused" in live.lines(), "Type 1-0" in live.lines()), (False, False))
    stuck.unlink()
    until_line(live, "refused: Nf3 is no legal move: Black is to move, after 2. Nf3. Nothing was added")
    until_line(live, "added by hand: Nc6")
    said = live.lines()
    same(said.index("refused: Nf3 is") < said.index("Type 1-0") < said.index("added by hand: Nc6"), True)
    until_game(live.name, "1. e4 e5 2. Nf3 Nc6 *")
    stuck.touch()
    live.type("Bb5 a6")
    for seconds in range(5):
        board.clock(600 - seconds, 600)
        rest(0.1)
    stuck.unlink()
    until_game(live.name, "1. e4 e5 2. Nf3 Nc6 3. Bb5 a6 *")
    same(stop(live), 0)
    is_whole(live)


def held_at_last(folder: pathlib.Path) -> None:
    """The board sends something during each call: after a few it is heard only when the line is answered, and nothing is lost."""
    environment = held_up(folder, "import os, sys, time\ntime.sleep(0.5)\nos.execv(sys.argv[1], sys.argv[1:])\n", "add", "positions")
    board, live = begin_game(folder, typed=True, start=[sys.executable], environment=environment)
    live.type("Nf3 Nc6")
    for seconds in itertools.cycle(range(60)):
        if live.says("added by hand: Nf3 Nc6"):
            break
        board.clock(600 - seconds, 600)
        rest(0.05)
    for move in ("g1f3", "b8c6", "f1b5"):
        board.play(move)
    until(lambda: "3. Bb5" in movetext(live.name), "the move after")
    same(stop(live), 0)
    is_whole(live)


def as_the_start_is_shown(folder: pathlib.Path) -> None:
    """The pieces have been set up, which ends the game, and moves are typed before the program has reported that: they are refused,
    and don't vanish."""
    environment, stuck = held_up(folder, REPORTS_LATE, "live"), folder / "stuck"
    board = a_board(folder)
    live = Live(board.device, folder / "game", typed=True, start=[sys.executable], environment=environment)
    begun(live)
    for move in RUY:
        board.play(move)
    until_game(live.name, RUY_TEXT)
    rest(1.5)
    stuck.touch()
    board.set_up([])
    until_kept(live.name, board.dump())
    live.type("a6 Ba4")
    rest(0.5)
    stuck.unlink()
    until_line(live, f"refused: a6 Ba4: {ENDING}")
    same(ended(live), 0)
    same((movetext(live.name), "added by hand" in live.lines()), (RUY_TEXT, False))


def result_by_mistake(folder: pathlib.Path) -> None:
    """A result was typed by accident: for ten seconds it can be taken off, or be replaced; then the recording ends, and a restart finds the
    game over. If a move is made meanwhile the game is over, and its board is watched: more moves are an alarm, and the game goes on with
    all of them once the result is taken off."""
    board, live = begin_game(folder, typed=True)
    live.type("1-0")
    until_line(live, "ends in 10 seconds; if the result was typed by mistake, type *")
    until_game(live.name, "1. e4 e5 1-0")
    answered(live, "*", "the result 1-0 is gone")
    until_game(live.name, "1. e4 e5 *")
    live.type("1-0")
    until_game(live.name, "1. e4 e5 1-0")
    board.play("g1f3")
    until_line(live, f"{live.name} is over: another move was made after its result. If it goes on, type *; else q ends the recording. "
               "Was it the last move? Type *, then the result\n")
    board.play("b8c6")
    until_line(live, "LOOK after 1... e5: 2 moves were made, and the game is over: 1-0. Look at it, and type ok")
    same(movetext(live.name), "1. e4 e5 1-0")
    answered(live, "*", f"{live.name} goes on, without the result")
    until_game(live.name, "1. e4 e5 2. Nf3 Nc6 *")
    rest(10.5)
    same(live.runs, True)
    board.play("f1b5")
    until_game(live.name, RUY_TEXT)
    live.type("1-0")
    until_game(live.name, RUY_TEXT.replace("*", "1-0"))
    answered(live, "0-1", "the result 0-1")
    until_game(live.name, RUY_TEXT.replace("*", "0-1"))
    same(ended(live), 0)
    same(movetext(live.name), RUY_TEXT.replace("*", "0-1"))
    again = Live(board.device, live.name)
    until(lambda: not again.runs, "its end")
    assert "is over: choose another name" in again.complaint(), again.complaint()


def result_given_again(folder: pathlib.Path) -> None:
    """A game that was played on after its result goes on, and gets another one later: the moves before that are no alarm any more."""
    board, live = begin_game(folder, typed=True)
    live.type("1-0")
    until_game(live.name, "1. e4 e5 1-0")
    board.play("g1f3")
    until_line(live, f"{live.name} is over: another move was made after its result")
    board.play("b8c6")
    until_line(live, "LOOK after 1... e5: 2 moves were made")
    answered(live, "*", f"{live.name} goes on, without the result")
    answered(live, "ok", "acknowledged: LOOK after 1... e5")
    board.play("f1b5")
    until_game(live.name, RUY_TEXT)
    live.type("0-1")
    until_game(live.name, RUY_TEXT.replace("*", "0-1"))
    board.play("a7a6")
    until_line(live, f"{live.name} is over: another move was made after its result", 2)
    rest(0.5)
    same(live.says("LOOK after 3. Bb5"), False)
    board.play("b5a4")
    until_line(live, "LOOK after 3. Bb5: 2 moves were made")
    same(movetext(live.name), RUY_TEXT.replace("*", "0-1"))
    until_line(live, "LOOK after 3. Bb5; over 0-1\n")
    live.type("q")
    same(ended(live), 0)
    same(live.says(f"in {live.name}.pgn: LOOK after 3. Bb5: 2 moves were made, and the game is over: 0-1\n"), True)


def look_named_at_the_set_up(folder: pathlib.Path) -> None:
    """The same game is looked at, and has another alarm when its pieces are set up: that ends the recording, which names it."""
    board, live = begin_game(folder, typed=True)
    live.type("1-0")
    until_game(live.name, "1. e4 e5 1-0")
    board.play("g1f3")
    until_line(live, "over 1-0\n")
    board.play("b8c6")
    until_line(live, "LOOK after 1... e5; over 1-0\n")
    answered(live, "ok", "acknowledged: LOOK after 1... e5")
    until_line(live, "over 1-0\n", 3)
    board.play("f1b5")
    until_line(live, "LOOK after 1... e5; over 1-0\n", 2)
    board.set_up([])
    same(ended(live), 0)
    same(live.says(f"in {live.name}.pgn: LOOK after 1... e5: 3 moves were made, and the game is over: 1-0\n"), True)


def typed_before_a_restart(folder: pathlib.Path) -> None:
    """The recorder is killed within the ten seconds of a typed result: the one that begins again knows that it was typed. That of mate it
    isn't, though the moves were."""
    board, live = begin_game(folder, typed=True)
    live.type("1-0")
    until_game(live.name, "1. e4 e5 1-0")
    until(lambda: b" added " in bytes_of(f"{live.name}.times"), "the line of what was typed")
    kill(live)
    again = go_on(board, live)
    until_line(again, "ends in 10 seconds; if the result was typed by mistake, type *")
    until_line(again, f"{live.name} is over: its result was given")
    same(ended(again), 0)
    same(movetext(live.name), "1. e4 e5 1-0")
    (folder / "mate").mkdir()
    board, live = begin_game(folder / "mate", typed=True)
    live.type("Qh5 Nc6 Bc4 Nf6 Qxf7#")
    until_game(live.name, "1. e4 e5 2. Qh5 Nc6 3. Bc4 Nf6 4. Qxf7# 1-0")
    until(lambda: b" added " in bytes_of(f"{live.name}.times"), "the line of what was typed")
    kill(live)
    again = go_on(board, live)
    until_line(again, "ends in 10 seconds, unless the last move is corrected")
    until_line(again, f"{live.name} is over: it has a result")
    same(ended(again), 0)


def corrected_after_it(folder: pathlib.Path) -> None:
    """The last move is corrected on the board after its result was typed: the game is over as it was, and somebody must look. Once the
    result is taken off, the game has the other move."""
    board, live = begin_game(folder, typed=True)
    live.type("1-0")
    until_line(live, "ends in 10 seconds")
    board.play("e5e6")
    until_line(live, "LOOK at 1... e6: it corrects the last move after its result: compare with the score sheets. Look at it, and type ok")
    until_line(live, f"{live.name} is over: its last move was corrected after its result. If it goes on, type *; else q ends the recording\n")
    same((movetext(live.name), live.says("it corrects the last move", 2)), ("1. e4 e5 1-0", False))
    answered(live, "ok", "acknowledged: LOOK at 1... e6")
    until_line(live, "  over 1-0\n")
    answered(live, "*", f"{live.name} goes on, without the result; 1... e5 was corrected to 1... e6")
    until_game(live.name, "1. e4 e6 *")
    same(stop(live), 0)
    is_whole(live)


def unplugged_after_it(folder: pathlib.Path) -> None:
    """With --once the board is unplugged as soon as the result was typed: the call ends well."""
    board, live = begin_game(folder, "--once", typed=True)
    live.type("1/2-1/2")
    until_line(live, "ends in 10 seconds")
    board.pull()
    same(ended(live), 0)
    same(movetext(live.name), "1. e4 e5 1/2-1/2")


def no_text(folder: pathlib.Path) -> None:
    """A line that is no UTF-8 does nothing, in the terminal and as a command, and the answer says so."""
    board, live = begin_game(folder, typed=True)
    for line in (b"Nf3 \xc3\n", b"\xe4\n", b"1-0\xff\n"):
        said = len(live.lines())
        os.write(live.typing, line)
        until(lambda: "it is no text in UTF-8" in live.lines()[said:], "that it is no text")
    answer = subprocess.run([LIVE, "--add", b"1-0\xff", live.name], stdout=subprocess.PIPE, stderr=subprocess.PIPE)
    same((answer.returncode, b"it is no text in UTF-8" in answer.stderr), (1, True))
    board.play("g1f3")
    until_game(live.name, "1. e4 e5 2. Nf3 *")
    same(stop(live), 0)
    answer = subprocess.run([LIVE, "--add", b"1-0\xff", live.name], stdout=subprocess.PIPE, stderr=subprocess.PIPE)
    same((answer.returncode, b"it is no text in UTF-8" in answer.stderr), (1, True))
    same(movetext(live.name), "1. e4 e5 2. Nf3 *")


def without_moves(folder: pathlib.Path) -> None:
    """A game without a move: there is nothing to take off."""
    board = a_board(folder)
    live = Live(board.device, folder / "game", typed=True)
    begun(live)
    answered(live, "back 0", "refused: back 0: the game has no move")
    answered(live, "back", "refused: back: the game has no")
    answered(live, "*", "refused: *: the game has no result")
    answered(live, "back 14", "refused: which ply? Type it as the screen printed it")
    board.play("e2e4")
    until_game(live.name, "1. e4 *")
    same(stop(live), 0)


def result_of_the_game_before(folder: pathlib.Path) -> None:
    """A result is typed when the next game of a series has just begun, and once more after its first move: it is asked which game is
    meant, and none ends, as long as the game before has no result; also when the recorder was started again meanwhile."""
    board = a_board(folder)
    live = Live(board.device, folder / "round", "--series", typed=True)
    begun(live)
    for move in RUY:
        board.play(move)
    until_game(folder / "round-1", RUY_TEXT)
    rest(1.5)
    board.set_up([])
    until(lambda: len(bytes_of(folder / "round-2.dgt")) >= 67, "the second game")
    until_game(folder / "round-2", "*")
    one, two = f"{folder}/round-1", f"{folder}/round-2"
    answered(live, "0-1", f"refused: {two} has no move yet. Type 0-1 {one}, or 0-1 {two}")
    same((movetext(one), movetext(two)), (RUY_TEXT, "*"))
    board.play("d2d4")
    until_game(two, "1. d4 *")
    answered(live, "0-1", f"refused: {one} has no result yet. Type 0-1 {one}, or 0-1 {two}")
    same((movetext(one), movetext(two)), (RUY_TEXT, "1. d4 *"))
    same(stop(live), 0)
    live = Live(board.device, folder / "round", "--series", typed=True)
    until_line(live, words.AGREES)
    answered(live, "0-1", f"refused: {one} has no result yet. Type 0-1 {one}, or 0-1 {two}")
    same((movetext(one), movetext(two)), (RUY_TEXT, "1. d4 *"))
    answered(live, f"0-1 {one}", "added by hand to")
    until_game(one, RUY_TEXT.replace("*", "0-1"))
    board.play("d7d5")
    until_game(two, "1. d4 d5 *")
    assert words.SETTING_UP not in live.lines().rpartition("1. d4")[2], live.lines()
    answered(live, "1-0", "added by hand: the result 1-0 after 1... d5, 2 plies")
    until_game(two, "1. d4 d5 1-0")
    same(stop(live), 0)


def full_with_pairs(folder: pathlib.Path) -> None:
    """With --recover a capture may have 63 MiB, and each message says so."""
    most = 63 * 1024 * 1024
    board, live = begin_game(folder, "--recover")
    same(stop(live), 0)
    capture = pathlib.Path(f"{live.name}.dgt")
    message = bytes([0x8D, 0, 10, 0, 0x10, 0, 0, 0x10, 0, 0])
    sent = capture.read_bytes()
    capture.write_bytes(sent + message * ((most - len(sent) - 400) // len(message)))
    again = go_on(board, live)

    def has_ended() -> bool:
        board.clock(600, 600)
        return not again.runs

    until(has_ended, "its end")
    told = again.lines() + again.complaint()
    assert f"{capture} has 63 MiB, and none may have more" in told and "64" not in told.replace(str(folder), ""), told
    once_more = Live(board.device, live.name)
    until(lambda: not once_more.runs, "its end")
    assert f"{capture} has 63 MiB, and none may have more: choose another name" in once_more.complaint(), once_more.complaint()
    same(movetext(live.name), "1. e4 e5 *")


CASES = [
    kept_meanwhile,
    held_at_last,
    as_the_start_is_shown,
    result_by_mistake,
    corrected_after_it,
    result_given_again,
    look_named_at_the_set_up,
    typed_before_a_restart,
    unplugged_after_it,
    no_text,
    without_moves,
    result_of_the_game_before,
    full_with_pairs,
]
