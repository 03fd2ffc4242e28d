"""Records that are wrong, and boards that go on without their game: somebody is told, and it stays until he has looked."""

import pathlib
import re
import sys
from typing import List, Tuple

from play_board import EMPTY, field
from played import words
from played.boards import Board
from played.recorder import Live
from played.stage import (
    a_board,
    begin_game,
    begun,
    bytes_of,
    go_on,
    movetext,
    rest,
    same,
    stop,
    until,
    until_dumped,
    until_game,
    until_line,
)

PERPETUAL = "k7/8/8/8/6q1/8/8/7K b - - 0 1"
QUEEN, KING, BLACK_KING, LOOK = 12, 5, 11, "LOOK at 1... Qe2"


def on_the_board(**pieces: int) -> List[int]:
    """These pieces and no others, by their squares."""
    codes = [EMPTY] * 64
    for square, code in pieces.items():
        codes[field(square)] = code
    return codes


def last_state(live: Live) -> str:
    """The last line that is no move: a move after which the board stands as before has no line of its own for that."""
    return [line for line in live.lines().splitlines() if not re.match(r"\S+  (correction )?\d+\.", line)][-1]


def seen(live: Live) -> None:
    """It is acknowledged, and gone from the last line, and from beside the game."""
    before = live.lines().count("acknowledged: LOOK ")
    live.type("ok")
    until(lambda: live.lines().count("acknowledged: LOOK ") > before, "an answer")
    until(lambda: "LOOK" not in last_state(live), "a last line without it")
    same(bytes_of(live.name + ".look"), b"")
    assert "acknowledged: LOOK " in bytes_of(live.name + ".log").decode()


def hidden_correction(folder: pathlib.Path) -> None:
    """Two plies of a perpetual check that no picture shows whole, and then a move that looks like another last one. It stays on
    the last line and in the log while the game goes on and agrees, and when it is started again, until it is acknowledged."""
    board = a_board(folder, on_the_board(a8=BLACK_KING, g4=QUEEN, h1=KING))
    live = Live(board.device, folder / "game", "--fen", PERPETUAL, typed=True)
    begun(live)
    board.play("g4f3")
    until_game(live.name, "1... Qf3+ *")
    for square, code in (("h1", EMPTY), ("f3", EMPTY), ("g1", KING), ("g4", QUEEN)):
        board.put(square, code)
        rest(0.3)
    for square, code in (("g1", EMPTY), ("h1", KING), ("g4", EMPTY), ("e2", QUEEN)):
        rest(0.3)
        board.put(square, code)
    until_line(live, f"{LOOK}: ")
    until_line(live, f"{LOOK}; agrees")
    board.play("h1g1")
    until_game(live.name, "1... Qe2 2. Kg1 *")
    until(lambda: last_state(live).endswith(f"{LOOK}; agrees"), "that it stays")
    assert f"{LOOK}: " in bytes_of(live.name + ".log").decode()
    assert LOOK[5:] in bytes_of(live.name + ".look").decode()
    same(stop(live), 0)
    assert f"game.pgn: {LOOK}" in live.lines(), live.lines()
    again = go_on(board, live, typed=True)
    until_line(again, f"{LOOK}; agrees")
    seen(again)
    board.play("a8a7")
    until_game(live.name, "1... Qe2 2. Kg1 Ka7 *")
    assert "LOOK" not in last_state(again), again.lines()
    same(stop(again), 0)
    once_more = go_on(board, live)
    until_line(once_more, words.AGREES)
    assert "LOOK" not in once_more.lines(), once_more.lines()
    same(stop(once_more), 0)


def late_correction(folder: pathlib.Path) -> None:
    """A move is corrected at once, and another one after more than ten seconds."""
    board = a_board(folder)
    live = Live(board.device, folder / "game", typed=True)
    begun(live)
    board.play("e2e3")
    rest(1)
    board.play("e3e4")
    until_game(live.name, "1. e4 *")
    board.play("e7e6")
    until_game(live.name, "1. e4 e6 *")
    assert "LOOK" not in live.lines(), live.lines()
    rest(10.5)
    board.play("e6e5")
    until_line(live, "LOOK at 1... e5; agrees")
    until_game(live.name, "1. e4 e5 *")
    seen(live)
    same(stop(live), 0)


def after_a_gap(folder: pathlib.Path) -> None:
    """The cable is out while a move is corrected; then while nothing happens; then nobody records while it is corrected."""
    board = a_board(folder)
    live = Live(board.device, folder / "game", typed=True)
    begun(live)
    for number, move in enumerate(("e2e4", "e7e5")):
        board.play(move)
        until_game(live.name, ("1. e4 *", "1. e4 e5 *")[number])
    board.pull()
    until_line(live, words.UNPLUGGED)
    board.play("e5e6")
    board.plug()
    until_line(live, "LOOK at 1... e6; agrees")
    seen(live)
    board.pull()
    until_line(live, words.UNPLUGGED, 2)
    board.plug()
    until(lambda: last_state(live).endswith(words.AGREES), "that it agrees again")
    until_dumped(board, live.name)
    same(stop(live), 0)
    assert "LOOK" not in last_state(live), live.lines()
    board.play("e6e5")
    again = go_on(board, live, typed=True)
    until_line(again, "LOOK at 1... e5; agrees")
    same(stop(again), 0)


# The program reports a line each 0.2 s, as one does that is held up.
REPORTS_LATE = """
import subprocess, sys, time
with subprocess.Popen(sys.argv[1:], stdout=subprocess.PIPE) as watch:
    for line in watch.stdout:
        time.sleep(0.1)
        sys.stdout.buffer.write(line)
        sys.stdout.buffer.flush()
"""
HELD_UP = """
import subprocess, sys
start = subprocess.Popen.__init__
def starts(self, words, *more, **named):
    late = [sys.executable, "-S", "-c", {script!r}] if "live" in words else []
    if late:
        named.pop("executable", None)
    start(self, [*late, *words], *more, **named)
subprocess.Popen.__init__ = starts
"""


def report_held_up(folder: pathlib.Path) -> None:
    """The program is held up, and reports later than the board shows. Pieces that pass by at once have stood nowhere: nobody is
    to look. Pieces of both sides that stand elsewhere for a while have moved."""
    (folder / "sitecustomize.py").write_text(HELD_UP.format(script=REPORTS_LATE))
    board, live = begin_game(folder, start=[sys.executable], environment={"PYTHONPATH": str(folder)})
    there_and_back = ("e5e7", "e4e2", "e2e4", "e7e5")
    board.play(*there_and_back)
    board.play("g1f3")
    until_line(live, "2. Nf3")
    assert "LOOK" not in live.lines(), live.lines()
    board.play("b8c6")
    until_line(live, "2... Nc6")

    def is_said() -> bool:
        for move in ("c6b8", "f3g1", "g1f3", "b8c6"):
            board.play(move)
            rest(0.3)
        return live.says("LOOK after 2... Nc6")

    until(is_said, "that somebody is to look")
    same(stop(live), 0)


def typed_moves_are_known(folder: pathlib.Path) -> None:
    """Two plies are hidden, and somebody types them: nobody is to look at what he has typed."""
    board = a_board(folder, on_the_board(a8=BLACK_KING, g4=QUEEN, h1=KING))
    live = Live(board.device, folder / "game", "--fen", PERPETUAL, typed=True)
    begun(live)
    board.play("g4f3")
    until_game(live.name, "1... Qf3+ *")
    for square, code in (("h1", EMPTY), ("f3", EMPTY), ("g1", KING), ("g4", QUEEN)):
        board.put(square, code)
        rest(0.3)
    live.type("Kg1 Qg4+")
    until_game(live.name, "1... Qf3+ 2. Kg1 Qg4+ *")
    rest(2)
    assert "LOOK" not in live.lines(), live.lines()
    live.type("ok")
    until_line(live, "there is no LOOK here")
    same(stop(live), 0)


# ---- A game that isn't followed ----


def hide_two(board: Board) -> None:
    """1... e5 and 2. Nf3, and no picture shows e5 whole."""
    board.lift("e7")
    board.lift("g1")
    board.put("e5", 7)
    board.put("f3", 3)


GOES_ON = ("b8c6 f1b5 a7a6 b5a4 g8f6 e1g1 f8e7 f1e1 b7b5 a4b3 d7d6 c2c3 e8g8 h2h3 c6a5 b3c2 c7c5 d2d4 d8c7 b1d2 a5c6 d4c5 d6c5"
           " d2f1 c8e6 f1e3 a8d8 d1e2 c5c4 e3f5").split()  # fmt: skip


OVERDUE = re.compile(r"WRONG since (1[5-9]|[2-9][0-9]) s")  # a game that hasn't agreed for so long


def hidden_plies(folder: pathlib.Path) -> None:
    """Two plies are hidden, and the game goes on at one to twelve seconds a ply: fifteen seconds later it is an alarm, by the
    recorder's own clock, which stays."""
    games: List[Tuple[Board, Live, float]] = []
    for pace in (1.0, 2.0, 4.0, 8.0, 12.0):
        place = folder / f"{pace:g}"
        place.mkdir()
        board = a_board(place)
        games.append((board, Live(board.device, place / "game"), pace))
    for board, live, _ in games:
        begun(live)
        board.play("e2e4")
        until_game(live.name, "1. e4 *")
    for board, _, _ in games:
        hide_two(board)
    played = [0] * len(games)
    for second in range(1, 31):
        rest(1)
        for number, (board, live, pace) in enumerate(games):
            if second >= (played[number] + 1) * pace:
                board.play(GOES_ON[played[number]])
                played[number] += 1
            if OVERDUE.search(live.lines()):
                assert words.WRONG in last_state(live), f"it doesn't stay at {pace:g} s a ply: {live.lines()}"
    for _, live, pace in games:
        until(lambda: OVERDUE.search(live.lines()), f"an alarm at {pace:g} s a ply")
        lasted = max(int(seconds) for seconds in OVERDUE.findall(live.lines()))
        print(f"   {pace:g} s a ply: {lasted} s", flush=True)
        assert words.WRONG in last_state(live), live.lines()
        same(movetext(live.name), "1. e4 *")
        same(stop(live), 0)


def start_never_shown(folder: pathlib.Path) -> None:
    """A recorder is started after four plies, and the game goes on; and another one where the pieces are set up."""
    late, set_up = folder / "late", folder / "set_up"
    for place in (late, set_up):
        place.mkdir()
    board = a_board(late)
    for move in ("e2e4", "e7e5", "g1f3", *GOES_ON[:1]):
        board.play(move)
    live = Live(board.device, late / "game")
    other = a_board(set_up, [EMPTY] * 64)
    patient = Live(other.device, set_up / "game")
    for one in (live, patient):
        begun(one, words.SETTING_UP)
    coming = other.homecoming()
    for second in range(20):
        rest(1)
        if second % 2:
            board.play(GOES_ON[1 + second // 2])
        for _ in range(2):
            next(coming, None)
    until_line(live, words.NO_START)
    for _ in coming:
        rest(0.05)
    begun(patient)
    assert words.NO_START not in patient.lines(), patient.lines()
    same(stop(live), 0)
    same(stop(patient), 0)


def clock_stands(folder: pathlib.Path) -> None:
    """The players stop the clock and try moves, the first at once: the last move before is named, also after a restart."""
    board = a_board(folder)
    live = Live(board.device, folder / "game", typed=True)
    begun(live)
    board.clock(600, 600, runs=True)
    for move, text in (("e2e4", "1. e4 {[%clk 0:10:00]} *"), ("e7e5", "1. e4 {[%clk 0:10:00]} 1... e5 {[%clk 0:10:00]} *")):
        board.play(move)
        until_game(live.name, text)
    board.clock(600, 590, runs=False)
    until_dumped(board, live.name)  # the time from which it has stood is known
    rest(3.5)
    assert "LOOK" not in live.lines(), live.lines()
    board.play("g1f3")
    until_line(live, "LOOK since 1... e5: a move was made while the clock was stopped")
    board.play("b8c6")
    until_line(live, "LOOK since 1... e5: 2 moves were made while the clock was stopped")
    seen(live)
    board.clock(600, 590, runs=True)
    board.play("f1b5")
    until_line(live, "3. Bb5")
    board.clock(600, 580, runs=False)
    board.play("a7a6")  # at once
    until_line(live, "3... a6")
    rest(3.5)
    board.play("b5a4")
    until_line(live, "LOOK since 3. Bb5: 2 moves were made while the clock was stopped")
    seen(live)
    same(stop(live), 0)
    again = go_on(board, live)
    begun(again)
    board.clock(600, 580, runs=False)
    rest(3.5)
    board.play("g8f6")
    until_line(again, "LOOK since 4. Ba4: a move was made while the clock was stopped")
    same(stop(again), 0)
