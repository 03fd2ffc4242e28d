"""The computer sleeps, or the recorder is stopped: what was played meanwhile is in the game, or somebody must look. The case
controls the clock by which a recorder sees that."""

import pathlib
import signal
import sys
import time
from typing import List, Tuple

from played import TOP, words
from played.boards import Board
from played.recorder import Live
from played.stage import begin_game, rest, same, stop, until_dumped, until_game, until_line

# Starts the recorder with a clock that is ahead by as many seconds as a file says. Its turns are told apart by these alone: a slow machine
# is no time away.
CLOCK = """
import pathlib, runpy, sys, time
sys.dont_write_bytecode = True
file, sys.argv = pathlib.Path(sys.argv[1]), sys.argv[2:]
sys.path.insert(0, {top!r})
from live.run import loop
ahead, begins = lambda: float(file.read_text()), loop.Loop.__init__
def begin(self):
    self.counting = ahead
    begins(self)
loop.Loop.__init__, loop.Loop.counting = begin, staticmethod(lambda: time.monotonic() + ahead())
runpy.run_path(sys.argv[0], run_name="__main__")
"""
THERE_AND_BACK = ["g1f3", "g8f6", "f3g1", "f6g8"]  # four plies after which the pieces stand as before
MEANWHILE: Tuple[List[str], ...] = ([], THERE_AND_BACK)  # what is played while nobody hears it
SLEPT = "this computer slept, or the recorder was stopped, for"
NOTHING_HAPPENED, LOOK = "LOOK after 1... e5", "LOOK"


class Clock:
    """The clock by which a recorder sees that it was away: it counts on while the computer sleeps, and that of all timers doesn't.
    It is put forward."""

    def __init__(self, folder: pathlib.Path) -> None:
        self._file, script = folder / "clock", folder / "clock.py"
        script.write_text(CLOCK.format(top=str(TOP)))
        self.start: List[object] = [sys.executable, script, self._file]
        self._seconds = 1000.0
        self.go_on(0)

    def go_on(self, seconds: float) -> None:
        self._seconds += seconds
        new = self._file.with_suffix(".new")  # the recorder may be reading it
        new.write_text(str(self._seconds))
        new.replace(self._file)


def unheard(board: Board, moves: List[str]) -> None:
    """They are played while nobody takes what the board sends."""
    board.asked_for_updates = False
    board.play(*moves)
    board.asked_for_updates = True


def game_asleep(folder: pathlib.Path, moves: List[str]) -> Tuple[Board, Live]:
    """A game of two plies, and 35 s in which others are played while the computer sleeps."""
    folder.mkdir()
    clock = Clock(folder)
    board, live = begin_game(folder, typed=True, start=clock.start)
    until_dumped(board, live.name)
    unheard(board, moves)
    clock.go_on(35)
    return board, live


def asleep(folder: pathlib.Path) -> None:
    """The computer sleeps for 35 s. Four plies that lead back, and none at all, are something to look at; after two the board is
    wrong, and they are typed."""
    for moves in MEANWHILE:
        board, live = game_asleep(folder / str(len(moves)), moves)
        until_line(live, f"{SLEPT} 35 s")
        until_line(live, NOTHING_HAPPENED)
        same(stop(live), 0)
    board, live = game_asleep(folder / "2", ["g1f3", "b8c6"])
    until_line(live, words.WRONG)
    live.type("Nf3 Nc6")
    until_game(live.name, "1. e4 e5 2. Nf3 Nc6 *")
    same(stop(live), 0)


def short_pause(folder: pathlib.Path) -> None:
    """The recorder is held up for less than five seconds, again and again: nobody need look at anything, and the game goes on."""
    clock = Clock(folder)
    board, live = begin_game(folder, start=clock.start)
    for _ in range(4):
        clock.go_on(4.9)
        until_dumped(board, live.name)
        rest(1.5)  # the loop turns each second
    board.play("g1f3")
    until_game(live.name, "1. e4 e5 2. Nf3 *")
    until_dumped(board, live.name)
    rest(1.2)  # what a dump says is sure a second later
    same((stop(live), LOOK in live.lines(), SLEPT in live.lines()), (0, False, False))


def stopped(folder: pathlib.Path) -> None:
    """The recorder itself is stopped for 35 s. Four plies that the line has kept are in the game; four that lead back, and that
    nobody has heard, are something to look at."""
    boards = []
    for name in ("kept", "unheard"):
        (folder / name).mkdir()
        boards.append(begin_game(folder / name))
    for board, live in boards:
        until_dumped(board, live.name)
        live.send(signal.SIGSTOP)
    boards[0][0].play("g1f3", "b8c6", "f1b5", "a7a6")
    unheard(boards[1][0], THERE_AND_BACK)
    time.sleep(35)
    for _, live in boards:
        live.send(signal.SIGCONT)
    until_game(boards[0][1].name, "1. e4 e5 2. Nf3 Nc6 3. Bb5 a6 *")
    until_line(boards[1][1], NOTHING_HAPPENED)
    same([stop(live) for _, live in boards], [0, 0])


def while_unplugged(folder: pathlib.Path) -> None:
    """The computer sleeps while the cable is out, and the clock of all timers stands still: the time counts all the same."""
    clock = Clock(folder)
    board, live = begin_game(folder, start=clock.start)
    until_dumped(board, live.name)
    board.pull()
    until_line(live, words.UNPLUGGED)
    board.play(*THERE_AND_BACK)
    clock.go_on(35)
    rest(1.5)  # the loop turns each second
    board.plug()
    until_line(live, NOTHING_HAPPENED)
    same(stop(live), 0)
