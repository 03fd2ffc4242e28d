"""What is typed on a terminal, key by key."""

import os
import pathlib
import signal
import subprocess
import sys
import termios
from typing import List

from played import TOP
from played.recorder import Live
from played.stage import a_board, begun, bytes_of, ended, movetext, same, until, until_game, until_line

UP, LEFT = "\x1b[A", "\x1b[D"


def mode_of(live: Live) -> List[object]:
    """How its terminal is set."""
    found: List[object] = termios.tcgetattr(live.told.end)
    return found


def edited(folder: pathlib.Path) -> None:
    """A line is put right by the arrow keys, cut within a key; an earlier one comes back; Ctrl-C clears a half-typed line and, on an empty
    one, ends the recording. What is typed stays while the state is drawn anew. Then the terminal is as it was."""
    board = a_board(folder)
    live = Live(board.device, folder / "game", terminal=True)
    before = mode_of(live)
    begun(live)
    live.told.type("e5" + LEFT * 2 + "e4 \x1b")  # type: ignore[attr-defined]  # it is a terminal
    until(lambda: live.says("e4 e5"), "what is typed")
    live.told.type("[D\x1b[F\r")  # type: ignore[attr-defined]
    until_game(live.name, "1. e4 e5 *")
    live.told.type(f"back\r{UP}{UP}\r")  # type: ignore[attr-defined]
    until(lambda: bytes_of(f"{live.name}.log").count(b"added by hand: e4 e5") == 1, "the first answer")
    until_line(live, "refused: ")
    live.told.type("moves\r")  # type: ignore[attr-defined]
    until_line(live, "1. e4 *")
    live.told.type("1-0\x03")  # type: ignore[attr-defined]
    live.told.type("messages\r")  # type: ignore[attr-defined]
    until_line(live, "1. e4 *", 2)
    same((live.runs, movetext(live.name)), (True, "1. e4 *"))
    live.told.type("\x03")  # type: ignore[attr-defined]
    same(ended(live), 0)
    same(mode_of(live), before)


def no_more_keys(folder: pathlib.Path) -> None:
    """Ctrl-D on an empty line ends the input: the terminal is as it was, so that Ctrl-C is a signal again. The recording goes on."""
    board = a_board(folder)
    live = Live(board.device, folder / "game", terminal=True)
    before = mode_of(live)
    begun(live)
    live.told.type("e4\r\x04")  # type: ignore[attr-defined]  # it is a terminal
    until_game(live.name, "1. e4 *")
    until(lambda: mode_of(live) == before, "the terminal as it was")
    same(live.runs, True)
    live.send(signal.SIGINT)
    same(ended(live), 0)


BROKEN = """
from live.doors.options import through
from live.show.terminal import edits

def breaks(signals):
    print(edits(0))
    raise ValueError("nobody expects this")

through("dgt_live", breaks)
"""


def unexpected_error(folder: pathlib.Path) -> None:
    """An error that nobody expects ends a call: the terminal is as it was."""
    own, end = os.openpty()
    before = termios.tcgetattr(end)
    done = subprocess.run([sys.executable, "-c", BROKEN], cwd=TOP, stdin=end, capture_output=True, text=True)
    same((done.stdout, "nobody expects this" in done.stderr, termios.tcgetattr(end) == before), ("True\n", True, True))
    os.close(own)
    os.close(end)


CASES = [edited, no_more_keys, unexpected_error]
