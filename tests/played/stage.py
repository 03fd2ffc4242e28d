"""A stage for played boards: what a case waits for, and what the files of a game are to hold.

Waits for what is to come, up to the end of the case's time, so that no case fails because the machine is slow.
"""

import functools
import os
import pathlib
import select
import signal
import subprocess
import time
from typing import Callable, List, Optional, Sequence, Tuple

from played import TOP, words
from played.boards import Board
from played.recorder import Live, processes

PROGRAM = TOP / "bin" / "dgt_replay"
LIMIT = int(os.environ.get("CASE_SECONDS", "900"))  # that a case may take
IN_VAIN = 120  # seconds that a wait lasts when no recorder runs
RUY = ["e2e4", "e7e5", "g1f3", "b8c6", "f1b5"]
RUY_TEXT = "1. e4 e5 2. Nf3 Nc6 3. Bb5 *"
SAMPLE_TEXT = (
    "1. e4 {[%clk 1:29:55]} 1... e5 {[%clk 1:29:48]} 2. Nf3 {[%clk 1:29:41]} 2... Nc6 {[%clk 1:29:30]} "
    "3. Bb5 {[%clk 1:29:20]} *"
)


class Skipped(Exception):
    """A case that can't be played here, and why."""


class Patience:
    """How long a wait has lasted. A machine that was stopped for a while has taken nothing of it."""

    def __init__(self, limit: float) -> None:
        self.limit, self.seconds, self._at = limit, 0.0, time.monotonic()

    def is_over(self) -> bool:
        now = time.monotonic()
        self.seconds += min(now - self._at, 1.0)
        self._at = now
        return self.seconds > self.limit


class Stage:
    """What is on it in the case that is being played."""

    boards: List[Board] = []
    ends = float("inf")


def a_board(
    folder: pathlib.Path,
    codes: Optional[Sequence[int]] = None,
    rotated: bool = False,
    device: Optional[pathlib.Path] = None,
    seed: int = 1,
) -> Board:
    """A board on the stage."""
    board = Board(folder, codes, rotated, device, seed)
    Stage.boards.append(board)
    return board


def turn(pause: float = 0.005) -> None:
    """The boards answer and send, and wait so long for a request."""
    for board in Stage.boards:
        board.turn()
    select.select([board.line for board in Stage.boards if board.plugged], [], [], pause)


def until(holds: Callable[[], object], what: str, pause: float = 0.005) -> None:
    """Lets the boards answer until it holds. If all recorders have ended, that isn't waited for until the case's time is over."""
    patience = Patience(IN_VAIN)
    while not holds():
        if time.monotonic() > Stage.ends:
            raise AssertionError(f"{LIMIT} s are over, still to come: {what}")
        if not Live.all or any(live.runs for live in Live.all):
            patience = Patience(IN_VAIN)
        assert not patience.is_over(), f"no recorder has run for {IN_VAIN} s, still to come: {what}"
        turn(pause)
    for board in Stage.boards:
        board.turn()


def holds_within(holds: Callable[[], object], seconds: float) -> bool:
    """Whether it comes to hold so soon."""
    over = time.monotonic() + seconds
    until(lambda: holds() or time.monotonic() > over, "the end of a wait")
    return bool(holds())


def rest(seconds: float) -> None:
    """So long nothing happens on the boards but that they answer."""
    over = time.monotonic() + seconds
    until(lambda: time.monotonic() > over, "the end of a rest")


# ---- What the recorder says, and its end ----


def until_line(live: Live, part: str, times: int = 1) -> None:
    ran = True

    def said() -> bool:
        """Or it won't be: it has ended, and what it said before that was read after."""
        nonlocal ran
        if live.says(part, times):
            return True
        assert ran, f"'{part}' never comes: the recorder of {live.name} has ended, and said\n{live.lines()}{live.complaint()}"
        ran = live.runs
        return False

    until(said, f"'{part}' in what the recorder of {live.name} says")


def begun(live: Live, line: str = words.AGREES) -> None:
    until_line(live, line)


def ended(live: Live) -> int:
    """Its status; all that it started has ended too, and left nothing."""
    until(lambda: not live.runs, f"the end of the recorder of {live.name}")
    until(lambda: not processes(live.process.pid), f"the end of all that the recorder of {live.name} started", 0.02)
    if not live.was_killed:
        same(list(live.scratch.iterdir()), [])
    return live.process.returncode


def stop(live: Live, number: int = signal.SIGINT) -> int:
    live.send(number)
    return ended(live)


def kill(live: Live) -> None:
    """All its processes at once."""
    live.was_killed = True
    live.send_all(signal.SIGKILL)
    ended(live)


def refuses(live: Live, status: int, part: str) -> None:
    """It has ended with this status and complaint."""
    same(ended(live), status)
    assert part in live.complaint(), f"'{part}' in\n{live.complaint()}"


# ---- Files ----


def bytes_of(path: object) -> bytes:
    try:
        return pathlib.Path(str(path)).read_bytes()
    except (FileNotFoundError, NotADirectoryError, ProcessLookupError):  # the last of a process that has just ended
        return b""


def until_kept(name: object, sent: bytes, start: int = 0) -> None:
    """The capture has these bytes behind so many others."""
    until(lambda: sent in bytes_of(f"{name}.dgt")[start:], f"{sent.hex()} in {name}.dgt, behind {start} bytes")


def until_dumped(board: Board, name: object) -> None:
    """The board has said again how it stands, and the capture has that, and so all that the board has sent before."""
    until_kept(name, board.dump(), len(bytes_of(f"{name}.dgt")))


def movetext(name: object) -> str:
    parts = bytes_of(f"{name}.pgn").decode().split("\n\n")
    return parts[1].replace("\n", " ") if len(parts) > 1 else ""


def until_game(name: object, text: str) -> None:
    until(lambda: movetext(name) == text, f"{text} in {name}.pgn, which has {movetext(name)}")


@functools.lru_cache(maxsize=None)
def program() -> str:
    """The path of the program itself, which bin/dgt_replay looks for at each call."""
    return subprocess.run([TOP / "bin" / "program"], stdout=subprocess.PIPE, check=True).stdout.decode().strip()


def run(*arguments: str, given: bytes = b"") -> "subprocess.CompletedProcess[bytes]":
    return subprocess.run([program(), *arguments], input=given, stdout=subprocess.PIPE, stderr=subprocess.PIPE)


def recorded(capture: bytes, name: object, *options: str) -> bytes:
    """What `record` makes of a capture, with the date that NAME.pgn has."""
    date = bytes_of(f"{name}.pgn").decode().partition('[Date "')[2].partition('"')[0]
    return run("record", *options, "--date", date, given=capture).stdout


@functools.lru_cache(maxsize=64)
def check(text: bytes) -> Optional[str]:
    """What `check` says of a text, where it passes."""
    answer = run("check", given=text)
    return answer.stdout.decode().strip() if answer.returncode == 0 else None


def same(got: object, wanted: object) -> None:
    assert got == wanted, f"\ngot    {got!r}\nwanted {wanted!r}"


# ---- What many cases begin with ----


def begin_game(folder: pathlib.Path, *options: str, **more: object) -> Tuple[Board, Live]:
    """Two plies, recorded."""
    board = a_board(folder)
    live = Live(board.device, folder / "game", *options, **more)  # type: ignore[arg-type]  # what Live takes by name
    begun(live)
    board.play("e2e4")
    until_game(live.name, "1. e4 *")
    board.play("e7e5")
    until_game(live.name, "1. e4 e5 *")
    return board, live


def go_on(board: Board, live: Live, *options: str, **more: object) -> Live:
    """The same game again, where the board has been asked for a dump and updates."""
    board.turn()  # what the recorder before has asked for is no request of this one
    asked = board.asked.count(b"BK")
    again = Live(board.device, live.name, *options, **more)  # type: ignore[arg-type]  # what Live takes by name
    until(lambda: board.asked.count(b"BK") > asked, f"a request of the recorder of {live.name}")
    return again
