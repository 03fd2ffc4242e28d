"""A recorder is killed on its way back, each time before another call of the system, and started again: its game is the old one
or the new one, whole."""

import os
import pathlib
import shutil
import signal
import sys
from typing import Callable, List, Sequence

from played import TOP
from played.back import ruy
from played.recorder import Live
from played.stage import movetext, recorded, same, stop, until, until_dumped, until_line

KILLING = TOP / "tests" / "guarded" / "killing.py"
CALLS = os.environ.get("CALLS", "changes")  # before which it is killed: those that change a file, or `all`
PARTS = int(os.environ.get("PARTS", "3"))  # into which the calls are divided, each a case
MOST = 1000  # calls, before one of which it is killed
PAUSE = 0.03  # seconds between two looks at what was done
Record = Callable[[Sequence[object]], Live]


class OnTheWay:
    """The game NAME, whose board shows that its last ply is taken back; with the board's number in front of what is typed."""

    def __init__(self, name: str, board: str, ply: str) -> None:
        self._name, self._back = name, f"{board}back"
        self._capture, self._folder = pathlib.Path(f"{name}.dgt"), pathlib.Path(name).parent
        self._kept = self._folder.parent / "kept"
        shutil.copytree(self._folder, self._kept)
        self._old = movetext(name)
        self._new = f"{self._old.split(f' {ply}')[0]} *"
        self.seen: List[int] = [0, 0]  # how often the old game was there after a kill, and the new one

    def _text(self) -> str:
        """The text of the game as its capture has it."""
        return " ".join(recorded(self._capture.read_bytes(), self._name).decode().split("\n\n")[1].split())

    def _has_kept(self, before: bytes) -> bool:
        """Whether the capture that there was is there, whole: as the game's, or beside it."""
        beside = self._folder.glob(f"{self._capture.stem}.before-*.dgt")
        return any(path.read_bytes().startswith(before) for path in (self._capture, *beside))

    def _begun(self, record: Record, count: int) -> Live:
        """Started again on what the last kill has left. Its text is what its capture gives: the old game or the new one."""
        live = record([sys.executable, KILLING, count, CALLS])
        until_line(live, f" in {self._capture} and ")
        text = self._text()
        assert text in (self._old, self._new), f"killed before a call, it is {text}"
        until(lambda: movetext(self._name) == text, f"{text}, as the capture has it, and not {movetext(self._name)}", PAUSE)
        return live

    def is_killed(self, count: int, record: Record) -> bool:
        """Records it, types `back`, and has it killed before this call. Whether there was such a call."""
        live = self._begun(record, count)
        if movetext(self._name) == self._new:
            same(stop(live), 0)
            for path in self._kept.iterdir():
                shutil.copy(path, self._folder)
            live = self._begun(record, count)
        before = self._capture.read_bytes()
        live.type(self._back)
        until(lambda: not live.runs or self._is_done(live), f"the end of a way back that is killed before call {count}", PAUSE)
        assert self._has_kept(before), f"killed before call {count}, the old capture isn't kept"
        is_done, live.was_killed = live.runs, True  # by now, or on its way to its end
        status = stop(live)
        if is_done:
            return False
        same(status, -signal.SIGKILL)
        self.seen[self._text() == self._new] += 1
        return True

    def _is_done(self, live: Live) -> bool:
        return movetext(self._name) == self._new and live.says("; taken off: ")

    def kill(self, what: str, part: int, record: Record) -> None:
        """Kills it before one call after the other, as far as they are of this part, until there is none left."""
        count = part
        while self.is_killed(count, record):
            count += PARTS
            assert count < MOST, "there is no end of calls"
        old, new = self.seen
        print(f"{what} was killed {old + new} times, up to call {count}: then it was {old} times the old game, {new} the new one")


def killed(folder: pathlib.Path, part: int) -> None:
    board, live = ruy(folder / "games")
    board.play("b5f1")
    until_line(live, "in hand b5")
    until_dumped(board, live.name)
    same(stop(live), 0)
    device = folder / "board"  # beside the folder of the game, which is copied
    pathlib.Path(board.device).rename(device)
    board.device = str(device)
    OnTheWay(live.name, "", "3. Bb5").kill("dgt_live", part, lambda start: Live(device, live.name, start=start, typed=True))


def killed_while_recorded_1(folder: pathlib.Path) -> None:
    """`back` is typed, and the recorder is killed before each third call that changes a file or its name, from the first one on:
    started again it has the old game or the new one, with its clocks."""
    killed(folder, 1)


def killed_while_recorded_2(folder: pathlib.Path) -> None:
    """From the second one on."""
    killed(folder, 2)


def killed_while_recorded_3(folder: pathlib.Path) -> None:
    """From the third one on."""
    killed(folder, 3)
