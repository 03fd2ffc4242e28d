"""Boards that are missing are looked for on devices that nobody uses, since a board that gives a serial number is known in any socket."""

from __future__ import annotations

import os
from typing import Callable, Dict, FrozenSet, Optional, Sequence, Set, Tuple

from live.board.board import Board
from live.board.connection import ask
from live.child.program import Program
from live.line.line import devices
from live.run.loop import Turns, Worker, traced

LOOKS_EACH = 5.0  # seconds
ASKS_AGAIN = 30.0  # seconds after which devices are asked again that gave no missing number
Found = Tuple[FrozenSet[str], Dict[str, str]]  # the devices that nobody uses; those that gave a number, by that


def on_free_devices(program: Program, used: Set[str], asked: FrozenSet[str]) -> Found:
    """Asks the boards on the devices that aren't used, unless those are the ones that were asked before. It waits for up to two
    seconds."""
    free = {device: name or device for device, name in devices() if device not in used}
    if not free or asked == frozenset(free):
        return frozenset(free), {}
    return frozenset(free), {number: free[device] for device, number in ask(program, list(free)).numbers.items()}


class Finder:
    """Looks for missing boards now and then, beside the loop. `trouble` gets errors that should never happen."""

    def __init__(self, loop: Turns, program: Program, seekers: Callable[[], Sequence[Board]], trouble: Callable[[str], None]) -> None:
        self._loop, self._program, self._seekers, self._trouble = loop, program, seekers, trouble
        self._worker: Optional[Worker] = None  # while it looks
        self._missing: Set[str] = set()
        self._asked: FrozenSet[str] = frozenset()  # the devices that have given none of these numbers
        self._asked_at = 0.0
        self._timer = loop.after(LOOKS_EACH, self._each)

    def _each(self) -> None:
        self._timer = self._loop.after(LOOKS_EACH, self._each)
        try:
            self._look()
        except Exception as error:
            self._trouble(traced(error))

    def _look(self) -> None:
        seekers = self._seekers()
        missing = {seeker.lacks for seeker in seekers if seeker.lacks}
        if not missing or self._worker:
            return
        if missing != self._missing or self._loop.now() - self._asked_at > ASKS_AGAIN:
            self._missing, self._asked, self._asked_at = missing, frozenset(), self._loop.now()
        used = {os.path.realpath(seeker.holds) for seeker in seekers if seeker.holds}
        asked = self._asked
        self._worker = worker = Worker(self._loop)
        worker.do(lambda: self._job(used, asked), self._found)

    def _job(self, used: Set[str], asked: FrozenSet[str]) -> "Found | Exception":
        try:
            return on_free_devices(self._program, used, asked)
        except Exception as error:
            return error

    def _found(self, found: "Found | Exception") -> None:
        if self._worker:
            self._worker.close()
            self._worker = None
        if isinstance(found, Exception):
            self._trouble(traced(found))
            return
        self._asked, places = found
        for seeker in self._seekers():
            if seeker.lacks in places:
                seeker.found_on(places[seeker.lacks])

    def close(self) -> None:
        """Looks no more."""
        self._timer.cancel()
        if self._worker:
            self._worker.close()
