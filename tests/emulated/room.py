"""Many boards in one loop, each with its players: no thread, and no board waits for another."""

from __future__ import annotations

import math
import select
import time
from typing import Callable, List, Sequence

from emulated.cable import AS_IT_COMES, Cable
from emulated.table import Table

UNHEARD = 0.05  # seconds between two looks whether somebody has opened a device


def stopwatch() -> Callable[[], float]:
    """The seconds since this call: what the boards of a room have as their time."""
    begun = time.monotonic()
    return lambda: time.monotonic() - begun


class Room:
    """Cables and tables. A board hangs on one of the cables, whichever, and belongs to one table."""

    def __init__(self, cables: Sequence[Cable], tables: Sequence[Table], now: Callable[[], float]) -> None:
        self.cables, self.tables = list(cables), list(tables)
        self._now = now
        self.late = 0.0  # seconds that something was done after it was due, at most
        self._unheard_at = 0.0

    def turn(self, longest: float = 0.05, others: Sequence[int] = ()) -> List[int]:
        """Does what is due, at most after so long. Which of the other files can be read."""
        heard = {cable.line: cable for cable in self.cables if cable.heard}
        due = self._due()
        wait = min(longest, max(AS_IT_COMES, due - self._now()))
        ready = select.select([*heard, *others], [], [], wait)[0]
        now = self._now()
        self.late = max(self.late, now - due)
        for table in self.tables:
            if table.due() <= now:
                table.turn(now)
        asked = {heard[line] for line in ready if line in heard}
        looks = now >= self._unheard_at
        if looks:
            self._unheard_at = now + UNHEARD
        for cable in self.cables:
            if cable.plugged and (cable in asked or (looks and not cable.heard) or cable.board.due() <= now):
                cable.turn()
        return [line for line in ready if line in others]

    def _due(self) -> float:
        boards = [cable.board.due() for cable in self.cables if cable.heard]
        return min([*boards, *(table.due() for table in self.tables)], default=math.inf)

    def end(self) -> None:
        for cable in self.cables:
            cable.end()
