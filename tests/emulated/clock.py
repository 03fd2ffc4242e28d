"""A chess clock on a board: both times, whose runs, and the seven bytes that say so."""

from __future__ import annotations

import enum
import math
from typing import Optional, Tuple

RUNS, BATTERY_LOW, NOT_THERE = 0x01, 0x04, 0x20  # bits of the status
WHITE_TO_MOVE, BLACK_TO_MOVE = 0x08, 0x10
LEVER = 0x02  # up on Black's side: he has pressed, and White's time runs
NO_CLOCK = (0, 0, 0, 0, 0, 0, NOT_THERE)


class Side(enum.Enum):
    """Whose time is meant."""

    WHITE = 0
    BLACK = 1

    @property
    def other(self) -> Side:
        return Side(1 - self.value)


class Clock:
    """Counts down the time of one side, or of none. It stands at the start, with White to move."""

    def __init__(self, seconds: float = 5400.0, increment: float = 0.0) -> None:
        self.battery_low = False
        self._left = [seconds, seconds]
        self._increment = increment
        self._to_move = Side.WHITE
        self._since: Optional[float] = None  # when the time of this side began to run

    @property
    def runs(self) -> bool:
        return self._since is not None

    def start(self, now: float) -> None:
        """The time of the side to move runs."""
        if self._since is None:
            self._since = now

    def stop(self, now: float) -> None:
        """Neither time runs."""
        self._left = list(self.seconds(now))
        self._since = None

    def press(self, now: float) -> None:
        """The side whose time runs has moved. A press on a clock that stands does nothing."""
        if self._since is None:
            return
        self.stop(now)
        self._left[self._to_move.value] += self._increment
        self._to_move = self._to_move.other
        self.start(now)

    def seconds(self, now: float) -> Tuple[float, float]:
        """What White and Black have left."""
        left = list(self._left)
        if self._since is not None:
            left[self._to_move.value] = max(0.0, left[self._to_move.value] - (now - self._since))
        return left[0], left[1]

    def data(self, now: float) -> Tuple[int, ...]:
        """The seven bytes, White's time first. A second that has begun is shown whole."""
        shown = [group for left in self.seconds(now) for group in _group(math.ceil(round(left, 6)))]
        to_move = WHITE_TO_MOVE if self._to_move is Side.WHITE else BLACK_TO_MOVE
        lever = LEVER if self._to_move is Side.WHITE else 0
        return (*shown, to_move | lever | (RUNS if self.runs else 0) | (BATTERY_LOW if self.battery_low else 0))


def _group(seconds: int) -> Tuple[int, int, int]:
    """Hours, then minutes and seconds as tens and units in four bits each."""
    minutes, hours = seconds // 60 % 60, seconds // 3600
    return hours, minutes // 10 * 16 + minutes % 10, seconds % 60 // 10 * 16 + seconds % 10
