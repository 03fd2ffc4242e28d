"""The line from a board: 960 bytes a second, one after the other, of which some are lost or spoiled."""

from __future__ import annotations

import math
import random
from collections import deque
from dataclasses import dataclass
from typing import Deque, Dict, Optional, Tuple

RATE = 960  # bytes a second: 9,600 baud, ten bits a byte
LOST = -1  # in the place of the bit that is flipped


@dataclass(frozen=True)
class Noise:
    """How bad a line is: the shares of bytes that are lost, and of those with one bit flipped."""

    lost: float = 0.0
    flipped: float = 0.0


class Line:
    """Frames go in, bytes come out when they have passed. A byte that is lost takes its time too."""

    def __init__(self, chance: random.Random, noise: Noise = Noise()) -> None:
        self.noise = noise
        self._chance = chance
        self._free_at = 0.0
        self._held_until = -math.inf
        self._passing: Deque[Tuple[float, int]] = deque()  # when each byte has passed
        self._count = 0  # bytes that were put
        self._spoiled: Dict[int, int] = {}  # by the number of the byte: the bit, or LOST

    def put(self, now: float, frame: bytes) -> None:
        """Behind all that was put before."""
        self._free_at = max(self._free_at, now)
        for byte in frame:
            self._free_at += 1 / RATE
            passed = self._spoil(byte)
            if passed is not None:
                self._passing.append((self._free_at, passed))

    def _spoil(self, byte: int) -> Optional[int]:
        bit = self._spoiled.pop(self._count, None)
        self._count += 1
        if bit is None and self.noise != Noise():
            drawn = self._chance.random()
            if drawn < self.noise.lost:
                bit = LOST
            elif drawn < self.noise.lost + self.noise.flipped:
                bit = self._chance.randrange(8)
        if bit is None:
            return byte
        return None if bit == LOST else byte ^ 1 << bit

    def lose(self, ahead: int = 0) -> None:
        """The next byte that is put is lost, or one further ahead."""
        self._spoiled[self._count + ahead] = LOST

    def flip(self, bit: int, ahead: int = 0) -> None:
        """A bit of the next byte that is put comes flipped, or of one further ahead."""
        self._spoiled[self._count + ahead] = bit

    def hold(self, until: float) -> None:
        """What passes before then comes in one burst at that time."""
        self._held_until = until

    def take(self, now: float) -> bytes:
        """What has passed by now and wasn't taken yet."""
        taken = bytearray()
        while now >= self._held_until and self._passing and self._passing[0][0] <= now:
            taken.append(self._passing.popleft()[1])
        return bytes(taken)

    def due(self) -> float:
        """When the next byte comes."""
        return max(self._passing[0][0], self._held_until) if self._passing else math.inf

    def clear(self, now: float) -> None:
        """What hasn't passed yet is gone."""
        self._passing.clear()
        self._free_at, self._held_until = now, -math.inf
