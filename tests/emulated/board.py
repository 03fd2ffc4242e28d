"""A board: it looks at its squares one after the other, answers commands, and sends what it was asked to send."""

from __future__ import annotations

import heapq
import itertools
import math
import random
from dataclasses import dataclass, field
from typing import Callable, Dict, List, Optional, Sequence, Tuple

from emulated import protocol
from emulated.clock import NO_CLOCK, Clock
from emulated.line import Line, Noise
from emulated.protocol import MODES, Command
from play_board import INITIAL

SCAN = 0.2  # seconds in which it looks at each square once, field 0 first
SECOND = 1.0  # between two looks at the clock


@dataclass(frozen=True)
class Manner:
    """What is bad about a board: seconds before each answer, from and to; the share of commands that it misses; its line."""

    late: Tuple[float, float] = (0.0, 0.0)
    missed: float = 0.0
    noise: Noise = field(default_factory=Noise)


class Board:
    """Is told what stands on its squares and what it is sent, each with its time and in the order of the times.

    A change is seen when the scan comes to the square: it is not seen where the square is then as it was. A dump has what the
    scan has seen when the board was asked. Where an answer is late, updates may come before it.
    """

    def __init__(
        self,
        codes: Sequence[int] = INITIAL,
        manner: Manner = Manner(),
        clock: Optional[Clock] = None,
        serial: str = "00001",
        rotated: bool = False,
        second_at: float = SECOND,
        seed: object = 0,
    ) -> None:
        chance = random.Random(f"board {seed}")
        self.manner, self.clock, self.serial, self.rotated = manner, clock, serial, rotated
        self.answers: Dict[Command, bytes] = {}  # those that aren't as the protocol has them
        self.mode = Command.RESET
        self.on = True
        self.line = Line(chance, manner.noise)
        self._chance = chance
        self._codes = [codes[self._field(number)] for number in range(64)]  # by field, as they are
        self._seen = list(self._codes)  # and as the scan has seen them
        self._looks: List[Optional[float]] = [None] * 64  # when the scan comes to a square that has changed
        self._stored: List[Tuple[int, int]] = []
        self._clock_sent: Optional[Tuple[int, ...]] = None
        self._happens: List[Tuple[float, int, Callable[[float], None]]] = []
        self._order = itertools.count()
        self._power = 0  # how often it has changed: an answer from before is never sent
        self._at(second_at, self._look_at_clock)

    @property
    def codes(self) -> List[int]:
        """What stands on its squares."""
        return [self._codes[self._field(number)] for number in range(64)]

    # What happens to it.

    def show(self, now: float, square: int, code: int) -> None:
        """What stands on a square from now on."""
        self.advance(now)
        number = self._field(square)
        self._codes[number] = code
        if self._looks[number] is None:
            when = next_look(number, now)
            self._looks[number] = when
            self._at(when, lambda then: self._look(then, number))

    def command(self, now: float, sent: bytes) -> None:
        """It is sent these bytes."""
        self.advance(now)
        for byte in sent:
            if self.on and not (self.manner.missed and self._chance.random() < self.manner.missed):
                self._obey(now, byte)

    def power(self, now: float, on: bool) -> None:
        """Without power it sends nothing and forgets what it was asked; with it again it looks at all squares anew."""
        self.advance(now)
        if on == self.on:
            return
        self.on = on
        self._power += 1
        self.line.clear(now)
        self._stored.clear()
        self.fall_idle(now)
        if on:
            self._seen = list(self._codes)

    def fall_idle(self, now: float) -> None:
        """It forgets that updates were wanted, and says nothing of it."""
        self.advance(now)
        self.mode, self._clock_sent = Command.RESET, None

    # What comes of it.

    def take(self, now: float) -> bytes:
        """What has come over its line by now."""
        self.advance(now)
        return self.line.take(now)

    def due(self) -> float:
        """When it has something to do, or to send."""
        return min(self._happens[0][0], self.line.due())

    def advance(self, now: float) -> None:
        """Does what is due up to now."""
        while self._happens[0][0] <= now:
            when, _, happening = heapq.heappop(self._happens)
            happening(when)

    def _at(self, when: float, happening: Callable[[float], None]) -> None:
        heapq.heappush(self._happens, (when, next(self._order), happening))

    def _field(self, number: int) -> int:
        """The field of a square, and the square of a field."""
        return 63 - number if self.rotated else number

    # The squares and the clock.

    def _look(self, now: float, number: int) -> None:
        """The scan comes to a field."""
        self._looks[number] = None
        if not self.on or self._seen[number] == self._codes[number]:
            return
        self._seen[number] = self._codes[number]
        self._stored.append((number, self._codes[number]))
        if self.mode is not Command.RESET:
            self.line.put(now, protocol.update(number, self._codes[number]))

    def _look_at_clock(self, now: float) -> None:
        self._at(now + SECOND, self._look_at_clock)
        data = self._clock_data(now)
        is_wanted = self.mode is Command.UPDATES or (self.mode is Command.UPDATES_NICE and data != self._clock_sent)
        if self.on and is_wanted:
            self._clock_sent = data
            self.line.put(now, protocol.time_message(data))

    def _clock_data(self, now: float) -> Tuple[int, ...]:
        return self.clock.data(now) if self.clock else NO_CLOCK

    # Commands.

    def _obey(self, now: float, byte: int) -> None:
        try:
            command = Command(byte)
        except ValueError:
            return
        if command in MODES:
            self.mode, self._clock_sent = command, None
            return
        answer = self._answer(now, command)
        earliest, latest = self.manner.late
        if latest <= 0:
            self.line.put(now, answer)
            return
        power = self._power
        self._at(now + self._chance.uniform(earliest, latest), lambda then: self._send_late(then, answer, power))

    def _send_late(self, now: float, answer: bytes, power: int) -> None:
        if power == self._power:
            self.line.put(now, answer)

    def _answer(self, now: float, command: Command) -> bytes:
        if command in self.answers:
            return self.answers[command]
        if command is Command.DUMP:
            return protocol.dump(self._seen)
        if command is Command.CLOCK:
            return protocol.time_message(self._clock_data(now))
        if command is Command.STORED_MOVES:
            return protocol.stored_moves(self._stored)
        return protocol.about(command, self.serial)


def next_look(number: int, now: float) -> float:
    """When the scan next comes to a field, from now on."""
    offset = number / 64 * SCAN
    scan = max(0, math.ceil(round((now - offset) / SCAN, 6)))
    return scan * SCAN + offset
