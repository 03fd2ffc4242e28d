"""What hands do on a board: the changes of squares with which a move is made, each with its time.

The pictures before and after a move come from the program; here it is only chosen in which order, and how fast, the squares
change from one to the other. Squares are numbered from a8, 0, to h1, 63.
"""

from __future__ import annotations

import math
import random
from dataclasses import dataclass
from typing import Dict, List, Sequence, Tuple

from play_board import BLACK, EMPTY, KING

REST = 0.45  # seconds that an honest move stands before the next one is begun: more than two scans
AFTER = 0.05  # seconds after which a hand goes where another one just was
SLIDE = (0.03, 0.25)  # seconds on each square that a piece is slid over
Picture = Sequence[int]


@dataclass(frozen=True)
class Touch:
    """What stands on a square from a time on."""

    at: float
    square: int
    code: int


@dataclass(frozen=True)
class Habits:
    """Of the hands at a table: seconds a ply, and how many moves of a hundred are made as the name says."""

    pace: float = 4.0  # the median, from one move's end to the next one's
    spread: float = 0.5
    touch: Tuple[float, float] = (0.1, 0.5)  # seconds between two changes
    slides: float = 25.0  # along a line, over the squares between
    straightens: float = 5.0  # a piece of the mover's first
    knocks: float = 2.0  # pieces beside the target over, and sets them up again
    helps: float = 3.0  # the other side straightens a piece at the same time
    early: float = 0.0  # begun before the other side's move stands: no honest play


@dataclass(frozen=True)
class Made:
    """A move as it was made: its changes in the order of their times."""

    touches: Tuple[Touch, ...]

    @property
    def begun(self) -> float:
        return self.touches[0].at

    @property
    def done(self) -> float:
        return self.touches[-1].at


class Capture:
    """The five orders in which the taker leaves, the piece that is taken leaves, and the taker lands.

    Each is a list of (square, what it shows): the origin, the target, and what each shows then.
    """

    NAMES = ("taker first", "taken first", "swept away", "taken first, dragged", "swept away, dragged")

    @staticmethod
    def steps(name: str, origin: int, target: int, code: int) -> List[Tuple[int, int]]:
        leaves, taken, lands = (origin, EMPTY), (target, EMPTY), (target, code)
        return {
            "taker first": [leaves, taken, lands],
            "taken first": [taken, leaves, lands],
            "swept away": [leaves, lands],
            "taken first, dragged": [taken, lands, leaves],
            "swept away, dragged": [lands, leaves],
        }[name]


def side(code: int) -> bool:
    """Whether it is a black piece."""
    return code > BLACK


def mover(before: Picture, after: Picture) -> bool:
    """Whether the move between two pictures is Black's."""
    return side(next(after[square] for square in range(64) if before[square] != after[square] != EMPTY))


def is_king(code: int) -> bool:
    return code in (KING, BLACK + KING)


def between(origin: int, target: int) -> List[int]:
    """The squares in a straight line between two; none where they stand in none."""
    down, right = target // 8 - origin // 8, target % 8 - origin % 8
    if 0 not in (down, right) and abs(down) != abs(right):
        return []
    far = max(abs(down), abs(right))
    return [origin + step * (8 * (down // far) + right // far) for step in range(1, far)]


def beside(square: int) -> List[int]:
    """The squares around one."""
    rank, file = divmod(square, 8)
    near = [(rank + down, file + right) for down in (-1, 0, 1) for right in (-1, 0, 1) if (down, right) != (0, 0)]
    return [8 * down + right for down, right in near if 0 <= down < 8 and 0 <= right < 8]


class Hands:
    """Makes the moves of a game, one after the other."""

    def __init__(self, habits: Habits, seed: object, now: float = 0.0) -> None:
        self.habits = habits
        self._chance = random.Random(f"hands {seed}")
        self._last = Made((Touch(now, 0, 0),))
        self._ready = now  # when the side to move had made its own last move

    def make(self, before: Picture, after: Picture) -> Made:
        """The next move, in the pictures before and after it."""
        chance, habits = self._chance, self.habits
        steps = [*self._first(before, after), *self._moved(before, after)]
        gaps = [chance.uniform(*gap) for gap, _, _ in steps]
        if self._often(habits.early):
            begun = max(chance.uniform(self._last.begun, self._last.done), self._ready + AFTER)
        else:
            pause = math.exp(chance.gauss(math.log(habits.pace), habits.spread)) - sum(gaps)
            begun = self._last.done + max(REST, pause)
        reached = {touch.square: touch.at for touch in self._last.touches}
        touches: List[Touch] = []
        now = begun
        for number, (gap, (_, square, code)) in enumerate(zip(gaps, steps)):
            now = max(now + (gap if number else 0.0), reached.get(square, -math.inf) + AFTER)
            touches.append(Touch(now, square, code))
        if self._often(habits.helps):
            touches += self._helped(before, after, touches)
        self._ready = self._last.done
        self._last = Made(tuple(sorted(touches, key=lambda touch: touch.at)))
        return self._last

    def _often(self, of_hundred: float) -> bool:
        return self._chance.random() * 100 < of_hundred

    # The move itself, as (seconds since the change before, square, code).

    def _moved(self, before: Picture, after: Picture) -> List[Tuple[Tuple[float, float], int, int]]:
        changed = [square for square in range(64) if before[square] != after[square]]
        left = [square for square in changed if after[square] == EMPTY]
        reached = [square for square in changed if after[square] != EMPTY]
        touch = self.habits.touch
        if len(reached) == 2:
            return [(touch, square, code) for square, code in self._castled(before, left, after, reached)]
        target = reached[0]
        origin = next(square for square in left if side(before[square]) == mover(before, after))
        if before[origin] != after[target]:
            return [(touch, square, code) for square, code in self._promoted(before, origin, target, after[target])]
        steps = self._carried(before, origin, target)
        for square in left:
            if square != origin:  # the pawn that is taken in passing
                steps.insert(self._chance.randrange(len(steps) + 1), (touch, square, EMPTY))
        return steps

    def _carried(self, before: Picture, origin: int, target: int) -> List[Tuple[Tuple[float, float], int, int]]:
        touch, code = self.habits.touch, before[origin]
        if before[target] != EMPTY:
            name = self._chance.choice(Capture.NAMES)
            return [(touch, square, shown) for square, shown in Capture.steps(name, origin, target, code)]
        steps = [(touch, origin, EMPTY)]
        if self._often(self.habits.slides):
            for square in between(origin, target):
                steps += [(SLIDE, square, code), (SLIDE, square, EMPTY)]
        return [*steps, (touch, target, code)]

    def _castled(
        self, before: Picture, left: Sequence[int], after: Picture, reached: Sequence[int]
    ) -> List[Tuple[int, int]]:
        """The king first, the rook first, or both in hand at once."""
        pieces = []
        for origin in sorted(left, key=lambda square: not is_king(before[square])):
            target = next(square for square in reached if after[square] == before[origin])
            pieces.append([(origin, EMPTY), (target, before[origin])])
        king, rook = pieces
        return self._chance.choice([king + rook, rook + king, [king[0], rook[0], king[1], rook[1]]])

    def _promoted(self, before: Picture, origin: int, target: int, piece: int) -> List[Tuple[int, int]]:
        """The pawn goes to the last rank and is exchanged there; or the piece is set down while the pawn still stands, or
        after it has left."""
        pawn = before[origin]
        taken = [(target, EMPTY)] if before[target] != EMPTY else []
        return self._chance.choice(
            [
                [*taken, (origin, EMPTY), (target, pawn), (target, EMPTY), (target, piece)],
                [*taken, (target, piece), (origin, EMPTY)],
                [*taken, (origin, EMPTY), (target, piece)],
            ]
        )

    # What hands do beside it.

    def _first(self, before: Picture, after: Picture) -> List[Tuple[Tuple[float, float], int, int]]:
        """Before the move: the mover straightens a piece, or knocks some over beside the target and sets them up again."""
        still = [square for square in range(64) if before[square] == after[square] != EMPTY]
        changed = [square for square in range(64) if before[square] != after[square]]
        own = [square for square in still if side(before[square]) == mover(before, after)]
        steps: List[Tuple[Tuple[float, float], int, int]] = []
        touch = self.habits.touch
        if own and self._often(self.habits.straightens):
            square = self._chance.choice(own)
            steps += [(touch, square, EMPTY), (touch, square, before[square])]
        near = [square for square in still if any(square in beside(other) for other in changed)]
        if near and self._often(self.habits.knocks):
            fallen = self._chance.sample(near, min(len(near), self._chance.randint(1, 4)))
            steps += [((0.0, 0.05), square, EMPTY) for square in fallen]
            self._chance.shuffle(fallen)
            steps += [(touch, square, before[square]) for square in fallen]
        return steps

    def _helped(self, before: Picture, after: Picture, made: Sequence[Touch]) -> List[Touch]:
        """Meanwhile the other side's hand lifts a piece of its own and sets it back: one that this move doesn't touch."""
        touched = {touch.square for touch in made}
        still = [square for square in range(64) if before[square] == after[square] != EMPTY and square not in touched]
        free = [square for square in still if side(before[square]) != mover(before, after)]
        if not free or len(made) < 2:
            return []
        square = self._chance.choice(free)
        begun = self._chance.uniform(made[0].at, made[-1].at)
        return [Touch(begun, square, EMPTY), Touch(begun + self._chance.uniform(*self.habits.touch), square, before[square])]


PACES: Dict[str, Habits] = {
    "classical": Habits(pace=15.0),
    "rapid": Habits(pace=7.0),
    "blitz": Habits(pace=3.5, touch=(0.08, 0.4)),
    "bullet": Habits(pace=1.8, touch=(0.05, 0.2), slides=35.0),
}
