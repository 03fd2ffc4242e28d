"""What goes wrong in an emulated hall, and when: drawn from a seed. Pure."""

from __future__ import annotations

import enum
import random
from dataclasses import dataclass
from typing import Dict, List, Tuple


class Kind(enum.Enum):
    """What happens to one board, to two, or to the recorder of all."""

    CUT = "cable pulled"
    SWAP = "two cables swapped"
    POWER = "no power"
    IDLE = "falls idle"
    BURST = "held, then a burst"
    NOISE = "a bad line"
    LATE = "late answers"
    HURRY = "hurried hands"
    CALM = "no trouble of its own"
    DISK = "the disk is full"
    KILL = "the recorder is killed"
    PART = "a part of it is killed"


# Boards of 48 with each trouble; the others are calm. Two boards make a swap.
BOARDS = {
    Kind.CUT: 12,
    Kind.SWAP: 4,
    Kind.POWER: 6,
    Kind.IDLE: 3,
    Kind.BURST: 3,
    Kind.NOISE: 3,
    Kind.LATE: 3,
    Kind.HURRY: 4,
}
OF = 48
# Seconds that each lasts, from and to; those that aren't here last as long as the play.
LASTS: Dict[Kind, Tuple[float, float]] = {
    Kind.CUT: (1.0, 12.0),
    Kind.SWAP: (3.0, 10.0),
    Kind.POWER: (2.0, 15.0),
    Kind.IDLE: (0.0, 0.0),
    Kind.BURST: (1.0, 3.0),
    Kind.DISK: (10.0, 20.0),
    Kind.KILL: (1.0, 3.0),
    Kind.PART: (0.0, 0.0),
}
OFTEN = (Kind.IDLE, Kind.BURST)  # three times each
BEFORE = (0.1, 0.5)  # seconds: when the first two cables are pulled, and for how long; nobody has moved then
# When in the play the recorder's own troubles begin, as shares of it: never two at once.
TIMES = ((Kind.PART, 0.15), (Kind.DISK, 0.3), (Kind.KILL, 0.5), (Kind.PART, 0.65), (Kind.KILL, 0.8))


@dataclass(frozen=True)
class Trouble:
    """Seconds from the first move on. No board stands for the recorder of all."""

    at: float
    kind: Kind
    boards: Tuple[int, ...] = ()
    lasts: float = 0.0

    @property
    def ends(self) -> float:
        return self.at + self.lasts

    def text(self) -> str:
        """As it stands in the report: `cable pulled at 2:10 for 4 s`."""
        lasts = f" for {self.lasts:.0f} s" if self.lasts else ""
        return f"{self.kind.value} at {int(self.at) // 60}:{int(self.at) % 60:02}{lasts}"


def kinds(chance: random.Random, boards: int) -> Dict[int, Kind]:
    """The trouble of each board, counted from 1."""
    numbers = list(range(1, boards + 1))
    chance.shuffle(numbers)
    found: Dict[int, Kind] = {}
    for kind, count in BOARDS.items():
        wanted = round(count * boards / OF)
        if kind is Kind.SWAP:
            wanted -= wanted % 2
        for _ in range(min(wanted, len(numbers))):
            found[numbers.pop()] = kind
    found.update((number, Kind.CALM) for number in numbers)
    return dict(sorted(found.items()))


def drawn(chance: random.Random, of_boards: Dict[int, Kind], seconds: float) -> List[Trouble]:
    """What happens at its time. It begins before nine tenths of the play are over, so that what comes of it shows."""
    found: List[Trouble] = []
    swapped: List[int] = []
    for number, kind in of_boards.items():
        boards: Tuple[int, ...] = (number,)
        if kind is Kind.SWAP:
            swapped.append(number)
            if len(swapped) % 2:
                continue
            boards = (swapped[-2], number)
        if kind in LASTS:
            begins = [chance.uniform(0.02, 0.9) * seconds for _ in range(3 if kind in OFTEN else 1)]
            found += [_one(chance, kind, boards, at) for at in begins]
            if kind is Kind.SWAP and len(swapped) == 2:
                found[-1] = Trouble(BEFORE[0], kind, boards, BEFORE[1])
    found += [_one(chance, kind, (), share * seconds) for kind, share in TIMES]
    return sorted(found, key=lambda trouble: trouble.at)


def _one(chance: random.Random, kind: Kind, boards: Tuple[int, ...], at: float) -> Trouble:
    return Trouble(at, kind, boards, chance.uniform(*LASTS[kind]))
