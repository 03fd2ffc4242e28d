"""What became of the games of a hall: whole, marked, or wrong and unmarked. Pure."""

from __future__ import annotations

import enum
from dataclasses import dataclass, field
from typing import List, Sequence, Tuple

# A row that says one of these says that nothing is heard or kept, and not that moves are missing: it marks a game only where it
# stands to the end.
OWN_ALARMS = ("UNPLUGGED", "SILENT", "DISK FULL")
LASTS = 5.0  # seconds that an alarm must stand: somebody has to see it
LATEST = 30.0  # seconds after the first wrong ply by which it must stand, or by the end of play


class Verdict(enum.Enum):
    WHOLE = "whole"
    MARKED = "marked"
    UNMARKED = "WRONG AND UNMARKED"


@dataclass(frozen=True)
class Seen:
    """What a board's row said at a time."""

    at: float
    state: str
    alarm: bool


@dataclass
class Watched:
    """All that a row said, in the order of the times."""

    seen: List[Seen] = field(default_factory=list)

    def stood(self, begin: float, end: float) -> str:
        """The alarm that stood between two times, or at the end of them; empty where none did."""
        since, before = 0.0, ""
        for one in self.seen:
            if not begin <= one.at <= end:
                continue
            counts = one.alarm and not one.state.startswith(OWN_ALARMS)
            if counts and not before:
                since = one.at
            before = one.state if counts else ""
            if before and one.at - since >= LASTS:
                return before
        last = [one for one in self.seen if one.at <= end][-1:]
        return last[0].state if last and last[0].alarm else ""

    def last(self, end: float) -> str:
        return next((one.state for one in reversed(self.seen) if one.at <= end), "nothing")


def kept(recorded: Sequence[str], played: Sequence[str]) -> int:
    """How many plies were recorded, up to the first that is missing or another one."""
    for number, (one, other) in enumerate(zip(recorded, played)):
        if one != other:
            return number
    return min(len(recorded), len(played))


@dataclass(frozen=True)
class Judged:
    """A game and what became of it. `alarm` is what marked it, or what the row said at the end of play."""

    verdict: Verdict
    plies: int
    kept: int
    alarm: str = ""
    recorded: Tuple[str, ...] = ()  # from the first wrong ply on


def judged(recorded: Sequence[str], played: Sequence[str], done: Sequence[float], ended: float, watched: Watched) -> Judged:
    """`done` is when each ply that was played stood, `ended` when the play did."""
    front = kept(recorded, played)
    if front == len(recorded) == len(played):
        return Judged(Verdict.WHOLE, len(played), front)
    wrong_at = done[min(front, len(done) - 1)] if done else 0.0
    until = max(ended, wrong_at + LATEST)
    alarm = watched.stood(wrong_at, until)
    verdict = Verdict.MARKED if alarm else Verdict.UNMARKED
    return Judged(verdict, len(played), front, alarm or watched.last(until), tuple(recorded[front : front + 4]))
