"""How a board stands, by rules in Python: what `live` says is compared with it. The times are passed in.

- A game with moves, or whose start was shown, and the board hasn't agreed with it for 15 s, whatever moves: that is an alarm.
- So is a start that was never shown: pieces are moved, and for 15 s the board comes no nearer to it. Then nobody is setting it up,
  and a game may be in play. While pieces are set up, fewer and fewer squares differ.
"""

from __future__ import annotations

import math
from dataclasses import dataclass, field
from typing import Dict, Iterable, Optional, Tuple

from live.board.state import OTHER_BOARD, TURNED_ROUND, Kind, State
from live.child.lines import Agrees, Differs, Event, Move, Result
from live.line.protocol import Picture, differing

HAND = 10.0  # seconds that a hand may take
MOST_IN_HAND = 6  # squares: castling changes four, and a neighbour or two may be straightened
ONE_MOVE = 4  # squares that a move changes, at most
PATIENCE = 15.0  # seconds


@dataclass
class Agreement:
    """Takes the number of squares on which the board differs from the game, and says whether that has lasted too long."""

    has_agreed: bool = False  # whether the board has ever shown the game's position
    since: float = math.inf  # when it left the game's position, or the first change since it was nearest to the start
    _fewest: float = math.inf  # squares that differed at that time

    def agrees(self) -> None:
        """The board shows the game's position."""
        self.has_agreed, self.since = True, math.inf

    def differs(self, now: float, squares: int) -> None:
        """The board shows a picture that differs on this many squares."""
        if not self.has_agreed and squares < self._fewest:
            self.since, self._fewest = math.inf, squares
        else:
            self.since = min(self.since, now)

    def is_overdue(self, now: float) -> bool:
        """Whether it is an alarm at this time."""
        return now >= self.due()

    def due(self) -> float:
        """When it becomes an alarm if nothing more happens."""
        return self.since + PATIENCE


@dataclass
class BoardState:
    """Takes what happens at a board, and gives its state at any time."""

    start: Optional[Picture] = None  # of the game, for the hint that a board is turned round
    turned_hint: str = TURNED_ROUND
    look: str = ""  # what somebody must look at
    _since: float = 0.0  # when something was first seen, the board began to agree, or the first square began to differ
    _seen: bool = False
    _squares: Dict[str, float] = field(default_factory=dict)  # those that differ, and since when
    _changed_at: float = 0.0
    _setting_up: bool = False
    _played: bool = False
    _result: str = ""
    _silent_since: Optional[float] = None
    _unplugged_since: Optional[float] = None
    _disk: str = ""
    _picture: Optional[Picture] = None
    _replugged: bool = False
    _hint: str = ""
    _is_other: bool = False
    _lies_turned: bool = False
    _goes_on: bool = False  # the game goes on, and the board has shown nothing since this call began
    _agreement: Agreement = field(default_factory=Agreement)

    def told(self, now: float, event: Optional[Event]) -> None:
        """The program has reported this about a picture."""
        if isinstance(event, Move):
            self._played = True
            self.differs(now, ())
        elif isinstance(event, Result):
            self._result = ""
            self.differs(now, ())
            self._result = event.outcome.replace("*", "")
        elif isinstance(event, Agrees):
            self.differs(now, ())
        elif isinstance(event, Differs):
            self.differs(now, event.squares)

    def differs(self, now: float, squares: Iterable[str]) -> None:
        """The picture differs from the game's position on these squares. If there are none, it agrees."""
        before = self._squares
        self._squares = {square: before.get(square, now) for square in squares}
        count = len(self._squares)
        if count <= MOST_IN_HAND < len(before):  # what is left of a set-up
            self._squares = dict.fromkeys(self._squares, now)
        self._changed_at = now
        if count:
            self._agreement.differs(now, count)
        else:
            self._agreement.agrees()
            self._setting_up, self._hint = False, ""
            self._is_other = self._lies_turned = False
        if count > MOST_IN_HAND:
            self._setting_up = True
        if not self._result and not (self._seen and before and self._squares):
            self._since = now
        self._seen = True

    def shows(self, picture: Picture) -> bool:
        """A dump has shown this picture. Returns whether the hint has changed."""
        before = self._hint
        if self._replugged and self._picture and len(differing(self._picture, picture)) > ONE_MOVE:
            self._is_other = True
        if self.start:
            self._lies_turned = turned_round(picture, self.start) or (self._lies_turned and more_if_turned(picture, self.start))
        turned = self.turned_hint if self._lies_turned and not self._played else ""
        self._hint = turned or (OTHER_BOARD if self._is_other else "")
        self._picture, self._replugged = picture, False
        return self._hint != before

    def goes_on(self) -> None:
        """The next reports are from before this call, until `shows_itself`."""
        self._goes_on = True

    def shows_itself(self) -> None:
        """From now on the state is what was reported."""
        self._goes_on = False

    def unplugged(self, now: float) -> None:
        """The line has gone away."""
        if self._unplugged_since is None:
            self._unplugged_since = now
        self._silent_since = None

    def plugged(self) -> None:
        """The line is open, or open again. The next picture is compared with the last one."""
        self._replugged, self._unplugged_since = True, None

    def silent(self, now: float, silent: bool) -> None:
        """The board is `silent`, or answers again."""
        if not silent:
            self._silent_since = None
        elif self._silent_since is None:
            self._silent_since = now

    def disk(self, trouble: str) -> None:
        """What keeps something from being written, if anything does."""
        self._disk = trouble

    def state(self, now: float) -> State:
        """The state at this time."""
        if self._unplugged_since is not None:
            return State(Kind.UNPLUGGED, self._unplugged_since, disk=self._disk, look=self.look)
        if self._silent_since is not None:
            return State(Kind.SILENT, self._silent_since, disk=self._disk, look=self.look)
        if self._goes_on:
            return State(Kind.WAITS, self._since, disk=self._disk, look=self.look)
        is_overdue = bool(self._squares) and self._agreement.is_overdue(now)
        kind, squares = self._shown(now, is_overdue)
        since = self._since
        if squares:
            since = self._agreement.since if is_overdue else min([self._squares[square] for square in squares])
        return State(kind, since, squares, self._result, self._hint, self._disk, self.look)

    def _shown(self, now: float, is_overdue: bool) -> Tuple[Kind, Tuple[str, ...]]:
        """What the pictures say, and the squares that are shown with it. The board `is_overdue` if it has differed for too long."""
        if not self._seen:
            return Kind.WAITS, ()
        if self._result:
            return Kind.RESULT, ()
        if not self._squares:
            return Kind.AGREES, ()
        moving = now < self._changed_at + HAND
        many = len(self._squares) > MOST_IN_HAND
        old = tuple([square for square, since in self._squares.items() if now >= since + HAND])
        if is_overdue:
            is_wrong = self._played or self._agreement.has_agreed
            return (Kind.WRONG if is_wrong else Kind.NO_START), old or tuple(self._squares)
        if self._setting_up and (moving or (many and not self._played)):
            return Kind.SETTING_UP, ()
        return (Kind.WRONG, old) if old else (Kind.IN_HAND, tuple(self._squares))

    def due(self, now: float) -> float:
        """When the state changes if nothing happens."""
        if not self._squares:
            return math.inf
        times = [since + HAND for since in self._squares.values()] + [self._changed_at + HAND, self._agreement.due()]
        return min([time for time in times if time > now], default=math.inf)


def turned_round(picture: Picture, start: Picture) -> bool:
    """Whether this is the start on a board that is turned round, except for a piece or two that are still missing."""
    turned = len(differing(picture[::-1], start))
    return turned <= ONE_MOVE < 16 <= len(differing(picture, start))


def more_if_turned(picture: Picture, start: Picture) -> bool:
    """Whether more squares are as at the start if the board is turned round."""
    return len(differing(picture[::-1], start)) < len(differing(picture, start))
