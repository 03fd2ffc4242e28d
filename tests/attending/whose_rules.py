"""Which board is on a cable, by its serial number, by rules in Python: what `live` says is compared with them. The time is passed in.

- A board sends its number right before it shows its pieces. If the game's number is known, what comes after the request is kept
  back until the number has come: for 5 s, or three dumps.
- A board that sends no number by then is taken for the game's, and so is every board if the game has no number.
- A board that has sent the number that was known when it was connected is surely the game's own: there is no hint that it may be another.
"""

from __future__ import annotations

from dataclasses import dataclass
from typing import Optional

PATIENCE = 5.0  # seconds
DUMPS = 3  # without a number


@dataclass
class Whose:
    """Takes what a board says about itself."""

    own: str = ""  # the number of the game's board, if known
    shown: str = ""  # the number of the board on the cable, if it has sent one since it was connected
    _was_known: bool = False  # whether its own number was known when it was connected, or was said since
    _asked_at: Optional[float] = None  # when it was first asked for since the connection
    _dumps: int = 0  # dumps since then

    def connected(self, now: float) -> None:
        """The line is open, and the number is asked for: any board may be on it."""
        self.shown, self._asked_at, self._dumps = "", now, 0
        self._was_known = bool(self.own)

    def asked(self, now: float) -> None:
        """The number is asked for again: another board may be on the line."""
        if self._asked_at is None:
            self._asked_at, self._dumps = now, 0

    def dumped(self) -> None:
        """A complete dump has come."""
        self._dumps += 1

    def told(self, number: str) -> None:
        """The board has sent its number."""
        self.shown, self._asked_at = number, None

    def said(self, number: str) -> None:
        """The arbiter says that the game's board has this number."""
        self.own, self._was_known = number, True

    def is_unsure(self, now: float) -> bool:
        """Whether to keep back what comes until the number has come."""
        is_asked = self._asked_at is not None and now < self._asked_at + PATIENCE and self._dumps < DUMPS
        return bool(self.own) and is_asked

    @property
    def is_other(self) -> bool:
        """Whether the board that last sent its number is not the game's."""
        return bool(self.own and self.shown) and self.shown != self.own

    @property
    def is_own(self) -> bool:
        """Whether the board has sent the number that was known."""
        return self._was_known and bool(self.shown) and self.shown == self.own


