"""A board that stays otherwise than its game, and that no change of it alone explains: its capture is read once more, as with `--recover`. If
that finds two plies, an arbiter is asked about them."""

from __future__ import annotations

import functools
from typing import Optional

from live.board.plan import Means
from live.board.state import Kind, Standing
from live.game.game import Game
from live.game.hidden import Pair, asked_pair
from live.run.refused import RECOVERS

LONG = 15.0  # seconds in which a board is otherwise before its capture is read so, and from one reading to the next
MOST = 4 << 20  # bytes of a capture that is read so: a longer one takes the program long
OTHERWISE = (Kind.WRONG, Kind.IN_HAND, Kind.SETTING_UP)


class Hidden:
    """Looks for plies that no picture of a game showed."""

    def __init__(self, means: Means, game: Game, standing: Standing) -> None:
        self._means, self._game, self._standing = means, game, standing
        self._next_at: Optional[float] = None  # when the capture is read again; None while nothing is to be found
        self._size = 0  # of the capture that was read last

    def look(self) -> None:
        """Call this each second."""
        now, capture, state = self._means.guard.now(), self._game.capture, self._standing.state
        if self._game.options.recover or state is None or state.kind not in OTHERWISE or self._standing.is_explained:
            self._next_at = None
            self._standing.finds("")
        elif self._next_at is None:
            self._next_at = now + LONG
        elif now >= self._next_at and capture.size != self._size and capture.size <= MOST:
            self._next_at, self._size = now + LONG, capture.size
            self._means.worker.do(functools.partial(_found, self._game, capture.bytes()), self._finds)

    def _finds(self, pair: Optional[Pair]) -> None:
        if self._next_at is not None:
            self._standing.finds(f"{RECOVERS} {pair.moves}" if pair else "")


def _found(game: Game, sent: bytes) -> Optional[Pair]:
    """What is found; nothing if the program fails: a question isn't worth a recording."""
    try:
        return asked_pair(game, sent)
    except OSError:
        return None
