"""Evenings with the boards of tests/emulated/: bytes at the pace of a real line, of which some are lost or spoiled, late answers, a clock,
hands that slide, straighten and knock over, and a cable that is pulled."""

import functools
import random
from typing import List

from attending.answers import Answer, Entry, brings
from attending.evenings import OWN, Evening, Table, played
from attending.host import Host
from emulated.board import Board, Manner
from emulated.clock import Clock
from emulated.hands import PACES, Hands, Touch
from emulated.line import Noise

GATHERED = 16  # milliseconds in which bytes are gathered, as a USB line does
SECONDS = 40
PULLED = (25.0, 28.5)  # when the cable is pulled, and when it is put in again
BAD = Manner(late=(0.0, 0.3), missed=0.02, noise=Noise(lost=0.001, flipped=0.001))


class Emulated:
    """A table whose board is an emulated one."""

    def __init__(self, table: Table, board: Board, touches: List[Touch]) -> None:
        self._table, self._board, self._touches = table, board, touches
        table.is_mute = True  # it is this board that answers

    def tell(self, entry: Entry) -> Answer:
        answer = self._table.tell(entry)
        if answer.asked:
            self._board.command(entry.at / 1000, answer.asked.encode())
        return answer

    def turns(self, begins: int, ends: int) -> None:
        """From one time to another, in milliseconds."""
        for now in range(begins, ends, GATHERED):
            while self._touches and self._touches[0].at * 1000 <= now:
                touch = self._touches.pop(0)
                self._board.show(touch.at, touch.square, touch.code)
            while (due := self._table.call.due) is not None and due <= now:
                self.tell(Entry(due, "wake"))
            self._table.shown = bytes(self._board.codes)
            if sent := self._board.take(now / 1000):
                self.tell(brings(now, "heard", sent))


def touches_of(seed: int) -> List[Touch]:
    """What hands do in the first seconds of a game."""
    hands, plies = Hands(PACES["bullet"], seed, 1.0), played()
    found: List[Touch] = []
    for before, after in zip(plies, plies[1:]):
        found += hands.make(before, after).touches
        if found[-1].at > SECONDS:
            break
    return sorted(found, key=lambda touch: touch.at)


@functools.lru_cache(maxsize=None)
def emulated_evening(seed: int) -> Evening:
    with Host() as host:
        table = Table(host, random.Random(f"emulated {seed}"), OWN)
        board = Board(played()[0], BAD if seed % 2 else Manner(), Clock(5400), OWN.decode(), seed=seed)
        room = Emulated(table, board, touches_of(seed))
        room.tell(Entry(0, "begin", 0))
        room.tell(Entry(2, "opened"))
        out, back = (int(1000 * when) for when in PULLED)
        room.turns(16, out)
        board.power(PULLED[0], False)
        room.tell(Entry(out, "gone"))
        room.turns(out, back)
        board.power(PULLED[1], True)
        room.tell(Entry(back, "opened"))
        room.turns(back, 1000 * SECONDS)
        return table.evening(f"emulated evening {seed}", [])
