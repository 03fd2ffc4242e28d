"""Whose board is on a cable, over the recorder itself: the table `boards` of tests/decisions/whose.json. `told` has sentences, which the
hosts have.

The hosts' table says when a number is asked for; the recorder decides that itself. So where the table has `asked`, the board answers
each request of the seconds before, but the last of them: then updates are asked for again, and with them the number.
"""

from typing import Any, List, Sequence, Tuple

from attending.answers import Answer, Entry, brings
from attending.asked import begun, milliseconds
from attending.host import Call, Host
from decided.asking import FRAMES
from decided.cases import bytes_of, cases
from decided.table import same

DUMP = bytes_of("EMPTY", FRAMES)
WORDS = {"keep": "here", "hold": "unsure", "other": "other"}
LATE = 100  # milliseconds after which the board answers
Step = Tuple[int, str]


def message(number: str) -> bytes:
    """In which a board gives its number."""
    return b"\x91\x00\x08" + number.encode()


def answered_until(steps: Sequence[Step]) -> int:
    """Until when the board answers, so that the recorder asks for the number when the table says."""
    asked = [at for at, what in steps if what == "asked"]
    return asked[0] - 1000 if asked else 0


class Board:
    """A board that does what the steps say, and answers requests up to a time."""

    def __init__(self, call: Call, until: int) -> None:
        self._call, self._until = call, until

    def passes(self, now: int) -> None:
        """The time, up to now."""
        while self._call.due is not None and self._call.due <= now:
            at = self._call.due
            if self._call.wake(at).asked and at + LATE < self._until:
                self._call.tell(brings(at + LATE, "heard", DUMP))

    def does(self, at: int, what: str) -> None:
        self.passes(at)
        if what == "connected":
            self._call.tell(Entry(at, "opened"))
        elif what == "dump":
            self._call.tell(brings(at, "heard", DUMP))
        elif what != "asked":
            self._call.tell(brings(at, "heard", message(what) + (DUMP if at < self._until else b"")))

    def seen(self, now: int) -> str:
        """What its board is at this time, as the table has it."""
        self.passes(now)
        return WORDS[self._call.wake(now).handling]  # with the request, if there was one, the recorder says what is done until then


def readings(own: str, steps: Sequence[Step], times: Sequence[int]) -> Tuple[List[str], List[Tuple[int, str]]]:
    """What the board is at these times, and what was sent when."""
    with Host() as host:
        call = begun(host, own.encode())
        board = Board(call, answered_until(steps))
        seen: List[str] = []
        left = list(times)
        for at, what in steps:
            while left and left[0] < at:
                seen.append(board.seen(left.pop(0)))
            board.does(at, what)
        seen += [board.seen(now) for now in left]
        return seen, call.asked


def in_milliseconds(rows: Sequence[Sequence[Any]]) -> List[Tuple[int, str]]:
    return [(milliseconds(at), what) for at, what in rows]


def boards() -> None:
    """Each as it is after what has happened."""
    for name, own, given, expected in cases("whose", "boards"):
        steps = in_milliseconds(given)
        seen, asked = readings(own, steps, [at for at, _ in in_milliseconds(expected)])
        same(name, seen, [what for _, what in expected])
        for at, what in steps:
            if what == "asked":
                same(f"{name}: the number is asked for at {at}", "E" in dict(asked).get(at, ""), True)


def others() -> None:
    """The number that is told is that of the board on the cable."""
    with Host() as host:
        call = begun(host, b"01234")
        call.tell(Entry(0, "opened"))
        answer: Answer = call.tell(brings(100, "heard", message("01235")))
        same("another board's number", (answer.handling, answer.other), ("other", "01235"))


TABLES = [boards, others]
