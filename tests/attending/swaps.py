"""When it is known that another board is on a cable, over the recorder itself: a board at the pace of its line."""

import math
from typing import Optional

from attending.answers import Entry, brings
from attending.asked import begun
from attending.host import Host
from decided.table import same
from emulated.board import Board

ITS_OWN, THE_OTHER = "00001", "00002"
GONE_FOR = 1.5  # seconds that hands take to swap two plugs, at least
PHASES = [number * 0.05 for number in range(40)]  # of the last request, as the plug is pulled
ANSWER = 8 / 960  # seconds that a number takes: 91, its length, five characters; 960 bytes a second
LOST = 1.0  # seconds after which a request has no answer
APART = 0.002  # seconds, no byte is as short; the recorder counts whole milliseconds


class Talk:
    """A recorder and the board on its cable, as the time goes on."""

    def __init__(self, host: Host) -> None:
        self.call = begun(host, ITS_OWN.encode())
        self.board = Board(serial=ITS_OWN)
        self.named_at: Optional[float] = None  # when it was known that it is another board
        self.tell(0.0, "opened")

    def tell(self, now: float, what: str, sent: bytes = b"") -> None:
        """This happens."""
        at = math.ceil(now * 1000 - 1e-6)
        answer = self.call.tell(brings(at, what, sent) if sent else Entry(at, what))
        if answer.handling == "other" and self.named_at is None:
            self.named_at = now
        if answer.asked:
            self.board.command(now, answer.asked.encode())

    def swap(self, now: float) -> None:
        """Another board hangs on the cable, without power yet."""
        self.board = Board(serial=THE_OTHER)
        self.board.power(now, False)

    def go_on(self, now: float, until: float) -> None:
        """All that is due up to then."""
        while now < until:
            due = math.inf if self.call.due is None else self.call.due / 1000
            now = min(max(now, min(due, self.board.due())), until)
            came = self.board.take(now)
            if came:
                self.tell(now, "heard", came)
            if self.call.due is not None and self.call.due <= now * 1000 + 1e-6:
                self.tell(now, "wake")


def named_after(phase: float, at_board: bool) -> float:
    """The seconds from the last plug until the other board is known."""
    with Host() as host:
        talk, pulled_at = Talk(host), 5.0 + phase
        talk.go_on(0.0, pulled_at)
        talk.board.power(pulled_at, False)
        if not at_board:
            talk.tell(pulled_at, "gone")
        talk.swap(pulled_at)
        plugged_at = pulled_at + GONE_FOR
        talk.go_on(pulled_at, plugged_at)
        talk.board.power(plugged_at, True)
        if not at_board:
            talk.tell(plugged_at, "opened")
        talk.go_on(plugged_at, plugged_at + 10)
        return (talk.named_at or plugged_at + 10) - plugged_at


def named() -> None:
    """At the USB plug it is known when the number has come over the line. At the board's plug the request that the board didn't
    hear must be lost first, and the next one asks for the number."""
    at_usb = [named_after(phase, at_board=False) for phase in PHASES]
    same("at the USB plug", [after for after in at_usb if abs(after - ANSWER) > APART], [])
    at_board = [named_after(phase, at_board=True) for phase in PHASES]
    same("at the board's plug", [after for after in at_board if not ANSWER <= after <= LOST + ANSWER + APART], [])
    same("at worst nearly all of that", max(at_board) > 0.9 * LOST, True)


TABLES = [named]
