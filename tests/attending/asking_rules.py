"""When to ask the board for a dump and for its number, by rules in Python: what `live` says is compared with them. The time is passed
in."""

from __future__ import annotations

import math
from dataclasses import dataclass, field
from typing import NamedTuple

from attending.frames import HEADER, SERIAL_REQUEST, FrameKind, Frames, serial_of

DUMP_REQUEST = b"B"  # 42: a board dump
START_REQUEST = b"BK"  # 42 4B: a board dump, then field updates, and times when they change
UNFINISHED = 0.2  # seconds that a frame may stay unfinished
POLL = 1.0  # seconds that the last complete dump may be old, counted from its request
QUIET = 0.5  # seconds without an update before that request is made
RESTLESS = 4.0  # seconds that the last complete dump may be old while updates keep coming
BETWEEN = 0.2  # seconds between two requests, at least
PATIENCE = 1.0  # seconds that a request is open; then it counts as lost
SILENCE = 5.0  # seconds without a complete dump after which the board is silent
NUMBER_ASKED = 3  # requests that ask for a number again, if the board is known to have one and hasn't sent it
LOST = 3  # requests without a dump before silence is reported: a recorder that was held up has sent none


class Came(NamedTuple):
    """What has ended in some bytes: a complete dump; a time message, with the seven bytes of the last one; the board's serial
    number."""

    dumped: bool = False
    time: bytes = b""
    serial: str = ""


NONE_OF_THESE = Came()

@dataclass
class Asking:
    """What one board is sent, and when.

    - `42 4B` when the line is open: a dump, and updates from then on.
    - `42` at a fault; if a frame stays unfinished for 0.2 s; if the last complete dump is 1 s old, which makes up for an update
      that was lost as a whole. A complete dump settles everything that came before it.
    - The last of these waits until no update has come for 0.5 s, or the dump is 4 s old: if a board answers late, an older dump
      would undo updates that come meanwhile.
    - A request is open until a complete dump comes, or for 1 s: then it counts as lost. One request is open at a time, and two
      are at least 0.2 s apart. So noise causes at most one request a second, and the worst case (a complete dump after each
      request, and a fault after each dump) at most five: a third of the line.
    - `42 4B` again after a lost request, and if a dump differs from the dump before it with no update in between: a board that
      was off has forgotten that updates are wanted.
    - `45` before each `42 4B`: another board may be on the line. A board that has a number is asked for it with the next two
      requests too, until it sends it.
    - A board that sends no complete dump for 5 s, although it was asked, is silent until it sends one.
    """

    quiet: float = QUIET
    silent: bool = False
    has_number: bool = False  # the board sends its number
    dump: bytes = b""  # the last complete dump since the connection
    _frames: Frames = field(default_factory=Frames)
    _open_line: bool = False
    _wanted: bool = False  # at a fault, or a start, with no complete dump since
    _start: bool = True  # the next request asks for updates too
    _number_asked: int = 0  # the next requests that ask for the number too
    _byte_at: float = 0.0
    _dump_at: float = 0.0  # when the last complete dump was requested, or came unrequested; or the connection began
    _heard_at: float = 0.0  # when it came
    _asked_at: float = -math.inf
    _asked_open: bool = False
    _unanswered: int = 0  # requests since the last complete dump
    _updated: bool = False  # by a complete update since then
    _update_at: float = -math.inf

    def connected(self, now: float) -> None:
        """The line has been opened, or opened again."""
        self._frames = Frames()
        self._open_line = self._wanted = self._start = True
        self._asked_open = False
        self._asked_at = -math.inf
        self._dump_at = self._heard_at = self._byte_at = now
        self._unanswered, self.dump = 0, b""

    def disconnected(self) -> None:
        """The line is gone: there is no board to ask, and a silence is no longer known."""
        self._open_line = self.silent = False

    def came(self, now: float, sent: bytes) -> Came:
        """The board has sent this. Returns what has ended in it."""
        self._byte_at, dumped, time, serial = now, False, b"", ""
        for byte in sent:
            kind = self._frames.take(byte)
            if kind is FrameKind.UPDATE:
                self._updated, self._update_at = True, now
            elif kind is FrameKind.DUMP:
                self._take_dump(now)
                dumped = True
            elif kind is FrameKind.TIME:
                time = self._frames.whole[HEADER:]
            elif kind is FrameKind.FAULT:
                self._wanted = True
            elif kind is FrameKind.OTHER:
                serial = serial_of(self._frames.whole) or serial
        if serial:
            self.has_number, self._number_asked = True, 0
        return Came(dumped, time, serial) if dumped or time or serial else NONE_OF_THESE

    def _take_dump(self, now: float) -> None:
        """A complete dump has come: it settles everything that came before it."""
        if self.dump and self._frames.whole != self.dump and not self._updated:
            self._start = True
        self.dump, self._updated = self._frames.whole, False
        self._dump_at = self._asked_at if self._asked_open else now
        self._heard_at, self._unanswered = now, 0
        self._wanted = self._asked_open = self.silent = False

    def added(self, sent: bytes) -> None:
        """Bytes were added to the capture by hand, or came over another game's cable. They may have cut one of the board's frames, so a dump is requested."""
        for byte in sent:
            self._frames.take(byte)
        self._wanted, self._asked_open = True, False

    def due(self) -> float:
        """When to call `request`, if nothing comes before."""
        if not self._open_line:
            return math.inf
        wish = -math.inf
        if not self._wanted:
            wish = min(max(self._dump_at + POLL, self._update_at + self.quiet), self._dump_at + RESTLESS)
            if self._frames.under_way:
                wish = min(wish, self._byte_at + UNFINISHED)
        return max(wish, self._asked_at + (PATIENCE if self._asked_open else BETWEEN))

    def request(self, now: float) -> bytes:
        """What to send the board now, if anything. Report all that came before you call this."""
        if now < self.due():
            return b""
        if self._asked_open:
            self._start = True
        if self._unanswered >= LOST and now - self._heard_at >= SILENCE:
            self.silent = True
        request = START_REQUEST if self._start else DUMP_REQUEST
        if self._start:
            self._number_asked = NUMBER_ASKED if self.has_number else 1
        if self._number_asked > 0:
            self._number_asked -= 1
            request = SERIAL_REQUEST + request
        self._start = False
        self._asked_at, self._asked_open = now, True
        self._unanswered += 1
        return request
