"""Serves readers over TCP, on the recorder's own loop: no call waits, and each reader's use of resources is limited.

Threads would work as well, but a thread that makes an answer holds the interpreter while a board's byte waits. Here a turn of
the loop answers at most two requests of each reader, and writes at most 64 kB for each; then it is the boards' turn. While a
request waits, nothing more is read from its reader. Readers never get descriptors that the boards may need.
"""

from __future__ import annotations

import collections
import errno
import ipaddress
import math
import socket
import time
import traceback
from dataclasses import dataclass
from typing import Callable, Deque, Dict, Iterable, List, Mapping, Optional, Protocol, Tuple

from live.run.loop import Turns
from live.run.refused import FAILED, Refused
from live.run.system import Room, room_now
from live.show import http
from live.show.address import Address, Door
from live.words.message import Message

MOST_READERS = 256
PART = 64 * 1024  # bytes that are written in a turn, or read after the last request
KERNEL_BUFFER = 128 * 1024  # bytes that the system may buffer for a reader, each way
MOST_UNSENT = 32 * 1024 * 1024  # bytes that wait to be sent, of all readers; an answer to many counts once
ACCEPTED_IN_A_TURN = 16
MOST_DROPPED = 256 * 1024  # bytes that are read after the last request
IDLE = 30.0  # seconds between two requests
WHOLE = 10.0  # seconds from a request's first byte to its last, and from the connection to its first request
TAKEN = 30.0  # seconds in which a reader must take an answer or the waiting events, and a second more for each SLOWEST bytes
SLOWEST = 16 * 1024  # bytes
LINGER = 2.0  # seconds in which a reader may still send after the last request
SWEEP = 1.0  # seconds
NO_MORE_ROOM = (errno.EMFILE, errno.ENFILE, errno.ENOBUFS, errno.ENOMEM)


@dataclass(frozen=True)
class Content:
    """The content of a path."""

    kind: str
    body: bytes
    tag: str


class Stream(Protocol):
    """The events for one reader."""

    def more(self) -> bytes:
        """What to send next, at most a part or an event; empty if there is nothing new."""


class Site(Protocol):
    """What is served."""

    def content(self, path: str) -> Optional[Content]:
        """The content of this path, if any."""

    def stream(self, path: str, last: str) -> Optional[Stream]:
        """The events of this path, from the one after `last` on, if it has events."""


class Reader:
    """One connection: requests one after the other, or events until it ends."""

    def __init__(self, server: Server, line: socket.socket, host: str) -> None:
        self._server, self._line = server, line
        self.host = host  # its machine's address; empty if there was no place for it
        self._received = bytearray()
        self.unsent: Deque[memoryview] = collections.deque()
        self._keeps = True
        self._answers = False
        self._goes_on = False  # whether the received bytes are looked at again in the next turn
        self._stream: Optional[Stream] = None
        self._dropped: Optional[int] = None  # bytes that came after the last request
        self.is_known = False  # whether it has given the password
        self.ends_at = server.loop.now() + WHOLE
        self._watch()

    @property
    def idle(self) -> bool:
        """Whether no request is under way."""
        return not (self._received or self._answers)

    @property
    def gives_way(self) -> Optional[Tuple[bool, int]]:
        """How soon it ends if another reader needs its place, the lowest first; None if it stays. A request that isn't whole goes
        first, and who has given the password last. Before that nobody keeps a place, even if he doesn't take his answer."""
        if self.idle:
            return self.is_known, 1
        if not self._answers:
            return self.is_known, 0
        return (False, 2) if self._server.password and not self.is_known else None

    @property
    def closed(self) -> bool:
        return self._line.fileno() < 0

    def _watch(self) -> None:
        loop, number = self._server.loop, self._line.fileno()
        if self.unsent:
            loop.watch(number, None, lambda: self._server.guard(self, self._write))
        elif self._goes_on:
            loop.forget(number)
        else:
            loop.watch(number, lambda: self._server.guard(self, self._read))

    def _ends_in(self, seconds: float) -> None:
        self.ends_at = self._server.loop.now() + seconds

    # What the reader sends.

    def _read(self) -> None:
        drops = self._dropped is not None
        try:
            came = self._line.recv(PART if drops else http.LONGEST_HEAD + 1 - len(self._received))
        except BlockingIOError:
            return
        if not came:
            self.close()
        elif self._dropped is not None:
            self._dropped += len(came)
            if self._dropped > MOST_DROPPED:
                self.close()
        else:
            was_idle = not self._received
            self._received += came
            self._take_request()
            if was_idle and self._received and not self._answers:
                self._ends_in(WHOLE)

    def _take_request(self) -> None:
        """Answers the next request, if it is complete."""
        self._received = self._received.lstrip(b"\r\n")
        try:
            end = http.head_end(self._received)
            if end is None:
                return
            request = http.read_request(bytes(self._received[:end]))
        except http.Bad as bad:
            self.complain(bad.status)
            return
        del self._received[:end]
        self._answer(request)

    # What is sent.

    def _answer(self, request: http.Request) -> None:
        if not self._server.names.allow(request.host):
            self._keeps = request.keeps
            self._send(*http.complaint(421, time.time(), self._keeps, self._server.fields, request.with_body))
            return
        if self._server.password and not http.has_password(request, self._server.password):
            self._keeps = request.keeps
            self._send(*http.complaint(401, time.time(), self._keeps, self._server.fields, request.with_body))
            return
        self.is_known = bool(self._server.password)
        stream = self._server.site.stream(request.path, request.fields.get("last-event-id", ""))
        self._keeps = request.keeps and stream is None
        fields = {"Connection": "keep-alive" if self._keeps else "close", **self._server.fields}
        content = self._server.site.content(request.path)
        if stream is not None:
            if request.with_body:
                self._stream, self._dropped = stream, 0
            fields["Content-Type"] = "text/event-stream; charset=utf-8"
            self._send(http.answer(200, fields, time.time()))
        elif content is None:
            self._send(*http.complaint(404, time.time(), self._keeps, self._server.fields, request.with_body))
        elif http.has_tag(request, content.tag):
            self._send(http.answer(304, {"ETag": content.tag, **fields}, time.time()))
        else:
            fields.update({"Content-Type": content.kind, "Content-Length": str(len(content.body)), "ETag": content.tag})
            self._send(http.answer(200, fields, time.time()), content.body if request.with_body else b"")

    def complain(self, status: int) -> None:
        """Says what is wrong, and ends the connection."""
        self._keeps = False
        self._received.clear()
        self._send(*http.complaint(status, time.time(), False, self._server.fields))

    def _send(self, *parts: bytes) -> None:
        self._answers = True
        self._queue(*parts)
        self._write()

    def _queue(self, *parts: bytes) -> None:
        self.unsent.extend(memoryview(part) for part in parts if part)
        self._ends_in(TAKEN + sum(len(part) for part in parts) / SLOWEST)

    def _write(self) -> None:
        """Sends a part, and watches for the moment of the next."""
        left = PART
        try:
            while self.unsent and left > 0:
                count = self._line.send(self.unsent[0][:left])
                left -= count
                self.unsent[0] = self.unsent[0][count:]
                if not self.unsent[0]:
                    self.unsent.popleft()
        except BlockingIOError:
            pass
        if not self.unsent:
            self._sent()
        self._watch()

    def _sent(self) -> None:
        """Everything that waited is sent."""
        if self._stream is not None:
            self.ends_at = math.inf
            self._top_up(self._stream)
        elif not self._keeps:
            # If a connection is closed with unread bytes it is reset, and the answer may be lost.
            self._line.shutdown(socket.SHUT_WR)
            self._dropped = 0
            self._ends_in(LINGER)
        else:
            self._answers = False
            self._ends_in(WHOLE if self._received else IDLE)
            if self._received:
                self._goes_on = True
                self._server.loop.after(0, lambda: self._server.guard(self, self._go_on))

    def _go_on(self) -> None:
        """The next request may have come with the one before it."""
        self._goes_on = False
        if not (self.closed or self._answers):
            self._take_request()
        if not (self.closed or self._answers):
            self._watch()

    def _top_up(self, stream: Stream) -> None:
        more = stream.more()
        if more:
            self._queue(more)

    def fill(self) -> None:
        """Sends the next events, if there are any and those before them are sent."""
        if self._stream is not None and not self.unsent and not self.closed:
            self._top_up(self._stream)
            if self.unsent:
                self._write()

    # How it ends.

    def too_late(self) -> None:
        """Its time is over."""
        if self._received and not self._answers:
            self.complain(408)
        else:
            self.close()

    def close(self) -> None:
        """Ends the connection, whatever it is doing."""
        self._server.readers.pop(self, None)
        self._stream = None
        self.unsent.clear()
        if not self.closed:
            try:
                self._server.loop.forget(self._line.fileno())
            finally:
                self._line.close()


class Server:
    """Listens at an address, and answers requests for one of the names. Its readers are kept in the order in which they came.

    `trouble` gets errors that should never happen: each ends one reader's connection, and nothing else.
    """

    def __init__(self, loop: Turns, door: Door, site: Site, trouble: Callable[[str], None]) -> None:
        self.loop, self.names, self.password, self.site, self._trouble = loop, door.names, door.password, site, trouble
        self.fields = http.for_a_site(door.embed)
        self.readers: Dict[Reader, None] = {}
        self._line = _listening(door.address)
        self.address = Address(*self._line.getsockname()[:2])
        self._watch()
        self._sweep = loop.after(SWEEP, self._look_again)

    def _watch(self) -> None:
        """Accepts readers from now on, or after a pause if that fails."""
        try:
            if self._line.fileno() >= 0:
                self.loop.watch(self._line.fileno(), lambda: self._safely(self._accept))
        except Exception:
            self._trouble(traceback.format_exc())
            self.loop.after(SWEEP, self._watch)

    def _accept(self) -> None:
        room = self._room()
        for _ in range(ACCEPTED_IN_A_TURN):
            try:
                line, address = self._line.accept()
            except BlockingIOError:
                return
            except OSError as error:
                if error.errno in NO_MORE_ROOM:
                    # It can't be accepted now, and would be ready all the time.
                    self.loop.forget(self._line.fileno())
                    self.loop.after(SWEEP, self._watch)
                    return
                continue
            try:
                self._take(line, host_of(address[0]), room)
            except OSError:
                line.close()

    def _room(self) -> Room:
        """How many readers are allowed."""
        room = room_now(len(self.readers))
        return Room(min(MOST_READERS, room.readers), room.turned_away)

    def _take(self, line: socket.socket, host: str, room: Room) -> None:
        line.setblocking(False)
        line.setsockopt(socket.IPPROTO_TCP, socket.TCP_NODELAY, 1)
        places = share(room.readers)
        if len(self._served(host)) >= places:
            self._make_place(self._served(host))
        elif len(self._served()) >= room.readers:
            self._make_place(self._served())
        has_room = len(self._served()) < room.readers and len(self._served(host)) < places
        if not has_room and len(self.readers) - len(self._served()) >= room.turned_away:
            turn_away(line, self.fields)
            return
        reader = Reader(self, line, host if has_room else "")
        self.readers[reader] = None
        if not has_room:
            self.guard(reader, lambda: reader.complain(503))

    def _served(self, host: str = "") -> List[Reader]:
        """The readers that have a place, all or those behind an address."""
        return [reader for reader in self.readers if reader.host and host in ("", reader.host)]

    def _make_place(self, readers: Iterable[Reader]) -> None:
        """Ends one of these that gives way, the oldest of those that go first, if any does."""
        going = [(order, number, reader) for number, reader in enumerate(readers) for order in [reader.gives_way] if order is not None]
        if going:
            self._drop(min(going)[2])

    def guard(self, reader: Reader, call: Callable[[], None]) -> None:
        """Any error with a reader ends this connection, and never the recorder."""
        try:
            call()
        except OSError:
            self._drop(reader)
        except Exception:
            self._trouble(traceback.format_exc())
            self._drop(reader)

    def _drop(self, reader: Reader) -> None:
        self._safely(reader.close)

    def _safely(self, call: Callable[[], None]) -> None:
        """Reports an error, which ends nothing."""
        try:
            call()
        except Exception:
            self._trouble(traceback.format_exc())

    def wake(self) -> None:
        """There may be new events, and new boards."""
        self._safely(self._make_room)
        for reader in list(self.readers):
            self.guard(reader, reader.fill)

    def _look_again(self) -> None:
        self._sweep = self.loop.after(SWEEP, self._look_again)
        self._safely(self._look)

    def _look(self) -> None:
        """Ends connections that are too late, or for which too much waits."""
        now = self.loop.now()
        for reader in [reader for reader in self.readers if reader.ends_at <= now]:
            self.guard(reader, reader.too_late)
        waiting = sorted((reader for reader in self.readers if reader.unsent), key=lambda reader: reader.ends_at)
        while waiting and _unsent(waiting) > MOST_UNSENT:
            self._drop(waiting.pop(0))
        self.wake()

    def _make_room(self) -> None:
        """Boards that have begun since readers connected may need their descriptors: idle readers go first, then the oldest."""
        room = self._room()
        too_many = len(self.readers) - room.readers - room.turned_away
        for reader in sorted(self.readers, key=lambda reader: not reader.idle)[: max(0, too_many)]:
            self._drop(reader)

    def close(self) -> None:
        """Ends all connections."""
        self._sweep.cancel()
        for reader in list(self.readers):
            reader.close()
        if self._line.fileno() >= 0:
            self.loop.forget(self._line.fileno())
            self._line.close()


def host_of(address: str) -> str:
    """A reader's address, the same for IPv4 and IPv6."""
    mapped = ipaddress.IPv6Address(address.partition("%")[0]).ipv4_mapped if ":" in address else None
    return str(mapped or address)


def share(readers: int) -> int:
    """How many of these places one address may have: nearly all, since it may be the router of a school, or a server that passes
    requests on."""
    return max(1, readers * 15 // 16)


def turn_away(line: socket.socket, fields: Mapping[str, str]) -> None:
    """Answers that there are too many readers, and hangs up at once."""
    try:
        line.send(b"".join(http.complaint(503, time.time(), False, fields)))
        line.shutdown(socket.SHUT_WR)
    finally:
        line.close()


def _unsent(readers: "list[Reader]") -> int:
    """The bytes that are buffered for these readers."""
    kept = {id(part.obj): memoryview(part.obj).nbytes for reader in readers for part in reader.unsent}
    return sum(kept.values())


def _listening(address: Address) -> socket.socket:
    """A socket that listens there. Refused if that fails."""
    line: Optional[socket.socket] = None
    try:
        family, kind, protocol, _, where = socket.getaddrinfo(
            address.host, address.port, type=socket.SOCK_STREAM, flags=socket.AI_NUMERICHOST
        )[0]
        line = socket.socket(family, kind, protocol)
        line.setsockopt(socket.SOL_SOCKET, socket.SO_REUSEADDR, 1)
        line.setsockopt(socket.SOL_SOCKET, socket.SO_SNDBUF, KERNEL_BUFFER)
        line.setsockopt(socket.SOL_SOCKET, socket.SO_RCVBUF, KERNEL_BUFFER)
        line.bind(where)
        line.listen(MOST_READERS)
        line.setblocking(False)
        return line
    except OSError as error:
        if line is not None:
            line.close()
        reasons = {
            errno.EADDRINUSE: Message("page.port_taken", port=address.port),
            errno.EADDRNOTAVAIL: Message("page.no_address", host=address.host),
            errno.EACCES: Message("page.port_kept", port=address.port),
        }
        reason = reasons.get(error.errno or 0, error.strerror or str(error))
        raise Refused(FAILED, Message("page.not_served", address=address.text, why=reason)) from None
