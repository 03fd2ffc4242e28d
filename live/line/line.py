"""The line of a board: a device here, named by its cable, and how it is opened, read, asked and closed; or a TCP connection to a serial server,
`tcp://HOST:PORT`, that is made, read, asked and closed without waiting; and what waits until a board is behind that, which is pure.

A serial server may have another program's line, say that it is in use, or be no serial server at all. So nothing goes into a
capture before a board has answered. Whatever sends faster than a board's line can is no board, and would fill the capture."""

from __future__ import annotations

import contextlib
import errno
import fcntl
import os
import pwd
import re
import socket
import stat
import termios
from dataclasses import dataclass, field
from typing import Callable, Dict, List, Optional, Tuple, Union

from live.run.loop import Guard, Timer, Worker
from live.run.refused import DGT_LIVE, FAILED, Refused, recorded_elsewhere
from live.run.system import locked
from live.words.message import Message

SCHEME = "tcp://"
HOW = Message("device.address_how")
HIGHEST_PORT = 65535
LONGEST_HOST = 253
_FORM = re.compile(r"(?i:tcp)://(?:\[([0-9A-Fa-f:.%\w-]+)\]|([^\[\]:/?#@\s]+)):([0-9]{1,5})/?")
_NO_DEVICE = re.compile(r"(?i:tcp):.*|(?:[\w-]+(?:\.[\w-]+)+|(?i:localhost)|\[[0-9A-Fa-f:.]+\]):[0-9]{1,5}/?", re.ASCII)  # pi.local:2001


@dataclass(frozen=True)
class Address:
    """Where a serial server listens for one of its boards."""

    host: str
    port: int

    def __str__(self) -> str:
        return f"{SCHEME}{f'[{self.host}]' if ':' in self.host else self.host}:{self.port}"


def is_network(device: str) -> bool:
    """Whether a device is the address of a serial server, well written or not."""
    return bool(_NO_DEVICE.fullmatch(device))


def read_address(device: str) -> Optional[Address]:
    """The address; None if it is malformed. Hosts are the same in small and capital letters."""
    found = _FORM.fullmatch(device)
    if not found:
        return None
    host, port = (found.group(1) or found.group(2)).lower(), int(found.group(3))
    return Address(host, port) if 0 < port <= HIGHEST_PORT and len(host) <= LONGEST_HOST else None


CONNECTS_IN = 5.0  # seconds that one address of a host may take
IDLE = 5  # seconds without a byte after which the other end is asked whether it is there
ASKED_EACH, ASKED = 2, 3  # seconds between two such questions, and how many are left unanswered
USER_TIMEOUT = 18  # TCP_USER_TIMEOUT of Linux
UNANSWERED = 10_000  # milliseconds that a request may stay without an answer of the other system
HUNG_UP = Message("device.hung_up")
Place = Tuple[int, Tuple[object, ...]]  # a family, and an address for it


class Busy(Exception):
    """Another process records this line."""


def places_of(address: Address, flags: int = 0) -> List[Place]:
    """Where this is. It may wait for the network unless the flags want numbers. Raises OSError."""
    found = socket.getaddrinfo(address.host, address.port, type=socket.SOCK_STREAM, flags=flags)
    return [(family, place) for family, _, _, _, place in found]


def looked_up(address: Address) -> "List[Place] | str":
    """The same, or why it isn't known."""
    try:
        return places_of(address)
    except (OSError, UnicodeError) as error:
        return Message("device.unknown_host", host=address.host, why=getattr(error, "strerror", None) or error)


def lock_of(address: Address) -> socket.socket:
    """A lock that this process has until it is closed. It has no file. Raises Busy if another process has it."""
    lock = socket.socket(socket.AF_UNIX, socket.SOCK_DGRAM)
    try:
        lock.bind(f"\0dgt_live-{address}"[:107].encode())
    except OSError as error:
        lock.close()
        if error.errno == errno.EADDRINUSE:
            raise Busy(str(address)) from None
        raise
    return lock


class NetworkLine:
    """A connection to a serial server, locked for this process."""

    def __init__(self, device: str) -> None:
        self.device = device
        self.number: Optional[int] = None
        self.why = ""  # why it isn't open
        self._socket: Optional[socket.socket] = None
        self._lock: Optional[socket.socket] = None
        self._guard: Optional[Guard] = None  # while it connects
        self._timer: Optional[Timer] = None
        self._worker: Optional[Worker] = None
        self._tried = 0  # places

    def connect(self, guard: Guard, done: Callable[[bool], None]) -> None:
        """Connects, and then calls `done` in the loop with whether it is open. Raises Busy if another process has the line."""
        address = read_address(self.device)
        assert address
        self.hang_up()
        self._lock = self._lock or lock_of(address)
        self._guard = guard
        try:
            places = places_of(address, socket.AI_NUMERICHOST)
        except (OSError, UnicodeError):
            self._look_up(address, guard, done)
        else:
            self._begin(guard, places, done)

    def _look_up(self, address: Address, guard: Guard, done: Callable[[bool], None]) -> None:
        self._worker = worker = Worker(guard)

        def found(places: "List[Place] | str") -> None:
            worker.close()
            if self._worker is worker:
                self._worker = None
                if isinstance(places, str):
                    self._fails(places, done)
                else:
                    self._begin(guard, places, done)

        worker.do(lambda: looked_up(address), found)

    def _begin(self, guard: Guard, places: List[Place], done: Callable[[bool], None]) -> None:
        """Begins to connect to the next of these places: at each try another one."""
        family, place = places[self._tried % len(places)]
        self._tried += 1
        self._socket = line = socket.socket(family, socket.SOCK_STREAM)
        line.setblocking(False)
        number = line.fileno()
        error = line.connect_ex(place)
        if error not in (0, errno.EINPROGRESS):
            self._fails(os.strerror(error), done)
            return

        def connected() -> None:
            guard.forget(number)
            error = line.getsockopt(socket.SOL_SOCKET, socket.SO_ERROR)
            if error:
                self._fails(os.strerror(error), done)
            else:
                self._stop_waiting()
                _set_up_connection(line)
                self.number, self.why = number, ""
                done(True)

        def late() -> None:
            self._timer = None
            self._fails(Message("device.no_answer", seconds=format(CONNECTS_IN, ".0f")), done)

        guard.watch(number, writable=connected)
        self._timer = guard.after(CONNECTS_IN, late)

    def _fails(self, why: str, done: Callable[[bool], None]) -> None:
        self.close()
        self.why = why[:1].lower() + why[1:]
        done(False)

    def read(self) -> Optional[bytes]:
        """What has come, or None if the connection has ended."""
        assert self._socket
        try:
            sent = self._socket.recv(4096)
        except BlockingIOError:
            return b""
        except OSError as error:
            self.why = (error.strerror or str(error)).lower()
            return None
        if not sent:
            self.why = HUNG_UP
        return sent or None

    def ask(self, request: bytes) -> None:
        """Sends this. A failure shows at the next read, or as the board's silence."""
        if self._socket and self.number is not None and request:
            try:
                self._socket.send(request)
            except OSError:
                pass

    def _stop_waiting(self) -> None:
        if self._timer:
            self._timer.cancel()
        if self._worker:
            self._worker.close()
        self._timer = self._worker = self._guard = None

    def hang_up(self) -> None:
        """Closes the connection, also while it is being made, and keeps the lock."""
        line, guard = self._socket, self._guard
        connects = self.number is None
        self._socket = self.number = None
        self._stop_waiting()
        if line:
            if guard and connects:
                guard.forget(line.fileno())
            line.close()

    def close(self) -> None:
        """Closes it, and gives up the lock."""
        lock, self._lock = self._lock, None
        try:
            self.hang_up()
        finally:
            if lock:
                lock.close()


def _set_up_connection(line: socket.socket) -> None:
    """A request goes at once, and a server that has gone away without a word is noticed within ten seconds or so."""
    line.setsockopt(socket.IPPROTO_TCP, socket.TCP_NODELAY, 1)
    line.setsockopt(socket.SOL_SOCKET, socket.SO_KEEPALIVE, 1)
    line.setsockopt(socket.IPPROTO_TCP, socket.TCP_KEEPIDLE, IDLE)
    line.setsockopt(socket.IPPROTO_TCP, socket.TCP_KEEPINTVL, ASKED_EACH)
    line.setsockopt(socket.IPPROTO_TCP, socket.TCP_KEEPCNT, ASKED)
    line.setsockopt(socket.IPPROTO_TCP, USER_TIMEOUT, UNANSWERED)


RATE = 1920  # bytes a second: twice what a board's line carries
AT_ONCE = 65536  # bytes that may come together after the network has held them up
KEPT = 4096  # bytes that wait for the first dump, beside those that weren't tried yet; the oldest go first
LONGEST_SHOWN = 60  # characters of what a server says


@dataclass
class Trial:
    """One connection to a serial server, from its beginning."""

    begun_at: float
    has_answered: bool = False
    _waits: List[bytes] = field(default_factory=list)
    _tried: int = 0  # bytes of these in which no dump has ended
    _level: float = 0.0  # bytes that came, less what the rate allows
    _level_at: float = 0.0

    def is_flood(self, now: float, size: int) -> bool:
        """So many bytes have come. Whether no board can have sent them."""
        spent = max(0.0, now - max(self._level_at, self.begun_at)) * RATE
        self._level = max(0.0, self._level - spent) + size
        self._level_at = now
        return self._level > AT_ONCE

    def came(self, sent: bytes) -> None:
        """This has come, and waits."""
        self._waits.append(sent)

    def passes(self, size: int, dumped: bool) -> bytes:
        """What can be passed on now that the next bytes were tried, so many, and a dump has ended in them or not."""
        self._tried += size
        if dumped:
            self.has_answered = True
            passed, self._waits = b"".join(self._waits), []
            return passed
        while self._tried > KEPT and len(self._waits) > 1:
            self._tried -= len(self._waits.pop(0))
        return b""

    @property
    def is_tried(self) -> bool:
        """Whether all that waits was tried."""
        return self._tried == sum(map(len, self._waits))

    @property
    def said(self) -> str:
        """What came instead of a dump, if it is text: a serial server says so why it hangs up."""
        text = " ".join(b"".join(self._waits).decode("ascii", "replace").split())
        return text[:LONGEST_SHOWN] if text.isprintable() and "\ufffd" not in text else ""


SEE_DEVICES = Message("device.see_devices", dgt_live=DGT_LIVE)
PLUGGED = ("ttyUSB", "ttyACM", "rfcomm")  # how the names of their devices begin; the last is a Bluetooth board's
CONTROLLING_TERMINAL = os.makedev(5, 0)  # the number of /dev/tty, under any name
BUSY_PATIENCE = 3.0  # seconds: a call that was just killed may still hold the lock


def serial_folder() -> str:
    """Where the system keeps the names of cables. The devices themselves are in the folder above it."""
    return os.environ.get("DGT_LIVE_SERIAL", "/dev/serial").rstrip("/")


def serial_folders() -> List[str]:
    """The names of cables: first by the cable itself, then by its socket."""
    return [f"{serial_folder()}/by-id", f"{serial_folder()}/by-path"]


def names_in(folder: str) -> List[str]:
    """The paths in a folder, in order; none if it can't be listed, as when the last cable is pulled."""
    try:
        return [f"{folder}/{name}" for name in sorted(os.listdir(folder))]
    except OSError:
        return []


def serial_names() -> Dict[str, str]:
    """The names of the cables that are plugged in, first by the cable itself, each with its device. Each is looked up once, since it
    may go meanwhile."""
    found = {name: os.path.realpath(name) for folder in serial_folders() for name in names_in(folder)}
    return {name: device for name, device in found.items() if os.path.exists(device)}


def cable_name(device: str) -> str:
    """The name of a device's cable, which stays when the device's number changes; the device itself if there is no such name."""
    if os.path.dirname(device) in serial_folders():
        return device
    wanted = os.path.realpath(device)
    return next((name for name, place in serial_names().items() if place == wanted), device)


def devices() -> List[Tuple[str, str]]:
    """Each device that may be a board, with the name of its cable, or an empty one."""
    plugged = [name for name in names_in(os.path.dirname(serial_folder())) if os.path.basename(name).startswith(PLUGGED)]
    places = [os.path.realpath(name) for name in plugged]
    found = {device: "" for device in places if os.path.exists(device)}
    for name, device in serial_names().items():
        found[device] = found.get(device) or name
    return sorted(found.items())


def login_name() -> str:
    """The name of the user who runs this."""
    try:
        return pwd.getpwuid(os.getuid()).pw_name
    except KeyError:
        return "NAME"


def may_not_open(device: str, user: str) -> str:
    """The message if the system doesn't let this user open the device."""
    return Message("device.may_not_open", device=device, user=user)


def is_own_terminal(line: int) -> bool:
    """Whether an open device is this call's terminal: the one that sends its Ctrl-C, or one of its standard streams."""
    with contextlib.suppress(OSError):
        os.tcgetpgrp(line)  # only the controlling terminal answers
        return True
    for stream in (0, 1, 2):
        with contextlib.suppress(OSError):
            if os.isatty(stream) and os.path.samestat(os.fstat(line), os.fstat(stream)):
                return True
    return False


class SerialLine:
    """An open device: 9,600 baud, eight bits, no parity, one stop bit, raw, and locked for this process."""

    def __init__(self, device: str) -> None:
        self.device = device
        self.number: Optional[int] = None
        self.why = ""  # nothing more is known than that it isn't there

    def open(self) -> bool:
        """Opens it if it is there, and returns whether it is open. Raises Busy if another process has it."""
        try:
            number = os.open(self.device, os.O_RDWR | os.O_NOCTTY | os.O_NONBLOCK)
        except OSError:
            return False
        try:
            if not is_own_terminal(number):
                fcntl.flock(number, fcntl.LOCK_EX | fcntl.LOCK_NB)
                _set_up(number)
                self.number = number
        except BlockingIOError:
            raise Busy(self.device) from None
        except (OSError, termios.error):
            pass
        finally:
            if self.number is None:
                os.close(number)
        return self.number is not None

    def read(self) -> Optional[bytes]:
        """What has come, or None if the device has gone away."""
        assert self.number is not None
        try:
            return os.read(self.number, 4096) or None
        except BlockingIOError:
            return b""
        except OSError:
            return None

    def ask(self, request: bytes) -> None:
        """Sends this. A failure shows at the next read, or as the board's silence."""
        if self.number is not None and request:
            try:
                os.write(self.number, request)
            except OSError:
                pass

    def close(self) -> None:
        number, self.number = self.number, None
        if number is None:
            return
        try:
            fcntl.flock(number, fcntl.LOCK_UN)  # even if the close fails, this process keeps no lock
        finally:
            os.close(number)


def _set_up(number: int) -> None:
    mode = termios.tcgetattr(number)
    mode[0:4] = [0, 0, termios.CS8 | termios.CREAD | termios.CLOCAL, 0]
    mode[4] = mode[5] = termios.B9600
    mode[6][termios.VMIN], mode[6][termios.VTIME] = 1, 0
    termios.tcsetattr(number, termios.TCSANOW, mode)


Line = Union[SerialLine, NetworkLine]


def line_of(device: str) -> Line:
    """The line of this device, which isn't open yet."""
    return NetworkLine(device) if is_network(device) else SerialLine(device)


def check(device: str, may_wait: bool) -> None:
    """Refused if it can't be the line of a board. A missing device may be waited for; a serial server always may."""
    if is_network(device):
        if read_address(device) is None:
            raise Refused(FAILED, Message("device.no_address", device=device, how=HOW))
        return
    try:
        found = os.stat(device)
    except FileNotFoundError:
        if may_wait:
            return
        raise Refused(FAILED, Message("device.missing", device=device, see_devices=SEE_DEVICES)) from None
    except OSError as error:
        raise Refused(FAILED, Message("device.not_looked_at", device=device, why=error.strerror, see_devices=SEE_DEVICES)) from None
    if not stat.S_ISCHR(found.st_mode):
        raise Refused(FAILED, Message("device.is_no_device", device=device, dgt_live=DGT_LIVE))
    if found.st_rdev == CONTROLLING_TERMINAL:
        raise Refused(FAILED, Message("device.is_terminal", device=device, see_devices=SEE_DEVICES))
    try:
        line = os.open(device, os.O_RDWR | os.O_NOCTTY | os.O_NONBLOCK)
    except PermissionError:
        raise Refused(FAILED, may_not_open(device, login_name())) from None
    except OSError:
        if may_wait:
            return
        raise Refused(FAILED, Message("device.not_opened", device=device, see_devices=SEE_DEVICES)) from None
    try:
        if not os.isatty(line):
            raise Refused(FAILED, Message("device.no_serial_line", device=device, see_devices=SEE_DEVICES))
        if is_own_terminal(line):
            raise Refused(FAILED, Message("device.is_terminal", device=device, see_devices=SEE_DEVICES))
    finally:
        os.close(line)


def check_free(device: str) -> None:
    """Refused if another process keeps recording it; one that can't be opened may be waited for."""
    address = read_address(device)
    if address:
        try:
            lock_of(address).close()
        except Busy:
            raise Refused(FAILED, recorded_elsewhere(device)) from None
    if is_network(device):
        return
    try:
        line = os.open(device, os.O_RDWR | os.O_NOCTTY | os.O_NONBLOCK)
    except OSError:
        return
    try:
        if not locked(line, BUSY_PATIENCE):
            raise Refused(FAILED, recorded_elsewhere(device))
    finally:
        os.close(line)


def same_line(device: str) -> str:
    """The same text for each name of a device, or of an address."""
    return str(read_address(device) or device) if is_network(device) else os.path.realpath(device)
