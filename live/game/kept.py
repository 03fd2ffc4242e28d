"""What is kept of a board, by the process that has locked it: NAME.dgt, which only grows, and NAME.times beside it, which says when its bytes came.
Whatever goes wrong with the times costs times, and never a move.

What happens is noted by the loop, and may be written by a worker too, while a typed line is obeyed: so a lock. While a game is
recorded the loop doesn't wait for it.

While a program attends the board of the game, what it is told has the same time here, and stands in the same order.
"""

from __future__ import annotations

import contextlib
import errno
import fcntl
import math
import os
import threading
import time
from dataclasses import dataclass, field
from typing import Callable, List, Optional, Tuple

from live.game import times
from live.game.files import LARGEST, NO_ROOM, AnyPath, Paths, drop, existing, folder_of, new_of, open_new, open_regular, part_of, put_in_place, remove, sync_folder, text_of, write_all
from live.game.times import Began, BeganFile, as_written, began_line, part_line, this_start
from live.line.protocol import DUMP_SIZE
from live.run.loop import Guard, Loop
from live.run.refused import FAILED, REFUSED, Refused, recorded_elsewhere
from live.run.system import locked
from live.words.message import Message

MEMORY = 1024 * 1024  # bytes that are kept in memory while they can't be written
LOCK_PATIENCE = 3.0  # seconds: a call that was just killed may still have the lock
TRIES_AGAIN = 1.0  # seconds after a write has failed
MOST_WAIT = 1000  # events that wait for the first bytes of a capture
AT_ONCE = 65536  # bytes of a capture that the program may be told as a whole, though no times of theirs are known
OFTEN = (times.HEARD, times.ASKED)  # a move comes in several reads
LATE = 20  # milliseconds from an event to its line


class Recorded(Refused):
    """Another process records this game."""


class Capture:
    """NAME.dgt, open and locked. What can't be written is kept in memory, and tried again."""

    def __init__(self, path: str, number: int) -> None:
        self.path = path
        self.number = number
        self.size = os.fstat(number).st_size
        self.pending = b""
        self._written, self._written_at = b"", -1  # what was written last, and where it begins
        self.lost = 0  # bytes that were dropped because the memory for them was full
        self.lacks = False  # whether the program has some of them
        self.limit: Optional[int] = LARGEST
        self.trouble = ""  # why something waits, in the system's words
        self.full = False  # and whether that is for want of room

    @staticmethod
    def open(path: str, patience: float = LOCK_PATIENCE) -> Capture:
        """Refused if it can't be written, or if another process records it."""
        try:
            while True:
                number = open_regular(path, os.O_RDWR | os.O_APPEND | os.O_CREAT)
                try:
                    if not locked(number, patience):
                        raise Recorded(REFUSED, Message("name.recorded_elsewhere", recorded=recorded_elsewhere(path)))
                    if _has_name(number, path):
                        if not os.fstat(number).st_size:
                            sync_folder(folder_of(path))  # it may be new: no other file of the game is there without it
                        return Capture(path, number)
                except BaseException:
                    os.close(number)
                    raise
                os.close(number)  # the last owner of the lock has put a new file in its place
        except OSError as error:
            if isinstance(error, PermissionError):
                raise Refused(FAILED, Message("name.no_right", path=path, why=text_of(error))) from None
            raise Refused(FAILED, Message("name.unwritable", path=path, why=text_of(error))) from None

    @staticmethod
    def begin(path: str, content: bytes) -> Capture:
        """A new capture with this content, put in place at once: so it never exists without it."""
        new = new_of(path)
        number = open_new(new, os.O_RDWR | os.O_APPEND)
        try:
            fcntl.flock(number, fcntl.LOCK_EX | fcntl.LOCK_NB)
            write_all(number, content)
            capture = Capture(path, number)
            os.replace(new, path)
            with contextlib.suppress(OSError):  # it is in place, even if a later step fails
                sync_folder(folder_of(path))
            return capture
        except BaseException:
            os.close(number)
            drop(new)
            raise

    def renew(self, content: bytes) -> None:
        """Replaces the file's content at once. On an OSError the file stays as it was."""
        new = Capture.begin(self.path, content)
        os.close(self.number)
        self.number, self.size, self._written_at = new.number, new.size, -1

    def take_back(self, kept: AnyPath) -> None:
        """If another file has taken this one's place, the `kept` one takes it at once, which has the same content: so this needs no room.
        Raises OSError on failure."""
        if _has_name(self.number, self.path):
            return
        number = open_regular(kept, os.O_RDWR | os.O_APPEND)
        try:
            fcntl.flock(number, fcntl.LOCK_EX | fcntl.LOCK_NB)
            os.replace(kept, self.path)
        except BaseException:
            os.close(number)
            raise
        os.close(self.number)
        self.number, self.size, self._written_at = number, os.fstat(number).st_size, -1
        sync_folder(folder_of(self.path))

    @property
    def waits(self) -> bool:
        """Whether something waits in memory."""
        return bool(self.pending)

    @property
    def total(self) -> int:
        """The bytes of the file, and those that wait in memory."""
        return self.size + len(self.pending)

    @property
    def at_limit(self) -> bool:
        return self.limit is not None and self.size >= self.limit

    def has_room(self, count: int) -> bool:
        """Whether so many bytes more are within the limit."""
        return self.limit is None or self.size + count < self.limit

    def append(self, sent: bytes) -> int:
        """Appends to the file, or keeps this for the next try if that fails. What is past the limit is dropped. Returns how many bytes
        aren't."""
        room = (MEMORY if self.limit is None else min(MEMORY, self.limit - self.size)) - len(self.pending)
        kept = sent[: max(0, room)]
        self.pending += kept
        self.write()
        if len(kept) < len(sent):
            self.lost += len(sent) - len(kept)
            self.lacks = self.lacks or not self.at_limit
        return len(kept)

    def write(self) -> None:
        """Writes what waits, as far as possible."""
        try:
            while self.pending:
                count = os.write(self.number, self.pending)
                self._written, self._written_at = self.pending[:count], self.size
                self.size, self.pending = self.size + count, self.pending[count:]
            self.trouble, self.full = "", False
        except OSError as error:
            self.trouble, self.full = text_of(error), error.errno in NO_ROOM

    def read(self, offset: int, count: int) -> bytes:
        """At most this many bytes, from an offset on. What was just written is still in memory."""
        if offset == self._written_at and count >= len(self._written):
            return self._written
        return os.pread(self.number, count, offset)

    def bytes(self, start: int = 0, end: Optional[int] = None) -> bytes:
        """The file's bytes from one offset to another."""
        return part_of(self.number, start, self.size if end is None else end)

    def sync(self) -> None:
        os.fsync(self.number)

    def close(self) -> None:
        """Closes it, once."""
        number, self.number = self.number, -1
        if number >= 0:
            try:
                fcntl.flock(number, fcntl.LOCK_UN)  # even if the close fails, this process keeps no lock
            finally:
                os.close(number)


def _has_name(number: int, path: str) -> bool:
    """Whether this open file still has that name."""
    try:
        return os.path.samestat(os.fstat(number), os.stat(path))
    except FileNotFoundError:
        return False


def open_game(paths: Paths, patience: float = LOCK_PATIENCE) -> Capture:
    """The capture of a game, new or old."""
    if not os.path.isdir(paths.folder):
        raise Refused(FAILED, Message("name.no_folder", folder=paths.folder))
    try:
        if os.path.exists(paths.pgn) and not os.path.exists(paths.capture):
            raise Refused(REFUSED, Message("name.text_alone", pgn=paths.pgn, capture=paths.capture))
    except OSError as error:
        raise Refused(FAILED, Message("name.unwritable", path=paths.capture, why=text_of(error))) from None
    return Capture.open(paths.capture, patience)


def milliseconds() -> int:
    """The time of all that is noted, and of what a program is told: by a clock that counts on while the computer sleeps."""
    return int(Loop.counting() * 1000)


@dataclass(frozen=True)
class Begun:
    """A call begins in which a program attends the board: when, by the clock; for how many milliseconds nobody was there before, if
    that is known; and all lines from before."""

    at: int
    away: Optional[int]
    content: bytes


@dataclass
class ThisCall:
    """The present call: when it began, by the clock, and nothing is noted before; the lines that say so, as long as nothing has happened in it;
    for how many milliseconds nobody was there before, if that is known; when the last thing happened; and how the line was then. Whether
    a program attends the board, that is told what is noted; when it was told what happens now, unless that is noted; and for how long
    this recorder was away by then."""

    began: Optional[int] = None
    begun: List[times.Happened] = field(default_factory=list)
    away: Optional[int] = None
    at: int = 0
    line: Tuple[str, ...] = ()
    is_attended: bool = False
    reached: Optional[int] = None
    was_away: float = 0.0


@dataclass
class TimesFile:
    """The file, and the one beside it about its calls: its descriptor, while it is open, and the bytes of its lines. Whether no file can be the
    capture's; whether it is known what stands in it; whether there is one that must be kept beside."""

    calls: BeganFile
    number: Optional[int] = None
    size: int = 0
    is_new: bool = False
    is_read: bool = False
    is_foreign: bool = False


@dataclass
class Unwritten:
    """What is still to be written, and the beginning of the call to which the first of it belongs, by the clock. Why it can't be written, whether
    something was lost by that, and when it is tried again."""

    events: List[times.Happened] = field(default_factory=list)
    since: int = 0
    trouble: str = ""
    is_lost: bool = False
    again: float = -math.inf


class Times:
    """When the bytes of a game's capture came, and what else happened."""

    def __init__(self, paths: Paths, capture: Capture) -> None:
        self._paths, self._capture = paths, capture
        self._lock = threading.Lock()
        self._guard: Optional[Guard] = None
        self._says: Callable[[str], None] = lambda text: None
        self._told: List[str] = []  # to be said
        self.unexpected: Tuple[str, ...] = ()  # errors that aren't the system's
        self.generation = 0  # how often the game has gone back
        self.call, self._file, self._unwritten = ThisCall(), TimesFile(BeganFile(paths.began)), Unwritten()
        self._is_aside = False  # whether the capture is just becoming another one

    @property
    def _path(self) -> str:
        return times_of(self._capture.path)

    # What is there when a game is opened.

    def look(self, is_new: bool = False) -> None:
        """Reads what is there; beside a capture that is new, nothing is its. This changes nothing, but that a file goes back into
        place that a killed call had set aside."""
        with self._lock:
            self._file.is_new = is_new
            self._look_once()

    def _look_once(self) -> None:
        try:
            if not self._file.is_read and not self._unwritten.trouble:
                self._look()
        except Exception as error:
            self._fails(error)

    def _look(self) -> None:
        self._file.size, self._file.is_foreign, self.call.away = 0, False, None
        path = self._path
        if os.path.islink(path):
            raise OSError(errno.ELOOP, Message("file.is_link", path=os.path.basename(path)))
        self._come_back()
        content = existing(path)
        found = times.kept(content) if len(content) < LARGEST else None
        self.generation = self._gone_back()
        if isinstance(found, times.Kept) and self._is_ours(found):
            self.generation, self._file.size, self.call.away = found.generation, found.ends, self._since_written()
            self._told += times.told_of(found, path, len(content), self._capture.path, self._capture.size)
        elif content:
            self._file.is_foreign = True
            is_newer = isinstance(found, times.Newer)
            why = Message("times.of_newer") if is_newer else Message("times.of_another") if found else Message("times.unreadable")
            self._told.append(Message("times.set_aside", path=path, why=why, kept=self._beside(), nothing=times.NOTHING))
        elif self._capture.size and not self._file.is_new:
            self._told.append(Message("times.missing", path=path, count=self._capture.size, nothing=times.NOTHING))
        self._file.is_read = True

    def _is_ours(self, found: times.Kept) -> bool:
        size = self._capture.size
        return not self._file.is_new and 0 < size >= found.size and times.digest(self._capture.bytes(0, found.size)) == found.digest

    def _since_written(self) -> Optional[int]:
        """The milliseconds since the file was last written; None if the computer's clock was put back."""
        seconds = time.time() - os.stat(self._path).st_mtime
        return int(seconds * 1000) if seconds >= 0 else None

    def _come_back(self) -> None:
        """A call that was killed had set the file aside, and the game hasn't gone back."""
        before = self._paths.last_before_back
        if before and self._is_still(before):
            self._back_from(before)

    def _gone_back(self) -> int:
        """How often the game has gone back, by the captures that were kept."""
        number = 0
        while os.path.lexists(self._paths.before_back(number + 1)):
            number += 1
        return number - (number > 0 and self._is_still(self._paths.before_back(number)))

    def _is_still(self, before: str) -> bool:
        """Whether the capture that was kept under this name is the game's still: a call was killed then."""
        return os.path.exists(self._paths.capture) and os.path.samefile(before, self._paths.capture)

    def _beside(self) -> str:
        """Where a file is kept that isn't of this capture."""
        front, number = self._path[: -len("times")], 1
        path = f"{front}other.times"
        while os.path.lexists(path):
            number += 1
            path = f"{front}other-{number}.times"
        return path

    # What happens.

    def attend(self, guard: Guard, says: Callable[[str], None]) -> None:
        """A call begins. What fails is said."""
        self._guard, self._says = guard, says
        self.call.was_away = guard.away.seconds
        guard.opened(self.close)
        self.begin()

    def begin(self, size: Optional[int] = None) -> None:
        """A call begins, or the game goes on from another capture: this is its size."""
        with self._lock:
            self._look_once()
            away = self.call.away if self.call.began is None else 0
            self._begin_at(milliseconds(), self._capture.total if size is None else size, away)

    def _begin_at(self, now: int, size: int, away: Optional[int]) -> None:
        self._reach()
        self.call.begun = self._beginning(now, size, away, self.call.line)
        self.call.began, self.call.at, self.call.away = now, max(self.call.at, now), away
        at = 0 if self._is_aside else len(self._unwritten.events)  # what has come since then is of this call
        self._unwritten.events[at:at] = self.call.begun
        self._is_aside = False

    def _beginning(self, now: int, size: int, away: Optional[int], line: Tuple[str, ...]) -> List[times.Happened]:
        gone: List[times.Happened] = [] if away is None else [(now, times.AWAY, away)]
        return [(now, times.BEGIN, size), *gone, *((now, what, None) for what in line)]

    def attended(self) -> Begun:
        """From now on a program attends the board. For it a call begins: so one begins here too, unless nothing has happened in the
        present one. What it is told after that has lines here, and how the line is belongs to it."""
        is_free = self._lock.acquire(blocking=False)
        self._reach()
        try:
            if is_free and self.call.begun and self._unwritten.events[-len(self.call.begun) :] == self.call.begun:
                del self._unwritten.events[-len(self.call.begun) :]
            else:
                now = max(milliseconds(), self.call.at)
                self.call.began, self.call.at, self.call.away = now, now, now - self.call.at
            content = self._content() if is_free else b""
            if is_free and not content and 0 < self._capture.size <= AT_ONCE:  # what a game begins with is of a call of its own
                self._unwritten.events.append((self.call.at, times.BEGIN, self._capture.size))
                content = self._content()
            self.call.begun = self._beginning(self.call.at, self._capture.total, self.call.away, ())
            self._unwritten.events += self.call.begun
            self.call.is_attended = True
            return Begun(self.call.at, self.call.away, content)
        finally:
            if is_free:
                self._lock.release()

    def _reach(self) -> None:
        """What is noted next happened with what the program was told."""
        if self.call.reached is not None:
            self.call.at, self.call.begun, self.call.reached = max(self.call.at, self.call.reached), [], None

    def left(self, away: float) -> None:
        """The program attends the board no more. It was told of so many seconds in which the recorder was stopped."""
        self._reach()
        self.call.is_attended, self.call.was_away = False, away

    def _content(self) -> bytes:
        """All lines, those too that aren't written yet, unless some before them are lost; empty if they aren't known."""
        if self._file.is_foreign or (self._unwritten.is_lost and not self._file.size):
            return b""
        try:
            return self._written() + times.lines([] if self._unwritten.is_lost else self._unwritten.events, self._unwritten.since)
        except OSError:
            return b""

    def content(self) -> bytes:
        """The same; empty too if the file is just being changed."""
        if not self._lock.acquire(blocking=False):
            return b""
        try:
            return self._content()
        finally:
            self._lock.release()

    def _written(self) -> bytes:
        """What the file has, or will begin with."""
        if not self._file.size:
            first = self._capture.bytes(0, min(times.HEADED, self._capture.size))
            return times.heading(self.generation, first) if first and self._unwritten.events else b""
        number = open_regular(self._path, os.O_RDONLY)
        try:
            return part_of(number, 0, self._file.size)
        finally:
            os.close(number)

    def note(self, what: str, count: Optional[int] = None) -> None:
        """This has happened: now, or with what a program was told that attends the board."""
        if self.call.began is None:
            return
        self._reach()
        if not self.call.is_attended:
            self.call.at = max(self.call.at, milliseconds())
            self._note_away()
        if count is None:
            self.call.line = times.line_after(self.call.line, what)
        self.call.begun = []
        self._unwritten.events.append((self.call.at, what, count))

    def _note_away(self) -> None:
        if self._guard and self._guard.away.seconds > self.call.was_away:
            before, self.call.was_away = self.call.was_away, self._guard.away.seconds
            self._unwritten.events.append((self.call.at, times.STOPPED, int((self.call.was_away - before) * 1000)))

    def happened(self, what: str, count: Optional[int] = None) -> None:
        """The same, in the loop: it is written at once; what comes often, within a second."""
        self.note(what, count)
        if self._file.number is None or what not in OFTEN:
            self.wake()

    def wake(self) -> None:
        """Writes what has happened, and says what fails. Call this each second."""
        self.write()
        if self._told:
            self._tell()

    def over(self, size: int) -> None:
        """The game is over: it is this many bytes of the capture."""
        self.happened(times.OVER, size)

    def next(self, paths: Paths, capture: Capture) -> Times:
        """Those of a new capture of the same board."""
        new = Times(paths, capture)
        new.look(is_new=True)
        new.call.line = self.call.line
        return new

    def _tell(self) -> None:
        told, self._told = self._told, []
        if self._guard:
            for text in told:
                self._says(text)
        else:
            self._told = told

    @property
    def told(self) -> List[str]:
        """What is still to be said, of a game that nobody records."""
        return self._told

    # How it is written.

    def write(self) -> None:
        """Writes what has happened, unless a worker is just writing."""
        if self._lock.acquire(blocking=False):
            try:
                self._write()
            finally:
                self._lock.release()

    def _write(self) -> None:
        if self.call.began is None or self._is_aside or not (self._unwritten.events or self._unwritten.is_lost):
            return
        if self._file.number is None and not self._file.size and self._capture.size < DUMP_SIZE and len(self._unwritten.events) < MOST_WAIT:
            return  # the heading waits for the first dump
        if self._unwritten.trouble and Loop.now() < self._unwritten.again:
            self._lose()
            return
        try:
            self._put()
        except Exception as error:
            self._fails(error)

    def _put(self) -> None:
        if not self._file.is_read:
            self._look()
        number = self._open() if self._file.number is None or self._unwritten.is_lost else self._file.number
        if self._unwritten.is_lost:
            self._begin_again()
        events = self._unwritten.events[:]
        first = b"" if self._file.size else self._capture.bytes(0, min(times.HEADED, self._capture.size))
        heading = b"" if self._file.size else times.heading(self.generation, first)
        content = heading + times.lines(events, self._unwritten.since)
        if self._file.size + len(content) > LARGEST:
            raise OSError(errno.EFBIG, Message("times.full"))
        self._keep_begins(events, self._file.size + len(heading))
        if os.write(number, content) < len(content):
            raise OSError(errno.ENOSPC, os.strerror(errno.ENOSPC))
        self._keep_part(self._file.size, content)
        self._file.size += len(content)
        late = milliseconds() - events[-1][0] if events else 0
        if late >= LATE:  # the file is as old as its last line: from there on nobody is known to have been there
            at = time.time_ns() - late * 1_000_000
            with contextlib.suppress(OSError):  # of another user's file
                os.utime(number, ns=(at, at))
        del self._unwritten.events[: len(events)]
        self._unwritten.since = max((at for at, what, _ in events if what == times.BEGIN), default=self._unwritten.since)
        if self._unwritten.is_lost:
            self._told.append(Message("file.written_again", path=self._path))
        self._unwritten.trouble, self._unwritten.is_lost = "", False

    def _keep_begins(self, events: List[times.Happened], size: int) -> None:
        """Keeps when calls begin, before the lines that say that they do: those come at the end of a file of this size."""
        lines = []
        for number, (at, what, _) in enumerate(events):
            if what == times.BEGIN:
                begin = (self.generation, size + len(times.lines(events[:number], self._unwritten.since)))
                lines.append(began_line(begin, Began(at, this_start())))
        if lines:
            self._file.calls.keep(lines)

    def _keep_part(self, begins: int, content: bytes) -> None:
        """Keeps the sum of what was just written there. Without it the lines count as unknown."""
        with contextlib.suppress(OSError):
            self._file.calls.keep([part_line(self.generation, begins, content)])

    def _open(self) -> int:
        """Opens the file for what was found: what is torn goes, and what isn't of this capture is kept beside."""
        if self._file.number is None:
            if self._file.is_foreign:
                os.rename(self._path, self._beside())
                self._file.is_foreign = False
            self._file.number = open_regular(self._path, os.O_RDWR | os.O_APPEND | os.O_CREAT)
        self._cut_off(self._file.number)
        return self._file.number

    def _cut_off(self, number: int) -> None:
        """Removes what is no whole line."""
        if os.fstat(number).st_size > self._file.size:
            os.ftruncate(number, self._file.size)

    def _begin_again(self) -> None:
        """What was lost has no times: from here on they count anew."""
        now = self._unwritten.events[0][0] if self._unwritten.events else milliseconds()
        grown = sum(count or 0 for _, what, count in self._unwritten.events if what in times.OF_BYTES)
        self._unwritten.events[:0] = self._beginning(now, max(0, self._capture.total - grown), 0, self.call.line)

    def _fails(self, error: Exception) -> None:
        """Whatever it is: the game goes on."""
        trouble = text_of(error) if isinstance(error, OSError) else f"{type(error).__name__}: {error}"
        if not isinstance(error, OSError):
            self.unexpected = (*self.unexpected, f"{self._path}: {trouble}")
        if trouble != self._unwritten.trouble:
            self._unwritten.trouble = trouble
            self._told.append(Message("times.unwritable", path=self._path, why=self._unwritten.trouble, nothing=times.NOTHING))
        self._unwritten.again = Loop.now() + TRIES_AGAIN
        self._lose()

    def _lose(self) -> None:
        self._unwritten.events.clear()
        self._unwritten.is_lost = True

    # When the capture becomes another one.

    def set_aside(self, before: str) -> None:
        """The capture is kept under this name, and a new one will take its place: its times go with it. Nothing is written until
        the new one's begin."""
        with self._lock:
            self._look_once()
            self._write()
            self._unwritten.events.clear()
            self._is_aside = True
            try:
                self._close()
                if os.path.lexists(self._path):
                    os.replace(self._path, times_of(before))
                    sync_folder(self._paths.folder)
            except Exception as error:
                self._fails(error)
            self._file.size, self._file.is_foreign = 0, os.path.lexists(self._path)
            self.generation += 1

    def go_on_from(self, before: str, size: int) -> None:
        """The new capture begins with so many bytes of the one that is kept under this name: the lines of these go on in this file."""
        with self._lock:
            try:
                first = self._capture.bytes(0, min(size, times.HEADED))
                content = times.begun_with(existing(times_of(before)), self.generation, size, first)
                if content and not os.path.lexists(self._path):
                    put_in_place(self._path, content)
                    self._file.size = len(content)
            except Exception as error:
                self._fails(error)

    def come_back(self, before: str) -> None:
        """A new capture couldn't be put in place: if the old one is there still, its times go on."""
        with self._lock:
            if not self._is_aside:
                return
            try:
                if existing(before) == self._capture.bytes():
                    told = len(self._told)
                    self._back_from(before)
                    self._look()
                    del self._told[told:]
            except Exception as error:
                self._fails(error)
            self._begin_at(milliseconds(), self._capture.total, 0)

    def _back_from(self, before: str) -> None:
        path, kept = self._path, times_of(before)
        if os.path.lexists(kept) and not os.path.lexists(path):
            os.rename(kept, path)

    def cut(self, size: int) -> None:
        """The capture will have other bytes after this many, or the game goes on: later times go, and that it was over."""
        with self._lock:
            self._look_once()
            self._write()
            self._unwritten.events.clear()
            if not self._file.size:
                return
            try:
                number = self._open()
                before = part_of(number, 0, self._file.size)
                found = times.kept(before)
                first = self._capture.bytes(0, min(size, times.HEADED))
                after = times.cut(before, found, size, first) if isinstance(found, times.Kept) else before
                if after != before:
                    self._close()
                    is_whole = as_written(before, self._file.calls.parts(self.generation)) == [(0, len(before))]
                    if times.moves_calls(before, after):
                        remove(self._paths.began)  # which speaks of their places
                    put_in_place(self._path, after)
                    if is_whole:  # else nobody knows what of it is
                        self._keep_part(0, after)
                    self._file.size = len(after)
            except Exception as error:
                self._fails(error)

    def restored(self) -> None:
        """The capture was removed, and is written again: so is this file, from here on."""
        with self._lock:
            if self.call.began is not None and not os.path.lexists(self._path):
                self._close()
                self._file.size = 0
                self._lose()

    def _close(self) -> None:
        number, self._file.number = self._file.number, None
        if number is not None:
            os.close(number)

    def close(self) -> None:
        """Writes what has happened, and nothing further."""
        with self._lock:
            self._write()
            self.call.began = None
            self._close()
        self._tell()


def times_of(capture: str) -> str:
    """The times of a capture that is kept beside a game."""
    return f"{capture[:-len('.dgt')]}.times"
