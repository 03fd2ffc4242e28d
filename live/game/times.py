"""The lines of NAME.times: when the bytes of a capture came, and what else happened at its board. docs/FORMATS.md has the format. Pure.
And NAME.began: when each call in NAME.times began, by a clock that counts from the computer's start and that nobody can set; and which
parts of NAME.times are as they were written.

The game follows from NAME.dgt alone: what is lost here costs times, and never a move.

A line of NAME.began about a call has the generation of the file of times; the offset of the call's `begin` in it; the time, in milliseconds;
and the start of the computer to whose clock that belongs. It is there before its `begin` is, and the last one about a `begin` counts. A line
about a part has the generation; `part`; where the part begins and ends; and its sum. It comes behind the part. The last word of each line is
the sum of all that is before it in this file: so a line counts only if nothing before it has changed since it was written.
"""

from __future__ import annotations

import binascii
import contextlib
import errno
import functools
import os
import re
from dataclasses import dataclass, field
from typing import AbstractSet, Dict, Iterator, List, Optional, Sequence, Set, Tuple, Union

from live.game.files import existing, open_regular, part_of
from live.words.message import Message

VERSION = 1
HEADED = 4096  # bytes of a capture that a new heading has the digest of, at most
BEGIN, AWAY, OPENED, ANSWERED, GONE, CALLED = "begin", "away", "opened", "answered", "gone", "called"
HEARD, BROUGHT, ADDED, STOPPED, ASKED, TOOK, OVER = "heard", "brought", "added", "stopped", "asked", "took", "over"
LOOKED, BACK, REOPENED, SUSPECT = "ok", "back", "reopened", "suspect"
OF_BYTES = (HEARD, BROUGHT, ADDED)  # the capture got so many bytes
COUNTS = (BEGIN, AWAY, *OF_BYTES, STOPPED, ASKED, OVER, SUSPECT)  # words with a number
ALONE = (OPENED, ANSWERED, GONE, CALLED, TOOK, LOOKED, BACK, REOPENED)
TOO_LARGE = 2**64
NOTHING = Message("times.nothing")
FNV_START, FNV_TIMES = 14695981039346656037, 1099511628211  # of FNV-1a with 64 bits

NUMBER = "(0|[1-9][0-9]{0,19})"
EVENT = re.compile(f"{NUMBER} (?:({'|'.join(COUNTS)}) {NUMBER}|({'|'.join(ALONE)}))\n".encode())
VERSIONED = re.compile(f"{NUMBER} times(?: {NUMBER})?\n".encode())
HEADING = re.compile(f"{VERSION} times {NUMBER}\n{NUMBER} digest {NUMBER}\n".encode())

Happened = Tuple[int, str, Optional[int]]  # when, in milliseconds from the call's beginning; what; how much
Content = Union[bytes, memoryview]


def digest(content: Content) -> int:
    """FNV-1a with 64 bits."""
    state = FNV_START
    for byte in content:
        state = ((state ^ byte) * FNV_TIMES) % TOO_LARGE
    return state


def heading(generation: int, first: Content) -> bytes:
    """The heading of a file, given how often the game has gone back, and the first bytes of its capture."""
    return b"%d times %d\n%d digest %d\n" % (VERSION, generation, len(first), digest(first))


def line(event: Happened) -> bytes:
    """The line of an event."""
    return lines([event])


def lines(events: Sequence[Happened], began: int = 0) -> bytes:
    """The lines of some events: those of a call that began then, and of calls that begin among them."""
    text = ""
    for at, what, count in events:
        began = at if what == BEGIN else began
        since = at - began if at > began else 0
        text += f"{since} {what}\n" if count is None else f"{since} {what} {count}\n"
    return text.encode()


def line_after(line: Tuple[str, ...], what: str) -> Tuple[str, ...]:
    """How the line is told to whoever begins later, after this has happened."""
    if what in (OPENED, GONE):
        return (what,)
    if what == ANSWERED:
        return (OPENED, ANSWERED)
    return () if what == CALLED else line


@dataclass(frozen=True)
class Kept:
    """A file with a heading: how often the game has gone back; how many bytes the heading is of, and their digest; where the
    heading ends; where the events end; and how many bytes of the capture they account for."""

    generation: int
    size: int
    digest: int
    begins: int
    ends: int
    covered: int


@dataclass(frozen=True)
class Newer:
    """A file of another version of the format."""

    version: int


@dataclass(frozen=True)
class Call:
    """A call: where its `begin` stands in the file; how many bytes the capture had then; and what happened next."""

    offset: int
    size: int
    events: List[Happened]

    @property
    def lasted(self) -> int:
        """The time of its last event."""
        return max((at for at, _, _ in self.events), default=0)


def calls(content: Content, found: Kept, places: Optional[Sequence[Tuple[int, int]]] = None) -> List[Call]:
    """The calls of a file, in their order. If `places` are given, only the lines there count; of a call those before the first other
    one."""
    made: List[Call] = []
    for begins, ends in [(0, found.ends)] if places is None else places:
        is_known = False  # whether the lines are of the last call, and all before them are known
        for line in EVENT.finditer(content, max(begins, found.begins), min(ends, found.ends)):
            at, counted, count, alone = line.groups()
            if counted == BEGIN.encode():
                made.append(Call(line.start(), int(count), []))
                is_known = True
            elif is_known:
                made[-1].events.append((int(at), (counted or alone).decode(), int(count) if counted else None))
    return made


def kept(content: Content) -> Union[Kept, Newer, None]:
    """What stands in a file, if anything can be read."""
    found = HEADING.match(content)
    if found is None or any(int(number) >= TOO_LARGE for number in found.groups()):
        newer = VERSIONED.match(content)
        return Newer(int(newer.group(1))) if newer and int(newer.group(1)) != VERSION else None
    generation, size, of_first = map(int, found.groups())
    ends, covered = found.end(), size
    for after, what, count in _events(content, found.end()):
        ends, covered = after, _covers(covered, what, count)
    return Kept(generation, size, of_first, found.end(), ends, covered)


def _events(content: Content, start: int) -> Iterator[Tuple[int, str, int]]:
    """The events from an offset on, up to what is none: the offset after each, its word and its number."""
    for found in EVENT.finditer(content, start):
        at, counted, count, alone = found.groups()
        if found.start() != start or int(at) >= TOO_LARGE or (counted and int(count) >= TOO_LARGE):
            return
        start = found.end()
        yield start, (counted or alone).decode(), int(count or 0)


def _covers(before: int, what: str, count: int) -> int:
    """How many bytes are accounted for, after an event."""
    return count if what == BEGIN else before + count if what in OF_BYTES else before


def added_last(content: Content) -> range:
    """The bytes of the capture that were added last; none if that isn't known."""
    found, last = kept(content), range(0)
    if isinstance(found, Kept):
        covered = found.size
        for _, what, count in _events(content, found.begins):
            before, covered = covered, _covers(covered, what, count)
            last = range(before, covered) if what == ADDED else last
    return last


def cut(content: Content, found: Kept, size: int, first: Content) -> bytes:
    """A file of which only those events stay that account for the capture's first so many bytes, which begin with `first`; and no
    end, since the game goes on, or has another one. If somebody has looked at its alarms later, that stays too."""
    front = bytes(content[: found.begins]) if found.size <= size else heading(found.generation, first)
    parts, start, covered = [front], found.begins, found.size
    for after, what, count in _events(content, found.begins):
        before, covered = covered, _covers(covered, what, count)
        if covered > size:
            at = 0 if what == BEGIN else int(bytes(content[start:after]).split()[0])
            if what != BEGIN and size > before:
                parts.append(line((at, what, size - before)))
            if start > found.begins and any(later == LOOKED for _, later, _ in _events(content, after)):
                parts.append(line((at, LOOKED, None)))
            break
        if what != OVER:
            parts.append(bytes(content[start:after]))
        start = after
    return b"".join(parts)


def begun_with(content: Content, generation: int, size: int, first: Content) -> bytes:
    """What the file of a new capture begins with, which goes on from so many bytes of the one with these times, and begins with `first`;
    nothing if they can't be read."""
    found = kept(content)
    if not isinstance(found, Kept):
        return b""
    return heading(generation, first[: found.size]) + cut(content, found, size, first).split(b"\n", 2)[2]


def moves_calls(before: bytes, after: bytes) -> bool:
    """Whether calls of a file have other places in what is left of it."""
    old, new = (
        [call.offset for call in calls(content, found)] if isinstance(found, Kept) else []
        for content, found in ((before, kept(before)), (after, kept(after)))
    )
    return new != old[: len(new)]


def told_of(found: Kept, path: str, size: int, capture: str, have: int) -> List[str]:
    """What is said of a file of this size, whose capture has so many bytes."""
    told: List[str] = []
    if size > found.ends:
        told.append(Message("times.torn", path=path, count=size - found.ends, nothing=NOTHING))
    if found.covered > have:
        told.append(Message("times.covers_more", path=path, count=found.covered - have, capture=capture, nothing=NOTHING))
    elif found.covered < have:
        told.append(Message("times.covers_less", path=path, count=have - found.covered, capture=capture, nothing=NOTHING))
    return told


START = "/proc/sys/kernel/random/boot_id"
LINE = re.compile(rb"([0-9]{1,20}) ([0-9]{1,20}) ([0-9]{1,20}) ([0-9a-f-]{1,64}) ", re.ASCII)
PART = re.compile(rb"([0-9]{1,20}) part ([0-9]{1,20}) ([0-9]{1,20}) ([0-9a-f]{8}) ", re.ASCII)
SUM = 8  # digits of a sum

Begin = Tuple[int, int]  # the generation of a file of times, and the offset of a `begin` in it
Part = Tuple[int, int, int]  # where a part of a file of times begins and ends, and its sum


@dataclass(frozen=True)
class Began:
    """When a call began, and by the clock of which start of the computer."""

    at: int
    start: str


@dataclass
class BeganLines:
    """What the file says, as far as nobody has changed it: when calls began, and of each generation the parts of its times."""

    calls: Dict[Begin, Began] = field(default_factory=dict)
    parts: Dict[int, Set[Part]] = field(default_factory=dict)


@functools.lru_cache(maxsize=None)
def this_start() -> str:
    """A name for this start of the computer; if the system has none, a new name each time."""
    with contextlib.suppress(OSError):
        with open(START, encoding="ascii", errors="replace") as file:
            return file.read().strip()
    return os.urandom(16).hex()


def began_line(begin: Begin, began: Began) -> bytes:
    """The line about a call, up to its sum."""
    return b"%d %d %d %s " % (*begin, began.at, began.start.encode("ascii", "replace"))


def part_line(generation: int, begins: int, content: bytes) -> bytes:
    """The line about a part of a file of times that begins there, up to its sum."""
    return b"%d part %d %d %08x " % (generation, begins, begins + len(content), sum_of(content))


def sum_of(content: bytes, before: int = 0) -> int:
    """The sum of some bytes behind others: CRC-32. It is against damage and loss; whoever can write the file can make it anew."""
    return binascii.crc32(content, before)


def summed(lines: List[bytes], before: int) -> bytes:
    """Lines with their sums, behind what has that sum."""
    text = b""
    for line in lines:
        text += b"%s%08x\n" % (line, sum_of(line, sum_of(text, before)))
    return text


def read_began(content: bytes) -> BeganLines:
    """What the file says. Lines that can't be read, or have another sum, are left out."""
    kept, total = BeganLines(), 0
    for line in content[: content.rfind(b"\n") + 1].splitlines(keepends=True):
        words, sum_ = line[: -SUM - 1], line[-SUM - 1 : -1]
        before, total = total, sum_of(line, total)
        if sum_ != b"%08x" % sum_of(words, before):
            continue
        call, part = LINE.fullmatch(words), PART.fullmatch(words)
        if call:
            generation, offset, at, start = call.groups()
            kept.calls[int(generation), int(offset)] = Began(int(at), start.decode())
        elif part:
            generation, begins, ends, of_part = part.groups()
            kept.parts.setdefault(int(generation), set()).add((int(begins), int(ends), int(of_part, 16)))
    return kept


def as_written(content: bytes, parts: AbstractSet[Part]) -> List[Tuple[int, int]]:
    """Where the parts of a file are whose content has its sum: in order, and those that touch as one."""
    right = [(begins, ends) for begins, ends, of_part in parts if begins < ends <= len(content) and sum_of(content[begins:ends]) == of_part]
    places: List[Tuple[int, int]] = []
    for begins, ends in sorted(right):
        if places and begins <= places[-1][1]:
            places[-1] = places[-1][0], max(ends, places[-1][1])
        else:
            places.append((begins, ends))
    return places


class BeganFile:
    """Appends lines to it."""

    def __init__(self, path: str) -> None:
        self._path, self._size, self._sum = path, 0, 0  # as it was left

    def parts(self, generation: int) -> Set[Part]:
        """The parts of this generation of the file of times."""
        return read_began(existing(self._path)).parts.get(generation, set())

    def keep(self, lines: List[bytes]) -> None:
        """Appends these, each with its sum. Raises OSError on failure. A line that is lost in a power cut is of an earlier start of the
        computer, and then its bytes are taken for younger than they are."""
        number = open_regular(self._path, os.O_RDWR | os.O_APPEND | os.O_CREAT)
        try:
            size, before = os.fstat(number).st_size, b""
            if size != self._size:
                content = part_of(number, 0, size)
                self._sum, before = sum_of(content), b"\n" * bool(content and content[-1:] != b"\n")
            text = before + summed(lines, sum_of(before, self._sum))
            self._size = -1
            if os.write(number, text) < len(text):
                raise OSError(errno.ENOSPC, os.strerror(errno.ENOSPC))
            self._size, self._sum = size + len(text), sum_of(text, self._sum)
        finally:
            os.close(number)
