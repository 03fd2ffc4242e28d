"""The program that attends a board: a child that is told what happens, and answers. The loop never waits for it. And how a game is read, by
such a child, for callers that may wait."""

from __future__ import annotations

import collections
import contextlib
import functools
import math
import os
import select
import subprocess
from dataclasses import dataclass, field
from typing import Callable, Deque, Iterator, List, Optional, Tuple, Union

from live.child.lines import CAPTURE, HOLD, KEEP, KEPT, LENT, NUMBER, PIECE, TEXT, UNSEEN, WAITS, WAKE, Answer, Answers, line_of
from live.child.program import CHUNK, Program, end_child, ending_of, let_go, told_of_ending, wake
from live.game import times
from live.game.files import open_regular
from live.game.game import Game, Old, new_course, wanted
from live.game.kept import Capture, Times
from live.game.options import Options
from live.run.loop import Callback, Guard, Loop, Timer
from live.run.refused import FAILED, Refused
from live.words.message import Message

FAILURES = 5  # failures of one child in a row, with no line in between
FRESH = 60.0  # seconds after which earlier failures no longer count
LATER = 0.01  # seconds by which it is woken later than it has said: two times that are close need one wake
OF_THE_LINE = (times.OPENED, times.ANSWERED, times.GONE, times.CALLED)
OF_THE_PAST = (KEPT, CAPTURE, times.BEGIN, times.AWAY)  # with the answers to these no game gets bytes
UNLINED = (*OF_THE_PAST, NUMBER, LENT, WAKE, TEXT, times.HEARD)  # these have no line in the game's times, or have it otherwise


def entry(at: int, what: str, count: Optional[int] = None, sent: bytes = b"") -> bytes:
    """The line about something that happens, at so many milliseconds of this call, and the bytes behind it."""
    return f"{at} {what}{'' if count is None else f' {count}'}\n".encode() + sent


def pieces(lines: bytes, start: int, end: int) -> List[Tuple[int, int]]:
    """The parts in which the program is told a capture, from one offset to another; only one if it is told with the lines of its times."""
    size = end - start if lines else PIECE
    return [(at, min(at + size, end)) for at in range(start, end, size or PIECE)]


class Told:
    """Something that was told: when, by the loop; what, with which number, and the bytes with it; when by the clock of the game's times;
    whether it has its line there; and what is called once it is answered."""

    __slots__ = ("at", "what", "sent", "count", "time", "is_noted", "thens")

    def __init__(self, at: float, what: str, sent: bytes = b"", count: Optional[int] = None) -> None:
        self.at, self.what, self.sent, self.count = at, what, sent, len(sent) if sent else count
        self.time, self.is_noted = 0, what in UNLINED
        self.thens: List[Callback] = []


Hears = Callable[[Told, Answer], None]  # gets what is answered
Ended = Callable[[str, bool], None]  # a child has ended too soon: that it is started again; or how, since none is started any more


def nobody_told(text: str, is_broken: bool) -> None:
    """Nothing is said of a child that has ended too soon."""


@dataclass(frozen=True)
class Past:
    """What is kept of a game: its capture from an offset on, and its times, if they are told; and a child that was told it."""

    capture: Capture
    start: int = 0
    times: Optional[Times] = None
    reader: Optional[Reader] = None


Part = Union[bytes, Tuple[int, int]]  # to be told: bytes, or those of the capture from one offset to another


class Child:
    """A child that is told lines, and answers. If it ends, another one is started: at once, and then every half second."""

    def __init__(self, guard: Guard, program: Program, words: Tuple[str, ...], ended: Ended) -> None:
        self._guard, self._program, self._words, self._ended = guard, program, words, ended
        self._failures = 0
        self._failed_at = -FRESH
        self._again: Optional[Timer] = None
        self._child: Optional["subprocess.Popen[bytes]"] = None
        self._is_blocked = self._is_closed = False
        self._let_go: Callable[[], None] = lambda: None

    def start(self) -> None:
        """Starts it, and tells it what it must know first."""
        self._is_blocked, self._child = False, None
        begun = self._begins_anew()
        try:
            child = begun or self._program.start(self._words, subprocess.PIPE, subprocess.PIPE, subprocess.DEVNULL)
        except OSError as error:
            self._fail(Message("program.cannot_start", why=error.strerror))
            return
        self._child = child
        self._let_go = self._guard.opened(functools.partial(end_child, child))
        assert child.stdin and child.stdout
        os.set_blocking(child.stdin.fileno(), False)
        os.set_blocking(child.stdout.fileno(), False)
        self._guard.watch(child.stdout.fileno(), self._readable)
        self._feed()

    def _begins_anew(self) -> Optional["subprocess.Popen[bytes]"]:
        """Another child begins. Returns it, if it was started before."""
        raise NotImplementedError

    def _writes(self, number: int) -> bool:
        """Writes something of what is to be told there. Returns whether there is more. Raises BlockingIOError if it must wait."""
        raise NotImplementedError

    def _takes(self, part: bytes) -> None:
        """The child has written this."""

    def _feed(self) -> None:
        """Writes what the child takes."""
        if self._child is None or self._is_blocked:
            return
        assert self._child.stdin
        number = self._child.stdin.fileno()
        try:
            while self._writes(number):
                pass
        except BlockingIOError:
            self._is_blocked = True
            self._guard.watch(number, None, self._writable)
        except OSError:
            pass  # it has ended, as its output shows

    def _writable(self) -> None:
        assert self._child and self._child.stdin
        self._guard.forget(self._child.stdin.fileno())
        self._is_blocked = False
        self._feed()

    def _readable(self) -> None:
        assert self._child and self._child.stdout
        try:
            part = os.read(self._child.stdout.fileno(), CHUNK)
        except BlockingIOError:
            return
        if part:
            self._takes(part)
        else:
            self._fail(ending_of(self._reap()))

    def _fail(self, how: str) -> None:
        """Tries again; gives up after repeated failures."""
        now = self._guard.now()
        self._failures = 1 if now - self._failed_at > FRESH else self._failures + 1
        self._failed_at = now
        what = Message("program.how", command=self._words[0], how=how)
        if self._failures > FAILURES:
            self._ended(what, True)
        else:
            self._ended(Message("program.started_again", what=what), False)
            self._again = self._guard.after(0 if self._failures == 1 else 0.5, self.start)

    def restart(self) -> None:
        """Another child takes its place."""
        if self._child is not None:
            self._child.kill()
            self._reap()
            self.start()

    def wake(self) -> None:
        """Call this now and then: a child that was stopped from outside goes on."""
        if self._child is not None:
            wake(self._child)

    def close(self) -> None:
        """Ends it; nothing more is reported."""
        self._is_closed = True
        if self._again:
            self._again.cancel()
        if self._child is not None:
            self._child.kill()
            self._reap()

    def _reap(self) -> int:
        """Its exit status. Its output has ended, so it ends now; or it is being ended."""
        child, self._child = self._child, None
        assert child and child.stdin and child.stdout
        self._guard.forget(child.stdout.fileno())
        self._guard.forget(child.stdin.fileno())
        let_go(child)
        self._let_go()
        return child.returncode


@dataclass
class OfBoard:
    """What is known of the board: what was told of its line; the number of the game's, if it was told; whether what it sends is kept, as far as
    is known; whether it has shown its pieces in this call, and is there."""

    line: Tuple[str, ...] = ()
    number: str = ""
    keeps: bool = False
    has_shown: bool = False


@dataclass
class Lines:
    """What was told and isn't answered; what of it isn't written to the child; what is answered, and neither kept nor known to be another
    board's."""

    told: Deque[Told] = field(default_factory=collections.deque)
    out: Deque[Part] = field(default_factory=collections.deque)
    held: List[bytes] = field(default_factory=list)


@dataclass
class Clock:
    """The game's times, if they get the lines of what is told; for how long this recorder was away; and by the clock of the times, when its call
    began, and when it was told something last."""

    times: Optional[Times]
    away: float
    began: int = 0
    last: int = 0


@dataclass
class Wake:
    """When the child is to be woken, and the timer, which may come before that; whether it isn't woken now, and was due meanwhile."""

    due: float = math.inf
    timer: Optional[Timer] = None
    is_paused: bool = False
    is_due: bool = False


class Attending(Child):
    """Attends a board. The first `known` lines of the report are known.

    If the child ends too soon, another one is told all that is kept, how the line is, and what wasn't answered.

    What it is told has its line in the game's times, if these are told: with the same time, and in the order in which the child
    takes it. So a line waits until all that was told before is answered, since the game may get bytes then. When another child
    takes its place, a call begins for both: that child doesn't know what the one before it had held, and says as one that begins."""

    def __init__(
        self, guard: Guard, program: Program, words: Tuple[str, ...], past: Optional[Past], hears: Hears, ended: Ended = nobody_told,
        known: int = 0
    ) -> None:  # fmt: skip
        super().__init__(guard, program, ("live", *words), ended)
        self._past, self._hears, self._reader = past, hears, past.reader if past else None
        self._reported = known  # lines
        self._answers = Answers()
        self.board, self._lines, self._wake = OfBoard(), Lines(), Wake()
        self._clock = Clock(past.times if past else None, guard.away.seconds)
        self._gets_text: Optional[Callable[[bytes], None]] = None  # when it is answered
        self.start()

    # What it is told.

    def tell(self, what: str, sent: bytes = b"", count: Optional[int] = None) -> None:
        """This happens now."""
        if self._guard.away.seconds > self._clock.away:
            before, self._clock.away = self._clock.away, self._guard.away.seconds
            self._tell(Told(self._guard.now(), times.STOPPED, count=int((self._clock.away - before) * 1000)))
        if what in OF_THE_LINE:
            self.board.line = times.line_after(self.board.line, what)
        elif what == NUMBER:
            self.board.number = sent.decode("ascii")
        self._tell(Told(self._guard.now(), what, sent, count))
        self._feed()
        self._note_lines()  # while the child reads

    def _tell(self, told: Told) -> None:
        if told.what not in OF_THE_PAST:
            self._clock.last = max(self._clock.last, int(Loop.counting() * 1000))
        told.time = self._clock.last
        self._lines.told.append(told)
        self._lines.out.append(entry(told.time - self._clock.began, told.what, told.count, told.sent))

    @property
    def notes(self) -> bool:
        """Whether what it is told gets its lines in the game's times."""
        return self._clock.times is not None

    def _note_lines(self, are_all: bool = False) -> None:
        """What was told gets its line, up to the first that may bring bytes to the game; or all of it, since nothing is answered any
        more."""
        if self._clock.times is None:
            return
        for told in self._lines.told:
            if told.what not in OF_THE_PAST:
                self._clock.times.call.reached = told.time
            if not told.is_noted:
                told.is_noted = True
                self._clock.times.happened(told.what, told.count)
            if not are_all and told.what not in OF_THE_PAST:
                return

    def note_no_more(self) -> None:
        """What it is told from now on gets no lines."""
        self._note_lines(are_all=True)
        if self._clock.times:
            self._clock.times.left(self._clock.away)
            self._clock.times = None

    def then(self, done: Callback) -> None:
        """Calls this when all that was told so far is answered."""
        if self._lines.told:
            self._lines.told[-1].thens.append(done)
        else:
            done()

    def ask_text(self, gets: Callable[[bytes], None]) -> None:
        """`gets` gets the text of the game, once all that was told so far is answered. Ask again only then."""
        self._gets_text = gets
        self.tell(TEXT)

    def begin_again(self, words: Tuple[str, ...]) -> None:
        """Another child with these options takes its place. It is told what is kept, and what it says of that is known."""
        self._words = ("live", *words)
        self.restart()

    @property
    def is_settled(self) -> bool:
        """Whether all that was told is answered."""
        return not self._lines.told

    def heard_by(self, hears: Hears, ended: Ended = nobody_told) -> None:
        """From now on this one gets what the program answers."""
        self._hears, self._ended = hears, ended

    @property
    def is_closed(self) -> bool:
        """Whether it was ended."""
        return self._is_closed

    def pause(self) -> None:
        """It isn't woken from now on, so that all that was told gets answered."""
        self._wake.is_paused = True

    def go_on(self) -> None:
        """It is woken again."""
        self._wake.is_paused = False
        if self._wake.is_due:
            self._wakes()

    def take(self) -> bytes:
        """Ends it. Returns what the board has sent and was neither kept nor known to be another board's."""
        self.close()
        self.note_no_more()
        thens, left = self._thens(), self.undecided()
        self._lines.told.clear()
        self._lines.held.clear()
        for then in thens:
            then()
        return left

    def undecided(self) -> bytes:
        """The same, while it goes on."""
        return b"".join([*self._lines.held, *(told.sent for told in self._lines.told if told.what == times.HEARD)])

    def _thens(self) -> List[Callback]:
        return [then for told in self._lines.told for then in told.thens]

    # How it begins.

    def _begins_anew(self) -> Optional["subprocess.Popen[bytes]"]:
        self._note_lines(are_all=True)
        thens, left = self._thens(), self.undecided()
        self._lines.told.clear()
        self._lines.out.clear()
        self._lines.held.clear()
        begun = self._tell_past()
        self._answers = Answers(0 if begun else self._reported)
        if self.board.number:
            self._tell(Told(self._guard.now(), NUMBER, self.board.number.encode()))
        for what in self.board.line:
            self._tell(Told(self._guard.now(), what))
        if left:
            self._tell(Told(self._guard.now(), times.HEARD, left))
        if self._gets_text:
            self._tell(Told(self._guard.now(), TEXT))
        self._lines.told[-1].thens += thens
        self._note_lines()
        return begun

    def _tell_past(self) -> Optional["subprocess.Popen[bytes]"]:
        """What is kept, and that a call begins. Returns the child that was told what is kept before, if there is one."""
        past, now = self._past, self._guard.now()
        size = 0 if past is None else past.capture.size - past.start
        begun = self._clock.times.attended() if self._clock.times else None
        self._clock.began = self._clock.last = begun.at if begun else int(Loop.counting() * 1000)
        content = begun.content if begun else past.times.content() if past and past.times else b""
        content = content if size > 0 else b""
        reader, self._reader = self._reader, None
        child = reader.hand_over() if reader and (reader.words, reader.size, reader.times) == (self._words, size, content) else None
        if content and not child:
            self._tell(Told(now, KEPT, content))
        for at, until in pieces(content, past.start, past.capture.size) if past and not child else ():
            self._tell(Told(now, CAPTURE, count=until - at))
            self._lines.out.append((at, until))
        self._tell(Told(now, times.BEGIN, count=size))
        if begun and begun.away is not None:
            self._tell(Told(now, times.AWAY, count=begun.away))
        if past and past.capture.pending:
            self._tell(Told(now, times.BROUGHT, past.capture.pending))
            self._lines.told[-1].is_noted = True  # when it came
        return child

    def _writes(self, number: int) -> bool:
        if not self._lines.out:
            return False
        part = self._lines.out[0]
        if isinstance(part, bytes):
            left: Part = part[os.write(number, part) :]
            is_left = bool(left)
        else:
            at, until = part
            assert self._past
            content = self._past.capture.read(at, min(CHUNK, until - at))
            if not content:
                raise Refused(FAILED, Message("file.shorter", path=self._past.capture.path))
            at += os.write(number, content)
            left, is_left = (at, until), at < until
        if is_left:
            self._lines.out[0] = left
        else:
            self._lines.out.popleft()
        return bool(self._lines.out)

    # What it answers.

    def _takes(self, part: bytes) -> None:
        answers = self._answers
        for answer in answers.take(part):
            if self._is_closed or self._answers is not answers:
                return  # meanwhile
            told = self._lines.told.popleft()
            self._reported += len(answer.report)
            if told.what in OF_THE_LINE or answer.handling != HOLD:
                self._lines.held.clear()
            if told.what == times.HEARD and answer.handling == HOLD:
                self._lines.held.append(told.sent)
            self.board.keeps, self._wake.is_due = answer.handling == KEEP, False
            if answer.stood and answer.stood.kind == WAITS and self.board.has_shown:
                answer.stood = None  # that a child waits for the board is no news if another one has heard it in this call
            elif answer.stood:
                self.board.has_shown = answer.stood.kind not in UNSEEN
            answer.read()
            self._hears(told, answer)
            self._wake_at(told.at, answer.due)
            if answer.game is not None and self._gets_text:
                gets, self._gets_text = self._gets_text, None
                gets(answer.game)
            if self._lines.told:
                self._note_lines()
            for then in told.thens:
                then()

    def unreported(self, lines: int) -> None:
        """So many lines of the report weren't used, since their bytes aren't in the capture."""
        self._reported -= lines

    # The time.

    def _wake_at(self, at: float, due: Optional[int]) -> None:
        """It wants to be woken so many milliseconds after this time; another answer says it anew."""
        if due is None or self._lines.told or self._is_closed:
            self._wake.due = math.inf
            return
        self._wake.due = at + due / 1000 + LATER
        if self._wake.timer and self._wake.timer.when > self._wake.due:
            self._wake.timer.cancel()
            self._wake.timer = None
        if self._wake.timer is None:
            self._wake.timer = self._guard.at(self._wake.due, self._comes)

    def _comes(self) -> None:
        """The time has come that was named, or one before it."""
        self._wake.timer = None
        if self._wake.due <= self._guard.now():
            self._wakes()
        elif self._wake.due < math.inf:
            self._wake.timer = self._guard.at(self._wake.due, self._comes)

    def _wakes(self) -> None:
        self._wake.due, self._wake.is_due = math.inf, self._wake.is_paused
        if not self._wake.is_paused:
            self.tell(WAKE)

    def close(self) -> None:
        """Ends it."""
        if self._wake.timer:
            self._wake.timer.cancel()
            self._wake.timer = None
        super().close()


# A game is read by a child as well, which then goes on with it.


def words_of(options: Options) -> Tuple[str, ...]:
    """The words of a child that attends a game with these options."""
    return ("live", *options.of_live())


class Reader:
    """A child that is told the times of a game, and its capture up to an offset."""

    def __init__(self, game: Game, limit: Optional[int] = None) -> None:
        self._path, self._options, size = game.paths.capture, game.options, game.capture.size
        self.words = words_of(game.options)
        self.size = size if limit is None else min(limit, size)  # bytes of the capture that it is told
        self.times = game.times.content() if 0 < self.size == size else b""  # that it is told
        self._child: Optional[subprocess.Popen[bytes]] = game.program.start(self.words, subprocess.PIPE, subprocess.PIPE, subprocess.DEVNULL)

    def read(self, now: float) -> Old:
        """What the capture has. Its clock times count as just come. Raises OSError if it can't be read."""
        assert self._child
        course, lines, answers, left = new_course(self._options), 0, Answers(), 1 + bool(self.times) + len(pieces(self.times, 0, self.size))
        source = open_regular(self._path, os.O_RDONLY)  # by its path: if the loop closes a file, its number may become another file's
        try:
            for part in _exchanged(self._child, self._told(source)):
                ended = answers.take(part)
                texts = [text for answer in ended for text in answer.report] + answers.unended()
                lines += len(texts)
                for line in filter(None, map(line_of, wanted(texts, course.start) if texts else ())):
                    course.take(line, now)
                left -= len(ended)
                if left == 0:
                    return Old(self.size, lines, course, ended[-1].game or b"")
        finally:
            os.close(source)
        raise OSError(told_of_ending("live", self._child.wait()))

    def _told(self, source: int) -> Iterator[bytes]:
        """What it is told."""
        if self.times:
            yield entry(0, KEPT, len(self.times), self.times)
        for at, until in pieces(self.times, 0, self.size):
            yield entry(0, CAPTURE, until - at)
            while at < until:
                part = os.pread(source, min(CHUNK, until - at), at)
                if not part:
                    raise Refused(FAILED, Message("file.shorter", path=self._path))
                yield part
                at += len(part)
        yield entry(0, TEXT)

    def hand_over(self) -> "subprocess.Popen[bytes]":
        """From now on the caller has the child."""
        child, self._child, self.times = self._child, None, b""
        assert child
        return child

    def close(self, is_read: bool = True) -> None:
        """Ends the child, unless somebody else has it. While another thread reads, that fails then, and is to close it."""
        if self._child and is_read:
            end_child(self.hand_over())
        elif self._child:
            self._child.kill()


def read_game(game: Game, limit: Optional[int], now: float = 0.0) -> Old:
    """What the capture has, or this many bytes of it. Raises OSError if it can't be read."""
    reader = Reader(game, limit)
    try:
        return reader.read(now)
    finally:
        reader.close()


def _exchanged(child: "subprocess.Popen[bytes]", told: Iterator[bytes]) -> Iterator[bytes]:
    """Tells a child this, and gives what it writes meanwhile, until it has ended."""
    assert child.stdin and child.stdout
    into, out, left = child.stdin.fileno(), child.stdout.fileno(), memoryview(b"")
    os.set_blocking(into, False)
    poll = select.poll()
    poll.register(out, select.POLLIN)
    poll.register(into, select.POLLOUT)
    while True:
        if out in dict(poll.poll()):
            part = os.read(out, CHUNK)
            if not part:
                return
            yield part
            continue
        left = left or memoryview(next(told, b""))
        if not left:
            poll.unregister(into)
            continue
        with contextlib.suppress(BlockingIOError, BrokenPipeError):  # it is full, or the child has ended, as its output shows
            left = left[os.write(into, left) :]
