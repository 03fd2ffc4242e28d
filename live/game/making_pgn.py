"""Makes NAME.pgn anew, beside the loop: once at a time, then again if the game has changed meanwhile. While a game is recorded, the
program that attends its board gives the text; else `record` writes it."""

from __future__ import annotations

import contextlib
import errno
import functools
import itertools
import os
import signal
import subprocess
from dataclasses import dataclass
from typing import Callable, Iterator, List, Optional, Sequence, Tuple

from live.child.lines import Move, Result, line_of
from live.child.program import Program, told_of_ending, wake
from live.game.files import LARGEST, NO_ROOM, AnyPath, Opened, Paths, content_of, existing, new_of, open_new, open_regular, put_in_place, sync_folder, text_of, unwritten, write_all
from live.game.game import Game, whole
from live.game.options import Options
from live.run.loop import Guard, Timer, Worker
from live.words.message import Message

AGAIN = 1.0  # seconds after a try that failed
WRITE_FAULT = 3  # the program's status if a stream failed
SLOWEST = 60.0  # seconds that a call may take before it is ended and begun anew
CHANGES = 16  # the last changes of a game: its text may have been made after any of them
COMPARED = 4 * 1024 * 1024  # bytes of a capture whose text is compared so closely


# A text that somebody has edited by hand is kept beside the game before a new one replaces it.


def told_of_edit(pgn: str, kept: str) -> str:
    """The message about an edited text."""
    return Message("text.edited", pgn=pgn, kept=kept)


def keep_edited(paths: Paths, text: bytes) -> str:
    """Keeps a text under the first free name, unless it is kept already. Returns its name. Raises OSError if it can't be written."""
    for number in itertools.count(1):
        place = paths.edited(number)
        if not os.path.lexists(place):
            put_in_place(place, text)
            break
        with contextlib.suppress(OSError):
            if existing(place) == text:
                break
    return place


def is_recorded(program: Program, options: Options, sent: bytes, text: bytes) -> bool:
    """Whether `record` makes this text of what a board has sent, or made it after one of the game's last changes: a killed call
    may have left that. Raises OSError if the program fails."""
    return any(recorded == text for recorded in _texts(program, options, sent))


def _texts(program: Program, options: Options, sent: bytes) -> Iterator[bytes]:
    sent_with = whole(program, options, sent)
    yield program.run("record", *options.of_record(), given=sent_with).stdout
    if len(sent) > COMPARED:
        return
    lines = map(line_of, program.lines("watch", *options.of_board(), given=sent_with))
    changes = [line.offset for line in lines if line and isinstance(line.event, (Move, Result))]
    for size in (*(offset + 1 for offset in reversed(changes[-CHANGES:])), 0):
        yield program.run("record", *options.of_record(), given=sent_with[:size]).stdout


# How it is made.


def first_time(side: str) -> str:
    """The message whose time comes first."""
    return Message("text.white_first") if side == "white" else Message("text.black_first")


def told_of_reading(before: Options, now: Options, pairs: Sequence[str]) -> List[str]:
    """What to report if a game is made anew because its capture is read differently; `pairs` are those recovered now."""
    told = [first_time(now.side)] if now.side != before.side else []
    if bool(now.recover) != bool(before.recover):
        told += list(pairs) or [Message("text.nothing_recovered")]
    return told


def told_of_result(before: str, now: str) -> List[str]:
    """What to report if a game that was made anew has another result."""
    if before == now:
        return []
    if now == "*":
        return [Message("result.gone", result=before)]
    return [Message("result.now", result=now) if before == "*" else Message("result.changed", result=now, before=before)]


@dataclass(frozen=True)
class Made:
    """The outcome of a call: what went wrong, if anything, and whether the disk has no room."""

    trouble: str = ""
    full: bool = False
    edited: Optional[str] = None  # where a text that was edited by hand is kept

    @staticmethod
    def of_error(error: OSError) -> Made:
        """What went wrong, in the system's words."""
        return Made(text_of(error), error.errno in NO_ROOM)

    def error(self) -> OSError:
        """The same as an error, to be raised."""
        return OSError(errno.ENOSPC, self.trouble) if self.full else OSError(self.trouble)

    def told(self, path: AnyPath) -> str:
        """That this file can't be written, why, and what to do."""
        return unwritten(path, self.trouble, self.full)


class Text:
    """Makes NAME.pgn once. The capture and the text are on the disk before the text is put in place, so a power cut leaves no
    game that is longer than its capture. The caller chooses where to wait for that."""

    def __init__(self, game: Game) -> None:
        self._game = game
        self._new = new_of(game.paths.pgn)
        self._words = ("record", *game.options.of_record())
        self._children: Tuple[subprocess.Popen[bytes], ...] = ()  # `record`, and `recover` that it reads
        self._closed = False

    def kill(self) -> None:
        """Ends the call under way, which then fails."""
        for child in self._children:
            child.kill()

    def wake(self) -> None:
        """Lets a call that was stopped from outside go on. Call this now and then."""
        for child in self._children:
            wake(child)

    def close(self) -> None:
        """From now on nothing is put in place."""
        self._closed = True
        self.kill()

    def look(self, limit: Optional[int], recorded: bytes = b"") -> None:
        """Finds out whether the text that another call left is what was `recorded`, what `record` makes of the whole capture, of its first
        `limit` bytes, or of the capture from before plies were taken off. If not, somebody has edited it. Call this before the capture
        or the options change."""
        game, text = self._game, b""
        with contextlib.suppress(OSError):
            text = existing(game.paths.pgn)
        if text and game.written.last is None:
            with contextlib.suppress(OSError):
                before = game.paths.last_before_back
                if text == recorded or is_recorded(game.program, game.options, game.capture.bytes(0, limit), text) or (
                    before and is_recorded(game.program, game.options, existing(before), text)
                ):
                    game.written.last = text, game.options

    def make(self, limit: Optional[int]) -> Made:
        """Has `record` make it of the whole capture or of its first `limit` bytes, and waits for that. Returns the outcome."""
        return self._make(functools.partial(self._record, limit))

    def put(self, text: bytes) -> Made:
        """Makes it of this text, which the program has given. Returns the outcome."""
        return self._make(functools.partial(write_all, content=text))

    def _make(self, write: Callable[[int], Optional[Made]]) -> Made:
        """Has it written, and puts it in place. Somebody may have edited the text that is there, or save it meanwhile: so that is read last.
        Its file stays open until it is replaced: the system takes a millisecond to remove a file that nobody has open, and readers
        would wait for the new one."""
        if self._closed:
            return Made()
        paths, before = self._game.paths, b""
        try:
            with Opened() as opened:
                target = opened.keep(open_new(self._new, os.O_RDWR))
                made = write(target) or Made()
                if not made.trouble and not self._closed:
                    os.fsync(opened.keep(os.open(paths.capture, os.O_RDONLY)))
                    os.fsync(target)
                    text = content_of(target, LARGEST)
                    with contextlib.suppress(OSError):
                        before = content_of(opened.keep(open_regular(paths.pgn, os.O_RDONLY)), LARGEST)
                    if before and before not in (text, *(self._game.written.last or ())[:1]):
                        made = Made(edited=keep_edited(paths, before))
                    os.replace(self._new, paths.pgn)
                    self._game.written.last = text, self._game.options
                    sync_folder(paths.folder)
                    return made
        except OSError as error:
            made = Made.of_error(error)
        with contextlib.suppress(OSError):
            os.unlink(self._new)
        return made

    def _record(self, limit: Optional[int], target: int) -> Made:
        """Calls `record`, which writes its text to `target`. Its requests to a board and its report are dropped. If this process
        dies, it can't write them, and ends."""
        try:
            with Opened() as opened:
                report = opened.keep(self._start_children(limit, target))
                if self._closed:
                    self.kill()
                while os.read(report, 65536):
                    pass
                return self._outcome(target)
        finally:
            self._forget_children()

    def _outcome(self, target: int) -> Made:
        """Waits for the end of `record`, which has told all, and of `recover`."""
        child, *before = self._children
        status = child.wait()
        if status in (WRITE_FAULT, -signal.SIGXFSZ):
            os.write(target, b"\n")  # what stopped `record` stops this too, and says why
            return Made(Message("disk.no_room") if status < 0 else told_of_ending("record", status), status < 0)
        if status != 0:
            return Made(told_of_ending("record", status))
        for recover in before:
            if recover.wait() != 0:
                return Made(told_of_ending("recover", recover.returncode))
        return Made()

    def _start_children(self, limit: Optional[int], target: int) -> int:
        """Starts them. Returns where the report of `record` is read."""
        program, options = self._game.program, self._game.options
        with Opened() as opened:
            source = opened.keep(source_of(self._game, limit))
            if options.recover:
                result, into = map(opened.keep, os.pipe())
                self._children = (program.start(("recover", *options.of_board()), source, into, subprocess.DEVNULL),)
                source = result
            report, told = os.pipe()
            opened.keep(told)
            try:
                self._children = (program.start(self._words, source, target, told), *self._children)
            except OSError:
                os.close(report)
                raise
        return report

    def _forget_children(self) -> None:
        """Ends those that still run."""
        children, self._children = self._children, ()
        for child in children:
            if child.returncode is None:
                child.kill()
                child.wait()


Asks = Callable[[Callable[[bytes], None]], None]  # for the text: the program that attends the board gives it


@dataclass
class UnderWay:
    """Whether the text is asked for; whether it is being made, and how many bytes of the capture it will have; whether it is wanted anew."""

    asks: bool = False
    runs: bool = False
    covers: int = 0
    wants: bool = False


@dataclass
class LastTime:
    """Whom to tell once it was made a last time, if it is; of how many bytes, if not of all; and how many tries are left."""

    done: Optional[Callable[[bool], None]] = None
    limit: Optional[int] = None
    tries: int = 0


class Maker:
    """Makes NAME.pgn again and again, and a last time of the capture or of its first `limit` bytes. A worker does it, so the loop
    never waits for it. `made` gets the outcome: each text that is in place, and each new reason why it can't be made."""

    asks: Asks

    def __init__(self, guard: Guard, worker: Worker, game: Game, made: Callable[[Made], None]) -> None:
        self._guard, self._worker, self._capture, self._made = guard, worker, game.capture, made
        self._text = Text(game)
        self._next: Optional[Text] = None  # of the same game with other tags
        self._now, self._ends = UnderWay(), LastTime()
        self._closed = False
        self._timer: Optional[Timer] = None
        self.made_of = game.capture.size  # bytes of the capture that NAME.pgn surely has: it was made when this began
        self.last = Made()  # the outcome of the last call
        guard.opened(lambda: self._text.close())

    def want(self) -> None:
        """The game has changed. Makes it anew, now or after the text under way."""
        self._now.wants = True
        if not self._now.asks and not self._now.runs and self._timer is None:
            self._start()

    def makes(self, game: Game) -> None:
        """The game has other tags: its text is made with them from now on."""
        self._next = Text(game)
        self.want()

    def finish(self, done: Callable[[bool], None], limit: Optional[int], tries: int = 3) -> None:
        """Makes it a last time, of the capture or of its first `limit` bytes, and reports whether that succeeded within this many tries."""
        self._ends, self._now.asks = LastTime(done, limit, tries), False
        if self._timer and not self._now.runs:
            self._timer.cancel()
            self._timer = None
        self.want()

    def _start(self) -> None:
        self._now.wants = False
        if not self._ends.done:
            self._now.asks = True
            self.asks(self._take)
            return
        text, limit, size = self._newest(), self._ends.limit, self._capture.size
        self._now.runs, self._now.covers = True, size if limit is None else min(limit, size)
        self._timer = self._guard.after(SLOWEST, text.kill)
        self._worker.do(lambda: text.make(limit), self._ended)

    def _take(self, given: bytes) -> None:
        """The program has given the text of the game as it is now. It may have bytes that the capture lacks: then it is asked again."""
        if not self._now.asks or self._closed:
            return
        self._now.asks = False
        if self._capture.pending or self._capture.lacks:
            self._timer = self._guard.after(AGAIN, self._again)
            return
        self._now.wants, self._now.runs, self._now.covers = False, True, self._capture.size
        self._worker.do(functools.partial(self._newest().put, given), self._ended)

    def _newest(self) -> Text:
        self._text, self._next = self._next or self._text, None
        return self._text

    def _ended(self, made: Made) -> None:
        if self._closed:
            return
        self._now.runs = False
        if self._timer:
            self._timer.cancel()
            self._timer = None
        before, self.last = self.last, made
        if not made.trouble:
            self.made_of = self._now.covers
            self._made(made)
            if self._now.wants:
                self._start()
            elif self._ends.done:
                self._ends.done(True)
            return
        if made != before:
            self._made(made)
        if self._ends.done:
            self._ends.tries -= 1
            if self._ends.tries <= 0:
                self._ends.done(False)
                return
        self._timer = self._guard.after(0.2 if self._ends.done else AGAIN, self._again)

    def _again(self) -> None:
        self._timer = None
        self._start()

    def wake(self) -> None:
        """Lets a call that was stopped from outside go on. Call this now and then."""
        self._text.wake()

    def close(self) -> None:
        """Ends what is under way."""
        if self._timer:
            self._timer.cancel()
        self._closed = True
        self._text.close()


def source_of(game: Game, limit: Optional[int]) -> int:
    """Opens a game's capture to be read from the first byte: all of it, or up to `limit` bytes. It is opened by its path, for a
    worker: if the loop closes a file meanwhile, its number may become another file's."""
    number = open_regular(game.paths.capture, os.O_RDONLY)
    if limit is None:
        return number
    try:
        front = os.memfd_create("game")
        try:
            left = limit
            while left > 0:
                part = os.read(number, min(left, 1 << 20))
                if not part:
                    break
                left -= len(part)
                while part:
                    part = part[os.write(front, part) :]
            os.lseek(front, 0, os.SEEK_SET)
        except OSError:
            os.close(front)
            raise
        return front
    finally:
        os.close(number)
