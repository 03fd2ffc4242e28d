"""One board: it is recorded; or, if that fails, the reason is kept and recording is tried again."""

from __future__ import annotations

import contextlib
import functools
import math
from dataclasses import dataclass
from typing import Callable, List, Optional, Sequence, Tuple

from live.board.arbiter import Arbiter, Line, TypedLines
from live.board.cable import AskedFirst
from live.board.plan import Among, Asked, BoardUp, CameBack, Change, Means, News, NotRecorded, Numbered, Others, Plan, Stopped, Wanted
from live.board.playing import Playing
from live.board.session import Session
from live.board.state import Owner, Returned, State, came_back, told_of_same_number
from live.child.lines import Clock, Move
from live.child.program import Program
from live.game import files
from live.game.changing import add_by_name
from live.game.files import Paths
from live.game.game import Course, kept_serial, new_course, result_of
from live.game.log import Log, Screen, log_once
from live.game.looks import Looks, kept_looks
from live.game.opening import Chooses, Opened
from live.game.options import Options, today
from live.game.typed import forfeit_of
from live.run.loop import Guard, Steps, Timer, Turns, Worker, beside, traced
from live.run.refused import DONE, FAILED, Answer, NotDone, Refused, reason_of, refusal
from live.words.message import Message, linked

PAUSES = (2.0, 5.0, 10.0, 20.0, 40.0, 60.0)  # seconds between tries to record a board
ENDED = Message("board.ended")
BEING_OPENED = Message("board.being_opened")


@dataclass
class Left:
    """What is known of its game and of the board itself while it isn't recorded: its files, its course, its alarms; the serial number, and the
    cable's name, which stays when the device's name changes."""

    paths: Paths
    course: Course
    looks: Looks = Looks()
    number: str = ""
    cable: str = ""


@dataclass
class Tries:
    """The timer of the next try to record it; how many there were, and when it was recorded last."""

    timer: Optional[Timer] = None
    count: int = 0
    begun_at: float = math.inf


class Board:
    """One board. Its calls raise nothing: an error ends the recording here, and it is tried again."""

    def __init__(
        self, loop: Turns, program: Program, screen: Screen, paths: Paths, wanted: Callable[[], Wanted], tells: Callable[[BoardUp], None],
        of_number: Callable[[str], Optional[Board]] = lambda number: None
    ) -> None:  # fmt: skip
        self._loop, self._program, self._screen = loop, program, screen
        self._wanted, self._tells, self._of_number = wanted, tells, of_number
        self.options = Options()  # of the game, as its text has them
        self.pgn = b""
        self.forfeit = ""  # how its game was forfeited, if it was
        self.trouble = ""  # why it isn't recorded
        self.refused: Optional[Refused] = None  # why its recording has ended, if that was an error
        self.is_over = False
        self.is_new = True  # nothing is known about it yet; a call that ends before its game is open leaves it so
        self.left, self._tries, self.among = Left(paths, new_course(self.options)), Tries(), Among()
        self._guard: Optional[Guard] = None  # of the game that is opened or recorded
        self._arbiter: Optional[Arbiter] = None  # obeys what is typed to that, and has the session
        self._done: Optional[Callable[[], None]] = None  # called when it has ended
        self._lines = TypedLines(self._refuses)
        self._is_changed = False  # whether its game, which isn't recorded, is just being changed by a typed line
        self._read_pgn()

    @property
    def _session(self) -> Optional[Session]:
        return self._arbiter.session if self._arbiter else None

    # Recording it, if possible.

    def begin(self) -> None:
        """Records it, now or as soon as it can."""
        if self._is_changed:
            self._lines.then(self.begin)
            return
        if self._tries.timer:
            self._tries.timer.cancel()
            self._tries.timer = None
        if self._guard is None:
            self._guard = guard = Guard(self._loop, self._broke, self._note, self._turn)
            guard.call(lambda: self._open(guard))

    def _open(self, guard: Guard) -> None:
        wanted = self._wanted()
        self.left.paths = wanted.plan.paths
        self.left.number = kept_serial(self.left.paths)
        worker = Worker(guard)
        guard.opened(worker.close)
        opening = wanted.opening()

        def drop() -> None:
            opening.drop()
            for text in opening.untold:
                self._screen.say(text)

        guard.opened(drop)
        now = self._loop.now()
        asked: List[AskedFirst] = []

        def held() -> None:
            asked.append(AskedFirst(guard, self._program, wanted.plan.device, wanted.plan.serial or self.left.number))

        def opened(found: Opened) -> None:
            guard.opened(found.game.capture.close)
            assert found.reader
            reader_unused = guard.opened(found.reader.close)
            opening.take()
            self._opened(Means(guard, worker, self._screen), wanted.plan, found, asked[0] if asked else None)
            reader_unused()
            opening.untold = ()  # it has been said

        if not wanted.plan.shows:
            opening.held = lambda: guard.soon(held)

        worker.do(lambda: opening.open(now, today()), opened)

    def _opened(self, means: Means, plan: Plan, opened: Opened, asked: Optional[AskedFirst]) -> None:
        """The game is open: it is recorded, or its board is listened to, since it is over."""
        self.trouble, self.is_new, self._tries.begun_at = "", False, self._loop.now()
        self.left.paths, self.options, self.left.course = opened.game.paths, opened.game.options, opened.old.course
        self._read_pgn()
        means.guard.opened(lambda: self._screen.keep(None))
        self._screen.keep(Log(self.left.paths.log))
        for line in opened.told:
            self._screen.say(line)
        anew = (*opened.read_anew, *opened.results)
        if anew:
            self._screen.say(self._screen.anew(str(self.left.paths.pgn), linked("semicolon", anew)))
        self.is_over = opened.is_over or opened.is_full
        if plan.shows or (plan.board and opened.is_full):  # nothing more comes to it
            self._release(None)
        else:
            self._arbiter = Arbiter(Session(means, plan, opened, Others(self.owner, self.lends), asked))
            self.left.course = self._arbiter.session.course
            self.shares_number(self.among.alike)
        self._tells(Change.REMADE)
        self._tells(Change.SHOWN)

    def _broke(self, error: Exception) -> None:
        """An error was raised: everything that was open is closed."""
        self._note(error)
        self._leave()
        self._put_off(reason_of(error), error)

    def _leave(self) -> None:
        """Stops recording."""
        was_recorded = self._session is not None
        if self._session:
            game, cable = self._session.game, self._session.cable
            self.left.course, self.left.paths, self.options = self._session.course, game.paths, game.options
            self.left.cable, self.left.number = cable.name, cable.number
        self._guard = self._arbiter = None
        if was_recorded:
            self._lines.drop(Refused(FAILED, Message("board.ended_again", ended=ENDED)))

    def _put_off(self, why: str, error: Optional[Exception]) -> None:
        """Not recorded, for this reason. It is tried again later unless it is ending."""
        if self.is_new and not self._done:
            self.is_new = False
            self._tells(Change.REMADE)
        if self._done:
            self.trouble = why if error else self.trouble  # the reason for the last failure, if recording was just tried again
            self._ended()
        else:
            self._tells(up := NotRecorded(error))
            if up.is_tried_again:
                self._try_again_later(why)
        self._tells(Change.SHOWN)

    def _try_again_later(self, why: str) -> None:
        before, self.trouble = self.trouble, why
        if self._loop.now() - self._tries.begun_at > PAUSES[-1]:
            self._tries.count = 0
        self._tries.begun_at = math.inf
        self._tries.timer = self._loop.after(PAUSES[min(self._tries.count, len(PAUSES) - 1)], self.begin)
        self._tries.count += 1
        if why != before:
            self._screen.say(Message("board.not_recorded", why=why))

    def _turn(self) -> None:
        """Takes what has gone up from the session, in order, in the same turn."""
        for up in self._session.turn() if self._session else ():
            if isinstance(up, News):
                self._takes(up)
            elif isinstance(up, CameBack):
                if back := came_back(up.heard_at, up.has_slept, self._loop.now()):
                    self.among.back = back
                    self._tells(Change.CAME_BACK)
            elif isinstance(up, Numbered):
                self._tells(Change.NUMBERED)
            elif isinstance(up, Asked):
                self._asked(up.text, up.answered)
            elif isinstance(up, Stopped):  # the line that is being obeyed gets its answer first
                self._lines.then(functools.partial(self._release_soon, up.refused))

    def _takes(self, news: News) -> None:
        if news is News.MISSING:
            self._tells(Change.MISSING)
            return
        if news in (News.OVER, News.REOPENED):
            self.is_over = news is News.OVER
        self._read_pgn()
        self._tells(Change.REMADE)
        self._tells(Change.SHOWN)

    def _release_soon(self, refused: Optional[Refused]) -> None:
        if self._guard:
            self._guard.after(0, lambda: self._release(refused))

    def _release(self, refused: Optional[Refused]) -> None:
        guard, self.refused = self._guard, refused
        self._leave()
        if guard:
            guard.end()
        self._read_pgn()
        if refused is None and not self._done:
            self.is_over = self.is_over or self.result != "*" or files.size_of(self.paths.end) > 0
        self._tells(Change.REMADE)
        if self._done or refused or not self.is_over:
            self._put_off(refused.lines[0] if refused else ENDED, refused)
        else:
            self._tells(NotRecorded(None))
        self._tells(Change.SHOWN)

    @property
    def returned(self) -> Optional[Returned]:
        """When it was away last, and what tells it from others; None if it wasn't, or its game is over."""
        return None if self.among.back is None or self.is_over else Returned(self.among.back, self.number, self._course.shown.placement)

    def suspect(self, others: Sequence[int]) -> None:
        """Its cable may have been exchanged with that of one of the boards with these numbers."""
        now = self._session.now if self._session else None
        if self._guard and isinstance(now, Playing):
            self._guard.call(functools.partial(now.suspect, others))

    def shares_number(self, others: Sequence[int]) -> None:
        """Its board has the same serial number as the boards with these numbers."""
        self.among.alike = () if self._session else others
        if others and self._guard and self._session:
            self._guard.call(functools.partial(self._session.look_at, told_of_same_number(others)))

    def _other(self, number: str) -> Optional[Board]:
        """The other board that has this serial number; boards without one have that in common."""
        board = self._of_number(number) if number else None
        return None if board is self else board

    def owner(self, number: str) -> Optional[Owner]:
        """The other game that is recorded from the board with this serial number."""
        board = self._other(number)
        return Owner(board.among.called, bool(board.plies)) if board else None

    def lends(self, number: str, sent: bytes) -> bool:
        """The board with this number is on this board's cable, and has sent this. Returns whether its own game takes it."""
        board = self._other(number)
        return board is not None and board.takes(sent)

    def takes(self, sent: bytes) -> bool:
        """Its board has sent this on another board's cable. Returns whether it is recorded. An error there is this board's."""
        if self._guard is None or self._session is None:
            return False
        self._guard.call(functools.partial(self._session.takes, sent))
        return True

    def end(self, done: Callable[[], None]) -> None:
        """Ends its recording in order, after the lines that were typed, then calls this."""
        self._lines.when_idle(lambda: self._end(done))

    def _end(self, done: Callable[[], None]) -> None:
        if self._tries.timer:
            self._tries.timer.cancel()
            self._tries.timer = None
        self._done = done
        if self._guard and self._session:
            self._guard.call(self._session.end)
        elif self._guard:
            self._release(None)
        else:
            self._loop.after(0, self._ended)

    def _ended(self) -> None:
        done, self._done = self._done, None
        if done:
            done()

    def try_at_once(self) -> None:
        """If it isn't recorded: tries now, and again soon."""
        self._tries.count = 0
        self.begin()

    # Typed lines.

    def typed(self, text: str, answered: Callable[[Answer], None]) -> None:
        """A line of the terminal of a single board, which gets an answer."""
        self._lines.take(Line(text, lambda: self._obeys(text, is_typed=True), answered))

    def add(
        self, text: str, answered: Callable[[Answer], None], begins: Callable[[], None] = lambda: None, is_sure: bool = True
    ) -> None:
        """A line that was typed elsewhere, which gets an answer; `begins` is called when the lines before it are answered. What
        isn't sure is asked about."""

        def obeys() -> Steps[Answer]:
            begins()
            return self._obeys(text, is_typed=False, is_sure=is_sure)

        def then(answer: Answer) -> None:
            self._tells(Change.SHOWN)
            answered(answer)

        self._lines.take(Line(text, obeys, then))

    def rename(
        self, text: str, prepares: Callable[[], Chooses], answered: Callable[[Answer], None], begins: Callable[[], None] = lambda: None
    ) -> None:
        """The names of its line, for which somebody has typed this: its game has them once the lines before are answered."""

        def obeys() -> Steps[Answer]:
            begins()
            if self._arbiter is None:
                return refusal(text, NotDone(BEING_OPENED))
            return (yield from self._turned(self._arbiter.rename(text, prepares)))

        self._lines.take(Line(text, obeys, answered))

    def _asked(self, text: str, answered: Callable[[Answer], None]) -> None:
        """What another call asks for."""

        def then(answer: Answer) -> None:
            if answer[0] != DONE:
                self._screen.note(answer[1])
            answered(answer)

        self.add(text, then)

    def _obeys(self, text: str, is_typed: bool, is_sure: bool = False) -> Steps[Answer]:
        arbiter = self._arbiter
        if arbiter:
            return (yield from self._turned(arbiter.typed(text) if is_typed else arbiter.add(text, is_sure)))
        if self.is_begun:
            return refusal(text, NotDone(BEING_OPENED))
        return (yield from self._add_to_closed(text))

    def _turned(self, steps: Steps[Answer]) -> Steps[Answer]:
        """What goes up is taken before the line is answered."""
        try:
            answer = yield from steps
        except Exception:
            self._turn()
            raise
        self._turn()
        return answer

    def _refuses(self, text: str, error: Exception) -> Answer:
        """The answer to a line that raised an error: it ends nothing."""
        self._note(error)
        return refusal(text, error)

    def _add_to_closed(self, text: str) -> Steps[Answer]:
        """Adds to a game that isn't recorded now, and reads its new state."""
        worker, self._is_changed = Worker(self._loop), True
        try:
            answer = yield from beside(worker, functools.partial(add_by_name, self._program, self.paths, text, 0))
        finally:
            worker.close()
            self._is_changed = False
        if answer[0] == DONE:
            self._read_pgn()
            self.is_over = files.size_of(self.paths.end) > 0
            self._lines.then(self.try_at_once)
            self._tells(Change.REMADE)
        return answer

    def _note(self, error: Exception) -> None:
        """Writes to NAME.log where the error was raised; if that can't be written, returns the error. A refusal explains itself."""
        if isinstance(error, Refused):
            return
        try:
            log_once(self.paths, *traced(error).split("\n"))
        except Exception as another:
            for one in (error, another):
                self._screen.say(f"{type(one).__name__}: {one}")

    # What others read.

    @property
    def is_recorded(self) -> bool:
        """Whether it is recorded now."""
        return self._session is not None

    @property
    def is_begun(self) -> bool:
        """Whether it is recorded now, or its game is being opened."""
        return self._guard is not None

    @property
    def number(self) -> str:
        """The serial number of its board, empty if unknown."""
        return self._session.cable.number if self._session else self.left.number

    @property
    def lacks(self) -> str:
        """The serial number of its board, if that isn't on its cable; else empty."""
        return self._session.cable.lacks if self._session and self._session.standing else ""

    @property
    def holds(self) -> str:
        """The device that is open, if it is."""
        return self._session.cable.holds if self._session else ""

    def found_on(self, device: str) -> None:
        """Its board is on this device."""
        if self._guard and self._session:
            self._guard.call(functools.partial(self._session.cable.move_to, device))

    @property
    def paths(self) -> Paths:
        """The files of the game."""
        return self._session.game.paths if self._session else self.left.paths

    @property
    def result(self) -> str:
        """The result in its text."""
        return result_of(self.pgn)

    @property
    def plies(self) -> List[Move]:
        """The moves of the game; of the last game while none is recorded."""
        return self._course.plies

    @property
    def fens(self) -> List[str]:
        """The positions at the start and after each ply."""
        return self._course.fens

    @property
    def clock(self) -> Optional[Clock]:
        """The last clock times."""
        return self._course.shown.clock

    @property
    def clock_at(self) -> float:
        """When they came."""
        return self._course.shown.clock_at

    @property
    def recovered(self) -> List[str]:
        """The pairs of moves that were recovered."""
        return self._course.recovered

    @property
    def looks(self) -> Looks:
        """The alarms of the game."""
        return self._session.looks if self._session else self.left.looks

    @property
    def _course(self) -> Course:
        return self._session.course if self._session else self.left.course

    @property
    def state(self) -> Optional[State]:
        """The board's state; None if nothing is recorded."""
        return self._session.standing.state if self._session and self._session.standing else None

    @property
    def differing(self) -> Tuple[str, ...]:
        """The squares that a page marks."""
        return self.state.differing if self.state else ()

    def _read_pgn(self) -> None:
        """Takes the text of its game: the one that this recording has put in place last, if it has; else what the file has."""
        written = self._session.game.written.last if self._session else None
        if self._session is None:
            self.left.looks = kept_looks(self.paths)
        if written:
            self.pgn, self.options = written
        else:
            with contextlib.suppress(OSError):
                self.pgn = files.existing(self.paths.pgn)
        self.forfeit = forfeit_of(self.paths, self.pgn)
