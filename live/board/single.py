"""The single board of a call of dgt_live. The call ends with its recording."""

from __future__ import annotations

import dataclasses
import functools
import os
from dataclasses import dataclass
from typing import Callable, Optional, Tuple

from live.board.board import Board
from live.board.finder import Finder
from live.board.plan import BoardUp, Change, NotRecorded, Plan, Wanted
from live.board.state import Kind, Moves, all_of
from live.child.lines import listed
from live.child.program import Program
from live.game.files import Paths, size_of
from live.game.game import end_mark, largest, mebibytes
from live.game.log import Screen
from live.game.opening import Chooses, Chosen, Opening, added_to_kept
from live.game.options import Options, as_typed
from live.game.typed import MESSAGES, MOVES
from live.line.line import check, check_free
from live.run.loop import Callback, Loop, traced
from live.run.refused import DGT_LIVE, DONE, FAILED, HELPS, REFUSED, Answer, Broken, Refused, reason_of, refusal
from live.words.message import Message, linked

QUITS = ("q", "quit")


@dataclass(frozen=True)
class Choice:
    """The given options, the messages about those that were changed to what PGN allows, and whether a game that is over may be
    opened because spectators haven't seen all of it."""

    given: Options
    told: Tuple[str, ...] = ()
    is_unseen: bool = False


@dataclass
class Shown:
    """What whoever shows the game to others has called: when its recording has ended, when somebody ends it, and when it is recorded again; at
    each change of what it shows; once, when it has been opened. And what is printed once it is recorded, with a line that has a password
    after that."""

    over: Callback
    asked: Callback
    goes_on: Callback = lambda: None
    changed: Callback = lambda: None
    opened: Callback = lambda: None
    greeting: Tuple[str, ...] = ()
    secret: str = ""


class Single:
    """The only board. If it can't begin, the call ends; after a later error it is tried again."""

    number = 1

    def __init__(self, loop: Loop, program: Program, screen: Screen, plan: Plan, choice: Choice) -> None:
        self._loop, self._program, self._screen, self._plan, self._choice = loop, program, screen, plan, choice
        self.board = Board(loop, program, self._screen, plan.paths, self._wanted, self._hears)
        self.refused: Optional[Refused] = None
        self._shown = Shown(loop.stop, loop.stop)
        self.is_open = False  # whether its game has been opened
        self._is_faulty = False  # whether an error has ended its recording
        self._finder: Optional[Finder] = None  # looks for it, once it was missing

    def is_shown(self, shown: Shown) -> None:
        """From now on its game is shown to others."""
        self._shown, self._screen.on_change = shown, shown.changed

    def begin(self) -> None:
        """Records it."""
        self.board.begin()

    def end(self) -> None:
        """Ends it in order."""
        self.board.end(self._stop)

    def _stop(self) -> None:
        self.refused = self.board.refused
        self._shown.asked()

    def _wanted(self) -> Wanted:
        """What the command line says."""
        plan, choice = self._plan, self._choice
        paths = plan.paths
        is_left = (choice.is_unseen or self.is_open) and not plan.rules.series and end_mark(paths) is not None
        shows = plan.shows or is_left

        def prepares() -> Chooses:
            if not shows:
                check(plan.device, may_wait=size_of(paths.capture) > 0)
                check_free(plan.device)
            is_over = plan.rules.series and end_mark(paths) is not None
            added = added_to_kept(choice.given, paths.name, choice.told, is_over)

            def chooses(kept: Optional[Options], has_moves: Callable[[], bool]) -> Chosen:
                over = None if plan.rules.series or shows else why_over(paths, choice.given, kept or Options())
                return Chosen(kept or Options(), refused=over) if over else added(kept, has_moves)

            return chooses

        return Wanted(dataclasses.replace(plan, shows=shows), lambda: Opening(self._program, paths, prepares))

    def _hears(self, up: BoardUp) -> None:
        """This has happened at its board. There is no other one."""
        if isinstance(up, NotRecorded):
            up.is_tried_again = self._is_tried_again(up.why)
        elif up is Change.MISSING:
            if self._finder is None:
                self._finder = Finder(self._loop, self._program, lambda: [self.board], self.trouble)
        elif up in (Change.SHOWN, Change.REMADE):
            if up is Change.SHOWN and self.board.is_recorded:
                self._is_recorded()
            self._shown.changed()

    def _is_recorded(self) -> None:
        if not self.is_open:
            self._opened()
        self._is_faulty = False
        self._shown.goes_on()

    def close(self) -> None:
        """The loop has ended: the board isn't looked for any more."""
        if self._finder:
            self._finder.close()

    def _opened(self) -> None:
        """Its game is open."""
        self._choice = Choice(Options(), (), self._choice.is_unseen)  # what was given is kept beside the game by now
        if self.is_open:
            return
        self._shown.opened()
        self.is_open = True
        for line in self._shown.greeting:
            self._screen.say(line)
        if self._shown.secret:
            self._screen.secret(self._shown.secret)

    def _is_tried_again(self, why: Optional[Exception]) -> bool:
        """Its recording has ended, or couldn't begin. Whether to try again."""
        if why is None:
            self._opened()
        elif self.is_open and (self._is_faulty or isinstance(why, Broken) or not isinstance(why, Refused)):
            self._is_faulty = True
            self._screen.state(Message("state.not_recorded"), why)
            return True
        self.refused = why if isinstance(why, Refused) or why is None else Refused(FAILED, reason_of(why))
        self._shown.over()
        return False

    def typed(self, text: str) -> None:
        """A line of the terminal."""
        if text in QUITS and not self.board.is_recorded:
            self.end()
            return
        if not text.strip():
            return
        if text == MOVES:
            self._screen.show(listed(self.board.plies, self.board.result))
            return
        if text == MESSAGES:
            self._screen.again()
            return
        if text.strip().lower() in HELPS and self.advice:
            self._screen.show(self.advice)
        self.board.typed(text, functools.partial(self._answered, self.board.is_recorded))

    def _answered(self, is_recorded: bool, answer: Answer) -> None:
        """A typed line is answered. What was done to a game that is recorded is said already; to another one, it is in its log."""
        if answer[0] != DONE:
            self._screen.say(answer[1])
        elif not is_recorded:
            self._screen.show(answer[1])

    def refuses(self, text: str, error: Exception) -> None:
        """A line of the terminal raised an error."""
        self._screen.say(refusal(text, error)[1])
        if not isinstance(error, Refused):
            self._screen.note(traced(error))

    def trouble(self, text: str) -> None:
        """An error that should never happen, and where: for the log."""
        self._screen.note(text)

    def say(self, text: str) -> None:
        """A line for the screen."""
        self._screen.say(text)

    # What the page reads.

    @property
    def name(self) -> str:
        """The name of its game's files."""
        return os.path.basename(self.board.paths.name)

    def standing(self) -> Tuple[str, Optional[float], bool]:
        """The board's state in words, since when, and whether it is an alarm."""
        state, now = self.board.state, self._loop.now()
        if self.board.trouble:
            return Message("state.not_recorded_why", why=self.board.trouble), None, True
        if state is None:
            look = self.board.looks.short
            return linked("semicolon", filter(None, (look, Message("state.over")))), None, bool(look)
        since = None if state.kind is Kind.WAITS else state.since
        return state._replace(since=now).text(now), since, state.is_alarm

    @property
    def advice(self) -> str:
        """What is to be done about it; empty if nothing is."""
        state = None if self.board.trouble else self.board.state
        return all_of(state, self.board.looks.open, False, lambda line: line, Moves([ply.short for ply in self.board.plies]))

    @property
    def options(self) -> Options:
        """The options that have its players' names and all its tags."""
        return self.board.options


def why_over(paths: Paths, given: Options, kept: Options) -> Optional[Refused]:
    """The refusal of a game that is over, or whose capture is full; None if it goes on."""
    if end_mark(paths) is not None:
        what = [
            Message("over.choose_another", name=paths.name, dgt_live=DGT_LIVE),
            Message("over.add_reopens", dgt_live=DGT_LIVE, name=paths.name),
        ]
        reading = " ".join(as_typed(given.reading().words()))
        if reading:
            what.append(Message("over.reading", dgt_live=DGT_LIVE, options=reading, name=paths.name))
        return Refused(REFUSED, *what)
    options = kept.with_given(given)
    if size_of(paths.capture) >= largest(options):
        return Refused(REFUSED, Message("file.full", path=paths.capture, mebibytes=mebibytes(options)))
    return None
