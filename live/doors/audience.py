"""Who else sees the game of a call of dgt_live: its pages, and the text that goes out; and how the call ends while spectators haven't seen
the last moves: it goes on until they have. Only one call shows a game late. This module takes a tenth of a recorder's memory, so it is
loaded only if it is needed."""

from __future__ import annotations

import os
import time
from typing import Callable, Optional, Sequence, Tuple

from live.board.single import QUITS, Shown, Single
from live.child.program import Program
from live.doors.dgt_live import Call
from live.game.files import Paths, open_regular
from live.game.game import end_mark, has_delay, kept_tags
from live.game.kept import LOCK_PATIENCE
from live.game.options import Options
from live.out.again import is_unseen
from live.out.broadcast import Broadcast
from live.out.delay import GoingOut, clock_in, delay_of, keep_delay, keep_out, kept_out, told_of_kept
from live.run.loop import Loop
from live.run.refused import REFUSED, Refused
from live.run.system import locked
from live.show.address import keep_pages, pages_of
from live.show.page import Title, TwoPages
from live.show.view import ArbiterView
from live.words.message import Message

LOOK, SOON = 0.5, 0.05  # seconds
STAYS = 10.0  # seconds for which all that was shown stays on the page
MINUTE = 60.0


class Audience:
    """Spectators and the arbiter's browser. Refused if a page can't be served, or if another call shows the game late."""

    def __init__(self, loop: Loop, program: Program, call: Call, given: Options) -> None:
        self._loop, self._program, self._call, self._given = loop, program, call, given
        self._paths = paths = Paths(call.name)
        if not call.series and (call.out.delay is not None or has_delay(paths)):
            hold(paths)
        # whether spectators haven't seen all of a game that is over
        self.is_unseen = not call.series and is_unseen(paths) and end_mark(paths) is not None
        where, are_kept = pages_of(paths, call.pages)
        self._pages = TwoPages(loop, where, are_kept)
        self._to_keep = None if are_kept else call.pages
        delay = delay_of(paths, None, [paths]) if call.out.delay is None else call.out.delay
        kept = kept_out(paths)
        self._told = told_of_kept(kept, call.out.hold, bool(call.out.publish))
        self._out = GoingOut(delay, call.out.publish, hold=kept.hold_with(call.out.hold))

    def join(self, single: Single) -> None:
        """From now on the game of this board is shown. The call ends when spectators have seen it."""
        self._single, call, paths, out = single, self._call, self._paths, self._out
        goes_out = out.delay or out.command or self._given.tags or kept_tags(paths) or os.path.lexists(paths.broadcast)
        place, event = paths.broadcast if goes_out else None, os.path.basename(call.name)
        self._broadcast = broadcast = Broadcast(
            self._loop, self._program, out, place, lambda: [single] if single.is_open else [], single.say, single.trouble, paths.name
        )
        self._pages.trouble = single.trouble
        title = Title(self._given.event or event, self._given.round or "", out.late)
        self._pages.show(title, ArbiterView(event, lambda: [single], single.trouble), broadcast)

        def opened() -> None:
            if call.out.delay is not None:  # not sooner: a call that is refused keeps none
                keep_delay(paths, call.out.delay, [paths])
            try:
                keep_out(paths, call.out.hold, bool(call.out.publish))
                if self._to_keep:
                    keep_pages(paths, self._to_keep)
            except Refused as refused:  # it is recorded anyway
                single.say(refused.lines[0])

        def changed() -> None:
            self._pages.changed()
            if not single.board.is_new:
                broadcast.changed()

        self._leaving = leaving = Leaving(self._loop, broadcast, single.say)

        def over() -> None:
            if single.refused or not call.shows:  # a game that is only shown is shown until somebody ends it
                leaving.over()

        single.is_shown(Shown(over, leaving.asked, leaving.goes_on, changed, opened, self._greeting(), self._pages.secret))

    def _greeting(self) -> Tuple[str, ...]:
        """What is printed once the game is recorded."""
        greeting = self._pages.told(Message("page.the_game"))
        if self._call.shows:
            greeting.append(Message("board.ctrl_c_ends"))
        if self.is_unseen:
            greeting.append(Message("delay.over_unseen", name=self._paths.name))
        if self._out.late:
            late = Message("delay.game", late=self._out.late)
            greeting.append(Message("delay.as_before", delay=late) if self._call.out.delay is None else late)
        return (*greeting, *self._told)

    def typed(self, text: str) -> None:
        """A line of the terminal. While the last text is being published, only one that ends the call counts."""
        if not self._leaving.ends or text in QUITS:
            self._single.typed(text)

    def close(self) -> Tuple[Sequence[str], str]:
        """Shows nothing further. Returns what was wrong at the end, and what to do if spectators haven't seen all moves."""
        self._pages.close()
        left = self._broadcast.hidden_for
        unseen = ""
        if left is not None:
            unseen = Message("delay.unseen", time=clock_in(left))
        return self._broadcast.close(), unseen


def hold(paths: Paths) -> Optional[int]:
    """The lock of the only call that shows a game late; None if there is no file to lock. Refused if another call has it. The log
    is locked, because nobody replaces that file."""
    try:
        number = open_regular(paths.log, os.O_WRONLY | os.O_APPEND | os.O_CREAT)
    except OSError:
        return None
    if not locked(number, LOCK_PATIENCE):
        os.close(number)
        raise Refused(REFUSED, Message("delay.shown_elsewhere", name=paths.name))
    return number


def until_clock_in(seconds: float, wall: float) -> float:
    """For how many seconds that minute hasn't begun, by this clock on the wall."""
    return (wall + seconds + 59) // MINUTE * MINUTE - wall


def stays_for(shown_at: float, told: float, now: float) -> float:
    """For how many seconds the page stays: at least ten since all was shown, and until the minute that was told has begun."""
    return max(shown_at + STAYS, told) - now


class Leaving:
    """Ends the loop when everything is shown and published. The first request to end earlier only prints what is hidden. The
    second one ends it with that hidden, the third one waits for nothing."""

    def __init__(self, loop: Loop, broadcast: Broadcast, says: Callable[[str], None]) -> None:
        self._loop, self._broadcast, self._says = loop, broadcast, says
        self._waits = self._was_asked = self._is_over = False
        self._told = 0.0  # when the minute begins that was printed
        self._shown_at: Optional[float] = None  # when spectators have seen all
        self.ends = False  # wait only for the command's last run

    def over(self) -> None:
        """The recording has ended by itself."""
        self._is_over = True
        self._over()

    def _over(self) -> None:
        """What to do, once it is known what spectators haven't seen."""
        left = self._left()
        if not self._is_over:
            return  # it goes on meanwhile
        if not self._broadcast.is_told:
            self._loop.after(SOON, self._over)
            return
        if left is None and not self._waits:
            self._finish()
        elif left is not None and not self.ends:
            if left:  # else it is shown in a moment
                self._says(Message("delay.goes_on", last=self._last_moves(left)))
            self._wait()

    def asked(self) -> None:
        """Somebody ends it, and the recording has ended."""
        left = self._left()
        if self.ends:
            self._loop.stop()
        elif left is None or self._was_asked:
            self._finish()
        else:
            self._was_asked = True
            self._says(Message("delay.leave_running", last=self._last_moves(left)))
            self._wait()

    def goes_on(self) -> None:
        """The game is recorded again."""
        self._waits = self._was_asked = self._is_over = False

    def _left(self) -> Optional[float]:
        """The number of seconds for which something of the game is still hidden."""
        self._broadcast.look()
        return self._broadcast.hidden_for

    def _last_moves(self, left: float) -> str:
        """When spectators see the last moves, which are hidden for so many seconds."""
        self._told = self._loop.now() + until_clock_in(left, time.time())
        return Message("delay.last_moves", time=clock_in(left))

    def _wait(self) -> None:
        if not self._waits:
            self._waits, self._shown_at = True, None
            self._look()

    def _look(self) -> None:
        if not self._waits or self.ends:
            return
        now = self._loop.now()
        if self._broadcast.hidden_for is not None or not self._broadcast.is_out:
            self._shown_at = None
        elif self._shown_at is None:
            self._shown_at = now
            self._says(Message("delay.all_seen", seconds=format(stays_for(now, self._told, now), ".0f")))
        elif stays_for(self._shown_at, self._told, now) <= 0:
            self._finish()
            return
        self._loop.after(LOOK, self._look)

    def _finish(self) -> None:
        if not self.ends:
            self.ends = True
            self._broadcast.finish(self._loop.stop)
