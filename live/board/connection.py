"""The connection to one board: its line, which is opened again after it went away. It sends what it is given. And the numbers of all boards that
are plugged in: a child attends each board for that, and says when the board is asked, and which number has come."""

from __future__ import annotations

import contextlib
import functools
import math
import os
from dataclasses import dataclass, field
from typing import Callable, Dict, List, NamedTuple, Optional, Sequence, Set, Tuple

from live.child.lines import NUMBER, OTHER, UNSEEN, Answer
from live.child.program import Program
from live.game.attending import Attending, Told
from live.game.times import ANSWERED, ASKED, CALLED, GONE, HEARD, OPENED
from live.line.line import BUSY_PATIENCE, Busy, Line, SerialLine, Trial, cable_name, line_of, may_not_open
from live.run.loop import Callback, Guard, Loop, Timer
from live.words.message import Message, linked

LOOK_AGAIN = 0.5  # seconds between two tries to open a device that isn't there
CONNECT_AGAIN = 2.0  # and to connect to a serial server
CALL_AGAIN = 10.0  # seconds of silence after which a serial server is called again
FLOOD = Message("device.flood")

PLUGGED, UNPLUGGED, BUSY = "plugged", "unplugged", "busy"  # the line is there, and a board on it as far as is known; isn't; is another's


class Happened(NamedTuple):
    """What happens on the line: a word of NAME.times, or one of these; with what the board has sent, or how many bytes it is asked."""

    what: str
    sent: bytes = b""
    size: Optional[int] = None


Hears = Callable[[Happened], None]


@dataclass
class LineIs:
    """Whether the line is open; whether a board on it is plugged in; whether that it is gone was reported; whether it is closed for good."""

    open: bool = False
    plugged: bool = False
    gone: bool = False
    closed: bool = False


@dataclass
class Server:
    """What is known of a serial server: the trial of the connection, and a child that says whether a board is there, as long as there may be none;
    why the line has ended, while what has come before is tried; whether its board is silent, and when it is called again then."""

    trial: Optional[Trial] = None
    first: Optional[Attending] = None
    ended: Optional[str] = None
    is_silent: bool = False
    calls_again: Optional[Timer] = None


class Connection:
    """A device that may be unplugged and come back, found by the name of its cable; or a serial server that does so.

    A device that is open is plugged in. A serial server may be there without a board: it counts as plugged in once the board has
    answered, or is silent. If it stays silent, the server is called again from time to time, and nobody else gets the line
    meanwhile: socat, for one, may wait for ever for a byte that another call has taken."""

    def __init__(self, guard: Guard, program: Program, device: str, hears: Hears) -> None:
        self._guard, self._program, self.hears = guard, program, hears
        self._given = device
        self._line: Line = line_of(device)
        self._timer: Optional[Timer] = None
        self._is, self._server = LineIs(), Server()
        self._busy_since = math.inf
        self.why = ""  # why a serial server isn't there
        guard.opened(lambda: self._line.close())

    @property
    def is_server(self) -> bool:
        """Whether it is a serial server, whose line may be open without a board."""
        return not isinstance(self._line, SerialLine)

    @property
    def cable(self) -> str:
        """The name under which it is opened again."""
        return self._line.device

    def move_to(self, device: str) -> None:
        """From now on the board is on this device."""
        self._hang_up()
        self._given = device
        self._line = line_of(device)
        self._timer = self._guard.after(0, self.begin)

    def begin(self) -> None:
        """Opens it, or waits for it."""
        line = self._line
        try:
            if not isinstance(line, SerialLine):
                line.connect(self._guard, self._tried)
                return
            if line.device == self._given:
                line.device = cable_name(self._given)
            there = line.open()
        except Busy:
            self._waits_for_another()
        else:
            self._tried(there)

    def _tried(self, there: bool) -> None:
        self._busy_since = math.inf
        if there:
            self._opened()
        else:
            self._is_gone()

    def _waits_for_another(self) -> None:
        """Another process has the line: one that was just killed lets it go soon."""
        now = self._guard.now()
        self._busy_since = min(self._busy_since, now)
        if now - self._busy_since >= BUSY_PATIENCE:
            self.hears(Happened(BUSY))
        elif not self._is.closed:
            self._timer = self._guard.after(LOOK_AGAIN, self.begin)

    def _opened(self) -> None:
        assert self._line.number is not None
        now, self._is.open = self._guard.now(), True
        self.hears(Happened(OPENED))
        self._guard.watch(self._line.number, self._readable)
        if isinstance(self._line, SerialLine):
            self._plugged()
        else:
            # It isn't told that the line is open: when the board is asked, the game's child says.
            self._server.trial, self._server.first = Trial(now), Attending(self._guard, self._program, (), None, self._tried_by, self._untried)
            self._call_again_later()

    def _plugged(self) -> None:
        if not self._is.plugged:
            self._is.plugged, self._is.gone = True, False
            self.hears(Happened(PLUGGED))

    def _readable(self) -> None:
        sent, now = self._line.read(), self._guard.now()
        if sent is None:
            self._ends(self._line.why)
        elif sent and self._server.trial and self._server.trial.is_flood(now, len(sent)):
            self._lost(FLOOD)
        elif sent and self._server.trial and self._server.first:
            self._server.trial.came(sent)
            self._server.first.tell(HEARD, sent)
        elif sent:
            self.hears(Happened(HEARD, sent))

    def _tried_by(self, told: Told, answer: Answer) -> None:
        """The program has heard more of what a serial server has sent: if a dump has ended in that, a board is behind it."""
        if told.what != HEARD:
            return
        assert self._server.trial
        passed = self._server.trial.passes(len(told.sent), answer.stood is not None and answer.stood.kind not in UNSEEN)
        if passed:
            self._try_no_more()
            self.hears(Happened(ANSWERED))
            self._plugged()
            self.hears(Happened(HEARD, passed))
        if self._server.ended is not None and (passed or self._server.trial.is_tried):
            self._lost(self._server.ended)

    def _untried(self, why: str, is_broken: bool) -> None:
        """The program doesn't say whether a board is behind a serial server."""
        if is_broken:
            self._lost(why)

    def _try_no_more(self) -> None:
        first, self._server.first = self._server.first, None
        if first:
            first.close()

    def _ends(self, why: str) -> None:
        """The line has ended. A board may have sent something before."""
        assert self._line.number is not None
        if self._server.trial and self._server.first and not self._server.trial.is_tried:
            self._server.ended = why
            self._guard.forget(self._line.number)
        else:
            self._lost(why)

    def _lost(self, why: str) -> None:
        said = self._server.trial.said if self._server.trial and not self._server.trial.has_answered else ""
        self._is_gone(Message("device.said", why=why, said=said) if said else why)

    def _is_gone(self, why: str = "") -> None:
        """It isn't there. That is reported once; it is tried again and again."""
        self.why = why or self._line.why
        was_open, was_gone, self._is.gone = self._is.open, self._is.gone, True
        self._hang_up()
        if not was_gone:
            if not was_open:
                self.hears(Happened(GONE))
            self.hears(Happened(UNPLUGGED))
        if not self._is.closed:
            self._timer = self._guard.after(LOOK_AGAIN if isinstance(self._line, SerialLine) else CONNECT_AGAIN, self.begin)

    def _call_again_later(self) -> None:
        """The next call of a serial server whose board is silent."""
        if self._server.calls_again:
            self._server.calls_again.cancel()
            self._server.calls_again = None
        if self._server.is_silent and not isinstance(self._line, SerialLine):
            self._server.calls_again = self._guard.after(CALL_AGAIN, self._call_again)

    def _call_again(self) -> None:
        """Hangs up and calls again. The board stays silent until it answers, so nothing is reported."""
        self._disconnect()
        if not isinstance(self._line, SerialLine):
            self._line.hang_up()
        self._is.open = False
        self.hears(Happened(CALLED))
        self._timer = self._guard.after(CONNECT_AGAIN, self.begin)

    def _disconnect(self) -> None:
        """The line is watched no more, and nothing is asked."""
        for timer in (self._timer, self._server.calls_again):
            if timer:
                timer.cancel()
        self._timer = self._server.calls_again = None
        if self._line.number is not None:
            self._guard.forget(self._line.number)
        self._try_no_more()
        self._server.trial = self._server.ended = None

    def _hang_up(self) -> None:
        self._disconnect()
        self._line.close()
        if self._is.open:
            self._is.open = False
            self.hears(Happened(GONE))
        self._server.is_silent = self._is.plugged = False

    def ask(self, request: bytes) -> None:
        """Sends the board this, if its line is open."""
        if self._line.number is not None:
            self._line.ask(request)
            self.hears(Happened(ASKED, size=len(request)))

    def silence(self, silent: bool) -> None:
        """The board is silent, though it was asked, or answers again."""
        self._server.is_silent = silent
        self._plugged()
        self._call_again_later()

    def last_words(self) -> None:
        """Takes what has come, once more, and closes the line for good."""
        self._is.closed = True
        if self._line.number is not None and self._is.plugged and not self._server.first:
            sent = self._line.read()
            if sent:
                self.hears(Happened(HEARD, sent))
        self._hang_up()


ANSWERS_IN = 2.0  # seconds that a board may take
NOBODY = b"-----"  # no board's number: each one that comes is another board's


@dataclass
class Asked:
    """What came of asking some devices: the serial numbers of the boards that answered, the devices that another call has, those that
    this user may not open, and why one couldn't be asked."""

    numbers: Dict[str, str] = field(default_factory=dict)
    in_use: Set[str] = field(default_factory=set)
    shut: Set[str] = field(default_factory=set)
    failed: Dict[str, str] = field(default_factory=dict)


def ask(program: Program, devices: Sequence[str], seconds: float = ANSWERS_IN) -> Asked:
    """Asks the boards on these devices for their numbers, all at once, and waits this many seconds at most. It has a loop of its own, so a
    recorder calls it in a thread beside its loop."""
    asked = Asked()
    lines: List[SerialLine] = []
    with contextlib.ExitStack() as opened:
        for device in devices:
            line = SerialLine(device)
            opened.callback(line.close)
            try:
                if line.open():
                    lines.append(line)
                elif os.path.exists(device) and not os.access(device, os.R_OK | os.W_OK):
                    asked.shut.add(device)
            except Busy:
                asked.in_use.add(device)
        for board in _answers(program, lines, seconds) if lines else ():
            if board.number:
                asked.numbers[board.device] = board.number
            elif board.why:
                asked.failed[board.device] = board.why
    return asked


def _answers(program: Program, lines: Sequence[SerialLine], seconds: float) -> List[_Board]:
    """The boards on these lines, once each has answered or the time is over."""
    loop, left = Loop(), set(lines)

    def ends(line: SerialLine) -> None:
        left.discard(line)
        if not left:
            loop.stop()

    boards = [_Board(loop, line, functools.partial(ends, line)) for line in lines]
    with contextlib.ExitStack() as opened:
        opened.callback(loop.close)
        for board in boards:
            opened.callback(board.end)
            board.begin(program)
        if left:
            loop.after(seconds, loop.stop)
            loop.run()
    return boards


class _Board:
    """What is on one line, and the child that attends it."""

    def __init__(self, loop: Loop, line: SerialLine, ended: Callback) -> None:
        self.device, self.number, self.why = line.device, "", ""
        self._line, self._ended = line, ended
        self._guard = Guard(loop, self._broke, self._broke)
        self._attending: Optional[Attending] = None

    def begin(self, program: Program) -> None:
        """Asks it."""
        self._guard.call(functools.partial(self._begin, program))

    def _begin(self, program: Program) -> None:
        assert self._line.number is not None
        self._attending = attending = Attending(self._guard, program, (), None, self._answered, self._child_ended)
        attending.tell(NUMBER, NOBODY)
        attending.tell(OPENED)
        self._guard.watch(self._line.number, lambda: self._readable(attending))

    def _readable(self, attending: Attending) -> None:
        sent = self._line.read()
        if sent is None:
            self.end()
        elif sent:
            attending.tell(HEARD, sent)

    def _answered(self, told: Told, answer: Answer) -> None:
        """The child says this."""
        self._line.ask(answer.asked)
        if answer.handling == OTHER:
            self.number = answer.other
            self.end()

    def _child_ended(self, text: str, is_broken: bool) -> None:
        """If no number comes in time, that is why."""
        self.why = str(text.places["what"]) if isinstance(text, Message) and not is_broken else text
        if is_broken:
            self.end()

    def _broke(self, error: Exception) -> None:
        self.why = str(error)
        self._ended()

    def end(self) -> None:
        """It isn't asked any more, and its child is ended."""
        if self._attending and not self._guard.ended:
            self._attending.close()
        self._guard.end()
        self._ended()


def listing(found: Sequence[Tuple[str, str]], asked: Asked) -> List[str]:
    """The printed list of devices: each with the name of its cable and its board's serial number, as far as known; or what to do
    if there is none."""
    if not found:
        return [linked("colon", ("dgt_live", Message("device.none")))]
    return ["  ".join(filter(None, (device, name, _state(device, asked)))) for device, name in found]


def _state(device: str, asked: Asked) -> str:
    """A device's number, or why it gave none."""
    if device in asked.shut:
        return Message("device.shut")
    if device in asked.failed:
        return Message("device.not_asked", why=asked.failed[device])
    return Message("device.in_use") if device in asked.in_use else asked.numbers.get(device, "")


def told_of_shut(asked: Asked, user: str) -> List[str]:
    """What to do about the devices that this user may not open."""
    return [may_not_open(", ".join(sorted(asked.shut)), user)] if asked.shut else []
