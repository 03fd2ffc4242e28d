"""Reports about a game, or a round, with the time of day: on the screen and in NAME.log."""

from __future__ import annotations

import collections
import functools
import math
import os
import time
from typing import Callable, Deque, Dict, Optional, Protocol

from live.game.files import AnyPath, Paths, open_regular, text_of
from live.game.options import NOT_ROTATED, ROTATED
from live.run.refused import DGT_LIVE, REOPENS, printable
from live.words.message import Message, plural

MOST_TROUBLES = 8  # messages about a log
DATE = len("2024-05-31 ")


def logged_at(now: float) -> str:
    """The date and the time of day in front of a line of a log, as `2024-05-31 14:02:59`."""
    return _in_second(int(now))


def time_of(now: float) -> str:
    """The time of day, as `14:02:59`."""
    return _in_second(int(now))[DATE:]


@functools.lru_cache(maxsize=1)
def _in_second(second: int) -> str:
    return "%04d-%02d-%02d %02d:%02d:%02d" % time.localtime(second)[:6]


class Log:
    """NAME.log: a line for each message, with date and time of day. If it can't be written the game goes on, and the reason is
    written before the next line."""

    def __init__(self, path: AnyPath) -> None:
        self._path = path
        self._number: Optional[int] = None
        self._missing = 0
        self._troubles: Dict[str, None] = {}  # since the last written line, each once
        self._unexpected: Optional[Exception] = None  # the last of these errors that isn't the system's
        self._open()

    def _open(self) -> None:
        """Opens it if possible: else the next line tries again."""
        try:
            self._number = open_regular(self._path, os.O_WRONLY | os.O_APPEND | os.O_CREAT)
        except Exception as error:
            self._fails(error)

    def _fails(self, error: Exception) -> None:
        if isinstance(error, OSError):
            text = text_of(error)
        else:
            text, self._unexpected = f"{type(error).__name__}: {error}", error
        if len(self._troubles) < MOST_TROUBLES:
            self._troubles[text] = None

    def write(self, when: str, text: str) -> None:
        if self._number is None:
            self._open()
        if self._number is None:
            self._missing += 1
            return
        if self._troubles:
            text = f"{self._gap()}\n{when}  {text}"
        try:
            self._put(self._number, f"{when}  {text}")
        except Exception as error:
            self._missing += 1
            self._fails(error)

    def _put(self, number: int, line: str) -> None:
        os.write(number, f"{line}\n".encode("utf-8", "backslashreplace"))
        self._missing, self._unexpected = 0, None
        self._troubles.clear()

    def _gap(self) -> str:
        why = "; ".join(self._troubles)
        if self._missing == 0:
            return Message("log.opened_late", why=why)
        return plural("log.missing", self._missing, why=why)

    def close(self) -> None:
        """Writes nothing further. An unexpected error is raised here if the log couldn't report it."""
        if self._number is None and self._unexpected:
            self._open()
        number, self._number = self._number, None
        if number is None:
            if self._unexpected:
                raise self._unexpected
            return
        try:
            if self._troubles:
                self._put(number, self._gap())
        except Exception as error:
            if self._unexpected:
                raise self._unexpected from error
            raise
        finally:
            os.close(number)


def log_once(paths: Paths, *lines: str) -> None:
    """Writes lines to the log of a game that nobody records now."""
    log = Log(paths.log)
    for line in lines:
        log.write(logged_at(time.time()), line)
    log.close()


NO_TIME = "--:--:--"
PROMPT = "  > "
INDENT = " " * 10  # as wide as the time of day in front of a line
AGAIN = 100  # lines that are kept to be shown again
LASTS = 10.0  # seconds between two writings of an unchanged state
Clock = Callable[[], float]  # seconds, as `time.time`


class Terminal(Protocol):
    """What is printed."""

    @property
    def in_place(self) -> bool:
        """Whether it has one line below the others that is rewritten in place."""

    def line(self, text: str) -> None:
        """Prints a line, above the state."""

    def state(self, text: str) -> None:
        """Shows the state in the line below all others, if there is such a line."""


class Screen:
    """Lines with the time of day, and the state of the board."""

    def __init__(self, terminal: Optional[Terminal], clock: Clock = time.time) -> None:
        self._terminal, self._clock = terminal, clock
        self.on_change: Callable[[], None] = lambda: None  # called at each move and each state
        self._log: Optional[Log] = None
        self._news: object = None
        self._last: Deque[str] = collections.deque(maxlen=3)  # the texts of the last lines
        self._shown: Deque[str] = collections.deque(maxlen=AGAIN)
        self._state_at = -math.inf

    @property
    def shows_time(self) -> bool:
        """Whether its last line is rewritten in place, with the time that a state has lasted."""
        return self._terminal is not None and self._terminal.in_place

    def keep(self, log: Optional[Log]) -> None:
        """From now on the lines are written to this log."""
        if self._log:
            self._log.close()
        self._log = log

    def say(self, text: str, *more: str) -> None:
        """Shows a line, and those that belong to it. The log has them too."""
        self.show(text, *more)
        for line in (text, *more):
            self.note(line)

    def cable(self, text: str, *more: str) -> None:
        """Shows that the board isn't heard, and what to do about its cable."""
        self.say(text, *more)

    def show(self, text: str, *more: str) -> None:
        """The same as `say`, without the log."""
        self._last.append(text)
        lines = [f"{time_of(self._clock())}  {text}", *(INDENT + line for line in more)]
        self._shown += lines
        for line in lines:
            self._print(line)

    def again(self) -> None:
        """Shows what was shown before, but for what is older than many lines."""
        for line in list(self._shown):
            self._print(line)

    def secret(self, text: str) -> None:
        """Shows a line that isn't kept in the log."""
        self._print(f"{time_of(self._clock())}  {text}")

    def old(self, text: str) -> None:
        """Shows a line about what was played before this call, at an unknown time."""
        self._print(f"{NO_TIME}  {text}")

    def told(self, text: str, is_old: bool) -> None:
        """Shows a move, a correction or a result, of this call or from before it."""
        if is_old:
            self.old(text)
        else:
            self.move(text)
        self.on_change()

    def move(self, text: str) -> None:
        """Shows a move, a correction or a result of this call."""
        self.say(text)

    def anew(self, pgn: str, text: str) -> str:
        """The message that the text of a game was made anew and has changed."""
        return Message("text.made_anew", pgn=pgn, text=text)

    def turn(self, rotated: bool) -> str:
        """What to do if the board lies the other way round than the option says. The last line has no room for more."""
        return Message("screen.turn", option=NOT_ROTATED if rotated else ROTATED)

    def typed(self, line: str) -> str:
        """How a line is typed for this board."""
        return line

    def reopens(self) -> str:
        """What to type if a result was typed for the wrong board."""
        return self.typed(REOPENS)

    def mistyped(self) -> str:
        """What to do if the result that was just given was typed by mistake."""
        return Message("screen.mistyped", reopens=self.reopens())

    def result_of(self, name: str, in_series: bool) -> str:
        """What to type for the result of a game that is over without one."""
        return f"1-0 {name}" if in_series else f"{DGT_LIVE} --add 1-0 {name}"  # what is typed

    def goes_on(self, name: str, in_series: bool) -> str:
        """What to do if a game goes on that is over without a result."""
        add = f'{DGT_LIVE} --add "{REOPENS}" {name}'
        return Message("screen.ctrl_c_and", command=add) if in_series else add

    def other_device(self) -> str:
        """What to do if the device that isn't there is the wrong one."""
        return Message("screen.other_device", dgt_live=DGT_LIVE)

    def other_address(self) -> str:
        """The same for the address of a serial server."""
        return Message("screen.other_address")

    def hint(self, text: str) -> None:
        """Shows a new hint, in addition to the state, which has it too."""

    def asks(self, question: str) -> None:
        """Asks what the state asks too. A terminal has it in a line of its own, since the state's may be too long for it."""
        if self.shows_time:
            self.say(Message("join.capital", text=question))

    def note(self, text: str) -> None:
        """Writes a line to the log alone."""
        self._write(self._clock(), text)

    def state(self, text: str, news: object) -> None:
        """Shows the board's state: as the last line of a terminal, elsewhere as a line each time that `news` changes."""
        is_news, self._news = news != self._news, news
        if is_news or self.shows_time:
            self._tell_state(self._clock(), text, is_news)
        self.on_change()

    def over(self, text: str) -> None:
        """Shows that the game is over, while its board is still watched."""
        self.state(text, text)

    def _tell_state(self, now: float, text: str, is_news: bool) -> None:
        """Shows it if it has changed; on a terminal, also after it has lasted for a while."""
        # A result that was just shown as a line needs no second one.
        is_line = is_news and text not in self._last
        if is_line:
            self._write(now, text)
        if self._terminal and self._terminal.in_place:
            # An unchanged state isn't written each second: that would disturb what is typed below.
            if is_news or abs(now - self._state_at) >= LASTS:
                self._state_at = now
                self._terminal.state(f"{time_of(now)}  {text}{PROMPT}")
        elif is_line:
            self._print(f"{time_of(now)}  {text}")

    def _print(self, line: str) -> None:
        if self._terminal:
            self._terminal.line(line)

    def _write(self, now: float, text: str) -> None:
        if self._log:
            self._log.write(logged_at(now), text if text.isprintable() else printable(text))
