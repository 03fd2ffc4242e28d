"""A round on the screen: on a terminal a table, with a row for each board and the last messages below, which is redrawn; lines elsewhere."""

from __future__ import annotations

import math
import os
import time
from dataclasses import dataclass
from typing import Callable, List, Optional, Sequence, Tuple

from live.game.log import time_of
from live.run.loop import Loop, Timer, traced
from live.show.terminal import CUT, Painter, Terminal, fitted, folded, seen, split_at, width_of
from live.table.pairings import listed_numbers
from live.words.message import Message, has, linked, plural

WIDTH = 80  # columns of a usual terminal
NARROW = 72  # columns below which there are no clocks
NUMBER, CLOCK, GAP = 5, 7, 2  # columns of a board's number, of a clock, and before the state
LEAST = ((WIDTH, 10), (60, 8), (0, 4))  # columns that a name keeps, in terminals from a width on; a quarter of what a wider one has more
STEP = 8  # columns by which the room for the state grows
INDENT = " " * 4  # the space for a cable's name
MESSAGES = 3  # lines that messages always have
MOST_MESSAGES = 20  # lines that they have if there is room: in a tall window no message of the start is pushed out
LONGEST_ROW = 3  # lines of a row that explains a trouble
NOT_RECORDED = Message("state.not_recorded")
NARROWEST = 40  # columns of a terminal: if it has fewer, the rows are broken
KEPT = 200  # messages
DRAWS_EACH = 0.1  # seconds
TICK = 1.0
PRINTED = 2.0  # seconds that a slow reader has for the last lines


@dataclass(frozen=True)
class RowView:
    """What a row shows. `number` is None if a line of the file couldn't be read."""

    number: Optional[int]
    white: str = ""
    black: str = ""
    last: str = ""
    clocks: Tuple[str, str] = ("", "")
    state: str = ""  # before how long it has lasted
    rest: str = ""  # after that
    since: Optional[float] = None
    alarm: bool = False
    is_board: bool = True  # and not a wrong line of the file
    is_of_all: bool = False  # of the whole round, and not of a board

    @property
    def is_game(self) -> bool:
        """Whether it is a board with its game, and not a trouble in its place."""
        return self.is_board and not self.is_of_all and (bool(self.last) or self.state != NOT_RECORDED)


    def told_state(self, now: float) -> str:
        """Its state, with how long it has lasted."""
        return self.state + ("" if self.since is None else " " + since(now - self.since)) + self.rest

    @property
    def is_whole(self) -> bool:
        """Whether its state is never cut."""
        return self.alarm or has(self.rest, "state.clock_stopped")

    @property
    def replaces_game(self) -> bool:
        """Whether it tells a trouble over all columns."""
        return not self.is_game and self.alarm and self.since is None


@dataclass(frozen=True)
class Columns:
    """How wide the parts of a row are: each takes the room that it needs, and the state what is left."""

    whole: int
    white: int
    black: int
    last: int
    clocks: bool

    @staticmethod
    def of(rows: Sequence[RowView], now: float, width: int = WIDTH) -> Columns:
        """The last column stays empty: on some terminals text there would begin another line. If not all fits, names are cut before
        alarms are; but some letters of them stay."""
        games = [view for view in rows if not view.replaces_game]
        white = widest("White", [view.white for view in games])
        black = widest("Black", [view.black for view in games])
        last = widest(Message("table.last_move"), [view.last for view in games])
        clocks = width >= NARROW and any(any(view.clocks) for view in games)
        room = width - 1 - NUMBER - 2 - last - (2 * (CLOCK + 1) if clocks else 0) - GAP
        state = widest(Message("table.state_and_since"), [view.told_state(now) for view in games])
        # In steps, so that columns don't move each time that a second is added.
        least = next(columns for begin, columns in LEAST if width >= begin) + max(0, width - WIDTH) // 4
        names = max(room - STEP * math.ceil(state / STEP), 2 * least)
        if white + black > names:
            half = names // 2
            white, black = (white, names - white) if white <= half else (names - black, black) if black <= half else (half, half)
        return Columns(width - 1, white, black, last, clocks)

    @property
    def front(self) -> int:
        """The columns before the state."""
        return NUMBER + self.white + 1 + self.black + 1 + self.last + (2 * (CLOCK + 1) if self.clocks else 0) + GAP


def widest(heading: str, texts: Sequence[str]) -> int:
    """The columns that a heading and these texts need."""
    return max(width_of(seen(text)) for text in (heading, *texts))


def since(seconds: float) -> str:
    """How long, in few letters: `40s`, `12m`, `3h05`."""
    whole = max(0, int(seconds))
    if whole < 60:
        return f"{whole}s"
    minutes = whole // 60
    return f"{minutes}m" if minutes < 60 else f"{minutes // 60}h{minutes % 60:02}"


def wrapped(text: str, width: int, indent: str, most: int) -> List[str]:
    """In lines of this many columns, indented after the first; more than `most` lines end in two dots."""
    lines = folded(seen(text), width, indent) or [""]
    if len(lines) > most:
        lines[most - 1] = split_at(lines[most - 1], width - 2)[0] + CUT
    return lines[:most]


def head(columns: Columns) -> str:
    """The line above the rows."""
    parts = [fitted("White", columns.white), fitted("Black", columns.black), fitted(Message("table.last_move"), columns.last)]
    if columns.clocks:
        parts += ["White".rjust(CLOCK), "Black".rjust(CLOCK)]
    return fitted(f"  {Message('table.number')} {' '.join(parts)}  {Message('table.state_and_since')}", columns.whole).rstrip()


def row(view: RowView, now: float, columns: Columns) -> List[str]:
    """A board's line. What may not be cut goes on in the lines below, and so does a trouble that replaces a game."""
    number = "" if view.is_of_all else "?" if view.number is None else str(view.number)
    front = f"{'!' if view.alarm else ' '}{number:>3} "
    state = view.told_state(now)
    if view.replaces_game:
        return wrapped(front + state, columns.whole, " " * len(front), LONGEST_ROW)
    parts = [fitted(view.white, columns.white), fitted(view.black, columns.black), fitted(view.last, columns.last)]
    if columns.clocks:
        parts += [clock.rjust(CLOCK)[:CLOCK] for clock in view.clocks]
    line, room = front + " ".join(parts) + "  ", columns.whole - columns.front
    states = wrapped(state, room, "", LONGEST_ROW) if view.is_whole else [fitted(state, room)]
    return [(line + states[0]).rstrip(), *(" " * columns.front + more for more in states[1:])]


def boards_counted(number: int) -> str:
    """`no board`, `1 board`, `2 boards`."""
    return plural("table.boards", number) if number else Message("table.no_board")


def alarms_counted(number: int) -> str:
    """`no alarm`, `1 alarm`, `2 alarms`."""
    return plural("table.alarms", number) if number else Message("table.no_alarm")


def lines_are_wrong(number: int) -> str:
    """The note on wrong lines of the file; empty if there are none."""
    return plural("table.wrong_lines", number) if number else ""


def boards_are(numbers: Sequence[int]) -> str:
    """Which boards there are, from their numbers in order: `the boards are 1 to 8`."""
    if len(numbers) < 2:
        return Message("table.only_board", board=numbers[0]) if numbers else Message("table.no_right_line")
    return Message("table.boards_are", boards=listed_numbers(numbers))


def title_line(title: str, rows: Sequence[RowView], width: int) -> str:
    """What is recorded, and how many boards, alarms and wrong lines of the file there are."""
    boards = [view for view in rows if view.is_board and not view.is_of_all]
    lines = sum(not view.is_board for view in rows)
    alarms = alarms_counted(sum(view.alarm for view in rows if view.is_board))
    tail = linked("comma", filter(None, (boards_counted(len(boards)), alarms, lines_are_wrong(lines))))
    return f"{fitted(title, max(0, width - 2 - len(tail)))} {tail}"


def last_messages(messages: Sequence[str], width: int, room: int) -> List[str]:
    """The last messages, as many as there is room for, none of them cut."""
    lines: List[str] = []
    for message in reversed(messages):
        more = wrapped(message, width, INDENT, room)
        if len(more) + len(lines) > room:
            break
        lines = more + lines
    return lines


def screen(
    title: str, rows: Sequence[RowView], messages: Sequence[str], now: float, height: int, width: int = WIDTH
) -> List[str]:
    """The whole screen except the line in which somebody types. If not all rows fit, alarms come first. The number of lines is
    always the same, so that what is being typed stays in its place."""
    columns = Columns.of(rows, now, width)
    above = [title_line(title, rows, width), head(columns)]
    whole = max(len(above) + 2 + MESSAGES, min(height - 2, len(above) + len(rows) + 1 + MOST_MESSAGES))
    room = whole - len(above) - 1 - MESSAGES
    shown = [row(view, now, columns) for view in rows]
    more: List[str] = []
    if sum(map(len, shown)) > room:
        shown = [lines for _, lines in sorted(zip(rows, shown), key=lambda one: not one[0].alarm)]
        while shown and sum(map(len, shown)) > max(1, room - 1):
            shown.pop()
        told: str = Message("table.more_rows", count=len(rows) - len(shown))
        more = [told][: room - sum(map(len, shown))]
    table = [line for lines in shown for line in lines] + more
    below = last_messages(messages, width - 1, whole - len(above) - 1 - len(table))
    return above + table + [""] + below + [""] * (whole - len(above) - 1 - len(table) - len(below))


def listing(title: str, rows: Sequence[RowView], messages: Sequence[str], height: int, width: int = WIDTH) -> List[str]:
    """The last of these messages, over the whole screen. Above them it says how many alarms the boards have meanwhile."""
    room = max(1, height - 4)
    below = last_messages(messages, width - 1, room)
    return [title_line(title, rows, width), *below, *[""] * (room - len(below)), Message("table.enter")]


def terminal_of_lines(loop: Loop) -> Optional[Terminal]:
    """Where lines are printed; None if a table can be drawn."""
    if os.isatty(1) and os.environ.get("TERM", "dumb") != "dumb":
        return None
    return Terminal(loop)


class Display:
    """Shows the rows and the last messages; without a table, only the messages, as lines."""

    def __init__(
        self,
        loop: Loop,
        title: str,
        views: Callable[[], List[RowView]],
        terminal: Optional[Terminal],
        trouble: Callable[[str], None],
    ) -> None:
        self._loop, self._title, self._views, self._terminal, self._trouble = loop, title, views, terminal, trouble
        self._told = ""  # the last reported reason why the table couldn't be drawn
        self._painter = None if terminal else Painter(loop)
        self._messages: List[str] = []
        self._listed: List[str] = []  # shown instead of the table, until a line is typed
        self._draws: Optional[Timer] = None
        self._tick = loop.after(TICK, self._each_second)

    def say(self, text: str) -> None:
        """A line for the screen."""
        line = f"{time_of(time.time())}  {text}"
        self._messages = [*self._messages[1 - KEPT :], line]
        if self._terminal:
            self._terminal.line(line)

    def list_messages(self) -> None:
        """Shows the messages of before."""
        if self._painter:
            self._listed = list(self._messages)
            self.changed()
        elif self._terminal:
            for line in self._messages[:]:
                self._terminal.line(line)

    def show_long(self, text: str) -> None:
        """Shows a long text, on a terminal instead of the table."""
        self.say(text)
        if self._painter:
            self._listed = [self._messages[-1]]

    def changed(self) -> None:
        """What is shown has changed: it is drawn soon."""
        if self._painter and self._draws is None:
            self._draws = self._loop.after(DRAWS_EACH, self._draw)

    @property
    def shows(self) -> Optional[Painter]:
        """What shows a half-typed line, if anything does."""
        if self._painter:
            self._painter.edits = os.isatty(0)
        return self._painter

    def forget(self) -> None:
        """Draws everything again: somebody has typed a line."""
        self._listed = []
        if self._painter:
            self._painter.forget()

    def _draw(self) -> None:
        self._draws = None
        try:
            self._draw_now()
        except Exception as error:  # it is drawn again each second
            text = traced(error)
            if text != self._told:
                self._told = text
                self._trouble(text)

    def _draw_now(self) -> None:
        if self._painter:
            columns, lines = self._painter.size()
            title = f"{time_of(time.time())}  {self._title}"
            now = self._loop.now()
            if self._listed:
                self._painter.draw(listing(title, self._views(), self._listed, lines, max(NARROWEST, columns)))
                return
            self._painter.draw(screen(title, self._views(), self._messages, now, lines, max(NARROWEST, columns)))

    def _each_second(self) -> None:
        self._tick = self._loop.after(TICK, self._each_second)
        if self._painter and self._draws is None:
            self._draw()

    def close(self, last: str) -> None:
        """Shows the last line, and closes."""
        if self._painter:
            self._painter.end(last)
        elif self._terminal:
            self._terminal.line(last)
            self._terminal.end(PRINTED)
