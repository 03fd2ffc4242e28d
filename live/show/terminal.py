"""What is printed: lines with a state below them, or a table that is redrawn in place. A stopped terminal or a slow reader holds up nothing.
How wide a text is on a terminal, and texts cut, filled up and folded to a width; how a terminal is set up, and left as it was found.

Chinese, Japanese and Korean letters are two columns wide, and marks that go over or under a letter have no width. Whatever is
written here has only what a terminal doesn't obey.

And what is typed: a line can be edited meanwhile.
"""

from __future__ import annotations

import contextlib
import errno
import os
import re
import select
import stat
import termios
import time
import unicodedata
from dataclasses import dataclass, replace
from typing import Any, Callable, Dict, List, Optional, Sequence, Tuple, Union

from live.run.loop import Loop
from live.run.refused import REFUSED, Refused, printable
from live.words.message import Message

WIDE = ("W", "F")  # by their East Asian width
NO_WIDTH = ("Mn", "Me", "Cf")  # by their category
JAMO = range(0x1160, 0x1200)  # the later parts of a Korean letter
MOST_MARKS = 4  # on one letter: more of them would reach into other lines
CUT = ".."
WAITING = 64 * 1024  # bytes that may wait to be printed; later lines are dropped
COLUMNS, LINES = 80, 24  # of a terminal that doesn't say how large it is
LEAST_TYPED = 24  # columns that what is typed has, if it needs them
INDENT = " " * 10  # as wide as the time of day in front of a line
ERASE = b"\r\x1b[K"
CLEAR = b"\x1b[H\x1b[2J"
SAVE, RESTORE = b"\x1b7", b"\x1b8"
PROMPT = "> "
KEYS_AT_ONCE = termios.ICANON | termios.ECHO
NO_KEY = b"\0"
_unblocked: List[int] = []  # standard streams that `opened_again` has made non-blocking
_edited: Dict[int, List[Any]] = {}  # terminals whose keys come at once, and how they were set before


class Output:
    """A terminal, a pipe or a file. What can't be written yet waits; `goes_on` is called when all of that is written."""

    def __init__(self, loop: Loop, number: int, goes_on: Callable[[], None]) -> None:
        self._loop, self._goes_on = loop, goes_on
        self.number: Optional[int] = None
        self.waiting = bytearray()
        self.is_stuck = self._is_file = False
        with contextlib.suppress(OSError):
            self._is_file = stat.S_ISREG(os.fstat(number).st_mode)
            self.number = number
        if self.number is not None and not self._is_file:
            self.number = opened_again(number)

    def write(self, part: bytes = b"") -> None:
        """Writes this behind what waits, if there is anything."""
        self.waiting += part
        if self.number is None:
            self.waiting.clear()
            return
        try:
            while self.waiting:
                del self.waiting[: os.write(self.number, self.waiting)]
        except BlockingIOError:
            if not self.is_stuck:
                self.is_stuck = True
                self._loop.watch(self.number, None, self.write)
            return
        except OSError as error:
            # Nobody reads it any more, or its disk is full.
            self.waiting.clear()
            if error.errno in (errno.EPIPE, errno.EIO) and not self._is_file:
                self.close()
            return
        except Exception:
            return  # it is printed with the next line
        if self.is_stuck:
            self.is_stuck = False
            self._loop.forget(self.number)
            self._goes_on()

    def size(self) -> Tuple[int, int]:
        """Columns and lines."""
        return size_of(self.number or 0)

    def close(self) -> None:
        if self.number is not None:
            if self.is_stuck:
                self._loop.forget(self.number)
                self.is_stuck = False
            if self.number > 2:
                os.close(self.number)
            self.number = None


class Terminal:
    """Standard output: lines, and on a terminal one line below them that is rewritten in place."""

    def __init__(self, loop: Loop) -> None:
        self._out = Output(loop, 1, self._goes_on)
        self.in_place = self._out.number is not None and os.isatty(1) and os.environ.get("TERM", "dumb") != "dumb"
        self._dropped = 0
        self._state = ""
        self._typed: Tuple[str, int] = ("", 0)
        self._shown = False

    def line(self, text: str) -> None:
        """Prints a line, above the state. On a terminal a long one is folded, behind the time of day."""
        text = seen(text)
        if self.in_place:
            text = "\n".join(in_lines(text, self._out.size()[0], INDENT))
        line = text.encode("utf-8", "backslashreplace") + b"\n"
        if len(self._out.waiting) + len(line) > WAITING:
            self._dropped += 1
            return
        self._erase()
        self._out.waiting += line
        self._write()

    def state(self, text: str) -> None:
        """Shows the state in the line below all others, if there is such a line."""
        if self.in_place and text != self._state:
            self._state = text
            self._show_again()

    def typing(self, text: str, place: int) -> None:
        """This is half typed, behind the state, and the next letter comes to this place."""
        if self._typed != (text, place):
            self._typed = text, place
            self._show_again()

    def entered(self, text: str) -> None:
        """This was typed: it stays, behind the state."""
        self._typed = "", 0
        self.line(f"{self._state}{text}")

    def _show_again(self) -> None:
        if not self._out.is_stuck:
            self._erase()
            self._write()

    def _erase(self) -> None:
        if self._shown:
            self._out.waiting += ERASE
            self._shown = False

    def _show_state(self) -> None:
        if not self._shown:
            text, place = self._typed
            width = self._out.size()[0] - 1
            room = min(width_of(printable(text)) + 1, LEAST_TYPED) if text else 0
            shown, _ = split_at(seen(self._state), max(0, width - room))
            part, column = part_shown(text, place, width - width_of(shown))
            back = width_of(part) - column
            left = f"\x1b[{back}D" if back > 0 else ""
            self._out.waiting += f"{shown}{part}{left}".encode("utf-8", "backslashreplace")
            self._shown = True

    def _write(self) -> None:
        """Writes what waits, and the state below it. If the output is blocked the rest waits, and the newest state follows it."""
        if (self._state or self._typed[0]) and not self._out.is_stuck:
            self._show_state()
        self._out.write()

    def _goes_on(self) -> None:
        self._erase()
        if self._dropped:
            self.line(Message("screen.dropped", count=self._dropped))
            self._dropped = 0
        self._write()

    def clear(self) -> None:
        """Removes the state."""
        self._state = ""
        self._erase()

    def end(self, seconds: float) -> None:
        """Drops what can't be printed within this many seconds."""
        ends = time.monotonic() + seconds
        self._write()
        while self._out.waiting and self._out.number is not None and time.monotonic() < ends:
            select.select([], [self._out.number], [], max(0.0, ends - time.monotonic()))
            self._write()


class Painter:
    """A table above a line in which somebody types. Only lines that have changed are drawn. A stopped terminal gets the newest lines when
    it goes on."""

    def __init__(self, loop: Loop) -> None:
        self._out = Output(loop, 1, self._goes_on)
        self._drawn: List[str] = []
        self._size = (0, 0)
        self._next: Optional[List[str]] = None
        self._typed: Tuple[str, int] = ("", 0)
        self.edits = False  # whether this shows what is typed, and not the terminal
        self.size = self._out.size

    def forget(self) -> None:
        """Draws everything again: somebody has typed a line."""
        self._drawn = []

    def typing(self, text: str, place: int) -> None:
        """This is half typed, below the table, and the next letter comes to this place."""
        if self._typed != (text, place):
            self._typed = text, place
            if not self._out.is_stuck and self._drawn:
                self._out.write(self._prompt(len(self._drawn) + 1))

    def entered(self, text: str) -> None:
        """This was typed: its answer is in the table, or below it."""
        self._typed = "", 0
        self.forget()

    def _prompt(self, line: int) -> bytes:
        """The line in which somebody types, with what is typed so far."""
        part, column = part_shown(*self._typed, max(1, self.size()[0] - len(PROMPT) - 1))
        shown = f"{PROMPT}{part}".encode("utf-8", "backslashreplace")
        return b"\x1b[%d;1H" % line + shown + b"\x1b[K" + b"\x1b[%d;%dH" % (line, len(PROMPT) + column + 1)

    def draw(self, lines: Sequence[str]) -> None:
        if self._out.is_stuck:
            self._next = list(lines)
            return
        size = self.size()
        out = bytearray()
        if not self._drawn or size != self._size or len(lines) != len(self._drawn):
            out += CLEAR
            for line in lines:
                out += line.encode("utf-8", "replace") + b"\r\n"
            out += self._prompt(len(lines) + 1) if self.edits else PROMPT.encode()
        else:
            for number, (line, before) in enumerate(zip(lines, self._drawn), 1):
                if line != before:
                    out += b"\x1b[%d;1H" % number + line.encode("utf-8", "replace") + b"\x1b[K"
            if out:
                out[:0] = SAVE
                out += RESTORE
        self._drawn, self._size = list(lines), size
        self._out.write(bytes(out))

    def _goes_on(self) -> None:
        lines, self._next = self._next or self._drawn, None
        if self.edits:
            self.forget()
        if lines:
            self.draw(lines)

    def end(self, line: str) -> None:
        """Shows the last line below the table."""
        self._out.write(b"\r\n" + seen(line).encode("utf-8", "replace") + b"\r\n")
        self._out.close()


def open_standard_streams() -> None:
    """Opens those that are closed: otherwise the next opened file would take such a number, and get the printed lines."""
    for number in (0, 1, 2):
        try:
            os.fstat(number)
        except OSError:
            os.open(os.devnull, os.O_RDWR)


def edits(number: int) -> bool:
    """Sets a terminal up so that keys come at once, are not printed, and Ctrl-C is one of them. Returns whether it is; not while another
    program has it."""
    try:
        with contextlib.suppress(OSError):  # it is nobody's controlling terminal
            if os.tcgetpgrp(number) != os.getpgrp():
                return False
        mode = termios.tcgetattr(number)
        _edited.setdefault(number, termios.tcgetattr(number))
        mode[3] &= ~KEYS_AT_ONCE
        mode[6][termios.VINTR] = NO_KEY
        mode[6][termios.VMIN], mode[6][termios.VTIME] = 1, 0
        termios.tcsetattr(number, termios.TCSANOW, mode)
        return True
    except termios.error:
        return False


def opened_again(number: int) -> int:
    """The same terminal or pipe, opened a second time, so that making it non-blocking affects no other process. If it can't be
    opened again, as a socket, it is made non-blocking itself until `leave_as_found`."""
    flags = os.O_WRONLY | os.O_NONBLOCK | os.O_NOCTTY
    with contextlib.suppress(OSError):
        return os.open(f"/proc/self/fd/{number}", flags)
    with contextlib.suppress(OSError):
        os.tcgetpgrp(number)  # only the controlling terminal answers; after `su` its device is another user's
        return os.open("/dev/tty", flags)
    copy = os.dup(number)
    if os.get_blocking(copy):
        os.set_blocking(copy, False)
        _unblocked.append(number)
    return copy


def leave_keys() -> None:
    """Sets terminals up as they were before `edits`: their lines come whole again, and Ctrl-C is a signal."""
    while _edited:
        number, mode = _edited.popitem()
        with contextlib.suppress(termios.error):
            termios.tcsetattr(number, termios.TCSANOW, mode)


def leave_as_found() -> None:
    """At the end of a call: whoever uses the standard streams after it finds them as before."""
    leave_keys()
    while _unblocked:
        with contextlib.suppress(OSError):
            os.set_blocking(_unblocked.pop(), True)


def in_lines(text: str, columns: int, indent: str) -> List[str]:
    """A text in lines for a terminal with this many columns, broken between words; all lines but the first are indented. The last
    column stays empty."""
    return folded(text, columns - 1, indent, breaks=False) or [""]


def folded_for(number: int, text: str, indent: str) -> str:
    """Lines of text, folded if they go to a terminal."""
    if not os.isatty(number):
        return text
    lines = [line for whole in text.splitlines() for line in in_lines(whole, size_of(number)[0], indent)]
    return "".join(line + "\n" for line in lines)


def size_of(number: int) -> Tuple[int, int]:
    """The columns and lines of a terminal."""
    try:
        size = os.get_terminal_size(number)
        return size.columns or COLUMNS, size.lines or LINES
    except OSError:
        return COLUMNS, LINES


def width_of_letter(letter: str) -> int:
    """The columns of a letter."""
    if letter.isascii():
        return 1
    if unicodedata.category(letter) in NO_WIDTH or ord(letter) in JAMO:
        return 0
    return 2 if unicodedata.east_asian_width(letter) in WIDE else 1


def width_of(text: str) -> int:
    """The columns of a text."""
    return len(text) if text.isascii() else sum(map(width_of_letter, text))


def seen(text: str) -> str:
    """What a terminal may show of it."""
    shown = text if text.isprintable() else printable(text)
    if shown.isascii():
        return shown
    letters: List[str] = []
    marks = 0
    for letter in shown:
        marks = 0 if width_of_letter(letter) else marks + 1
        if marks <= MOST_MARKS:
            letters.append(letter)
    return "".join(letters)


def split_at(text: str, width: int) -> Tuple[str, str]:
    """The front that fits into this many columns, with the marks of its last letter, and the rest."""
    used = 0
    for at, letter in enumerate(text):
        used += width_of_letter(letter)
        if used > width:
            return text[:at], text[at:]
    return text, ""


def cut(text: str, width: int) -> str:
    """The text, or a front of it with two dots, within this many columns."""
    return text if width_of(text) <= width else split_at(text, max(0, width - len(CUT)))[0] + CUT


def fitted(text: str, width: int) -> str:
    """Exactly this many columns."""
    shown = cut(seen(text), width)
    return shown + " " * (width - width_of(shown))


def folded(text: str, width: int, indent: str = "", breaks: bool = True) -> List[str]:
    """In lines of this many columns, broken between words, and indented after the first. A word that is longer than a line is
    broken too, unless it may not be."""
    left = [chunk for chunk in re.split("( +)", " ".join(text.splitlines())) if chunk][::-1]
    lines: List[str] = []
    while left:
        if lines and left[-1].isspace():
            left.pop()
            continue
        room, line, used = width - (len(indent) if lines else 0), "", 0
        while left and used + width_of(left[-1]) <= room:
            used += width_of(left[-1])
            line += left.pop()
        if left and width_of(left[-1]) > room:
            if breaks:
                front, rest = split_at(left.pop(), room - used)
                if not (front or line):  # not even a letter
                    front, rest = rest[0], rest[1:]
                line += front
                left += [rest] if rest else []
            elif not line:
                line = left.pop()
        line = line.rstrip(" ")
        if line:
            lines.append((indent if lines else "") + line)
    return lines


def part_shown(text: str, place: int, room: int) -> Tuple[str, int]:
    """The part of a line that is shown in so many columns, around the place in it, and the column of that."""
    letters = [printable(letter) for letter in text]
    begin, column = place, 0
    while begin and column + width_of(letters[begin - 1]) <= max(0, room - 1):
        begin -= 1
        column += width_of(letters[begin])
    return split_at("".join(letters[begin:]), room)[0], column


LONGEST = 4096  # bytes of a typed line
PAUSE = 1.0  # seconds until a terminal is tried again that can't be read now
KEPT = 100  # lines of the history
ESCAPE = 0x1B
SEQUENCE = re.compile(rb"\x1b(?:\[([0-?]*)[ -/]*([@-~])|O([A-DFHMP-S]))")
UNFINISHED = re.compile(rb"\x1b(?:O|\[[0-?]*[ -/]*)?")
WORD = re.compile(r"\S*\s*$")
KEYS = {"A": "up", "B": "down", "C": "right", "D": "left", "H": "home", "F": "end"}
NUMBERED = {"1": "home", "7": "home", "4": "end", "8": "end", "3": "delete"}  # before `~`
CONTROLS = {1: "home", 2: "left", 4: "delete", 5: "end", 6: "right", 8: "rubout", 0x7F: "rubout", 11: "to the end", 14: "down", 16: "up",
            21: "to the start", 23: "a word"}  # fmt: skip
ENTERS, INTERRUPT, END_OF_INPUT, TAB = (10, 13), 3, 4, 9
Shows = Union[Terminal, Painter]  # shows what is typed


@dataclass(frozen=True)
class Line:
    """A half-typed line, and the place in it; the lines before it, and which of them is shown; what came of a key or a letter."""

    text: str = ""
    place: int = 0
    before: Tuple[str, ...] = ()
    shown: Optional[int] = None
    draft: str = ""  # what was typed before an earlier line was shown
    rest: bytes = b""

    def at(self, place: int) -> Line:
        """With the place there, as far as the line goes."""
        return replace(self, place=max(0, min(len(self.text), place)))

    def without(self, begin: int, end: int) -> Line:
        """Without these letters."""
        return replace(self, text=self.text[:begin] + self.text[end:], place=begin)

    def with_letters(self, letters: str) -> Line:
        """With these letters at its place."""
        text = self.text[: self.place] + letters + self.text[self.place :]
        return replace(self, text=text, place=self.place + len(letters))

    def emptied(self) -> Line:
        """A new line."""
        return Line(before=self.before, rest=self.rest)

    def entered(self) -> Line:
        """A new line after this one, which is kept."""
        is_kept = self.text.strip() and self.text != (self.before[-1] if self.before else "")
        return replace(self.emptied(), before=(*self.before, self.text)[-KEPT:] if is_kept else self.before)

    def of_history(self, step: int) -> Line:
        """The line before, or after, the one that is shown."""
        now = len(self.before) if self.shown is None else self.shown
        then = now + step
        if not 0 <= then <= len(self.before):
            return self
        draft = self.text if self.shown is None else self.draft
        text = self.before[then] if then < len(self.before) else draft
        return replace(self, text=text, place=len(text), shown=then if then < len(self.before) else None, draft=draft)

    def pressed(self, key: str) -> Line:
        """After a key that is no letter."""
        text, place = self.text, self.place
        if key in ("up", "down"):
            return self.of_history(-1 if key == "up" else 1)
        if key in ("left", "right"):
            return self.at(place + (1 if key == "right" else -1))
        if key in ("home", "end"):
            return self.at(0 if key == "home" else len(text))
        if key == "delete":
            return self.without(place, place + 1)
        if key == "rubout":
            return self.without(max(0, place - 1), place)
        if key == "to the end":
            return self.without(place, len(text))
        if key == "to the start":
            return self.without(0, place)
        if key == "a word":
            found = WORD.search(text[:place])
            return self.without(found.start() if found else 0, place)
        return self


@dataclass(frozen=True)
class Entered:
    """What was typed: a line; or that somebody interrupts, or ends the input, on an empty line."""

    line: Optional[str] = None
    interrupts: bool = False
    ends: bool = False


def after(line: Line, came: bytes, longest: int) -> Tuple[Line, List[Entered]]:
    """The line after these bytes, and what was typed meanwhile. Of a line with more bytes than the longest one, some are left out."""
    data, found, at = line.rest + came, [], 0
    line = replace(line, rest=b"")
    while at < len(data):
        byte = data[at]
        if byte == ESCAPE:
            sequence = SEQUENCE.match(data, at)
            if sequence:
                line, at = line.pressed(key_of(sequence)), sequence.end()
            elif UNFINISHED.fullmatch(data, at):
                break
            else:
                at += 1  # the key Esc alone, before a letter
        elif byte in ENTERS:
            found.append(Entered(line.text))
            line, at = line.entered(), at + 1
        elif byte == INTERRUPT:
            found += [] if line.text else [Entered(interrupts=True)]
            line, at = line.emptied(), at + 1
        elif byte == END_OF_INPUT and not line.text:
            found.append(Entered(ends=True))
            at += 1
        elif byte in CONTROLS:
            line, at = line.pressed(CONTROLS[byte]), at + 1
        elif byte < 0x20 and byte != TAB:
            at += 1
        else:
            size = letter_size(data, at)
            if not size:
                break
            if len(line.text.encode("utf-8", "surrogateescape")) <= longest:
                line = line.with_letters(data[at : at + size].decode("utf-8", "surrogateescape"))
            at += size
    return replace(line, rest=data[at:]), found


def key_of(sequence: "re.Match[bytes]") -> str:
    """The key that sends this; empty if it is none of those that are known."""
    if sequence[3]:
        return KEYS.get(sequence[3].decode(), "")
    final, number = sequence[2].decode(), sequence[1].partition(b";")[0].decode()
    return NUMBERED.get(number, "") if final == "~" else KEYS.get(final, "")


def letter_size(data: bytes, at: int) -> int:
    """How many bytes the letter has that begins here; 0 if not all have come. A byte that is no text is a letter by itself."""
    first = data[at]
    size = 1 if first < 0xC2 or first > 0xF4 else 2 if first < 0xE0 else 3 if first < 0xF0 else 4
    letter = data[at : at + size]
    if any(byte & 0xC0 != 0x80 for byte in letter[1:]):
        return 1
    return size if len(letter) == size else 0


class Typed:
    """Standard input: one call for each typed line. At its end nothing more is typed, and `ended` is called. An error in a call ends
    nothing: `refused` gets it. On a terminal a line can be edited if something `shows` it; then Ctrl-C clears it, and on an empty line
    `interrupted` is called."""

    def __init__(
        self,
        loop: Loop,
        heard: Callable[[str], None],
        refused: Callable[[str, Exception], None],
        ended: Callable[[], None] = lambda: None,
        shows: Optional[Shows] = None,
        interrupted: Callable[[], None] = lambda: None,
    ) -> None:
        self._loop, self._heard, self._refused, self._ended = loop, heard, refused, ended
        self._shows, self._interrupted = shows if os.isatty(0) else None, interrupted
        self._number: Optional[int] = None
        self._text = b""
        self._line = Line()
        try:
            mode = os.fstat(0).st_mode
        except OSError:
            return
        if stat.S_ISREG(mode) or not (os.isatty(0) or stat.S_ISFIFO(mode) or stat.S_ISSOCK(mode)):
            return
        self._number = 0
        self._watch()

    def _watch(self) -> None:
        if self._number is None:
            return
        if self._shows and not edits(self._number):
            self._shows = None
        try:
            self._loop.watch(self._number, self._readable)
        except Exception as error:
            self._later(error)

    def _later(self, error: Exception) -> None:
        """It can't be read now, for example because another process group has the terminal: it is tried again."""
        self._loop.after(PAUSE, self._watch)
        if not isinstance(error, OSError):
            self._refused("", error)

    def _readable(self) -> None:
        assert self._number is not None
        try:
            part = os.read(self._number, 4096)
        except BlockingIOError:
            return
        except Exception as error:
            self._later(error)
            self._loop.forget(self._number)
            return
        if not part:
            self._end()
        elif self._shows:
            self._edit(part, self._shows)
        else:
            self._take(part)

    def _end(self) -> None:
        self.close()
        leave_keys()
        self._ended()

    def _edit(self, part: bytes, shows: Shows) -> None:
        """Keys were pressed."""
        self._line, found = after(self._line, part, LONGEST)
        for typed in found:
            if typed.line is not None:
                shows.entered(typed.line)
                self._hear(typed.line.encode("utf-8", "surrogateescape"))
            elif typed.interrupts:
                self._guarded("Ctrl-C", self._interrupted)
            else:
                self._end()
                return
        shows.typing(self._line.text, self._line.place)

    def _guarded(self, text: str, call: Callable[[], None]) -> None:
        try:
            call()
        except Exception as error:
            self._refused(text, error)

    def _take(self, part: bytes) -> None:
        """Whole lines were typed, or parts of them."""
        lines: List[bytes]
        *lines, self._text = (self._text + part).split(b"\n")
        self._text = self._text[: LONGEST + 1]  # if there is more of it, none of it counts
        for line in lines:
            self._hear(line)

    def _hear(self, line: bytes) -> None:
        text = line.decode("utf-8", "surrogateescape").strip()

        def hears() -> None:
            if len(line) > LONGEST:
                raise Refused(REFUSED, Message("screen.line_too_long", most=format(LONGEST, ",")))
            self._heard(text)

        self._guarded(text, hears)

    def close(self) -> None:
        """Reads nothing further."""
        if self._number is not None:
            self._loop.forget(self._number)
            self._number = None
