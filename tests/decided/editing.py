"""Lines that are typed on a terminal: keys as terminals send them, also in parts, and what of a line is shown."""

from typing import List
from unittest import mock

from live.show import terminal
from live.show.terminal import KEPT, Entered, Line, after, part_shown, width_of

from decided.table import same

LONGEST = 4096
UP, DOWN, RIGHT, LEFT, HOME, END, DELETE = "\x1b[A", "\x1b[B", "\x1b[C", "\x1b[D", "\x1b[H", "\x1b[F", "\x1b[3~"
# What is typed; the lines that were entered; what is left, and the place in it.
KEYS = {
    "Nf3": ((), "Nf3", 3),
    "Nf3\r": (("Nf3",), "", 0),
    "5 1-0\n6 back\nr": (("5 1-0", "6 back"), "r", 1),
    f"Nf{LEFT}{LEFT}{LEFT}{LEFT}x{RIGHT}y{RIGHT}{RIGHT}z": ((), "xNyfz", 5),
    f"ab{HOME}x{END}y\x01z\x05w": ((), "zxabyw", 6),
    f"abc{LEFT}{DELETE}{LEFT}\x04": ((), "a", 1),
    f"abc{LEFT}\x7f\x08\x7f": ((), "c", 0),
    f"back 14. Bxf6{LEFT}\x0b": ((), "back 14. Bxf", 12),
    f"back 14{LEFT}\x15": ((), "4", 0),
    "back 14. Bxf6 \x17\x17": ((), "back ", 5),
    "\x1bOH\x1b[1~\x1b[7~\x1b[4~\x1b[8~\x1b[1;5D\x1b[1;2C": ((), "", 0),
    "a\x1b[5~\x1b[200~b\x1b[15;2~\x1bOPc": ((), "abc", 3),  # keys that do nothing
    "\x1bO-O\x1b5": ((), "O-O5", 4),  # Esc before castling, and before a number
    "王浩\x7f\u0e04\u0e33é": ((), "王\u0e04\u0e33é", 4),
    f"one\ntwo\n\n{UP}": (("one", "two", ""), "two", 3),
    f"one\ntwo\ntwo\n{UP}{UP}": (("one", "two", "two"), "one", 3),
    f"one\nhalf{UP}{UP}{DOWN}": (("one",), "half", 4),
    f"one\n{UP}{HOME}x\n{UP}{UP}{UP}{DOWN}": (("one", "xone"), "xone", 4),
    f"{UP}{DOWN}a": ((), "a", 1),
    "half\x03x": ((), "x", 1),  # Ctrl-C clears
    "a\tb\x00\x0c": ((), "a\tb", 3),
}


def keys() -> None:
    """Whole, and byte by byte: in which parts they come makes no difference."""
    for typed, (entered, left, place) in KEYS.items():
        sent = typed.encode()
        whole, found = after(Line(), sent, LONGEST)
        same(repr(typed), ([one.line for one in found], whole.text, whole.place), (list(entered), left, place))
        line, parts = Line(), []
        for at in range(len(sent)):
            line, more = after(line, sent[at : at + 1], LONGEST)
            parts += more
        same(f"{typed!r} byte by byte", (line, parts), (whole, found))


def ends() -> None:
    """Ctrl-C on an empty line interrupts, and Ctrl-D ends the input there; on a half-typed one they clear it, and take a letter off."""
    interrupts, end = Entered(interrupts=True), Entered(ends=True)
    for typed, found in (("\x03", [interrupts]), ("a\x03", []), ("a\x03\x03", [interrupts]), ("\x04", [end]), ("a\x01\x04\x04", [end])):
        same(repr(typed), after(Line(), typed.encode(), LONGEST)[1], found)


def odd_bytes() -> None:
    """What is no text in UTF-8 stays what it was, so that the line is refused. A letter that hasn't come whole waits."""
    for sent, text, rest in ((b"a\xffb", "a\udcffb", b""), (b"\xc3", "", b"\xc3"), (b"\xe7\x8e", "", b"\xe7\x8e"), (b"\xc3(", "\udcc3(", b""), (b"\x1b", "", b"\x1b"), (b"\x1b[1;", "", b"\x1b[1;")):
        line = after(Line(), sent, LONGEST)[0]
        same(repr(sent), (line.text, line.rest), (text, rest))


def long_lines() -> None:
    """Of a line with more bytes than the longest one, one byte too many is there: so it is refused. The history is as long."""
    line, found = after(Line(), b"x" * 9000 + b"\n", LONGEST)
    same("its length", len(found[0].line or ""), LONGEST + 1)
    line, _ = after(Line(), b"".join(b"%d\n" % number for number in range(300)), LONGEST)
    same("the history", (len(line.before), line.before[-1]), (KEPT, "299"))


def shown() -> None:
    """The part around the place, in so many columns; wide letters take two."""
    for text, place, room, expected in (
        ("Nf3", 3, 10, ("Nf3", 3)), ("Nf3", 0, 10, ("Nf3", 0)), ("abcdefgh", 8, 5, ("efgh", 4)), ("abcdefgh", 0, 5, ("abcde", 0)), ("abcdefgh", 5, 5, ("bcdef", 4)),
        ("王浩然", 3, 5, ("浩然", 4)), ("a\tb", 3, 9, ("a?b", 3)), ("", 0, 5, ("", 0)),
    ):  # fmt: skip
        same(f"{text!r}, {place}, in {room}", part_shown(text, place, room), expected)


def shown_of_a_long_line() -> None:
    """Only letters that are shown are measured, and those about them: else a pasted text would hold up all boards with each key."""
    measured: List[int] = []

    def counts(text: str) -> int:
        measured.append(len(text))
        return width_of(text)

    with mock.patch.object(terminal, "width_of", counts):
        same("the part", part_shown("ü" * LONGEST, LONGEST, 70), ("ü" * 69, 69))
    same("letters measured", sum(measured) < 300, True)


TABLES = [keys, ends, odd_bytes, long_lines, shown, shown_of_a_long_line]
