"""Texts on a terminal: how wide they are, cut, filled up and folded; and what a terminal doesn't get. Widths are those of Unicode's
tables, worked by hand; ASCII is folded as Python's textwrap does it."""

import random
import textwrap

from live.board.state import Kind, State
from live.run.refused import printable
from live.show.table import Columns, RowView, row
from live.show.terminal import cut, fitted, folded, seen, split_at, width_of

from decided.table import same


def widths() -> None:
    """Letters of any script, marks, and letters that are two columns wide."""
    for text, expected in (
        ("", 0), ("Anna", 4), ("Jörg", 4), ("Jo\u0308rg", 4), ("Иванов", 6), ("王浩", 4), ("Γιώργος", 7), ("ビクトル", 8), ("ﾋﾞｸﾄﾙ", 5), ("이세돌", 6),
        ("\u110b\u1175\u1109\u1166", 4), ("می\u200cخواهم", 7), ("คำ", 2), ("Nguye\u0302\u0303n", 6), ("Ａ", 2), ("½", 1), ("…", 1), ("1–0", 3),
    ):  # fmt: skip
        same(repr(text), width_of(text), expected)


def cut_and_filled() -> None:
    """A text in exactly so many columns: none is cut within a letter, and its marks stay with it."""
    for text, width, expected in (
        ("Anna", 6, "Anna  "), ("Benjamin Miller", 12, "Benjamin M.."), ("王浩", 6, "王浩  "), ("王浩然然", 7, "王浩.. "), ("王浩然然", 6, "王浩.."), ("王浩然然", 8, "王浩然然"),
        ("Jo\u0308rg Mu\u0308ller", 7, "Jo\u0308rg .."), ("Иванов, Пётр", 10, "Иванов, .."), ("abc", 2, ".."),
    ):  # fmt: skip
        shown = fitted(text, width)
        same(f"{text} in {width}", shown, expected)
    same("split", split_at("e\u0301e\u0301", 1), ("e\u0301", "e\u0301"))
    same("a wide letter in one column", split_at("王", 1), ("", "王"))
    same("short enough", cut("王浩", 4), "王浩")


def what_a_terminal_gets() -> None:
    """Nothing that it obeys, and nothing that turns letters round; names in any script stay as they are."""
    for text, expected in (
        ("Иванов 王浩 Åse", "Иванов 王浩 Åse"),
        ("a\x1b[2J\x9b31m\x07", "a?[2J?31m?"),
        ("\u202eneB\u202c \u2066x\u2069 \u200e\u200f\u061c", "?neB? ?x? ???"),
        ("می\u200cخواهم", "می\u200cخواهم"),
        ("a\u2028b\u00adc\ufeffd", "a?b?c?d"),
        ("Z" + "\u0301" * 9 + "a", "Z" + "\u0301" * 4 + "a"),
    ):
        same(repr(text), seen(text), expected)
    same("a path that is no text", printable("J\udcf6rg"), "J\udcf6rg")


def folds() -> None:
    """Lines of ASCII are those of textwrap; others are as wide, and lose nothing but blanks."""
    hand = random.Random(1)
    for number in range(500):
        words = ["x" * hand.randrange(1, 14) + hand.choice(("", "-y", ",")) for _ in range(hand.randrange(12))]
        text = "14:02:59  " * hand.randrange(2) + hand.choice((" ", "  ")).join(words)
        width, indent, breaks = hand.randrange(4, 40), " " * hand.randrange(4), bool(hand.randrange(2))
        expected = textwrap.wrap(text, width, subsequent_indent=indent, break_long_words=breaks, break_on_hyphens=False)
        without_blanks = [line.rstrip() for line in expected]  # it leaves one where a line is just full
        same(f"{number}: {text!r} in {width}", folded(text, width, indent, breaks), without_blanks)
    text = "14:02:59  3: Карпов, Анатолий - 王浩然 hasn't come: 叶江川叶江川叶江川"
    same("in 30", folded(text, 30, "    "), ["14:02:59  3: Карпов, Анатолий", "    - 王浩然 hasn't come:", "    叶江川叶江川叶江川"])
    same("in 18", folded("王浩 叶江川叶江川叶江川", 12, "  "), ["王浩 叶江川", "  叶江川叶江", "  川"])
    for width in range(8, 90):
        lines = folded(text, width, "    ")
        assert all(width_of(line) <= width for line in lines), (width, lines)
        same(f"all of it in {width}", "".join("".join(lines).split()), "".join(text.split()))
    same("one column", folded("王浩 a", 1), ["王", "浩", "a"])


def rows() -> None:
    """The columns of a row begin where they begin in any other row."""
    chinese = RowView(3, "王浩然", "Непомнящий, Ян", "3. Bb5", ("1:12:07", "0:58:11"), "agrees", "", 100.0)
    same("names", row(chinese, 140, Columns.of([chinese], 140)), ["   3 王浩然 Непомнящий, Ян 3. Bb5    1:12:07 0:58:11  agrees 40s"])
    hostile = RowView(3, "\x1b[2JAnna", "\u202eneB", "3. Bb5", ("", ""), "agrees", "", 100.0)
    same("hostile", row(hostile, 140, Columns.of([hostile], 140)), ["   3 ?[2JAnna ?neB  3. Bb5     agrees 40s"])
    for width in range(40, 200):
        for view in (chinese, hostile):
            lines = row(view, 140, Columns.of([chinese, hostile], 140, width))
            assert all(width_of(line) < width for line in lines), (width, lines)


def stopped_clocks() -> None:
    """That a clock is stopped isn't cut, though it is no alarm."""
    _, rest = State(Kind.AGREES, 100.0, clock_stopped=True).parts()
    view = RowView(3, "Bartholomew Zimmermann", "Benjamin Alexander", "38... Qxa1+", ("0:29:49", "0:09:44"), "agrees", rest, 100.0)
    for width in range(40, 200):
        columns = Columns.of([view], 820, width)
        first, *more = row(view, 820, columns)
        same(f"in {width}", " ".join([first[columns.front :], *(line.strip() for line in more)]), "agrees 12m; clock stopped")
        assert all(width_of(line) < width for line in (first, *more)), (width, first, more)
    short = RowView(3, "Anna", "Ben", "3. Bb5", ("1:12:07", "0:58:11"), "agrees", rest, 100.0)
    same("short names", row(short, 140, Columns.of([short], 140)), ["   3 Anna  Ben   3. Bb5    1:12:07 0:58:11  agrees 40s; clock stopped"])


TABLES = [widths, cut_and_filled, what_a_terminal_gets, folds, rows, stopped_clocks]
