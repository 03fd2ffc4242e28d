"""Games that aren't played: how that is written in tables, in reports and by hand, and when it counts."""

from typing import Dict

from live.game.game import is_unplayed
from live.game.typed import Added, Forfeit, fits, in_a_table, read_typed, refuse_played, typed_forfeit
from live.run.refused import NotDone
from live.table.pairings import read_pairings, result_of
from live.table.trf import outcome_of

from decided.table import accepted, refused, same

WHITE, BLACK, BOTH = "+-", "-+", "--"
# What is written; what it is in a table; what it is in a typed line.
WRITTEN = [
    ("+-", WHITE, WHITE), ("+ -", WHITE, WHITE), ("+:-", WHITE, WHITE), ("+ : -", WHITE, WHITE), ("+ - -", WHITE, WHITE), ("+ – -", WHITE, WHITE),
    ("-+", BLACK, BLACK), ("- - +", BLACK, BLACK), ("-:+", BLACK, BLACK), ("− : +", BLACK, BLACK),
    ("1-0 FF", WHITE, WHITE), ("1-0F", WHITE, WHITE), ("1:0 F", WHITE, WHITE), ("1-0K", WHITE, WHITE), ("1F-0F", WHITE, WHITE), ("1 - 0 ff", WHITE, WHITE),
    ("1-0 forfeit", WHITE, WHITE), ("0-1 FF", BLACK, BLACK), ("0–1 F", BLACK, BLACK), ("0F-1F", BLACK, BLACK),
    ("0-0 FF", BOTH, BOTH), ("0F-0F", BOTH, BOTH), ("0:0 K", BOTH, BOTH),
    ("--", "", BOTH), ("- -", "", BOTH), ("-:-", "", BOTH), ("- - -", "", BOTH),
    # What may mean that nothing was played yet, and what is a result, a move, a sign of an annotator, or nothing.
    ("0-0", "", ""), ("0:0", "", ""), ("-", "", ""), ("", "", ""), ("*", "", ""), ("1-0", "", ""), ("0-1", "", ""), ("1/2-1/2", "", ""), ("O-O", "", ""),
    ("+", "", ""), ("+/-", "", ""), ("+--+", "", ""), ("++", "", ""), ("1-1 FF", "", ""), ("1/2 FF", "", ""), ("FF", "", ""), ("1 FF", "", ""), ("- - - -", "", ""),
    ("Nf3 +-", "", ""), ("+- Nf3", "", ""), ("1-0 FFF", "", ""), ("10-0 FF", "", ""),
]  # fmt: skip


def how_it_is_written() -> None:
    """As pairing programs and arbiters write it."""
    for text, table, typed in WRITTEN:
        same(f"{text!r} in a table", in_a_table(text), table)
        same(f"{text!r} typed", typed_forfeit(text), typed)
        if typed:
            same(f"{text!r} read", read_typed(text), Forfeit(typed))
    for text in ("Nf3 +-", "+"):
        same(f"{text} is for the program to refuse", read_typed(text), Added(text))
    same("0-0 isn't done", "PGN has no such result" in refused("0-0", NotDone, read_typed, "0-0"), True)
    named = refused("with a name", NotDone, read_typed, "1-0 FF b4", "b4")
    same("with a name", named, "type 1-0 FF alone, in a line of its own")
    same("a result", read_typed("1-0"), Added("1-0"))


def in_tables() -> None:
    """The column result: a result, a forfeit, nothing yet, or what is wrong with it."""
    for text, expected in (
        ("1-0", ("1-0", "")), ("½ - ½", ("1/2-1/2", "")), ("+ - -", (WHITE, "")), ("0-1 FF", (BLACK, "")), ("0F-0F", (BOTH, "")),
        ("", ("", "")), ("*", ("", "")), ("- : -", ("", "")), ("---", ("", "")),
        ("0-0", ("", "result is '0-0': type -- if neither player came, or leave it empty")),
        ("2-0", ("", "result is '2-0': type 1-0, 0-1, 1/2-1/2, +-, -+ or --")), ("- -", ("", "")),
        ("+/-", (WHITE, "")), ("-/+", (BLACK, "")), ("- / +", (BLACK, "")), ("-/-", (BOTH, "")), ("--", (BOTH, "")), (" -- ", (BOTH, "")),
    ):  # fmt: skip
        same(repr(text), result_of(text), expected)
    still = "result is '--', which some programs write before a game: type 0-0 FF if neither player came"
    for text, expected in (("--", ("", still)), ("-/-", (BOTH, "")), ("0-0 FF", (BOTH, "")), ("- : -", ("", ""))):
        same(f"{text!r} of a program", result_of(text, False), expected)
    read = read_pairings(b"board;white;black;result\n1;A;B;--\n2;C;D;--\n3;E;F;+/-\n")
    same("a program's table", ([one.result for one in read.boards], read.remarks), (["", "", "+-"], (f"line 2, column result: {still}; it isn't used",)))


def codes_of_reports() -> None:
    """TRF's codes of White and Black."""
    cases: Dict[str, str] = {
        "+-": WHITE, "-+": BLACK, "--": BOTH, "+ ": WHITE, " +": BLACK, "- ": BLACK, " -": WHITE, "10": "1-0", "01": "0-1", "==": "1/2-1/2",
        "  ": "", "WL": "1-0",
    }  # fmt: skip
    for codes, expected in cases.items():
        same(codes, outcome_of(codes[0].strip(), codes[1].strip()), expected)


HEAD = b'[Event "?"]\n\n'


def what_counts() -> None:
    """It counts as long as the game has no move and the result that goes with it."""
    for kind, result, movetext, expected in (
        (WHITE, "1-0", b"1-0\n\n", True),
        (WHITE, "*", b"*\n\n", False),
        (WHITE, "0-1", b"0-1\n\n", False),
        (BOTH, "*", b"*\n\n", True),
        (BOTH, "1-0", b"1-0\n\n", False),
        (BOTH, "*", b"1. e4 *\n\n", False),
        (WHITE, "1-0", b"1. e4 1-0\n\n", False),
        ("1-0", "1-0", b"1-0\n\n", False),
        ("", "1-0", b"1-0\n\n", False),
    ):
        same(f"{kind} {result} {movetext!r}", fits(kind, result, HEAD + movetext), expected)
    same("no text", is_unplayed(b""), True)
    for plies, result, kind, why in (
        (1, "*", WHITE, "the game has moves, so it isn't a forfeit: type 1-0"),
        (1, "1-0", BOTH, "the game has moves, so it isn't a forfeit: PGN has no result for two players who lose. Leave it without one, and note it"),
        (0, "1-0", BOTH, "the game has the result 1-0: take that off first, with *"),
    ):
        same(why, refused(kind, NotDone, refuse_played, plies, result, Forfeit(kind)), why)
    for result, kind in (("*", WHITE), ("1-0", BLACK), ("*", BOTH), ("0-1", BLACK)):
        accepted(f"{kind} after {result}", refuse_played, 0, result, Forfeit(kind))


TABLES = [how_it_is_written, in_tables, codes_of_reports, what_counts]
