"""Which alarms `live` says: of the calls before when a call begins, and as they are raised."""

from typing import List

from decided.table import same
from given.attended import BOTH_PAWNS, HEADING, LIVE, added, brought, heard, kept, said_in
from given.case import but, dump, left_by, updates
from given.messages import INITIAL, TIME

# A pawn goes to e4, and to e3 more than ten seconds later. In between the board is heard.
AGAIN = (2900, 4500, 6100, 7700, 9300, 10900)
PAWN = INITIAL + updates(f"e2- e4P {'e4P ' * len(AGAIN)}e4- e3P")
AT_E4 = HEADING + b"0 begin 0\n5 opened\n120 heard 67\n1300 heard 10\n" + b"".join(b"%d heard 5\n" % at for at in AGAIN)

# 1. e4 e5, and nothing more until the board shows the black pawn again.
BOTH = INITIAL + updates("e2- e4P e7- e5p e5p")
DUMPED = INITIAL + updates("e2- e4P e7- e5p")
PLAYED_BOTH = HEADING + b"0 begin 0\n5 opened\n120 heard 67\n1300 heard 10\n2300 heard 10\n"

# A clock runs, and is stopped. Then the knights are moved.
RUNS, STANDS = TIME[:-1] + b"\x01", TIME
TRIED = INITIAL + RUNS + updates("e2- e4P e7- e5p") + 3 * STANDS + updates("g1- f3N b8- c6n")
STOPPED = HEADING + b"0 begin 0\n5 opened\n120 heard 67\n200 heard 10\n1300 heard 10\n2300 heard 10\n"
WON = dump("r1bq1bnr/pppp1ppp/2n5/4k3/3KP3/5N2/PPPP1PPP/RNBQ1B1R")  # after them the kings show that Black wins
STOPPED += b"".join(b"%d heard 10\n" % at for at in (3000, 4000, 5000, 6000, 7000))

# A file of times and its capture; what the next call says of them when it begins.
LOOKS = [
    ("a late correction", AT_E4 + b"11301 heard 10\n", PAWN, [b"look at 1 LATE"]),
    ("one in time", AT_E4 + b"11300 heard 10\n", PAWN, []),
    ("one that was added", AT_E4 + b"11301 added 10\n", PAWN, []),
    ("one over another game's cable", AT_E4 + b"11301 brought 10\n", PAWN, [b"look at 1 LATE"]),
    ("somebody has looked", AT_E4 + b"11301 heard 10\n12000 ok\n", PAWN, []),
    ("the line was gone", PLAYED_BOTH + b"2400 gone\n62400 opened\n62500 heard 5\n", BOTH, [b"look after 2 AFTER-GAP"]),
    ("nothing came for six seconds", PLAYED_BOTH + b"8300 heard 5\n", BOTH, [b"look after 2 AFTER-GAP"]),
    ("for less", PLAYED_BOTH + b"8299 heard 5\n", BOTH, []),
    ("the line was late", PLAYED_BOTH + b"8300 heard 335\n", DUMPED + 5 * BOTH_PAWNS, []),
    ("a dump is missing", PLAYED_BOTH + b"8300 heard 268\n", DUMPED + 4 * BOTH_PAWNS, [b"look after 2 AFTER-GAP"]),
    ("a stopped clock", STOPPED, TRIED, [b"look since 2 STOPPED 1", b"look since 2 STOPPED 2"]),
    ("and a result", STOPPED + b"8000 added 67\n", TRIED + WON, [b"look since 2 STOPPED 1", b"look since 2 STOPPED 2", b"look since 2 UNPLAYED 2"]),
    ("and a suspicion", STOPPED + b"8000 suspect 3\n", TRIED, [b"look since 2 STOPPED 1", b"look since 2 STOPPED 2", b"look SUSPECT 3"]),
]

# ---- of this call

TO_E4 = [b"0 begin 0\n", b"5 opened\n", heard(120, INITIAL), heard(1300, updates("e2- e4P")), *(heard(at, updates("e4P")) for at in AGAIN)]
TO_E3 = updates("e4- e3P")

# What a host tells; in which answer an alarm is said.
LOOKS_NOW = [
    ("a late correction", [*TO_E4, heard(11301, TO_E3)], [(10, b"look at 1 LATE")]),
    ("it is added", [*TO_E4, added(11301, TO_E3)], []),
    ("it comes over another game's cable", [*TO_E4, brought(11301, TO_E3)], [(10, b"look at 1 LATE")]),
    ("the board is heard there meanwhile", [*TO_E4[:4], *(brought(at, updates("e4P")) for at in AGAIN), brought(11301, TO_E3)], [(10, b"look at 1 LATE")]),
    ("in time", [*TO_E4, brought(11300, TO_E3)], []),
]

# ---- one example of each, as it is typical

BOARD = [b"0 begin 0\n", b"5 opened\n", heard(120, INITIAL)]


def clock(white: int, black: int, lever: int) -> bytes:
    """The message of a clock that runs, with these seconds, fewer than an hour. White's are in the first three bytes."""
    digits = [0, *divmod(white, 60), 0, *divmod(black, 60)]
    return b"\x8d\x00\x0a" + bytes([*(number // 10 * 16 + number % 10 for number in digits), 1 | lever << 1])


# Both players press after the first ply, so they use a clock.
PRESSED = [heard(200, clock(600, 600, 0)), heard(4000, updates("e2- e4P")), heard(4500, clock(596, 600, 1)), heard(8000, updates("e7- e5p"))]
WITH_CLOCK = [*BOARD, *PRESSED, heard(8500, clock(596, 596, 0))]
NOBODY_PRESSES = [heard(28000, clock(576, 596, 0))]


def on_the_others_time() -> List[bytes]:
    """Seven plies, each thought about for four seconds while the other side's time goes down."""
    plies = ["e2- e4P", "e7- e5p", "g1- f3N", "b8- c6n", "f1- b5B", "a7- a6p", "b5- a4B"]
    left, told = [600, 600], [*BOARD, heard(200, clock(600, 600, 0))]
    for number, ply in enumerate(plies):
        for wait in (2000, 3000):
            left[1 - number % 2] -= 1
            told.append(heard(4000 * number + wait, clock(left[0], left[1], number % 2)))
        told += [heard(4000 * number + 4000, updates(ply)), heard(4000 * number + 4500, clock(left[0], left[1], 1 - number % 2))]
    return told


TYPICAL = [
    ("the other side's knight was out before a correction", [*BOARD, *(heard(1300 + 500 * number, updates(words)) for number, words in enumerate(
        ("e2- e4P", "e4-", "b8- c6n", "e3P", "c6- b8n")))], [(7, b"look at 1 ELSEWHERE")]),
    ("both sides' knights were out", [*BOARD, *(heard(1300 + 500 * number, updates(words)) for number, words in enumerate(
        ("e2- e4P", "g1- f3N", "b8- c6n", "c6- b8n", "f3- g1N")))], [(7, b"look after 1 BOTH-ELSEWHERE")]),
    ("the board had no power for nine seconds", [*BOARD, heard(1300, updates("e2- e4P")), heard(2300, updates("e7- e5p")),
        heard(11300, updates("g1- f3N"))], [(5, b"look at 3 AFTER-GAP")]),
    ("both took their knights back", [*WITH_CLOCK, heard(12000, updates("g1- f3N")), heard(12500, clock(592, 596, 1)), heard(16000, updates("g8- f6n")),
        heard(16500, clock(592, 592, 0)), heard(22000, updates("f3- g1N")), heard(22800, updates("f6- g8n")), heard(24000, clock(585, 592, 0))],
        [(14, b"look at 6 TAKEN-BACK")]),
    ("both put their pawns one further", [*BOARD, heard(200, clock(600, 600, 0)), heard(4000, updates("e2- e3P")), heard(4500, clock(596, 600, 1)),
        heard(8000, updates("e7- e6p")), heard(8500, clock(596, 596, 0)), heard(14000, updates("e3- e4P")), heard(14800, updates("e6- e5p")),
        heard(16000, clock(590, 596, 0))], [(10, b"look at 4 MOVED-ON")]),
    ("four plies lead back, and nobody presses", [*WITH_CLOCK, *(heard(12000 + 4000 * number, updates(words)) for number, words in enumerate(
        ("g1- f3N", "g8- f6n", "f3- g1N", "f6- g8n"))), *NOBODY_PRESSES], [(12, b"look at 6 RETURNED")]),
    ("six plies, and nobody presses", [*BOARD, *PRESSED, *(heard(11000 + 3000 * number, updates(words)) for number, words in enumerate(
        ("g1- f3N", "b8- c6n", "f1- b5B", "a7- a6p", "b5- a4B", "g8- f6n")))], [(11, b"look at 7 UNPRESSED")]),
    ("the clock stands the wrong way round", on_the_others_time(), [(30, b"look at 7 OTHER-TIME")]),
]


def looks() -> None:
    """The alarms of the calls before that are open when a call begins."""
    for name, times, capture, expected in LOOKS:
        told = kept(times, capture) + b"0 begin %d\n" % len(capture)
        _, out, _, _ = left_by(but(LIVE, sent=told))
        same(name, [line for line in out.split(b"\n") if line.startswith(b"look")], expected)


def looks_now() -> None:
    """The alarms of a call, and when they are said."""
    for name, told, expected in LOOKS_NOW:
        same(name, said_in(told, (b"look ",)), expected)


def typical() -> None:
    """Each kind of alarm is raised where a person would expect it, and no other one."""
    for name, told, expected in TYPICAL:
        same(name, said_in(told, (b"look ",)), expected)


TABLES = [looks, looks_now, typical]
