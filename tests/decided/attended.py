"""What the program that attends a board is told, and how its answers are read: whole, cut at each byte, and with known lines."""

from typing import List

from live.child.lines import PIECE, Answer, Answers, Doubt, NoAnswer, Over, Stood
from live.game.attending import entry, pieces
from live.game.times import ANSWERED, CALLED, GONE, OPENED, TOOK, line_after

from decided.table import refused, same

ENTRIES = [
    (entry(0, "begin", 67), b"0 begin 67\n"),
    (entry(5, "opened"), b"5 opened\n"),
    (entry(12, "heard", 3, b"\x8e\x00\x05"), b"12 heard 3\n\x8e\x00\x05"),
    (entry(0, "number", 5, b"01234"), b"0 number 5\n01234"),
]
# What is written, and the answers in it. The bytes that are kept look like lines of an answer.
WRITTEN = [
    (b"keep\ndone -\n", [Answer(handling="keep")]),
    (b"hold\nask EBK\nstate WAITS -\ndone 1000\n", [Answer(handling="hold", asked=b"EBK", stood=Stood("WAITS"), due=1000)]),
    (b"other 01235\ndone 42\n", [Answer(handling="other", other="01235", due=42)]),
    (b"keep\nnumber 01234\ndone 9\n", [Answer(handling="keep", number="01234", due=9)]),
    (
        b"kept 14\nkeep\ndone 1\n\n\n151 move 1. e4\n151 agrees\nkeep\nfull\nstate AGREES 0\ndone 85\n",
        [Answer(b"keep\ndone 1\n\n\n", None, ["151 move 1. e4", "151 agrees"], "keep", is_full=True, stood=Stood("AGREES", 0), due=85)],
    ),
    (
        b"keep\nstate WRONG 32000 d5 e2\ndone 7\nkeep\nstate SETTING-UP 10 TURNED-ROUND\ndone -\n",
        [
            Answer(handling="keep", stood=Stood("WRONG", 32000, ("d5", "e2")), due=7),
            Answer(handling="keep", stood=Stood("SETTING-UP", 10, (), "TURNED-ROUND")),
        ],
    ),
    (
        b"fits 23\ninstead 1... e5 2. Nf3\nkeep\nstate WRONG 15000 d5\ndone 7\nkeep\nstate AGREES 0\ndone 5\n",
        [
            Answer(handling="keep", stood=Stood("WRONG", 15000, ("d5",), "", "instead 1... e5 2. Nf3"), due=7),
            Answer(handling="keep", stood=Stood("AGREES", 0), due=5),
        ],
    ),
    (
        b"151 move 1. e4\ngame 14\nkeep\ndone 1\n\n\nkeep\ndone 5\n",
        [Answer(game=b"keep\ndone 1\n\n\n", report=["151 move 1. e4"], handling="keep", due=5)],
    ),
    (
        b"kept 5\n74 k\n151 move 1. e4\n151 agrees\nkeep\nask B\nstate IN-HAND 0 e4 d5\ndone 85\n",
        [Answer(b"74 k\n", None, ["151 move 1. e4", "151 agrees"], "keep", asked=b"B", stood=Stood("IN-HAND", 0, ("e4", "d5")), due=85)],
    ),
    (b"kept 2\n\n\ngame 5\nkeep\nhold\ndone 5\n", [Answer(b"\n\n", b"keep\n", handling="hold", due=5)]),
    (
        b"keep\nlook at 27 LATE\nlook since 24 STOPPED 3\nlook SUSPECT 5\ndone 5\n",
        [Answer(handling="keep", doubts=[Doubt("at", 27, "LATE"), Doubt("since", 24, "STOPPED", 3), Doubt("SUSPECT", 5, "SUSPECT")], due=5)],
    ),
    (b"keep\nover STOOD 0-1 335 sure\nplayed 2\nbegins 201\ndone 5\n", [Answer(handling="keep", over=Over("STOOD", "0-1", 335), played=2, begins=201, due=5)]),
    (b"over UNFINISHED * 134 unsure\nkeep\ndone -\n", [Answer(handling="keep", over=Over("UNFINISHED", "*", 134, False))]),
    (
        b"keep\nclock stopped\nstate AGREES 0\ndone 85\nkeep\nclock runs\ndone 7\nkeep\ndone -\n",
        [
            Answer(handling="keep", clock_stopped=True, stood=Stood("AGREES", 0), due=85),
            Answer(handling="keep", clock_stopped=False, due=7),
            Answer(handling="keep"),
        ],
    ),
    (
        b"kept 7\nclock \n151 clock 0:10:00 0:09:50\nhold\nask B\nfull\nclock stopped\ndone 9\n",
        [Answer(b"clock \n", None, ["151 clock 0:10:00 0:09:50"], "hold", asked=b"B", is_full=True, clock_stopped=True, due=9)],
    ),
    (b"74 agrees\nclock stopped\ndone -\n90 agrees\ndone -\n", [Answer(report=["74 agrees"], clock_stopped=True), Answer(report=["90 agrees"])]),
    (b"74 agrees\ndone -\nkeep\ndone -\n", [Answer(report=["74 agrees"]), Answer(handling="keep")]),
]
HISTORY = b"0 position start\n74 picture one\n74 agrees\ndone -\n90 picture two\n90 differs e2\ndone -\n"
LIVE = b"keep\nstate WAITS -\ndone -\nkept 5\n9 x\n9keep\ndone 3\n"


def entries() -> None:
    for seen, expected in ENTRIES:
        same(f"{expected!r}", seen, expected)


def cut(written: bytes, at: int, known: int = 0) -> List[Answer]:
    """The answers that are read, if what is written comes in two parts."""
    answers = Answers(known)
    return answers.take(written[:at]) + answers.take(written[at:])


def answers() -> None:
    for written, expected in WRITTEN:
        same(f"{written!r}", [found for at in range(len(written) + 1) if (found := cut(written, at)) != expected], [])
        same("byte by byte", byte_by_byte(written), expected)
    for line in (b"what\n", b"done\n", b"state\n", b"look\n", b"look at LATE\n", b"look before 5 LATE\n", b"\n", b"clock\n", b"clock stands\n", b"clock stopped 5\n", b"over\n", b"over STOOD 0-1 335\n", b"over STOOD 0-1 335 surely\n", b"played -\n"):
        refused(f"{line!r}", NoAnswer, Answers().take, line)


def byte_by_byte(written: bytes, known: int = 0) -> List[Answer]:
    answers, found = Answers(known), []
    for at in range(len(written)):
        found += answers.take(written[at : at + 1])
    return found


def known() -> None:
    """So many lines of the report are left out, wherever what is written is cut."""
    lines = ["0 position start", "74 picture one", "74 agrees", "90 picture two", "90 differs e2"]
    for live, stopped in ((LIVE, None), (LIVE.replace(b"state", b"clock stopped\nstate"), True)):
        rest = [Answer(handling="keep", clock_stopped=stopped, stood=Stood("WAITS")), Answer(kept=b"9 x\n9", handling="keep", due=3)]
        for count in range(len(lines) + 1):
            first, second = lines[count:3], lines[max(count, 3) :]
            expected = [Answer(report=first), Answer(report=second), *rest]
            text = HISTORY + live
            same(f"{count} lines, {stopped}", [at for at in range(len(text) + 1) if cut(text, at, count) != expected], [])
            same(f"{count} lines, {stopped}, byte by byte", byte_by_byte(text, count), expected)
    # A history that is all known, and a clock among it.
    text = b"74 agrees\nclock stopped\ndone -\n90 agrees\ndone -\n"
    same("a clock in it", [at for at in range(len(text) + 1) if cut(text, at, 2) != [Answer(clock_stopped=True), Answer()]], [])
    # Some of the known lines come only with bytes that wait for a full disk.
    later = b"keep\nstate AGREES 0\ndone 500\n95 move 1. e4\n95 agrees\nkeep\ndone -\n"
    expected = [Answer(), Answer(), Answer(handling="keep", stood=Stood("AGREES", 0), due=500), Answer(report=["95 agrees"], handling="keep")]
    text = HISTORY + later
    same("one more line", [at for at in range(len(text) + 1) if cut(text, at, len(lines) + 1) != expected], [])
    same("one more line, byte by byte", byte_by_byte(text, len(lines) + 1), expected)


def taken_early() -> None:
    """Lines of the report are taken before their answer has ended: each is there once, in order, and the answers have the rest."""
    text = HISTORY + LIVE
    whole = cut(text, len(text), 0)
    for at in range(len(text) + 1):
        answers = Answers()
        first, early = answers.take(text[:at]), answers.unended()
        rest = answers.take(text[at:])
        lines = [line for answer in first for line in answer.report] + early + [line for answer in rest for line in answer.report]
        same(f"cut at {at}", (lines, len(first) + len(rest)), ([line for answer in whole for line in answer.report], len(whole)))


def told_at_once() -> None:
    """The parts of a capture."""
    for lines, start, end, expected in (
        (b"", 0, 0, []),
        (b"0 begin 0\n", 0, 0, []),
        (b"", 0, PIECE, [(0, PIECE)]),
        (b"", 5, PIECE + 6, [(5, PIECE + 5), (PIECE + 5, PIECE + 6)]),
        (b"0 begin 0\n", 0, 9 * PIECE, [(0, 9 * PIECE)]),
    ):
        same(f"{lines!r}, {start}, {end}", pieces(lines, start, end), expected)


def of_the_line() -> None:
    """What is told of a line to whoever begins later."""
    for told, expected in [
        ((), ()),
        ((OPENED,), (OPENED,)),
        ((OPENED, ANSWERED), (OPENED, ANSWERED)),
        ((OPENED, ANSWERED, TOOK), (OPENED, ANSWERED)),
        ((OPENED, GONE), (GONE,)),
        ((GONE, OPENED), (OPENED,)),
        ((OPENED, CALLED), ()),
    ]:
        line: "tuple[str, ...]" = ()
        for what in told:
            line = line_after(line, what)
        same(f"{told}", line, expected)


TABLES = [entries, answers, known, taken_early, told_at_once, of_the_line]
