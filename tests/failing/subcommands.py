"""Each subcommand over an input: what it leaves where one of its allocations fails.

Then its status is 4, its standard error ends with `memory`, and its output is that of what came before. An allocation that it can do
without changes nothing; how many those are is known.
"""

import dataclasses
from typing import FrozenSet, List, Sequence, Tuple

from decided.table import same, skip
from failing.each import Run, runs
from given.case import Case, dump, pgn, program, updates
from given.messages import CUT, E2_EMPTY, E4_PAWN, INITIAL, KINGS_PAWN, OTHER
from given.recovered import BISHOP, FIRST, HIDDEN, LINE, SECOND, THIRD
from given.watched import START

import outside

MEMORY = b"memory\n"
NO_CLOCK = b"\x8d\x00\x0a\x00\x00\x00\x00\x00\x00\x20"
E4_E5 = dump("rnbqkbnr/pppp1ppp/8/4p3/4P3/8/PPPP1PPP/RNBQKBNR")
CAPTURE = INITIAL + E2_EMPTY + E4_PAWN
CASTLING = "4k3/8/8/8/8/8/8/4K2R w K -"
ROOK = dump("4k3/8/8/8/8/8/8/4K2R")
NINE_PLIES = updates("e2- e4P e7- e5p g1- f3N b8- c6n f1- b5B a7- a6p b5- a4B g8- f6n d2- d3P")
NINE_FRONTS = [
    "*",
    "1. e4 *",
    "1. e4 e5 *",
    "1. e4 e5 2. Nf3 *",
    "1. e4 e5 2. Nf3 Nc6 *",
    "1. e4 e5 2. Nf3 Nc6 3. Bb5 *",
    "1. e4 e5 2. Nf3 Nc6 3. Bb5 a6 *",
    "1. e4 e5 2. Nf3 Nc6 3. Bb5 a6 4. Ba4 *",
    "1. e4 e5 2. Nf3 Nc6 3. Bb5 a6 4. Ba4 Nf6 *",
    "1. e4 e5 2. Nf3 Nc6 3. Bb5 a6 4. Ba4 Nf6 5. d3 *",
]
LIFTED = b"71 picture rnbqkbnr/pppppppp/8/8/8/8/PPPP1PPP/RNBQKBNR\n71 differs e2\n"
SHOWN = b"66 picture rnbqkbnr/pppppppp/8/8/8/8/PPPPPPPP/RNBQKBNR\n66 agrees\n"
MOVED = (
    b"76 picture rnbqkbnr/pppppppp/8/8/4P3/8/PPPP1PPP/RNBQKBNR\n76 move 1. e4\n"
    b"76 position rnbqkbnr/pppppppp/8/8/4P3/8/PPPP1PPP/RNBQKBNR b KQkq e3 0 1\n"
)
FIRST_MOVES = "a4 a3 b4 b3 c4 c3 d4 d3 e4 e3 f4 f3 g4 g3 h4 h3 Na3 Nc3 Nf3 Nh3"
KINGS = (
    b"4k3/8/8/8/8/8/8/4K3 w - - 0 1\n4k3/8/8/8/8/8/4K3/8 b - - 1 1\n8/4k3/8/8/8/8/4K3/8 w - - 2 2\n"
)

Left = Tuple[bytes, bytes]  # the output and standard error


@dataclasses.dataclass(frozen=True)
class Failing:
    """A case; what may be left of it where memory runs out, beside nothing but `memory`; how many allocations it can do without."""

    case: Case
    fronts: FrozenSet[Left] = frozenset()
    spared: int = 1  # std gathers the arguments in a list that is cut to size


def fronts(text: bytes) -> FrozenSet[Left]:
    """Each first part of an output."""
    return frozenset((text[:size], MEMORY) for size in range(len(text) + 1))


# What a host tells, and what it is answered: the board gives its number and its pieces, and the text is wanted.
NUMBER = b"\x91\x00\x0801234"
TURNS = [
    (b"0 begin 0\n", b"keep\nstate WAITS -\ndone -\n"),
    (b"5 opened\n", b"keep\nask EBK\ndone 1000\n"),
    (b"95 heard 8\n" + NUMBER, b"kept 8\n" + NUMBER + b"keep\nnumber 01234\ndone 910\n"),
    (
        b"120 heard 67\n" + INITIAL,
        b"kept 67\n" + INITIAL + b"74 picture rnbqkbnr/pppppppp/8/8/8/8/PPPPPPPP/RNBQKBNR\n74 agrees\nkeep\nstate AGREES 0\ndone 885\n",
    ),
    (b"1005 text\n", b"game 99\n" + pgn(white="Anna") + b"keep\nask B\ndone 1000\n"),
]


def answered(count: int) -> bytes:
    """What a host reads that has told so many entries."""
    return START + b"".join(answer for _, answer in TURNS[:count])


def recording(capture: bytes, movetexts: Sequence[str], updates: int, *options: str, **tags: str) -> Failing:
    """A recording with so many updates: its movetext is the last of these, or one before it where memory runs out."""
    whole, counts = movetexts[-1], (updates + 1, len(movetexts) - 1)
    return Failing(
        Case(
            ["record", *options],
            capture,
            out=pgn(whole, **tags),
            err=b"BK\nmessages %d, faults 0, moves %d, rest 0\n" % counts,
        ),
        frozenset((pgn(front, **tags), b"BK\nmemory\n") for front in movetexts[:-1]),
    )


CASES: List[Failing] = [
    recording(CAPTURE, ["*", "1. e4 *"], 2),
    recording(INITIAL + NINE_PLIES, NINE_FRONTS, 18),
    recording(ROOK + updates("e1- e2K"), ["*", "1. Ke2 *"], 2, "--fen", CASTLING, "--white", "Anna", fen=f"{CASTLING} 0 1", white="Anna"),
    # the rook's move is a ply; castling takes its place, and no memory
    recording(ROOK + updates("h1- f1R e1- g1K"), ["*", "1. O-O *"], 4, "--fen", CASTLING, fen=f"{CASTLING} 0 1"),
    Failing(
        Case(["follow"], CAPTURE, out=b"66 agrees\n71 differs e2\n76 move 1. e4\nrest 0\n"),
        frozenset({(b"66 agrees\n71 differs e2\n", MEMORY)}),
    ),
    Failing(
        Case(["watch"], CAPTURE, out=START + SHOWN + LIFTED + MOVED + b"rest 0\n"),
        frozenset({(START + SHOWN + LIFTED, MEMORY)}),
    ),
    Failing(Case(["show"], INITIAL, out=b"66 dump 89acba98" + b"7" * 8 + b"0" * 32 + b"1" * 8 + b"23465432\nrest 0\n")),
    Failing(
        Case(["add", "--line=e4"], INITIAL, out=NO_CLOCK + KINGS_PAWN + NO_CLOCK + INITIAL + b"\0", err=b"add: moves 1\n"),
        spared=83,  # without memory for a better answer it gives a plain one
    ),
    Failing(
        Case(
            ["back"],
            INITIAL + KINGS_PAWN + E4_E5 + KINGS_PAWN,
            out=INITIAL + NO_CLOCK + KINGS_PAWN + NO_CLOCK + KINGS_PAWN,
            err=b"back: plies 1, gone 1, result *\n",
        ),
    ),
    Failing(Case(["check"], pgn("1. e4 *"), out=b"moves 1, result *\n")),
    Failing(
        Case(
            ["times"],
            b"1 times 0\n0 digest 14695981039346656037\n0 begin 0\n",
            out=b"generation 0, bytes when it began: 0\n0:00:00.000 a call begins, bytes in the capture: 0\n",
        ),
    ),
    Failing(Case(["moves"], out="".join(f"{move}\n" for move in FIRST_MOVES.split()).encode())),
    Failing(Case(["positions", "--fen", "4k3/8/8/8/8/8/8/4K3 w - -"], b"Ke2 Ke7", out=KINGS)),
    Failing(
        Case(["recover"], INITIAL + HIDDEN + BISHOP, out=INITIAL + HIDDEN + BISHOP + FIRST + SECOND + THIRD, err=LINE),
        fronts(INITIAL + HIDDEN + BISHOP + FIRST + SECOND + THIRD),
    ),
    Failing(
        Case(["live", "--white", "Anna"], b"".join(told for told, _ in TURNS), out=answered(len(TURNS))),
        frozenset((answered(count), MEMORY) for count in range(len(TURNS))),
    ),
]


def fault_of(run: Run, it: Failing) -> str:
    """What is wrong with a run in which an allocation failed; empty where nothing is."""
    if run.status == 4 and (run.out, run.err) in it.fronts | {(b"", MEMORY)}:
        return ""
    return f"status {run.status}, {run.out!r}, {run.err!r}"


def judge(it: Failing, made: Sequence[Run]) -> Tuple[int, List[str]]:
    """Of the runs of a case: how many leave all although an allocation failed, and what is wrong with others."""
    whole = Run(it.case.status, it.case.out, it.case.err)
    failed = [run for run in made[:-1] if run != whole]
    return len(made) - 1 - len(failed), [fault for run in failed for fault in [fault_of(run, it)] if fault]


def subcommands() -> None:
    why = outside.lacks("gcc")
    if why:
        return skip("subcommands", why)
    for it in CASES:
        made = runs([program(), *it.case.words], it.case.sent)
        name = " ".join(it.case.words)
        same(f"{name}: without a failure", made[-1:], [Run(it.case.status, it.case.out, it.case.err)])
        spared, faults = judge(it, made)
        same(f"{name}: allocations that fail", faults, [])
        same(f"{name}: allocations that it can do without", spared, it.spared)


def without_a_ply() -> None:
    """A recording without a move takes no memory: it makes as many allocations as one of no byte."""
    why = outside.lacks("gcc")
    if why:
        return skip("without_a_ply", why)
    none = len(runs([program(), "record"], b""))
    for name, sent in (("a dump", INITIAL), ("a square", INITIAL + E2_EMPTY), ("another message", OTHER), ("a fault", CUT + INITIAL)):
        same(f"{name} takes none", len(runs([program(), "record"], sent)), none)


TABLES = [subcommands, without_a_ply]
