"""How an emulated hall draws its troubles and judges its games, worked by hand from what bench/hall.py says of itself."""

import collections
import random
from typing import List, Sequence, Tuple

from hall_troubles import BOARDS, Kind, drawn, kinds
from hall_verdicts import Seen, Verdict, Watched, judged, kept

from decided.table import same

PLAYED, DONE = ("e4", "e5", "Nf3"), (10.0, 20.0, 30.0)
SHORT = PLAYED[:2]  # the third ply, of 30 s, is missing

# name, what was recorded, when the play ended, what the row said from when on (with ! where it was an alarm), what it is
CASES: List[Tuple[str, Tuple[str, ...], float, List[str], Verdict, int]] = [
    ("all moves", PLAYED, 100, ["0 agrees"], Verdict.WHOLE, 3),
    ("all moves, whatever the row says", PLAYED, 100, ["0 !WRONG: e4"], Verdict.WHOLE, 3),
    ("no word of it", SHORT, 100, ["0 agrees"], Verdict.UNMARKED, 2),
    ("an alarm from 40 s on", SHORT, 100, ["0 agrees", "40 !WRONG: f3"], Verdict.MARKED, 2),
    ("from 70 s on", SHORT, 100, ["0 agrees", "31 setting up", "70 !WRONG: f3"], Verdict.MARKED, 2),
    ("from 40 s to 50 s", SHORT, 100, ["0 agrees", "40 !WRONG: f3", "50 agrees"], Verdict.MARKED, 2),
    ("from 40 s to 43 s: nobody sees it", SHORT, 100, ["0 agrees", "40 !WRONG: f3", "43 agrees"], Verdict.UNMARKED, 2),
    ("before the ply", SHORT, 100, ["0 agrees", "15 !WRONG: f3", "28 agrees"], Verdict.UNMARKED, 2),
    ("before the ply and after it", SHORT, 100, ["0 agrees", "15 !WRONG: f3", "38 agrees"], Verdict.MARKED, 2),
    ("unplugged meanwhile", SHORT, 100, ["0 agrees", "25 !UNPLUGGED", "45 agrees"], Verdict.UNMARKED, 2),
    ("a full disk meanwhile", SHORT, 100, ["0 agrees", "25 !DISK FULL, agrees", "45 agrees"], Verdict.UNMARKED, 2),
    ("silent to the end", SHORT, 100, ["0 agrees", "25 !SILENT"], Verdict.MARKED, 2),
    ("setting up", SHORT, 100, ["0 agrees", "31 setting up"], Verdict.UNMARKED, 2),
    ("another board", SHORT, 100, ["0 agrees", "31 !setting up; another board may be on this cable"], Verdict.MARKED, 2),
    ("when all is over", SHORT, 100, ["0 agrees", "31 setting up", "101 !WRONG: f3"], Verdict.UNMARKED, 2),
    ("soon enough, though play has ended", SHORT, 35, ["0 agrees", "31 setting up", "45 !WRONG: f3"], Verdict.MARKED, 2),
    ("too late", SHORT, 35, ["0 agrees", "31 setting up", "61 !WRONG: f3"], Verdict.UNMARKED, 2),
    ("another move", ("e4", "c5", "Nf3"), 100, ["0 agrees"], Verdict.UNMARKED, 1),
    ("one that was not played", (*PLAYED, "Nc6"), 100, ["0 agrees"], Verdict.UNMARKED, 3),
    ("nothing", (), 100, [], Verdict.UNMARKED, 0),
]


def watched(words: Sequence[str]) -> Watched:
    """A look each second up to 120 s, of a row that says these from their times on."""
    changes = [(float(word.split(" ")[0]), word.split(" ", 1)[1]) for word in words]
    seen = []
    for second in range(120):
        said = [text for when, text in changes if when <= second]
        if said:
            seen.append(Seen(second, said[-1].lstrip("!"), said[-1].startswith("!")))
    return Watched(seen)


def verdicts() -> None:
    """Whole, marked, or wrong and unmarked, and how many plies were kept."""
    for name, recorded, ended, words, verdict, plies in CASES:
        judgement = judged(recorded, PLAYED, DONE, ended, watched(words))
        same(name, (judgement.verdict, judgement.kept), (verdict, plies))
    same("what stands there instead", judged(("e4", "c5"), PLAYED, DONE, 100, Watched()).recorded, ("c5",))
    same("kept", (kept("abc", "abd"), kept("ab", "abc"), kept("", "a"), kept("abc", "abc")), (2, 2, 0, 3))


def troubles() -> None:
    """Of 48 boards as many have each trouble as is said, the others none; a swap is of two boards, once before the game."""
    for seed in range(5):
        found = kinds(random.Random(seed), 48)
        counted = collections.Counter(found.values())
        same(f"kinds, {seed}", counted, collections.Counter({**BOARDS, Kind.CALM: 48 - sum(BOARDS.values())}))
        happens = drawn(random.Random(seed), found, 600.0)
        same(f"in the order of their times, {seed}", [one.at for one in happens], sorted(one.at for one in happens))
        same(f"over before the end, {seed}", all(0 < one.at and one.ends < 600 for one in happens), True)
        swaps = [one for one in happens if one.kind is Kind.SWAP]
        same(f"each swapped board once, {seed}", len({number for one in swaps for number in one.boards}), BOARDS[Kind.SWAP])
        same(f"the first swap, {seed}", (swaps[0].at, swaps[0].lasts), (0.1, 0.5))
        common = [one for one in happens if not one.boards]
        same(f"one at a time for all boards, {seed}", all(one.ends < other.at for one, other in zip(common, common[1:])), True)
    same("of 12 boards", collections.Counter(kinds(random.Random(1), 12).values())[Kind.CUT], 3)


TABLES = [verdicts, troubles]
