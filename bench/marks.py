#!/usr/bin/env python3
"""How many games `dgt_replay live` records wrong without a mark, and how often it marks right ones, in simulated time.

A game is wrong if its text isn't that of the moves and the result that were played. It is marked if an alarm is open at the end or the
board doesn't agree with it; a game that is over, if that isn't sure. `Silent` games are wrong and not marked. LOOK and WRONG are
counted in each 1,000 plies; a WRONG lasts if it is still said when another ply has been made. The classes are in
bench/marks_classes.py, each with a clock and without, if that makes a difference; the boards, clocks and hands are those of
tests/emulated/. The environment variable PROGRAM is the path of another program. No real hands, no real board.

marks.py [CLASS ..] [--games N] [--paces SECONDS ..] [--seed N] [--recover] [--at-once N] [--show]
"""

from __future__ import annotations

import argparse
import random
import sys
from collections import Counter
from concurrent.futures import ProcessPoolExecutor
from typing import List, NamedTuple, Optional, Sequence, Tuple

import hurried
from marks_classes import CLASSES
from marks_played import Judged, played
from marks_scenes import Setting

PACES = (1.0, 3.0, 8.0, 15.0, 30.0)  # seconds a ply, the median
HEADS = ("class", "s a ply", "clock", "games", "plies", "wrong", "silent", "marked", "LOOK", "WRONG", "lasting", "why")
PAIRS = ("pairs", "right", "right and marked")


class Case(NamedTuple):
    """A game to be played."""

    name: str
    setting: Setting
    recovers: bool


class Line(NamedTuple):
    """Games that are played alike."""

    name: str
    pace: float
    has_clock: bool


def outcome(case: Case) -> Optional[Judged]:
    plan = CLASSES[case.name].plan(case.setting)
    return None if plan is None else played(plan, case.setting.seed, case.recovers)


def cases_of(line: Line, words: argparse.Namespace, games: Sequence[hurried.Game]) -> List[Case]:
    found = []
    for number in range(words.games):
        seed = f"{words.seed} {line.name} {line.pace:g} {number}"
        game = games[random.Random(seed).randrange(len(games))]
        found.append(Case(line.name, Setting(seed, line.pace, line.has_clock, game), words.recover))
    return found


def rate(count: int, plies: int) -> str:
    return f"{1000 * count / max(plies, 1):.1f}"


def cells(line: Line, games: Sequence[Judged], recovers: bool) -> List[str]:
    """A line of the table."""
    plies = sum(game.plies for game in games)
    wrong = [game for game in games if game.is_wrong]
    silent = sum(not game.is_marked for game in wrong)
    marked = sum(game.is_marked for game in games)
    alarms = Counter(kind for game in games for kind in game.alarms)
    whys = Counter(why for game in games for why in game.whys)
    why = ", ".join(f"{name} {count}" for name, count in [*sorted(whys.items()), *sorted(alarms.items())])
    found = [CLASSES[line.name].about, f"{line.pace:g}", "yes" if line.has_clock else "no"]
    found += map(str, (len(games), plies, len(wrong), silent, marked))
    found += [rate(sum(whys.values()), plies), rate(alarms["WRONG"], plies), rate(sum(game.lasting for game in games), plies)]
    pairs = [sum(game.pairs for game in games), sum(game.right_pairs for game in games), sum(game.marked_pairs for game in games)]
    return [*found, *map(str, pairs if recovers else ()), why or "none"]


def main() -> int:
    parser = argparse.ArgumentParser(description=__doc__, formatter_class=argparse.RawDescriptionHelpFormatter)
    parser.add_argument("classes", nargs="*", metavar="CLASS", help=f"all, or some of {', '.join(CLASSES)}")
    parser.add_argument("--games", type=int, default=10, help="of each class, at each pace, with a clock and without")
    parser.add_argument("--paces", type=float, nargs="+", default=PACES, metavar="SECONDS")
    parser.add_argument("--seed", type=int, default=1)
    parser.add_argument("--recover", action="store_true", help="the program puts in pairs of plies that nobody showed")
    parser.add_argument("--at-once", type=int, default=2)
    parser.add_argument("--show", action="store_true", help="names each game that is silent, or right and marked")
    words = parser.parse_args()
    unknown = [name for name in words.classes if name not in CLASSES]
    if unknown:
        parser.error(f"there is no class {unknown[0]}: {', '.join(CLASSES)}")
    games = hurried.read_games(60)
    heads = [*HEADS[:-1], *(PAIRS if words.recover else ()), HEADS[-1]]
    print(f"| {' | '.join(heads)} |\n{'|---' * len(heads)}|")
    with ProcessPoolExecutor(words.at_once) as pool:
        for name in words.classes or CLASSES:
            for pace in words.paces:
                for has_clock in CLASSES[name].clocks:
                    line = Line(name, pace, has_clock)
                    cases = cases_of(line, words, games)
                    rows: List[Tuple[Case, Optional[Judged]]] = list(zip(cases, pool.map(outcome, cases)))
                    print(f"| {' | '.join(cells(line, [row for _, row in rows if row], words.recover))} |", flush=True)
                    for case, row in rows if words.show else ():
                        if row and row.is_wrong != row.is_marked:
                            print(f"    {case.setting.seed}: {'silent' if row.is_wrong else 'right'} {row.whys} {row.alarms}")
    return 0


if __name__ == "__main__":
    sys.exit(main())
