#!/usr/bin/env python3
"""How often `recover` is wrong: of the pairs that it puts in where hurried hands play (bench/hurried.py), those not played.

Pairs in a game that was right until then are told apart from those behind a ply that was not played: there the moves that follow
are seen from a wrong position. Each run plays with hands that nobody has seen, and prints their seed; `--seed N` plays with those
of another run again.

hurried_errors.py [--recover PROGRAM..] [--games N] [--times N] [--seed N] [--slides SHARE] [--at-once N] [--show]
"""

from __future__ import annotations

import argparse
import random
import subprocess
import sys
from concurrent.futures import ProcessPoolExecutor
from dataclasses import dataclass
from typing import List, Sequence, Tuple

import hands
import hurried

SETTINGS = tuple(hurried.Row("", early, cut) for early, cut in (
    (0, 1), (0, 2), (0, 5), (1, 0), (2, 0), (5, 0), (10, 0), (20, 0), (2, 2), (5, 2)
))  # fmt: skip


@dataclass(frozen=True)
class Recovered:
    """A pair that was put in: whether the game was right until then, and whether the pair was played."""

    behind_right: bool
    played: bool
    note: str


Trial = Tuple[str, hurried.Game, hurried.Row, float, Tuple[str, ...]]


def trial(arguments: Trial) -> List[Recovered]:
    """The pairs that are put in where hands with this seed play the game."""
    seed, game, row, slides, recover = arguments
    sent = hurried.shown(random.Random(seed), game, row, slides)
    made = subprocess.run([*recover, "recover"], input=sent, stdout=subprocess.PIPE, stderr=subprocess.PIPE, check=True)
    # All plies but the last stand for good, so those before a pair stood so when it was put in.
    sans = hands.moves_of(hands.program(["record"], made.stdout))
    return [recovered(line, sans, game) for line in made.stderr.decode().splitlines()]


def recovered(line: str, sans: Sequence[str], game: hurried.Game) -> Recovered:
    pair = hurried.RECOVERED.fullmatch(line)
    assert pair, line
    before = 2 * (int(pair[2]) - 1) + (pair[3] != ".")
    right = tuple(sans[:before]) == game.sans[:before]
    return Recovered(right, hurried.is_played(pair, game.sans), f"{line}, played {' '.join(game.sans[before : before + 4])}")


def rate(pairs: Sequence[Recovered]) -> str:
    """How many, how many of them were not played, and of how many one is."""
    wrong = sum(not pair.played for pair in pairs)
    return f"{len(pairs):,} | {wrong:,} | {f'{len(pairs) / wrong:,.3g}' if wrong else '-'}"


def main() -> int:
    parser = argparse.ArgumentParser(description=__doc__, formatter_class=argparse.RawDescriptionHelpFormatter)
    parser.add_argument("--recover", nargs="+", default=[hands.PROGRAM], metavar="PROGRAM", help="that which has `recover`")
    parser.add_argument("--games", type=int, default=60)
    parser.add_argument("--times", type=int, default=12, help="that each game is played in each setting")
    parser.add_argument("--seed", type=int, default=None, help="of another run")
    parser.add_argument("--slides", type=float, default=0.25, help="the share of moves along a line that are slid")
    parser.add_argument("--at-once", type=int, default=2)
    parser.add_argument("--show", action="store_true", help="names each pair that was not played")
    words = parser.parse_args()
    seed = random.SystemRandom().randrange(10**9) if words.seed is None else words.seed
    games = hurried.read_games(words.games)
    trials = [
        (f"{seed} {row.early} {row.cut} {time} {number}", game, row, words.slides, tuple(words.recover))
        for row in SETTINGS
        for time in range(words.times)
        for number, game in enumerate(games)
    ]
    with ProcessPoolExecutor(words.at_once) as pool:
        pairs = [pair for found in pool.map(trial, trials, chunksize=8) for pair in found]
    print(f"| {len(trials):,} games, seed {seed} | pairs put in | of these not played | one in |\n|---|---|---|---|")
    for name, chosen in (
        ("in a game that was right until then", [pair for pair in pairs if pair.behind_right]),
        ("behind a ply that was not played", [pair for pair in pairs if not pair.behind_right]),
        ("all", pairs),
    ):
        print(f"| {name} | {rate(chosen)} |")
    if words.show:
        for pair in pairs:
            if not pair.played:
                print(f"    {'right' if pair.behind_right else 'wrong'} until then: {pair.note}")
    return 0


if __name__ == "__main__":
    sys.exit(main())
