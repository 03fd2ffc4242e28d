#!/usr/bin/env python3
"""Whether somebody who types moves for one board holds up the others: 48 boards play in one dgt_round, and one more gets typed moves.

`typed_lines.py [BOARDS [MOVES [LINES]]]` plays MOVES moves on BOARDS boards, each one every two seconds, twice: while nobody types, and
while LINES moves are typed for one board more, a line each, evenly over the run. It tells the median and the 99th of 100 of the time
from a move's last byte to its line, in ms, of the boards that play. Last it tells how many of the typed moves are in that game.
"""

from __future__ import annotations

import itertools
import pathlib
import sys
import tempfile
import time
from typing import List, Tuple

sys.dont_write_bytecode = True
from live_boards import Hall, of_100  # noqa: E402
from played.recorder import Live  # noqa: E402  (live_boards has put its folder on the path)

PAUSE = 2.0  # seconds between two moves of a board
PLAYED = ("e2e4", "e7e5")  # on the board for which moves are typed
FIRST, AROUND = ("a3", "a6"), ("Nf3", "Nf6", "Ng1", "Ng8")  # that board is never one move from the game then


def run(boards: int, moves: int, lines: int) -> Tuple[List[float], int]:
    """Seconds from each move's last byte to its line, and how many moves the game has that were typed."""
    with tempfile.TemporaryDirectory(prefix="dgt_live.") as folder:
        (pathlib.Path(folder) / "room").mkdir()
        Live.scratch_folder = pathlib.Path(folder) / "room"
        try:
            hall = Hall(pathlib.Path(folder), boards + 1, True, 0, typed=True)
            hall.begin()
            still = hall.tables[0].board
            for move in PLAYED:
                still.play(move)
                while still.waiting:
                    still.step()
            while has_moves(hall.tables[0].name) < len(PLAYED):
                hall.turn(0.01)
            typed = itertools.chain(FIRST, itertools.cycle(AROUND))
            begun, step, count = time.monotonic(), moves / boards * PAUSE / max(lines, 1), 0

            def types(now: float) -> None:
                nonlocal count
                while count < lines and now >= begun + count * step:
                    hall.round.type(f"1 {next(typed)}")
                    count += 1

            waits, _ = hall.play(moves, PAUSE, 1, types)
            over = time.monotonic() + 10
            while has_moves(hall.tables[0].name) < len(PLAYED) + lines and time.monotonic() < over:
                hall.turn(0.01)
            return waits, has_moves(hall.tables[0].name) - len(PLAYED)
        finally:
            for live in Live.all:
                live.end()
            Live.all.clear()


def has_moves(name: pathlib.Path) -> int:
    """How many moves a text has."""
    words = name.read_text().partition("\n\n")[2].split()
    return sum(word[0].isalpha() for word in words)


def main() -> None:
    """Both runs."""
    words = list(map(int, sys.argv[1:]))
    boards, moves, lines = (*words, *(48, 1200, 100)[len(words) :])
    for typed in (0, lines):
        waits, has = run(boards, moves, typed)
        told = f"{typed} moves typed, {has} in the game" if typed else "nobody types"
        print(f"{told:>36}: median {of_100(waits, 0.5):.1f} ms, 99th {of_100(waits, 0.99):.1f} ms, longest {1000 * max(waits):.1f} ms")


if __name__ == "__main__":
    main()
