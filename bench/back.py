#!/usr/bin/env python3
"""Games whose captures are made anew with fewer plies, as an arbiter's `back` does, by the program's `back`.

Random games from several starts, on boards that lie both ways, with White's time or Black's first, with a clock, without one
and with one that is pulled out, with a hand in the air at the end or a frame that is cut. Each is taken back to random plies,
one time after the other. What `record` makes of the new capture must be the front of the text of the old one, with its clocks.
Last line: 'N cuts of M games passed, K failed'.  back.py [--games N] [--seed N]

With --kills it plays the cases of tests/live and tests/round in which a recorder is killed on its way back, before each EVERY-th
call of the system, and not only before those that change a file.  back.py --kills [--every N]
"""

from __future__ import annotations

import argparse
import os
import pathlib
import random
import subprocess
import sys
from concurrent.futures import ProcessPoolExecutor
from typing import List, Tuple

from additions import ENDS, INITIAL_FEN, STARTS, Played, end, game_at, legal
from hands import PROGRAM, hand, movetext, program

from live.line.protocol import picture_of_placement  # noqa: E402  (hands has put its folder on the path)
from live.child.program import Program  # noqa: E402
from live.game.options import Options  # noqa: E402
from live.game.typed import STILL_SHOWN, ask_to_go_back, stays_of  # noqa: E402
from recovering.frames import dump  # noqa: E402

CUTS = 5  # of a game
EVERY = 12  # from one call before which a recorder is killed to the next
TESTS = pathlib.Path(__file__).resolve().parents[1] / "tests"
KILLED = [f"killed_while_recorded_{part}" for part in (1, 2, 3)]
KILLED_ROUND = "killed_going_back"
CLOCKS = ("runs", "none", "pulled out")
NO_CLOCK = bytes.fromhex("8d000a00000000000020")


def time_message(chance: random.Random, seconds: List[int]) -> bytes:
    """Both clocks, after one of them has run."""
    seconds[chance.randrange(2)] -= chance.randrange(1, 90)
    groups = ((left // 3600, left // 60 % 60, left % 60) for left in seconds)
    return bytes((0x8D, 0, 10)) + bytes(int(str(part), 16) for group in groups for part in group) + b"\x01"


def played_game(chance: random.Random, start: str, rotated: bool, first: str, clock: str, kind: str) -> Tuple[Options, bytes]:
    """The options of a game, and what its board sent."""
    board = list(picture_of_placement(start))
    played = Played([], rotated, bytearray(dump(tuple(board), rotated)), board)
    game, seconds = game_at(start), [30000, 29999]
    for _ in range(chance.choice([1, 2, 5, 12, 40])):
        ways = legal(game)
        if not ways:
            break
        if clock == "runs" or (clock == "pulled out" and chance.random() < 0.5):
            played.sent += time_message(chance, seconds)
        elif clock == "pulled out" and chance.random() < 0.3:
            played.sent += NO_CLOCK
        way = chance.choice(ways)
        for square, code in hand(chance, played.board, way):
            played.show(square, code)
        game = game.after(way)
    end(played, game, chance, kind)
    fen = start if start != INITIAL_FEN else None
    return Options(rotated, first if first == "black" else None, fen), bytes(played.sent)


def one(arguments: Tuple[str, str, bool, str, str, str]) -> Tuple[int, List[str]]:
    """How many cuts of a game were right, and what was wrong. A cut is no cut where the board as it stands plays on."""
    seed, start, rotated, first, clock, kind = arguments
    chance = random.Random(seed)
    options, sent = played_game(chance, start, rotated, first, clock, kind)
    right, wrong = 0, []
    for _ in range(CUTS):
        before = movetext(program(["record", *options.of_record()], sent))
        plies = [word for word in before[:-1] if word[0].isalpha()]
        if not plies:
            break
        stays = chance.randrange(len(plies))
        course = program(["follow", *options.of_board()], sent).splitlines()
        named = [line.split()[2] for line in course if line.split()[1] == "move"]
        to = f"{named[stays - 1]} {plies[stays - 1]}" if stays else "0"
        said = ask_to_go_back(Program(PROGRAM), options, sent, to)
        if not said.put:
            if said.kind not in STILL_SHOWN:
                wrong.append(f"{arguments} {to}: {said}")
            continue
        after = movetext(program(["record", *options.of_record()], said.put))
        moves = [word for word in after[:-1] if word[0].isalpha()]
        if moves != plies[:stays] or after[:-1] != before[: len(after) - 1] or stays_of(said) != stays:
            wrong.append(f"{arguments} {to}: {before} became {after}")
        right, sent = right + 1, said.put
    return right, wrong


def kill_recorders(every: int) -> int:
    """The status of the cases that kill, before more calls than the gate does."""
    environment = {**os.environ, "CALLS": "all", "PARTS": str(every)}
    calls = [[str(TESTS / "live"), "--at-once", "3", *KILLED], [str(TESTS / "round"), KILLED_ROUND]]
    return max([subprocess.run(call, env=environment).returncode for call in calls])


def main() -> int:
    """Tries each start, either way round, with each clock, in each of the ways in which a capture may end."""
    parser = argparse.ArgumentParser(description=__doc__)
    parser.add_argument("--games", type=int, default=1, help="of each kind")
    parser.add_argument("--seed", type=int, default=1)
    parser.add_argument("--kills", action="store_true")
    parser.add_argument("--every", type=int, default=EVERY)
    words = parser.parse_args()
    if words.kills:
        return kill_recorders(words.every)
    ways = [(number % 2 == 1, "black" if number % 4 > 1 else "white", number) for number in range(4 * words.games)]
    cases = [
        (f"{words.seed} {start} {kind} {clock} {number}", start, rotated, first, clock, kind)
        for start in STARTS
        for kind in ENDS
        for clock in CLOCKS
        for rotated, first, number in ways
    ]
    with ProcessPoolExecutor(2) as pool:
        answers = list(pool.map(one, cases))
    wrong = [line for _, lines in answers for line in lines]
    for line in wrong:
        print(line)
    print(f"{sum(right for right, _ in answers)} cuts of {len(cases)} games passed, {len(wrong)} failed")
    return 1 if wrong else 0


if __name__ == "__main__":
    sys.exit(main())
