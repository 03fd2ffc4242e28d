#!/usr/bin/env python3
"""Simulated set-ups after games without a result: where the recorder takes the game to have ended, and whether that is right.

A random game of so many plies is given up; after a while the pieces are carried home, one at a time, and the start stands.
What the board sent goes through the real `live`, with its times; it says how many bytes are the game's; `record` of these must give the
game that was played.  set_ups.py [--games N] [--seed N] [--show]
"""

from __future__ import annotations

import argparse
import random
import sys
from concurrent.futures import ProcessPoolExecutor
from dataclasses import dataclass
from typing import Callable, Dict, List, Sequence, Tuple

from hands import EMPTY, INITIAL, KINGS, Hands, lognormal, moves_of, program, program_bytes, random_game, updates

from live.child.lines import Agrees, Answers, Differs, Event, Move, Over, Result, line_of  # noqa: E402
from live.game.attending import entry  # noqa: E402  (hands has put its folder on the path)


@dataclass
class Line:
    """A line of the report, and when it came."""

    offset: int
    at: float
    event: Event


@dataclass
class Trial:
    """A game and its set-up, as the program has told them."""

    sent: bytes
    played: int  # bytes up to the end of the game
    truth: List[str]
    lines: List[Line]
    over: Over


def set_up(hands: Hands, kings_first: bool, pace: float, slides: float) -> None:
    """Carries each piece home, one at a time, in random order: from where it stands, or from beside the board."""
    chance, board = hands.chance, hands.board
    homes = [square for square in range(64) if INITIAL[square] != EMPTY and board[square] != INITIAL[square]]
    chance.shuffle(homes)
    if kings_first:
        homes.sort(key=lambda square: INITIAL[square] not in KINGS)
    for home in homes:
        code = INITIAL[home]
        if board[home] == code:
            continue
        hands.wait(pace * lognormal(chance, 0.6, 0.6) + (chance.uniform(3, 20) if chance.random() < 0.03 else 0))
        if board[home] != EMPTY:  # what stands there goes beside the board
            hands.show(home, EMPTY)
            hands.wait(pace * chance.uniform(0.2, 0.6))
        strays = [square for square in range(64) if board[square] == code and INITIAL[square] != code]
        if strays:
            origin = chance.choice(strays)
            hands.show(origin, EMPTY)
            if chance.random() < slides:
                slide(hands, origin, home, code, pace)
        hands.wait(pace * chance.uniform(0.3, 1.2))
        hands.show(home, code)
    for square in range(64):
        if INITIAL[square] == EMPTY and board[square] != EMPTY:
            hands.wait(pace * chance.uniform(0.2, 0.6))
            hands.show(square, EMPTY)


def slide(hands: Hands, origin: int, home: int, code: int, pace: float) -> None:
    """A piece that is drawn over the board shows on the empty squares of its way."""
    rows, files = home // 8 - origin // 8, home % 8 - origin % 8
    steps = max(abs(rows), abs(files))
    if rows and files and abs(rows) != abs(files):
        return
    way = [origin + step * (8 * rows + files) // steps for step in range(1, steps)]
    if any(hands.board[square] != EMPTY for square in way):
        return
    for square in way:
        hands.wait(pace * hands.chance.uniform(0.05, 0.2))
        hands.show(square, code)
        hands.wait(0.02)
        hands.show(square, EMPTY)


def both_at_once(hands: Hands, pace: float) -> None:
    """Each player sets up the pieces of a side, at the same time."""
    start, now = list(hands.board), hands.now
    sides = []
    for low, high in ((1, 6), (7, 12)):
        other = Hands(hands.chance)
        other.now, other.board = now, [code if low <= code <= high else EMPTY for code in start]
        homes = [code if low <= code <= high else EMPTY for code in INITIAL]
        carry_side(other, homes, pace)
        sides.append(other)
    merged = sorted(change for side in sides for change in side.changes)
    for when, square, code in merged:
        hands.now = max(hands.now, when)
        low, high = (1, 6) if square >= 32 else (7, 12)
        if code == EMPTY and hands.board[square] != start[square] and start[square] != EMPTY:
            continue
        hands.show(square, code)
    for square in range(64):
        if hands.board[square] != INITIAL[square]:
            hands.wait(pace * 0.5)
            hands.show(square, INITIAL[square])


def carry_side(hands: Hands, homes: Sequence[int], pace: float) -> None:
    """One side's pieces go home in random order."""
    chance, board = hands.chance, hands.board
    squares = [square for square in range(64) if homes[square] != EMPTY and board[square] != homes[square]]
    chance.shuffle(squares)
    for home in squares:
        code = homes[home]
        hands.wait(pace * lognormal(chance, 0.6, 0.6))
        if board[home] != EMPTY:
            hands.show(home, EMPTY)
            hands.wait(pace * chance.uniform(0.2, 0.6))
        strays = [square for square in range(64) if board[square] == code and homes[square] != code]
        if strays:
            hands.show(chance.choice(strays), EMPTY)
        hands.wait(pace * chance.uniform(0.3, 1.2))
        hands.show(home, code)
    for square in range(64):
        if homes[square] == EMPTY and board[square] != EMPTY:
            hands.wait(pace * chance.uniform(0.2, 0.6))
            hands.show(square, EMPTY)


def think_with_a_piece(hands: Hands, plies: int) -> None:
    """The side to move lifts a piece, and thinks with it in hand; sets it back, or not."""
    chance, low = hands.chance, 1 + 6 * (plies % 2)
    hands.wait(chance.uniform(0.3, 3))
    square = chance.choice([square for square in range(64) if low <= hands.board[square] < low + 6])
    code = hands.board[square]
    hands.show(square, EMPTY)
    hands.wait(chance.uniform(1, 15))
    if chance.random() < 0.5:
        hands.show(square, code)


ORDERS: Dict[str, Callable[[Hands, float], None]] = {
    "kings first": lambda hands, pace: set_up(hands, True, pace, 0.0),
    "random order": lambda hands, pace: set_up(hands, False, pace, 0.0),
    "some pieces drawn": lambda hands, pace: set_up(hands, False, pace, 0.4),
    "both players at once": both_at_once,
}


def trial(seed: str, plies: int, order: str) -> Trial:
    """One game, and its set-up."""
    chance = random.Random(seed)
    ways = random_game(chance, plies)
    hands = Hands(chance)
    hands.wait(2)
    thinking = 1.0 if chance.random() < 0.25 else 6.0  # a quarter is bullet chess
    hands.play(ways, lambda: lognormal(chance, thinking, 0.9))
    played = 67 + 5 * len(hands.changes)
    if chance.random() < 0.15:
        think_with_a_piece(hands, plies)
    hands.wait(1 + lognormal(chance, 6, 0.7))  # it is given up
    ORDERS[order](hands, lognormal(chance, 1, 0.35))
    hands.wait(1)
    assert hands.board == INITIAL
    sent, times = updates(hands.changes)
    truth = moves_of(program(["record"], sent[:played]))
    assert len(truth) == plies, (seed, plies, truth)
    told = entry(0, "begin", 0)
    for begins, ends in [(0, 67), *((at, at + 5) for at in range(67, len(sent), 5))]:
        told += entry(int(times[begins] * 1000), "heard", ends - begins, sent[begins:ends])
    lines, overs = [], []
    for answer in Answers().take(program_bytes(["live"], told)):
        overs += [answer.over] if answer.over else []
        for line in filter(None, map(line_of, answer.report)):
            if isinstance(line.event, (Move, Result, Differs, Agrees)):
                lines.append(Line(line.offset, times[line.offset], line.event))
    return Trial(sent, played, truth, lines, overs[0])


def three_seconds(lines: Sequence[Line]) -> int:
    """A rule to compare with: where the board last agreed with the game for three seconds."""
    size = 0
    for line, following in zip(lines, lines[1:]):
        if not isinstance(line.event, Differs) and following.at - line.at >= 3:
            size = line.offset + 1
    return size


def everything(lines: Sequence[Line]) -> int:
    """Another: at the start that stands again."""
    return lines[-1].offset + 1


def verdict(case: Trial, size: int) -> str:
    """What the game's bytes give."""
    moves = moves_of(program(["record"], case.sent[:size]))
    if moves == case.truth:
        return "right"
    if moves[: len(case.truth)] == case.truth:
        return "longer"
    return "shorter" if case.truth[: len(moves)] == moves else "changed"


def one(arguments: Tuple[str, int, str]) -> Tuple[List[str], bool, str]:
    """The verdicts of the three rules, whether ours is sure, and what to show of it."""
    case = trial(*arguments)
    end = case.over
    verdicts = [verdict(case, size) for size in (everything(case.lines), three_seconds(case.lines), end.size)]
    tail = [f"{line.at:.1f} {line.event}" for line in case.lines if line.offset >= case.played - 12][:9]
    return verdicts, end.sure, f"{arguments} {end} {tail}"


def main() -> int:
    """Prints a line for each order and length of game."""
    parser = argparse.ArgumentParser(description=__doc__)
    parser.add_argument("--games", type=int, default=400, help="for each line of the table")
    parser.add_argument("--seed", type=int, default=1)
    parser.add_argument("--show", action="store_true", help="the games that aren't right")
    words = parser.parse_args()
    print("order, plies | not cut: gained, lost or changed | 3 s: wrong | the rule: wrong, of these silent | said to be unsure")
    wrong = silent = total = 0
    with ProcessPoolExecutor(4) as pool:
        for order in ORDERS:
            for plies in (6, 20, 60):
                cases = [(f"{words.seed} {order} {plies} {number}", plies, order) for number in range(words.games)]
                rows = list(pool.map(one, cases))
                bad = [row for row in rows if row[0][2] != "right"]
                quiet = [row for row in bad if row[1]]
                gained = sum(row[0][0] == "longer" for row in rows)
                changed = sum(row[0][0] in ("shorter", "changed") for row in rows)
                three = sum(row[0][1] != "right" for row in rows)
                unsure = sum(not row[1] for row in rows)
                print(f"{order}, {plies} | {gained}, {changed} | {three} | {len(bad)}, {len(quiet)} | {unsure}", flush=True)
                wrong, silent, total = wrong + len(bad), silent + len(quiet), total + len(rows)
                for row in bad if words.show else []:
                    print("  ", row)
    print(f"{total} games: {wrong} wrong, {silent} of them silently")
    return 0


if __name__ == "__main__":
    sys.exit(main())
