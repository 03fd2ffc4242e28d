#!/usr/bin/env python3
"""What a line that loses updates costs, by simulation: whole games in a hundred, by the rules of asking and at a fault alone.

A simulated board sends 960 bytes a second. One update in ten is cut off, or lost whole; a clock runs, or none is there; the
other side lifts a piece so many seconds after a move stands. Each figure is of so many games of 40 plies at random. A game is
whole where `record` of what came gives the moves that were played.

A second table is of boards that answer 0.3 to 1.8 s late, with what they showed when they were asked, while updates go on;
and of plies that begin 1.2, 2 and 3 s after one another. There the board is asked each second, or in quiet, as the rules say.

asking.py [--games N] [--seed N]
"""

from __future__ import annotations

import argparse
import heapq
import random
import sys
from concurrent.futures import ProcessPoolExecutor
from dataclasses import dataclass, field
from typing import Callable, Dict, List, Protocol, Tuple, Union

from hands import INITIAL, Change, Hands, Way, hand, moves_of, program, random_game, updates

from attending.asking_rules import DUMP_REQUEST, QUIET, START_REQUEST, Asking  # noqa: E402  (hands has put its folder on the path)
from attending.frames import FrameKind, Frames  # noqa: E402
from recovering.frames import dump  # noqa: E402

RATE = 960  # bytes a second
PLIES = 40
REPLIES = (0.3, 1.0, 2.0, 3.0, 5.0)
LOST = 0.1  # of the updates
REQUEST_TAKES = 0.003
TIME = bytes((0x8D, 0x00, 0x0A, 1, 0x30, 0, 1, 0x29, 0x59, 0))
NEVER = float("inf")
PERIODS = (1.2, 2.0, 3.0)
LATE = (0.3, 1.8)
PROMPT = (0.0, 0.0)


@dataclass(frozen=True)
class Troubles:
    """What a line and its board do to a game."""

    name: str
    lost: float = 0.0  # of the updates
    cut: bool = False  # and not lost whole
    late: Tuple[float, float] = PROMPT  # seconds that an answer takes


OVERTAKEN = (
    Troubles("answers 0.3 to 1.8 s late", late=LATE),
    Troubles("late, and 1 of 10 updates cut off", LOST, True, LATE),
    Troubles("1 of 10 updates cut off", LOST, True),
    Troubles("1 of 10 updates lost whole", LOST),
)


class Rule(Protocol):
    """When a board is asked, as `Asking` says it."""

    def connected(self, now: float) -> None:
        """The line is open."""

    def came(self, now: float, sent: bytes) -> object:
        """The board has sent this."""

    def due(self) -> float:
        """When `request` is to be called, where nothing comes before."""

    def request(self, now: float) -> bytes:
        """What the board is to be sent now, if anything."""


@dataclass
class FaultAlone:
    """The rule to compare with: `42 4B` at the connection, and then `42` at each fault."""

    frames: Frames = field(default_factory=Frames)
    to_ask: bytes = b""

    def connected(self, now: float) -> None:
        """The line is open."""
        self.to_ask = START_REQUEST

    def came(self, now: float, sent: bytes) -> None:
        """The board has sent this."""
        for byte in sent:
            if self.frames.take(byte) is FrameKind.FAULT:
                self.to_ask = DUMP_REQUEST

    def due(self) -> float:
        """At once, or never."""
        return -NEVER if self.to_ask else NEVER

    def request(self, now: float) -> bytes:
        """What the board is sent."""
        sent, self.to_ask = self.to_ask, b""
        return sent


RULES: Dict[str, Callable[[], Rule]] = {"fault alone": FaultAlone, "live": Asking}


@dataclass
class Line:
    """The board's line: what is sent waits for what was sent before it."""

    free_at: float = 0.0
    longest_wait: float = 0.0
    sent: bytearray = field(default_factory=bytearray)
    dumps: int = 0


def simulated(rule: Rule, hands: Hands, chance: random.Random, troubles: Troubles, clock: bool) -> Line:
    """What came of the board's changes, where the rule asks."""
    line = Line()
    board = list(INITIAL)
    ends = hands.now
    happenings: List[Tuple[float, int, str, Union[bytes, Change]]] = []  # in the order of their times

    def happens(when: float, what: str, value: Union[bytes, Change]) -> None:
        heapq.heappush(happenings, (when, len(happenings) + 1_000_000 * (what == "came"), what, value))

    def sends(now: float, frame: bytes) -> None:
        line.longest_wait = max(line.longest_wait, line.free_at - now)
        line.free_at = max(now, line.free_at) + len(frame) / RATE
        happens(line.free_at, "came", frame)

    for change in hands.changes:
        happens(change[0], "change", change)
    for second in range(int(ends) if clock else 0):
        happens(second + 0.5, "time", TIME)
    rule.connected(0.0)
    now = 0.0
    while happenings or rule.due() <= ends:
        if rule.due() <= (happenings[0][0] if happenings else NEVER):
            now = max(now, rule.due())
            if now > ends:
                break
            if DUMP_REQUEST in rule.request(now):
                happens(now + REQUEST_TAKES, "asked", b"")
            continue
        now, _, what, value = heapq.heappop(happenings)
        if isinstance(value, tuple):
            _, square, code = value
            board[square] = code
            frame = bytes((0x8E, 0x00, 0x05, square, code))
            if chance.random() < troubles.lost:
                frame = frame[: chance.randrange(1, 5)] if troubles.cut else b""
            if frame:
                sends(now, frame)
        elif what == "came":
            line.sent += value
            rule.came(now, value)
        elif what == "asked":
            line.dumps += 1
            happens(now + chance.uniform(*troubles.late), "answers", dump(tuple(board), False))
        else:
            sends(now, value)
    return line


def one(arguments: Tuple[str, str, float, bool, bool]) -> Tuple[bool, float, float]:
    """Whether a game is whole; dumps an hour in kB; the longest that a frame waited for the line."""
    seed, rule, reply, cut, clock = arguments
    chance = random.Random(seed)
    ways: List[Way] = random_game(chance, PLIES)
    hands = Hands(chance)
    hands.wait(2)
    hands.play(ways, lambda: reply)
    hands.wait(5)
    truth = moves_of(program(["record"], updates(hands.changes)[0]))
    assert len(truth) == PLIES
    line = simulated(RULES[rule](), hands, chance, Troubles("", LOST, cut), clock)
    whole = moves_of(program(["record"], bytes(line.sent))) == truth
    return whole, line.dumps * 67 * 3.6 / hands.now, line.longest_wait


def hurried(arguments: Tuple[str, float, float, Troubles]) -> Tuple[bool, int]:
    """Whether a game whose plies begin so many seconds after one another is whole, and how many plies of it are kept."""
    seed, quiet, period, troubles = arguments
    chance = random.Random(seed)
    ways: List[Way] = random_game(chance, PLIES)
    hands = Hands(chance)
    hands.wait(2)
    for way in ways:
        begins = hands.now
        for at, (square, code) in enumerate(hand(chance, hands.board, way)):
            hands.wait(chance.uniform(0.08, min(0.6, period / 4)) if at else 0)
            hands.show(square, code)
        hands.now = max(hands.now + 0.15, begins + period)
    hands.wait(5)
    truth = moves_of(program(["record"], updates(hands.changes)[0]))
    line = simulated(Asking(quiet), hands, chance, troubles, False)
    moves = moves_of(program(["record"], bytes(line.sent)))
    same = [one == other for one, other in zip(moves, truth)]
    return moves == truth, same.index(False) if False in same else len(same)


def main() -> int:
    """Prints the tables."""
    parser = argparse.ArgumentParser(description=__doc__)
    parser.add_argument("--games", type=int, default=20, help="for each figure")
    parser.add_argument("--seed", type=int, default=1)
    words = parser.parse_args()
    print(f"whole games in 100 of {words.games}, the reply after {'/'.join(f'{reply:g}' for reply in REPLIES)} s")
    with ProcessPoolExecutor(4) as pool:
        for rule in RULES:
            for cut in (True, False):
                for clock in (False, True):
                    cases = [
                        (f"{words.seed} {reply} {game}", rule, reply, cut, clock)
                        for reply in REPLIES
                        for game in range(words.games)
                    ]
                    rows = list(pool.map(one, cases))
                    figures = [
                        round(100 * sum(row[0] for row in rows[at : at + words.games]) / words.games)
                        for at in range(0, len(rows), words.games)
                    ]
                    name = f"{'cut off' if cut else 'lost whole'}, {'clock' if clock else 'no clock'}"
                    cost = sum(row[1] for row in rows) / len(rows)
                    waits = 1000 * max(row[2] for row in rows)
                    print(
                        f"{rule}: {name}: {'/'.join(map(str, figures))}; dumps {cost:.0f} kB an hour; "
                        f"longest wait for the line {waits:.0f} ms",
                        flush=True,
                    )
        print(f"whole games of {words.games}, and the plies kept in 100; plies of {'/'.join(f'{at:g}' for at in PERIODS)} s")
        for troubles in OVERTAKEN:
            for name, quiet in (("each second", 0.0), ("in quiet", QUIET)):
                cells = []
                for period in PERIODS:
                    games = [(f"{words.seed} {period} {game}", quiet, period, troubles) for game in range(words.games)]
                    came = list(pool.map(hurried, games))
                    kept = 100 * sum(kept for _, kept in came) / PLIES / words.games
                    cells.append(f"{sum(whole for whole, _ in came)}, {kept:.0f} %")
                print(f"{troubles.name}: asked {name}: {'; '.join(cells)}", flush=True)
    return 0


if __name__ == "__main__":
    sys.exit(main())
