#!/usr/bin/env python3
"""Hurried hands and bad lines: the games that `record` has whole, alone and after `recover`, and what was recovered in error.

The games of bench/hurried_games.txt are played on a simulated board without a clock. Of so many moves in 100 the first piece is
lifted before the other side's move stands whole. So many of 100 updates are cut off, and the dump that is asked for is the
second or third frame after that. Pieces are slid, a capture lifts either piece first, a castling's rook comes last or not.
Nobody shows a result with the kings.

Prints the table of docs/FORMATS.md, in a few minutes.

hurried.py [--recover PROGRAM..] [--games N] [--times N] [--seed N] [--slides SHARE] [--at-once N] [--show]
"""

from __future__ import annotations

import argparse
import pathlib
import random
import re
import subprocess
import sys
from concurrent.futures import ProcessPoolExecutor
from dataclasses import dataclass, field
from typing import List, Sequence, Tuple

from hands import EMPTY, INITIAL, KINGS, PROGRAM, lognormal, moves_of, program

from attending.frames import UPDATE_ID  # noqa: E402  (hands has put its folder on the path)
from live.line.protocol import picture_of_placement  # noqa: E402
from recovering.frames import dump  # noqa: E402

GAMES = pathlib.Path(__file__).with_name("hurried_games.txt")
THINKS = (2.0, 0.8)  # seconds, the median, and how far they spread
TOUCH = (0.1, 0.5)  # seconds between two squares that a hand changes
SLIDE = (0.03, 0.08)  # seconds on each square that a piece is slid over
AFTER = 0.05  # seconds after which a hand goes where the other one just was
RECOVERED = re.compile(r"(\d+) recovered (\d+)(\.+) (\S+) \d+\.+ (\S+)")


@dataclass(frozen=True)
class Row:
    """How a game is played: of 100 moves and updates."""

    name: str
    early: int = 0
    cut: int = 0


ROWS = (
    Row("honest hands, nothing lost"),
    Row("honest hands, 2 of 100 updates cut off", 0, 2),
    Row("1 of 100 moves begun early", 1),
    Row("5 of 100", 5),
    Row("5 of 100, and 2 of 100 updates cut off", 5, 2),
    Row("20 of 100", 20),
)


@dataclass(frozen=True)
class Game:
    """Its moves, and the pictures of the start and after each move."""

    sans: Tuple[str, ...]
    pictures: Tuple[Tuple[int, ...], ...]


@dataclass(frozen=True)
class Touch:
    """A hand changes a square, so long after what it did before."""

    gap: float
    square: int
    code: int


@dataclass(frozen=True)
class Counts:
    """Of some games."""

    games: int = 0
    plies: int = 0
    whole: int = 0
    kept: int = 0
    false: int = 0  # games with a move that was not played
    whole_after: int = 0
    kept_after: int = 0
    false_after: int = 0
    pairs: int = 0
    pairs_not_played: int = 0
    changed: int = 0  # games of which `recover` wrote other bytes than it read
    notes: Tuple[str, ...] = field(default=(), compare=False)

    def __add__(self, other: Counts) -> Counts:
        return Counts(*(getattr(self, name) + getattr(other, name) for name in self.__dataclass_fields__))


def read_games(count: int) -> List[Game]:
    """The first games of the file, by what the program makes of them."""
    games: List[Game] = []
    for line in GAMES.read_text().splitlines():
        if line.startswith("#") or len(games) == count:
            continue
        sans = line.split()
        fens = program(["positions"], line.encode()).splitlines()
        games.append(Game(tuple(sans), tuple(picture_of_placement(fen) for fen in fens)))
    return games


def between(origin: int, target: int) -> List[int]:
    """The squares in a straight line between two; none where they lie in none."""
    down, right = target // 8 - origin // 8, target % 8 - origin % 8
    if 0 not in (down, right) and abs(down) != abs(right):
        return []
    far = max(abs(down), abs(right))
    return [origin + at * (8 * (down // far) + right // far) for at in range(1, far)]


def carried(chance: random.Random, origin: int, target: int, code: int, before: Sequence[int], slides: float) -> List[Touch]:
    """A piece goes from one square to another, and perhaps over those between."""
    lifted = [(origin, EMPTY)] + ([(target, EMPTY)] if before[target] != EMPTY else [])
    chance.shuffle(lifted)
    touches = [Touch(chance.uniform(*TOUCH), square, shown) for square, shown in lifted]
    if chance.random() < slides:
        for square in between(origin, target):
            touches.append(Touch(chance.uniform(*SLIDE), square, code))
            touches.append(Touch(chance.uniform(*SLIDE), square, EMPTY))
    return [*touches, Touch(chance.uniform(*TOUCH), target, code)]


def hand(chance: random.Random, before: Sequence[int], after: Sequence[int], slides: float) -> List[Touch]:
    """What a hand does to make a move."""
    changed = [square for square in range(64) if before[square] != after[square]]
    left = [square for square in changed if after[square] == EMPTY]
    reached = [square for square in changed if after[square] != EMPTY]
    if len(reached) == 2:
        return castled(chance, before, left, reached, after, slides)
    target = reached[0]
    side = [square for square in left if (before[square] > 6) == (after[target] > 6)]
    touches = carried(chance, side[0], target, after[target], before, slides)
    for square in left:
        if square != side[0]:  # the pawn that is taken en passant
            touches.insert(chance.randrange(len(touches) + 1), Touch(chance.uniform(*TOUCH), square, EMPTY))
    return touches


def castled(
    chance: random.Random,
    before: Sequence[int],
    left: Sequence[int],
    reached: Sequence[int],
    after: Sequence[int],
    slides: float,
) -> List[Touch]:
    """The king first in most castlings, then the rook; or the rook first; or both in hand at once."""
    way = chance.random()
    pieces = []
    for origin in sorted(left, key=lambda square: before[square] not in KINGS):
        target = next(square for square in reached if after[square] == before[origin])
        alone = before[origin] in KINGS and way >= 0.2  # what is slid later would go over the other piece
        pieces.append(carried(chance, origin, target, after[target], before, slides if alone else 0))
    if way < 0.1:
        return [piece[0] for piece in pieces] + [piece[-1] for piece in pieces]
    return pieces[1] + pieces[0] if way < 0.2 else pieces[0] + pieces[1]


def timed(chance: random.Random, game: Game, row: Row, slides: float) -> List[Tuple[float, int, int]]:
    """When which square changes, in order. A hand that begins early keeps off the squares that the other one has still to
    change, and nobody begins his next move before he has made his last one."""
    done: List[Tuple[float, int, int]] = []
    last: List[Tuple[float, int, int]] = [(0.0, 0, 0)]  # the move before
    ready = 0.0  # when the mover's own last move was made
    for before, after in zip(game.pictures, game.pictures[1:]):
        touches = hand(chance, before, after, slides)
        if chance.random() * 100 < row.early:
            now = max(chance.uniform(last[0][0], last[-1][0]), ready + AFTER) + 0.001
        else:
            now = last[-1][0] + lognormal(chance, *THINKS)
        made = []
        for number, touch in enumerate(touches):
            now += touch.gap if number else 0
            now = max([now] + [at + AFTER for at, square, _ in last if square == touch.square])
            made.append((now, touch.square, touch.code))
        done += made
        ready, last = last[-1][0], made
    return sorted(done, key=lambda change: change[0])


def play(chance: random.Random, game: Game, row: Row, slides: float) -> List[Tuple[int, int]]:
    """The squares as they change, in order."""
    return [(square, code) for _, square, code in timed(chance, game, row, slides)]


class Line:
    """What comes over a line that cuts updates off. After a cut one the next frame's first byte shows a fault, and a dump is
    asked for, which comes right behind that frame, or behind the next one."""

    def __init__(self, chance: random.Random, cut: int) -> None:
        self.chance, self.cut = chance, cut
        self.sent = bytearray()
        self.board = list(INITIAL)
        self.asked: List[int] = []  # how many frames each dump that was asked for is away
        self.unfinished = False
        self.put(dump(tuple(INITIAL), False))

    def put(self, frame: bytes) -> None:
        if self.unfinished:
            self.asked.append(self.chance.choice((0, 1)))
            self.unfinished = False
        self.sent += frame

    def change(self, square: int, code: int) -> None:
        """A square changes."""
        self.board[square] = code
        frame = bytes((UPDATE_ID, 0, 5, square, code))
        cut = self.chance.random() * 100 < self.cut
        self.asked = [frames - 1 for frames in self.asked]
        self.put(frame[: self.chance.randint(1, 4)] if cut else frame)
        self.unfinished = cut
        self.answer(0)

    def answer(self, away: int) -> None:
        """The dumps come that are so many frames away."""
        while any(frames <= away for frames in self.asked):
            self.asked.remove(min(self.asked))
            self.put(dump(tuple(self.board), False))


def shown(chance: random.Random, game: Game, row: Row, slides: float) -> bytes:
    """What the board sends of a game."""
    line = Line(chance, row.cut)
    for square, code in play(chance, game, row, slides):
        line.change(square, code)
    line.answer(9)
    return bytes(line.sent)


def front(sans: Sequence[str], played: Sequence[str]) -> int:
    """How many moves of the game were recorded, up to the first that is missing or another one."""
    same = [one == other for one, other in zip(sans, played)]
    return same.index(False) if False in same else len(same)


def is_false(sans: Sequence[str], played: Sequence[str]) -> bool:
    """Whether a move was recorded that was not played, a last one on its way apart."""
    return front(sans, played) < len(sans) - 1 or len(sans) > len(played)


def is_played(pair: "re.Match[str]", played: Sequence[str]) -> bool:
    ply = 2 * (int(pair[2]) - 1) + (pair[3] != ".")
    return tuple(played[ply : ply + 2]) == (pair[4], pair[5])


def count(sent: bytes, game: Game, recover: Sequence[str]) -> Counts:
    """What is made of a game."""
    sans = moves_of(program(["record"], sent))
    kept = front(sans, game.sans)
    counts = Counts(1, len(game.sans), sans == list(game.sans), kept, is_false(sans, game.sans))
    if not recover:
        return counts
    made = subprocess.run([*recover, "recover"], input=sent, stdout=subprocess.PIPE, stderr=subprocess.PIPE, check=True)
    after = moves_of(program(["record"], made.stdout))
    pairs = [RECOVERED.fullmatch(line) for line in made.stderr.decode().splitlines()]
    assert all(pairs), made.stderr
    wrong = [pair for pair in pairs if pair and not is_played(pair, game.sans)]
    return counts + Counts(
        whole_after=after == list(game.sans),
        kept_after=front(after, game.sans),
        false_after=is_false(after, game.sans),
        pairs=len(pairs),
        pairs_not_played=len(wrong),
        changed=made.stdout != sent,
        notes=tuple(pair[0] for pair in wrong),
    )


def trial(arguments: Tuple[int, Game, Row, float, Tuple[str, ...]]) -> Counts:
    seed, game, row, slides, recover = arguments
    return count(shown(random.Random(f"{seed} {row}"), game, row, slides), game, recover)


def has_recover(words: Sequence[str]) -> bool:
    return subprocess.run([*words, "recover", "--help"], stdout=subprocess.DEVNULL, stderr=subprocess.DEVNULL).returncode == 0


def line_of(row: Row, counts: Counts, recovers: bool) -> str:
    def of(whole: int, kept: int) -> str:
        return f"{whole}, {100 * kept / counts.plies:.0f} %"

    cells = [row.name, of(counts.whole, counts.kept)]
    if recovers:
        cells += [of(counts.whole_after, counts.kept_after), f"{counts.pairs}, {counts.pairs_not_played}"]
        cells += [str(counts.false_after), str(counts.changed)]
    return f"| {' | '.join(cells)} |"


HEADS = (
    "`record` alone: whole games, plies kept",
    "after `recover`",
    "pairs put in, of these not played",
    "games with a move that was not played",
    "games of which bytes changed",
)


def main() -> int:
    parser = argparse.ArgumentParser(description=__doc__)
    parser.add_argument("--recover", nargs="+", default=[PROGRAM], metavar="PROGRAM", help="that which has `recover`")
    parser.add_argument("--games", type=int, default=60)
    parser.add_argument("--times", type=int, default=1, help="that each game is played in each row")
    parser.add_argument("--seed", type=int, default=1)
    parser.add_argument("--slides", type=float, default=0.25, help="the share of moves along a line that are slid")
    parser.add_argument("--at-once", type=int, default=2)
    parser.add_argument("--show", action="store_true", help="names each pair that was not played")
    words = parser.parse_args()
    recover: Tuple[str, ...] = tuple(words.recover) if has_recover(words.recover) else ()
    games = read_games(words.games)
    heads = HEADS if recover else HEADS[:1]
    if not recover:
        print(f"{' '.join(words.recover)} has no `recover`: what `record` makes alone")
    plies = words.times * sum(len(game.sans) for game in games)
    print(f"| {' | '.join((f'Of {words.times * len(games)} games, {plies:,} plies', *heads))} |")
    print("|---" * (1 + len(heads)) + "|")
    with ProcessPoolExecutor(words.at_once) as pool:
        for row in ROWS:
            trials = [
                (words.seed * 1_000_000 + time * 1_000 + number, game, row, words.slides, recover)
                for time in range(words.times)
                for number, game in enumerate(games)
            ]
            counts = sum(pool.map(trial, trials, chunksize=4), Counts())
            print(line_of(row, counts, bool(recover)), flush=True)
            for note in counts.notes if words.show else ():
                print(f"    {note}")
    return 0


if __name__ == "__main__":
    sys.exit(main())
