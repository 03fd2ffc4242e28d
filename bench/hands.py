"""Played games for the simulations: random games, the hands that play them and set the pieces up again, with human timing.

What a board shows is a list of changes: (seconds, square, code). Squares are numbered from a8, 0, to h1, 63.
"""

from __future__ import annotations

import math
import pathlib
import random
import subprocess
import sys
from typing import Callable, List, Sequence, Tuple

BENCH = pathlib.Path(__file__).resolve().parent
sys.dont_write_bytecode = True
sys.path[:0] = [str(BENCH), str(BENCH.parent), str(BENCH.parent / "tests")]
import streams  # noqa: E402
from recovering.frames import dump  # noqa: E402

Game = streams.Game
INITIAL: List[int] = list(streams.INITIAL)
EMPTY = 0
KINGS = (5, 11)
Change = Tuple[float, int, int]
Way = streams.Way


def program_path() -> str:
    """The program that bin/dgt_replay runs."""
    finder = BENCH.parent / "bin" / "program"
    if finder.exists():
        return subprocess.run([finder], stdout=subprocess.PIPE, check=True, text=True).stdout.strip()
    return str(BENCH.parent / "build" / "dgt_replay")


PROGRAM = program_path()


def program(words: Sequence[str], sent: bytes) -> str:
    """What the program prints of these bytes."""
    return program_bytes(words, sent).decode()


def program_bytes(words: Sequence[str], sent: bytes) -> bytes:
    """The same, which is no text."""
    return subprocess.run([PROGRAM, *words], input=sent, stdout=subprocess.PIPE, stderr=subprocess.DEVNULL, check=True).stdout


def movetext(text: str) -> List[str]:
    """The tokens of a PGN text's movetext."""
    return text.split("\n\n")[1].split()


def moves_of(text: str) -> List[str]:
    """The moves of a PGN text, without numbers, comments and the marker at the end."""
    return [word for word in movetext(text)[:-1] if word[0].isalpha()]


def random_game(chance: random.Random, plies: int) -> List[Way]:
    """Moves of a game of so many plies in which no position ends it: each a list of the squares that change.

    At random, but captures are preferred, sides castle mostly where they may, and kings are moved seldom, as players do.
    """
    while True:
        game = Game()
        ways: List[Way] = []
        while len(ways) < plies:
            legal = [way for way in game.ways() if game.is_legal(way)]
            if not legal:
                break
            way = chance.choices(legal, [weight(game.board, way) for way in legal])[0]
            ways.append(way)
            game = game.after(way)
        if len(ways) == plies and game.goes_on():
            return ways


def weight(board: Sequence[int], way: Way) -> float:
    """How gladly a move is played."""
    origin, (target, _) = way[0][0], way[1]
    if board[origin] in KINGS:
        return 20 if len(way) == 4 else 0.2
    return 3 if board[target] != EMPTY else 1


def lognormal(chance: random.Random, median: float, spread: float) -> float:
    """A human time: most near the median, a few much longer."""
    return math.exp(chance.gauss(math.log(median), spread))


def hand(chance: random.Random, board: Sequence[int], way: Way) -> List[Tuple[int, int]]:
    """The squares in the order in which a hand changes them: what is taken and what moves go up, in any order, then down."""
    taken = [(square, EMPTY) for square, code in way if code != EMPTY and board[square] != EMPTY]
    up = [change for change in way if change[1] == EMPTY]
    down = [change for change in way if change[1] != EMPTY]
    if len(way) == 4 and chance.random() < 0.5:
        return list(way)  # castling, one piece after the other
    lifted = up + taken
    chance.shuffle(lifted)
    return lifted + down


class Hands:
    """Changes of a board over time."""

    def __init__(self, chance: random.Random) -> None:
        self.chance = chance
        self.now = 0.0
        self.board = list(INITIAL)
        self.changes: List[Change] = []

    def wait(self, seconds: float) -> None:
        """Nothing happens for so long."""
        self.now += seconds

    def show(self, square: int, code: int) -> None:
        """A square changes now."""
        if self.board[square] != code:
            self.board[square] = code
            self.changes.append((self.now, square, code))

    def play(self, ways: Sequence[Way], think: Callable[[], float]) -> None:
        """Plays the moves; after a time to think a hand lifts the first piece."""
        for way in ways:
            self.wait(think())
            for at, (square, code) in enumerate(hand(self.chance, self.board, way)):
                self.wait(self.chance.uniform(0.08, 0.6) if at else 0)
                self.show(square, code)


def updates(changes: Sequence[Change], start: Sequence[int] = INITIAL, rotated: bool = False) -> Tuple[bytes, List[float]]:
    """What a board sends: its dump, then an update for each change; and when each byte comes."""
    sent = bytearray(dump(tuple(start), rotated))
    times = [0.0] * len(sent)
    for when, square, code in changes:
        sent += bytes((0x8E, 0x00, 0x05, 63 - square if rotated else square, code))
        times += [when] * 5
    return bytes(sent), times
