"""A table: two players, their board, and the game that they play on it at their pace, whatever becomes of the recording."""

from __future__ import annotations

import functools
import math
import random
from collections import deque
from dataclasses import dataclass
from typing import Deque, List, Tuple

from emulated import TOP
from emulated.board import Board
from emulated.hands import Habits, Hands, Made, Touch
from played.stage import run

GAMES = TOP / "bench" / "hurried_games.txt"
LETTERS = ".PRNBKQprnbkq"  # by piece code
PRESSES = (0.1, 0.8)  # seconds after a move


@dataclass(frozen=True)
class Game:
    """Its moves, and the pictures of the start and after each move."""

    sans: Tuple[str, ...]
    pictures: Tuple[Tuple[int, ...], ...]  # piece codes by square


@functools.lru_cache(maxsize=None)
def games() -> Tuple[Game, ...]:
    """Games of an engine, in pictures by `positions` of the program."""
    found: List[Game] = []
    for line in GAMES.read_text().splitlines():
        if not line.startswith("#"):
            fens = run("positions", given=line.encode()).stdout.decode().splitlines()
            found.append(Game(tuple(line.split()), tuple(map(picture, fens))))
    return tuple(found)


def picture(fen: str) -> Tuple[int, ...]:
    """The piece codes of a FEN, from a8 to h1."""
    squares = fen.split(" ")[0].replace("/", "")
    for digit in "12345678":
        squares = squares.replace(digit, "." * int(digit))
    return tuple(map(LETTERS.index, squares))


class Table:
    """The moves are made at times that are fixed beforehand: up to `plies` of them, of which the last is done by `ends`."""

    def __init__(
        self,
        board: Board,
        game: Game,
        habits: Habits,
        seed: object,
        begins: float,
        ends: float = math.inf,
        plies: int = 1000,
    ) -> None:
        hands = Hands(habits, seed, begins)
        made: List[Made] = []
        for before, after in zip(game.pictures[:plies], game.pictures[1:]):
            move = hands.make(before, after)
            if move.done > ends:
                break
            made.append(move)
        chance = random.Random(f"clock {seed}")
        self.board, self.game = board, game
        self.sans = game.sans[: len(made)]
        self.done = tuple(move.done for move in made)  # when each ply stands
        self._touches: Deque[Touch] = deque(sorted((touch for move in made for touch in move.touches), key=lambda one: one.at))
        presses = sorted(move.done + chance.uniform(*PRESSES) for move in made)
        self._presses: Deque[float] = deque(presses if board.clock else [])
        self._begins = begins

    @property
    def over(self) -> bool:
        """Whether all moves have been made."""
        return not self._touches

    def due(self) -> float:
        """When a hand next touches the board or the clock."""
        return min((self._touches[0].at if self._touches else math.inf), (self._presses[0] if self._presses else math.inf))

    def turn(self, now: float) -> None:
        """Makes what is due."""
        while self._touches and self._touches[0].at <= now:
            touch = self._touches.popleft()
            self._press(touch.at)
            self.board.show(touch.at, touch.square, touch.code)
        self._press(now)

    def _press(self, now: float) -> None:
        """The clock, as it stands before what comes now."""
        clock = self.board.clock
        if clock is None:
            return
        if now >= self._begins and self._presses and not clock.runs:
            clock.start(self._begins)
        while self._presses and self._presses[0] <= now:
            pressed_at = self._presses.popleft()
            self.board.advance(pressed_at)
            clock.press(pressed_at)
            if not self._presses:
                clock.stop(pressed_at)
