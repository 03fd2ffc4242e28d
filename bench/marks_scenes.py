"""Scenes at a board: what hands do and when, what befalls the line, and which game was played. Pure: nothing is sent here.

A scene's hands are those of tests/emulated/, or the careless ones of bench/doubts.py. Times are seconds. Squares are numbered from
a8, 0, to h1, 63.
"""

from __future__ import annotations

import enum
import random
from dataclasses import dataclass
from typing import List, Optional, Sequence, Tuple

import doubts
import hurried
import pressed
import streams
from hands import EMPTY, INITIAL

from emulated.hands import PACES, Habits, Hands, Touch  # noqa: E402  (hands has put its folder on the path)
from live.line.protocol import Picture  # noqa: E402

BEGINS = 4.0  # when the clock is started
SPREAD = 0.6
QUICK = 2.0  # seconds a ply below which hands are those of bullet games
STAYS = 25.0  # seconds that the board is heard behind the last deed: time enough for WRONG
TRIES = 60  # positions that are looked at for a line of moves
FEWEST, MOST = 12, 24  # plies of a game before something happens in it


class What(enum.Enum):
    """What happens."""

    TOUCH = "a square shows something else"
    START = "the clock is started"
    PRESS = "the clock is pressed"
    STOP = "the clock is stopped"
    OFF = "the board falls silent"
    ON = "it is heard again"
    PULL = "the cable is pulled"
    PLUG = "it is put in again"
    HOLD = "what it sends is held up"
    TYPE = "an arbiter types"


@dataclass(frozen=True)
class Deed:
    """Something happens at a time."""

    at: float
    what: What
    square: int = 0
    code: int = 0
    until: float = 0.0  # of HOLD
    line: str = ""  # that is typed


@dataclass(frozen=True)
class Plan:
    """A whole evening at one board, and what was really played."""

    has_clock: bool
    deeds: Tuple[Deed, ...]
    pictures: Tuple[Picture, ...]  # the start, and after each ply of the game
    result: str
    done: Tuple[float, ...]  # when each ply was made, also of those that were taken back
    ends: float


@dataclass(frozen=True)
class Manner:
    """How players play."""

    is_careless: bool = False  # straightens both sides' pieces, tries wrong squares, sets pieces beside their squares
    early: float = 0.0  # of 100 moves, begun before the other side's stands
    forgotten: float = 0.0  # of 100 presses
    presses: Tuple[float, float] = (0.1, 0.8)  # seconds after a ply


@dataclass(frozen=True)
class Setting:
    """What a scene begins with."""

    seed: str
    pace: float  # seconds a ply, the median
    has_clock: bool
    game: hurried.Game

    def habits(self, early: float) -> Habits:
        touch = PACES["bullet"].touch if self.pace < QUICK else Habits().touch
        return Habits(pace=self.pace, spread=SPREAD, touch=touch, early=early)


class Scene:
    """Two players at a board."""

    def __init__(self, setting: Setting, manner: Manner = Manner()) -> None:
        self.chance = random.Random(setting.seed)
        self._presses = random.Random(f"presses {setting.seed}")  # so that hands are alike without a clock
        self.setting, self.manner = setting, manner
        self.board: Picture = tuple(INITIAL)
        self.side = self._runs = 0
        self.pictures = [self.board]
        self.deeds = [Deed(BEGINS, What.START)]
        self.done: List[float] = []
        self.now = self._pressed_at = BEGINS
        self.result = "*"
        self._habits = setting.habits(manner.early)
        self._hands = Hands(self._habits, setting.seed, BEGINS)
        self._players = doubts.Players(self.chance, setting.pace)
        self._players.spread = SPREAD
        self._players.wait(BEGINS)

    # What the players do.

    def play(self, after: Picture, presses: bool = True) -> None:
        """A ply of the game."""
        if self.manner.is_careless:
            self._players.play([self.board, after])
            changes, self._players.changes = self._players.changes, []
            self._touch([Touch(*change) for change in changes], self._players.made_at[-1])
        else:
            made = self._hands.make(self.board, after)
            self._touch(made.touches, made.done)
        self.board = after
        self.pictures.append(after)
        self.done.append(self.now)
        if presses:
            self._press()
        self.side = 1 - self.side

    def show(self, after: Picture, pace: Tuple[float, float] = pressed.GOES_BACK) -> None:
        """One hand brings the board there, which is no ply of the game, and nobody presses."""
        seconds, spread = pace
        self._hands.habits = Habits(seconds, spread, PACES["bullet"].touch, 0, 0, 0, 0)
        made = self._hands.make(self.board, after)
        self._hands.habits = self._habits
        self._touch(made.touches, made.done)
        self.board = after
        self.done.append(self.now)

    def push(self, pace: Tuple[float, float]) -> None:
        """A piece is moved as in a ply at random, which is none of the game."""
        self.show(self.chance.choice(moves(self.board, self.side)), pace)
        self.side = 1 - self.side

    def hurry(self, after: Picture, seconds: float) -> None:
        """A ply of the game that takes so long."""
        self._hands.habits = Habits(seconds, 0.05, PACES["bullet"].touch, 0, 0, 0, 0)
        self.play(after)
        self._hands.habits = self._habits

    def kings(self, squares: Tuple[int, int]) -> None:
        """Both kings are lifted and set down there."""
        codes = [(at, code) for at, code in enumerate(self.board) if code in (5, 11)]
        targets = dict(zip((5, 11), squares))
        for square, shown in [*((at, EMPTY) for at, _ in codes), *((targets[code], code) for _, code in codes)]:
            self.rest(self.chance.uniform(0.3, 1.0))
            self.deed(What.TOUCH, square=square, code=shown)
        changes = [*((at, EMPTY) for at, _ in codes), *((targets[code], code) for _, code in codes)]
        self.board = pressed.with_changes(self.board, changes)

    def puts(self, board: Picture) -> None:
        """The squares that differ are put right one by one."""
        for square in range(64):
            if self.board[square] != board[square]:
                self.rest(self.chance.uniform(0.2, 0.8))
                self.deed(What.TOUCH, square=square, code=board[square])
        self.board = board

    def rest(self, seconds: float) -> None:
        """Nobody touches the board for so long."""
        self.now += seconds
        self._hands = Hands(self._habits, f"{self.setting.seed} {self.now}", self.now)
        self._players.wait(self.now)

    def deed(self, what: What, square: int = 0, code: int = 0, line: str = "") -> None:
        """Something happens now."""
        self.deeds.append(Deed(self.now, what, square, code, line=line))

    def take_off(self, plies: int) -> None:
        """The last plies aren't of the game any more."""
        del self.pictures[len(self.pictures) - plies :]
        self.side = (self.side + plies) % 2

    def _touch(self, touches: Sequence[Touch], done: float) -> None:
        self.deeds += [Deed(touch.at, What.TOUCH, touch.square, touch.code) for touch in touches]
        self.now = done

    def _press(self) -> None:
        """The mover presses, unless he forgets it, or his time doesn't run."""
        if self._runs != self.side or self._presses.random() * 100 < self.manner.forgotten:
            return
        self._pressed_at = max(self.now + self._presses.uniform(*self.manner.presses), self._pressed_at + 0.05)
        self._runs = 1 - self.side
        self.deeds.append(Deed(self._pressed_at, What.PRESS))

    # The whole of it.

    def plan(self) -> Plan:
        deeds = [deed for deed in self.deeds if self.setting.has_clock or deed.what not in (What.START, What.PRESS, What.STOP)]
        deeds.sort(key=lambda deed: deed.at)
        ends = max(deeds[-1].at, self.now) + STAYS
        result = self.result if self.result != "*" else ended(self.pictures[-1], self.side)
        pictures, done = tuple(self.pictures), tuple(self.done)
        return Plan(self.setting.has_clock, tuple(deeds), pictures, result, done, ends)

    # Moves for it.

    def goes_on(self, plies: int, but: Optional[Picture] = None) -> None:
        """So many plies at random are played, of which none ends the game; the first isn't that one."""
        for _ in range(plies):
            legal = [after for after in moves(self.board, self.side) if after != but]
            self.chance.shuffle(legal)
            after = next((one for one in legal if any(moves(one, 1 - self.side))), None)
            if after is None:
                return
            self.play(after)
            but = None


def moves(board: Picture, side: int) -> List[Picture]:
    """The boards after each legal move, without castling and en passant."""
    return list(pressed.moves(pressed.position(board, side)))


def ended(board: Picture, side: int) -> str:
    """The result if mate or stalemate has ended the game."""
    if moves(board, side):
        return "*"
    king = board.index(streams.code_of(side, streams.KING))
    return ("0-1", "1-0")[side] if streams.is_attacked(board, king, 1 - side) else "1/2-1/2"


def quiet(board: Picture, side: int) -> List[Picture]:
    """Of these the ones in which a piece, no pawn, goes to an empty square."""
    return [after for after in moves(board, side) if pressed.is_quiet(board, after)]


def undone(board: Picture, before: Picture, after: Picture) -> Optional[Picture]:
    """The board when the piece of a quiet ply has gone back; None if it can't."""
    origin, target = pressed.way(before, after)
    if board[target] != after[target] or board[origin] != EMPTY:
        return None
    return pressed.with_changes(board, [(origin, board[target]), (target, EMPTY)])


@dataclass(frozen=True)
class There:
    """Quiet plies, as the boards after each, and the boards while they are undone, the first ply first: each a legal ply too."""

    out: Tuple[Picture, ...]
    back: Tuple[Picture, ...]


def there_and_back(scene: Scene, plies: int) -> Optional[There]:
    """So many plies from here; None if none are found."""
    for _ in range(TRIES):
        boards = [scene.board]
        while len(boards) <= plies and (ways := quiet(boards[-1], (scene.side + len(boards) - 1) % 2)):
            boards.append(scene.chance.choice(ways))
        back: List[Picture] = []
        for at in range(len(boards) - 1):
            here = back[-1] if back else boards[-1]
            after = undone(here, boards[at], boards[at + 1])
            if after is None or after not in moves(here, (scene.side + at) % 2):
                break
            back.append(after)
        if len(back) == plies:
            return There(tuple(boards[1:]), tuple(back))
    return None


@dataclass(frozen=True)
class Replaced:
    """Two quiet plies; two others by the same pieces; and the boards while one pair becomes the other, each a legal ply too."""

    first: Tuple[Picture, Picture]
    then: Tuple[Picture, Picture]
    between: Tuple[Picture, Picture]


def replaced(scene: Scene) -> Optional[Replaced]:
    """Two plies from here, and two others; None if none are found."""
    side = scene.side
    for _ in range(TRIES):
        boards = [scene.board]
        while len(boards) < 3 and (ways := quiet(boards[-1], (side + len(boards) - 1) % 2)):
            boards.append(scene.chance.choice(ways))
        if len(boards) < 3:
            continue
        found = pressed.replaced(scene.chance, [*([scene.board] if side else []), *boards], 2 + side)
        if found is None or found[0] not in moves(boards[2], side) or found[1] not in moves(found[0], 1 - side):
            continue
        one = undone(found[0], boards[1], boards[2])
        if one is not None:
            return Replaced((boards[1], boards[2]), (one, found[1]), (found[0], found[1]))
    return None


def begun(setting: Setting, manner: Manner = Manner()) -> Scene:
    """A game of which the first plies were played."""
    scene = Scene(setting, manner)
    for after in setting.game.pictures[1 : scene.chance.randint(FEWEST, MOST) + 1]:
        scene.play(after)
    return scene
