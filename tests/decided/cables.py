"""Whose is what comes over a cable while a game's own board is on another one. The children that attend the boards are the table's."""

from types import SimpleNamespace
from typing import Any, Iterable, List, Tuple

from live.board import cable as cable_module
from live.board.board import Board
from live.board.cable import Cable, Foreign, FromCable
from live.board.connection import Happened
from live.board.plan import Among, Plan, Rules
from live.child.lines import Answer
from live.game.attending import Told
from live.game.times import HEARD

from decided.table import same

OWN, OTHER = "game", "other child"
Step = Tuple[str, bytes, Answer]  # who answers, to which bytes, and what
HOLD, KEEP, OF_2 = Answer(handling="hold"), Answer(handling="keep"), Answer(handling="other", other="00002")


class Game:
    """The game of the cable: what it hears, and what is lent to others."""

    def __init__(self) -> None:
        self.got: List[Tuple[str, bytes]] = []

    def takes(self, said: Iterable[FromCable]) -> None:
        """Takes what comes of the cable."""
        for one in said:
            if isinstance(one, Happened) and one.what == HEARD:
                self.got.append(("own", one.sent))
            elif isinstance(one, Foreign):
                self.got += [(one.number, sent) for sent in one.sent]
                one.sent.clear()


class AnotherChild:
    """The child that attends another board."""

    def __init__(self, *_: object) -> None:
        pass

    def tell(self, *_: object) -> None:
        pass

    def close(self) -> None:
        pass


# What is answered after the game's own board has turned up on another cable, and who gets which bytes.
WHOSE: List[Tuple[str, List[Step], List[Tuple[str, bytes]]]] = [
    ("the other board's number comes", [(OWN, b"a", HOLD), (OTHER, b"b", HOLD), (OTHER, b"c", OF_2)], [("00002", b"a"), ("00002", b"b"), ("00002", b"c")]),
    ("the game says it too", [(OWN, b"a", OF_2), (OTHER, b"b", OF_2)], [("00002", b"a"), ("00002", b"b")]),
    ("it is known already", [(OTHER, b"b", OF_2), (OWN, b"a", HOLD)], [("00002", b"b"), ("00002", b"a")]),
    ("its own board is back", [(OWN, b"a", HOLD), (OTHER, b"b", KEEP)], [("own", b"ab")]),
    ("the game has kept it", [(OWN, b"a", KEEP), (OTHER, b"b", OF_2)], [("00002", b"b")]),
]


def in_flight() -> None:
    """What a game was told just before its board turned up on another cable, and answers only then, is lost to nobody."""
    real = getattr(cable_module, "Attending")
    setattr(cable_module, "Attending", AnotherChild)  # no process is started
    try:
        for name, steps, expected in WHOSE:
            game, unused = Game(), _nothing()
            means: Any = SimpleNamespace(guard=None)
            cable = Cable(means, unused, Plan("board1", "game", Rules()), "00001", unused, unused)
            game.takes(cable.plays_elsewhere())
            for who, sent, answer in steps:
                game.takes((cable.answered if who == OWN else cable.of_another)(Told(0.0, HEARD, sent), answer, None))
            same(name, game.got, expected)
    finally:
        setattr(cable_module, "Attending", real)


def _nothing() -> Any:
    return None


def without_a_number() -> None:
    """A number that isn't known is no board's, though other boards have none."""
    other: Any = SimpleNamespace(among=Among("board 2"), plies=[], takes=lambda sent: True)
    board = object.__new__(Board)
    setattr(board, "_of_number", lambda number: other)
    same("a number", (board.lends("00002", b"a"), bool(board.owner("00002"))), (True, True))
    same("none", (board.lends("", b"a"), board.owner("")), (False, None))


TABLES = [in_flight, without_a_number]
