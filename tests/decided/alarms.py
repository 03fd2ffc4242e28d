"""When a board has gone on without its game for too long, and when moves are made from the start after a game without a result."""

import math
from types import SimpleNamespace
from typing import Any, List, Tuple

from live.board.over import Afterwards
from live.board.state import Moves, if_not
from live.child.lines import SINCE, Doubt, Move, line_of
from live.game.looks import FromTheStart, Look, look_of

from attending.state_rules import Agreement
from decided.cases import cases
from decided.table import same


def agreements() -> None:
    for name, pictures, expected in cases("alarms", "agreements"):
        agreement, left = Agreement(), list(pictures)
        seen: List[List[Any]] = []
        for now, _ in expected:
            while left and left[0][0] < now:
                when, squares = left.pop(0)
                agreement.differs(when, squares) if squares else agreement.agrees()
            due = agreement.due()
            seen.append([now, None if due == math.inf else due])
        same(name, seen, expected)
    agreement = Agreement()
    agreement.agrees()
    agreement.differs(5, 2)
    same("at 15 s, and not before", (agreement.is_overdue(19.9), agreement.is_overdue(20)), (False, True))


# Lines of the report from the start on, and how many moves each alarm names.
SET_UP: List[Tuple[str, List[str], List[int]]] = [
    ("nothing but the pieces", ["0 picture rnbqkbnr/pppppppp/8/8/8/8/PPPPPPPP/RNBQKBNR", "0 agrees"], []),
    ("a move that is put right", ["0 move 1. d4", "9 correction 1. e4"], []),
    ("two moves", ["0 move 1. d4", "9 move 1... d5"], [2]),
    ("and more", ["0 move 1. d4", "9 move 1... d5", "20 correction 1... Nf6", "30 move 2. c4"], [2, 2, 3]),
]


def from_the_start() -> None:
    """Moves after a set-up behind a game without a result, and those after a game without a move."""
    for last, result, over in (("38. Kf2", "*", "the game is over without a result"), ("the start", "1-0", "the game is over: 1-0")):
        for name, lines, expected in SET_UP:
            after = FromTheStart(last, result)
            looks = [look for look in (after.take(line.event) for line in map(line_of, lines) if line) if look]
            same(f"{name}, {result}", [look.text for look in looks],
                 [f"LOOK after {last}: {count} moves were made from the start, and {over}" for count in expected])  # fmt: skip


class Child:
    """The program that attended a game."""

    def __init__(self, undecided: bytes) -> None:
        self.told: List[bytes] = []
        self._undecided = undecided

    def heard_by(self, hears: Any) -> None:
        """It goes on, for another one."""

    def undecided(self) -> bytes:
        return self._undecided

    def tell(self, what: str, sent: bytes) -> None:
        self.told.append(sent)

    def note_no_more(self) -> None:
        """The times of the game get their lines otherwise."""


def told_once() -> None:
    """While the pieces are set up, the program that attended the game is told each byte once: what was undecided as the game was over
    goes to the next one too, and so comes again."""
    for name, undecided, comes, expected in (
        ("nothing is undecided", b"", [b"ab", b"c"], [b"ab", b"c"]),
        ("it comes again", b"ab", [b"ab", b"ab"], [b"ab"]),
        ("with more", b"ab", [b"abc", b"d"], [b"c", b"d"]),
        ("other bytes", b"ab", [b"xab"], [b"xab"]),
    ):
        child: Any = Child(undecided)
        course: Any = SimpleNamespace(plies=[], result="1-0")
        after = Afterwards(child, course, 0, lambda look: None)
        same(f"{name}: undecided", after.undecided, undecided)
        for sent in comes:
            after.came(sent)
        same(name, child.told, expected)


def tried_from_the_start() -> None:
    """What to type to take moves off that were tried while the clock was stopped, behind a ply and from the start."""
    moves = [line.event for line in map(line_of, ["0 move 1. e4", "1 move 1... e5", "2 move 2. Nf3"]) if line and isinstance(line.event, Move)]
    plies = Moves([ply.short for ply in moves])
    for since, expected in ((1, "to take them off, type 3 back 1. e4"), (0, "to take them off, type 3 back 0")):
        look = look_of(Doubt(SINCE, since, "STOPPED", 3 - since), moves)
        same(look.what, if_not(look, lambda typed: f"3 {typed}", plies), expected)


MISSING = "if moves are missing, type 3 instead "
PLIES = ("1. e4", "1... e5", "2. Nf3")
# Where the alarm is, the plies of the game, and what to type if the game isn't right.
ADVISED: List[Tuple[str, Tuple[str, ...], str]] = [
    ("at 1. e4", PLIES, f"{MISSING}1. and all that was played from there on"),
    ("at 1... e5", PLIES, f"{MISSING}1... and all that was played from there on"),
    ("at 2. Nf3", PLIES, f"{MISSING}2. and all that was played from there on"),
    ("after 1. e4", PLIES, f"{MISSING}1... and all that was played from there on"),
    ("after 1... e5", PLIES, f"{MISSING}2. and all that was played from there on"),
    ("after 2. Nf3", PLIES, "if moves are missing, type all of them in one line, as 3 Nf3 Nc6"),
    ("at 2... Nc6", PLIES, ""),  # it is gone
    ("after 2... Nc6", PLIES, ""),
    ("after the start", PLIES, ""),
    ("after the start", (), ""),
]
# The plies of a game whose last four are two, and two in their place; and the number of the first that changes.
CHANGED: List[Tuple[Tuple[str, ...], str]] = [
    (("1. Nf3", "1... Nf6", "2. Nd4", "2... Nd5"), "1."),
    (("1. e4", "1... Nf6", "2. Nf3", "2... Nd5", "3. Nd4"), "1..."),
    (("1. e4", "1... e5", "2. Nf3", "2... Nf6", "3. Nd4", "3... Nd5"), "2."),
    (("1... Nf6", "2. Nd4", "2... Nd5"), ""),
]


def missing_moves() -> None:
    """What to type where moves may be missing: the number of the first ply that may be wrong, or the moves alone at the end."""
    for what, plies, expected in ADVISED:
        same(f"{what} {plies}", if_not(Look(what, "why", "about"), lambda typed: f"3 {typed}", Moves(plies)), expected)
    why = "both players moved the same pieces again, and nobody pressed the clock: if they changed their moves, change them here too"
    for plies, number in CHANGED:
        expected = number and f"to change them, type 3 instead {number} and all that was played from there on"
        same(f"changed {plies}", if_not(Look(f"at {plies[-1]}", why), lambda typed: f"3 {typed}", Moves(plies)), expected)


TABLES = [from_the_start, told_once, agreements, tried_from_the_start, missing_moves]
