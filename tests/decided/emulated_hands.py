"""The emulated hands: the orders in which squares change, worked by hand; and whole games that they play on an emulated board.
"""

from dataclasses import replace
from typing import FrozenSet, List, Sequence, Set, Tuple

from emulated.board import Board, Manner
from emulated.clock import Clock
from emulated.hands import PACES, REST, Capture, Habits, Hands, Touch, beside, between
from emulated.line import Noise
from emulated.table import Table, games, picture
from play_board import field
from played.stage import run as program

from decided.table import same

PLAIN = Habits(pace=2.0, slides=0, straightens=0, knocks=0, helps=0)
START = picture("rnbqkbnr/pppppppp/8/8/8/8/PPPPPPPP/RNBQKBNR w KQkq - 0 1")


def squares(text: str) -> List[int]:
    return [field(square) for square in text.split()]


def lines_of_squares() -> None:
    """What is slid over, and what stands beside."""
    for origin, target, expected in (
        ("a1", "a4", "a2 a3"),
        ("a1", "h8", "b2 c3 d4 e5 f6 g7"),
        ("h5", "f7", "g6"),
        ("e2", "e4", "e3"),
        ("e7", "e6", ""),
        ("g1", "f3", ""),
        ("a8", "d8", "b8 c8"),
    ):
        same(f"{origin} to {target}", between(field(origin), field(target)), squares(expected))
    same("beside a8", sorted(beside(0)), sorted(squares("b8 a7 b7")))
    same("beside e4", sorted(beside(field("e4"))), sorted(squares("d5 e5 f5 d4 f4 d3 e3 f3")))


def shown_orders(before: str, after: str, seeds: int = 200) -> Set[str]:
    """In which orders the squares of a move change, by name."""
    seen: Set[str] = set()
    for seed in range(seeds):
        made = Hands(PLAIN, seed).make(picture(before), picture(after))
        names = ["abcdefgh"[touch.square % 8] + "87654321"[touch.square // 8] for touch in made.touches]
        seen.add(" ".join(f"{name}:{touch.code}" for name, touch in zip(names, made.touches)))
    return seen


def orders() -> None:
    """Every order in which a move may be made, and no other: codes are 0 empty, 1 and 7 pawns, 2 rook, 5 king, 6 queen."""
    step = shown_orders("4k3/8/8/8/8/8/4P3/4K3", "4k3/8/8/8/4P3/8/8/4K3")
    same("a step", step, {"e2:0 e4:1"})
    capture = shown_orders("4k3/8/8/3p4/4P3/8/8/4K3", "4k3/8/8/3P4/8/8/8/4K3")
    five = {"e4:0 d5:0 d5:1", "d5:0 e4:0 d5:1", "e4:0 d5:1", "d5:0 d5:1 e4:0", "d5:1 e4:0"}
    same("a capture, in five", (capture, len(Capture.NAMES)), (five, 5))
    castling = shown_orders("4k3/8/8/8/8/8/8/4K2R", "4k3/8/8/8/8/8/8/5RK1")
    king, rook, both = "e1:0 g1:5 h1:0 f1:2", "h1:0 f1:2 e1:0 g1:5", "e1:0 h1:0 g1:5 f1:2"
    same("castling, king first, rook first, both in hand", castling, {king, rook, both})
    passant = shown_orders("4k3/8/8/3pP3/8/8/8/4K3", "4k3/8/3P4/8/8/8/8/4K3")
    same("in passing", passant, {"d5:0 e5:0 d6:1", "e5:0 d5:0 d6:1", "e5:0 d6:1 d5:0"})
    promotion = shown_orders("8/4P2k/8/8/8/8/8/4K3", "4Q3/7k/8/8/8/8/8/4K3")
    same("promotion", promotion, {"e7:0 e8:1 e8:0 e8:6", "e8:6 e7:0", "e7:0 e8:6"})
    taking = shown_orders("3r4/4P2k/8/8/8/8/8/4K3", "3Q4/7k/8/8/8/8/8/4K3")
    same("promotion that takes", taking, {"d8:0 e7:0 d8:1 d8:0 d8:6", "d8:0 d8:6 e7:0", "d8:0 e7:0 d8:6"})


def beside_the_move() -> None:
    """Straightened, knocked over, slid, helped, begun early: each ends in the picture after the move."""
    before, after = picture("4k3/pp6/8/8/8/8/1P6/RN2K3"), picture("4k3/pp6/8/8/R7/8/1P6/1N2K3")
    for what, expected in (
        ("slides", ["a2 a3"]),
        ("straightens", ["b1", "b2", "e1"]),
        ("knocks", ["b1", "b2", "b1 b2"]),
        ("helps", ["e8", "a7", "b7"]),
    ):
        made = [Hands(replace(PLAIN, **{what: 100}), seed).make(before, after).touches for seed in range(50)]
        same(f"{what}: ends in the picture", {shown(before, touches) for touches in made}, {after})
        same(f"{what}: by time", all(list(touches) == sorted(touches, key=lambda one: one.at) for touches in made), True)
        touched: Set[FrozenSet[int]] = {frozenset(touch.square for touch in touches) for touches in made}
        same(f"{what}: these squares", touched, {frozenset(squares(f"a1 a4 {others}")) for others in expected})
    starts = picture("4k3/p7/8/8/R7/8/1P6/1N2K3"), picture("4k3/8/p7/8/R7/8/1P6/1N2K3")
    honest, early = Hands(PLAIN, 5, now=10.0), Hands(replace(PLAIN, early=100), 5, now=10.0)
    one, other = honest.make(before, after), honest.make(*starts)
    same("honest hands wait", (one.begun >= 10.0 + REST, other.begun >= one.done + REST), (True, True))
    one, other = early.make(before, after), early.make(*starts)
    same("early ones don't", (one.begun <= other.begun < one.done < other.done), True)
    takes = picture("4k3/8/4p3/3n4/4P3/8/8/4K3"), picture("4k3/8/4p3/3P4/8/8/8/4K3"), picture("4k3/8/8/3p4/8/8/8/4K3")
    for seed in range(20):
        hands = Hands(replace(PLAIN, early=100), seed)
        one, other = hands.make(*takes[:2]), hands.make(*takes[1:])
        left = max(touch.at for touch in one.touches if touch.square == field("d5"))
        came = min(touch.at for touch in other.touches if touch.square == field("d5"))
        same(f"nor do they grasp through another hand, {seed}", came >= left + 0.05 - 1e-9, True)


def shown(start: Sequence[int], touches: Sequence[Touch]) -> Tuple[int, ...]:
    """What stands on the board after these changes."""
    codes = list(start)
    for touch in touches:
        codes[touch.square] = touch.code
    return tuple(codes)


def sent(table: Table, board: Board, seconds: float, requests: float) -> bytes:
    """What comes of a table, where the board is asked for a dump and updates at first, and for a dump each so many seconds."""
    came, asks = bytearray(), 0
    board.command(0.0, b"\x42\x4b")
    for tenth in range(1, int(seconds * 10)):
        now = tenth / 10
        table.turn(now)
        came += board.take(now)
        if requests and now >= (asks + 1) * requests:
            asks += 1
            board.command(now, b"\x42")
    return bytes(came)


def recorded(came: bytes, *options: str) -> List[str]:
    """The moves that the program makes of it."""
    text = program("record", *options, given=came).stdout.decode()
    words: List[str] = []
    comment = False
    for word in text.split("\n\n")[1].split():
        comment = comment or word.startswith("{")
        if not comment and word[0].isalpha():
            words.append(word)
        comment = comment and not word.endswith("}")
    return words


def whole_games() -> None:
    """Honest hands at each pace on a good line: the game is the one that was played, with a clock and on a turned board too."""
    for number, (name, habits) in enumerate(list(PACES.items()) * 4):
        game = games()[number]
        board = Board(clock=Clock(5400) if number % 2 else None, rotated=number % 3 == 0, seed=number)
        table = Table(board, game, habits, number, begins=1.0)
        came = sent(table, board, table.done[-1] + 2, 1.0)
        same(f"game {number}, {name}, all plies", len(table.sans), len(game.sans))
        same(f"game {number}, {name}", recorded(came, *["--rotated"] * board.rotated), list(game.sans))
    same("the start", games()[0].pictures[0], START)


def clocks() -> None:
    """The clock runs from the first move to the last press, for the side that is to move; no ply is done after the end."""
    clock = Clock(600)
    board = Board(clock=clock, seed=1)
    table = Table(board, games()[1], PACES["blitz"], 1, begins=100.0, ends=130.0)
    same("the last ply", (len(table.done) > 2, table.done[-1] <= 130.0, len(table.sans)), (True, True, len(table.done)))
    table.turn(99.9)
    same("before the game", (clock.runs, clock.seconds(99.9)), (False, (600, 600)))
    table.turn(table.done[0] + 1)
    same("after the first move Black's runs", clock.data(table.done[0] + 1)[6], 0x11)
    table.turn(200.0)
    used = 1200 - sum(clock.seconds(200.0))
    same("it stands at the end", (clock.runs, table.over, table.due()), (False, True, float("inf")))
    same("it ran from 100 to the last press", 0.1 <= used - (table.done[-1] - 100) <= 0.8, True)


def same_seed() -> None:
    """The same seed gives the same bytes, faults too; another one others."""
    game = games()[20]

    def came(seed: int) -> bytes:
        board = Board(manner=Manner(late=(0.1, 0.9), missed=0.1, noise=Noise(0.01, 0.01)), clock=Clock(900), seed=seed)
        return sent(Table(board, game, PACES["blitz"], seed, 1.0, ends=30.0), board, 32.0, 1.0)

    same("twice", came(4), came(4))
    same("another", came(4) == came(5), False)


TABLES = [lines_of_squares, orders, beside_the_move, clocks, whole_games, same_seed]
