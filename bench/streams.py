#!/usr/bin/env python3
"""Makes the streams that the benchmarks read, 48 MB each or 64 MiB, always the same bytes: streams.py FOLDER [NAME..].

idle     a long game by the knights, with a time each second, and dumps and updates that change nothing
played   a game of 2,000 moves, one each 24,000 bytes; between two moves times, dumps, and pieces that are lifted and put back
fumbled  the same game; a piece that is lifted is shown on one to three other empty squares before it is put back
dumps    the dump of the initial position again and again
faults   bytes FF, each of which but the first is a fault
promoted 64 MiB: of the pictures that wait, each second one is explained by four pairs, which nothing confirms (PROMOTED)
lifted   64 MiB: after a move two queens of each side are in hand, and a third one comes and goes (LIFTED)
queens   64 MiB: in a position of 218 moves a pawn and six queens are in hand, and a seventh comes and goes (QUEENS)
"""
import pathlib
import random
import sys
from typing import Callable, Dict, Iterator, List, Optional, Sequence, Set, Tuple

SIZE = 48_000_000
MOVE_EACH = 24_000
SEED = 20261123

WHITE, BLACK = 0, 1
PAWN, ROOK, KNIGHT, BISHOP, KING, QUEEN = 1, 2, 3, 4, 5, 6
INITIAL = [8, 9, 10, 12, 11, 10, 9, 8] + [7] * 8 + [0] * 32 + [1] * 8 + [2, 3, 4, 6, 5, 4, 3, 2]
HEADER = bytes([0x86, 0x00, 0x43])
CLOCK = bytes([0x8D, 0x00, 0x0A, 0x01, 0x29, 0x59, 0x01, 0x30, 0x00, 0x00])
UPDATES = [[bytes([0x8E, 0x00, 0x05, field, code]) for code in range(13)] for field in range(64)]

Way = Sequence[Tuple[int, int]]  # a way to move: the squares that it changes, each with the code that it shows then

STRAIGHT = [(0, 1), (0, -1), (1, 0), (-1, 0)]
DIAGONAL = [(1, 1), (1, -1), (-1, 1), (-1, -1)]
JUMPS = [(1, 2), (2, 1), (-1, 2), (-2, 1), (1, -2), (2, -1), (-1, -2), (-2, -1)]
DIRECTIONS = {ROOK: STRAIGHT, BISHOP: DIAGONAL, QUEEN: STRAIGHT + DIAGONAL, KING: STRAIGHT + DIAGONAL, KNIGHT: JUMPS}


def side_of(code: int) -> Optional[int]:
    return None if code == 0 else WHITE if code < 7 else BLACK


def kind_of(code: int) -> int:
    return code if code < 7 else code - 6


def code_of(side: int, kind: int) -> int:
    return kind if side == WHITE else kind + 6


def targets(board: Sequence[int], square: int, directions: Sequence[Tuple[int, int]], far: bool) -> Iterator[int]:
    """The squares that lie open from a square; each way ends with the first piece on it."""
    rank, file = divmod(square, 8)
    for up, right in directions:
        r, f = rank + up, file + right
        while 0 <= r < 8 and 0 <= f < 8:
            yield 8 * r + f
            if board[8 * r + f] != 0 or not far:
                break
            r, f = r + up, f + right


def is_attacked(board: Sequence[int], square: int, by: int) -> bool:
    for kind, directions in DIRECTIONS.items():
        for there in targets(board, square, directions, kind not in (KING, KNIGHT)):
            if board[there] == code_of(by, kind):
                return True
    behind = 1 if by == WHITE else -1
    return any(board[there] == code_of(by, PAWN) for there in targets(board, square, [(behind, 1), (behind, -1)], False))


class Game:
    def __init__(self) -> None:
        self.board = list(INITIAL)
        self.side = WHITE
        self.unmoved: Set[int] = {0, 4, 7, 56, 60, 63}
        self.passed: Optional[int] = None

    def ways(self) -> Iterator[Way]:
        """Each way to move, before it is looked at whether the king is attacked: a list of (square, code) to be shown."""
        board, side = self.board, self.side
        for square in range(64):
            if side_of(board[square]) != side:
                continue
            kind = kind_of(board[square])
            if kind == PAWN:
                yield from self.pawn_ways(square)
                continue
            for to in targets(board, square, DIRECTIONS[kind], kind not in (KING, KNIGHT)):
                if side_of(board[to]) != side:
                    yield [(square, 0), (to, board[square])]
            if kind == KING:
                yield from self.castlings(square)

    def pawn_ways(self, square: int) -> Iterator[Way]:
        board, side = self.board, self.side
        ahead = -8 if side == WHITE else 8
        last = 0 if side == WHITE else 7
        ends = []
        if board[square + ahead] == 0:
            ends.append(square + ahead)
            if square // 8 == (6 if side == WHITE else 1) and board[square + 2 * ahead] == 0:
                ends.append(square + 2 * ahead)
        for to in targets(board, square, [(ahead // 8, 1), (ahead // 8, -1)], False):
            if side_of(board[to]) == 1 - side:
                ends.append(to)
            elif to == self.passed:
                yield [(square, 0), (to, board[square]), (to - ahead, 0)]
        for to in ends:
            for kind in (QUEEN, ROOK, BISHOP, KNIGHT) if to // 8 == last else (PAWN,):
                yield [(square, 0), (to, code_of(side, kind))]

    def castlings(self, king: int) -> Iterator[Way]:
        board, other = self.board, 1 - self.side
        home = 60 if self.side == WHITE else 4
        wings: List[Tuple[int, Sequence[int], int, int]] = [
            (home + 3, (1, 2), home + 1, home + 2),
            (home - 4, (-1, -2, -3), home - 1, home - 2),
        ]
        for rook, between, over, to in wings:
            if {home, rook} <= self.unmoved and all(board[home + step] == 0 for step in between):
                if not any(is_attacked(board, square, other) for square in (home, over)):
                    yield [(king, 0), (to, board[king]), (rook, 0), (over, board[rook])]

    def after(self, way: Way) -> "Game":
        new = Game()
        new.board = list(self.board)
        for square, code in way:
            new.board[square] = code
        new.side = 1 - self.side
        new.unmoved = self.unmoved - {square for square, _ in way}
        start, end = way[0][0], way[1][0]
        if kind_of(self.board[start]) == PAWN and abs(start - end) == 16:
            new.passed = (start + end) // 2
        return new

    def is_legal(self, way: Way) -> bool:
        new = self.after(way)
        return not is_attacked(new.board, new.board.index(code_of(self.side, KING)), new.side)

    def goes_on(self) -> bool:
        return any(self.is_legal(way) for way in self.ways())


def moves(count: int) -> Iterator[Way]:
    """A game of so many moves, each as the squares that it changes: a capture each hundred moves at most, a move of a pawn each
    twenty at most, castling, en passant and promotions where they come; other pieces else. It never ends."""
    chance = random.Random(SEED)
    game = Game()
    captures = pawns = 0
    for ply in range(count):
        ranked = []
        for way in game.ways():
            start, end = way[0][0], way[1][0]
            takes = game.board[end] != 0 or len(way) == 3
            pawn = kind_of(game.board[start]) == PAWN
            if takes and captures * 100 > ply or pawn and pawns * 20 > ply:
                rank = 1
            else:
                rank = 0
            if len(way) > 2:
                rank -= 2
            ranked.append((rank, chance.random(), way, takes, pawn))
        for rank, _, way, takes, pawn in sorted(ranked, key=lambda row: row[:2]):
            if game.is_legal(way) and game.after(way).goes_on():
                break
        else:
            raise SystemExit("the game has ended")
        captures += takes
        pawns += pawn
        game = game.after(way)
        yield way


def hands(fumbles: bool) -> bytes:
    """The dump of the initial position; then what a board sends while it is played on."""
    chance = random.Random(SEED)
    pick, draw = chance.random, chance.choice
    board = bytearray(INITIAL)
    pieces = [square for square in range(64) if board[square]]
    empty = [square for square in range(64) if not board[square]]
    stream = bytearray(HEADER + board)
    game = moves(SIZE // MOVE_EACH)
    due = MOVE_EACH
    while len(stream) < SIZE:
        if len(stream) >= due:
            due += MOVE_EACH
            for square, code in next(game):
                stream += UPDATES[square][code]
                board[square] = code
            pieces = [square for square in range(64) if board[square]]
            empty = [square for square in range(64) if not board[square]]
        kind = pick()
        if kind < 0.1:
            stream += CLOCK
        elif kind < 0.3:
            stream += HEADER
            stream += board
        else:
            square = pieces[int(pick() * len(pieces))]
            code = board[square]
            if pick() < 0.7:
                stream += UPDATES[square][0]
                if fumbles:
                    for _ in range(1 + int(3 * pick())):
                        other = draw(empty)
                        stream += UPDATES[other][code]
                        stream += UPDATES[other][0]
            stream += UPDATES[square][code]
    return bytes(stream[:SIZE])


def idle() -> bytes:
    """The knights of both sides go out and back: g1 f3, g8 f6, f3 g1, f6 g8."""
    board = bytearray(INITIAL)
    round_trip = bytearray()
    for start, end in ((62, 45), (6, 21), (45, 62), (21, 6)):
        piece = board[start]
        board[start] = 0
        round_trip += UPDATES[start][0] * 2 + HEADER + board
        board[end] = piece
        round_trip += UPDATES[end][piece]
        # until the next move: a time each second, and now and then a dump and an update that changes nothing
        round_trip += 60 * (10 * CLOCK + UPDATES[end][piece] + HEADER + board)
    stream = HEADER + bytes(INITIAL)
    return stream + round_trip * ((SIZE - len(stream)) // len(round_trip))


WORST = 64 * 1024 * 1024
PROMOTED = "4k2r/6P1/8/8/8/8/P7/4K3 w - -"
LIFTED = "k1q1q1q1/pp6/8/8/8/8/PP6/K1Q1Q1Q1 w - -"
QUEENS = "R6R/3Q4/1Q4Q1/4Q3/2Q4Q/Q4Q2/pp1Q4/kBNN1KB1 w - -"


def toggled(fen: str, before: Way, there_and_back: Way) -> bytes:
    """The dump of a position; updates; and then two more again and again."""
    board: List[int] = []
    for letter in fen.split(" ")[0].replace("/", ""):
        board += [0] * int(letter) if letter.isdigit() else [".PRNBKQprnbkq".index(letter)]
    stream = HEADER + bytes(board) + b"".join(UPDATES[square][code] for square, code in before)
    twice = b"".join(UPDATES[square][code] for square, code in there_and_back)
    return (stream + twice * (WORST // len(twice)))[:WORST]


def promoted() -> bytes:
    """g7 promotes on g8, the rook takes it, and the pawn of a2 is lifted and put back."""
    return toggled(PROMOTED, [(14, 0), (7, 0), (6, 8)], [(48, 0), (48, 1)])


def lifted() -> bytes:
    """1. a3, and then the queens of c1, e1, c8 and e8 are in hand; that of g1 is lifted and put back."""
    return toggled(LIFTED, [(48, 0), (40, 1), (58, 0), (60, 0), (2, 0), (4, 0)], [(62, 0), (62, 6)])


def queens() -> bytes:
    """The pawn of a2 and the queens of d7, b6, g6, e5, c4 and h4 are in hand; that of a3 is lifted and put back."""
    return toggled(QUEENS, [(square, 0) for square in (48, 11, 17, 22, 28, 34, 39)], [(40, 0), (40, 6)])


STREAMS: Dict[str, Callable[[], bytes]] = {
    "idle": idle,
    "played": lambda: hands(False),
    "fumbled": lambda: hands(True),
    "dumps": lambda: (HEADER + bytes(INITIAL)) * (SIZE // 67),
    "faults": lambda: b"\xff" * SIZE,
    "promoted": promoted,
    "lifted": lifted,
    "queens": queens,
}

if __name__ == "__main__":
    folder = pathlib.Path(sys.argv[1])
    for name in sys.argv[2:] or STREAMS:
        (folder / name).write_bytes(STREAMS[name]())
