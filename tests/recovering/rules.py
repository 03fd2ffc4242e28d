"""The rules of chess as docs/CHESS.md has them: positions, legal moves, pictures, SAN."""

from __future__ import annotations

import functools
from dataclasses import dataclass
from typing import Callable, Dict, Iterator, List, Optional, Sequence, Tuple

Picture = Tuple[int, ...]  # 64 piece codes by square number: a8 is 0, h8 is 7, h1 is 63

INITIAL = "rnbqkbnr/pppppppp/8/8/8/8/PPPPPPPP/RNBQKBNR w KQkq - 0 1"
CODES = ".PRNBKQprnbkq"  # letters by piece code
EMPTY, PAWN, ROOK, KNIGHT, BISHOP, KING, QUEEN = range(7)
BLACK = 6  # what a black piece's code has more than a white one's
KINDS = ".PRNBKQ"
PROMOTIONS = (QUEEN, ROOK, BISHOP, KNIGHT)
HIGHEST = 9999  # where the fullmove number stands still

STRAIGHT = ((0, 1), (0, -1), (1, 0), (-1, 0))
DIAGONAL = ((1, 1), (1, -1), (-1, 1), (-1, -1))
JUMPS = ((1, 2), (2, 1), (-1, 2), (-2, 1), (1, -2), (2, -1), (-1, -2), (-2, -1))
SLIDERS = {ROOK: STRAIGHT, BISHOP: DIAGONAL, QUEEN: STRAIGHT + DIAGONAL}
CORNERS = {"K": (60, 63), "Q": (60, 56), "k": (4, 7), "q": (4, 0)}  # the homes of king and rook by castling right


def rays(square: int, steps: Sequence[Tuple[int, int]], far: bool) -> Tuple[Tuple[int, ...], ...]:
    """The squares that lie in each of these directions, the nearest first; one step away where it isn't far."""
    found = []
    for down, right in steps:
        row, file = square // 8 + down, square % 8 + right
        ray: List[int] = []
        while 0 <= row < 8 and 0 <= file < 8 and (far or not ray):
            ray.append(8 * row + file)
            row, file = row + down, file + right
        found.append(tuple(ray))
    return tuple(ray for ray in found if ray)


RAYS = {kind: [rays(square, steps, True) for square in range(64)] for kind, steps in SLIDERS.items()}
RAYS[KNIGHT] = [rays(square, JUMPS, False) for square in range(64)]
RAYS[KING] = [rays(square, STRAIGHT + DIAGONAL, False) for square in range(64)]
# the squares that a pawn attacks, by whether it is white
PAWN_ATTACKS = {
    white: [tuple(ray[0] for ray in rays(square, ((down, 1), (down, -1)), False)) for square in range(64)]
    for white, down in ((True, -1), (False, 1))
}


def is_white(code: int) -> bool:
    return 0 < code <= BLACK


def is_black(code: int) -> bool:
    return code > BLACK


def kind_of(code: int) -> int:
    return code - BLACK if code > BLACK else code


def square_name(square: int) -> str:
    return "abcdefgh"[square % 8] + "87654321"[square // 8]


def is_attacked(board: Sequence[int], square: int, by_white: bool) -> bool:
    """Whether a piece of this side attacks the square."""
    side = 0 if by_white else BLACK
    # A pawn attacks a square from where one of the other side would attack the pawn's.
    if any(board[origin] == side + PAWN for origin in PAWN_ATTACKS[not by_white][square]):
        return True
    for kind in (KNIGHT, KING):
        if any(board[ray[0]] == side + kind for ray in RAYS[kind][square]):
            return True
    for kind in (ROOK, BISHOP):
        for ray in RAYS[kind][square]:
            for origin in ray:
                code = board[origin]
                if code != EMPTY:
                    if code in (side + kind, side + QUEEN):
                        return True
                    break
    return False


@dataclass(frozen=True)
class Move:
    """The square that it leaves, the square of arrival, and the kind that a pawn is promoted to."""

    origin: int
    target: int
    promoted: int = EMPTY


@dataclass(frozen=True, eq=False)
class Position:
    """A position without its halfmove clock."""

    board: Picture
    white: bool  # whether White is to move
    rights: str
    passed: Optional[int]  # the en passant target
    number: int  # of the full move

    @staticmethod
    def of_fen(fen: str) -> Position:
        """Of a FEN that is right, or of its first four fields."""
        placement, side, rights, passed, *counters = fen.split(" ")
        board: List[int] = []
        for letter in placement.replace("/", ""):
            board += [EMPTY] * int(letter) if letter.isdigit() else [CODES.index(letter)]
        target = None if passed == "-" else "abcdefgh".index(passed[0]) + 8 * "87654321".index(passed[1])
        return Position(tuple(board), side == "w", rights, target, int(counters[1]) if counters else 1)

    def after(self, move: Move) -> Position:
        """The position after a legal move."""
        board = list(self.board)
        code = board[move.origin]
        kind = kind_of(code)
        passed = None
        if kind == PAWN and move.origin % 8 != move.target % 8 and board[move.target] == EMPTY:
            board[move.origin // 8 * 8 + move.target % 8] = EMPTY  # en passant
        if kind == PAWN and abs(move.origin - move.target) == 16:
            passed = (move.origin + move.target) // 2
        if kind == KING and abs(move.origin - move.target) == 2:
            rook = move.origin + 3 if move.target > move.origin else move.origin - 4
            board[(move.origin + move.target) // 2], board[rook] = board[rook], EMPTY
        board[move.origin] = EMPTY
        board[move.target] = code if move.promoted == EMPTY else code - kind + move.promoted
        touched = {move.origin, move.target}
        rights = "".join(right for right in self.rights if right != "-" and not touched & set(CORNERS[right]))
        number = self.number if self.white else min(self.number + 1, HIGHEST)
        return Position(tuple(board), not self.white, rights, passed, number)

    def candidates(self, origins: Sequence[int] = range(64)) -> Iterator[Move]:
        """Each legal move from one of these squares, and those that leave the king attacked."""
        own, other = (is_white, is_black) if self.white else (is_black, is_white)
        board = self.board
        for origin in origins:
            code = board[origin]
            if not own(code):
                continue
            kind = kind_of(code)
            if kind == PAWN:
                yield from self.pawn_moves(origin, other)
                continue
            for ray in RAYS[kind][origin]:
                for target in ray:
                    if not own(board[target]):
                        yield Move(origin, target)
                    if board[target] != EMPTY:
                        break
            if kind == KING:
                yield from self.castlings()

    def pawn_moves(self, origin: int, other: Callable[[int], bool]) -> Iterator[Move]:
        board, ahead = self.board, -8 if self.white else 8
        targets = [target for target in PAWN_ATTACKS[self.white][origin] if other(board[target]) or target == self.passed]
        if board[origin + ahead] == EMPTY:
            targets.append(origin + ahead)
            if origin // 8 == (6 if self.white else 1) and board[origin + 2 * ahead] == EMPTY:
                targets.append(origin + 2 * ahead)
        for target in targets:
            for promoted in PROMOTIONS if target // 8 in (0, 7) else (EMPTY,):
                yield Move(origin, target, promoted)

    def castlings(self) -> Iterator[Move]:
        for right in self.rights:
            if right == "-" or right.isupper() != self.white:
                continue
            king, rook = CORNERS[right]
            step = 1 if rook > king else -1
            if any(self.board[square] != EMPTY for square in range(king + step, rook, step)):
                continue
            if not any(is_attacked(self.board, king + step * count, not self.white) for count in range(3)):
                yield Move(king, king + 2 * step)

    def in_check(self, white: bool) -> bool:
        return is_attacked(self.board, self.board.index(KING if white else BLACK + KING), not white)

    @functools.cached_property
    def legal(self) -> Dict[Move, Position]:
        """Each legal move, and the position after it."""
        found = {move: self.after(move) for move in self.candidates()}
        return {move: after for move, after in found.items() if not after.in_check(self.white)}

    def gone(self, picture: Picture) -> List[int]:
        """The squares on which a picture doesn't show the piece that stands there. A move's origin is one of them after it."""
        return [square for square, code in enumerate(self.board) if code not in (EMPTY, picture[square])]

    def move_to(self, picture: Picture) -> Optional[Move]:
        """The legal move after which the board looks so: there is one at most."""
        for move in self.candidates(self.gone(picture)):
            after = self.after(move)
            if after.board == picture and not after.in_check(self.white):
                return move
        return None

    def san(self, move: Move) -> str:
        """The text of a legal move."""
        after = self.legal[move]
        mark = ""
        if after.in_check(after.white):
            mark = "+" if after.legal else "#"
        return self.san_before_mark(move) + mark

    def san_before_mark(self, move: Move) -> str:
        code, target = self.board[move.origin], square_name(move.target)
        kind = kind_of(code)
        if kind == KING and abs(move.origin - move.target) == 2:
            return "O-O" if move.target > move.origin else "O-O-O"
        if kind == PAWN:
            capture = square_name(move.origin)[0] + "x" if move.origin % 8 != move.target % 8 else ""
            return capture + target + (f"={KINDS[move.promoted]}" if move.promoted else "")
        rivals = [
            other.origin
            for other in self.legal
            if other.target == move.target and other.origin != move.origin and self.board[other.origin] == code
        ]
        capture = "x" if self.board[move.target] != EMPTY else ""
        return KINDS[kind] + needed(move.origin, rivals) + capture + target

    def numbered(self, move: Move) -> str:
        """Its number and its text, `3. Bc4` or `3... Nc6`."""
        return f"{self.number}{'.' if self.white else '...'} {self.san(move)}"


def needed(origin: int, rivals: Sequence[int]) -> str:
    """The part of the origin that tells a move from its rivals."""
    name = square_name(origin)
    if not rivals:
        return ""
    if all(rival % 8 != origin % 8 for rival in rivals):
        return name[0]
    if all(rival // 8 != origin // 8 for rival in rivals):
        return name[1]
    return name
