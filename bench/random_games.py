#!/usr/bin/env python3
"""Games of random legal moves from five starts, to compare. Usage: random_games.py COUNT FOLDER

FOLDER/games.pgn has their texts, one after another, as `dgt_replay record` writes them of captures that show each ply, with times
and with the kings' sign; FOLDER/squares has their moves by their squares, a game a line, by the rules in Python.
"""

import pathlib
import random
import subprocess
import sys
from typing import List, Optional, Tuple

sys.dont_write_bytecode = True
TOP = pathlib.Path(__file__).resolve().parents[1]
sys.path[:0] = [str(TOP / "tests")]
from recovering.frames import dump  # noqa: E402
from recovering.rules import BLACK, EMPTY, INITIAL, KING, KINDS, Move, Picture, Position, square_name  # noqa: E402

# The initial position, and positions with castling, en passant, promotion and Black to move.
STARTS = (
    INITIAL,
    "r3k2r/p1ppqpb1/bn2pnp1/3PN3/1p2P3/2N2Q1p/PPPBBPPP/R3K2R w KQkq - 0 1",
    "8/2p5/3p4/KP5r/1R3p1k/8/4P1P1/8 w - - 0 1",
    "rnbqkbnr/ppp1pppp/8/8/3pP3/8/PPPP1PPP/RNBQKBNR b KQkq e3 0 3",
    "4k3/PPP5/8/8/8/8/ppp5/4K3 b - - 12 40",
)
NO_CLOCK = bytes((0x8D, 0, 10, 0, 0, 0, 0, 0, 0, 0x20))
D5, E5, D4, E4 = 27, 28, 35, 36
SIGNS = ((E4, D5), (D4, E5), (E4, E5))  # where the kings stand for 1-0, 0-1 and a draw


def times(chance: random.Random) -> bytes:
    """A time message, for one ply in four, or that no clock is connected."""
    if chance.randrange(4):
        return NO_CLOCK
    shown = [number for _ in range(2) for number in (chance.randrange(10), chance.randrange(60), chance.randrange(60))]
    return bytes((0x8D, 0, 10, *(int(str(number), 16) for number in shown), 0))


def sign(chance: random.Random, position: Position) -> Optional[Picture]:
    """The kings in the centre, for three games in four, where neither was near it."""
    squares = chance.choice((*SIGNS, None))
    homes = [position.board.index(king) for king in (KING, BLACK + KING)]
    near = any(2 <= home // 8 <= 5 and 2 <= home % 8 <= 5 for home in homes)
    if squares is None or near or not position.legal:
        return None
    board = list(position.board)
    for home, square in zip(homes, squares):
        board[home], board[square] = EMPTY, board[home]
    return tuple(board)


def name_of(move: Move) -> str:
    return square_name(move.origin) + square_name(move.target) + (KINDS[move.promoted].lower() if move.promoted else "")


def game(number: int) -> Tuple[str, bytes, List[str]]:
    """The start of the game with this number, what the board sends, and the moves by their squares."""
    chance = random.Random(number)
    start = chance.choice(STARTS)
    position, sent, squares = Position.of_fen(start), b"", []
    sent += dump(position.board, False)
    for _ in range(chance.randrange(40, 200)):
        if not position.legal:
            break
        move = chance.choice(sorted(position.legal, key=name_of))
        position = position.legal[move]
        sent += times(chance) + dump(position.board, False)
        squares.append(name_of(move))
    shown = sign(chance, position)
    return start, sent + (dump(shown, False) if shown else b""), squares


def text(number: int, start: str, sent: bytes) -> bytes:
    options = [f"--fen={start}"] if start != INITIAL else []
    options += ['--event=Random "games" \\ moves', "--date=2024.??.??", *(["--white="] if number % 2 == 0 else [])]
    words = [str(TOP / "bin" / "dgt_replay"), "record", *options]
    return subprocess.run(words, input=sent, stdout=subprocess.PIPE, stderr=subprocess.PIPE, check=True).stdout


def main(count: int, folder: pathlib.Path) -> None:
    with open(folder / "games.pgn", "wb") as texts, open(folder / "squares", "w") as moves:
        for number in range(count):
            start, sent, squares = game(number)
            texts.write(text(number, start, sent))
            print(*squares, file=moves)


if __name__ == "__main__":
    main(int(sys.argv[1]), pathlib.Path(sys.argv[2]))
