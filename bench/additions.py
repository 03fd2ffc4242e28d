#!/usr/bin/env python3
"""Results and moves that an arbiter adds, tried on captures of random games at random moments, through the real program.

To each capture the bytes that `add` gives are appended, and then what a board may send after them. The moves that `record` gives
must be those of before and the added ones, the result the added one, and nothing else; `follow` must tell the same. Where `add`
refuses, since the board shows what would change the game, that is counted. Boards lie both ways; the capture ends after a whole move, with a picture that waits, with a piece in a hand, inside a frame, after a fault.
Last line: 'N passed, M failed'.  additions.py [--games N] [--seed N] [--positions COMMAND]
"""

from __future__ import annotations

import argparse
import random
import shlex
import subprocess
import sys
from concurrent.futures import ProcessPoolExecutor
from dataclasses import dataclass
from typing import List, Tuple

from hands import EMPTY, PROGRAM, Game, Way, hand, movetext, moves_of, program

from live.line.protocol import picture_of_placement  # noqa: E402  (hands has put its folder on the path)
from live.child.program import Program  # noqa: E402
from live.game.options import Options  # noqa: E402
from live.game.typed import BOARD, ENDED, Said, ask_to_add  # noqa: E402
from recovering.frames import dump  # noqa: E402

INITIAL_FEN = "rnbqkbnr/pppppppp/8/8/8/8/PPPPPPPP/RNBQKBNR w KQkq - 0 1"
# Kings and other pieces in the centre; each side has moves for a while.
STARTS = [
    INITIAL_FEN,
    "8/8/3k4/4r3/3KR3/8/8/8 w - - 0 1",
    "r6r/8/2n1k3/3qb3/3NB3/3K4/8/R6R b - - 0 40",
    "7r/pp3ppp/8/3k4/1B6/3K4/PPP2PPP/7R w - - 4 30",
    "4k3/pp6/3pP3/3bp3/3PB3/4P3/PP6/4K3 b - - 0 20",
    "8/2p5/8/1k1pP3/4K3/8/2P5/8 w - d6 0 33",
]
ENDS = ("whole", "waits", "in hand", "inside an update", "inside a dump", "after a fault")
OUTCOMES = ("1-0", "0-1", "1/2-1/2")


@dataclass
class Played:
    """A capture, and the bytes of the frame in which it ends that are still to come."""

    options: List[str]
    rotated: bool
    sent: bytearray
    board: List[int]
    rest: bytes = b""

    def show(self, square: int, code: int) -> None:
        """A square changes."""
        self.board[square] = code
        self.sent += self.update(square, code)

    def update(self, square: int, code: int) -> bytes:
        """The update of a square."""
        return bytes((0x8E, 0x00, 0x05, 63 - square if self.rotated else square, code))

    def dump(self) -> bytes:
        """The dump of the board as it stands."""
        return dump(tuple(self.board), self.rotated)


def game_at(fen: str) -> Game:
    """The position, for the random moves."""
    game = Game()
    game.board = list(picture_of_placement(fen))
    game.side = 0 if fen.split()[1] == "w" else 1
    if fen != INITIAL_FEN:
        game.unmoved, game.passed = set(), None
    return game


def legal(game: Game) -> List[Way]:
    """The moves of the position, as the squares that they change."""
    return [way for way in game.ways() if game.is_legal(way)]


def play(played: Played, game: Game, chance: random.Random, plies: int) -> Game:
    """Plays so many moves, or as many as there are."""
    for _ in range(plies):
        ways = legal(game)
        if not ways:
            break
        way = chance.choice(ways)
        for square, code in hand(chance, played.board, way):
            played.show(square, code)
        game = game.after(way)
    return game


def end(played: Played, game: Game, chance: random.Random, kind: str) -> None:
    """Ends the capture in one of the ways."""
    own = [square for square in range(64) if played.board[square] != EMPTY]
    if kind == "waits":
        for _ in range(chance.randrange(1, 4)):
            played.show(chance.randrange(64), chance.choice([0, 0, 1, 5, 6, 7, 9, 11, 13]))
    elif kind == "in hand":
        low = 1 if game.side == 0 else 7
        played.show(chance.choice([square for square in own if low <= played.board[square] < low + 6]), EMPTY)
    elif kind == "inside an update":
        square = chance.choice(own)
        frame = played.update(square, EMPTY)
        cut = chance.randrange(1, 5)
        played.sent += frame[:cut]
        played.rest, played.board[square] = frame[cut:], EMPTY
    elif kind == "inside a dump":
        cut = chance.randrange(1, 67)
        played.sent += played.dump()[:cut]
        played.rest = played.dump()[cut:]
    elif kind == "after a fault":
        played.sent += b"\x00"
        if chance.random() < 0.5:  # an update that counts for nothing
            played.show(chance.choice(own), EMPTY)


def positions(command: List[str], fen: str, moves: List[str]) -> List[str]:
    """The FENs of the start and after each move."""
    words = [*command, "--fen", fen]
    done = subprocess.run(words, input="\n".join(moves), stdout=subprocess.PIPE, check=True, text=True)
    return done.stdout.splitlines()


def told(options: List[str], sent: bytes) -> Tuple[List[str], str]:
    """The moves and the result by `record`; those by `follow` must be the same."""
    text = program(["record", *options], sent)
    moves, result = moves_of(text), movetext(text)[-1]
    followed: List[str] = []
    so_far = "*"
    for line in program(["follow", *options], sent).splitlines():
        words = line.split()
        if words[1] == "move":
            followed.append(words[3])
        elif words[1] == "correction":
            followed[-1] = words[3]
        elif words[1] == "result":
            so_far = words[2]
    assert (followed, so_far) == (moves, result), (options, sent.hex())
    return moves, result


def added_moves(chance: random.Random, command: List[str], fen: str, most: int) -> Tuple[List[str], List[str]]:
    """Some legal moves from a position, and the FENs after them."""
    moves: List[str] = []
    fens: List[str] = []
    for _ in range(most):
        words = program(["moves", "--fen", fen], b"").split()
        if not words:
            break
        moves.append(chance.choice(words))
        fen = positions(command, fen, moves[-1:])[-1]
        fens.append(fen)
    return moves, fens


def one(arguments: Tuple[str, str, bool, str, str]) -> Tuple[int, List[str]]:
    """How many lines were refused because of what the board shows, and what is wrong with what was added at one moment: nothing,
    mostly."""
    seed, start, rotated, kind, command_line = arguments
    chance = random.Random(seed)
    command = shlex.split(command_line)
    fen_given = start if start != INITIAL_FEN else None
    options = (["--fen", start] if fen_given else []) + (["--rotated"] if rotated else [])
    board = list(picture_of_placement(start))
    played = Played(options, rotated, bytearray(dump(tuple(board), rotated)), board)
    game = play(played, game_at(start), chance, chance.choice([0, 1, 2, 5, 12, 30]))
    before = told(options, bytes(played.sent))
    end(played, game, chance, kind)
    sent = bytes(played.sent)
    moves, result = told(options, sent)
    fen = positions(command, start, moves)[-1]
    shown = dump(picture_of_placement(program(["pictures", *(["--rotated"] if rotated else [])], sent).splitlines()[-1]), rotated)
    refused: List[str] = []
    wrong: List[str] = []

    def expect(name: str, after: bytes, expected: Tuple[List[str], str]) -> None:
        seen = told(options, after)
        if seen != expected:
            wrong.append(f"{name}: {arguments} {fen}: seen {seen}, expected {expected}, before the end {before}")

    def added(capture: bytes, line: str) -> Said:
        said = ask_to_add(Program(PROGRAM), Options(rotated, fen=fen_given), capture, line)
        if said.kind == BOARD:
            refused.append(line)
        elif not said.put and said.kind != ENDED:
            wrong.append(f"{line}: {arguments} {fen}: {said}")
        return said

    if not program(["moves", "--fen", fen], b"").split():
        if added(sent, "1-0").kind != ENDED:
            wrong.append(f"a result after the end: {arguments}")
        return 0, wrong
    for outcome in OUTCOMES:
        put = added(sent, outcome).put
        if not put:
            continue
        expect(outcome, sent + put, (moves, outcome))
        expect(f"{outcome}, the rest of the frame", sent + put + played.rest, (moves, outcome))
        if kind != "after a fault":  # else the board may stand otherwise than the program has seen
            unseen = played.rest if kind != "inside an update" else b""
            expect(f"{outcome}, the board again", sent + put + unseen + shown, (moves, outcome))
    words, fens = added_moves(chance, command, fen, chance.randrange(1, 5))
    put = added(sent, " ".join(words)).put
    if not put:
        return len(refused), wrong
    mated = not program(["moves", "--fen", fens[-1]], b"").split()
    with_moves = sent + put
    outcome = told(options, with_moves)[1] if mated else "*"
    expect("moves", with_moves, (moves + words, outcome))
    expect("moves, the rest of the frame", with_moves + played.rest, (moves + words, outcome))
    expect("moves, and the board as it stood", with_moves + played.rest + shown, (moves + words, outcome))
    stands = with_moves + played.rest + dump(picture_of_placement(fens[-1]), rotated)
    expect("moves, and they stand on the board", stands, (moves + words, outcome))
    if not mated:
        further, after = added_moves(chance, command, fens[-1], 1)
        played_on = stands + dump(picture_of_placement(after[0]), rotated)
        marker = told(options, played_on)[1]
        expect("moves, and it goes on", played_on, (moves + words + further, marker))
        then = added(with_moves, "1/2-1/2").put
        if then:
            expect("moves, then a result", with_moves + then, (moves + words, "1/2-1/2"))
    return len(refused), wrong


def main() -> int:
    """Tries each start, either way round, in each of the ways in which a capture may end."""
    parser = argparse.ArgumentParser(description=__doc__)
    parser.add_argument("--games", type=int, default=10, help="for each start and each end of a capture")
    parser.add_argument("--seed", type=int, default=1)
    parser.add_argument("--positions", default=f"{PROGRAM} positions", help="the command that walks a line of moves")
    words = parser.parse_args()
    cases = [
        (f"{words.seed} {start} {kind} {number}", start, number % 2 == 1, kind, words.positions)
        for start in STARTS
        for kind in ENDS
        for number in range(words.games)
    ]
    with ProcessPoolExecutor(4) as pool:
        answers = list(pool.map(one, cases))
    for line in [line for _, lines in answers for line in lines]:
        print(line)
    failed = sum(bool(lines) for _, lines in answers)
    print(f"{sum(refused for refused, _ in answers)} lines refused because of what the board shows")
    print(f"{len(cases) - failed} passed, {failed} failed")
    return 1 if failed else 0


if __name__ == "__main__":
    sys.exit(main())
