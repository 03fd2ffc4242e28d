#!/usr/bin/env python3
"""Plays a DGT board on a device, for trying the recorder without one.

Waits until it is asked for field updates (4B), answers each request for a dump (42), and makes the moves that are
named: `e2e4`, castling as the king's move `e1g1`, en passant as `e5d6`, a promotion as `e7e8q`. Then it hangs up.
"""

import argparse
import contextlib
import os
import re
import select
import signal
import sys
import time
import tty
from typing import Iterable, Iterator, List

SEND_DUMP, SEND_UPDATES = 0x42, 0x4B
DUMP, UPDATE, TIME = 0x86, 0x8E, 0x8D
EMPTY, PAWN, KING, BLACK = 0, 1, 5, 6
PROMOTED = {"r": 2, "n": 3, "b": 4, "q": 6}
TERMINALS = "/dev/pts/"
MOVE = re.compile("([a-h][1-8]){2}[rnbq]?")
BACK_RANK = [2, 3, 4, 6, 5, 4, 3, 2]
INITIAL = [BLACK + kind for kind in BACK_RANK] + [BLACK + PAWN] * 8 + [EMPTY] * 32 + [PAWN] * 8 + BACK_RANK


def field(square: str) -> int:
    """The number of a square: a8 is 0, h1 is 63."""
    return "abcdefgh".index(square[0]) + 8 * (8 - int(square[1]))


def frame(identifier: int, data: Iterable[int]) -> bytes:
    codes = bytes(data)
    size = 3 + len(codes)
    return bytes([identifier, size >> 7, size & 0x7F]) + codes


class Board:
    """A board with a clock. `line` is an open device."""

    def __init__(self, line: int, pause: float = 0, cut: int = 0) -> None:
        self.line = line
        self.codes: List[int] = list(INITIAL)
        self.pause = pause
        self.cut = cut
        self.updates = 0
        self.asked_for_updates = False
        self.last = 0  # the last request

    def send(self, bytes_sent: bytes) -> None:
        while bytes_sent:
            bytes_sent = bytes_sent[os.write(self.line, bytes_sent) :]

    def listen(self, seconds: float) -> None:
        """Answers what is asked within so many seconds."""
        until = time.monotonic() + seconds
        while (left := until - time.monotonic()) > 0:
            if not select.select([self.line], [], [], left)[0]:
                return
            self.answer(os.read(self.line, 64))

    def answer(self, commands: bytes) -> None:
        for command in commands:
            if command != self.last:
                print(f"board: asked {command:02X}", file=sys.stderr)
            self.last = command
            if command == SEND_DUMP:
                self.send(frame(DUMP, self.codes))
            elif command == SEND_UPDATES:
                self.asked_for_updates = True

    def show(self, number: int, code: int) -> None:
        """A square changes. One update, if it was asked for, is cut off after its header."""
        self.codes[number] = code
        self.updates += 1
        whole = frame(UPDATE, [number, code])
        self.send(whole[:3] if self.updates == self.cut else whole)
        self.listen(self.pause)

    def carry(self, origin: int, target: int, code: int) -> None:
        if self.codes[target] != EMPTY:
            self.show(target, EMPTY)
        self.show(origin, EMPTY)
        self.show(target, code)

    def play(self, move: str) -> None:
        origin, target = field(move[:2]), field(move[2:4])
        code = self.codes[origin]
        side = BLACK if code > BLACK else 0
        passant = code - side == PAWN and origin % 8 != target % 8 and self.codes[target] == EMPTY
        steps = target - origin
        self.carry(origin, target, PROMOTED[move[4]] + side if len(move) > 4 else code)
        if passant:
            self.show(origin - origin % 8 + target % 8, EMPTY)
        if code - side == KING and abs(steps) == 2:
            rook = origin + 3 if steps > 0 else origin - 4
            self.carry(rook, origin + steps // 2, self.codes[rook])

    def clock(self, white: int, black: int, runs: bool = False, lever: bool = False) -> None:
        """Both times in seconds, whether the clock says that it runs, and on which side its lever is down."""
        groups = [f"{n:02}" for t in (white, black) for n in (t // 3600, t // 60 % 60, t % 60)]
        self.send(frame(TIME, [*(int(digits, 16) for digits in groups), int(runs) | int(lever) << 1]))


@contextlib.contextmanager
def made(device: str) -> Iterator[int]:
    """The line of a new device, which is removed at the end. One that a killed call has left is replaced."""
    line, slave = os.openpty()
    tty.setraw(slave)
    if os.path.islink(device) and os.readlink(device).startswith(TERMINALS):
        os.unlink(device)
    os.symlink(os.ttyname(slave), device)
    print(f"board: {device} is there", file=sys.stderr, flush=True)
    try:
        yield line
    finally:
        os.unlink(device)


@contextlib.contextmanager
def opened(device: str) -> Iterator[int]:
    """The line of a device that is there."""
    yield os.open(device, os.O_RDWR | os.O_NOCTTY)


def move(text: str) -> str:
    """A move as this program wants it."""
    if not MOVE.fullmatch(text):
        raise argparse.ArgumentTypeError(f"{text} is no move: write both squares, as e2e4, e1g1 or e7e8q")
    return text


def play(words: argparse.Namespace) -> None:
    """Makes all moves."""
    with (made if words.make else opened)(words.device) as line:
        board = Board(line, words.pause, words.cut)
        while not board.asked_for_updates:
            board.listen(1)
        times = [words.clock, words.clock]
        for ply, one in enumerate(words.moves):
            if words.clock:
                times[ply % 2] -= 7
                board.clock(*times)
                board.listen(words.pause)
            board.play(one)
        board.listen(words.stay)


def main() -> None:
    parser = argparse.ArgumentParser(description=__doc__)
    parser.add_argument("device")
    parser.add_argument("--make", action="store_true", help="makes the device, and removes it at the end")
    parser.add_argument("moves", nargs="*", type=move)
    parser.add_argument("--pause", type=float, default=0.05, help="seconds after each update")
    parser.add_argument("--cut", type=int, default=0, help="the number of the update that is cut off")
    parser.add_argument("--clock", type=int, default=0, help="seconds on each clock; each ply takes seven")
    parser.add_argument("--stay", type=float, default=0.5, help="seconds before it hangs up")
    words = parser.parse_intermixed_args()
    for number in (signal.SIGTERM, signal.SIGHUP):
        signal.signal(number, lambda *_: sys.exit(1))
    try:
        play(words)
    except FileExistsError:
        sys.exit(f"play_board: {words.device} is there already: give another name, or remove it")
    except OSError as error:
        if isinstance(error, FileNotFoundError) and not words.make:
            sys.exit(f"play_board: there is no {words.device}: add --make, which makes it")
        sys.exit(f"play_board: {words.device}: {error.strerror}")
    except KeyboardInterrupt:
        sys.exit(1)


if __name__ == "__main__":
    main()
