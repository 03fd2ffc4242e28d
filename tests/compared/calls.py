"""Calls of the program, what it answers, and some thousands of them from a seed."""

from __future__ import annotations

import functools
import pathlib
import random
import subprocess
from dataclasses import dataclass
from typing import List, Optional, Sequence, Tuple

import hurried
from recovering.cases import CASES

TOP = pathlib.Path(__file__).resolve().parents[2]
SECONDS = 600  # no answer takes so long, but on a machine that stands still
GAMES = 12  # that hands play, each in each of the ways
FENS = (
    "rnbqkbnr/pppppppp/8/8/8/8/PPPPPPPP/RNBQKBNR w KQkq - 0 1",
    "r3k2r/p1ppqpb1/bn2pnp1/3PN3/1p2P3/2N2Q1p/PPPBBPPP/R3K2R w KQkq -",
    "8/2p5/3p4/KP5r/1R3p1k/8/4P1P1/8 w - - 0 1",
    "4k3/8/8/K2Pp2r/8/8/8/8 w - e6 0 2",
    "7k/5Q2/6K1/8/8/8/8/8 b - - 5 60",
)
SUBCOMMANDS = ("record", "follow", "recover", "watch", "record", "show", "pictures", "check", "positions", "moves")
OF_BOARD = ("record", "follow", "recover", "watch")
TAGS = ("--white", "--black", "--event", "--site", "--round", "--date")
VALUES = ("Anna", "Jörg", 'a "quoted" one', "", "2024.05.31", "?", "A" * 101, "\\")
BARE: Tuple[Tuple[str, ...], ...] = (
    (),
    ("--version",),
    ("--help",),
    ("help", "record"),
    ("recover", "--help"),
    ("nonsense",),
    ("record", "more"),
    ("show", "--rotated"),
    ("follow", "--first", "green"),
    ("--white", "Anna"),
    ("moves", "--fen", "8/8"),
    ("moves", "--fen"),
)


@dataclass(frozen=True)
class Call:
    """Arguments and an input, which is repeated up to `length` where that is given; the bytes of memory that it may have."""

    words: Tuple[str, ...]
    input: bytes = b""
    length: Optional[int] = None
    most: Optional[int] = None

    def read(self) -> bytes:
        """What the program reads."""
        if self.length is None:
            return self.input
        return (self.input * (self.length // len(self.input) + 1))[: self.length]


@dataclass(frozen=True)
class Answer:
    """What a run has written, and its status, or what was thrown where it has none."""

    status: object
    output: bytes
    errors: bytes


def answer(program: Sequence[str], call: Call) -> Answer:
    """What a program on this machine answers."""
    words = [*program, *call.words]
    done = subprocess.run(words, input=call.read(), stdout=subprocess.PIPE, stderr=subprocess.PIPE, timeout=SECONDS)
    return Answer(done.returncode, done.stdout, done.stderr)


@functools.lru_cache(maxsize=None)
def captures() -> Tuple[bytes, ...]:
    """The samples, the captures that were worked by hand, and games that hurried hands play over good and bad lines."""
    found = [path.read_bytes() for path in sorted(TOP.glob("samples/*.dgt"))] + [case.sent for case in CASES]
    for number, game in enumerate(hurried.read_games(GAMES)):
        for row in hurried.ROWS:
            found.append(hurried.shown(random.Random(f"{number} {row}"), game, row, 0.25))
    return tuple(found)


@functools.lru_cache(maxsize=None)
def texts() -> Tuple[bytes, ...]:
    """Games as PGN, and lines of moves."""
    lines = [line.encode() for line in hurried.GAMES.read_text().splitlines() if not line.startswith("#")]
    return (*(path.read_bytes() for path in sorted(TOP.glob("samples/*.pgn"))), *lines)


def spoiled(chance: random.Random, content: bytes) -> bytes:
    """The bytes, or some of them, with a few cut out, put in or changed; or bytes by chance."""
    way = chance.randrange(6)
    if way == 0:
        return content
    if way == 1:
        return bytes(chance.choice(b"\x86\x8e\x8d\x00\x05\x0a\x43\x01\x07\xff") for _ in range(chance.randrange(200)))
    changed = bytearray(content[: chance.randrange(len(content) + 1)] if way == 2 else content)
    for _ in range(chance.randrange(1, 6)):
        at = chance.randrange(len(changed) + 1)
        if way == 3:
            del changed[at : at + chance.randrange(1, 9)]
        elif way == 4:
            changed[at:at] = bytes(chance.randrange(256) for _ in range(chance.randrange(1, 9)))
        else:
            changed[at : at + 1] = bytes((chance.randrange(256),))
    return bytes(changed)


def spoiled_text(chance: random.Random, text: str) -> str:
    """The same of a text; an argument can have no byte 0."""
    return spoiled(chance, text.encode()).decode("ascii", "ignore").replace("\0", "")


def options(chance: random.Random, subcommand: str) -> List[str]:
    """Options that the subcommand has, and now and then values that it refuses."""
    words: List[str] = []
    if subcommand in (*OF_BOARD, "pictures") and chance.random() < 0.2:
        words += ["--rotated"]
    if subcommand in OF_BOARD:
        words += ["--first", chance.choice(("white", "black"))] if chance.random() < 0.3 else []
    if subcommand in (*OF_BOARD, "moves", "positions") and chance.random() < 0.2:
        fen = chance.choice(FENS)
        words += ["--fen", fen if chance.random() < 0.7 else spoiled_text(chance, fen)]
    if subcommand == "record" and chance.random() < 0.4:
        for tag in chance.sample(TAGS, chance.randrange(1, 4)):
            words += [tag, chance.choice(VALUES)]
    return words


def by_chance(seed: int, count: int) -> List[Call]:
    """Calls of each subcommand, over captures and texts that are whole or spoiled."""
    chance = random.Random(seed)
    found: List[Call] = []
    while len(found) < count:
        subcommand = chance.choice(SUBCOMMANDS)
        content = chance.choice(texts() if subcommand in ("check", "positions") else captures())
        found.append(Call((subcommand, *options(chance, subcommand)), spoiled(chance, content)))
    return found


def of_files() -> List[Call]:
    """Subcommands over the samples and the captures that were worked by hand, with their options; calls without an input."""
    found = [Call(words) for words in BARE]
    for path in sorted(TOP.glob("samples/*.dgt")):
        found += [Call((word,), path.read_bytes()) for word in ("record", "follow", "recover", "show", "pictures")]
        found.append(Call(("check",), path.with_suffix(".pgn").read_bytes()))
    for case in CASES:
        found += [Call((word, *case.options), case.sent) for word in OF_BOARD]
    return found + [Call(("moves", "--fen", fen)) for fen in FENS]
