"""The pictures of a board that the hosts' tables speak of by what the program says of them, and the messages in which a board shows
them. A square that differs is empty where the game has a piece, and shows a black queen where it has none: no move makes that."""

import dataclasses
from typing import Iterable, Sequence, Tuple

from decided.cases import bytes_of
from given.case import CODES

INITIAL = "rnbqkbnr/pppppppp/8/8/8/8/PPPPPPPP/RNBQKBNR"
FOOLS = "rnbqkbnr/pppp1ppp/8/4p3/6P1/5P2/PPPPP2P/RNBQKBNR"  # before the fool's mate
AFTER = {
    "1. e4": "rnbqkbnr/pppppppp/8/8/4P3/8/PPPP1PPP/RNBQKBNR",
    "1. e3": "rnbqkbnr/pppppppp/8/8/8/4P3/PPPP1PPP/RNBQKBNR",
    "2... Qh4#": "rnb1kbnr/pppp1ppp/8/4p3/6Pq/5P2/PPPPP2P/RNBQKBNR",
}
KINGS = {"1-0": ("e4", "d5"), "0-1": ("d4", "e5"), "1/2-1/2": ("e4", "e5")}  # where White's and Black's king stand for a result
HEADER = b"\x86\x00\x43"
Picture = bytes  # 64 codes, from a8 to h1


def field(square: str) -> int:
    return "87654321".index(square[1]) * 8 + "abcdefgh".index(square[0])


def picture(placement: str) -> Picture:
    return bytes_of(placement)[len(HEADER) :]


def dump(shown: Picture) -> bytes:
    """The message of all squares."""
    return HEADER + shown


def updates(before: Picture, after: Picture) -> bytes:
    """The messages of the squares that change; those that become empty come first."""
    changed = sorted((code > 0, at, code) for at, code in enumerate(after) if code != before[at])
    return b"".join(bytes((0x8E, 0, 5, at, code)) for _, at, code in changed)


def with_codes(shown: Picture, codes: Iterable[Tuple[int, int]]) -> Picture:
    changed = bytearray(shown)
    for at, code in codes:
        changed[at] = code
    return bytes(changed)


def differing(position: Picture, squares: Sequence[str]) -> Picture:
    """A picture that differs from the position on these squares."""
    fields = [field(square) for square in squares]
    return with_codes(position, [(at, 0 if position[at] else CODES.index("q")) for at in fields])


def fewer(position: Picture, count: int) -> Picture:
    """A picture that differs on so many squares: the first pieces are off."""
    pieces = [at for at, code in enumerate(position) if code]
    return with_codes(position, [(at, 0) for at in pieces[:count]])


def kings(position: Picture, result: str) -> Picture:
    """Both kings stand in the centre for a result."""
    off = [(at, 0) for at, code in enumerate(position) if CODES[code] in "Kk"]
    return with_codes(position, [*off, *((field(square), CODES.index(king)) for square, king in zip(KINGS[result], "Kk"))])


@dataclasses.dataclass(frozen=True)
class Game:
    """What a game has come to: its position, and what its board shows."""

    position: Picture
    shown: Picture

    def told(self, words: Sequence[str]) -> "Game":
        """The picture of which the program says this."""
        what, rest = words[0], list(words[1:])
        if what == "agrees":
            return Game(self.position, self.position)
        if what == "differs":
            return Game(self.position, differing(self.position, rest))
        if what in ("move", "correction"):
            return self.moved(" ".join(rest[:2]))
        if what == "result" and rest[0] == "*":
            return self.moved("1. e4")  # a move takes a result back
        if what == "result":
            is_mate = self.position == picture(AFTER["2... Qh4#"])
            return self if is_mate else Game(self.position, kings(self.position, rest[0]))
        raise LookupError(what)

    def moved(self, move: str) -> "Game":
        after = picture(AFTER[move])
        return Game(after, after)


def begun(placement: str = INITIAL) -> Game:
    return Game(picture(placement), picture("8/8/8/8/8/8/8/8"))
