"""Pictures of a board: their codes, and their squares. And how a dump begins among the bytes of a capture.

What else a board's bytes mean is left to the program.
"""

from __future__ import annotations

import functools
import itertools
import operator
from typing import List, Tuple

DUMP_SIZE = 67
DUMP_BEGINS = bytes((0x86, 0, DUMP_SIZE))  # wherever they are: only a frame's first byte has its top bit set
SERIAL_LENGTH = 5  # characters of a serial number

Picture = Tuple[int, ...]  # 64 piece codes by square number: a8 is 0, h8 is 7, h1 is 63
LETTERS = ".PRNBKQprnbkq*"  # by piece code; `*` is one of the codes 13 to 15, which no position has
SQUARES = tuple(file + rank for rank in "87654321" for file in "abcdefgh")


def frame_at(sent: bytes, end: int) -> int:
    """Where the frame begins that has its last byte there: only its first byte has its top bit set."""
    return next(at for at in range(end, -1, -1) if sent[at] & 0x80)


def picture_of_placement(text: str) -> Picture:
    """The picture of a FEN, of its first field, or of a line of `pictures`. Raises ValueError if the text is none of them."""
    ranks = text.split(" ")[0].split("/")
    if len(ranks) != 8:
        raise ValueError(f"not eight ranks: {text}")
    return tuple(itertools.chain.from_iterable(map(_codes_of_rank, ranks)))


@functools.lru_cache(maxsize=1024)
def _codes_of_rank(rank: str) -> Picture:
    """The codes of one rank. A move leaves most ranks as they are."""
    codes: List[int] = []
    for letter in rank:
        if letter in "12345678":
            codes.extend([0] * int(letter))
        else:
            codes.append(LETTERS.index(letter, 1))
    if len(codes) != 8:
        raise ValueError(f"not eight squares in a rank: {rank}")
    return tuple(codes)


def differing(one: Picture, other: Picture) -> List[str]:
    """The squares on which two pictures differ, in the order a8, b8, .. h1."""
    return list(itertools.compress(SQUARES, map(operator.ne, one, other)))
