"""Long frames and streams: as long as their limit, and longer."""

import os
import select
import subprocess
from typing import Tuple

from decided.table import same
from given.case import SECONDS, Case, but, leave, pgn, program
from given.followed import FOLLOW
from given.messages import E2_EMPTY, E4_PAWN, INITIAL
from given.shown import SHOW

# A frame has at most 16,383 bytes; until its last one they are the rest.
LONG_FRAMES = [
    but(SHOW, sent=b"\x93\x7f\x7f", more=16_380, out=b"16382 other 93 16383\nrest 0\n"),
    but(SHOW, sent=b"\x93\x7f\x7f", more=16_379, out=b"rest 16382\n"),
]

# One byte past the limit is read, and no more.
TOO_LONG = Case(status=1, err=b"input: too long\n")

LISTED = [
    but(SHOW, more=67_108_864, out=b"0 fault stray\nrest 0\n"),
    but(TOO_LONG, words=["show"], more=67_108_865, out=b"0 fault stray\n"),
    but(TOO_LONG, words=["show"], more=67_108_870, unread=5, out=b"0 fault stray\n"),
    but(
        TOO_LONG,
        words=["watch"],
        more=67_108_865,
        out=b"0 position rnbqkbnr/pppppppp/8/8/8/8/PPPPPPPP/RNBQKBNR w KQkq - 0 1\n0 fault stray\n",
    ),
    but(TOO_LONG, words=["pictures"], more=67_108_865),
    but(
        FOLLOW,
        sent=INITIAL + E2_EMPTY + E4_PAWN,
        more=67_108_864,
        unread=76,
        status=1,
        out=b"66 agrees\n71 differs e2\n76 move 1. e4\n77 fault stray\n",
        err=b"input: too long\n",
    ),
]

RECORDED = [
    Case(words=["record"], more=67_108_864, out=pgn(), err=b"BKB\nmessages 0, faults 1, moves 0, rest 0\n"),
    but(TOO_LONG, words=["record"], more=67_108_865, out=pgn(), err=b"BKB\ninput: too long\n"),
    but(TOO_LONG, words=["record"], more=67_108_870, unread=5, out=pgn(), err=b"BKB\ninput: too long\n"),
]

def read_of_spaces(most: int) -> Tuple[int, bytes, bytes, int]:
    """What `check` leaves of so many spaces, and how many it read."""
    source, target = os.pipe()
    process = subprocess.Popen([program(), "check"], stdin=source, stdout=subprocess.PIPE, stderr=subprocess.PIPE)
    os.set_blocking(target, False)
    count = 0
    while process.poll() is None and count < most:
        if select.select([], [target], [], 0.1)[1]:
            count += os.write(target, b" " * min(65536, most - count))
    out, err = process.communicate(timeout=SECONDS)
    os.set_blocking(source, False)
    os.close(target)
    with open(source, "rb") as rest:
        return process.returncode, out, err, count - len(rest.read() or b"")

def long_streams() -> None:
    """A frame has at most 16,383 bytes, and a stream 67,108,864."""
    leave("frames", LONG_FRAMES)
    leave("streams", LISTED, RECORDED)

def long_text() -> None:
    """Spaces without end are no PGN, and are not read without end."""
    same("spaces", read_of_spaces(4_294_967_295), (1, b"", b"input: too long\n", 268_435_457))

TABLES = [long_streams, long_text]
