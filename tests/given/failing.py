"""Streams that fail. What only a flush that fails shows is in crates/test_allocations."""

from given.case import Case, but, end, leave, pgn
from given.messages import (
    E2_EMPTY,
    E4_PAWN,
    INITIAL,
    INITIAL_LINE,
    INITIAL_PLACEMENT,
    KINGS_PAWN_PLACEMENT,
    LIFTED_PLACEMENT,
    ONE_MOVE,
)

# The input fails after 1. e4.
FAILED_READ = Case(sent=INITIAL + E2_EMPTY + E4_PAWN, fails=True, status=3, err=b"read fault\n")

FAILED_READS = [
    but(FAILED_READ, words=["show"], out=INITIAL_LINE + b"71 update 52 0\n76 update 36 1\n"),
    but(FAILED_READ, words=["pictures"], out=INITIAL_PLACEMENT + LIFTED_PLACEMENT + KINGS_PAWN_PLACEMENT),
    but(FAILED_READ, words=["follow"], out=b"66 agrees\n71 differs e2\n76 move 1. e4\n"),
    but(FAILED_READ, words=["record"], out=ONE_MOVE, err=b"BK\nread fault\n"),
    but(FAILED_READ, words=["check"]),
    but(FAILED_READ, words=["times"]),
    but(FAILED_READ, words=["positions"], sent=b"e4"),
]

# The output fails over the capture of 1. e4.
FAILED_WRITE = Case(sent=INITIAL + E2_EMPTY + E4_PAWN, status=3, err=b"write fault\n")

# What stands in the output after ten bytes.
FAILED_WRITES = [
    but(FAILED_WRITE, words=["show"], out=b"66 dump 89"),
    but(FAILED_WRITE, words=["pictures"], out=b"rnbqkbnr/p"),
    but(FAILED_WRITE, words=["follow"], out=b"66 agrees\n"),
    but(FAILED_WRITE, words=["record"], out=b"[Event \"?\"", err=b"BK\nwrite fault\n"),
    but(FAILED_WRITE, words=["check"], sent=ONE_MOVE, out=b"moves 1, r"),
    but(FAILED_WRITE, words=["moves"], out=b"a4\na3\nb4\nb"),
    but(FAILED_WRITE, words=["positions"], sent=b"e4", out=b"rnbqkbnr/p"),
]

# Of these only the status and standard error are told.
FAILED_TWICE = [
    # a read that fails too
    but(FAILED_WRITE, words=["show"], fails=True, room=0),
    but(FAILED_WRITE, words=["pictures"], fails=True, room=0),
    but(FAILED_WRITE, words=["follow"], fails=True, room=0),
    but(FAILED_WRITE, words=["record"], fails=True, room=0, err=b"BK\nwrite fault\n"),
    # a word that is no move
    but(FAILED_WRITE, words=["positions"], sent=b"e5", room=20),
    # help that can't be written
    but(FAILED_WRITE, words=["--help"], room=10),
]

# `follow` over each front of an input that then fails, and what it says of it.
CAPTURE = INITIAL + E2_EMPTY + E4_PAWN
LINES = [(67, b"66 agrees\n"), (72, b"71 differs e2\n"), (77, b"76 move 1. e4\n")]
FRONTS = [
    but(
        FAILED_READ,
        words=["follow"],
        sent=CAPTURE[:count],
        out=b"".join(line for least, line in LINES if count >= least),
    )
    for count in range(78)
]

# `follow` over an output in which this front of its lines finds room.
WHOLE = b"66 agrees\n71 differs e2\n76 move 1. e4\nrest 0\n"
ROOMS = [but(FAILED_WRITE, words=["follow"], room=room, out=WHOLE[:room]) for room in range(len(WHOLE))]

# Standard error fails over the capture of 1. e4.
FAILED_ERROR = Case(sent=INITIAL + E2_EMPTY + E4_PAWN)

# Nothing is written after a failure, and only a status of 0 changes.
FAILED_ERRORS = [
    but(FAILED_ERROR, words=["record"], error_room=0, status=3, out=pgn()),
    but(FAILED_ERROR, words=["record"], error_room=1, status=3, out=pgn(), err=b"B"),
    but(FAILED_ERROR, words=["record"], error_room=2, status=3, out=ONE_MOVE, err=b"BK"),
    but(FAILED_ERROR, words=["record"], error_room=5, status=3, out=ONE_MOVE, err=b"BK\nme"),
    but(FAILED_ERROR, words=["record", "--white", "a\nb"], error_room=4, status=1, err=b"tag "),
    but(FAILED_ERROR, words=["moves", "--fen", "x"], error_room=0, status=1),
    but(FAILED_ERROR, words=["follow", "--fen", "x"], error_room=4, status=1, err=b"fen:"),
    but(FAILED_ERROR, words=["check"], error_room=3, status=1, err=b"pgn"),
    but(
        FAILED_ERROR,
        words=["positions", "--fen", "4k3/8/8/8/8/8/8/4K3 w - -"],
        sent=b"e4",
        error_room=7,
        status=1,
        out=b"4k3/8/8/8/8/8/8/4K3 w - - 0 1\n",
        err=b"move 1:",
    ),
    but(FAILED_ERROR, words=["fly"], error_room=0, status=2),
    # a read fails too
    but(
        FAILED_ERROR,
        words=["show"],
        fails=True,
        error_room=0,
        status=3,
        out=INITIAL_LINE + b"71 update 52 0\n76 update 36 1\n",
    ),
]

def reads() -> None:
    """The input fails."""
    leave("reads", FAILED_READS)
    leave("fronts", FRONTS)

def writes() -> None:
    """The output fails, alone and with the input."""
    leave("writes", [but(case, room=10) for case in FAILED_WRITES])
    end("twice", FAILED_TWICE)
    leave("rooms", ROOMS)

def errors() -> None:
    """Standard error fails."""
    leave("errors", FAILED_ERRORS)

TABLES = [reads, writes, errors]
