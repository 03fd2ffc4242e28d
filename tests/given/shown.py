"""The lines of `show` and of `pictures`."""

from given.case import Case, but, leave, updates
from given.messages import (
    BROKEN,
    CUT,
    E2_EMPTY,
    E2_PAWN,
    E4_PAWN,
    INITIAL,
    INITIAL_LINE,
    INITIAL_PLACEMENT,
    KINGS_PAWN,
    KINGS_PAWN_PLACEMENT,
    LIFTED_PLACEMENT,
    OTHER,
    TIME,
    TURNED,
)

SHOW = Case(words=["show"])

SHOWN_CAPTURES = [
    but(SHOW, out=b"rest 0\n"),
    but(SHOW, sent=INITIAL + E2_EMPTY + E4_PAWN, out=INITIAL_LINE + b"71 update 52 0\n76 update 36 1\nrest 0\n"),
    but(
        SHOW,
        sent=INITIAL + E2_EMPTY + OTHER + E4_PAWN,
        out=INITIAL_LINE + b"71 update 52 0\n76 other 93 5\n81 update 36 1\nrest 0\n",
    ),
    but(
        SHOW,
        sent=INITIAL + CUT + KINGS_PAWN,
        out=INITIAL_LINE + b"71 fault cut\n"
        + b"137 dump 89acba9877777777000000000000000000001000000000001111011123465432\nrest 0\n",
    ),
    but(SHOW, sent=CUT, out=b"rest 4\n"),
    but(SHOW, sent=INITIAL + E2_EMPTY + b"\x8e\x00\x05\x24", out=INITIAL_LINE + b"71 update 52 0\nrest 4\n"),
]

SHOWN_FRAMES = [
    but(SHOW, sent=E2_EMPTY + OTHER, out=b"4 update 52 0\n9 other 93 5\nrest 0\n"),
    but(SHOW, sent=OTHER, out=b"4 other 93 5\nrest 0\n"),
    but(SHOW, sent=TIME, out=b"9 time 01 30 00 01 29 59 00\nrest 0\n"),
    but(SHOW, sent=b"\x8d\x00\x0a\x7f\x0a\x1b\x2c\x3d\x4e\x5f", out=b"9 time 7f 0a 1b 2c 3d 4e 5f\nrest 0\n"),
    but(SHOW, sent=b"\x80\x00\x03", out=b"2 other 80 3\nrest 0\n"),
]

SHOWN_FAULTS = [
    but(SHOW, sent=BROKEN, out=b"0 fault stray\n5 fault size\n9 fault data\nrest 0\n"),
    but(SHOW, sent=b"\x8e" + updates("e2-"), out=b"1 fault cut\n5 update 52 0\nrest 0\n"),
    but(SHOW, sent=b"\x93\x00\x02", out=b"2 fault size\nrest 0\n"),
    but(SHOW, sent=b"\x86\x00\x42", out=b"2 fault size\nrest 0\n"),
    but(SHOW, sent=b"\x86\x01", out=b"1 fault size\nrest 0\n"),
    but(SHOW, sent=b"\x8e\x00\x05\x00\x10", out=b"4 fault data\nrest 0\n"),
    but(SHOW, sent=b"\x8d\x00\x0b", out=b"2 fault size\nrest 0\n"),
]

PICTURES = Case(words=["pictures"])

PRINTED_PICTURES = [
    PICTURES,
    but(PICTURES, sent=INITIAL + E2_EMPTY + E4_PAWN, out=INITIAL_PLACEMENT + LIFTED_PLACEMENT + KINGS_PAWN_PLACEMENT),
    but(
        PICTURES,
        sent=INITIAL + E4_PAWN + E2_EMPTY,
        out=INITIAL_PLACEMENT + b"rnbqkbnr/pppppppp/8/8/4P3/8/PPPPPPPP/RNBQKBNR\n" + KINGS_PAWN_PLACEMENT,
    ),
    but(
        PICTURES,
        sent=INITIAL + E2_EMPTY + E2_PAWN + INITIAL + E2_EMPTY + E4_PAWN,
        out=INITIAL_PLACEMENT + LIFTED_PLACEMENT + INITIAL_PLACEMENT + LIFTED_PLACEMENT + KINGS_PAWN_PLACEMENT,
    ),
    # a rank that grows, shrinks and empties
    but(
        PICTURES,
        sent=INITIAL + E4_PAWN + updates("a4p e4- a4-"),
        out=INITIAL_PLACEMENT + b"rnbqkbnr/pppppppp/8/8/4P3/8/PPPPPPPP/RNBQKBNR\n"
        + b"rnbqkbnr/pppppppp/8/8/p3P3/8/PPPPPPPP/RNBQKBNR\n" + b"rnbqkbnr/pppppppp/8/8/p7/8/PPPPPPPP/RNBQKBNR\n"
        + INITIAL_PLACEMENT,
    ),
    but(PICTURES, sent=INITIAL + updates("e2*"), out=INITIAL_PLACEMENT + b"rnbqkbnr/pppppppp/8/8/8/8/PPPP*PPP/RNBQKBNR\n"),
]

TRUSTED_PICTURES = [
    but(PICTURES, sent=INITIAL + CUT + KINGS_PAWN, out=INITIAL_PLACEMENT + KINGS_PAWN_PLACEMENT),
    but(PICTURES, sent=INITIAL + CUT + E4_PAWN, out=INITIAL_PLACEMENT),
    # updates between a fault and the next dump
    but(PICTURES, sent=INITIAL + CUT + E2_EMPTY + E4_PAWN + INITIAL + E2_EMPTY, out=INITIAL_PLACEMENT + LIFTED_PLACEMENT),
    # a dump after a fault, and an update of what it shows
    but(
        PICTURES,
        sent=INITIAL + E2_EMPTY + CUT + INITIAL + E4_PAWN,
        out=INITIAL_PLACEMENT + LIFTED_PLACEMENT + INITIAL_PLACEMENT + b"rnbqkbnr/pppppppp/8/8/4P3/8/PPPPPPPP/RNBQKBNR\n",
    ),
    but(PICTURES, sent=E2_EMPTY + E4_PAWN),
    but(PICTURES, sent=BROKEN),
]

TURNED_PICTURES = [
    but(
        PICTURES,
        sent=TURNED + updates("d7- d5P"),
        out=b"RNBKQBNR/PPPPPPPP/8/8/8/8/pppppppp/rnbkqbnr\n" + b"RNBKQBNR/PPP1PPPP/8/8/8/8/pppppppp/rnbkqbnr\n"
        + b"RNBKQBNR/PPP1PPPP/8/3P4/8/8/pppppppp/rnbkqbnr\n",
    ),
    Case(
        words=["pictures", "--rotated"],
        sent=TURNED + updates("d7- d5P"),
        out=INITIAL_PLACEMENT + LIFTED_PLACEMENT + KINGS_PAWN_PLACEMENT,
    ),
]

def show() -> None:
    """`show` over captures, frames and faults."""
    leave("show", SHOWN_CAPTURES, SHOWN_FRAMES, SHOWN_FAULTS)

def pictures() -> None:
    """`pictures` over what is trusted, and over turned boards."""
    leave("pictures", PRINTED_PICTURES, TRUSTED_PICTURES, TURNED_PICTURES)

TABLES = [show, pictures]
