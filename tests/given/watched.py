"""The lines of `watch`."""

from given.case import Case, but, leave, leave_by_bytes, updates
from given.messages import BROKEN, CUT, E2_EMPTY, E4_PAWN, INITIAL, KINGS_PAWN, MATE, NO_CLOCK, OTHER, TIME, TURNED, TWO_KINGS

# `watch` over no input.
WATCH = Case(words=["watch"])

# The initial position.
START = b"0 position rnbqkbnr/pppppppp/8/8/8/8/PPPPPPPP/RNBQKBNR w KQkq - 0 1\n"

# What the first dump of it says.
AGREES = b"66 picture rnbqkbnr/pppppppp/8/8/8/8/PPPPPPPP/RNBQKBNR\n66 agrees\n"

WATCHED_CAPTURES = [
    but(WATCH, out=START + b"rest 0\n"),
    # a picture and a reading that come again say nothing
    but(
        WATCH,
        sent=INITIAL + TIME + INITIAL + TIME + E2_EMPTY + E4_PAWN + OTHER + CUT,
        out=START + AGREES + b"76 clock 1:30:00 1:29:59\n"
        + b"158 picture rnbqkbnr/pppppppp/8/8/8/8/PPPP1PPP/RNBQKBNR\n158 differs e2\n"
        + b"163 picture rnbqkbnr/pppppppp/8/8/4P3/8/PPPP1PPP/RNBQKBNR\n163 move 1. e4 1:30:00\n"
        + b"163 position rnbqkbnr/pppppppp/8/8/4P3/8/PPPP1PPP/RNBQKBNR b KQkq e3 0 1\nrest 4\n",
    ),
    but(
        WATCH,
        words=["watch", "--first", "black"],
        sent=TIME + INITIAL,
        out=START + b"9 clock 1:29:59 1:30:00\n"
        + b"76 picture rnbqkbnr/pppppppp/8/8/8/8/PPPPPPPP/RNBQKBNR\n76 agrees\nrest 0\n",
    ),
    # no clock after a clock, and one again
    but(
        WATCH,
        sent=NO_CLOCK + TIME + NO_CLOCK + NO_CLOCK + TIME,
        out=START + b"19 clock 1:30:00 1:29:59\n29 clock --:--:-- --:--:--\n49 clock 1:30:00 1:29:59\nrest 0\n",
    ),
    # a fault, and the dump behind it shows a move
    but(
        WATCH,
        sent=INITIAL + CUT + KINGS_PAWN,
        out=START + AGREES + b"71 fault cut\n137 picture rnbqkbnr/pppppppp/8/8/4P3/8/PPPP1PPP/RNBQKBNR\n137 move 1. e4\n"
        + b"137 position rnbqkbnr/pppppppp/8/8/4P3/8/PPPP1PPP/RNBQKBNR b KQkq e3 0 1\nrest 0\n",
    ),
    # updates before a dump show nothing
    but(
        WATCH,
        sent=BROKEN + E2_EMPTY + INITIAL,
        out=START + b"0 fault stray\n5 fault size\n9 fault data\n"
        + b"81 picture rnbqkbnr/pppppppp/8/8/8/8/PPPPPPPP/RNBQKBNR\n81 agrees\nrest 0\n",
    ),
]

WATCHED_GAMES = [
    # a rotated board, and a pawn set down a square too far
    but(
        WATCH,
        words=["watch", "--rotated"],
        sent=TURNED + updates("d7- d5P d5- d6P"),
        out=START + AGREES + b"71 picture rnbqkbnr/pppppppp/8/8/8/8/PPPP1PPP/RNBQKBNR\n71 differs e2\n"
        + b"76 picture rnbqkbnr/pppppppp/8/8/4P3/8/PPPP1PPP/RNBQKBNR\n76 move 1. e4\n"
        + b"76 position rnbqkbnr/pppppppp/8/8/4P3/8/PPPP1PPP/RNBQKBNR b KQkq e3 0 1\n"
        + b"81 picture rnbqkbnr/pppppppp/8/8/8/8/PPPP1PPP/RNBQKBNR\n81 differs e4\n"
        + b"86 picture rnbqkbnr/pppppppp/8/8/8/4P3/PPPP1PPP/RNBQKBNR\n86 correction 1. e3\n"
        + b"86 position rnbqkbnr/pppppppp/8/8/8/4P3/PPPP1PPP/RNBQKBNR b KQkq - 0 1\nrest 0\n",
    ),
    # a mate, corrected
    but(
        WATCH,
        words=["watch", "--fen", "k7/8/1K6/8/8/8/8/7R w - - 0 1"],
        sent=MATE + updates("h1- h8R h8- h7R"),
        out=b"0 position k7/8/1K6/8/8/8/8/7R w - - 0 1\n66 picture k7/8/1K6/8/8/8/8/7R\n66 agrees\n"
        + b"71 picture k7/8/1K6/8/8/8/8/8\n71 differs h1\n76 picture k6R/8/1K6/8/8/8/8/8\n"
        + b"76 move 1. Rh8#\n76 position k6R/8/1K6/8/8/8/8/8 b - - 1 1\n"
        + b"76 result 1-0\n76 position k6R/8/1K6/8/8/8/8/8 b - - 1 1\n"
        + b"81 picture k7/8/1K6/8/8/8/8/8\n81 differs h8\n86 picture k7/7R/1K6/8/8/8/8/8\n"
        + b"86 correction 1. Rh7\n86 position k7/7R/1K6/8/8/8/8/8 b - - 1 1\n"
        + b"86 result *\n86 position k7/7R/1K6/8/8/8/8/8 b - - 1 1\nrest 0\n",
    ),
    # the kings give a sign, and a move clears it
    but(
        WATCH,
        words=["watch", "--fen", "4k3/8/8/8/8/8/8/4K3 w - - 0 1"],
        sent=TWO_KINGS + updates("e1- e8- e4K d5k d5- e8k e4- e2K"),
        out=b"0 position 4k3/8/8/8/8/8/8/4K3 w - - 0 1\n66 picture 4k3/8/8/8/8/8/8/4K3\n66 agrees\n"
        + b"71 picture 4k3/8/8/8/8/8/8/8\n71 differs e1\n76 picture 8/8/8/8/8/8/8/8\n76 differs e8 e1\n"
        + b"81 picture 8/8/8/8/4K3/8/8/8\n81 differs e8 e4 e1\n86 picture 8/8/8/3k4/4K3/8/8/8\n"
        + b"86 result 1-0\n86 position 4k3/8/8/8/8/8/8/4K3 w - - 0 1\n"
        + b"91 picture 8/8/8/8/4K3/8/8/8\n91 differs e8 e4 e1\n96 picture 4k3/8/8/8/4K3/8/8/8\n96 differs e4 e1\n"
        + b"101 picture 4k3/8/8/8/8/8/8/8\n101 differs e1\n106 picture 4k3/8/8/8/8/8/4K3/8\n"
        + b"106 move 1. Ke2\n106 position 4k3/8/8/8/8/8/4K3/8 b - - 1 1\n"
        + b"106 result *\n106 position 4k3/8/8/8/8/8/4K3/8 b - - 1 1\nrest 0\n",
    ),
    # no position has the FEN
    but(WATCH, words=["watch", "--fen", "8/8/8/8/8/8/8/4K3 w - - 0 1"], sent=INITIAL, status=1, err=b"fen: kings\n"),
]

# The position at the start stands before anything is read, and the lines of all bytes before each read.
WATCHED_FRONTS = [
    but(WATCH, fails=True, status=3, out=START, err=b"read fault\n"),
    but(WATCH, sent=INITIAL, fails=True, status=3, out=START + AGREES, err=b"read fault\n"),
    # of arguments that are refused nothing is told
    but(WATCH, words=["watch", "--fen", "x"], status=1, err=b"fen: form\n"),
]

# Where the first write fails, nothing is read.
UNTOLD = but(WATCH, status=3, err=b"write fault\n", more=1, unread=1, room=0)

def watch() -> None:
    """`watch` whole, and where a read gives one byte."""
    leave("watch", WATCHED_CAPTURES, WATCHED_GAMES, WATCHED_FRONTS, [UNTOLD])
    leave_by_bytes("watch byte by byte", WATCHED_CAPTURES, WATCHED_GAMES)

TABLES = [watch]
