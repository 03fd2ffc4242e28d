"""The lines of `follow`."""

from given.case import Case, TOP, but, dump, leave, updates
from given.messages import (
    BROKEN,
    CASTLING,
    CASTLING_FEN,
    CUT,
    E2_EMPTY,
    E2_PAWN,
    E4_PAWN,
    INITIAL,
    KINGS_PAWN,
    MATE,
    OTHER,
    TIME,
    TURNED,
    TWO_KINGS,
)

SHORT_GAME = (TOP / "samples" / "short-game.dgt").read_bytes()

# White's pawn is about to promote.
PROMOTION = dump("8/P3k3/8/8/8/8/8/4K3")

# White may capture en passant on d6.
EN_PASSANT = dump("4k3/8/8/3pP3/8/8/8/4K3")

# After 1. e4 e5.
TWO_PAWNS = dump("rnbqkbnr/pppp1ppp/8/4p3/4P3/8/PPPP1PPP/RNBQKBNR")

# `follow` over no input.
FOLLOW = Case(words=["follow"])

FOLLOWED_CAPTURES = [
    but(FOLLOW, out=b"rest 0\n"),
    but(
        FOLLOW,
        sent=SHORT_GAME,
        out=b"66 agrees\n101 differs e2\n106 move 1. e4 1:29:55\n131 differs e7\n136 move 1... e5 1:29:48\n"
        + b"151 differs g1\n156 move 2. Nh3 1:29:42\n171 differs h3\n176 correction 2. Nf3 1:29:41\n195 fault cut\n"
        + b"261 differs b8\n276 move 2... Nc6 1:29:30\n291 differs f1\n296 move 3. Bb5 1:29:20\nrest 0\n",
    ),
    # nothing is said of what repeats the picture, or of a time
    but(
        FOLLOW,
        sent=INITIAL + TIME + INITIAL + E2_EMPTY + E2_EMPTY + E4_PAWN + E4_PAWN + TIME,
        out=b"66 agrees\n148 differs e2\n158 move 1. e4 1:30:00\nrest 0\n",
    ),
    but(
        FOLLOW,
        words=["follow", "--first", "black"],
        sent=INITIAL + TIME + E2_EMPTY + E4_PAWN,
        out=b"66 agrees\n81 differs e2\n86 move 1. e4 1:29:59\nrest 0\n",
    ),
    but(FOLLOW, sent=INITIAL + E2_PAWN + OTHER + CUT, out=b"66 agrees\nrest 4\n"),
    # a fault, after which a dump shows a move
    but(FOLLOW, sent=INITIAL + CUT + KINGS_PAWN, out=b"66 agrees\n71 fault cut\n137 move 1. e4\nrest 0\n"),
    # updates before a dump show nothing
    but(FOLLOW, sent=BROKEN + E2_EMPTY + INITIAL, out=b"0 fault stray\n5 fault size\n9 fault data\n81 agrees\nrest 0\n"),
]

FOLLOWED_BOARDS = [
    but(
        FOLLOW,
        words=["follow", "--rotated"],
        sent=TURNED + updates("d7- d5P"),
        out=b"66 agrees\n71 differs e2\n76 move 1. e4\nrest 0\n",
    ),
    # a board the wrong way round
    but(
        FOLLOW,
        sent=TURNED,
        out=b"66 differs a8 b8 c8 d8 e8 f8 g8 h8 a7 b7 c7 d7 e7 f7 g7 h7"
        + b" a2 b2 c2 d2 e2 f2 g2 h2 a1 b1 c1 d1 e1 f1 g1 h1\nrest 0\n",
    ),
    # two plies that were not seen
    but(
        FOLLOW,
        sent=INITIAL + TWO_PAWNS + updates("g1-"),
        out=b"66 agrees\n133 differs e7 e5 e4 e2\n138 differs e7 e5 e4 e2 g1\nrest 0\n",
    ),
    # Black to move
    but(
        FOLLOW,
        words=["follow", "--fen", "4k3/8/8/8/8/8/8/4K3 b - - 0 5"],
        sent=TWO_KINGS + updates("e8- e7k"),
        out=b"66 agrees\n71 differs e8\n76 move 5... Ke7\nrest 0\n",
    ),
]

FOLLOWED_MOVES = [
    # a promotion to a queen, and then to a knight
    but(
        FOLLOW,
        words=["follow", "--fen", "8/P3k3/8/8/8/8/8/4K3 w - - 0 1"],
        sent=PROMOTION + updates("a7- a8P a8Q a8N"),
        out=b"66 agrees\n71 differs a7\n76 differs a8 a7\n81 move 1. a8=Q\n86 correction 1. a8=N\nrest 0\n",
    ),
    # castling, the rook first
    but(
        FOLLOW,
        words=["follow", "--fen", CASTLING_FEN],
        sent=CASTLING + updates("h1- f1R e1- g1K"),
        out=b"66 agrees\n71 differs h1\n76 move 1. Rf1\n81 differs e1\n86 correction 1. O-O\nrest 0\n",
    ),
    but(
        FOLLOW,
        words=["follow", "--fen", "4k3/8/8/3pP3/8/8/8/4K3 w - d6 0 2"],
        sent=EN_PASSANT + updates("d5- e5- d6P"),
        out=b"66 agrees\n71 differs d5\n76 differs d5 e5\n81 move 2. exd6\nrest 0\n",
    ),
]

FOLLOWED_RESULTS = [
    # the kings give a sign, and a move clears it
    but(
        FOLLOW,
        words=["follow", "--fen", "4k3/8/8/8/8/8/8/4K3 w - - 0 1"],
        sent=TWO_KINGS + updates("e1- e8- e4K d5k d5- e8k e4- e2K"),
        out=b"66 agrees\n71 differs e1\n76 differs e8 e1\n81 differs e8 e4 e1\n86 result 1-0\n91 differs e8 e4 e1\n"
        + b"96 differs e4 e1\n101 differs e1\n106 move 1. Ke2\n106 result *\nrest 0\n",
    ),
    # a mate, corrected
    but(
        FOLLOW,
        words=["follow", "--fen", "k7/8/1K6/8/8/8/8/7R w - - 0 1"],
        sent=MATE + updates("h1- h8R h8- h7R"),
        out=b"66 agrees\n71 differs h1\n76 move 1. Rh8#\n76 result 1-0\n81 differs h8\n86 correction 1. Rh7\n86 result *\nrest 0\n",
    ),
    # no position has the FEN
    but(FOLLOW, words=["follow", "--fen", "8/8/8/8/8/8/8/4K3 w - - 0 1"], sent=INITIAL, status=1, err=b"fen: kings\n"),
]

def follow() -> None:
    """`follow` over captures, boards, moves and results."""
    leave("follow", FOLLOWED_CAPTURES, FOLLOWED_BOARDS, FOLLOWED_MOVES, FOLLOWED_RESULTS)

TABLES = [follow]
