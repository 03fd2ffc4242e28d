"""What `record` writes, and the values that it refuses; what `recover` gives on."""

from given.case import Case, but, leave, pgn, updates
from given.messages import (
    BROKEN,
    CASTLED,
    CASTLING,
    CASTLING_FEN,
    CUT,
    E2_EMPTY,
    E4_PAWN,
    INITIAL,
    KINGS_PAWN,
    ONE_MOVE,
    TIME,
    TURNED,
)

RECORD = Case(words=["record"])

RECORDED_GAMES = [
    but(RECORD, out=pgn(), err=b"BK\nmessages 0, faults 0, moves 0, rest 0\n"),
    but(RECORD, sent=INITIAL + E2_EMPTY + E4_PAWN, out=ONE_MOVE, err=b"BK\nmessages 3, faults 0, moves 1, rest 0\n"),
    but(RECORD, sent=INITIAL + CUT + KINGS_PAWN, out=ONE_MOVE, err=b"BKB\nmessages 2, faults 1, moves 1, rest 0\n"),
    but(RECORD, sent=BROKEN, out=pgn(), err=b"BKBBB\nmessages 0, faults 3, moves 0, rest 0\n"),
    but(RECORD, sent=INITIAL + b"\x8e\x00\x05\x34", out=pgn(), err=b"BK\nmessages 1, faults 0, moves 0, rest 4\n"),
]

# White castles short.
CASTLING_CAPTURE = Case(sent=CASTLING + updates("e1- g1K h1- f1R"), out=CASTLED, err=b"BK\nmessages 5, faults 0, moves 1, rest 0\n")

# 1. e4 on a rotated board.
TURNED_CAPTURE = Case(sent=TURNED + updates("d7- d5P"))

SET_UP_GAMES = [
    but(CASTLING_CAPTURE, words=["record", "--fen", CASTLING_FEN]),
    but(CASTLING_CAPTURE, words=["record", "--fen", "4k3/8/8/8/8/8/8/4K2R w K -"]),
    but(TURNED_CAPTURE, words=["record", "--rotated"], out=ONE_MOVE, err=b"BK\nmessages 3, faults 0, moves 1, rest 0\n"),
    but(TURNED_CAPTURE, words=["record"], out=pgn(), err=b"BK\nmessages 3, faults 0, moves 0, rest 0\n"),
    Case(
        words=["record", "--event", "Open", "--site", "Oslo", "--date", "2024.??.??", "--round", "1", "--white", "Anna \"A\"", "--black", ""],
        sent=INITIAL + E2_EMPTY + E4_PAWN,
        out=pgn(movetext="1. e4 *", event="Open", site="Oslo", date="2024.??.??", round="1", white="Anna \\\"A\\\"", black=""),
        err=b"BK\nmessages 3, faults 0, moves 1, rest 0\n",
    ),
    Case(words=["record", "--white", "Anna"], out=pgn(white="Anna"), err=b"BK\nmessages 0, faults 0, moves 0, rest 0\n"),
]

# 1. e4 e5 after a time. The first group of its digits is White's.
TIMED_CAPTURE = Case(
    sent=INITIAL + TIME + E2_EMPTY + E4_PAWN + updates("e7- e5p"),
    out=pgn(movetext="1. e4 {[%clk 1:30:00]} 1... e5 {[%clk 1:29:59]} *"),
    err=b"BK\nmessages 6, faults 0, moves 2, rest 0\n",
)

TIMED_GAMES = [
    but(TIMED_CAPTURE, words=["record"]),
    but(TIMED_CAPTURE, words=["record", "--first", "white"]),
    but(
        TIMED_CAPTURE,
        words=["record", "--first", "black"],
        out=pgn(movetext="1. e4 {[%clk 1:29:59]} 1... e5 {[%clk 1:30:00]} *"),
    ),
    Case(
        words=["record", "--first", "black"],
        sent=INITIAL + TIME + E2_EMPTY + E4_PAWN,
        out=pgn(movetext="1. e4 {[%clk 1:29:59]} *"),
        err=b"BK\nmessages 4, faults 0, moves 1, rest 0\n",
    ),
]

# The kings are lifted, and then stand in the centre.
KINGS_CAPTURE = but(RECORD, err=b"BK\nmessages 5, faults 0, moves 0, rest 0\n")

RESULTS = [
    # on dark squares
    but(KINGS_CAPTURE, sent=INITIAL + updates("e1- e8- d4K e5k"), out=pgn(result="0-1", movetext="0-1")),
    # on squares of both colours
    but(KINGS_CAPTURE, sent=INITIAL + updates("e1- e8- e4K e5k"), out=pgn(result="1/2-1/2", movetext="1/2-1/2")),
]

# A hundred and one bytes.
LONG_NAME = "x" * 101

# A FEN without Black's king.
ONE_KING = "8/8/8/8/8/8/8/4K3 w - - 0 1"

REFUSED_RECORD = Case(sent=INITIAL + E2_EMPTY + E4_PAWN, more=1, unread=1, status=1)

REFUSED_VALUES = [
    but(REFUSED_RECORD, words=["record", "--fen", ONE_KING], err=b"fen: kings\n"),
    but(REFUSED_RECORD, words=["record", "--white", LONG_NAME], err=b"tag White: long\n"),
    but(REFUSED_RECORD, words=["record", "--event", "a\nb"], err=b"tag Event: text\n"),
    but(REFUSED_RECORD, words=["record", "--black", "M\u00fcller"], err=b"tag Black: text\n"),
    but(REFUSED_RECORD, words=["record", "--date", "2024.5.1"], err=b"tag Date: date\n"),
    but(REFUSED_RECORD, words=["record", "--date", ""], err=b"tag Date: date\n"),
    # the position before the tags, and these in their order
    but(REFUSED_RECORD, words=["record", "--site", LONG_NAME, "--fen", ONE_KING], err=b"fen: kings\n"),
    but(REFUSED_RECORD, words=["record", "--round", LONG_NAME, "--site", LONG_NAME], err=b"tag Site: long\n"),
]

def record() -> None:
    """`record` of games, and of values that it refuses."""
    leave("record", RECORDED_GAMES, SET_UP_GAMES, TIMED_GAMES, RESULTS)
    leave("values", REFUSED_VALUES)

TABLES = [record]
