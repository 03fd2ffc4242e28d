"""What `check` says of texts."""

from given.case import Case, but, leave, pgn
from given.messages import CASTLED, ONE_MOVE

CHECK = Case(words=["check"])

NOT_EXPORT = but(CHECK, status=1, err=b"pgn: not export\n")

EXPORT_TEXTS = [
    but(CHECK, sent=pgn(), out=b"moves 0, result *\n"),
    but(CHECK, sent=ONE_MOVE, out=b"moves 1, result *\n"),
    but(CHECK, sent=CASTLED, out=b"moves 1, result *\n"),
    but(CHECK, sent=pgn(movetext="1. e4 {[%clk 1:29:59]} *"), out=b"moves 1, result *\n"),
    but(CHECK, sent=pgn(white="Anna"), out=b"moves 0, result *\n"),
]

RESULTS = [
    but(CHECK, sent=pgn(result="1-0", movetext="1-0"), out=b"moves 0, result 1-0\n"),
    but(CHECK, sent=pgn(result="0-1", movetext="0-1"), out=b"moves 0, result 0-1\n"),
    but(CHECK, sent=pgn(result="1/2-1/2", movetext="1/2-1/2"), out=b"moves 0, result 1/2-1/2\n"),
    but(CHECK, sent=pgn(result="0-1", movetext="1. f3 e5 2. g4 Qh4# 0-1"), out=b"moves 4, result 0-1\n"),
]

OTHER_TEXTS = [
    NOT_EXPORT,
    # a mate that White should have won
    but(NOT_EXPORT, sent=pgn(result="1-0", movetext="1. f3 e5 2. g4 Qh4# 1-0")),
    # two results
    but(NOT_EXPORT, sent=pgn(result="1-0")),
    # a line too many
    but(NOT_EXPORT, sent=pgn(movetext="*\n")),
    # a move by its squares
    but(NOT_EXPORT, sent=pgn(movetext="1. e2e4 *")),
    # the initial position set up
    but(NOT_EXPORT, sent=pgn(movetext="1. e4 *", fen="rnbqkbnr/pppppppp/8/8/8/8/PPPPPPPP/RNBQKBNR w KQkq - 0 1")),
    # a set-up of four fields
    but(NOT_EXPORT, sent=pgn(movetext="1. O-O *", fen="4k3/8/8/8/8/8/8/4K2R w K -")),
]

# A carriage return before each line feed.
RETURNS = [but(NOT_EXPORT, sent=ONE_MOVE.replace(b"\n", b"\r\n"))]

# Each front of the text of 1. e4.
FRONTS = [but(NOT_EXPORT, sent=ONE_MOVE[:count]) for count in range(len(ONE_MOVE))]

def check() -> None:
    """`check` of export texts and of others."""
    leave("check", EXPORT_TEXTS, RESULTS, OTHER_TEXTS, RETURNS)
    leave("fronts", FRONTS)

TABLES = [check]
