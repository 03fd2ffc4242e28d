"""Arguments that are refused, help, and the version."""

from typing import List

from decided.table import same
from given.case import Case, but, leave, left_by
from given.messages import E2_EMPTY, E4_PAWN, INITIAL

REFUSED_ARGUMENTS: List[List[str]] = [
    [],
    ["fly"],
    ["record", "--first", "green"],
    ["record", "--fen"],
    ["follow", "--first", "green"],
    ["follow", "--white", "Anna"],
    ["watch", "--first", "green"],
    ["watch", "--white", "Anna"],
    ["recover", "--first", "green"],
    ["recover", "--first"],
    ["recover", "--white", "Anna"],
    ["recover", "--rotated", "--rotated"],
    ["recover", "--fen", "x", "--fen", "x"],
    ["recover", "game.dgt"],
    ["live", "--first", "green"],
    ["live", "--line", "e4"],
    ["live", "board.entries"],
    ["show", "--rotated"],
    ["moves", "--rotated"],
    ["positions", "e4"],
    ["check", "game.pgn"],
    ["times", "game.times"],
    ["pictures", "--rotated", "--rotated"],
]

# Over no input, and over the capture of 1. e4 and one byte more, which isn't read.
INPUTS = [(b"", 0), (INITIAL + E2_EMPTY + E4_PAWN, 1)]

HELP = [["--help"], ["help"], ["record", "--help"]]

# Both arguments for the version print it.
VERSIONS = [
    Case(words=["--version"], out=b"dgt_replay 0.1.0\n"),
    Case(words=["-V"], out=b"dgt_replay 0.1.0\n"),
]

REFUSED_FEN = Case(sent=INITIAL + E2_EMPTY + E4_PAWN, more=1, unread=1, status=1)

# Before anything is read, a FEN that no position has is refused.
REFUSED_FENS = [
    but(REFUSED_FEN, words=["recover", "--fen", "8/8/8/8/8/8/8/4K3 w - - 0 1"], err=b"fen: kings\n"),
    but(REFUSED_FEN, words=["recover", "--rotated", "--first", "black", "--fen", "x"], err=b"fen: form\n"),
    but(REFUSED_FEN, words=["live", "--recover", "--fen", "x"], err=b"fen: form\n"),
]

def arguments() -> None:
    """They have status 2 and something on standard error, and no output; nothing is read."""
    for words in REFUSED_ARGUMENTS:
        for sent, more in INPUTS:
            status, out, err, unread = left_by(Case(words, sent, more))
            same(f"{words} over {sent.hex()}", (status, out, bool(err), unread), (2, b"", True, more))

def answers() -> None:
    """Help and the version are printed; a FEN that no position has is refused before anything is read."""
    for words in HELP:
        status, out, err, _ = left_by(Case(words))
        same(f"{words}", (status, bool(out), err), (0, True, b""))
    leave("versions", VERSIONS)
    leave("FENs", REFUSED_FENS)

TABLES = [arguments, answers]
