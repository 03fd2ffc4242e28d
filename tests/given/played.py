"""Games told in words, and what `record` makes of them: played.txt says how to read it."""

import pathlib
from typing import Iterator, Tuple

from decided.table import same
from given.case import Case, dump, left_by, pgn, updates

INITIAL_FEN = "rnbqkbnr/pppppppp/8/8/8/8/PPPPPPPP/RNBQKBNR w KQkq - 0 1"
GAMES = pathlib.Path(__file__).with_name("played.txt")


def message(word: str) -> bytes:
    """What the board sends, by a word."""
    if word == ",":
        return b""
    if ":" in word:
        return b"\x8d\x00\x0a" + bytes.fromhex(word.replace(":", "").replace("-", "")) + b"\0"
    return dump(word) if "/" in word else updates(word)


def fronts() -> Iterator[Tuple[str, str, bytes, bytes]]:
    """Each line of a game: where it is, the FEN of the start, what the board has sent up to its end, and the text."""
    games, fen, sent = "", "", b""
    for line in GAMES.read_text().splitlines():
        words, equals, movetext = line.partition("=")
        if line.startswith("#"):
            continue
        if line.startswith("=="):
            games = line[2:].strip()
        elif equals:
            sent += b"".join(map(message, words.split()))
            movetext = movetext.strip()
            yield f"{games}: {line.strip()}", fen, sent, pgn(movetext, movetext.split()[-1], fen)
        elif ":" in line:
            fen = line.partition(":")[2].strip()
            sent = dump((fen or INITIAL_FEN).split()[0])


def played() -> None:
    """The text is that of the game, and nothing is asked of the board but at the start."""
    for name, fen, sent, text in fronts():
        status, out, err, _ = left_by(Case(words=["record", *(["--fen", fen] if fen else [])], sent=sent))
        same(name, (status, out, err[:3]), (0, text, b"BK\n"))


TABLES = [played]
