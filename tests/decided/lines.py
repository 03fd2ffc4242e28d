"""What the program says of typed lines, `dgt_replay add`: the tables of lines.json. Their values are worked by hand from the Laws,
from FORMATS, "Lines of `add`", "The sign of a result" and "The seven bytes of a time message", and from PGN's words for moves."""

import os
import pathlib
import subprocess
from typing import List, Optional, Sequence, Tuple

from live.child.program import Program
from live.game.options import Options
from live.game.typed import BOARD, ENDED, RESULT, ask_to_add, dump_at_end
from live.line.protocol import SQUARES, picture_of_placement

from decided.cases import bytes_of, cases
from decided.table import same
from recovering.frames import dump

PROGRAM = os.environ.get("PROGRAM") or str(pathlib.Path(__file__).resolve().parents[2] / "bin" / "dgt_replay")


def asked(line: str, fen: Optional[str] = None, sent: bytes = b"", options: Sequence[str] = ()) -> Tuple[int, str, bytes]:
    """The status, the line on standard error without `add: `, and the bytes."""
    start: List[str] = [f"--fen={fen}"] if fen else []
    answer = subprocess.run([PROGRAM, "add", *start, *options, f"--line={line}"], input=sent, stdout=subprocess.PIPE, stderr=subprocess.PIPE)
    front, _, rest = answer.stderr.decode().partition("add: ")
    return answer.returncode, front + rest.rstrip("\n"), answer.stdout


def lines() -> None:
    """What it says of each line; its status is 0 where something is added, and only then are there bytes."""
    for line, fen, expected in cases("lines", "said"):
        status, said, put = asked(line, fen)
        adds = expected.startswith(("moves", "result"))
        same(f"{line!r} in {fen}", (said, status, bool(put)), (expected, 0 if adds else 1, adds))
    for letter, count in cases("lines", "repeated"):
        same(f"{count} times {letter}", asked(letter * count), (1, f"unknown 0 {letter * count}", b""))
    for word, fen, meant in cases("lines", "meant"):
        same(f"{word} in {fen}", asked(word, fen), (1, f"meant 0 {word} {meant}", b""))
        same(f"{meant} in {fen}", asked(meant, fen)[:2], (0, "moves 1"))


def results() -> None:
    """The sign of a result, and where there is none."""
    for fen, can_be_added in cases("lines", "no result"):
        same(f"a result of {fen}", asked("1-0", fen)[:2], (0, "result 1-0") if can_be_added else (1, ENDED))
    for fen, outcome, squares in cases("lines", "signs"):
        codes = list(picture_of_placement(fen))
        for word in squares.split():
            codes[SQUARES.index(word[:2])] = ".PRNBKQprnbkq*".index(word[2])
        for rotated in (False, True):
            sign = dump(codes, rotated)
            put = asked(outcome, fen, options=["--rotated"] if rotated else [])[2]
            same(f"{outcome} over {fen}, {rotated}", put[: len(sign)], sign)


def bytes_to_add() -> None:
    """The bytes, and where what the board shows would change the game."""
    for name, line, sent, options, expected in cases("lines", "bytes"):
        same(name, asked(line, sent=bytes_of(sent), options=options)[2], bytes_of(expected))
    for name, line, shown in cases("lines", "board"):
        same(name, asked(line, sent=bytes_of(shown)), (1, BOARD, b""))


def dumps() -> None:
    """The dump of the board as it stands, which ends a capture without plies."""
    for name, placement, rotated, first, part in cases("lines", "dumps"):
        expected, sent = bytes_of(part), dump(picture_of_placement(placement), rotated)
        made = dump_at_end(Program(PROGRAM), Options(rotated=rotated, fen=f"{placement} w - - 0 1"), dump(EMPTY, rotated) + sent)
        same(name, made[first : first + len(expected)], expected)
        updates = b"".join(bytes((0x8E, 0, 5, field, code)) for field, code in enumerate(sent[3:]))
        made = dump_at_end(Program(PROGRAM), Options(rotated=rotated), dump(EMPTY, rotated) + updates)
        same(f"{name}, by updates", made[first : first + len(expected)], expected)


EMPTY = [0] * 64
HAND = " r1bqkbnr/pppp1ppp/2n5/1B2p3/4P3/5N2/PPPP1PPP/RNBQ3R"  # a king is lifted


def went_back(to: str, sent: bytes, options: Sequence[str] = ()) -> Tuple[int, str, bytes]:
    """The status, the line on standard error without `back: `, and the new capture."""
    answer = subprocess.run([PROGRAM, "back", *options, f"--to={to}"], input=sent, stdout=subprocess.PIPE, stderr=subprocess.PIPE)
    front, _, rest = answer.stderr.decode().partition("back: ")
    return answer.returncode, front + rest.rstrip("\n"), answer.stdout


def back() -> None:
    """Which plies stay, and the new capture."""
    (game,) = cases("lines", "game")
    for more, table in ((HAND, "stay"), ("", "still shown")):
        for to, expected in cases("lines", table):
            status, said, put = went_back(to, bytes_of(game + more))
            goes = expected.startswith("plies")
            same(f"back {to}, {table}", (said, status, bool(put)), (expected, 0 if goes else 1, goes))
    for to, expected in cases("lines", "captures"):
        same(f"the capture of back {to}", went_back(to, bytes_of(game + HAND))[2], bytes_of(expected))
    for name, sent, options, to, expected in cases("lines", "other captures"):
        same(name, went_back(to, bytes_of(sent), options)[2], bytes_of(expected))
    typed = "e4 e5 Nf3 Nc6 Bb5 a6 Bxc6 dxc6 Nxe5 Qd4 Nf3 Qxe4+"
    long_game = asked(typed)[2]
    for to, near in cases("lines", "nearest"):
        same(f"back {to}", went_back(to, long_game), (1, f"nearest {near}", b""))
    same("nothing was sent", went_back("", b""), (1, "none", b""))


def through_the_host() -> None:
    """As the recorder calls it, with the options of a game."""
    said = ask_to_add(Program(PROGRAM), Options(recover=True), b"", "1-0")
    same("a result", (said.kind, said.outcome, bool(said.put)), (RESULT, "1-0", True))
    said = ask_to_add(Program(PROGRAM), Options(rotated=True, first="black"), b"", "nf3")
    same("another letter", (said.kind, said.words, said.put), ("meant", ("0", "nf3", "Nf3"), b""))


TABLES = [lines, results, bytes_to_add, dumps, back, through_the_host]
