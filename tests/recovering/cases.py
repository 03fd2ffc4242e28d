"""Captures worked by hand from the rules: what `recover` writes of each, what it tells, and the game that `record` makes of that.

A capture is written in words: a placement is a dump of it, `e2` a square that becomes empty, `e4P` one that shows a piece,
`f2#` the same by an update that is cut off behind its header, `1:30:00/1:29:59` a time, as it is sent, and `-` a time without
a clock. What is put in stands in brackets.

A dump has 67 bytes, a time 10 and an update 5, of which 3 are left where it is cut off; so the offsets are counted.
"""

from __future__ import annotations

import re
from dataclasses import dataclass
from typing import List, Tuple

from live.line.protocol import SQUARES, picture_of_placement

from attending.frames import TIME_ID, UPDATE_ID
from recovering.frames import dump
from recovering.rules import CODES, INITIAL

START = INITIAL.split(" ")[0]


def time_message(text: str) -> bytes:
    """Of both times; of none where no clock is connected."""
    if text == "-":
        return bytes((TIME_ID, 0, 10, 0, 0, 0, 0, 0, 0, 0x20))
    digits = [int(number, 16) for clock in text.split("/") for number in clock.split(":")]
    return bytes((TIME_ID, 0, 10, *digits, 0))


def stream(words: str, rotated: bool = False) -> bytes:
    """The bytes of a capture in words."""
    sent = bytearray()
    for word in words.split():
        if "/" in word and ":" not in word:
            sent += dump(picture_of_placement(word), rotated)
        elif ":" in word or word == "-":
            sent += time_message(word)
        else:
            square = SQUARES.index(word[:2])
            field = 63 - square if rotated else square
            code = CODES.index(word[2]) if word[2:] not in ("", "#") else 0
            sent += bytes((UPDATE_ID, 0, 5, field, code))[: 3 if word.endswith("#") else 5]
    return bytes(sent)


@dataclass(frozen=True)
class Case:
    """A capture in words, the movetext of the game in it, and the lines that are told."""

    name: str
    words: str
    game: str
    lines: Tuple[str, ...] = ()
    fen: str = INITIAL
    rotated: bool = False
    first: str = "white"

    @property
    def options(self) -> List[str]:
        words = ["--rotated"] if self.rotated else []
        words += ["--first", self.first] if self.first != "white" else []
        return words + (["--fen", self.fen] if self.fen != INITIAL else [])

    @property
    def sent(self) -> bytes:
        """What is read."""
        return stream(re.sub(r"\[.*?\]", "", self.words), self.rotated)

    @property
    def written(self) -> bytes:
        return stream(re.sub(r"[\[\]]", "", self.words), self.rotated)

    def written_of(self, count: int) -> int:
        """How much is written of so many bytes that were read: what is put in comes with the byte before it."""
        read = written = 0
        for part in re.split(r"(\[.*?\])", self.words):
            size = len(stream(part.strip("[]"), self.rotated))
            if part.startswith("["):
                written += size if read <= count else 0
            else:
                written += max(0, min(size, count - read))
                read += size
        return written

    def lines_of(self, count: int) -> Tuple[str, ...]:
        """Which lines are told of so many bytes that were read."""
        return tuple(line for line in self.lines if int(line.split(" ")[0]) < count)


# Knights: the move's is in the air when the reply's is lifted; then the pawn goes to e4. So many bytes: 67 and 20.
KNIGHTS = f"{START} g1 b8 f3N c6n"
AFTER_NF3 = "rnbqkbnr/pppppppp/8/8/8/5N2/PPPPPPPP/RNBQKB1R"
AFTER_NC6 = "r1bqkbnr/pppppppp/2n5/8/8/5N2/PPPPPPPP/RNBQKB1R"
AFTER_E4 = "r1bqkbnr/pppppppp/2n5/8/4P3/5N2/PPPP1PPP/RNBQKB1R"
PUT_IN = f"[{AFTER_NF3} {AFTER_NC6} {AFTER_E4}]"
PAIR = "recovered 1. Nf3 1... Nc6"
GAME = "1. Nf3 Nc6 2. e4 *"
# Eight plies after which White's Nxe5, and Black's dxe5, leave a board with two pieces less: a knight of f3 and the pawn of d6. So it
# looks, too, where these two are just lifted.
QUIET = f"{START} e2 e4P e7 e5p g1 f3N d7 d6p d2 d3P b8 c6n b1 d2N g8 f6n"
QUIET_GAME = "1. e4 e5 2. Nf3 d6 3. d3 Nc6 4. Nbd2 Nf6"
CASES: Tuple[Case, ...] = (
    Case("a reply lifted early", f"{KNIGHTS} e2 e4P {PUT_IN} e7 e5p", "1. Nf3 Nc6 2. e4 e5 *", (f"96 {PAIR}",)),
    Case("nothing confirms it", f"{KNIGHTS} e2", "*"),
    Case("the move showed whole", f"{START} g1 f3N b8 c6n e2 e4P", GAME),
    Case(
        # Offsets are those of what was read: nothing that was put in counts.
        "two pairs, one after the other",
        f"{KNIGHTS} e2 e4P {PUT_IN} e7 f1 e5p c4B d7 d6p [r1bqkbnr/pppp1ppp/2n5/4p3/4P3/5N2/PPPP1PPP/RNBQKB1R"
        " r1bqkbnr/pppp1ppp/2n5/4p3/2B1P3/5N2/PPPP1PPP/RNBQK2R r1bqkbnr/ppp2ppp/2np4/4p3/2B1P3/5N2/PPPP1PPP/RNBQK2R]",
        "1. Nf3 Nc6 2. e4 e5 3. Bc4 d6 *",
        (f"96 {PAIR}", "126 recovered 2... e5 3. Bc4"),
    ),
    Case("a square that reads as empty for a while", f"{START} a2 g1 f3N b8 a2P c6n e2 e4P {PUT_IN}", GAME, (f"106 {PAIR}",)),
    Case("a piece that is put right after the reply", f"{START} g1 g3N b8 c6n g3 f3N e2 e4P {PUT_IN}", GAME, (f"106 {PAIR}",)),
    Case(
        "a castling whose rook comes last",
        "4k3/7p/8/8/8/8/P7/4K2R e1 g1K h7 h1 f1R h6p a2 a3P"
        " [4k3/7p/8/8/8/8/P7/5RK1 4k3/8/7p/8/8/8/P7/5RK1 4k3/8/7p/8/8/P7/8/5RK1]",
        "1. O-O h6 2. a3 *",
        ("106 recovered 1. O-O 1... h6",),
        fen="4k3/7p/8/8/8/8/P7/4K2R w K - 0 1",
    ),
    Case(
        # The white pawn never shows on d5: the queen's hand was faster.
        "a capture that is taken back at once",
        f"{START} e2 e4P d7 d5p e4 d5 d8 d5q b1 c3N [rnbqkbnr/ppp1pppp/8/3P4/8/8/PPPP1PPP/RNBQKBNR"
        " rnb1kbnr/ppp1pppp/8/3q4/8/8/PPPP1PPP/RNBQKBNR rnb1kbnr/ppp1pppp/8/3q4/8/2N5/PPPP1PPP/R1BQKBNR]",
        "1. e4 d5 2. exd5 Qxd5 3. Nc3 *",
        ("116 recovered 2. exd5 2... Qxd5",),
    ),
    Case(
        # 1. e3 stands; White goes on to e4 while Black's pawn is lifted. The same picture is that after 1... e5 2. e4, from
        # which no move of White's goes on.
        "a correction and a reply",
        f"{START} e2 e3P e3 e7 e4P e5p g1 f3N [rnbqkbnr/pppppppp/8/8/4P3/8/PPPP1PPP/RNBQKBNR"
        " rnbqkbnr/pppp1ppp/8/4p3/4P3/8/PPPP1PPP/RNBQKBNR rnbqkbnr/pppp1ppp/8/4p3/4P3/5N2/PPPP1PPP/RNBQKB1R]",
        "1. e4 e5 2. Nf3 *",
        ("106 recovered 1. e4 1... e5",),
    ),
    Case(
        # 1... Nxe4 is on its way, and both pieces are in hand: so the board would look after 1... Nxd5 2. exd5.
        "an exchange that never was",
        "4k3/8/5n2/3P4/4P3/8/7P/4K3 e4 f6 e4n h2 h3P",
        "1... Nxe4 2. h3 *",
        fen="4k3/8/5n2/3P4/4P3/8/7P/4K3 b - - 0 1",
    ),
    Case(
        "two plies while the cable was out, with a clock",
        f"{START} 1:30:00/1:28:00 {AFTER_NC6} 1:29:50/1:27:40 e2 e4P"
        f" [1:30:00/1:28:00 {AFTER_NF3} {AFTER_NC6} 1:29:50/1:27:40 {AFTER_E4}]",
        "1. Nf3 {[%clk 1:30:00]} 1... Nc6 {[%clk 1:28:00]} 2. e4 {[%clk 1:29:50]} *",
        (f"163 {PAIR}",),
    ),
    Case(
        "Black's time first",
        f"{START} 1:30:00/1:28:00 {AFTER_NC6} 1:29:50/1:27:40 e2 e4P"
        f" [1:30:00/1:28:00 {AFTER_NF3} {AFTER_NC6} 1:29:50/1:27:40 {AFTER_E4}]",
        "1. Nf3 {[%clk 1:28:00]} 1... Nc6 {[%clk 1:30:00]} 2. e4 {[%clk 1:27:40]} *",
        (f"163 {PAIR}",),
        first="black",
    ),
    Case(
        "the clock was off before, and is off after",
        f"{START} 1:30:00/1:30:00 - {AFTER_NC6} 1:29:50/1:29:40 e2 e4P"
        f" [- {AFTER_NF3} {AFTER_NC6} 1:29:50/1:29:40 {AFTER_E4}] - e7 e5p",
        "1. Nf3 Nc6 2. e4 {[%clk 1:29:50]} 2... e5 *",
        (f"173 {PAIR}",),
    ),
    Case(
        "the time is the same before and after",
        f"{START} 1:30:00/1:28:00 {KNIGHTS[len(START) :]} e2 e4P {PUT_IN}",
        "1. Nf3 {[%clk 1:30:00]} 1... Nc6 {[%clk 1:28:00]} 2. e4 {[%clk 1:30:00]} *",
        (f"106 {PAIR}",),
    ),
    Case(
        "the kings confirm it",
        f"{KNIGHTS} e1 e8 e4K d5k [{AFTER_NF3} {AFTER_NC6} r1bq1bnr/pppppppp/2n5/3k4/4K3/5N2/PPPPPPPP/RNBQ1B1R]",
        "1. Nf3 Nc6 1-0",
        (f"106 {PAIR}",),
    ),
    Case(
        # 1. e8=Q, R, B or N, and Kxe8: nobody knows which.
        "four pairs at a promotion that is taken",
        "8/4Pk2/8/8/8/8/P7/4K3 4k3/8/8/8/8/8/P7/4K3 a2 a3P",
        "*",
        fen="8/4Pk2/8/8/8/8/P7/4K3 w - - 0 1",
    ),
    Case(
        # 1. e3 dxe3, or 1. e4 dxe3 in passing: nobody knows which.
        "two pairs at a pawn that is taken",
        "4k3/8/8/8/3p4/8/P3P3/4K3 4k3/8/8/8/8/4p3/P7/4K3 a2 a3P",
        "*",
        fen="4k3/8/8/8/3p4/8/P3P3/4K3 w - - 0 1",
    ),
    Case("a rotated board", f"{KNIGHTS} e2 e4P {PUT_IN}", GAME, (f"96 {PAIR}",), rotated=True),
    Case(
        "Black to move",
        "4k3/p6p/8/8/8/8/P6P/4K3 4k3/7p/p7/8/8/7P/P7/4K3 h7 h6p"
        " [4k3/7p/p7/8/8/8/P6P/4K3 4k3/7p/p7/8/8/7P/P7/4K3 4k3/8/p6p/8/8/7P/P7/4K3]",
        "5... a6 6. h3 h6 *",
        ("143 recovered 5... a6 6. h3",),
        fen="4k3/p6p/8/8/8/8/P6P/4K3 b - - 0 5",
    ),
    Case(
        "an update that is cut off, and a dump after the reply",
        f"{START} g1 f3# {AFTER_NC6} e2 e4P {PUT_IN}",
        GAME,
        (f"151 {PAIR}",),
    ),
    Case(
        # The board stands as the start again: what waited is forgotten.
        "taken back",
        f"{KNIGHTS} f3 c6 b8n g1N {AFTER_E4}",
        "*",
    ),
    Case(
        # White's other knight is lifted while Black's pawn is still in the air: so the board would look after 5. Nxe5 dxe5 6. Nf3.
        # But the knight of f3, which that exchange took, was back before.
        "both sides straighten pieces",
        f"{QUIET} f3 d6 f3N d2 d2N d6p f1 e2B f8 e7b e1 g1K h1 f1R",
        f"{QUIET_GAME} 5. Be2 Be7 6. O-O *",
    ),
    Case(
        # While White's first knight and Black's are lifted, the board looks as after 1. Nxc6 Nxc6; then the second knight is lifted and
        # the first put back, as by 2. Nb4. But each piece that shows is where it was.
        "three pieces are straightened at once",
        "4k3/4n3/2n5/8/1N6/8/N7/4K3 e7 b4 a2 b4N a2N e7n",
        "*",
        fen="4k3/4n3/2n5/8/1N6/8/N7/4K3 w - - 0 1",
    ),
    Case(
        # The same exchange would put no piece where none, or another one, stood. And the kings are no sign without it.
        "two pieces are taken off before the kings are set up",
        f"{QUIET} f3 d6 e1 e8 d4K e5k",
        f"{QUIET_GAME} *",
    ),
    Case(
        # White straightens the knight of f3, and then takes with it. What was back before the picture that waits again is no matter.
        "an exchange with a piece that was just straightened",
        f"{QUIET} f3 d6 f3N f3 e5 e5p d2 c4N [r1bqkb1r/ppp2ppp/2np1n2/4N3/4P3/3P4/PPPN1PPP/R1BQKB1R"
        " r1bqkb1r/ppp2ppp/2n2n2/4p3/4P3/3P4/PPPN1PPP/R1BQKB1R r1bqkb1r/ppp2ppp/2n2n2/4p3/2N1P3/3P4/PPP2PPP/R1BQKB1R]",
        f"{QUIET_GAME} 5. Nxe5 dxe5 6. Nc4 *",
        ("186 recovered 5. Nxe5 5... dxe5",),
    ),
    Case(
        # Played or not, 5. Nxe5 dxe5 6. Nf3 leaves no piece where none stood: nobody can tell it from pieces that are straightened.
        "an exchange behind which a like piece comes to where the taker stood",
        f"{QUIET} f3 d6 e5 e5p d2 f3N f8 e7b",
        f"{QUIET_GAME} *",
    ),
    Case(
        # The queen stands before the pawn is off the board: one piece more, but none that the pair took.
        "a promotion with the new piece first",
        "4k3/P6p/8/8/8/8/7P/4K3 4k3/P7/7p/8/8/7P/8/4K3 a8Q a7"
        " [4k3/P6p/8/8/8/7P/8/4K3 4k3/P7/7p/8/8/7P/8/4K3 Q3k3/8/7p/8/8/7P/8/4K3]",
        "1. h3 h6 2. a8=Q+ *",
        ("143 recovered 1. h3 1... h6",),
        fen="4k3/P6p/8/8/8/8/7P/4K3 w - - 0 1",
    ),
    Case(
        # White's rook takes a rook, is taken, and a pawn is promoted to a rook: more rooks than were left, behind the pair.
        "a promotion to the piece that was taken",
        "3rk3/P7/8/8/8/8/8/3RK3 3k4/P7/8/8/8/8/8/4K3 a7 a8R"
        " [3Rk3/P7/8/8/8/8/8/4K3 3k4/P7/8/8/8/8/8/4K3 R2k4/8/8/8/8/8/8/4K3]",
        "1. Rxd8+ Kxd8 2. a8=R+ *",
        ("143 recovered 1. Rxd8+ 1... Kxd8",),
        fen="3rk3/P7/8/8/8/8/8/3RK3 w - - 0 1",
    ),
    Case("three plies at once", f"{START} {AFTER_E4} e7 e5p", "*"),
    # Of the pictures that wait, that of both knights is the fourth, and 255 come after it; then 256.
    Case(
        "the oldest of 256 pictures that wait", f"{KNIGHTS} e2{' a1 a1R' * 127} e4P {PUT_IN}", GAME, (f"1366 {PAIR}",)
    ),
    Case("one that is older", f"{KNIGHTS} e2{' a1 a1R' * 126} a1 a1Q a1R e4P", "*"),
)
