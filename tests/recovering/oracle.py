"""What `recover` makes of a capture: its entries, the pairs that they confirm, the frames that are put in.

Each rule stands where it is needed. Nothing is fast but what would take hours without it.
"""

from __future__ import annotations

from dataclasses import dataclass, field, replace
from typing import Iterator, List, Optional, Sequence, Tuple

from live.line.protocol import Picture

from attending.frames import HEADER, TIME_ID, FrameKind, Frames
from recovering.frames import dump
from recovering.rules import BLACK, EMPTY, KING, Move, Position, is_white

MOST_WAITING = 256  # pictures that are kept
CENTRE = (27, 28, 35, 36)  # d5, e5, d4, e4
LARGEST = 64 * 1024 * 1024  # bytes that are read

Clock = Tuple[int, int, int]  # hours, minutes, seconds
Reading = Optional[Tuple[Clock, Clock]]  # White's and Black's


@dataclass(frozen=True)
class Pair:
    """Two plies that no picture showed whole; where it corrects, the first takes the place of the last one."""

    corrects: bool
    first: Move
    second: Move


@dataclass(frozen=True)
class Waiting:
    """An entry that waits, and the pairs that explain it and took nothing that is back since."""

    picture: Picture
    reading: Reading
    pairs: Tuple[Pair, ...]


@dataclass(frozen=True)
class Recovery:
    """A pair that is confirmed: the positions around it, and the reading of the first entry that it explains."""

    pair: Pair
    before: Position
    middle: Position
    after: Position
    reading: Reading

    def text(self) -> str:
        return f"recovered {self.before.numbered(self.pair.first)} {self.middle.numbered(self.pair.second)}"


def is_sign(picture: Picture, position: Position) -> bool:
    """Whether a picture is the sign of a result over a position."""
    kings = [KING, BLACK + KING]
    if sorted(picture[square] for square in CENTRE if picture[square] in kings) != kings:
        return False
    wanted = [EMPTY if code in kings else code for code in position.board]
    return all(picture[square] == wanted[square] for square in range(64) if square not in CENTRE)


def is_back(picture: Picture, now: Position, after: Position) -> bool:
    """Whether a picture shows a piece that was taken between two positions: more of a code than are left."""
    return any(after.board.count(code) < min(now.board.count(code), picture.count(code)) for code in range(1, 13))


def shows_new(position: Position, picture: Picture) -> bool:
    """Whether a picture shows a piece on a square where a position has none, or another."""
    return any(code not in (EMPTY, old) for old, code in zip(position.board, picture))


def two_plies(position: Position, picture: Picture) -> Iterator[Tuple[Move, Move]]:
    """The plies that lead from a position to a picture, two by two. Each takes a piece of its side off the square on which
    that stands in the position; and most pictures that wait show that of one side none was taken off."""
    gone = position.gone(picture)
    if len({is_white(position.board[square]) for square in gone}) < 2:
        return
    for first in position.candidates(gone):
        middle = position.after(first)
        if not middle.in_check(position.white):
            for second in middle.candidates(gone):
                after = middle.after(second)
                if after.board == picture and not after.in_check(middle.white):
                    yield first, second


@dataclass
class Fold:
    """The score of the entries so far, and those that wait since it last changed."""

    start: Position
    moves: List[Move] = field(default_factory=list)
    positions: List[Position] = field(default_factory=list)  # after each move
    waiting: List[Waiting] = field(default_factory=list)
    last: Optional[Picture] = None

    def reached(self, moves: int) -> Position:
        """The position after so many of its moves."""
        return self.positions[moves - 1] if moves else self.start

    @property
    def position(self) -> Position:
        return self.reached(len(self.moves))

    def see(self, picture: Picture, reading: Reading) -> Optional[Recovery]:
        """Takes an entry. The pair that it confirms, if it confirms one."""
        if picture == self.last:
            return None
        self.last = picture
        settled = self.position.move_to(picture)
        if settled:
            self.play(settled)
            return None
        if is_sign(picture, self.position):
            self.waiting = []
            return None
        instead = self.reached(len(self.moves) - 1).move_to(picture) if self.moves else None
        if instead and instead != self.moves[-1]:
            self.take_back()
            self.play(instead)
            return None
        if picture == self.position.board:
            self.waiting = []
            return None
        confirmed = self.confirmed(picture)
        if len(confirmed) != 1:
            kept = [replace(entry, pairs=self.without_back(entry.pairs, picture)) for entry in self.waiting]
            self.waiting = [*kept, Waiting(picture, reading, self.explaining(picture))][-MOST_WAITING:]
            return None
        found = self.recovery(confirmed[0])
        if found.pair.corrects:
            self.take_back()
        self.play(found.pair.first)
        self.play(found.pair.second)
        settled = self.position.move_to(picture)
        if settled:
            self.play(settled)
        return found

    def play(self, move: Move) -> None:
        self.positions.append(self.position.after(move))
        self.moves.append(move)
        self.waiting = []

    def take_back(self) -> None:
        self.positions.pop()
        self.moves.pop()

    def begins(self, pair: Pair) -> Position:
        """The position in which a pair begins."""
        return self.reached(len(self.moves) - pair.corrects)

    def ends(self, pair: Pair) -> Position:
        """The position after both of its plies."""
        return self.begins(pair).after(pair.first).after(pair.second)

    def confirmed(self, picture: Picture) -> List[Pair]:
        """The pairs that explain an entry that waits and have this picture as their sequel."""
        pairs = dict.fromkeys(pair for entry in self.waiting for pair in entry.pairs)
        return [pair for pair in pairs if self.is_move_after(pair, picture) or self.is_sign_after(pair, picture)]

    def is_move_after(self, pair: Pair, picture: Picture) -> bool:
        """A move, where the pair or this put a piece on a square on which none, or another one, stood before."""
        is_new = shows_new(self.position, picture) or shows_new(self.position, self.ends(pair).board)
        return is_new and self.ends(pair).move_to(picture) is not None

    def is_sign_after(self, pair: Pair, picture: Picture) -> bool:
        """A sign over the position after the pair, which put a piece down."""
        return is_sign(picture, self.ends(pair)) and shows_new(self.position, self.ends(pair).board)

    def without_back(self, pairs: Tuple[Pair, ...], picture: Picture) -> Tuple[Pair, ...]:
        """Those of which no piece that they took is back in a picture."""
        return tuple(pair for pair in pairs if not is_back(picture, self.position, self.ends(pair)))

    def recovery(self, pair: Pair) -> Recovery:
        before = self.begins(pair)
        reading = next(entry.reading for entry in self.waiting if pair in entry.pairs)
        return Recovery(pair, before, before.after(pair.first), self.ends(pair), reading)

    def explaining(self, picture: Picture) -> Tuple[Pair, ...]:
        """The pairs after which the board looks so."""
        pairs = [Pair(False, first, second) for first, second in two_plies(self.position, picture)]
        if self.moves:
            instead = two_plies(self.reached(len(self.moves) - 1), picture)
            pairs += [Pair(True, first, second) for first, second in instead if first != self.moves[-1]]
        return tuple(pairs)


def reading_after(data: Sequence[int], white_first: bool, before: Reading) -> Reading:
    """The reading after the seven bytes of a time message."""
    if data[0] & 15 == 10 or data[3] & 15 == 10:
        return before  # an acknowledgement
    if data[6] & 0x20:
        return None
    for hours, minutes, seconds in (data[0:3], data[3:6]):
        if hours & 15 > 9 or any(pair >> 4 > 5 or pair & 15 > 9 for pair in (minutes, seconds)):
            return before
    groups = [(hours & 15, *((pair >> 4) * 10 + (pair & 15) for pair in pairs)) for hours, *pairs in (data[0:3], data[3:6])]
    first, second = ((group[0], group[1], group[2]) for group in groups)
    return (first, second) if white_first else (second, first)


def time_frame(reading: Reading, white_first: bool) -> bytes:
    """A time message that gives this reading."""
    if reading is None:
        return bytes((TIME_ID, 0, 10, 0, 0, 0, 0, 0, 0, 0x20))
    groups = reading if white_first else reading[::-1]
    return bytes((TIME_ID, 0, 10, *(number // 10 * 16 + number % 10 for group in groups for number in group), 0))


class Recover:
    """The filter: bytes in, the same bytes out, and what was put in between; a line for each pair."""

    def __init__(self, start: Position, rotated: bool = False, white_first: bool = True) -> None:
        self.rotated, self.white_first = rotated, white_first
        self.fold = Fold(start)
        self.frames = Frames()
        self.reading: Reading = None
        self.shown: Optional[List[int]] = None  # the last picture, while pictures are trusted
        self.offset = 0
        self.lines: List[str] = []

    def take(self, sent: bytes) -> bytes:
        """What is written of these bytes."""
        written = bytearray()
        for byte in sent:
            written.append(byte)
            kind = self.frames.take(byte)
            if kind:
                written += self.event(kind, self.frames.whole)
            self.offset += 1
        return bytes(written)

    def event(self, kind: FrameKind, frame: bytes) -> bytes:
        """What is put in behind an event."""
        data = frame[HEADER:]
        if kind is FrameKind.FAULT:
            self.shown = None
        elif kind is FrameKind.TIME:
            self.reading = reading_after(data, self.white_first, self.reading)
        elif kind is FrameKind.DUMP:
            self.shown = list(reversed(data) if self.rotated else data)
            return self.entry()
        elif kind is FrameKind.UPDATE and self.shown:
            self.shown[63 - data[0] if self.rotated else data[0]] = data[1]
            return self.entry()
        return b""

    def entry(self) -> bytes:
        """The entry of the present picture and reading."""
        assert self.shown
        picture = tuple(self.shown)
        found = self.fold.see(picture, self.reading)
        if found is None:
            return b""
        self.lines.append(f"{self.offset} {found.text()}")
        clocks = [b"", b""]
        if found.reading != self.reading:
            clocks = [time_frame(reading, self.white_first) for reading in (found.reading, self.reading)]
        middle, end, now = (dump(shown, self.rotated) for shown in (found.middle.board, found.after.board, picture))
        return clocks[0] + middle + end + clocks[1] + now


