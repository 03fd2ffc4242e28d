"""An evening at a board: a recorder attends it, woken when it asks for it. What is kept is written down as docs/FORMATS.md has it in
section 5: the capture, and the file of times.
"""

import dataclasses
import functools
import pathlib
import random
from typing import List, Optional, Sequence, Tuple

from attending.answers import Answer, Entry, brings
from attending.host import Call, Host
from attending.pictures import Picture, dump, picture, updates, with_codes
from given.attended import HEADING
from live.game.times import HEADED, heading

SAMPLE = pathlib.Path(__file__).resolve().parents[2] / "samples" / "long-game"
OWN, OTHER = b"01234", b"01235"
# The words of a file of times.
NOTED = ("begin", "away", "opened", "gone", "answered", "called", "added", "brought", "stopped", "took", "ok", "back", "suspect")


@functools.lru_cache(maxsize=None)
def played() -> Tuple[Picture, ...]:
    """The position after each ply of a game."""
    lines = SAMPLE.with_suffix(".watch").read_text().splitlines()
    found = [line.split()[2] for line in lines if line.split()[1] == "position"]
    return tuple(picture(placement) for at, placement in enumerate(found) if at == 0 or placement != found[at - 1])


def number_message(number: bytes) -> bytes:
    return b"\x91\x00\x08" + number


def noted(entry: Entry, answer: Answer) -> bytes:
    """The lines of a file of times of what was told, and of what was answered."""
    lines = [dataclasses.replace(entry, sent=b"").text] if entry.word in NOTED else []
    lines += [Entry(entry.at, "heard", len(answer.kept)).text] if answer.kept else []
    lines += [Entry(entry.at, "asked", len(answer.asked)).text] if answer.asked else []
    return b"".join(lines)


def added(entry: Entry, answer: Answer) -> bytes:
    """The bytes that the capture gets."""
    return (entry.sent if entry.word in ("added", "brought") else b"") + answer.kept


@dataclasses.dataclass(frozen=True)
class Mark:
    """What is known when an entry was answered: how long the capture and its file of times are, the number of the game's board, what the
    board shows; the time, and that of the last line."""

    capture: int
    times: int
    number: bytes
    shown: Picture
    now: int
    noted: int


@dataclasses.dataclass(frozen=True)
class Evening:
    """What was told and answered, what is kept, and a mark behind each entry."""

    name: str
    options: Tuple[str, ...]
    told: Tuple[Tuple[Entry, Answer], ...]
    capture: bytes
    times: bytes
    marks: Tuple[Mark, ...]


class Table:
    """A board with a game on it, and the recorder that attends it. Times are milliseconds since the call began."""

    def __init__(self, host: Host, chance: random.Random, number: bytes) -> None:
        self.chance = chance
        self.call = Call(host)
        self._capture, self._times = bytearray(), bytearray(HEADING)
        self._marks: List[Mark] = []
        self._noted_at = 0
        self._owned = b""
        self.number = number  # of the board on the cable; none: it gives none
        self.plies, self.ply = played(), 0
        self.shown = self.plies[0]
        self.is_mute = self.is_plugged = False
        self._answers: List[Tuple[int, str]] = []  # which requests are answered when

    @property
    def now(self) -> int:
        return self.call.now

    def evening(self, name: str, options: Sequence[str]) -> Evening:
        return Evening(name, tuple(options), tuple(self.call.told), bytes(self._capture), bytes(self._times), tuple(self._marks))

    def goes_on(self, evening: "Evening", capture: bytes, generation: int) -> None:
        """The board of an evening goes on with another capture, which has a file of times of its own."""
        last = evening.marks[-1]
        self._capture, self._times = bytearray(capture), bytearray(heading(generation, capture[:HEADED]))
        self._owned, self.shown = last.number, last.shown
        self.tell(brings(0, "capture", capture))

    # What the recorder is told.

    def tell(self, entry: Entry) -> Answer:
        if entry.word == "begin":
            self.call.now = 0
        answer = self.call.tell(entry)
        self._note(entry, answer)
        if answer.asked and self.is_plugged and not self.is_mute:
            self._answers.append((entry.at + self.chance.randrange(60, 160), answer.asked))
        return answer

    def _note(self, entry: Entry, answer: Answer) -> None:
        """Keeps what is kept of it."""
        lines = noted(entry, answer)
        self._times += lines
        self._capture += added(entry, answer)
        self._noted_at = entry.at if lines else self._noted_at
        if answer.number:
            self._owned = answer.number.encode()
        self._marks.append(Mark(len(self._capture), len(self._times), self._owned, self.shown, self.call.now, self._noted_at))

    def begins(self, away: Optional[int] = None) -> None:
        """A call begins, and the line is opened."""
        self.tell(Entry(0, "begin", len(self._capture)))
        if away is not None:
            self.tell(Entry(0, "away", away))
        if self._owned:
            self.tell(brings(0, "number", self._owned))
        self.opens()

    def opens(self) -> None:
        self._answers.clear()
        self.is_plugged = True
        self.tell(Entry(self.now + self.chance.randrange(9), "opened"))

    def goes(self) -> None:
        self._answers.clear()
        self.is_plugged = False
        self.tell(Entry(self.now, "gone"))

    def hears(self, sent: bytes) -> None:
        """The board sends this, in one read or in two."""
        cut = self.chance.randrange(len(sent)) if self.chance.random() < 0.1 else 0
        for part in (sent[:cut], sent[cut:]):
            if part and self.is_plugged:
                self.tell(brings(self.now, "heard", part))

    # The time, and the board.

    def passes(self, milliseconds: int) -> None:
        """The recorder is woken and answered meanwhile."""
        until = self.now + milliseconds
        while (at := self._next()) is not None and at <= until:
            if self._answers and self._answers[0][0] <= at:
                _, asked = self._answers.pop(0)
                self.call.now = max(self.now, at)
                self.hears(self._answer(asked))
            else:
                self.tell(Entry(at, "wake"))
        self.call.now = until

    def _next(self) -> Optional[int]:
        times = [at for at, _ in self._answers[:1]] + ([] if self.call.due is None else [self.call.due])
        return max(self.now, min(times)) if times else None

    def _answer(self, asked: str) -> bytes:
        number = number_message(self.number) if "E" in asked and self.number else b""
        return number + dump(self.shown)

    def shows(self, after: Picture, slow: bool = True, lost: bool = False) -> None:
        """The squares change to a picture, one after the other; or one update is lost."""
        before = self.shown
        sent = updates(before, after)
        for at in range(0, len(sent), 5):
            code = sent[at + 4]
            self.shown = with_codes(self.shown, [(sent[at + 3], code)])
            if not self.is_mute and not (lost and at == 0):
                self.hears(sent[at : at + 5])
            self.passes(self.chance.randrange(80, 600) if slow else self.chance.randrange(3))

    def a_piece(self) -> int:
        return self.chance.choice([at for at, code in enumerate(self.shown) if code])

    def without(self, count: int) -> Picture:
        return with_codes(self.shown, [(self.a_piece(), 0) for _ in range(count)])
