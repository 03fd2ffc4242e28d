"""What a host tells a recorder, and the recorder's answers, as docs/FORMATS.md has them in section 6. Pure: bytes in, values out."""

import dataclasses
from typing import List, Optional, Tuple

ALARMS = ("WRONG", "NO-START", "SILENT", "UNPLUGGED")
HINTS = ("TURNED-ROUND", "OTHER-BOARD")
CLOCK_LINES = {"clock stopped": True, "clock runs": False}
HANDLINGS = ("keep", "hold", "other")
ENDS = ("over", "played", "begins")


class NoAnswer(ValueError):
    """A line that stands in no answer."""


@dataclasses.dataclass(frozen=True)
class Entry:
    """One thing that happens: when, in milliseconds since the call began; the word; its number; the bytes behind it."""

    at: int
    word: str
    number: Optional[int] = None
    sent: bytes = b""

    @property
    def text(self) -> bytes:
        number = "" if self.number is None else f" {self.number}"
        return f"{self.at} {self.word}{number}\n".encode() + self.sent


def brings(at: int, word: str, sent: bytes) -> Entry:
    """An entry with bytes behind it: `heard`, `added`, `brought`, `number`, `kept`, `capture`."""
    return Entry(at, word, len(sent), sent)


@dataclasses.dataclass(frozen=True)
class State:
    """How the board stands: the word; for how many milliseconds, if that is known; the squares that are named; a hint."""

    kind: str
    lasted: Optional[int] = None
    squares: Tuple[str, ...] = ()
    hint: str = ""

    @property
    def is_alarm(self) -> bool:
        """Whether somebody must go to the board."""
        return bool(self.hint) or self.kind in ALARMS


@dataclasses.dataclass(frozen=True)
class Answer:
    """What an entry is answered."""

    kept: bytes = b""  # the capture gets these
    report: Tuple[str, ...] = ()
    game: bytes = b""  # its text, if it was wanted
    fits: bytes = b""  # what is typed for the change that alone explains the board
    ends: Tuple[str, ...] = ()  # what is said of the end of the game
    looks: Tuple[str, ...] = ()  # the alarms that are said
    handling: str = ""  # none: a capture of the calls before is answered without it
    other: str = ""  # the serial number of another board
    number: str = ""  # that of the game's board, if it is news
    asked: str = ""  # the board is sent this
    is_full: bool = False
    clock_stopped: Optional[bool] = None  # if that is news
    state: Optional[State] = None
    due: Optional[int] = None  # wake in so many milliseconds; None: never


def state_of(words: List[str]) -> State:
    """The state in a line, of its words behind the first."""
    kind, lasted, *rest = words
    hint = rest.pop() if rest and rest[-1] in HINTS else ""
    return State(kind, span_of(lasted), tuple(rest), hint)


def span_of(word: str) -> Optional[int]:
    """Milliseconds; None for a dash."""
    return None if word == "-" else int(word)


def with_line(answer: Answer, line: str) -> Answer:
    """The answer with one more line; none with bytes behind it, nor the last."""
    word, *rest = line.split(" ")
    if word.isdecimal():
        return dataclasses.replace(answer, report=(*answer.report, line))
    if word in ENDS:
        return dataclasses.replace(answer, ends=(*answer.ends, line))
    if word == "look":
        return dataclasses.replace(answer, looks=(*answer.looks, line))
    if word in HANDLINGS:
        return dataclasses.replace(answer, handling=word, other="".join(rest))
    if word == "number":
        return dataclasses.replace(answer, number=rest[0])
    if word == "ask":
        return dataclasses.replace(answer, asked=rest[0])
    if word == "full":
        return dataclasses.replace(answer, is_full=True)
    if line in CLOCK_LINES:
        return dataclasses.replace(answer, clock_stopped=CLOCK_LINES[line])
    if word == "state":
        return dataclasses.replace(answer, state=state_of(rest))
    raise NoAnswer(line)


def next_answer(text: bytes, at: int = 0) -> Optional[Tuple[Answer, int]]:
    """The answer that begins at a place of what has come so far, and the place behind it; None while more is to come."""
    answer = Answer()
    behind = {"kept": b"", "fits": b"", "game": b""}  # the bytes behind these lines
    report: List[str] = []
    while (end := text.find(b"\n", at)) >= 0:
        line, at = text[at:end].decode("latin-1"), end + 1
        word, _, rest = line.partition(" ")
        if word == "done":
            return dataclasses.replace(answer, **behind, report=tuple(report), due=span_of(rest)), at
        if word in behind:
            behind[word], at = text[at : at + int(rest)], at + int(rest)
            if at > len(text):
                return None
        elif word.isdecimal():
            report.append(line)
        else:
            answer = with_line(answer, line)
    return None


def all_answers(text: bytes) -> Tuple[str, List[Answer]]:
    """All that a recorder has written: the first line, and its answers."""
    first, _, rest = text.partition(b"\n")
    found, at = [], 0
    while (answer := next_answer(rest, at)) is not None:
        found.append(answer[0])
        at = answer[1]
    if at != len(rest):
        raise NoAnswer(rest[at : at + 60].decode("latin-1"))
    return first.decode(), found
