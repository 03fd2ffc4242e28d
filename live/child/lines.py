"""What the program that attends a board is told, and what it answers: the lines of `dgt_replay live`, as section 6 of docs/FORMATS.md
has them; and its report of a game, the lines of `watch`, and the pairs of `recover`. They are read only here. Pure: values and bytes."""

from __future__ import annotations

import functools
import re
from dataclasses import dataclass, field
from typing import List, NamedTuple, Optional, Sequence, Tuple, Union

from live.line import protocol
from live.words.message import Message

# What is told, beside the words of NAME.times.
KEPT, CAPTURE, NUMBER, LENT, WAKE, TEXT = "kept", "capture", "number", "lent", "wake", "text"
PIECE = 64 * 1024  # bytes of a capture: the report of a piece is in the program's memory as a whole
AT, AFTER, SINCE, SUSPECT = "at", "after", "since", "SUSPECT"  # where somebody must look
UNPLAYED, STOOD = "UNPLAYED", "STOOD"  # nobody may have played these moves; the result has stood
DOUBT = re.compile(f"look (?:({SUSPECT}) ([0-9]+)|({AT}|{AFTER}|{SINCE}) ([0-9]+) ([A-Z-]+)(?: ([0-9]+))?)")
KEEP, HOLD, OTHER = "keep", "hold", "other"
UNPLUGGED, SILENT, WAITS = UNSEEN = "UNPLUGGED", "SILENT", "WAITS"  # states in which the board may have shown nothing
HINTS = ("TURNED-ROUND", "OTHER-BOARD")
CLOCK_LINES = {"clock stopped": True, "clock runs": False}
END = re.compile(r"over ([A-Z-]+) (\S+) ([0-9]+) (sure|unsure)|played ([0-9]+)|begins ([0-9]+)")
KEPT_LINE, GAME_LINE = b"kept ", b"game "
COUNTED = (KEPT_LINE, b"fits ", GAME_LINE)  # behind which come as many bytes as they say
DIGITS = b"0123456789"  # one of these begins each line of the report
REPORT_ENDS = re.compile(rb"\n[^0-9]")
OFTEN = re.compile(rb"keep\n(?:ask ([A-Z]+)\n)?(?:state ([^ \n]+ [^\n]+)\n)?done ([0-9]+|-)\n")  # the end of most answers
HISTORY_ENDS = b"done -"  # the answer to a capture
NO_HISTORY = re.compile(rb"^(?![0-9]|done -$)", re.MULTILINE)  # a line that isn't in such an answer


class NoAnswer(ValueError):
    """A line that stands in no answer."""


class Stood(NamedTuple):
    """How the board stands: a word; for how many milliseconds, if that is known; the squares that differ, and a hint; and what is typed for
    the change of the game that alone explains it, if there is one."""

    kind: str
    lasted: Optional[int] = None
    squares: Tuple[str, ...] = ()
    hint: str = ""
    fits: str = ""


@dataclass(frozen=True)
class Doubt:
    """What somebody must look at: where, by how many plies the game has there; why, as a word; and how many moves are meant, if they
    are counted. Something that was suspected has its number in place of plies."""

    where: str
    plies: int
    why: str
    moves: int = 0


@dataclass(frozen=True)
class Over:
    """How the game is over: why, as a word; its result; how many bytes of the capture are the game's; whether that is sure."""

    why: str
    result: str
    size: int
    sure: bool = True


@dataclass
class Answer:
    """What an entry is answered."""

    kept: bytes = b""  # the capture gets these
    game: Optional[bytes] = None  # the PGN, if it was asked for
    report: List[str] = field(default_factory=list)  # its new lines
    handling: str = ""  # what is done with what the board has sent; empty in the answer to a capture of the calls before
    other: str = ""  # the serial number of another board
    number: str = ""  # that of the game's board, if it is said
    asked: bytes = b""  # the board is sent this
    is_full: bool = False  # whether the capture had no room
    clock_stopped: Optional[bool] = None  # whether both sides have stopped a clock that ran, if that is news
    stood: Optional[Stood] = None  # if that is news
    doubts: List[Doubt] = field(default_factory=list)  # those that are new
    over: Optional[Over] = None  # if it is news that the game is over
    played: int = 0  # moves that were made since, if that is news
    begins: int = 0  # bytes of the capture that belong to the set-up, if the game began only then
    due: Optional[int] = None  # wake in so many milliseconds; None: never
    events: List[Reported] = field(default_factory=list)  # its report, once it is read

    def read(self) -> None:
        """Reads its report."""
        self.events = by_byte(self.report)


class Answers:
    """Cuts what the program writes into its answers. The first `known` lines of its report are left out."""

    def __init__(self, known: int = 0) -> None:
        self._known = known
        self._is_history = known > 0  # whether nothing has come yet but answers to a capture, and all of it is known
        self._come = b""  # what isn't read yet
        self._answer = Answer()
        self._fits = ""  # what explains the board, before its state is read

    def take(self, part: bytes) -> List[Answer]:
        """The answers that end in what has come now."""
        come, at = self._come + part, 0
        found: List[Answer] = []
        if self._is_history:
            found, at = self._skip(come)
        while (end := come.find(b"\n", at)) >= 0:
            if come[at] in DIGITS:
                ends = REPORT_ENDS.search(come, end)
                end = ends.start() if ends else come.rfind(b"\n")
                self._reports(come[at:end])
                at = end + 1
                continue
            often = OFTEN.match(come, at)
            if often:
                found.append(self._often(*often.groups()))
                at = often.end()
                continue
            behind = end + 1
            if come.startswith(COUNTED, at):
                behind += int(come[at + len(KEPT_LINE) : end])
                if behind > len(come):
                    break
                self._has(come[at : at + len(KEPT_LINE)], come[end + 1 : behind])
            elif self._ends(come[at:end].decode("latin-1")):
                found.append(self._answer)
                self._answer = Answer()
            at = behind
        self._come = come[at:]
        return found

    def unended(self) -> List[str]:
        """The lines of the report that have come of the answer that hasn't ended: it has them no more."""
        report, self._answer.report = self._answer.report, []
        return report

    def _skip(self, come: bytes) -> Tuple[List[Answer], int]:
        """Passes over the answers to a capture, if all of it is known: a report may be long. Returns them, and the place behind
        them."""
        at = come.rfind(b"\n") + 1
        if at == 0:
            return [], 0
        ended = come.count(HISTORY_ENDS, 0, at)
        count = come.count(b"\n") - ended
        if count > self._known or NO_HISTORY.search(come, 0, at - 1):
            self._is_history = False
            return [], 0
        self._known -= count
        return [Answer() for _ in range(ended)], at

    def _has(self, word: bytes, given: bytes) -> None:
        """Takes the bytes behind a line that says how many they are."""
        if word == KEPT_LINE:
            self._answer.kept = given
        elif word == GAME_LINE:
            self._answer.game = given
        else:
            self._fits = given.decode("latin-1").rstrip("\n")

    def _stands(self, words: List[str]) -> None:
        """How the board stands, by the words behind `state`."""
        hint = words.pop() if words[-1] in HINTS else ""
        self._answer.stood = Stood(words[0], _span(words[1]), tuple(words[2:]), hint, self._fits)
        self._fits = ""

    def _reports(self, reported: bytes) -> None:
        """Takes lines of the report."""
        lines = reported.decode("latin-1").split("\n")
        if self._known:
            known = min(self._known, len(lines))
            self._known -= known
            del lines[:known]
        self._answer.report += lines

    def _often(self, asked: Optional[bytes], state: Optional[bytes], due: bytes) -> Answer:
        """The answer, given the parts of such an end."""
        if state:
            self._stands(state.decode("latin-1").split(" "))
        answer, self._answer = self._answer, Answer()
        answer.handling, answer.asked, answer.due = KEEP, asked or b"", _span(due.decode())
        return answer

    def _ends(self, line: str) -> bool:
        """Takes another line. Returns whether the answer ends with it."""
        answer = self._answer
        word, *rest = line.split(" ")
        if word in (KEEP, HOLD, OTHER):
            answer.handling, answer.other = word, "".join(rest)
        elif word == "done" and rest:
            answer.due = _span(rest[0])
            return True
        elif word == "ask" and rest:
            answer.asked = rest[0].encode()
        elif word == "state" and len(rest) >= 2:
            self._stands(rest)
        elif word == NUMBER and rest:
            answer.number = rest[0]
        elif word == "look" and (doubt := DOUBT.fullmatch(line)):
            answer.doubts.append(_doubt_of(*doubt.groups()))
        elif word == "full":
            answer.is_full = True
        elif line in CLOCK_LINES:
            answer.clock_stopped = CLOCK_LINES[line]
        elif end := END.fullmatch(line):
            _take_end(answer, *end.groups())
        else:
            raise NoAnswer(line)
        return False


def _doubt_of(suspect: Optional[str], number: str, where: str, plies: str, why: str, moves: Optional[str]) -> Doubt:
    """That of the parts of its line: something suspected, or what is doubtful at some ply."""
    return Doubt(suspect, int(number), suspect) if suspect else Doubt(where, int(plies), why, int(moves or 0))


def _take_end(answer: Answer, why: Optional[str], result: str, size: str, sure: str, played: Optional[str], begins: Optional[str]) -> None:
    """Takes the parts of a line about the game's end, or about its beginning."""
    if why:
        answer.over = Over(why, result, int(size), sure == "sure")
    elif played:
        answer.played = int(played)
    else:
        answer.begins = int(begins or 0)


def _span(word: str) -> Optional[int]:
    """Milliseconds; None for a dash."""
    return None if word == "-" else int(word)


@dataclass(frozen=True)
class Move:
    """The picture settled a move: a new one, or a correction that replaces the last one. `number` is `12.` or `12...`; `clock` is
    its player's time after it, empty if unknown."""

    number: str
    san: str
    clock: str = ""
    corrects: bool = False

    @property
    def words(self) -> str:
        return " ".join(filter(None, ("correction" if self.corrects else "move", self.number, self.san, self.clock)))

    @property
    def short(self) -> str:
        """`12. Nf3`."""
        return f"{self.number} {self.san}"

    @property
    def shown(self) -> str:
        """`12. Nf3  1:12:07`, `correction 12. Nf3  1:12:07`."""
        front = "correction " if self.corrects else ""
        return front + "  ".join(filter(None, (self.short, self.clock)))


def listed(plies: Sequence[Move], result: str) -> str:
    """The moves of a game in one line: `1. e4 e5 2. Nf3 *`."""
    words = [ply.short if at == 0 or not ply.number.endswith("...") else ply.san for at, ply in enumerate(plies)]
    return " ".join([*words, result]) if words else Message("moves.none")


@dataclass(frozen=True)
class Result:
    """The game's result is now this; `*` if it has none any more."""

    outcome: str

    @property
    def words(self) -> str:
        return f"result {self.outcome}"

    @property
    def shown(self) -> str:
        return self.words


@dataclass(frozen=True)
class Differs:
    """The picture isn't settled, and differs from the position on these squares."""

    squares: Tuple[str, ...]

    @property
    def words(self) -> str:
        return " ".join(("differs", *self.squares))


@dataclass(frozen=True)
class Agrees:
    """The picture shows the position."""

    words = "agrees"


@dataclass(frozen=True)
class Fault:
    """Bytes that are no frame."""

    what: str

    @property
    def words(self) -> str:
        return f"fault {self.what}"


@dataclass(frozen=True)
class Picture:
    """A trusted picture that differs from the one before."""

    placement: str

    @property
    def codes(self) -> protocol.Picture:
        return codes_of(self.placement)


@dataclass(frozen=True)
class Position:
    """The position that the game has reached: at the start, and after each move and result."""

    fen: str


@dataclass(frozen=True)
class Clock:
    """The clocks show another time than before: White's, and Black's."""

    white: str
    black: str


@dataclass(frozen=True)
class Recovered:
    """Two moves that no picture showed were added: `recovered 3. Bc4 3... Nc6`."""

    text: str

    @property
    def shown(self) -> str:
        return self.text


Change = Union[Move, Result]
News = Union[Move, Result, Recovered]
Event = Union[Move, Result, Differs, Agrees, Fault, Picture, Position, Clock, Recovered]


class Line(NamedTuple):
    """An event, and the offset of its byte."""

    offset: int
    event: Event


def line_of(text: str) -> Optional[Line]:
    """A line of `watch`, `follow` or `recover`; None for the last line, `rest N`, and for anything else that a program may print."""
    offset, _, words = text.partition(" ")
    event = event_of(words) if is_offset(offset) else None
    return Line(int(offset), event) if event else None


def is_offset(word: str) -> bool:
    """Whether a line of a report begins so."""
    return word.isascii() and word.isdigit() and len(word) < 16


class Reported(NamedTuple):
    """What is reported of a byte: its offset, the events, and how those are shown that change the game."""

    offset: int
    events: List[Event]
    shown: List[str]


def by_byte(texts: Sequence[str]) -> List[Reported]:
    """The lines of a report, byte by byte."""
    found: List[Reported] = []
    before: Optional[str] = None
    for text in texts:
        offset, _, words = text.partition(" ")
        if offset != before:
            if not is_offset(offset):
                continue
            found.append(Reported(int(offset), [], []))
            before = offset
        event = event_of(words)
        if event:
            found[-1].events.append(event)
            if isinstance(event, (Move, Result, Recovered)):
                found[-1].shown.append(event.shown)
    return found


@functools.lru_cache(maxsize=4096)
def event_of(words: str) -> Optional[Event]:
    """The event of a line, from its words after the offset. The same words are the same event."""
    kind, _, rest = words.partition(" ")
    if kind == "picture" and rest:
        return Picture(rest)
    if kind == "position" and rest:
        return Position(rest)
    if kind == "agrees":
        return Agrees()
    parts = rest.split(" ")
    if kind == "differs" and rest:
        return Differs(tuple(parts))
    if kind in ("move", "correction") and len(parts) in (2, 3):
        return Move(parts[0], parts[1], "".join(parts[2:]), kind == "correction")
    if kind == "result" and rest:
        return Result(rest)
    if kind == "fault":
        return Fault(rest)
    if kind == "clock" and len(parts) == 2:
        return Clock(parts[0], parts[1])
    return Recovered(words) if kind == "recovered" else None


@functools.lru_cache(maxsize=4096)
def codes_of(placement: str) -> protocol.Picture:
    """The picture of a placement."""
    return protocol.picture_of_placement(placement)
