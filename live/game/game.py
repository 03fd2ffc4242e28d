"""An open game, its course as the program reports it, and what is kept beside its capture: its options, its board's number, the mark of its end,
how many bytes a way back has made at its beginning, and a question; the names that its files may have, and to what else it may belong by its
name. The course is pure: lines and times are passed in."""

from __future__ import annotations

import contextlib
import os
import re
import stat
import zlib
from dataclasses import dataclass, field
from typing import List, Optional, Sequence, Tuple

from live.child.lines import Agrees, Change, Clock, Differs, Event, Fault, Line, Move, News, Picture, Position, Recovered, Result, codes_of, event_of, line_of
from live.child.program import Program, told_of_ending
from live.game.files import LARGEST, NO_SUCH_FILE, Paths, beginning, existing, not_written, plain, put_in_place, remove, size_of, sync_folder, text_of
from live.game.kept import Capture, Times
from live.game.options import Options
from live.game.tags import Tags
from live.line.protocol import differing
from live.run.refused import ARGUMENTS, FAILED, REFUSED, Refused
from live.words.message import Message

RESULT = re.compile(rb'^\[Result "([^"]*)"\]$', re.MULTILINE)
SERIAL = re.compile(rb"([!-~]{5})\s*")
LONGEST_SERIAL = 80  # bytes of the file with a board's number, whoever wrote it
LONGEST_MARK = 18  # digits of the mark of an end
LONGEST_FRONT = 64  # bytes of the file with the front of a capture, whoever wrote it


ROOM = 1024 * 1024  # bytes for what `recover` puts in, some 5,000 pairs: no call of the program reads more than LARGEST


def largest(options: Options) -> int:
    """The bytes that the capture of a game may have."""
    return LARGEST - ROOM if options.recover else LARGEST


def mebibytes(options: Options) -> int:
    """The same in MiB."""
    return largest(options) // (1024 * 1024)


@dataclass
class Written:
    """The text that last replaced NAME.pgn, if that is known, and the options that it has."""

    last: Optional[Tuple[bytes, Options]] = None


@dataclass(frozen=True)
class Game:
    """A game whose capture is open and locked, with its times, and the program that reads it."""

    program: Program
    paths: Paths
    capture: Capture
    options: Options
    times: Times
    written: Written = field(default_factory=Written, compare=False)


def result_of(pgn: bytes) -> str:
    """The result in a PGN text."""
    found = RESULT.search(pgn)
    return found.group(1).decode("ascii", "replace") if found else "*"


def is_unplayed(pgn: bytes) -> bool:
    """Whether a text has no move."""
    return len(pgn.partition(b"\n\n")[2].split()) <= 1


def result_in(paths: Paths) -> str:
    """The result in NAME.pgn, as far as it can be read."""
    try:
        return result_of(existing(paths.pgn))
    except OSError:
        return "*"


def end_mark(paths: Paths) -> Optional[int]:
    """How many bytes of the capture are the game's, if its end is marked."""
    words = existing(paths.end).split()
    return int(words[0]) if words and words[0].isdigit() and len(words[0]) <= LONGEST_MARK else None


def mark_end(paths: Paths, capture: Capture, size: int) -> None:
    """Marks the end, when the capture is on the disk. Raises OSError on failure."""
    capture.sync()
    put_in_place(paths.end, b"%d\n" % size)


def unmark_end(paths: Paths) -> None:
    """The game isn't over any more. Raises OSError on failure."""
    os.unlink(paths.end)
    sync_folder(paths.folder)


def forget_question(paths: Paths) -> None:
    """The game has changed, or ends: a question from before would be asked again."""
    with contextlib.suppress(OSError):
        remove(paths.question)


def keep_front(paths: Paths, content: bytes) -> None:
    """Keeps how many bytes the new capture begins with, and their checksum. Raises OSError if that fails."""
    put_in_place(paths.front, b"%d %d\n" % (len(content), _checksum(content)))


def front_of(paths: Paths, capture: Capture) -> int:
    """How many bytes a way back has made at the beginning of this capture; 0 if none, or of another one."""
    with contextlib.suppress(OSError, ValueError):
        kept = existing(paths.front)[:LONGEST_FRONT].split()
        if kept:
            size, checksum = map(int, kept)
            if 0 < size <= capture.size and _checksum(capture.bytes(0, size)) == checksum:
                return size
    return 0


def _checksum(content: bytes) -> int:
    return zlib.crc32(content)


def _number_in(path: str) -> str:
    try:
        found = SERIAL.fullmatch(beginning(path, LONGEST_SERIAL))
    except OSError:
        return ""
    return found.group(1).decode("ascii") if found else ""


def kept_serial(paths: Paths) -> str:
    """The serial number of its board; empty if none was kept that can be read."""
    return _number_in(paths.serial)


def kept_other(paths: Paths) -> str:
    """The serial number of the board of another game that somebody has seen on its cable, and left there; else empty."""
    return _number_in(paths.other)


def keep_other(paths: Paths, number: str) -> None:
    """Keeps it. Raises OSError on failure."""
    put_in_place(paths.other, f"{number}\n".encode("ascii"))


def keep_serial(paths: Paths, number: str) -> None:
    """Keeps it. Raises OSError on failure."""
    put_in_place(paths.serial, f"{number}\n".encode("ascii"))


def is_full(game: Game) -> bool:
    """Whether its capture is full, so that nothing more is recorded."""
    return game.capture.size >= largest(game.options)


def kept_options(paths: Paths) -> Optional[Options]:
    """The options that were kept beside a game. Refused if they can't be read."""
    try:
        text = beginning(paths.options, LARGEST).decode("utf-8", "surrogateescape")
    except OSError as error:
        if error.errno in NO_SUCH_FILE:
            return None
        raise Refused(FAILED, Message("options.unreadable", path=paths.options, why=text_of(error))) from None
    try:
        return Options.of_text(text)
    except Refused as refused:
        raise Refused(REFUSED, Message("options.wrong", path=paths.options, why=refused.lines[0])) from None


def kept_tags(paths: Paths) -> Tags:
    """The tags of the published text that were kept beside a game, as far as they can be read."""
    try:
        kept = kept_options(paths)
    except Refused:
        return {}  # the reason is reported when the game is opened
    return dict(kept.tags) if kept else {}


def put_options(paths: Paths, options: Options) -> None:
    """Keeps the options. Raises OSError if they can't be written."""
    put_in_place(paths.options, options.text().encode("utf-8", "surrogateescape"))


def keep_options(paths: Paths, options: Options) -> None:
    """The same. Refused if they can't be written."""
    try:
        put_options(paths, options)
    except OSError as error:
        raise Refused(FAILED, not_written(paths.options, error)) from None


# A shell completes to the last one.
ENDINGS = (
    ".before.dgt", ".dgt", ".edited.pgn", ".broadcast.pgn", ".broadcast.shown", ".pgn", ".options", ".log", ".look", ".back", ".serial", ".end",
    ".forfeit", ".front", ".delay", ".out", ".pages", ".cable", ".times", ".began", ".zip", ".",
)  # fmt: skip
ROUND, BROADCAST = "round", "broadcast"
OF_A_ROUND = (ROUND, BROADCAST)  # the names of a round's own files, in lower case
OF_AN_OUTPUT = "output-"  # and with its name the folder of another output: no game's file is called so, as each has a full stop
OF_A_GAME = re.compile(r"\.(?:(?:before|edited)(?:-[0-9]+)?|broadcast)$", re.IGNORECASE)  # a game's own files end so, before .dgt or .pgn
DEVICES = ("/dev/tty", "/dev/serial/", "/dev/rfcomm", "tcp://")  # what a board's device begins with


def check_name(name: str) -> None:
    """Refuses a name of a device, or of one of a game's files: a shell completes to those. An existing game of that name goes on."""
    try:
        is_device = "\0" not in name and stat.S_ISCHR(os.stat(name).st_mode)
    except OSError:
        is_device = False
    if is_device or name.startswith(DEVICES):
        raise Refused(ARGUMENTS, Message("name.is_device", name=name))
    if size_of(Paths(name).capture):
        return
    for ending in ENDINGS:
        game = name[: -len(ending)]
        if name.endswith(ending) and game.strip("./"):
            raise Refused(REFUSED, Message("name.is_file", name=name, game=game))
    game = OF_A_GAME.sub("", name)
    if game != name and game.strip("./"):
        raise Refused(REFUSED, Message("name.of_a_game", name=name, game=game))
    folder, _, last = plain(name).rpartition("/")
    if last.lower() in OF_A_ROUND and os.path.lexists(f"{folder or '.'}/{ROUND}.log"):
        raise Refused(REFUSED, Message("name.of_a_round", name=name, folder=folder or Message("name.this_folder")))
    if is_of_an_output(folder):
        raise Refused(REFUSED, Message("name.of_an_output", folder=folder))


def is_of_an_output(folder: str) -> bool:
    """Whether this is the folder of an output of a round."""
    above, last = os.path.split(os.path.abspath(folder))
    return last.startswith(OF_AN_OUTPUT) and os.path.lexists(f"{above}/{ROUND}.log")


def owners_of(paths: Paths) -> List[Paths]:
    """A game's own files, and those of the round and of the series to which it may belong."""
    folder, _, name = paths.name.rpartition("/")
    front = paths.name[: len(paths.name) - len(name)]
    series, dash, number = name.rpartition("-")
    names = [name, ROUND] if name != ROUND else [name]
    return [Paths(front + one) for one in (*names, *([series] if dash and series and number.isdigit() else []))]


def has_delay(paths: Paths) -> bool:
    """Whether a delay was given for a game, or for the round or series to which it may belong."""
    return any(os.path.lexists(owner.delay) for owner in owners_of(paths))


def placement_of(fen: str) -> str:
    """The pieces of a position."""
    return fen.partition(" ")[0]


@dataclass
class Shown:
    """What the board shows: its pieces, and its last state; its clocks, if they were reported, and when that came."""

    placement: str = ""
    stands: Optional[Event] = None
    clock: Optional[Clock] = None
    clock_at: float = 0.0


class Course:
    """The moves of a game with their positions, its result, and what the board shows."""

    def __init__(self, start: str) -> None:
        self.start = start
        self.plies: List[Move] = []
        self.fens: List[str] = []  # of the start and after each ply, as far as they are reported
        self.result = "*"
        self.result_at = 0  # the offset of the line that gave it
        self.recovered: List[str] = []  # the pairs that were recovered
        self.shown = Shown()
        self.ends: List[int] = []  # the offsets of the lines that gave the plies
        self.began = 0  # the offset of the line that gave the first ply first
        self.news: List[News] = []  # the reported lines of the game: its changes, and the pairs before them

    def take(self, line: Line, at: float) -> None:
        """Takes the next line, which came at this time."""
        offset, event = line
        if isinstance(event, Picture):
            self.shown.placement = event.placement
        elif isinstance(event, Position):
            del self.fens[len(self.plies) :]
            self.fens.append(event.fen)
        elif isinstance(event, Clock):
            self.shown.clock, self.shown.clock_at = event, at
        elif isinstance(event, Recovered):
            self.recovered.append(event.text)
            self.news.append(event)
        elif not isinstance(event, Fault):
            self.shown.stands = event
            if isinstance(event, (Move, Result)):
                self._take_change(event, offset)

    def _take_change(self, change: Change, offset: int) -> None:
        self.news.append(change)
        if isinstance(change, Result):
            self.result, self.result_at = change.outcome, offset
            return
        if change.corrects and self.plies:
            self.plies.pop()
            del self.fens[len(self.plies) + 1 :]
        self.plies.append(change)
        del self.ends[len(self.plies) - 1 :]
        self.ends.append(offset)
        self.began = self.began or offset

    def end(self, size: int, result: str) -> List[Move]:
        """The game has so many bytes and this result. Returns the plies behind them, which it has no more."""
        kept = sum(at < size for at in self.ends)
        gone = self.plies[kept:]
        del self.plies[kept:], self.ends[kept:], self.fens[kept + 1 :]
        self.result = result
        return gone

    @property
    def has_gone_back(self) -> bool:
        """Whether the board shows a position that the game had more than two plies ago: perhaps all since was taken back."""
        return any(placement_of(fen) == self.shown.placement for fen in self.fens[:-3])

    @property
    def is_given(self) -> bool:
        """Whether it has a result that its last move didn't give."""
        return self.result != "*" and self.result_at not in self.ends[-1:]

    def standing(self) -> Sequence[Event]:
        """The fewest lines that give the board's state."""
        last: List[Event] = [*self.plies[-1:]]
        if self.result != "*":
            last.append(Result(self.result))
        if self.shown.stands and self.shown.stands not in last:
            last.append(self.shown.stands)
        return last


def clocks_of(plies: Sequence[Move]) -> Tuple[str, str]:
    """The clock times of White and of Black, each after its last move."""
    white = next((ply.clock for ply in reversed(plies) if ply.clock and not ply.number.endswith("...")), "")
    black = next((ply.clock for ply in reversed(plies) if ply.clock and ply.number.endswith("...")), "")
    return white, black


ONE_MOVE = 4  # squares that a move changes, at most


@dataclass(frozen=True)
class Old:
    """What a capture had when it was opened: its bytes, the number of their lines in the report, the course of the game, and its text."""

    size: int
    lines: int
    course: Course
    text: bytes = b""


def new_course(options: Options) -> Course:
    """The course of a game without a report yet."""
    return Course(options.start)


def nothing_old(options: Options, size: int) -> Old:
    """A capture whose bytes are still to be reported."""
    return Old(size, 0, new_course(options))


def whole(program: Program, options: Options, sent: bytes) -> bytes:
    """The bytes from which a game is read: what the board sent, with the pairs that `recover` adds, if requested. Raises
    OSError on failure."""
    if not options.recover:
        return sent
    answer = program.run("recover", *options.of_board(), given=sent)
    if answer.returncode != 0:
        raise OSError(told_of_ending("recover", answer.returncode))
    return answer.stdout


def game_of(program: Program, options: Options, sent: bytes) -> Course:
    """The course of a game of these bytes."""
    sent = whole(program, options, sent)
    course = new_course(options)
    for text in program.lines("watch", *options.of_board(), given=sent):
        line = line_of(text)
        if line:
            course.take(line, 0.0)
    return course


def wanted(texts: Sequence[str], start: str) -> Sequence[str]:
    """Those of some consecutive lines that a course needs. If nothing has changed the game and no picture is far from the start,
    a square may have chattered, and these are: the first lines that give the board's state, the last one that agrees with the
    one after it, and the last; the first picture of each kind with the line after it, and the last; the last clock times.
    Otherwise it needs all."""
    words = [text.partition(" ")[2] for text in texts]
    kinds = {word: event_of(word) for word in set(words)}
    if not all(isinstance(event, (Picture, Differs, Agrees, Clock)) for event in kinds.values()):
        return texts
    pictures = [event for event in kinds.values() if isinstance(event, Picture)]
    if any(len(differing(event.codes, codes_of(start))) > ONE_MOVE for event in pictures):
        return texts
    stands = [at for at, word in enumerate(words) if word[0] in "ad"]
    last = [*stands[-1:], *_last(words, "p"), *_last(words, "c")]
    first = {words.index(f"picture {event.placement}") for event in pictures}
    kept = {*stands[:3], *last, *first, *(at + 1 for at in first if at + 1 < len(texts))}
    for agrees in _last(words, "a"):
        kept |= {agrees, *[at for at in stands if at > agrees][:1]}
    return [texts[at] for at in sorted(kept)]


def _last(words: Sequence[str], letter: str) -> Sequence[int]:
    """The index of the last word that begins with this letter, if any."""
    return next(([at] for at in range(len(words) - 1, -1, -1) if words[at][0] == letter), [])
