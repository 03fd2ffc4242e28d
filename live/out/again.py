"""After a restart: what an output that is late had shown is kept beside its text, and readers have that until the program has said again
what each game was, so nobody sees a step back.

For that the program is told the game's captures once more, as far as their times matter. What it says of some bytes follows from these
bytes alone, so it says nothing that is younger than they are. When they came is by the clock of this start of the computer, in
milliseconds, and rather too late than too early: what waits for its time waits rather too long."""

from __future__ import annotations

import contextlib
import hashlib
import itertools
import json
import os
import subprocess
import threading
from dataclasses import astuple, dataclass, replace
from typing import AbstractSet, Any, Callable, Iterator, List, Mapping, Optional, Sequence, Tuple

from live.child.lines import CAPTURE, PIECE, TEXT, Answer, Answers, Move, Recovered, Result, line_of
from live.child.program import CHUNK, Program, told_of_ending
from live.game import times
from live.game.attending import entry
from live.game.files import NO_SUCH_FILE, AnyPath, Opened, Paths, existing, open_regular, part_of, put_in_place
from live.game.game import end_mark, has_delay, kept_options, kept_tags, new_course, result_of, wanted
from live.game.kept import milliseconds, times_of
from live.game.options import Options
from live.game.tags import published
from live.game.times import HEADED, OF_BYTES, OVER, Began, Begin, Call, Part, as_written, read_began, this_start
from live.game.typed import forfeit_of, forfeited_after, told_to_readers
from live.out.delay import Said, delay_of
from live.out.spectators import STANDS, Clocks, Paired, Played, Player, Ply, Shot, Shots, SpectatorBoard, round_pgn
from live.run.loop import Turns, Worker
from live.run.refused import Refused
from live.words.message import Message

PATIENCE = 30.0  # seconds that the program may take
ROUNDED = 2  # milliseconds by which bytes may have come later than their times say
MARGIN = 120.0  # seconds: what is older than the delay by so much needs no time of its own
PAUSE = 1.0  # seconds from the end of one writing to the next: it has all games


@dataclass(frozen=True)
class Came:
    """The first `size` bytes of a capture had come by then."""

    size: int
    at: int


def came(calls: List[Call], generation: int, began: Mapping[Begin, Began], start: str, until: int) -> List[Came]:
    """Of a capture whose times have these calls; all of it has come until then.

    Bytes that no event accounts for came when the next call began. Between two calls the time is known if both began under this start
    of the computer; else it counts as none at all. A call of which nobody has kept when it began has no times."""
    placed = []
    for call in reversed(calls):
        known = began.get((generation, call.offset))
        begins = until
        if known and known.start != start:
            begins = until - call.lasted
        elif known and known.at <= until:
            begins = known.at
        placed.append((call, begins, until))
        until = begins
    found: List[Came] = []
    for call, begins, ends in reversed(placed):
        found = [one for one in found if one.size <= call.size]  # of more bytes, as after a power cut, the capture has others now
        _add(found, Came(call.size, begins))
        covered, last = call.size, 0
        for at, what, count in call.events:
            last = max(last, at)
            if what in OF_BYTES:
                covered += count or 0
                _add(found, Came(covered, min(begins + last, ends)))
    return found


def _add(found: List[Came], one: Came) -> None:
    if one.size > (found[-1].size if found else 0):
        found.append(one)


def within(found: List[Came], size: int, until: int) -> List[Came]:
    """Those of the first so many bytes; if there are more of these, the rest had come until then."""
    front = [one for one in found if one.size < size]
    last = next((one.at for one in found if one.size >= size), until)
    return [*front, Came(size, last)] if size else []


def over_at(calls: List[Call]) -> Optional[int]:
    """How many bytes are the game's, by its times, if it is over."""
    return next((count for call in reversed(calls) for _, what, count in reversed(call.events) if what == OVER), None)


def calls_of(content: bytes, first: bytes, parts: Mapping[int, AbstractSet[Part]]) -> Tuple[List[Call], int]:
    """The calls in a file of times, and its generation; none if it is of another capture than the one that begins so, or can't be
    read. Only lines in these parts count, by generation: what isn't as it was written, and what follows up to the next call, is unknown."""
    found = times.kept(content)
    if not isinstance(found, times.Kept) or found.size > len(first) or times.digest(first[: found.size]) != found.digest:
        return [], 0
    places = as_written(content, parts.get(found.generation, set()))
    return times.calls(content, found, places), found.generation


def games_before(name: str, last: str) -> List[str]:
    """The names of the games that go out under this name, the last one first: of a series all up to this one."""
    front, dash, number = last.rpartition("-")
    if name == last or front != name or not number.isdecimal():
        return [last]
    return [f"{name}-{one}" for one in range(int(number), 0, -1)]


def said_again(program: Program, games: Sequence[Paths], delay: float, now: Callable[[], float]) -> List[Said]:
    """What these games were, one after the other; the last one comes first. What is older than the delay is left out, but for the last
    of it. Raises OSError or Refused if a game can't be read."""
    said: List[Said] = []
    until: Optional[int] = None  # by when all has come
    since, ahead = 0, 0.0
    for paths in games:
        options = kept_options(paths) or Options()
        for capture in captures_of(paths):
            with Opened() as opened:
                kept = Kept.of(paths, capture, opened)
                if kept is None:
                    continue
                if until is None:  # whatever was read is older
                    until = milliseconds()
                    ahead, since = now() - until / 1000, until - int((delay + MARGIN) * 1000)
                found = kept.came(until)
                if not found:
                    continue
                places = [one for one in found if one.at <= since][-1:] + [one for one in found if one.at > since]
                told = Told(program, options, paths, kept, [(one.size, (one.at + ROUNDED) / 1000 + ahead) for one in places])
                said[:0] = told.said(until / 1000 + ahead)
                until = found[0].at
                if until <= since:
                    return said
    return said


def captures_of(paths: Paths) -> List[str]:
    """The captures that a game has and had, the last one first: some of its moves may be in one from before plies were taken off, or
    the game began."""
    number, before = 1, [paths.before]
    while os.path.lexists(paths.before_back(number)):
        before.append(paths.before_back(number))
        number += 1
    return [paths.capture, *reversed(before)]


@dataclass(frozen=True)
class Kept:
    """What is kept of a capture: the open file; how many of its bytes are the game's, if its end is marked; what its file of times and
    NAME.began have; and whether it is the game's last capture."""

    source: int
    size: int
    times: bytes
    began: bytes
    is_last: bool

    @staticmethod
    def of(paths: Paths, capture: str, opened: Opened) -> Optional[Kept]:
        """None if the capture isn't there, or is a link, which nobody records. The times are read first: so nothing is younger than
        they say."""
        lines, began, is_last = _content(times_of(capture)), _content(paths.began), capture == paths.capture
        try:
            source = opened.keep(open_regular(capture, os.O_RDONLY | os.O_NOFOLLOW))
        except OSError:
            return None
        size, end = os.fstat(source).st_size, end_mark(paths) if is_last else None
        return Kept(source, size if end is None else min(size, end), lines, began, is_last)

    def came(self, until: int) -> List[Came]:
        """When its bytes came, all of them by this time. The end of an earlier capture is in its times alone."""
        began = read_began(self.began)
        calls, generation = calls_of(self.times, part_of(self.source, 0, HEADED), began.parts)
        over = None if self.is_last else over_at(calls)
        size = self.size if over is None else min(self.size, over)
        return within(came(calls, generation, began.calls, this_start(), until), size, until)


def _content(path: str) -> bytes:
    with contextlib.suppress(OSError):
        return existing(path)
    return b""


@dataclass(frozen=True)
class Told:
    """A capture that the program is told up to some places, each with a time."""

    program: Program
    options: Options
    paths: Paths
    kept: Kept
    places: List[Tuple[int, float]]

    def said(self, now: float) -> List[Said]:
        """What the game was, each time from then on, up to now. Its text is asked for where it has changed, by another child."""
        course, shots = new_course(self.options), Shots()
        said: List[Said] = []
        changed: List[int] = []  # how many bytes its capture had, each time that its text has changed

        def shot(at: float) -> Shot:
            """The game now; in place of its text it has the number of that."""
            return shots.take(Played(course.plies, course.fens, course.result, b"%d" % (len(changed) - 1), "", course.shown.clock, course.shown.clock_at), at)

        def stood(until: float) -> None:
            """The clocks may have stopped before this time."""
            at = said[-1][0] + STANDS if said else until
            if at < until:
                said.append((at, shot(at)))

        after = forfeited_after(self.paths) if self.kept.is_last else None
        forfeited_at: Optional[float] = None  # when it was known to be forfeited; earlier captures say nothing of it
        for answers, (size, at) in zip(self._answers([size for size, _ in self.places]), self.places):
            stood(at)
            if not changed or any(_changes_game(text) for answer in answers for text in answer.report):
                changed.append(size)
            if after is not None and size > after and forfeited_at is None:
                forfeited_at = at
            for answer in answers:
                for line in filter(None, map(line_of, wanted(answer.report, course.start) if answer.report else ())):
                    course.take(line, at)
            said.append((at, shot(at)))
        stood(now)
        texts = [answers[-1].game or b"" for answers in self._answers(changed, (entry(0, TEXT),))]
        forfeits = [forfeit_of(self.paths, text) for text in texts]

        def whole(at: float, shot: Shot) -> Shot:
            number, is_forfeited = int(shot.text), forfeited_at is not None and at >= forfeited_at
            return replace(shot, text=texts[number], forfeit=forfeits[number] if is_forfeited else "")

        return [(at, whole(at, shot)) for at, shot in said]

    def _answers(self, sizes: Sequence[int], asks: Tuple[bytes, ...] = ()) -> Iterator[List[Answer]]:
        """What is answered to the bytes up to each of these sizes, and to what is asked there."""
        with Opened() as opened:
            told, at, counts = opened.keep(os.memfd_create("told")), 0, []  # type: int, int, List[int]
            for size in sizes:
                before, ends = at, [*range(at + PIECE, size, PIECE), size]
                for end in ends:
                    part = part_of(self.kept.source, before, end)
                    _write(told, entry(0, CAPTURE, len(part), part))
                    before = end
                for question in asks:
                    _write(told, question)
                at = size
                counts.append(len(ends) + len(asks))
            os.lseek(told, 0, os.SEEK_SET)
            answers = _answers(self.program, ("live", *self.options.of_live()), told)
            for count in counts:
                found = list(itertools.islice(answers, count))
                if len(found) < count:
                    raise OSError(Message("program.not_all_answered"))
                yield found
            for _ in answers:
                pass  # it ends


def _changes_game(text: str) -> bool:
    line = line_of(text)
    return line is not None and isinstance(line.event, (Move, Result, Recovered))


def _write(number: int, text: bytes) -> None:
    while text:
        text = text[os.write(number, text) :]


def _answers(program: Program, words: Tuple[str, ...], told: int) -> Iterator[Answer]:
    """What a child answers that is told this. Raises OSError if it fails."""
    into, out = os.pipe()
    try:
        child = program.start(words, told, out, subprocess.DEVNULL)
    except OSError:
        os.close(into)
        raise
    finally:
        os.close(out)
    late = threading.Timer(PATIENCE, child.kill)
    late.daemon = True
    late.start()
    answers = Answers()
    try:
        while part := os.read(into, CHUNK):
            yield from answers.take(part)
    except BaseException:
        child.kill()
        raise
    finally:
        os.close(into)
        status = child.wait()
        late.cancel()
    if status != 0:
        raise OSError(told_of_ending(words[0], status))


def is_hidden(paths: Paths) -> bool:
    """Whether a game goes out late, and something of it may still be too young."""
    try:
        delay = delay_of(paths, None, [paths])
        text = existing(paths.pgn)
        result, forfeit = result_of(text), forfeit_of(paths, text)
        if not delay or Shot(result, text=text, forfeit=forfeit).says_nothing:
            return False
        if forfeit and result == "*":
            return True  # nobody knows when that was typed
        return youngest(paths) > milliseconds() - delay * 1000
    except OSError as error:
        return error.errno not in NO_SUCH_FILE
    except Refused:
        return True


def youngest(paths: Paths) -> int:
    """When the last byte of its game came."""
    with Opened() as opened:
        kept = Kept.of(paths, paths.capture, opened)
        now = milliseconds()
        found = kept.came(now) if kept else []
        return found[-1].at if found else now


def is_unseen(paths: Paths) -> bool:
    """Whether it is hidden, or its last text was never put in place."""
    with contextlib.suppress(OSError):
        if has_delay(paths):
            goes_out, text = existing(paths.broadcast), existing(paths.pgn)
            whole = round_pgn([published(text, kept_tags(paths), told_to_readers(forfeit_of(paths, text)))])
            return is_hidden(paths) or goes_out not in (b"", whole)
    return False


@dataclass(frozen=True)
class WentOut:
    """The boards as readers have them, the names of their games, and the table's boards that aren't recorded."""

    boards: Tuple[SpectatorBoard, ...] = ()
    names: Tuple[str, ...] = ()
    pairs: Tuple[Paired, ...] = ()

    def of(self, number: int, name: str) -> Optional[Shot]:
        """What readers have of this game."""
        return next((board.shot for board, own in zip(self.boards, self.names) if (board.number, own) == (number, name)), None)


def shown_beside(text: AnyPath) -> str:
    """Where it is kept for an output with this text: `broadcast.shown` beside `broadcast.pgn`."""
    return f"{os.path.splitext(os.fspath(text))[0]}.shown"


def shown_text(went: WentOut, delay: float) -> bytes:
    """The file: a digest of its second line, and that line. Clocks run by the clock of this start of the computer."""
    boards = [_values(board, name) for board, name in zip(went.boards, went.names)]
    pairs = [astuple(pair) for pair in went.pairs]
    line = json.dumps({"delay": delay, "start": this_start(), "boards": boards, "pairs": pairs}, separators=(",", ":")).encode("ascii")
    return b"%s\n%s\n" % (_digest(line), line)


def read_shown(path: AnyPath, delay: float) -> WentOut:
    """What the file has; nothing if it is lost or damaged, or if less was hidden by it than is hidden now."""
    try:
        digest, line, _ = existing(path).split(b"\n")
        kept = json.loads(line) if digest == _digest(line) else {"delay": -1.0}
        if kept["delay"] < delay:
            return WentOut()
        boards = [_board(values, kept["start"] == this_start()) for values in kept["boards"]]
        pairs = tuple(Paired(number, (white, black), score, shown) for number, (white, black), score, shown in kept["pairs"])
        return WentOut(tuple(boards), tuple(values["name"] for values in kept["boards"]), pairs)
    except (OSError, ValueError, TypeError, KeyError):
        return WentOut()


def _digest(line: bytes) -> bytes:
    return hashlib.blake2b(line, digest_size=16).hexdigest().encode("ascii")


def _values(board: SpectatorBoard, name: str) -> "dict[str, object]":
    shot = board.shot
    return {
        "name": name, "number": board.number, "players": [astuple(board.white), astuple(board.black)], "pgn": _as_text(board.pgn), "delay": board.delay,
        "result": shot.result, "moves": [(ply.san, ply.clock) for ply in shot.moves], "positions": shot.positions, "text": _as_text(shot.text),
        "clocks": astuple(shot.clocks), "forfeit": shot.forfeit,
    }  # fmt: skip


def _board(values: "dict[str, Any]", runs: bool) -> SpectatorBoard:
    white, black = (Player(*player) for player in values["players"])
    clocks = Clocks(*values["clocks"])
    moves, positions = tuple(Ply(san, clock) for san, clock in values["moves"]), tuple(values["positions"])
    clocks = clocks if runs else Clocks(clocks.white, clocks.black)
    shot = Shot(values["result"], moves, positions, _as_bytes(values["text"]), clocks, values["forfeit"])
    return SpectatorBoard(values["number"], white, black, shot, _as_bytes(values["pgn"]), values["delay"])


def _as_text(content: bytes) -> str:
    return content.decode("utf-8", "surrogateescape")


def _as_bytes(text: str) -> bytes:
    return text.encode("utf-8", "surrogateescape")


Waits = Optional[Tuple[WentOut, Callable[[], None]]]  # what goes out next, and what lets it out


class Keeper:
    """Keeps it beside the loop."""

    def __init__(self, loop: Turns, path: str, delay: float) -> None:
        self._loop, self._path, self._delay = loop, path, delay
        self._worker = Worker(loop)
        self._writes: Waits = None
        self._next: Waits = None  # after that
        self._rests = False

    def keep(self, went: WentOut, goes_out: Callable[[], None]) -> None:
        """Keeps this, and then calls the function. If more comes meanwhile, only the last of it is kept."""
        self._next = went, goes_out
        if not (self._writes or self._rests):
            self._write()

    @property
    def is_idle(self) -> bool:
        """Whether nothing waits to be let out."""
        return not (self._writes or self._next)

    def _write(self) -> None:
        self._rests, self._writes, self._next = False, self._next, None
        if self._writes:
            went, goes_out = self._writes
            self._worker.do(lambda: self._put(went), lambda _: self._written(goes_out))

    def _written(self, goes_out: Callable[[], None]) -> None:
        self._rests, self._writes = True, None
        self._loop.after(PAUSE, self._write)
        goes_out()

    def _put(self, went: WentOut) -> None:
        if not (went.boards or os.path.exists(self._path)):
            return  # nothing has gone out yet
        with contextlib.suppress(OSError):  # it goes out all the same; that the disk is full is said of the text
            put_in_place(self._path, shown_text(went, self._delay))

    def finish(self) -> None:
        """Keeps at once what waits, and lets it out."""
        self._worker.close()
        self._worker.wait()
        last, self._writes, self._next = self._next or self._writes, None, None
        if last:
            self._put(last[0])
            last[1]()

    def close(self) -> None:
        """Begins no further writing."""
        self._worker.close()
