"""Files with published texts, and the command that carries them away.

Each file is put in place whole, beside the loop: round.pgn and broadcast.pgn have the games one after the other; a tournament's all.pgn
has those of all rounds, and results.csv the results of a round as a table.

`--publish COMMAND` runs the command with the path of the broadcast's file after each change, beside the loop. `Plan` decides when it
runs, and is pure. The command's standard output is dropped; if it fails, the last line of its standard error is reported. Of the
command's own words only its program is ever reported: the others may contain a secret."""

from __future__ import annotations

import csv
import errno
import io
import os
import pathlib
import select
import signal
import subprocess
import sys
import time
from dataclasses import dataclass
from typing import Callable, Iterable, List, NamedTuple, Optional, Sequence, Tuple

from live.board.state import trouble_of
from live.game.files import AnyPath, put_in_place
from live.game.making_pgn import Made
from live.run.loop import ENDING, Guard, Restarted, Timer, Turns, Worker
from live.words.message import Message

EACH = 5.0  # least seconds between the beginnings of two runs
LONGEST = 30.0  # seconds that a run may take
PAUSES = (5.0, 10.0, 20.0, 40.0, 60.0)  # seconds from the end of a failed run to the next run
GRACE = 5.0  # seconds
LOOK = 0.1  # seconds between two checks of a command that writes nothing
LONGEST_LINE = 300  # characters of its last line
PART = 4096  # bytes
ONE_AT_A_TIME = os.path.join(os.path.dirname(__file__), "one_at_a_time.py")
AGAIN = 1.0  # seconds after a failed try
GATHERED = 0.02  # seconds in which changes go into one text
SHARE = 10  # this times as long as the last writing took: on the disk the games come first
LONGEST_PAUSE = 1.0  # seconds
LOOKS = 1.0  # seconds between two checks; an unchanged text isn't written
BEGINS_AGAIN = 5.0  # seconds until it is started again after an error
RESULTS = "results.csv"
HEADER = ("Board", "White", "Black", "Result", "Note")
FORFEIT = "forfeit"
FORMULAS = ("=", "+", "-", "@", "\t", "\r", "＝", "＋", "－", "＠")  # a spreadsheet takes a cell that begins so for a formula


@dataclass
class Plan:
    """When a command runs: one run at a time, and again after a failure."""

    began_at: float = -EACH
    fails: int = 0  # runs in a row
    again_at: float = 0.0
    wanted: bool = False  # whether the file has changed since the last run, or that run failed
    running: bool = False

    def changed(self) -> None:
        """The file has changed."""
        self.wanted = True

    @property
    def begins_at(self) -> Optional[float]:
        """When the next run begins; None if there is nothing to do, or a run is under way."""
        if self.running or not self.wanted:
            return None
        return max(self.began_at + EACH, self.again_at if self.fails else self.began_at)

    def begun(self, now: float) -> None:
        """A run has begun."""
        self.began_at, self.running, self.wanted = now, True, False

    def ended(self, now: float, well: bool) -> None:
        """It has ended."""
        self.running = False
        if well:
            self.fails = 0
            return
        self.again_at = now + PAUSES[min(self.fails, len(PAUSES) - 1)]
        self.fails += 1
        self.wanted = True


def run(words: Sequence[str], path: AnyPath, seconds: float) -> str:
    """Runs the command, when no earlier run of it is left, and waits for its end. What it has started has the same time, and then
    is ended; the next run waits for that. Returns in one line what went wrong; empty if it ended well."""
    errors, into = os.pipe()
    try:
        try:
            # A worker's thread blocks signals, and a child would inherit that.
            signal.pthread_sigmask(signal.SIG_UNBLOCK, ENDING)
            child = subprocess.Popen(
                [sys.executable, "-I", "-S", "-B", ONE_AT_A_TIME, str(seconds), argument(path), *words],
                stdin=subprocess.DEVNULL,
                stdout=subprocess.PIPE,
                stderr=into,
                start_new_session=True,
            )
        except OSError as error:
            return Message("command.not_started", why=error.strerror)
        finally:
            signal.pthread_sigmask(signal.SIG_BLOCK, ENDING)
            os.close(into)
        tail, answer = _until_it_ends(child, errors, time.monotonic() + 2 * seconds + GRACE)
    finally:
        os.close(errors)
    word, _, more = answer.partition(" ")
    if word == "ended":
        return "" if more == "0" else last_line(tail) or _status(int(more))
    if word == "unstarted":
        return Message("command.not_started_so", command=shown(words[0]), why=_why_unstarted(words[0], more))
    return Message("command.earlier_run") if word == "beside" else Message("command.took_too_long", seconds=format(seconds, ".0f"))


def _why_unstarted(program: str, reason: str) -> str:
    """Why a program can't be started, in plain words if it isn't there or may not run."""
    if reason == os.strerror(errno.EACCES) and os.path.isfile(program):
        return Message("command.chmod", program=shown(program))
    if reason != os.strerror(errno.ENOENT):
        return reason
    return Message("command.interpreter_missing") if os.path.exists(program) else Message("command.missing")


def shown(text: str) -> str:
    """Safe to show on a terminal."""
    return "".join(letter if letter.isprintable() else "?" for letter in text)[:LONGEST_LINE]


def argument(path: AnyPath) -> str:
    """A path that no command takes for an option."""
    text = str(path)
    return f"./{text}" if text.startswith("-") else text


def _until_it_ends(child: subprocess.Popen[bytes], errors: int, ends: float) -> Tuple[bytes, str]:
    """The last part of what the command writes to standard error, and what is said of its end. Processes that it started may go
    on."""
    assert child.stdout
    answers = child.stdout.fileno()
    tail, answer, is_open = b"", b"", [errors, answers]
    try:
        while answers in is_open and b"\n" not in answer and time.monotonic() < ends:
            for number in select.select(is_open, [], [], LOOK)[0]:
                part = os.read(number, PART)
                if not part:
                    is_open.remove(number)
                elif number == answers:
                    answer += part
                else:
                    tail = (tail + part)[-PART:]
        while errors in is_open and select.select([errors], [], [], 0)[0]:
            part = os.read(errors, PART)
            if not part or time.monotonic() >= ends:
                break
            tail = (tail + part)[-PART:]
    finally:
        child.stdout.close()
        if b"\n" not in answer and child.poll() is None:
            child.kill()
    return tail, answer.decode("utf-8", "replace").rstrip("\n")


def last_line(text: bytes) -> str:
    """The last line that isn't empty, safe to show on a terminal."""
    lines = [line.strip() for line in text.decode("utf-8", "replace").replace("\r", "\n").split("\n")]
    said = next((line for line in reversed(lines) if line), "")
    return shown(said)


def _status(status: int) -> str:
    return Message("command.status", status=status) if status > 0 else Message("command.signal", signal=-status)


class Publisher:
    """Runs the command. `told` gets what went wrong in each run, or nothing."""

    def __init__(self, loop: Turns, words: Sequence[str], path: AnyPath, told: Callable[[str], None]) -> None:
        self._loop, self._words, self._path, self._told = loop, tuple(words), path, told
        self._worker = Worker(loop)
        self._plan = Plan()
        self._timer: Optional[Timer] = None
        self._done: Optional[Callable[[], None]] = None

    def changed(self) -> None:
        """The file has changed."""
        self._plan.changed()
        self._wait()

    def _wait(self) -> None:
        at = self._plan.begins_at
        if at is not None and self._timer is None:
            self._timer = self._loop.after(max(0.0, at - self._loop.now()), self._begin)

    def _begin(self) -> None:
        self._timer = None
        if self._plan.running or not self._plan.wanted:
            return
        self._plan.begun(self._loop.now())
        words, path = self._words, self._path
        self._worker.do(lambda: run(words, path, LONGEST), self._ended)

    def _ended(self, trouble: str) -> None:
        self._plan.ended(self._loop.now(), not trouble)
        self._told(trouble)
        if self._done and (trouble or not self._plan.wanted):
            self._finished()
        else:
            self._wait()

    @property
    def is_idle(self) -> bool:
        """Whether the file is published as it is now."""
        return not (self._plan.running or self._plan.wanted)

    def finish(self, done: Callable[[], None]) -> None:
        """Calls this when the current file is published, or couldn't be: after a failed run it tries once more, at once."""
        self._done = done
        if self._plan.running:
            return
        if not self._plan.wanted:
            self._finished()
            return
        if self._timer:
            self._timer.cancel()
        wait = self._plan.began_at + EACH - self._loop.now()
        self._timer = self._loop.after(max(0.0, wait), self._begin)

    def _finished(self) -> None:
        done, self._done = self._done, None
        if done:
            self._loop.after(0, done)

    def close(self) -> None:
        """Begins no further run."""
        if self._timer:
            self._timer.cancel()
        self._worker.close()


class Published:
    """Keeps a text in a file. If it can't be written, that is reported once, and it is tried again. `put` is called when the file has
    another text."""

    def __init__(
        self, loop: Turns, path: AnyPath, text: Callable[[], bytes], says: Callable[[str], None], put: Callable[[], None] = lambda: None
    ) -> None:
        self._loop, self.path, self._text, self._says, self._put = loop, path, text, says, put
        self._worker = Worker(loop)
        self._timer: Optional[Timer] = None
        self._writing = False
        self._written: Optional[bytes] = None
        self._gathered = GATHERED
        self._made = Made()  # the last outcome

    def changed(self) -> None:
        """The text of a game has changed."""
        if self._timer is None and not self._writing:
            self._timer = self._loop.after(self._gathered, self._write)

    def _write(self) -> None:
        """Writes it beside the loop."""
        self._timer = None
        text = self._text()
        if text == self._written:
            return
        self._writing = True
        begun = self._loop.now()

        def done(made: Made) -> None:
            self._writing = False
            self._gathered = max(GATHERED, min(LONGEST_PAUSE, SHARE * (self._loop.now() - begun)))
            self._take(text, made)
            if made.trouble:
                self._timer = self._loop.after(AGAIN, self._write)
            else:
                self.changed()

        self._worker.do(lambda: outcome(lambda: put_in_place(self.path, text)), done)

    def _take(self, text: bytes, made: Made) -> None:
        """Takes the outcome of a writing."""
        before, self._made = self._made, made
        if made.trouble and not before.trouble:
            self._says(Message("published.unwritten", trouble=trouble_of(made.full), path=self.path, why=made.trouble))
        elif before.trouble and not made.trouble:
            self._says(Message("file.written_again", path=self.path))
        if not made.trouble and text != self._written:
            self._written = text
            self._put()

    @property
    def is_written(self) -> bool:
        """Whether the file has the current text."""
        return self._written == self._text()

    def stop(self) -> None:
        """Begins no further writing."""
        if self._timer:
            self._timer.cancel()
        self._worker.close()

    def close(self) -> str:
        """Writes it a last time. Returns that it can't be written, and why; empty if it is."""
        self.stop()
        self._worker.wait()
        text = self._text()
        self._take(text, outcome(lambda: put_in_place(self.path, text)))
        return self._made.told(self.path) if self._made.trouble else ""


def outcome(writes: Callable[[], Optional[str]]) -> Made:
    """Writes something, and returns what came of it. What writes may say why it doesn't."""
    try:
        return Made(writes() or "")
    except OSError as error:
        return Made.of_error(error)
    except Exception as error:  # it is one file of many
        return Made(f"{type(error).__name__}: {error}")


class Result(NamedTuple):
    """A board's players and what became of their game; a score that isn't in PGN, as 0-0, has a note."""

    board: int
    white: str
    black: str
    score: str
    note: str = ""


def results_text(results: Iterable[Result]) -> bytes:
    """A line for each board, with an empty field if there is no result. In UTF-8 with a byte order mark, as spreadsheets need."""
    text = io.StringIO()
    writer = csv.writer(text, delimiter=";", lineterminator="\r\n")
    writer.writerow(HEADER)
    writer.writerows(result._replace(white=no_formula(result.white), black=no_formula(result.black)) for result in results)
    return text.getvalue().encode("utf-8-sig", "replace")


def no_formula(name: str) -> str:
    """A name that is text in any spreadsheet. Scores and notes have no text of a user, and stay as they are."""
    return f"'{name}" if name.startswith(FORMULAS) else name


def all_text(others: Iterable[Tuple[int, bytes]], number: int, published: bytes) -> bytes:
    """The published texts of all rounds, in order."""
    texts = sorted([*others, (number, published)])
    return b"".join(text for _, text in texts)


class TournamentFiles:
    """Keeps files up to date, each with its requested text. `put` is called when one has another text, also by `finish`."""

    def __init__(
        self,
        loop: Turns,
        texts: Sequence[Tuple[pathlib.Path, Callable[[], bytes]]],
        says: Callable[[str], None],
        trouble: Callable[[str], None],
        put: Callable[[], None],
    ) -> None:
        self._texts, self._says, self._put = texts, says, put
        self._part = Restarted(loop, self._begin, trouble, BEGINS_AGAIN)

    def _begin(self, guard: Guard) -> None:
        self._files = [Published(guard, path, text, self._says, self._put) for path, text in self._texts]
        for file in self._files:
            guard.opened(file.stop)

        def looks() -> None:
            guard.after(LOOKS, looks)
            for file in self._files:
                file.changed()

        guard.after(LOOKS, looks)

    def finish(self) -> None:
        """Writes them a last time."""
        for file in self._files:
            file.close()
        self._part.end()

    def close(self) -> List[str]:
        """Writes once more what has changed since then or couldn't be written. Returns what can't be written."""
        troubles = ["" if file.is_written else file.close() for file in self._files]
        self._part.end()
        return list(filter(None, troubles))
