"""What `dgt_replay` is given, and what it must write: its whole output, its whole standard error and its status.

Where a case says so, its streams fail: the input is a socket whose far end went away with something unread, which gives its bytes and
then an error; an output is a file that may have so many bytes. What was not read is told by the place in the file that was the input.
"""

import contextlib
import dataclasses
import functools
import os
import pathlib
import resource
import signal
import socket
import subprocess
import tempfile
from typing import IO, Any, Iterable, Iterator, Optional, Sequence, Tuple, Union

from decided.table import same

TOP = pathlib.Path(__file__).resolve().parents[2]
SECONDS = 600  # none takes so long, but on a machine that stands still
CODES = ".PRNBKQprnbkq*"  # by piece code
Left = Tuple[int, bytes, bytes, int]  # the status, the output, standard error, and how many of the like bytes weren't read


@dataclasses.dataclass(frozen=True)
class Case:
    """What the program is given, and what it leaves."""

    words: Sequence[str] = ()
    sent: bytes = b""
    more: int = 0  # so many like bytes behind it
    like: bytes = b"\0"
    unread: int = 0  # so many of them aren't read
    fails: bool = False  # after all of it the input fails, in place of ending
    room: Optional[int] = None  # so many bytes find room in the output
    error_room: Optional[int] = None  # and in standard error
    status: int = 0
    out: bytes = b""
    err: bytes = b""

    @property
    def left(self) -> Left:
        return self.status, self.out, self.err, self.unread


def but(case: Case, **changed: Any) -> Case:
    """The case with some of it changed."""
    return dataclasses.replace(case, **changed)


def dump(placement: str) -> bytes:
    """The message of all squares, from a8 to h1."""
    squares = placement.replace("/", "")
    for digit in "12345678":
        squares = squares.replace(digit, "." * int(digit))
    return b"\x86\x00\x43" + bytes(map(CODES.index, squares))


def updates(words: str) -> bytes:
    """The messages of squares: `e2-` is empty now, `e4P` shows a white pawn."""
    return b"".join(bytes((0x8E, 0, 5, "87654321".index(word[1]) * 8 + "abcdefgh".index(word[0]), _code(word[2]))) for word in words.split())


def _code(letter: str) -> int:
    return 0 if letter == "-" else CODES.index(letter)


def pgn(movetext: str = "*", result: str = "*", fen: str = "", **named: str) -> bytes:
    """The export text of a game; the values of its tags are given as they are written, and are unknown where they aren't."""
    tags = {"Event": "?", "Site": "?", "Date": "????.??.??", "Round": "?", "White": "?", "Black": "?", "Result": result}
    tags.update({name.capitalize(): value for name, value in named.items()})
    if fen:
        tags.update({"FEN": fen, "SetUp": "1"})
    return ("".join(f'[{name} "{value}"]\n' for name, value in tags.items()) + f"\n{movetext}\n\n").encode()


@functools.lru_cache(maxsize=None)
def program() -> str:
    """The path of the program that is put to the test."""
    given = os.environ.get("PROGRAM")
    if given:
        return str(pathlib.Path(given).resolve())
    return subprocess.run([TOP / "bin" / "program"], stdout=subprocess.PIPE, check=True).stdout.decode().strip()


@contextlib.contextmanager
def failing_input(sent: bytes) -> Iterator[int]:
    """A socket that gives these bytes, and then an error."""
    near, far = socket.socketpair(socket.AF_UNIX, socket.SOCK_STREAM)
    with near:
        near.send(b"\0")  # the far end goes away with this unread
        far.sendall(sent)
        far.close()
        yield near.fileno()


@contextlib.contextmanager
def file_of(case: Case) -> Iterator[int]:
    """A file with the case's input."""
    with tempfile.TemporaryFile() as file:
        file.write(case.sent)
        if case.like == b"\0":
            file.truncate(len(case.sent) + case.more)
        else:
            file.write(case.like * case.more)
        file.seek(0)
        yield file.fileno()


@contextlib.contextmanager
def written(room: Optional[int]) -> Iterator[Union[int, IO[bytes]]]:
    """Where the program writes: a pipe, or a file where there is room for so many bytes alone."""
    if room is None:
        yield subprocess.PIPE
    else:
        with tempfile.TemporaryFile() as file:
            yield file


def left_in(target: Union[int, IO[bytes]], taken: Optional[bytes]) -> bytes:
    return taken or b"" if isinstance(target, int) else os.pread(target.fileno(), 1 << 20, 0)


def left_by(case: Case) -> Left:
    """What the program leaves of a case."""
    rooms = [room for room in (case.room, case.error_room) if room is not None]
    assert len(rooms) < 2, "there is one limit for both"

    def few() -> None:
        signal.signal(signal.SIGXFSZ, signal.SIG_IGN)
        resource.setrlimit(resource.RLIMIT_FSIZE, (rooms[0], rooms[0]))

    given = failing_input(case.sent) if case.fails else file_of(case)
    with given as source, written(case.room) as out, written(case.error_room) as err:
        done = subprocess.run(
            [program(), *case.words],
            stdin=source,
            stdout=out,
            stderr=err,
            preexec_fn=few if rooms else None,
            timeout=SECONDS,
        )
        unread = 0 if case.fails else min(case.more, len(case.sent) + case.more - os.lseek(source, 0, os.SEEK_CUR))
        return done.returncode, left_in(out, done.stdout), left_in(err, done.stderr), unread


def left_by_bytes(case: Case) -> Left:
    """The same, where a read gives one byte: each is a packet of its own."""
    near, far = socket.socketpair(socket.AF_UNIX, socket.SOCK_SEQPACKET)
    with near, far:
        process = subprocess.Popen([program(), *case.words], stdin=near.fileno(), stdout=subprocess.PIPE, stderr=subprocess.PIPE)
        near.close()
        with contextlib.suppress(BrokenPipeError, ConnectionResetError):
            for byte in case.sent:
                far.send(bytes((byte,)))
        far.close()
        out, err = process.communicate(timeout=SECONDS)
        return process.returncode, out, err, 0


def named(name: str, number: int, case: Case) -> str:
    return f"{name}, {number}: {' '.join(case.words)!r} over {case.sent.hex()}"


def leave(name: str, *tables: Iterable[Case]) -> None:
    """Each case leaves what it says."""
    for number, case in enumerate(case for table in tables for case in table):
        same(named(name, number, case), left_by(case), case.left)


def end(name: str, cases: Iterable[Case]) -> None:
    """The status and standard error of each case are those that it says; its output may have anything."""
    for number, case in enumerate(cases):
        status, _, err, unread = left_by(case)
        same(named(name, number, case), (status, err, unread), (case.status, case.err, case.unread))


def leave_by_bytes(name: str, *tables: Iterable[Case]) -> None:
    """Each case leaves what it says where a read gives one byte."""
    for number, case in enumerate(case for table in tables for case in table):
        same(named(name, number, case), left_by_bytes(case), case.left)
