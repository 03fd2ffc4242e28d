"""The files of a game: where they are, and how one is replaced as a whole."""

from __future__ import annotations

import contextlib
import errno
import functools
import os
import stat
from dataclasses import dataclass
from typing import List, Optional, Union

from live.words.message import Message

LARGEST = 64 * 1024 * 1024  # bytes of a capture: the program reads no more
NO_SUCH_FILE = (errno.ENOENT, errno.ENOTDIR, errno.ENAMETOOLONG)  # no file can have this name, and nothing is kept under it
NO_ROOM = (errno.ENOSPC, errno.EDQUOT, errno.EFBIG)
AnyPath = Union[str, "os.PathLike[str]"]


@dataclass(frozen=True)
class Paths:
    """Where the files of a game are. Plain texts: `pathlib` would take a fifteenth of a recorder's memory."""

    name: str

    def _with(self, ending: str) -> str:
        return plain(f"{self.name}.{ending}")

    @functools.cached_property
    def capture(self) -> str:
        return self._with("dgt")

    @functools.cached_property
    def pgn(self) -> str:
        return self._with("pgn")

    def edited(self, number: int) -> str:
        """A text that was edited by hand: the first one, the second .."""
        return self._with("edited.pgn" if number == 1 else f"edited-{number}.pgn")

    @functools.cached_property
    def options(self) -> str:
        return self._with("options")

    @functools.cached_property
    def log(self) -> str:
        return self._with("log")

    @functools.cached_property
    def look(self) -> str:
        """The open alarms."""
        return self._with("look")

    @functools.cached_property
    def began(self) -> str:
        """When each call of its times began."""
        return self._with("began")

    @functools.cached_property
    def delay(self) -> str:
        """The delay for spectators."""
        return self._with("delay")

    @functools.cached_property
    def out(self) -> str:
        """How else it goes out."""
        return self._with("out")

    @functools.cached_property
    def pages(self) -> str:
        """Where it is shown to browsers."""
        return self._with("pages")

    @functools.cached_property
    def names(self) -> str:
        """The names that were typed for a round."""
        return self._with("names")

    @functools.cached_property
    def broadcast(self) -> str:
        """The published text."""
        return self._with("broadcast.pgn")

    @functools.cached_property
    def serial(self) -> str:
        """The serial number of its board."""
        return self._with("serial")

    @functools.cached_property
    def other(self) -> str:
        """The serial number of another game's board that was left on its cable."""
        return self._with("cable")

    @functools.cached_property
    def end(self) -> str:
        return self._with("end")

    @functools.cached_property
    def before(self) -> str:
        """What the board sent before the game, if some of it looked like a move."""
        return self._with("before.dgt")

    def before_back(self, number: int) -> str:
        """The capture from before an arbiter took plies off."""
        return self._with(f"before-{number}.dgt")

    @property
    def last_before_back(self) -> Optional[str]:
        """The last existing one."""
        number = 1
        while os.path.lexists(self.before_back(number)):
            number += 1
        return self.before_back(number - 1) if number > 1 else None

    @functools.cached_property
    def forfeit(self) -> str:
        """How it was forfeited."""
        return self._with("forfeit")

    @functools.cached_property
    def question(self) -> str:
        """The question that was asked before many plies would go."""
        return self._with("back")

    @functools.cached_property
    def front(self) -> str:
        """How many bytes a way back has made at the beginning of the capture."""
        return self._with("front")

    @functools.cached_property
    def folder(self) -> str:
        return folder_of(self.capture)


def plain(path: str) -> str:
    """Without the parts of a path that mean nothing: `./a//b` is `a/b`."""
    return path[: path.startswith("/")] + "/".join(part for part in path.split("/") if part not in ("", "."))


def folder_of(path: AnyPath) -> str:
    """The folder of a file."""
    return os.path.dirname(os.fspath(path)) or "."


class Opened:
    """Descriptors that are closed together, the last one first."""

    def __init__(self) -> None:
        self._numbers: List[int] = []

    def __enter__(self) -> Opened:
        return self

    def keep(self, number: int) -> int:
        """This one too."""
        self._numbers.append(number)
        return number

    def __exit__(self, *_: object) -> None:
        if self._numbers:
            try:
                os.close(self._numbers.pop())
            finally:
                self.__exit__()


def new_of(path: AnyPath) -> str:
    """Where a file is made before it is moved into place."""
    return f"{os.fspath(path)}.new"


def sync_folder(folder: AnyPath) -> None:
    """Forces to the disk what was moved into this folder."""
    number = os.open(folder, os.O_RDONLY | os.O_DIRECTORY)
    try:
        os.fsync(number)
    finally:
        os.close(number)


def open_regular(path: AnyPath, flags: int) -> int:
    """Opens a file without waiting. Raises OSError if it isn't a regular file: a pipe might hold up all boards; or if it is a link
    and would be written, or no link is to be followed."""
    refuses = flags & (os.O_WRONLY | os.O_RDWR | os.O_NOFOLLOW)
    try:
        number = os.open(path, flags | os.O_NONBLOCK | os.O_NOCTTY | (os.O_NOFOLLOW if refuses else 0), 0o666)
    except OSError as error:
        if refuses and error.errno == errno.ELOOP:
            raise OSError(errno.ELOOP, Message("file.is_link", path=os.path.basename(path)), os.fspath(path)) from None
        raise
    try:
        if not stat.S_ISREG(os.fstat(number).st_mode):
            raise OSError(errno.EINVAL, Message("file.not_regular", path=os.path.basename(path)), os.fspath(path))
    except BaseException:
        os.close(number)
        raise
    return number


def open_new(path: AnyPath, flags: int = os.O_WRONLY) -> int:
    """Makes a new file. What a killed call left under its name is removed; nothing is written through a link."""
    flags |= os.O_CREAT | os.O_EXCL | os.O_NOFOLLOW
    try:
        return os.open(path, flags, 0o666)
    except FileExistsError:
        os.unlink(path)
        return os.open(path, flags, 0o666)


def write_all(number: int, content: bytes) -> None:
    """Writes all of it, and forces it to the disk. Raises OSError on failure."""
    left = memoryview(content)
    while left:
        left = left[os.write(number, left) :]
    os.fsync(number)


def put_in_place(path: AnyPath, content: bytes) -> None:
    """Replaces the file's content at once and on the disk; on an OSError the file stays as it was."""
    new = new_of(path)
    try:
        number = open_new(new)
        try:
            write_all(number, content)
        finally:
            os.close(number)
        os.replace(new, path)
        sync_folder(folder_of(path))
    except BaseException:
        drop(new)
        raise


def remove(path: AnyPath) -> None:
    """Removes a file, if it is there, also from the disk."""
    if os.path.lexists(path):
        drop(path)
        sync_folder(folder_of(path))


def drop(path: AnyPath) -> None:
    """Removes a file, if it is there."""
    with contextlib.suppress(FileNotFoundError):
        os.unlink(path)


def text_of(error: OSError) -> str:
    """What went wrong, in the system's words."""
    return error.strerror or str(error)


def not_written(path: AnyPath, error: OSError) -> str:
    """That a file can't be written, why, and what to do."""
    return unwritten(path, text_of(error), error.errno in NO_ROOM)


def unwritten(path: AnyPath, why: str, full: bool) -> str:
    """The same, given the reason in words, and whether there is no room: a file may also be larger than a process may write."""
    asks = full and why != os.strerror(errno.EFBIG)
    return Message("file.unwritten_full", path=path, why=why) if asks else Message("file.unwritten", path=path, why=why)


def beginning(path: AnyPath, most: int) -> bytes:
    """The beginning of a file, up to this many bytes. Raises OSError if it can't be read, or isn't a regular file."""
    number = open_regular(path, os.O_RDONLY)
    try:
        return content_of(number, most)
    finally:
        os.close(number)


def content_of(number: int, most: int) -> bytes:
    """The beginning of an open file, up to this many bytes. Raises OSError if it can't be read."""
    return part_of(number, 0, min(most, os.fstat(number).st_size))


def part_of(number: int, start: int, end: int) -> bytes:
    """The bytes of an open file from one offset to another, as far as it has them."""
    parts = []
    while start < end:
        part = os.pread(number, end - start, start)
        if not part:
            break
        parts.append(part)
        start += len(part)
    return b"".join(parts)


def existing(path: AnyPath) -> bytes:
    """The content of a file; empty if there is none."""
    try:
        return beginning(path, LARGEST)
    except FileNotFoundError:
        return b""


def size_of(path: AnyPath) -> int:
    """The size of a file; 0 if there is none, or there can be none."""
    try:
        return os.stat(path).st_size if os.path.isfile(path) else 0
    except OSError:
        return 0


@dataclass(frozen=True)
class PutIn:
    """What a line has put into a capture: so many bytes that it has made in place of all that the `kept` capture has; and what it has
    added. And where the game's end was marked before."""

    kept: str = ""
    size: int = 0  # bytes of the kept capture
    made: int = 0
    added: range = range(0)
    end: Optional[int] = None

    def taken_out(self, sent: bytes, kept: bytes) -> bytes:
        """The capture as if the line hadn't been typed, given all that it has now."""
        return kept + sent[self.made : max(self.made, self.added.start)] + sent[max(self.made, self.added.stop) :]

    @property
    def before(self) -> int:
        """How many bytes there were before the line."""
        return self.size if self.kept else self.added.start
