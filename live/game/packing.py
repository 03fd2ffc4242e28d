"""NAME.zip: what belongs to a game in one file, to be sent in when its board did something odd. Nothing is locked, so the game may
be recorded meanwhile."""

from __future__ import annotations

import contextlib
import os
import re
import sys
import time
import zipfile
from dataclasses import dataclass
from typing import IO, Iterator, List, Sequence, Tuple

from live.game.changing import NO_LINKS
from live.game.files import Paths, existing, new_of, not_written, open_new, open_regular, sync_folder, text_of
from live.run.refused import FAILED, REFUSED, Refused
from live.run.system import locked
from live.words.message import Message

README = "README.txt"
# The end of each file's name, after the game's name and a full stop, and what the file has. The capture is read last, so that no
# other file speaks of bytes that it lacks.
FILES = (
    ("times", Message("packed.times")),
    ("began", Message("packed.began")),
    ("pgn", Message("packed.pgn")),
    ("options", Message("packed.options")),
    ("log", Message("packed.log")),
    ("look", Message("packed.look")),
    ("end", Message("packed.end")),
    ("serial", Message("packed.serial")),
    ("cable", Message("packed.cable")),
    ("forfeit", Message("packed.forfeit")),
    ("back", Message("packed.back")),
    ("front", Message("packed.front")),
    (r"before\.dgt", Message("packed.before")),
    (r"before\.times", Message("packed.times_before")),
    (r"before-[0-9]+\.dgt", Message("packed.before_back")),
    (r"before-[0-9]+\.times", Message("packed.times_before")),
    (r"edited(?:-[0-9]+)?\.pgn", Message("packed.edited")),
    (r"other(?:-[0-9]+)?\.times", Message("packed.other_times")),
    ("dgt", Message("packed.capture")),
)
OTHER = re.compile(r"other(?:-[0-9]+)?\.times")  # with a capture of the same name they are those of another game
UNFIT = re.compile(r'[\x00-\x1f\x7f"*/:<>?\\|\ud800-\udfff]')  # for a name in an archive, on one system or another
TRIES = 3  # if plies are just being taken off
CHUNK = 1 << 20
FIRST_YEAR, LAST_YEAR = 1980, 2107  # of a date in an archive


@dataclass(frozen=True)
class Part:
    """A file to be packed, up to the size that it had when it was opened."""

    name: str
    has: str
    number: int
    size: int
    changed_at: float

    def content(self) -> Iterator[bytes]:
        """What it has."""
        at = 0
        while at < self.size:
            content = os.pread(self.number, min(CHUNK, self.size - at), at)
            if not content:
                return
            yield content
            at += len(content)


@dataclass(frozen=True)
class Packed:
    """The file that was made, the names of what is in it, and what isn't, and why."""

    path: str
    names: Tuple[str, ...]
    left_out: Tuple[str, ...]


def pack(paths: Paths, version: str) -> Packed:
    """Makes it. Refused if there is such a file already, if the capture can't be read, or if the new file can't be written: then
    nothing is left of it."""
    path = f"{paths.capture[: -len('dgt')]}zip"
    refuse_existing(path)
    with contextlib.ExitStack() as opened:
        parts, left_out = all_parts(paths, opened)
        try:
            _write(path, parts, read_me(paths, parts, left_out, version))
        except OSError as error:
            raise Refused(FAILED, not_written(path, error)) from None
    return Packed(path, tuple(part.name for part in parts), tuple(left_out))


def refuse_existing(path: str) -> None:
    """No file is replaced."""
    if os.path.lexists(path):
        raise Refused(REFUSED, Message("pack.exists", path=path))


# What is packed.


def all_parts(paths: Paths, opened: contextlib.ExitStack) -> Tuple[List[Part], List[str]]:
    """All files of the game, the capture first, and what can't be read, and why. If another capture takes its place meanwhile, as
    when plies are taken off, all are read again: they belong together."""
    for tries in range(TRIES):
        with contextlib.ExitStack() as here:
            before = _place(paths.capture)
            parts, left_out = _parts(paths, here)
            if tries == TRIES - 1 or _place(paths.capture) == before:
                opened.enter_context(here.pop_all())
                break
    return parts, left_out


def _parts(paths: Paths, opened: contextlib.ExitStack) -> Tuple[List[Part], List[str]]:
    parts: List[Part] = []
    left_out: List[str] = []
    capture = os.path.basename(paths.capture)
    for name, has in names_in(os.listdir(paths.folder), capture[: -len("dgt")]):
        try:
            number = open_regular(os.path.join(paths.folder, name), os.O_RDONLY | os.O_NOFOLLOW)
        except FileNotFoundError:
            continue  # it was removed just now
        except OSError as error:
            if name == capture:
                raise Refused(FAILED, Message("file.unreadable", path=paths.capture, why=text_of(error))) from None
            left_out.append(Message("pack.left_out", name=name, why=text_of(error)))
            continue
        opened.callback(os.close, number)
        found = os.fstat(number)
        parts.append(Part(name, has, number, found.st_size, found.st_mtime))
    if not parts or parts[-1].name != capture:
        raise Refused(REFUSED, Message("file.missing", path=paths.capture))
    return [parts[-1], *parts[:-1]], left_out


def names_in(names: Sequence[str], front: str) -> List[Tuple[str, str]]:
    """Those of a game's files among the names in a folder, in the order in which they are read, and what each has. They begin with
    the game's name and a full stop."""
    endings = sorted(name[len(front) :] for name in names if name.startswith(front))
    mine = [ending for ending in endings if not (OTHER.fullmatch(ending) and f"{ending[: -len('times')]}dgt" in endings)]
    return [(front + ending, has) for form, has in FILES for ending in mine if re.fullmatch(form, ending)]


def _place(path: str) -> Tuple[int, int]:
    """Where a file is on its disk: another file under the same name is elsewhere."""
    with contextlib.suppress(OSError):
        found = os.stat(path)
        return found.st_dev, found.st_ino
    return 0, 0


# What is said of it.


def read_me(paths: Paths, parts: Sequence[Part], left_out: Sequence[str], version: str) -> str:
    """What is in the archive, for whoever opens it."""
    now = time.strftime("%Y-%m-%d %H:%M:%S %z")
    width = max(len(part.name) for part in parts)
    lines = [
        Message("pack.title", name=shown(os.path.basename(paths.name)), now=now),
        Message("pack.has"),
        "",
        *(Message("pack.file", name=f"{shown(part.name):{width}}", size=f"{part.size:>9}", has=part.has) for part in parts),
        "",
        *(shown(line) for line in left_out),
        Message("pack.versions", version=version, python=sys.version.split()[0], system=system()),
        "",
        Message("pack.to_see", name=shown(parts[0].name)),
    ]
    return "".join(f"{line}\n" for line in lines)


def system() -> str:
    """The system's name, its kernel and the processor; not the computer's name."""
    names = os.uname()
    with contextlib.suppress(OSError):
        named = re.search(r'^PRETTY_NAME="?([^"\n]*)', existing("/etc/os-release").decode("utf-8", "replace"), re.MULTILINE)
        if named:
            return f"{named[1]}, {names.sysname} {names.release} {names.machine}"
    return f"{names.sysname} {names.release} {names.machine}"


def shown(text: str) -> str:
    """A name, or a line with names, in the form that an archive can hold."""
    return UNFIT.sub("_", text)


# How it is written.


def _write(path: str, parts: Sequence[Part], readme: str) -> None:
    """Writes it under another name, and puts it in place when it is on the disk. Raises OSError if it can't be written."""
    new = new_of(path)
    number = _begin(new)
    try:
        with open(number, "wb", closefd=False) as file:
            _fill(file, os.path.basename(path)[: -len(".zip")], parts, readme)
        os.fsync(number)
        _put(new, path)
        sync_folder(os.path.dirname(path) or ".")
    finally:
        os.close(number)
        with contextlib.suppress(FileNotFoundError):
            os.unlink(new)


def _begin(new: str) -> int:
    """A new file, which no other call takes. What a killed call left under its name is removed."""
    with contextlib.suppress(FileNotFoundError):
        number = open_regular(new, os.O_RDONLY | os.O_NOFOLLOW)
        try:
            if not locked(number, 0):
                raise Refused(REFUSED, Message("pack.busy", path=new))
        finally:
            os.close(number)
    number = open_new(new)
    locked(number, 0)
    return number


def _fill(file: IO[bytes], name: str, parts: Sequence[Part], readme: str) -> None:
    """All files, in a folder of the game's name."""
    folder = shown(name)
    with zipfile.ZipFile(file, "w", zipfile.ZIP_DEFLATED) as archive:
        archive.writestr(_info(f"{folder}/{README}", time.time(), 0), readme.encode("utf-8", "replace"))
        for part in parts:
            with archive.open(_info(f"{folder}/{shown(part.name)}", part.changed_at, part.size), "w") as inside:
                for content in part.content():
                    inside.write(content)


def _info(name: str, changed_at: float, size: int) -> zipfile.ZipInfo:
    when = time.localtime(changed_at)
    fits = FIRST_YEAR <= when.tm_year <= LAST_YEAR
    info = zipfile.ZipInfo(name, when[:6] if fits else (FIRST_YEAR, 1, 1, 0, 0, 0))
    info.compress_type, info.external_attr, info.file_size = zipfile.ZIP_DEFLATED, 0o644 << 16, size
    return info


def _put(new: str, path: str) -> None:
    """Gives it its name, unless another file has that by now."""
    try:
        os.link(new, path)
    except FileExistsError:
        refuse_existing(path)
    except OSError as error:
        if error.errno not in NO_LINKS:
            raise
        refuse_existing(path)
        os.rename(new, path)
