"""Bytecode: a clone keeps it, and none that is stale or damaged is used."""

import os
import pathlib
import shutil
import subprocess
from importlib.util import source_hash
from typing import Dict, List

from played import TOP
from played.stage import program, same

CHECKED = bytes((3, 0, 0, 0))  # what says that Python is to check the digest
DAMAGES = (0, 3, 20, 3000)  # bytes that are left of a file


def clone(place: pathlib.Path) -> pathlib.Path:
    """A folder as a clone has it, and its dgt_live."""
    shutil.copytree(TOP / "live", place / "live", ignore=shutil.ignore_patterns("__pycache__"))
    shutil.copytree(TOP / "shared", place / "shared")
    (place / "bin" / "lib").mkdir(parents=True)
    shutil.copy(TOP / "bin" / "dgt_live", place / "bin")
    shutil.copy(program(), place / "bin" / "lib" / "dgt_replay")
    return place / "bin" / "dgt_live"


def says(command: pathlib.Path, **environment: str) -> str:
    """What its --help prints."""
    lets = {name: value for name, value in os.environ.items() if not name.startswith("PYTHON")}
    answer = subprocess.run([command, "--help"], env={**lets, **environment}, capture_output=True, check=True)
    same(answer.stderr, b"")
    return answer.stdout.decode()


def kept_in(place: pathlib.Path) -> List[pathlib.Path]:
    return sorted((place / "live").rglob("*.pyc"))


def digests(place: pathlib.Path) -> Dict[str, bool]:
    """Of each module with bytecode, whether that has the digest of its source, which Python checks."""
    found = {}
    for kept in kept_in(place):
        source = kept.parents[1] / f"{kept.name.partition('.')[0]}.py"
        found[str(source.relative_to(place))] = kept.read_bytes()[4:16] == CHECKED + bytes(source_hash(source.read_bytes()))
    return found


def of_a_clone(folder: pathlib.Path) -> None:
    """The first call keeps bytecode of each module. A source that changes, also one that keeps its size and time, is the one that
    counts. What is cut off is made anew. Whoever wants none gets none."""
    command = clone(folder)
    first = says(command, PYTHONDONTWRITEBYTECODE="1")
    same(kept_in(folder), [])
    same(says(command), first)
    modules = {str(path.relative_to(folder)) for path in (folder / "live").rglob("*.py")}
    same(digests(folder), dict.fromkeys(modules, True))
    door = folder / "live" / "doors" / "dgt_live.py"
    before = door.stat()
    door.write_text(door.read_text().replace("Records the DGT board", "Records the ABC board"))
    os.utime(door, ns=(before.st_atime_ns, before.st_mtime_ns))
    changed = first.replace("the DGT board", "the ABC board")
    same((door.stat().st_size, says(command)), (before.st_size, changed))
    os.utime(door)
    same((says(command), digests(folder)), (changed, dict.fromkeys(modules, True)))
    board = next(path for path in kept_in(folder) if path.name.startswith("session."))
    for size in DAMAGES:
        whole = board.read_bytes()
        os.truncate(board, size)
        same((says(command), board.read_bytes()), (changed, whole))


def without_sentences(folder: pathlib.Path) -> None:
    """Where the file with all sentences lacks, or is cut off, the command says so in a line."""
    command, words = clone(folder), folder.resolve() / "shared" / "words.en.json"
    os.truncate(words, 100)
    answer = subprocess.run([command, "--help"], capture_output=True)
    begins = f"dgt_live: {words} is no JSON (".encode()
    same((answer.returncode, answer.stdout, answer.stderr.startswith(begins), answer.stderr.count(b"\n")), (1, b"", True, 1))
    words.unlink()
    answer = subprocess.run([command, "--help"], capture_output=True)
    told = f"dgt_live: {words} can't be read (No such file or directory): install all of dgt_replay anew\n".encode()
    same((answer.returncode, answer.stdout, answer.stderr), (1, b"", told))


CASES = [of_a_clone, without_sentences]
