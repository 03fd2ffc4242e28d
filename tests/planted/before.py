"""Which crates' edits needn't be tried again: each was refused, and nothing on which that rests has changed since.

tests/refused.txt has a line for each: the folder of the edits, the crate, and the digest of the crate's code, definitions, proofs and
these edits, of the code, definitions and proofs of the crates below, of the tool that tries them, and of the toolchain."""

import hashlib
import pathlib
import subprocess
from typing import Dict, Iterator, List, Tuple

from planted import checking

SOURCES = ("src", "specs", "proofs")
TOOL = ("tests/planted", "tests/wrong_bodies", "tests/wrong_definitions")
KEPT = "tests/refused.txt"
HEAD = "# Crates whose wrong bodies or definitions were all refused, with what that rests on. Only tests/run --all writes this.\n"
Uses = Dict[str, List[str]]  # what each crate uses
Refused = Dict[Tuple[str, str], str]  # the digest of each crate, by the folder of its edits and its name


def toolchain() -> str:
    """What `rt version` prints."""
    return subprocess.run(["rt", "version"], stdout=subprocess.PIPE, check=True).stdout.decode()


def files_in(folder: pathlib.Path) -> Iterator[pathlib.Path]:
    """A file, or all files in a folder but what Python has compiled, in the order of their paths."""
    found = [folder] if folder.is_file() else sorted(folder.rglob("*"))
    return (it for it in found if it.is_file() and it.suffix != ".pyc")


def digest(top: pathlib.Path, uses: Uses, crate: str, folder: str, version: str) -> str:
    """The digest of all on which it rests that the edits in this folder of a crate are refused."""
    below = [crate, *checking.below(uses, crate)]
    places = [f"crates/{it}/{part}" for it in below for part in SOURCES]
    summed = hashlib.sha256(version.encode())
    for it in below:
        summed.update(f"{it}: {' '.join(uses[it])}\n".encode())
    for place in [*places, f"crates/{crate}/{folder}", *TOOL]:
        for file in files_in(top / place):
            content = file.read_bytes()
            summed.update(f"{file.relative_to(top)} {len(content)}\n".encode() + content)
    return summed.hexdigest()


def read(top: pathlib.Path) -> Refused:
    """What the file says; nothing if there is none."""
    file = top / KEPT
    lines = file.read_text().splitlines() if file.exists() else []
    words = (line.split() for line in lines if not line.startswith("#"))
    return {(folder, crate): summed for folder, crate, summed in words}


def write(top: pathlib.Path, folder: str, refused: Dict[str, str]) -> None:
    """Writes the digests of the crates whose edits in this folder were all refused in a whole run, in place of the earlier ones."""
    others = {key: summed for key, summed in read(top).items() if key[0] != folder}
    all_of = {**others, **{(folder, crate): summed for crate, summed in refused.items()}}
    lines = [f"{of} {crate} {summed}\n" for (of, crate), summed in sorted(all_of.items())]
    (top / KEPT).write_text("".join([HEAD, *lines]))
