"""Edits that must be refused, tried crate by crate: which there are, and several crates side by side."""

import os
import pathlib
import re
import shutil
import subprocess
from concurrent.futures import ThreadPoolExecutor, as_completed
from typing import Callable, Dict, Iterator, List, Sequence, Tuple

import outside
from planted import before, checking, verdict
from planted.bare import bare
from planted.trying import Check, Tried

TOP = pathlib.Path(__file__).resolve().parents[2]
MEMORY = 3 << 30  # bytes that a check may take
Uses = before.Uses
ALL = "--all"  # all are tried, and which crates had all refused is kept
OfCrate = Callable[[str, Sequence[str], Uses], List[Tried]]  # tries the edits of a crate with these names, or all


def lanes() -> int:
    """How many checks go side by side: one a processor, as far as memory allows."""
    found = re.search(r"MemAvailable: +(\d+) kB", pathlib.Path("/proc/meminfo").read_text())
    free = int(found[1]) * 1024 if found else MEMORY
    return max(1, min(len(os.sched_getaffinity(0)), free // MEMORY))


def files(crate: str, folder: str, names: Sequence[str]) -> Iterator[pathlib.Path]:
    """The edits of a crate with these names, or all."""
    found = sorted((TOP / "crates" / crate / folder).glob("*.edit"))
    return (it for it in found if not names or it.stem in names)


def check_in(crate: str, uses: Uses) -> Check:
    """A check of functions of this crate, with all that they call."""

    def check(texts: Dict[str, str], functions: List[str], kept: pathlib.Path) -> verdict.Said:
        return verdict.read(crate, checking.check(checking.words(TOP, uses, crate, functions, kept), texts))

    return check


def bare_check_in(crate: str, uses: Uses) -> Check:
    """A check of functions of this crate without the bodies of all others."""

    def check(texts: Dict[str, str], functions: List[str], kept: pathlib.Path) -> verdict.Said:
        words = checking.words(TOP, uses, crate, functions, kept, has_holes=True)
        return verdict.read(crate, checking.check(words, bare(crate, texts, functions)))

    return check


def build(crate: str, uses: Uses) -> bool:
    """Builds the libraries below a crate that aren't built, or are older than their sources. Whether all are there."""
    for it in checking.below(uses, crate):
        if not checking.is_built(TOP / "crates", uses, it):
            print(f"building the library {it}", flush=True)
            subprocess.run(["rt", "lib", "--jobs", "1"], cwd=TOP / "crates" / it, stdout=subprocess.DEVNULL)
        if not checking.library(TOP / "crates", it).exists():
            print(f"the library {it}, on which {crate} stands, can't be built: see rt lib in crates/{it}")
            return False
    return True


def size(crate: str) -> int:
    """How long a crate takes, roughly: its lines, since the longest begins first."""
    return sum(file.read_text().count("\n") for file in (TOP / "crates" / crate).rglob("*.antt"))


def to_try(names: Dict[str, List[str]], uses: Uses, folder: str, digests: Dict[str, str], *, has_all: bool) -> Tuple[List[str], List[str]]:
    """Of these crates those whose edits are tried, and those of which all were refused before, since nothing has changed."""
    known = {} if has_all else before.read(TOP)
    taken = [crate for crate in names if crate in digests and known.get((folder, crate)) == digests[crate]]
    return [crate for crate in uses if crate in names and crate not in taken], taken


def run(what: str, folder: str, words: Sequence[str], of_crate: OfCrate) -> int:
    """Tries what is asked for, as CRATE or CRATE/NAME, or all of the crates that have changed, or all. The status of the script."""
    asked = [word for word in words if word != ALL]
    has_all = ALL in words
    if has_all and asked:
        print(f"{ALL} stands alone")
        print("0 passed, 1 failed")
        return 2
    if not shutil.which("rt"):
        print(outside.skip_line(what, "they need rt, the toolchain that README names, on PATH"))
        print("0 passed, 1 failed" if outside.no_skips() else "0 passed, 0 failed, 1 skipped")
        return 1 if outside.no_skips() else 0
    passed, failed = 0, 0
    uses = checking.crates_of((TOP / "crates.txt").read_text())
    version = before.toolchain()
    names: Dict[str, List[str]] = {}
    for word in asked or [file.parent.parent.name for file in sorted(TOP.glob(f"crates/*/{folder}/*.edit"))]:
        crate, _, name = word.partition("/")
        names.setdefault(crate, []).extend([name] if name else [])
    unknown = [crate for crate in names if crate not in uses]
    digests = {crate: before.digest(TOP, uses, crate, folder, version) for crate in names if crate in uses and not asked}
    trying, taken = to_try(names, uses, folder, digests, has_all=has_all)
    unbuilt = [crate for crate in trying if not build(crate, uses)]
    for crate in [*unknown, *unbuilt]:
        print(f"FAILED {crate}: " + ("crates.txt has no such crate" if crate in unknown else "its libraries aren't built"))
    todo = [crate for crate in trying if crate not in unbuilt]
    odd = {*unknown, *unbuilt}
    # Threads only wait for the checks, which are programs of their own.
    with ThreadPoolExecutor(lanes()) as pool:
        begun = {pool.submit(of_crate, crate, names[crate], uses): crate for crate in sorted(todo, key=size, reverse=True)}
        for ended in as_completed(begun):
            for it in ended.result():
                print(f"{'' if it.refused else 'FAILED '}{begun[ended]}/{it.name}: {it.said}", flush=True)
                passed, failed = passed + it.refused, failed + (not it.refused)
                odd |= set() if it.refused else {begun[ended]}
    failed += len(unknown) + len(unbuilt)
    if has_all:
        before.write(TOP, folder, {crate: summed for crate, summed in digests.items() if crate not in odd})
    if taken:
        count = sum(1 for crate in taken for _ in files(crate, folder, []))
        print(f"NOT AGAIN {count} {what} of {len(taken)} crates: all were refused before, and nothing on which that rests has changed")
    print(f"{passed} passed, {failed} failed")
    return 1 if failed else 0
