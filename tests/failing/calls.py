"""Calls that take memory, made by the program of crates/test_allocations: each is made again where it was refused."""

import shutil
import subprocess
from typing import List, Tuple

from decided.table import same, skip
from failing.each import Run, runs
from given.case import TOP

import outside

CRATE = TOP / "crates" / "test_allocations"
PROGRAM = CRATE / "out" / "test_allocations"
CALLS = ("legal_moves", "see", "see_field", "set", "read_pgn", "take")
ONLY_CALLS = b"\n"  # on standard input: nothing but the calls is asked for


def is_built() -> bool:
    """Whether the gate has built the program of these sources."""
    sources = [*CRATE.glob("src/*.rt"), *CRATE.parent.glob("*/src/*.rt")]
    return PROGRAM.exists() and max(it.stat().st_mtime for it in sources) <= PROGRAM.stat().st_mtime


def words_of(run: Run) -> List[Tuple[str, str]]:
    """Each call, and how it went."""
    return [(name, word) for line in run.out.decode().splitlines() for name, _, word in [line.partition(" ")]]


def said(refused: str) -> List[Tuple[str, str]]:
    """What is said where one call was refused, and granted when it was made again; with no name, where none was."""
    return [(name, "refused" if name == refused else "granted") for name in CALLS]


def calls() -> None:
    """Each run but the last has one call that was refused, left all as it was, and was granted when it was made again."""
    why = outside.lacks("gcc") or ("" if shutil.which("rt") else "they need rt, the toolchain that README names, on PATH")
    if why:
        return skip("calls", why)
    if not is_built():
        print("building crates/test_allocations", flush=True)
        subprocess.run(["rt", "run"], cwd=CRATE, stdin=subprocess.DEVNULL, stdout=subprocess.DEVNULL, check=True)
    made = runs([str(PROGRAM)], ONLY_CALLS)
    same("without a failure", [(run.status, words_of(run)) for run in made[-1:]], [(0, said(""))])
    met = [[name for name, word in words_of(run) if word == "refused"] for run in made[:-1]]
    same("one call in each run", [names for names in met if len(names) != 1], [])
    for number, (run, names) in enumerate(zip(made, met), 1):
        same(f"allocation {number}", (run.status, words_of(run), run.err), (0, said("".join(names)), b""))
    same("each call takes memory", sorted({name for names in met for name in names}), sorted(CALLS))


TABLES = [calls]
