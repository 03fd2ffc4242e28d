"""Runs tests/run in a clone and prints where its processor time went. Usage: gate_times.py CLONE FOLDER

Reads /proc four times a second: a check is a process `rattle` with all that it has started, and its arguments and folder tell
its crate and what it proves. Writes FOLDER/checks.tsv, a line a check, and FOLDER/log, what tests/run printed.
"""

import os
import pathlib
import resource
import subprocess
import sys
import time
from typing import Dict, List, Optional, Tuple

TICK = os.sysconf("SC_CLK_TCK")
KINDS = {"proof": "proofs", "tests": "proofs with tests", "edits": "wrong bodies and definitions"}

Started = Tuple[int, int]  # a process: its number, and its start, since numbers are given anew
Check = Tuple[int, str, str, float]  # its start, its crate, what it proves, its processor seconds


def processes() -> Dict[int, Tuple[int, int, float]]:
    """Each process by its number: its parent, its start, its processor seconds with those of children that have ended."""
    found = {}
    for name in os.listdir("/proc"):
        if not name.isdigit():
            continue
        try:
            words = pathlib.Path(f"/proc/{name}/stat").read_text(errors="replace").rpartition(")")[2].split()
        except OSError:
            continue
        found[int(name)] = int(words[1]), int(words[19]), sum(map(int, words[11:15])) / TICK
    return found


def check_of(pid: int) -> Optional[Tuple[str, str]]:
    """The crate of a check and what it proves, or None for another process."""
    try:
        words = pathlib.Path(f"/proc/{pid}/cmdline").read_bytes().decode(errors="replace").split("\0")
    except OSError:
        return None
    if not words[0].endswith("/rattle") or words[1:2] not in (["check"], ["build"]) or "--crate-name" not in words:
        return None
    crate = words[words.index("--crate-name") + 1]
    kinds = {"edits": "--only" in words, "tests": "--test" in words}
    return crate, next((kind for kind, is_it in kinds.items() if is_it), "proof")


def watch(command: List[str], folder: str, log: str) -> Tuple[int, List[Check]]:
    """Runs a command. Its status, and each check in the order of their starts: (start, crate, kind, seconds)."""
    checks: Dict[Started, float] = {}
    known: Dict[Started, Optional[Tuple[str, str]]] = {}
    with open(log, "wb") as out:
        running = subprocess.Popen(command, cwd=folder, stdin=subprocess.DEVNULL, stdout=out, stderr=subprocess.STDOUT)
    while running.poll() is None:
        found = processes()
        for pid, (_, start, _) in found.items():
            if not known.get((pid, start)):
                known[pid, start] = check_of(pid)
        seconds: Dict[Started, float] = {}
        for pid, (_, _, spent) in found.items():
            line = [pid]
            while line[-1] in found and found[line[-1]][0] in found:
                line.append(found[line[-1]][0])
            top = [it for it in line if it in found and known.get((it, found[it][1]))]
            if running.pid in line and top:
                key = top[-1], found[top[-1]][1]
                seconds[key] = seconds.get(key, 0) + spent
        for key, spent in seconds.items():
            checks[key] = max(spent, checks.get(key, 0))
        time.sleep(0.25)
    named = [(start, known[pid, start], spent) for (pid, start), spent in checks.items()]
    return running.returncode, sorted((start, *check, spent) for start, check, spent in named if check)


def main(clone: str, folder: str) -> int:
    began = time.monotonic()
    status, rows = watch(["tests/run"], clone, f"{folder}/log")
    wall = time.monotonic() - began
    usage = resource.getrusage(resource.RUSAGE_CHILDREN)
    whole = usage.ru_utime + usage.ru_stime
    with open(f"{folder}/checks.tsv", "w") as out:
        for _, crate, kind, seconds in rows:
            print(crate, kind, f"{seconds:.1f}", sep="\t", file=out)

    print("Processor seconds of each crate:\n")
    print("| Crate | Proof | Proof with tests | Wrong bodies and definitions | their checks |")
    print("|---|---|---|---|---|")
    sums = dict.fromkeys(KINDS, 0.0)
    for crate in dict.fromkeys(it[1] for it in rows):
        of = {kind: [seconds for _, *it, seconds in rows if it == [crate, kind]] for kind in KINDS}
        for kind in KINDS:
            sums[kind] += sum(of[kind])
        shown = [f"{sum(of[kind]):.0f}" if of[kind] else "" for kind in KINDS]
        print("|", " | ".join([f"`{crate}`", *shown, str(len(of["edits"]) or "")]), "|")
    rest = whole - sum(sums.values())
    named_sums = ", ".join(f"{name} {sums[kind]:.0f}" for kind, name in KINDS.items())
    print(f"\n{named_sums}, all else {rest:.0f}")
    last = pathlib.Path(f"{folder}/log").read_text(errors="replace").strip().splitlines()[-1:]
    print(f"tests/run: {last[0] if last else 'printed nothing'} (status {status})")
    print(f"processor time: {whole / 60:.1f} min; wall time: {wall / 60:.1f} min; processors: {len(os.sched_getaffinity(0))}")
    return status


if __name__ == "__main__":
    sys.exit(main(*sys.argv[1:3]))
