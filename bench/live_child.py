#!/usr/bin/env python3
"""Compares `live` with `watch` on a game that is played with hands (bench/streams.py), both as children behind pipes: live_child.py
[RUNS [BYTES]].

A call that begins again is compared too: `live` is told the first 8 MB as a capture of the calls before, with a file of times that has a
line for each second; `watch` reads them from a pipe. It is to take at most twice as long.

Both get 4,096 bytes for each read, as a line that is slow brings them, and what they write is read beside it: so neither waits, and
`live` is to take at most one and a half times what `watch` takes. As a recorder does it, `waiting` is `live` too, but what it answers is
read up to `done` before it is told more, so it sleeps before each chunk. The processor time of each child, user and system together,
process start included: medians of five runs by turns. The environment variable PROGRAM is the path of another program.
"""

import os
import pathlib
import subprocess
import sys
import threading
import time
from typing import Callable, Dict, Iterable, Iterator, List, Tuple

sys.dont_write_bytecode = True
TOP = pathlib.Path(__file__).resolve().parents[1]
sys.path[:0] = [str(TOP), str(TOP / "tests"), str(TOP / "bench")]
import streams  # noqa: E402
from attending.answers import Entry, brings  # noqa: E402
from attending.host import Host  # noqa: E402
from given.case import program  # noqa: E402
from live.game import times  # noqa: E402

CHUNK = 4096  # bytes
RATE = 960  # bytes a second of a board's line
PIPE = 64 * 1024  # bytes that are written at once
GOAL, GOAL_AGAIN = 1.5, 2.0
KEPT = 8_000_000  # bytes of the calls before
Used = Tuple[float, float]  # milliseconds of the processor, and by the clock


def chunks(stream: bytes) -> List[bytes]:
    return [stream[at : at + CHUNK] for at in range(0, len(stream), CHUNK)]


def ended(process: "subprocess.Popen[bytes]") -> float:
    """The milliseconds of the processor that the child took; it has nothing more to read."""
    _, status, used = os.wait4(process.pid, 0)
    process.returncode = os.waitstatus_to_exitcode(status)
    if process.returncode:
        sys.exit(f"status {process.returncode}")
    return 1000 * float(used.ru_utime + used.ru_stime)


def entries(parts: List[bytes]) -> Iterator[Entry]:
    """What `live` is told of a call that brings these parts."""
    yield Entry(0, "begin", 0)
    yield Entry(0, "opened")
    at = 0
    for part in parts:
        at += 1000 * len(part) // RATE
        yield brings(at, "heard", part)


def waiting(parts: List[bytes]) -> float:
    host = Host()
    for entry in entries(parts):
        host.tell(entry)
    return ended(host.left())


def fed(word: str, near: int, far: int, parts: Iterable[bytes]) -> float:
    """A subcommand that gets these parts through a pipe, while what it writes is read."""
    process = subprocess.Popen([program(), word], stdin=near, stdout=subprocess.PIPE)
    os.close(near)
    assert process.stdout
    with process.stdout as said:
        reader = threading.Thread(target=lambda: drained(said.fileno()))
        reader.start()
        for part in parts:
            at = 0
            while at < len(part):
                at += os.write(far, part[at : at + PIPE])
        os.close(far)
        reader.join()
    return ended(process)


def live(parts: List[bytes]) -> float:
    """A pipe that gives an entry for each read: one of packets. An entry is a line more than its chunk, so it may take two."""
    return fed("live", *os.pipe2(os.O_DIRECT | os.O_CLOEXEC), [entry.text for entry in entries(parts)])


def watch(parts: List[bytes]) -> float:
    """The same of chunks."""
    return fed("watch", *os.pipe2(os.O_DIRECT | os.O_CLOEXEC), parts)


def again(parts: List[bytes]) -> float:
    """`live` in a call that begins again."""
    sent = b"".join(parts)[:KEPT]
    seconds = [(1000 * at // RATE, "heard", min(RATE, len(sent) - at)) for at in range(0, len(sent), RATE)]
    file = times.heading(0, sent[:4096]) + times.lines([(0, "begin", 0), *seconds])
    begins = [brings(0, "kept", file), brings(0, "capture", sent), Entry(0, "begin", len(sent))]
    return fed("live", *os.pipe(), [entry.text for entry in begins])


def read(parts: List[bytes]) -> float:
    """`watch` of the same bytes."""
    return fed("watch", *os.pipe(), [b"".join(parts)[:KEPT]])


def drained(number: int) -> None:
    while os.read(number, 1 << 20):
        pass


def timed(run: Callable[[List[bytes]], float], parts: List[bytes]) -> Used:
    began = time.monotonic()
    used = run(parts)
    return used, 1000 * (time.monotonic() - began)


def main(runs: int = 5, size: int = streams.SIZE) -> int:
    parts = chunks(streams.hands(False)[:size])
    commands: Dict[str, Callable[[List[bytes]], float]] = {"live": live, "waiting": waiting, "watch": watch, "again": again, "read": read}
    taken: Dict[str, List[Used]] = {name: [] for name in commands}
    load = os.getloadavg()[0]
    for _ in range(runs):
        for name, command in commands.items():
            taken[name].append(timed(command, parts))
    medians = {name: [sorted(used[part] for used in found)[runs // 2] for part in (0, 1)] for name, found in taken.items()}
    print(f"{len(parts)} chunks, {runs} runs by turns; load {load:.1f} at the beginning, {os.getloadavg()[0]:.1f} at the end")
    for name, (used, clock) in medians.items():
        print(f"{name:<8} {used:8.1f} ms of the processor {clock:10.1f} ms by the clock")
    print(f"waiting beside watch: {medians['waiting'][0] / medians['watch'][0]:.2f}")
    for one, other, goal in (("live", "watch", GOAL), ("again", "read", GOAL_AGAIN)):
        ratio = medians[one][0] / medians[other][0]
        print(f"{one} beside {other}: {ratio:.2f}, at most {goal}: {'met' if ratio <= goal else 'not met'}")
    return 0


if __name__ == "__main__":
    sys.exit(main(*map(int, sys.argv[1:])))
