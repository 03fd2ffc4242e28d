#!/usr/bin/env python3
"""What `live` takes for the history of a board, a capture of the calls before: live_history.py [MIB [NAME ..]].

The captures have so many MiB, 64 if none are named: *played* (bench/streams.py); *random*, updates of random squares; *chattering*, one
square that shows a piece and none by turns; *knights*, a game of knights that go out and home. Each is told with a file of times that
has a line for each second, and without. Prints the processor time, user and system, and the peak of the memory. The environment
variable PROGRAM is the path of another program.
"""

import os
import pathlib
import random
import re
import subprocess
import sys
import threading
from typing import Callable, Dict, List, Tuple

sys.dont_write_bytecode = True
TOP = pathlib.Path(__file__).resolve().parents[1]
sys.path[:0] = [str(TOP), str(TOP / "tests"), str(TOP / "bench")]
import streams  # noqa: E402
from attending.answers import Entry, brings  # noqa: E402
from given.case import program  # noqa: E402
from live.game import times  # noqa: E402

MIB = 1 << 20
LIMIT = 64 * MIB  # bytes that a capture may have
RATE = 960  # bytes a second of a board's line
HOME = streams.HEADER + bytes(streams.INITIAL)


def repeated(part: bytes, size: int) -> bytes:
    """The dump of the start, and a part again and again."""
    return HOME + part * ((size - len(HOME)) // len(part))


def played(size: int) -> bytes:
    game = streams.hands(False)
    return (game * (size // len(game) + 1))[:size]


def at_random(size: int) -> bytes:
    chance = random.Random(1)
    return HOME + b"".join(streams.UPDATES[chance.randrange(64)][chance.randrange(13)] for _ in range((size - len(HOME)) // 5))


def chattering(size: int) -> bytes:
    return repeated(streams.UPDATES[40][1] + streams.UPDATES[40][0], size)


def knights(size: int) -> bytes:
    ways = ((62, 45, 3), (6, 21, 9), (45, 62, 3), (21, 6, 9))
    return repeated(b"".join(streams.UPDATES[start][0] + streams.UPDATES[end][code] for start, end, code in ways), size)


CAPTURES: Dict[str, Callable[[int], bytes]] = {"played": played, "random": at_random, "chattering": chattering, "knights": knights}


def history(sent: bytes, has_times: bool) -> List[bytes]:
    """What `live` is told of a board that has sent these bytes in the calls before, as a call begins."""
    seconds = [(1000 * at // RATE, "heard", min(RATE, len(sent) - at)) for at in range(0, len(sent), RATE)] if has_times else []
    file = times.heading(0, sent[:4096]) + times.lines([(0, "begin", 0), *seconds]) if has_times else b""
    kept = [brings(0, "kept", file)] if has_times else []
    return [entry.text for entry in [*kept, brings(0, "capture", sent), Entry(0, "begin", len(sent))]]


def told(parts: List[bytes]) -> Tuple[float, float]:
    """The processor seconds and the MiB that `live` takes for it."""
    process = subprocess.Popen([program(), "live"], stdin=subprocess.PIPE, stdout=subprocess.PIPE)
    assert process.stdin and process.stdout
    most = [0.0]
    reader = threading.Thread(target=drained, args=(process.stdout.fileno(), process.pid, most))  # what it writes is read meanwhile
    reader.start()
    with process.stdin as given:
        for part in parts:
            given.write(part)
    reader.join()
    _, status, used = os.wait4(process.pid, 0)
    process.returncode = os.waitstatus_to_exitcode(status)
    if process.returncode:
        sys.exit(f"live ended with status {process.returncode}")
    return used.ru_utime + used.ru_stime, most[0]


def drained(number: int, child: int, most: List[float]) -> None:
    """Reads all that the child writes, and notes the peak of its own memory: what `wait4` says counts that of this process too."""
    status = pathlib.Path(f"/proc/{child}/status")
    while os.read(number, 1 << 20):
        peak = re.search(r"VmHWM:\s+(\d+) kB", status.read_text())
        most[0] = int(peak[1]) / 1024 if peak else most[0]


def main(mib: str = "64", *names: str) -> int:
    size = min(int(mib) * MIB, LIMIT)
    print(f"history of {mib} MiB; load {os.getloadavg()[0]:.1f}")
    for name in names or CAPTURES:
        sent = CAPTURES[name](size)
        for has_times in (True, False):
            seconds, most = told(history(sent, has_times))
            print(f"{name:<11} {'with' if has_times else 'without'} times: {seconds:6.1f} s, {most:6.0f} MiB", flush=True)
    return 0


if __name__ == "__main__":
    sys.exit(main(*sys.argv[1:]))
