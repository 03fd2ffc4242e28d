#!/usr/bin/env python3
"""said_again.py [MIB [PLACES]]: how long it takes after a restart until the program has said again what a game was, whose bytes came at so
many times within the delay. The capture is samples/long-game.dgt with so many dumps in it that it has MIB MiB; 4 and 3,000 without
them."""

import pathlib
import sys
import tempfile
import time
from typing import List

TOP = pathlib.Path(__file__).resolve().parents[1]
sys.dont_write_bytecode = True
sys.path[:0] = [str(TOP / "tests"), str(TOP)]
from live.child.program import Program  # noqa: E402
from live.game import times  # noqa: E402
from live.game.files import Paths  # noqa: E402
from live.game.kept import milliseconds, times_of  # noqa: E402
from live.game.times import Began, began_line, part_line, summed, this_start  # noqa: E402
from live.out.again import said_again  # noqa: E402
from played.stage import program  # noqa: E402

HEAD, DUMP, UPDATE, CLOCK = 3, 0x86, 0x8E, 0x8D  # bytes before a frame's content; kinds of frames
SHOWN = (UPDATE, CLOCK)


def grown(sample: bytes, size: int) -> bytes:
    """A capture with some dumps behind each update and each time, as a board sends them that is asked often."""
    frames: List[bytes] = []
    at, codes = 0, bytearray()
    while at < len(sample):
        frame = sample[at : at + (sample[at + 1] << 7 | sample[at + 2])]
        at += len(frame)
        if frame[0] == DUMP:
            codes = bytearray(frame[HEAD:])
            head = frame[:HEAD]
        elif frame[0] == UPDATE:
            codes[frame[HEAD]] = frame[HEAD + 1]
        frames.append(frame)
        if frame[0] in SHOWN:
            frames.append(head + codes)
    dumps = sum(frame[0] == DUMP for frame in frames)
    times = max(1, (size - len(sample)) // (dumps * (HEAD + len(codes))))
    return b"".join(frame * (times if frame[0] == DUMP else 1) for frame in frames)


def main(words: List[str]) -> int:
    size, places = int(float(words[0]) * (1 << 20)) if words else 4 << 20, int(words[1]) if words[1:] else 3000
    capture = grown((TOP / "samples" / "long-game.dgt").read_bytes(), size)
    ends = [len(capture) * (place + 1) // places for place in range(places)]
    with tempfile.TemporaryDirectory() as folder:
        paths = Paths(f"{folder}/01")
        heading = times.heading(0, capture[: times.HEADED])
        heard = [(number, times.HEARD, end - before) for number, (before, end) in enumerate(zip([0, *ends], ends), 1)]
        pathlib.Path(paths.capture).write_bytes(capture)
        lines = heading + times.lines([(0, times.BEGIN, 0), *heard])
        pathlib.Path(times_of(paths.capture)).write_bytes(lines)
        call = began_line((0, len(heading)), Began(milliseconds() - places - 1, this_start()))
        pathlib.Path(paths.began).write_bytes(summed([call, part_line(0, 0, lines)], 0))
        began = time.monotonic()
        said = said_again(Program(program()), [paths], 900.0, time.monotonic)
        seconds = time.monotonic() - began
    print(f"{len(capture) / (1 << 20):.2f} MiB, {len(said)} places, {len(said[-1][1].moves)} plies at the last one: {seconds:.2f} s")
    return 0


if __name__ == "__main__":
    sys.exit(main(sys.argv[1:]))
