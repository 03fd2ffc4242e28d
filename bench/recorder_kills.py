#!/usr/bin/env python3
"""Kills tabs of bin/recorder.html in the middle of a frame, 200 or as many as are said: opened again, each has all that it showed, and says
the alarms and the state that a recorder says which was told the same and never killed.

    bench/recorder_kills.py [KILLS]
"""

import pathlib
import sys
import tempfile
import time

sys.dont_write_bytecode = True
TOP = pathlib.Path(__file__).resolve().parents[1]
sys.path[:0] = [str(TOP), str(TOP / "tests")]
from browsed import kept  # noqa: E402
from played.stage import Stage  # noqa: E402


def main() -> int:
    wanted, seed = int(sys.argv[1]) if len(sys.argv) > 1 else 200, 100
    done = 0
    while done < wanted:
        seed += 1
        begun = time.monotonic()
        with tempfile.TemporaryDirectory(prefix="recorder-") as folder:
            alarms = kept.killed(pathlib.Path(folder), seed)
        Stage.boards.clear()
        done += min(kept.KILLS, kept.LAST)
        told = f"{done} tabs were killed, and each had all that it had shown, and said what a recorder says that was never killed"
        print(f"seed {seed}: {told}; behind {alarms} of the last {kept.KILLS} somebody was to look; {time.monotonic() - begun:.0f} s", flush=True)
    return 0


if __name__ == "__main__":
    sys.exit(main())
