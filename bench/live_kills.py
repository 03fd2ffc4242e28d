#!/usr/bin/env python3
"""Kills the live recorder's processes, each in turn, at random moments of games on simulated boards, and looks for lost moves. Behind each
ply it compares text, alarms and state with what a recorder says that was told the same and never killed.

`bench/live_kills.py [KILLS [AT_ONCE]]`, 1000 kills and 4 games at once where nothing is said, some ten minutes. Each batch of 25
kills has its own seed, 1000 and up, so that a batch that fails is played again by `bench/live_kills.py --batch SEED`.
"""

import collections
import pathlib
import re
import signal
import subprocess
import sys
import tempfile
import time
from typing import Counter, List, Tuple

sys.dont_write_bytecode = True
TOP = pathlib.Path(__file__).resolve().parents[1]
sys.path.insert(0, str(TOP / "tests"))
from played import killing, runner  # noqa: E402
from played.recorder import Live  # noqa: E402
from played.stage import Stage  # noqa: E402

BATCH = 25
FIRST = 1000
SECONDS = 300  # of a batch


def batch(seed: int) -> int:
    """Plays one batch here, and tells what was killed, a line each."""
    Stage.ends = time.monotonic() + SECONDS
    with tempfile.TemporaryDirectory(prefix="dgt_live.") as folder:
        room, place = pathlib.Path(folder) / "room", pathlib.Path(folder) / "games"
        room.mkdir()
        place.mkdir()
        Live.scratch_folder = room
        killer = killing.Killer(place, seed)
        try:
            killing.kill_in_games(place, seed, BATCH, killer)
        except Exception:
            runner.tell_what_was_said()
            raise
        finally:
            for kind, count in sorted(killer.killed.items()):
                print(f"killed {count} {kind}")
            print(f"started again {killer.restarts}\nalarms {killer.alarms}", flush=True)
            runner.clear()
    return 0


def main() -> int:
    signal.signal(signal.SIGTERM, lambda *_: sys.exit(143))
    if sys.argv[1:2] == ["--batch"]:
        return batch(int(sys.argv[2]))
    kills = int(sys.argv[1]) if len(sys.argv) > 1 else 1000
    at_once = int(sys.argv[2]) if len(sys.argv) > 2 else 4
    seeds = list(range(FIRST, FIRST + -(-kills // BATCH)))
    playing: List[Tuple[int, "subprocess.Popen[bytes]"]] = []
    killed: Counter[str] = collections.Counter()
    failed: List[int] = []
    start = time.monotonic()
    restarts = alarms = 0
    try:
        while seeds or playing:
            while seeds and len(playing) < at_once:
                seed = seeds.pop(0)
                words = [sys.executable, __file__, "--batch", str(seed)]
                playing.append((seed, subprocess.Popen(words, stdout=subprocess.PIPE, stderr=subprocess.PIPE)))
            time.sleep(0.1)
            for seed, process in [one for one in playing if one[1].poll() is not None]:
                playing.remove((seed, process))
                told, wrong = (text.decode() for text in process.communicate())
                for count, kind in re.findall(r"(?m)^killed (\d+) (.*)$", told):
                    killed[kind] += int(count)
                restarts += sum(map(int, re.findall(r"(?m)^started again (\d+)$", told)))
                alarms += sum(map(int, re.findall(r"(?m)^alarms (\d+)$", told)))
                if process.returncode:
                    failed.append(seed)
                    print(f"batch {seed} failed:\n{told}{wrong}", flush=True)
    finally:
        for _, process in playing:
            process.terminate()
    for kind, count in sorted(killed.items()):
        print(f"{count:6} {kind}")
    print(f"{sum(killed.values())} kills in {time.monotonic() - start:.0f} s, started again {restarts} times; {alarms} open alarms, counted behind each ply")
    why = "lost or added a ply, didn't go on, or said something else than a recorder that was never killed"
    print(f"{len(failed)} batches of {BATCH} {why}" + (f": {failed}" if failed else ""))
    return int(bool(failed))


if __name__ == "__main__":
    sys.exit(main())
