#!/usr/bin/env python3
"""starts.py OLD NEW [TURNS]: what a start costs in two trees of the repository, by turns in one run: one board with dgt_live, 48
with dgt_round. Each is started once before, so that bytecode that a tree keeps is there.

For each it prints medians: the time from the start until the first board is asked, and the processor time of the recorder and of
all that it has started, up to then; the same until each board was asked. Last it prints the ratio of both trees, new to old, and
whether it is at most 0.75.
"""

import os
import pathlib
import select
import signal
import subprocess
import sys
import tempfile
import time
from typing import Dict, List, NamedTuple, Set

sys.dont_write_bytecode = True
TOP = pathlib.Path(__file__).resolve().parents[1]
sys.path.insert(0, str(TOP / "tests"))
from played.boards import Board  # noqa: E402
from played.recorder import processes  # noqa: E402

BOARDS = (1, 48)
WANTED = 0.75
PATIENCE = 120.0  # seconds
TICKS = os.sysconf("SC_CLK_TCK")


class Start(NamedTuple):
    """Milliseconds until the first board is asked, and until the last one is: of the clock, and of the processor."""

    first: float
    first_used: float
    last: float
    last_used: float


def used(process: int) -> float:
    """Milliseconds of processor time of a process, with all that it has started. Its own threads are counted in microseconds."""
    total = 0.0
    for one in processes(process):
        try:
            for task in pathlib.Path(f"/proc/{one}/task").iterdir():
                total += int((task / "schedstat").read_text().split()[0]) / 1e6
            ended = pathlib.Path(f"/proc/{one}/stat").read_text().rpartition(")")[2].split()[13:15]
            total += sum(map(int, ended)) * 1000 / TICKS
        except OSError:
            pass
    return total


def start(tree: pathlib.Path, count: int, folder: pathlib.Path) -> Start:
    """Starts the recorder of a tree with so many boards, and kills it once each was asked."""
    boards = [Board(folder, device=folder / f"board{number}") for number in range(1, count + 1)]
    if count == 1:
        words = [str(tree / "bin" / "dgt_live"), boards[0].device, str(folder / "game")]
    else:
        lines = [f"{number},{board.device}" for number, board in enumerate(boards, 1)]
        (folder / "round.csv").write_text("\n".join(["board,device", *lines, ""]))
        words = [str(tree / "bin" / "dgt_round"), str(folder / "round.csv"), str(folder / "games")]
    begun = time.monotonic()
    call = subprocess.Popen(words, stdin=subprocess.DEVNULL, stdout=subprocess.DEVNULL, start_new_session=True)
    asked: Set[int] = set()
    found: List[float] = []
    try:
        while len(asked) < count:
            left = begun + PATIENCE - time.monotonic()
            lines_read = select.select([board.line for board in boards if board.line not in asked], [], [], max(0.0, left))[0]
            now = 1000 * (time.monotonic() - begun)
            if not lines_read:
                sys.exit(f"{words[0]}: {count - len(asked)} boards were not asked")
            asked.update(line for line in lines_read if os.read(line, 64))
            if not found or len(asked) == count:
                found += [now, used(call.pid)]
    finally:
        os.killpg(call.pid, signal.SIGKILL)
        call.wait()
        for board in boards:
            board.end()
    return Start(*found, *(found if len(found) == 2 else ()))


def main() -> int:
    trees = [pathlib.Path(word).resolve() for word in sys.argv[1:3]]
    turns = int(sys.argv[3]) if len(sys.argv) > 3 else 9
    is_met = True
    for count in BOARDS:
        taken: Dict[pathlib.Path, List[Start]] = {tree: [] for tree in trees}
        for turn in range(turns + 1):
            for tree in trees:
                with tempfile.TemporaryDirectory(prefix="dgt_live.") as folder:
                    one = start(tree, count, pathlib.Path(folder))
                if turn:
                    taken[tree].append(one)
        medians = {tree: Start(*(sorted(each)[turns // 2] for each in zip(*taken[tree]))) for tree in trees}
        for tree, median in medians.items():
            print(f"{count:>2} boards  {' '.join(f'{name} {value:.0f} ms' for name, value in median._asdict().items())}  {tree}")
        old, new = (medians[tree] for tree in trees)
        for name in ("first_used", "last_used"):
            ratio = getattr(new, name) / getattr(old, name)
            is_met = is_met and (name != "first_used" or ratio <= WANTED)
            print(f"{count:>2} boards  {name}: {ratio:.2f} of the old tree; wanted {WANTED}")
    return 0 if is_met else 1


if __name__ == "__main__":
    sys.exit(main())
