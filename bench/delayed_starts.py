#!/usr/bin/env python3
"""delayed_starts.py [COUNT [AT_ONCE [SEED]]]: starts and ends a round that goes out some seconds late, so many times, 1,000 without COUNT,
in AT_ONCE halls of two boards: by Ctrl-C, TERM, a kill of the recorder or of all its processes, at any moment from its start to a few
seconds later. A further output goes out later than the round, and is left out now and then. Moves are played meanwhile; now and then
the times of a game, or when its calls began, are lost or older, as after a power cut. What goes out is read all the time: the first ply that is too young
ends it with status 1.

Last it prints how many starts there were, by what they were ended, how many were not open by then, and how many texts were seen.
"""

import collections
import os
import pathlib
import random
import signal
import subprocess
import sys
import tempfile
import time
from typing import Counter, Dict, List

TOP = pathlib.Path(__file__).resolve().parents[1]
sys.dont_write_bytecode = True
sys.path[:0] = [str(TOP / "tests"), str(TOP / "tools"), str(TOP)]
from played.recorder import Live  # noqa: E402
from played.stage import Stage, bytes_of, rest, until  # noqa: E402
from rounds.hall import Hall, agrees, moves, text  # noqa: E402
from rounds.witness import Witness  # noqa: E402

DELAY, LATER = 0.1, 0.17  # minutes
OUTPUT = "later"
LONGEST = 3.0  # seconds of a call, from its start, or from when its boards agree
PATIENCE = 600.0  # seconds in which a call agrees, or ends
ENDS = ("Ctrl-C", "TERM", "the recorder killed", "all killed")


def front(number: int, plies: int) -> str:
    """The movetext of so many plies of a board's game."""
    words = [word for word in text(number).split()[:-1] if not word[0].isdigit()]
    numbered = [f"{ply // 2 + 1}. {san}" if ply % 2 == 0 else san for ply, san in enumerate(words[:plies])]
    return " ".join([*numbered, "*"])


class Trial:
    """A hall whose round is started and ended again and again. When its games are played, another round begins."""

    def __init__(self, folder: pathlib.Path, seed: int) -> None:
        self._folder, self._random = folder, random.Random(seed)
        self.counts: Counter[str] = collections.Counter()
        self.seen = 0
        self._rounds = 0
        self._begin_round()

    def _begin_round(self) -> None:
        self._rounds += 1
        place = self._folder / str(self._rounds)
        place.mkdir()
        self._hall, self._plies = Hall(place, 2), [0, 0]
        places = ((DELAY, "broadcast.pgn"), (LATER, f"output-{OUTPUT}/broadcast.pgn"))
        self._witnesses = [Witness(time.monotonic, delay * 60, self._hall.games / name) for delay, name in places]
        for witness in self._witnesses:
            witness.begin()
        self._old: Dict[str, bytes] = {}

    def _end_round(self) -> None:
        for witness in self._witnesses:
            witness.end()
            self.seen += len(witness.seen)
        for board in self._hall.boards:
            board.end()
            Stage.boards.remove(board)

    def _play(self) -> None:
        """A ply on each board whose last one is recorded."""
        for number in (0, 1):
            plies = self._plies[number]
            if plies < len(moves(number)) and self._hall.text(number + 1) in (front(number, plies), "" if plies == 0 else "-"):
                for witness in self._witnesses:
                    witness.plays(front(number, plies + 1))
                self._hall.boards[number].play(moves(number)[plies])
                self._plies[number] += 1

    def _spoil(self) -> None:
        """The times of a game, or when its calls began, are lost or older."""
        for name in ("01.times", "01.began"):
            path, chance = self._hall.games / name, self._random.random()
            if not path.parent.exists():
                continue  # it was killed before that
            if chance < 0.05:
                path.unlink(missing_ok=True)
            elif chance < 0.1:
                path.write_bytes(b"")
            elif chance < 0.15 and name in self._old:
                path.write_bytes(self._old[name])
            elif chance < 0.3 and bytes_of(path):
                self._old[name] = bytes_of(path)

    def start(self) -> None:
        """One start, and its end. If it waits for too long, that names the recorder's lines."""
        Stage.ends = time.monotonic() + PATIENCE
        try:
            self._start()
        except AssertionError as error:
            said = "".join(live.lines() + live.complaint() for live in Live.all)
            raise AssertionError(f"{error}\n{said}") from None

    def _start(self) -> None:
        options = ["--delay", str(DELAY)] if self._random.random() < 0.3 or self._rounds_are_new() else []
        options += ["--output", f"{OUTPUT}={LATER}"] if self._random.random() < 0.9 else []
        live = self._hall.record(*options)
        if self._random.random() < 0.6:
            until(lambda: all(agrees(live, number) for number in (1, 2)), "that both boards agree")
        ends = time.monotonic() + self._random.random() * LONGEST
        while time.monotonic() < ends:
            rest(self._random.random() * 0.3)
            if live.says("agrees"):
                self._play()
        how = self._random.choice(ENDS)
        self.counts["starts"] += 1
        self.counts[how] += 1
        self.counts["not open"] += not live.says("records")
        live.was_killed = True
        if how == "all killed":
            live.send_all(signal.SIGKILL)
        else:
            live.send({"Ctrl-C": signal.SIGINT, "TERM": signal.SIGTERM}.get(how, signal.SIGKILL))
        until(lambda: not live.runs, "the end of a call")
        live.end()
        Live.all.clear()
        self._spoil()
        if self._plies == [len(moves(0)), len(moves(1))]:
            self._end_round()
            self._begin_round()

    def _rounds_are_new(self) -> bool:
        return not (self._hall.games / "round.delay").exists()

    def end(self) -> None:
        self._end_round()


def one(count: int, seed: int) -> int:
    """Plays one hall, and prints its counts."""
    with tempfile.TemporaryDirectory(prefix="delayed_starts.") as folder:
        Live.scratch_folder = pathlib.Path(folder)
        trial = Trial(pathlib.Path(folder), seed)
        for _ in range(count):
            trial.start()
        trial.end()
        print(";".join(f"{name}={number}" for name, number in trial.counts.items()) + f";texts={trial.seen}", flush=True)
    return 0


def main(words: List[str]) -> int:
    if words[:1] == ["--one"]:
        return one(int(words[1]), int(words[2]))
    count, at_once, seed = [int(word) for word in [*words, *["1000", "4", "1"][len(words) :]]]
    shares = [count // at_once + (number < count % at_once) for number in range(at_once)]
    script = os.path.abspath(__file__)
    halls = [
        subprocess.Popen([sys.executable, script, "--one", str(share), str(seed + number)], stdout=subprocess.PIPE, text=True)
        for number, share in enumerate(shares)
    ]
    counts: Counter[str] = collections.Counter()
    for hall in halls:
        output, _ = hall.communicate()
        for pair in filter(None, output.strip().split(";")):
            name, _, number = pair.partition("=")
            counts[name] += int(number)
    print(", ".join(f"{name} {number}" for name, number in counts.items()))
    leaks = sum(hall.returncode != 0 for hall in halls)
    print("nothing was too young" if not leaks else f"{leaks} halls failed")
    return int(leaks > 0)


if __name__ == "__main__":
    sys.exit(main(sys.argv[1:]))
