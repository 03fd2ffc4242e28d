"""What a recorder that a case has started with clocks of its own has of a game: what spectators see, and what they don't see yet."""

import json
import os
import pathlib
from typing import List

from live.game import times
from live.game.times import summed, this_start
from live.out.spectators import Clocks, Ply, Shot
from played.stage import bytes_of

QUEUED = "queued"  # a folder beside the games
# Part of a script that starts a recorder: all its clocks are ahead by as many seconds as the file `ahead` says. It notes in files of that
# folder what spectators see of each game, and what waits, whenever that has changed.
NOTES = """
import json, os, pathlib, time
from live.out import delay
from live.run import loop
loop.Loop.now = staticmethod(lambda: time.monotonic() + float(ahead.read_text()))
loop.Loop.counting = staticmethod(lambda: time.clock_gettime(time.CLOCK_BOOTTIME) + float(ahead.read_text()))
loop.Loop._turned = lambda self, waited=0.0: None  # that they are put forward is no time away
def notes(name):
    real, noted = getattr(delay.OneGame, name), {}
    def called(self, *words):
        real(self, *words)
        shots = [entry.shot for entry in self.waiting.known]
        if shots != noted.get(self):
            noted[self] = shots
            file = ahead.parent / "queued" / os.path.abspath(self.name).replace("/", "%")
            new = pathlib.Path(str(file) + ".new")
            new.write_text(json.dumps([
                [shot.result, [[ply.san, ply.clock] for ply in shot.moves], shot.text.decode(), vars(shot.clocks), shot.forfeit] for shot in shots
            ]))
            new.replace(file)
    setattr(delay.OneGame, name, called)
notes("take")
notes("tell")
"""


def hidden_shots(name: object) -> List[Shot]:
    """Those that are shown or hidden, of the game with this name, or of an output's game; none until a kill loses no time of its bytes.
    They have no positions."""
    path = pathlib.Path(os.path.abspath(str(name)))
    folder = next((parent for parent in path.parents if (parent / QUEUED).is_dir()), path.parent)
    file = folder / QUEUED / str(path).replace("/", "%")
    found = json.loads(file.read_text()) if file.exists() and all(map(is_timed, captures_of(path))) else []
    return [
        Shot(result, tuple(Ply(san, clock) for san, clock in moves), (), text.encode(), Clocks(**clocks), forfeit)
        for result, moves, text, clocks, forfeit in found
    ]


def started_again(began: pathlib.Path) -> None:
    """The computer was started again: what is kept of a game's calls is of an earlier start."""
    lines = began.read_bytes().replace(this_start().encode(), b"0000-beef").splitlines()
    began.write_bytes(summed([line[: -len("12345678")] for line in lines], 0))


def captures_of(path: pathlib.Path) -> List[pathlib.Path]:
    """The captures of a game, of an output's game, or of the games of a series."""
    games = path.parent.parent if path.parent.name.startswith("output-") else path.parent
    return [*games.glob(f"{path.name}.dgt"), *games.glob(f"{path.name}-[0-9].dgt")]


def is_timed(capture: pathlib.Path) -> bool:
    """Whether the file of times accounts for all bytes of a capture, up to its game's end."""
    end, size = capture.with_name(f"{capture.stem}.end"), capture.stat().st_size
    found = times.kept(bytes_of(capture.with_name(f"{capture.stem}.times")))
    return not size or (isinstance(found, times.Kept) and found.covered >= min(size, int(bytes_of(end) or size)))
