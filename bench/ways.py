#!/usr/bin/env python3
"""ways.py [--files] [--runs N] [TREE]: how long the ways through `live/` are, in this tree of the repository or in another one.

Boards are played, lines are typed on a terminal, and bench/ways_hook.py writes down each function of `live/` that is called. A way begins
with the function in which the loop takes the bytes of the board, or of the terminal. It ends when the answer is printed, or when the
text is in place. `r` is typed in a round of one board; a restart begins with the command, and ends when the board agrees. Of each way
this prints
  functions  how many different ones are called
  calls      how often, in all
  files      in how many files they are
  changes    how often a call is in another file than the call before it
  back       how many of these changes lead to a file that was on the way before
  alike      how many of the runs have these figures

With --files it prints the files too, in the order in which the way reaches them, each with its functions in that order.

Each way is walked N times, 5 without --runs, by a new recorder each time. The figures are those of the run in the middle, by changes,
then by functions and calls. While a way is walked, the recorder's clocks stand still, the board is silent, but for a restart, and one
thread works at a time: so most figures are the same at each run. After `r` they are not quite: the answer is drawn a tenth of a second
later, and other timers come between.
"""

import argparse
import pathlib
import sys
import tempfile
import time
from typing import Callable, Dict, List, NamedTuple, Optional, Tuple

sys.dont_write_bytecode = True
TOP = pathlib.Path(__file__).resolve().parents[1]
sys.path.insert(0, str(TOP / "tests"))
from played import words  # noqa: E402
from played.boards import Board  # noqa: E402
from played.recorder import Live  # noqa: E402
from played.stage import Stage, a_board, begun, bytes_of, rest, stop, turn, until_game, until_line  # noqa: E402
from rounds.hall import Hall  # noqa: E402

HOOK = TOP / "bench" / "ways_hook.py"
PATIENCE = 60.0  # seconds for a way
PART = 0.3  # seconds: a part of the second in which the recorder looks again
PROGRAM, PRINTED, PLACED = "a byte, until the program has it", "until the move is printed", "until NAME.pgn is in place"
MOVE, RESULT, LOOKED, BACK, NAME = "a typed move", "a typed result", "`ok`", "`back`", "`name`"
TABLE, RESTART = "a changed line of a table, after `r`", "a restart of one board"
WAYS = (PROGRAM, PRINTED, PLACED, MOVE, RESULT, LOOKED, BACK, NAME, TABLE, RESTART)


class Event(NamedTuple):
    """A line of the log."""

    what: str
    thread: str
    place: str
    content: str

    @property
    def is_step(self) -> bool:
        return self.what in ("call", "on")


Mark = Callable[[Event], bool]


def reads(place: str, part: str) -> Mark:
    return lambda event: event.what == "read" and event.place.startswith(place) and part in event.content


def writes(place: str, part: str) -> Mark:
    return lambda event: event.what == "write" and event.place.startswith(place) and part in event.content


def placed(path: str) -> Mark:
    return lambda event: event.what == "placed" and event.place == path


def no_board_sends() -> None:
    time.sleep(0.01)


class Figures(NamedTuple):
    """What is counted of a way; the first ones say which of several is in the middle."""

    changes: int
    functions: int
    calls: int
    files: int

    @property
    def back(self) -> int:
        return self.changes - self.files + 1


class Way(NamedTuple):
    """The functions that are called, each with its file, in order."""

    steps: List[Tuple[str, str]]

    @property
    def figures(self) -> Figures:
        files = [file for file, _ in self.steps]
        changes = sum(file != before for before, file in zip(files, files[1:]))
        return Figures(changes, len(set(self.steps)), len(self.steps), len(set(files)))

    def told(self) -> List[str]:
        """Its files, each with its functions."""
        found: Dict[str, List[str]] = {}
        for file, name in self.steps:
            shown = name.rpartition(":")[0].replace("<locals>.", "")
            if shown not in found.setdefault(file, []):
                found[file].append(shown)
        return [f"  {number:2} {file}: {', '.join(names)}" for number, (file, names) in enumerate(found.items(), 1)]


class Recorded:
    """A recorder and its log."""

    def __init__(self, tree: pathlib.Path, folder: pathlib.Path, name: str) -> None:
        self._log, self._at = folder / f"log-{name}", 0
        self._still = folder / f"log-{name}.still"
        self._events: List[Event] = []
        self._read = 0  # bytes of the log
        self.start: List[object] = [sys.executable, "-S", "-X", "no_debug_ranges", HOOK, self._log]
        self.ways: Dict[str, Way] = {}
        self.program = tree / "bin" / name.partition("-")[0]

    def events(self) -> List[Event]:
        """Those that are whole."""
        more = bytes_of(self._log)[self._read :]
        more = more[: more.rfind(b"\n") + 1]
        self._read += len(more)
        for line in more.decode().splitlines():
            what, thread, place, content = line.split(" ", 3)
            self._events.append(Event(what, thread, place, content))
        return self._events

    def settle(self, board: Board) -> None:
        """Now nothing is due for a while: the recorder has heard the board a while ago, and has just done what it does each second."""
        times = f"{self._log.parent}/"
        for _ in range(2):  # the first time leaves a timer from before
            for mark in (writes("/dev/pts/", "B"), writes(times, "asked")):
                self._until(mark)
            time.sleep(PART)
            at = len(self.events())
            for _ in range(2):  # the board is asked, and answers
                board.turn()
            self._until(writes(times, " heard "), at)

    def _until(self, mark: Mark, at: Optional[int] = None) -> None:
        """Waits until there is this, while the board sends nothing."""
        at = len(self.events()) if at is None else at
        over = time.monotonic() + PATIENCE
        while not any(map(mark, self.events()[at:])):
            assert time.monotonic() < over, f"the recorder stands still: {self._log}"
            no_board_sends()

    def walk(self, begins: Mark, ends: Dict[str, Mark], does: Callable[[], None], turns: Callable[[], None] = no_board_sends) -> None:
        """Does this, and waits until all ways have ended that begin with it."""
        self._at = len(self.events())
        self._still.touch()
        does()
        self._wait(begins, ends, turns)
        self._still.unlink()

    def _wait(self, begins: Mark, ends: Dict[str, Mark], turns: Callable[[], None]) -> None:
        over = time.monotonic() + PATIENCE
        while True:
            events = self.events()[self._at :]
            starts = next((number for number, event in enumerate(events) if begins(event)), len(events))
            found = {way: next((at for at, event in enumerate(events) if at >= starts and ends[way](event)), -1) for way in ends}
            if all(at >= 0 for at in found.values()):
                break
            assert time.monotonic() < over, f"{[way for way, at in found.items() if at < 0]} doesn't end"
            turns()
        while starts and events[starts - 1].what == "on":  # what has led to the read
            starts -= 1
        for way, at in found.items():
            self.ways[way] = Way(steps(events[starts:at]))


def steps(events: List[Event]) -> List[Tuple[str, str]]:
    """The calls, as if each thread went on alone from one wait to the next."""
    turns: List[List[Tuple[str, str]]] = []
    now: Dict[str, List[Tuple[str, str]]] = {}
    for number, event in enumerate(events):
        if event.what == "waited":
            now.pop(event.thread, None)
        elif event.what == "call" or (event.what == "on" and number < first_read(events)):
            if event.thread not in now:
                now[event.thread] = []
                turns.append(now[event.thread])
            now[event.thread].append((event.place, event.content))
    return [step for turn in turns for step in turn]


def first_read(events: List[Event]) -> int:
    return next((number for number, event in enumerate(events) if event.what == "read"), 0)


def one_board(tree: pathlib.Path, folder: pathlib.Path) -> Dict[str, Way]:
    """A game: two plies, a third one that is followed, typed lines, a new start, and the result."""
    board, name = a_board(folder), folder / "game"
    first = Recorded(tree, folder, "dgt_live-1")
    live = Live(board.device, name, "--white", "Anne", program=first.program, start=first.start, terminal=True)
    begun(live)
    for move, text in (("e2e4", "1. e4 *"), ("e7e5", "1. e4 e5 *")):
        board.play(move)
        until_game(name, text)
    first.settle(board)
    ends = {PROGRAM: writes("pipe:", "heard"), PRINTED: writes("typed", "2. Nf3"), PLACED: placed(f"{name}.pgn")}
    first.walk(reads("/dev/pts/", "\\x8e"), ends, lambda: board.play("g1f3"))

    def types(recorded: Recorded, line: str, way: str, answer: str) -> None:
        recorded.settle(board)
        recorded.walk(reads("typed", line), {way: writes("typed", answer)}, lambda: live.type(line))

    types(first, "Nc6", MOVE, "added by hand: Nc6")
    types(first, "back", BACK, "back to 2. Nf3")
    types(first, "name White=Anna", NAME, "White is now Anna")
    rest(2)
    board.pull()
    until_line(live, words.UNPLUGGED)
    board.play("f3h3")
    board.plug()
    until_line(live, "LOOK at 2. Nh3")
    types(first, "ok", LOOKED, "acknowledged: LOOK")
    rest(1)
    stop(live)
    again = Recorded(tree, folder, "dgt_live-2")

    def starts() -> None:
        nonlocal live
        live = Live(board.device, name, program=again.program, start=again.start, terminal=True)

    again.walk(lambda event: event.what == "call", {RESTART: writes("typed", words.AGREES)}, starts, turn)
    types(again, "1-0", RESULT, "added by hand: the result 1-0")
    rest(1)
    stop(live)
    return {**first.ways, **again.ways}


def a_round(tree: pathlib.Path, folder: pathlib.Path) -> Dict[str, Way]:
    """A round of one board, in whose table a name is changed."""
    hall, recorded = Hall(folder, 1), Recorded(tree, folder, "dgt_round")
    live = hall.record(program=recorded.program, start=recorded.start, terminal=True)
    until_line(live, words.AGREES)
    hall.boards[0].play("e2e4")
    until_game(hall.name(1), "1. e4 *")
    hall.file.write_text(hall.file.read_text().replace("White 1", "Anna"))
    recorded.settle(hall.boards[0])
    recorded.walk(reads("typed", "r"), {TABLE: writes("typed", "White is now Anna")}, lambda: live.type("r"))
    rest(1)
    stop(live)
    return recorded.ways


def walked(tree: pathlib.Path) -> Dict[str, Way]:
    """All ways, once."""
    ways: Dict[str, Way] = {}
    for plays in (one_board, a_round):
        with tempfile.TemporaryDirectory() as place:
            Live.scratch_folder = pathlib.Path(place) / "scratch"
            Live.scratch_folder.mkdir()
            try:
                ways.update(plays(tree, pathlib.Path(place)))
            finally:
                for live in Live.all:
                    live.end()
                for board in Stage.boards:
                    board.end()
                Stage.boards.clear()
                Live.all.clear()
    return ways


def main() -> None:
    parser = argparse.ArgumentParser(description=(__doc__ or "").partition("\n")[0])
    parser.add_argument("--files", action="store_true", help="the files of each way, with their functions")
    parser.add_argument("--runs", type=int, default=5, help="how often each way is walked")
    parser.add_argument("tree", nargs="?", type=pathlib.Path, default=TOP, help="a tree of the repository")
    given = parser.parse_args()
    runs = [walked(given.tree.resolve()) for _ in range(given.runs)]
    print("| From the bytes that are read | functions | calls | files | changes | back | alike |\n|---|---|---|---|---|---|---|")
    middle: Dict[str, Way] = {}
    for way in WAYS:
        found = sorted((run[way] for run in runs), key=lambda one: one.figures)
        middle[way] = found[len(found) // 2]
        of = middle[way].figures
        alike = sum(one.figures == of for one in found)
        print(f"| {way} | {of.functions} | {of.calls} | {of.files} | {of.changes} | {of.back} | {alike} of {len(found)} |")
    for way in WAYS if given.files else ():
        print("", way, *middle[way].told(), sep="\n")


if __name__ == "__main__":
    main()
