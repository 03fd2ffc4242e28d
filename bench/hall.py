#!/usr/bin/env python3
"""Plays a hall of emulated boards against bin/dgt_round while all goes wrong that may, and tells what became of each game.

Boards send at the pace of their lines. Cables are pulled and swapped, boards lose their power, fall idle, answer late or in
bursts, lines lose and spoil bytes, hands hurry; the disk is full, and the recorder is killed and started again. The players go
on whatever happens, and nobody puts a board right.

A game is whole where its file has the moves that were played. It is marked where, after its first wrong ply, its row had an
alarm for five seconds; UNPLUGGED, SILENT and DISK FULL mark it only where they stand to the end. Else it is WRONG AND UNMARKED,
and the status is 1.
"""

from __future__ import annotations

import argparse
import collections
import dataclasses
import pathlib
import random
import signal
import sys
import tempfile
import time
from typing import Counter, Dict, List, Tuple

sys.dont_write_bytecode = True
TOP = pathlib.Path(__file__).resolve().parents[1]
sys.path.insert(0, str(TOP / "tests"))
from emulated.board import Board, Manner  # noqa: E402
from emulated.cable import Cable, swap  # noqa: E402
from emulated.clock import Clock  # noqa: E402
from emulated.hands import PACES, Habits  # noqa: E402
from emulated.line import Noise  # noqa: E402
from emulated.room import Room, stopwatch  # noqa: E402
from emulated.table import Table, games  # noqa: E402
from hall_recorder import Page, Recorder  # noqa: E402
from hall_troubles import Kind, Trouble, drawn, kinds  # noqa: E402
from hall_verdicts import Judged, Seen, Verdict, Watched, judged  # noqa: E402
from live_boards import free_port  # noqa: E402
from played.recorder import Live  # noqa: E402
from rounds.hall import plain  # noqa: E402

BEGIN = 180.0  # seconds in which all boards are to be recorded
REST = 35.0  # seconds after the last move: alarms come late
TOO_LATE = 0.25  # seconds: a scan, and the time of a few frames
FULL = 20  # bytes that a file may have while the disk is full
NOISE = Noise(lost=0.0005, flipped=0.0005)
LATE = (0.3, 1.8)  # seconds
EARLY = 5.0  # moves of 100
CLOCKS = 0.75  # of the boards have one
MIXED = ("classical", "rapid", "blitz")


class Hall:
    """Boards, their tables, the recorder of all, and what its rows said."""

    def __init__(self, folder: pathlib.Path, words: argparse.Namespace) -> None:
        self.folder, self.words = folder, words
        self.chance = random.Random(f"hall {words.seed}")
        self.now = stopwatch()
        self.kinds = kinds(self.chance, words.boards)
        if words.calm:
            self.kinds = dict.fromkeys(self.kinds, Kind.CALM)
        self.habits = {number: self._habits(kind) for number, kind in self.kinds.items()}
        self.games = {number: self.chance.choice(games()) for number in self.kinds}
        self.boards = {number: self._board(number, kind) for number, kind in self.kinds.items()}
        self.cables = {number: Cable(folder / f"board{number}", board, self.now) for number, board in self.boards.items()}
        self.room = Room(list(self.cables.values()), [], self.now)
        self.tables: Dict[int, Table] = {}
        self.watched = {number: Watched() for number in self.kinds}
        self.troubles: List[Trouble] = []
        self.page = Page(words.page or free_port())
        self.page_spent = 0.0  # seconds of the processor, for the page
        self.killed = False  # and not started again
        self.fallen = 0  # how often it ended by itself
        lines = [f"{number},{cable.device},White {number},Black {number}" for number, cable in self.cables.items()]
        (folder / "round.csv").write_text("\n".join(["board,device,white,black", *lines, ""]))
        options = ["--arbiter-page", str(self.page.port), *["--recover"] * words.recover]
        self.recorder = Recorder(folder, options)

    def _habits(self, kind: Kind) -> Habits:
        habits = PACES[self.words.pace or self.chance.choice(MIXED)]
        return dataclasses.replace(habits, early=EARLY) if kind is Kind.HURRY else habits

    def _board(self, number: int, kind: Kind) -> Board:
        manner = Manner(
            late=LATE if kind is Kind.LATE else (0.0, 0.0),
            missed=0.1 if kind is Kind.NOISE else 0.0,
            noise=NOISE if kind is Kind.NOISE else Noise(),
        )
        clock = Clock(5400, increment=30) if self.chance.random() < CLOCKS else None
        second_at = self.chance.random()
        return Board(manner=manner, clock=clock, serial=f"{number:05}", second_at=second_at, seed=(self.words.seed, number))

    # The loop.

    def turn(self) -> None:
        """A few milliseconds: boards answer and send, the recorder is read, and its page."""
        ready = self.room.turn(0.05, [*self.recorder.files, *self.page.files])
        if any(number in ready for number in self.recorder.files):
            self.recorder.drain()
        begun = time.process_time()
        for board in self.page.turn(self.now()):
            if board["number"] in self.watched:
                self.watched[board["number"]].seen.append(Seen(self.now(), board["state"], board["alarm"]))
        self.page_spent += time.process_time() - begun

    def begin(self) -> None:
        """Until each board is recorded."""
        while not all(watched.last(self.now()).startswith("agrees") for watched in self.watched.values()):
            if self.now() > BEGIN or not self.recorder.runs:
                self.recorder.drain()
                late = [number for number, watched in self.watched.items() if not watched.last(self.now()).startswith("agrees")]
                raise SystemExit(f"not recorded after {self.now():.0f} s: boards {late}; see {self.folder}")
            self.turn()

    def play(self, seconds: float) -> float:
        """All games and all troubles. When the first move could be made."""
        begins = self.now() + 1.0
        for number in self.kinds:
            board, seed = self.boards[number], (self.words.seed, number)
            self.tables[number] = Table(board, self.games[number], self.habits[number], seed, begins, begins + seconds)
        self.room.tables = list(self.tables.values())
        self.room.late = 0.0
        self.troubles = [] if self.words.calm else drawn(self.chance, self.kinds, seconds)
        happens = sorted(
            [(begins + trouble.at, 0, trouble) for trouble in self.troubles]
            + [(begins + trouble.ends, 1, trouble) for trouble in self.troubles],
            key=lambda one: one[:2],
        )
        while self.now() < begins + seconds or happens:
            while happens and happens[0][0] <= self.now():
                _, ends, trouble = happens.pop(0)
                (self._ends if ends else self._begins)(trouble)
            self.turn()
            self._look_after_recorder()
        return begins

    def _look_after_recorder(self) -> None:
        """Where it ends though nobody killed it, it is started again at once, and that is counted."""
        if not self.killed and not self.recorder.runs:
            self.fallen += 1
            self.recorder.drain()
            self.recorder.start()

    def _begins(self, trouble: Trouble) -> None:
        now, kind = self.now(), trouble.kind
        cables = [self.cables[number] for number in trouble.boards]
        if kind in (Kind.CUT, Kind.SWAP):
            for cable in cables:
                cable.pull()
        elif kind is Kind.POWER:
            cables[0].board.power(now, False)
        elif kind is Kind.IDLE:
            cables[0].board.fall_idle(now)
        elif kind is Kind.BURST:
            cables[0].board.line.hold(now + trouble.lasts)
        elif kind is Kind.DISK:
            self.recorder.live.fill_disk(FULL)
        elif kind is Kind.KILL:
            self.killed = True
            self.recorder.kill()
        elif kind is Kind.PART:
            self.recorder.kill_part(self.chance)

    def _ends(self, trouble: Trouble) -> None:
        cables = [self.cables[number] for number in trouble.boards]
        if trouble.kind is Kind.SWAP:
            swap(*cables)
        if trouble.kind in (Kind.CUT, Kind.SWAP):
            for cable in cables:
                cable.plug()
        elif trouble.kind is Kind.POWER:
            cables[0].board.power(self.now(), True)
        elif trouble.kind is Kind.DISK:
            self.recorder.live.make_room()
        elif trouble.kind is Kind.KILL:
            self.killed = False
            self.recorder.start()

    def rest(self) -> None:
        """Nobody moves any more."""
        over = self.now() + REST
        while self.now() < over:
            self.turn()

    # What came of it.

    def judged(self, number: int, ended: float) -> Judged:
        table = self.tables[number]
        try:
            text = (self.folder / "games" / f"{number:02}.pgn").read_text()
        except FileNotFoundError:
            text = ""
        movetext = text.split("\n\n")[1] if "\n\n" in text else ""
        moves = [word for word in plain(movetext).split() if word[0].isalpha()]
        return judged(moves, table.sans, table.done, ended, self.watched[number])

    def own_troubles(self, number: int) -> List[Trouble]:
        return [trouble for trouble in self.troubles if number in trouble.boards]


def line_of(hall: Hall, number: int, judgement: Judged, begins: float) -> str:
    """What a game that isn't whole became."""
    table = hall.tables[number]
    wanted = " ".join(table.sans[judgement.kept : judgement.kept + 4]) or "no more"
    got = " ".join(judgement.recorded) or "nothing more"
    at = table.done[min(judgement.kept, len(table.done) - 1)] - begins if table.done else 0.0
    own = "; ".join(trouble.text() for trouble in hall.own_troubles(number)) or hall.kinds[number].value
    clock = "" if hall.boards[number].clock else ", no clock"
    kept = f"{judgement.kept} of {judgement.plies} plies, up to {int(at) // 60}:{int(at) % 60:02}; then {got} for {wanted}"
    pace = f"{hall.habits[number].pace:g} s a ply{clock}"
    return f"{number:>3}  {judgement.verdict.value}: {kept}. Its row: {judgement.alarm}. {own}; {pace}"


def table_of(verdicts: Dict[int, Judged], of_boards: Dict[int, Kind]) -> List[str]:
    """How many of each, by their own troubles."""
    counted: Counter[Tuple[Kind, Verdict]] = collections.Counter()
    counted.update((of_boards[number], one.verdict) for number, one in verdicts.items())
    lines = [f"{'':<24}" + "".join(f"{verdict.value:>22}" for verdict in Verdict)]
    for kind in Kind:
        if any(counted[kind, verdict] for verdict in Verdict):
            lines.append(f"{kind.value:<24}" + "".join(f"{counted[kind, verdict]:>22}" for verdict in Verdict))
    total = collections.Counter(one.verdict for one in verdicts.values())
    return [*lines, f"{'all':<24}" + "".join(f"{total[verdict]:>22}" for verdict in Verdict)]


def run(folder: pathlib.Path, words: argparse.Namespace) -> int:
    folder.mkdir(parents=True, exist_ok=True)
    (folder / "room").mkdir()
    Live.scratch_folder = folder / "room"
    games()  # read before the time runs
    hall = Hall(folder, words)
    try:
        hall.begin()
        before, spent, page, start = time.process_time(), hall.recorder.spent(), hall.page_spent, hall.now()
        begins = hall.play(words.minutes * 60)
        passed = hall.now() - start
        shares = [
            100 * seconds / passed
            for seconds in (
                time.process_time() - before - (hall.page_spent - page),
                hall.page_spent - page,
                hall.recorder.spent() - spent,
            )
        ]
        ended = hall.now()
        hall.rest()
        status = hall.recorder.end()
    finally:
        for live in Live.all:
            live.end()
        hall.room.end()
    verdicts = {number: hall.judged(number, ended) for number in hall.kinds}
    for number, judgement in verdicts.items():
        if judgement.verdict is not Verdict.WHOLE:
            print(line_of(hall, number, judgement, begins))
    print("\n".join(table_of(verdicts, hall.kinds)))
    common = "; ".join(trouble.text() for trouble in hall.troubles if not trouble.boards) or "none"
    plies = sum(len(table.sans) for table in hall.tables.values())
    print(f"seed {words.seed}, {words.boards} boards, {words.minutes:g} minutes, {plies} plies; for all boards: {common}")
    print("processor, of one: the boards {:.0f} %, reading the page {:.0f} %, the recorder {:.0f} %".format(*shares))
    busy = "; the machine was too busy: these figures are no measure" if hall.room.late > TOO_LATE else ""
    print(f"the boards were at most {1000 * hall.room.late:.0f} ms late{busy}")
    fell = f"{hall.fallen} of them after it had ended by itself"
    print(f"the recorder was started {hall.recorder.starts} times, {fell}; its last status was {status}")
    return int(any(one.verdict is Verdict.UNMARKED for one in verdicts.values()))


def main() -> int:
    parser = argparse.ArgumentParser(description=__doc__, formatter_class=argparse.RawDescriptionHelpFormatter)
    parser.add_argument("--boards", type=int, default=48)
    parser.add_argument("--minutes", type=float, default=10.0, help="in which moves are made")
    parser.add_argument("--seed", type=int, default=1)
    parser.add_argument("--calm", action="store_true", help="nothing goes wrong, and all hands are honest")
    parser.add_argument("--pace", choices=list(PACES), help="of all players; else classical, rapid and blitz")
    parser.add_argument("--recover", action="store_true", help="given to the recorder")
    parser.add_argument("--page", type=int, metavar="PORT", help="where a browser can look on; else some free port")
    parser.add_argument("--keep", type=pathlib.Path, metavar="FOLDER", help="a new one, for the games, logs and what was said")
    words = parser.parse_args()
    signal.signal(signal.SIGTERM, lambda *_: sys.exit(143))
    if words.keep:
        return run(words.keep.resolve(), words)
    with tempfile.TemporaryDirectory(prefix="dgt_live.") as folder:
        return run(pathlib.Path(folder), words)


if __name__ == "__main__":
    sys.exit(main())
