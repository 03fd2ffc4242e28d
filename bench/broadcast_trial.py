#!/usr/bin/env python3
"""Plays a tournament that goes out fifteen minutes late, as a club would hold it: from the archive alone, unpacked elsewhere.

Three rounds of eight boards, each from another table of a pairing program, with ratings and titles. All settings are typed once,
in tournament.txt; then `dgt_round cup 1`, `cup 2`, `cup 3`; each result is typed once. The command copies into a folder that
`python3 -m http.server` shows, and fails for two minutes of each round, as where the network is away. The clock of dgt_round is
the trial's: it jumps by twenty seconds once all boards have made a ply, so fifteen minutes take no time; nothing else of the
archive is changed.

All that while a spectator reads the served copy, the spectators' page, and the two published files. No ply and no result may be
there before it is fifteen minutes old, and each must be there soon after. At the end pgn-extract reads all.pgn: all games, with
their tags, moves and results. Prints what it saw; the status is 1 where something is missing.  broadcast_trial.py [--plies N]
"""

from __future__ import annotations

import argparse
import csv
import http.client
import json
import os
import pathlib
import re
import shutil
import subprocess
import sys
import tarfile
import tempfile
import threading
import time
import urllib.request
from typing import Dict, Iterator, List, Optional, Tuple

sys.dont_write_bytecode = True
TOP = pathlib.Path(__file__).resolve().parents[1]
sys.path.insert(0, str(TOP / "tests"))
import outside  # noqa: E402
from broadcast_tables import BOARDS, pairs, table  # noqa: E402
from emulated.table import Game, games  # noqa: E402
from live_boards import free_port  # noqa: E402
from play_board import EMPTY, INITIAL  # noqa: E402
from played.boards import Board, Cables  # noqa: E402
from played.hidden import NOTES, QUEUED, hidden_shots  # noqa: E402
from played.recorder import Live  # noqa: E402
from played.stage import Stage, bytes_of, ended, until, until_line  # noqa: E402
from rounds.hall import games_of, plain  # noqa: E402

ROUNDS = (1, 2, 3)
DELAY = 900.0  # seconds
STEP = 20.0  # seconds of the recorder's clock between two plies of a board
AWAY = 120.0  # seconds without a network
AGAIN = 65.0  # seconds until a command that has failed has surely been tried again
LIMIT = 1800.0  # seconds that one round may take here
RESULTS = ("1-0", "0-1", "1/2-1/2")
# Starts the archive's command with clocks that are ahead of the computer's by as many seconds as a file says.
AHEAD = f"""
import pathlib, runpy, sys
sys.dont_write_bytecode = True
ahead, sys.argv = pathlib.Path(sys.argv[1]), sys.argv[2:]
sys.path.insert(0, str(pathlib.Path(sys.argv[0]).parent))
{NOTES}
runpy.run_path(sys.argv[0], run_name="__main__")
"""
# As the script of BROADCAST for a web server on this computer.
COPY = """\
#!/bin/sh
cp "$1" {into}/new.pgn && mv {into}/new.pgn {into}/round.pgn
"""


class Clock:
    """The recorder's, which is ahead of this computer's."""

    def __init__(self, folder: pathlib.Path) -> None:
        self._file, self._ahead = folder / "ahead", 0.0
        (folder / QUEUED).mkdir()
        script = folder / "ahead.py"
        script.write_text(AHEAD)
        self.start: List[object] = [sys.executable, script, self._file]
        self.go_on(0.0)

    def go_on(self, seconds: float) -> None:
        """It is so much later, for the recorder not before it is for the trial."""
        self._ahead += seconds
        new = self._file.with_suffix(".new")
        new.write_text(str(self._ahead))
        new.replace(self._file)

    def now(self) -> float:
        return time.monotonic() + self._ahead


class Played:
    """A game as its board had it: when each ply was made, and when its result was typed."""

    def __init__(self, game: Game, plies: int) -> None:
        self.sans = list(game.sans[:plies])
        self.pictures = game.pictures
        self.made: List[float] = []
        self.result = "*"
        self.result_at: Optional[float] = None

    @property
    def is_over(self) -> bool:
        return len(self.made) == len(self.sans)

    def due(self, at: float) -> Tuple[int, str]:
        """How many plies spectators are to have at this time, and which result."""
        count = sum(made <= at - DELAY for made in self.made)
        return count, self.result if self.result_at is not None and self.result_at <= at - DELAY else "*"


Shown = Dict[Tuple[int, int], Tuple[List[str], str]]  # by round and board: the moves and the result


def shown_in(text: bytes) -> Shown:
    """What a text has; a copy that is under way may end anywhere."""
    found: Shown = {}
    for game in games_of(text):
        head, _, moves = game.decode("utf-8", "replace").partition("\n\n")
        number = re.search(r'^\[Round "(\d+)\.(\d+)"\]$', head, re.MULTILINE)
        if number:
            words = [word for word in plain(" ".join(moves.split())).split() if not word[0].isdigit() or "-" in word]
            result = words.pop() if words and words[-1] in (*RESULTS, "*") else "*"
            found[int(number.group(1)), int(number.group(2))] = words, result
    return found


def shown_on_page(round_number: int, state: bytes) -> Shown:
    """What the page's state has."""
    boards = json.loads(state)["boards"]
    return {(round_number, board["number"]): ([ply["san"] for ply in board["moves"]], board["result"]) for board in boards}


class Spectator:
    """Reads all that goes out, again and again, and looks whether something came too soon."""

    def __init__(self, trial: "Trial") -> None:
        self._trial = trial
        self.reads: Dict[str, int] = {}
        self.youngest = float("inf")  # seconds: the age of the youngest ply or result that was shown
        self.faults: List[str] = []
        self._ends = False
        self._thread = threading.Thread(target=self._read, daemon=True)
        self._thread.start()

    def _read(self) -> None:
        while not self._ends:
            number = self._trial.round
            for name, path in self._trial.files(number):
                self._look(name, bytes_of(path))
            for name, address in self._trial.addresses():
                content = self._fetched(name, address)
                if content is not None:
                    self._look(name, content, number if address.endswith(".json") else 0)
            time.sleep(0.01)

    def _fetched(self, name: str, address: str) -> Optional[bytes]:
        """What is there; nothing where it isn't served, or only a part of it."""
        try:
            with urllib.request.urlopen(address, timeout=10) as answer:
                content = bytes(answer.read())
        except http.client.IncompleteRead as read:
            content = read.partial + b"CUT"
        except (OSError, http.client.HTTPException):
            return None
        if content.rstrip(b"\n").endswith((b"*", b"-0", b"-1", b"/2", b"}")):
            return content
        if content or name == "the served copy":  # the page has no text before it has a board
            self._fault(f"{name} was cut: it ended {content[-30:]!r}")
        return None

    def _look(self, name: str, content: bytes, of_page: int = 0) -> None:
        now = self._trial.clock.now()
        self.reads[name] = self.reads.get(name, 0) + bool(content)
        shown = shown_on_page(of_page, content) if of_page else shown_in(content)
        for key, (sans, result) in shown.items():
            game = self._trial.played.get(key)
            if game is None:
                self._fault(f"{name} has board {key[0]}.{key[1]}, which isn't there")
                continue
            if sans != game.sans[: len(sans)] or len(sans) > len(game.made):
                self._fault(f"{name} has {' '.join(sans)} on board {key[0]}.{key[1]}, and never so many were made")
                continue
            times = [*game.made[: len(sans)], *([game.result_at] if result != "*" and game.result_at is not None else [])]
            if times:
                self.youngest = min(self.youngest, now - max(times))
                if now - max(times) < DELAY:
                    self._fault(f"{name} has {len(sans)} plies and {result} on board {key[0]}.{key[1]} after {now - max(times):.1f} s")

    def _fault(self, text: str) -> None:
        if len(self.faults) < 20:
            self.faults.append(text)

    def end(self) -> None:
        """Reads no more."""
        if self._thread.is_alive():
            self._ends = True
            self._thread.join()
        elif not self._ends:
            self._fault("the spectator has read no more")


class Trial:
    """The hall, the folder into which the archive was unpacked, and what was played."""

    def __init__(self, folder: pathlib.Path, plies: int) -> None:
        self.folder, self.plies = folder, plies
        self.clock = Clock(folder)
        self.home = unpacked(folder)
        self.www, self.into = folder / "www", folder / "srv"
        self.copies = folder / "copy.sh"
        self.copies.write_text(COPY.format(into=self.into))
        self.copies.chmod(0o755)
        self.www.mkdir()
        self.into.symlink_to("www")
        self.web, self.page = free_port(), free_port()
        server = [sys.executable, "-m", "http.server", "--bind", "127.0.0.1", "--directory", str(self.www), str(self.web)]
        self.server = subprocess.Popen(server, stdout=subprocess.DEVNULL, stderr=subprocess.DEVNULL)
        self.cables = Cables(folder)
        self.boards: List[Board] = []
        for number in range(1, BOARDS + 1):
            board = self.cables.board(f"DGT_{number}", number)
            board.serial_number = b"%05d" % (36000 + number)
            self.boards.append(board)
        Stage.boards += self.boards
        self.round = 0
        self.played: Dict[Tuple[int, int], Played] = {}
        self.caught_up_at = 0.0  # by when all that is due must be out, after the network was away
        self.longest = 0.0  # seconds between a jump by which something is due and a copy that has it
        self.spectator = Spectator(self)

    # What spectators can read.

    def files(self, number: int) -> Iterator[Tuple[str, pathlib.Path]]:
        yield "all.pgn", self.cup / "all.pgn"
        if number:
            yield "broadcast.pgn", self.cup / f"round{number}" / "broadcast.pgn"

    def addresses(self) -> Iterator[Tuple[str, str]]:
        yield "the served copy", f"http://127.0.0.1:{self.web}/round.pgn"
        if self.round:
            yield "the page's games", f"http://127.0.0.1:{self.page}/round.pgn"
            yield "the page", f"http://127.0.0.1:{self.page}/state.json"

    @property
    def cup(self) -> pathlib.Path:
        return self.home / "cup"

    # What an arbiter does.

    def settle(self) -> None:
        """He makes the tournament's folder, and fills in its settings. Boards that are plugged in are in boards.csv already."""
        new = Live("", "", "--new", "cup", program=self.home / "dgt_round", cwd=self.home, environment=self.cables.environment())
        assert ended(new) == 0, new.complaint()
        lines = (self.cup / "boards.csv").read_text().splitlines()
        assert len(lines) == 1 + BOARDS, f"boards.csv has {lines}"
        told: Dict[str, str] = {
            "event =": "Club cup, Zürich", "place =": "Zürich", "date 1 =": "24.11.2026", "date 2 =": "25.11.2026",
            "date 3 =": "26.11.2026", "time control =": "90+30", "page =": str(self.page), "delay =": "15",
            "publish =": str(self.copies),
        }  # fmt: skip
        settings = (self.cup / "tournament.txt").read_text()
        for name, value in told.items():
            assert settings.count(f"\n{name}\n") == 1, f"tournament.txt has no line {name}"
            settings = settings.replace(f"\n{name}\n", f"\n{name} {value}\n")
        (self.cup / "tournament.txt").write_text(settings)

    def play(self, number: int) -> str:
        """A round: he saves its table, and types `dgt_round cup NUMBER`, each result, and q. What was seen, in words."""
        Stage.ends = time.monotonic() + LIMIT
        (self.cup / f"round{number}.csv").write_bytes(table(number))
        for seat in self.boards:
            seat.codes = list(INITIAL)
        chosen = [games()[(BOARDS * (number - 1) + board) % len(games())] for board in range(BOARDS)]
        for board, game in enumerate(chosen, 1):
            self.played[number, board] = Played(game, self.plies + board)
        program, environment = self.home / "dgt_round", self.cables.environment()
        live = Live("cup", str(number), program=program, start=self.clock.start, cwd=self.home, environment=environment, typed=True)
        until_line(live, "spectators see the round 15 minutes late")
        for board in range(1, BOARDS + 1):
            until_line(live, f"{board:>3}  agrees")
        self.round = number
        begins = self.clock.now()
        away_at = begins + DELAY + 100.0
        was_away = False
        while not all(self.played[number, board].result_at for board in range(1, BOARDS + 1)):
            self._plies(live, number)
            was_away = self._network(live, away_at) or was_away
            self._step()
        live.type("q")
        until_line(live, "spectators see the last moves at ")
        last = max(at for at in (self.played[number, board].result_at for board in range(1, BOARDS + 1)) if at is not None)
        while self.clock.now() < max(last + DELAY, self.caught_up_at) + STEP or not was_away:
            was_away = self._network(live, away_at) or was_away
            self._step()
        live.type("q")
        status = ended(live)
        self.round = 0
        assert status == 0, f"status {status}: {live.complaint()}"
        told = live.lines()
        assert "spectators haven't seen all moves" not in told, told
        failed = re.findall("NOT PUBLISHED: [^;]*", told)
        assert failed and "broadcast.pgn is published again" in told, f"nothing is said of the network: {told}"
        plies = sum(len(self.played[number, board].made) for board in range(1, BOARDS + 1))
        return f"{plies} plies; without a network the screen said '{failed[0]}'"

    def _plies(self, live: Live, number: int) -> None:
        """A ply on each board, or the result of a game that has none left."""
        moved: List[int] = []
        for board in range(1, BOARDS + 1):
            game = self.played[number, board]
            if not game.is_over:
                at = self.clock.now()
                game.made.append(at)
                show(self.boards[board - 1], game.pictures[len(game.made)])
                moved.append(board)
            elif game.result_at is None:
                game.result = mate_of(game) or RESULTS[(number + board) % 3]
                game.result_at = self.clock.now()
                if not mate_of(game):
                    live.type(f"{board} {game.result}")
                moved.append(board)
        for board in moved:
            self._until_kept(number, board)

    def _until_kept(self, number: int, board: int) -> None:
        """The board's plies wait for their time: the clock may go on."""
        game = self.played[number, board]
        name = self.cup / f"round{number}" / f"{board:02}"

        def kept() -> bool:
            shots = hidden_shots(name)
            return bool(shots) and (len(shots[-1].moves), shots[-1].result) == (len(game.made), game.result)

        until(kept, f"{len(game.made)} plies and {game.result} of board {number}.{board} in {name}", 0.01)

    def _step(self) -> None:
        """Later: all that is due is out, where there is a network."""
        self.clock.go_on(STEP)
        jumped = self.clock.now()
        if not self.into.exists() or self.clock.now() < self.caught_up_at:
            until_soon()
            return
        at = self.clock.now() - STEP / 2  # what is due since then may be on its way
        wanted = {key: game.due(at) for key, game in self.played.items() if key[0] == self.round}
        copy = self.www / "round.pgn"

        def out() -> bool:
            shown = shown_in(bytes_of(copy))
            return all(key in shown and len(shown[key][0]) >= plies and shown[key][1] in (result, self.played[key].result)
                       for key, (plies, result) in wanted.items())  # fmt: skip

        until(out, f"{wanted} in the copy, which has {shown_in(bytes_of(copy))}", 0.01)
        self.longest = max(self.longest, self.clock.now() - jumped)

    def _network(self, live: Live, away_at: float) -> bool:
        """Takes the network away, and brings it back. Whether it was away and is back."""
        now = self.clock.now()
        if self.into.exists() and away_at <= now < away_at + AWAY:
            self.into.unlink()
        elif not self.into.exists() and now >= away_at + AWAY:
            until_line(live, "NOT PUBLISHED: cp: ")
            self.into.symlink_to("www")
            self.caught_up_at = now + AGAIN
            return True
        return False

    def end(self) -> None:
        self.spectator.end()
        self.server.terminate()
        self.server.wait()
        for live in Live.all:
            live.end()
        for board in self.boards:
            board.end()


def until_soon() -> None:
    """The boards answer for a moment."""
    over = time.monotonic() + 0.2
    until(lambda: time.monotonic() > over, "the end of a moment")


def show(board: Board, picture: Tuple[int, ...]) -> None:
    """A hand makes the move that leads there: first what is lifted, then what is put."""
    changed = [number for number in range(64) if board.codes[number] != picture[number]]
    for number in sorted(changed, key=lambda number: picture[number] != EMPTY):
        if picture[number] != EMPTY and board.codes[number] != EMPTY:
            board.show(number, EMPTY)
        board.show(number, picture[number])


def mate_of(game: Played) -> str:
    """The result, where the last move gives mate: that one is never typed."""
    return ("0-1", "1-0")[len(game.sans) % 2] if game.sans[-1].endswith("#") else ""


def unpacked(folder: pathlib.Path) -> pathlib.Path:
    """The archive of bin/package for this machine, unpacked there."""
    names = subprocess.run([TOP / "bin" / "package"], stdout=subprocess.PIPE, check=True).stdout.decode().splitlines()
    machine = f"-{os.uname().machine}-linux.tar.gz"
    (packed,) = [TOP / name for name in names if name.endswith(machine)]
    with tarfile.open(packed) as archive:
        archive.extractall(folder)
    return folder / packed.name[: -len(".tar.gz")]


# What is left at the end.


def expected(number: int, board: int, game: Played) -> Dict[str, str]:
    """The tags of a game."""
    white, black = pairs(number)[board - 1]
    tags = {
        "Event": "Club cup, Zürich", "Site": "Zürich", "Date": f"2026.11.{23 + number}", "Round": f"{number}.{board}",
        "White": white[0], "Black": black[0], "Result": game.result, "Board": str(board), "TimeControl": "5400+30",
        "WhiteElo": white[1], "BlackElo": black[1], "WhiteTitle": white[2], "BlackTitle": black[2],
    }  # fmt: skip
    return {name: value for name, value in tags.items() if value}


def faults_of(trial: Trial) -> List[str]:
    """What is wrong with all.pgn, as pgn-extract writes it again."""
    extract = outside.path_of("pgn-extract")
    path = trial.cup / "all.pgn"
    if not extract:
        return ["pgn-extract isn't there: tests/outside.py install pgn-extract"]
    words = [extract, "-s", "-C", "-w100000", str(path)]
    read = subprocess.run(words, stdin=subprocess.DEVNULL, stdout=subprocess.PIPE, stderr=subprocess.PIPE)
    faults = [f"pgn-extract: {line}" for line in read.stderr.decode(errors="replace").splitlines()]
    found = games_of(read.stdout)
    if len(found) != len(trial.played):
        faults.append(f"all.pgn has {len(found)} games, and {len(trial.played)} were played")
    for ((number, board), game), text in zip(sorted(trial.played.items()), found):
        head, _, moves = text.decode("utf-8").partition("\n\n")
        tags = dict(re.findall(r'^\[(\w+) "(.*)"\]$', head, re.MULTILINE))
        sans = [word for word in moves.split() if not word[0].isdigit() or "-" in word]
        if tags != expected(number, board, game):
            faults.append(f"board {number}.{board} has the tags {tags}")
        if [san.rstrip("+#") for san in sans] != [*(san.rstrip("+#") for san in game.sans), game.result]:
            faults.append(f"board {number}.{board} has the moves {' '.join(sans)}, and played were {' '.join(game.sans)} {game.result}")
    for number in ROUNDS:
        lines = bytes_of(trial.cup / f"round{number}" / "results.csv").decode("utf-8-sig").splitlines()
        results = [row["Result"] for row in csv.DictReader(lines, delimiter=";")]
        if results != [trial.played[number, board].result for board in range(1, BOARDS + 1)]:
            faults.append(f"round {number}: results.csv has {results}")
    return faults


def main() -> int:
    parser = argparse.ArgumentParser(description=__doc__, formatter_class=argparse.RawDescriptionHelpFormatter)
    parser.add_argument("--plies", type=int, default=30, help="of the shortest game; the others have up to eight more")
    parser.add_argument("--keep", action="store_true", help="leaves the folder there")
    words = parser.parse_args()
    folder = pathlib.Path(tempfile.mkdtemp(prefix="broadcast"))
    trial = Trial(folder, words.plies)
    try:
        print(f"unpacked in {trial.home}; the clock of dgt_round jumps by {STEP:.0f} s a ply", flush=True)
        trial.settle()
        for number in ROUNDS:
            begun = time.monotonic()
            seen = trial.play(number)
            print(f"round {number}: {seen}; {time.monotonic() - begun:.0f} s", flush=True)
        trial.spectator.end()
        faults = [*trial.spectator.faults, *faults_of(trial)]
    finally:
        trial.end()
        if not words.keep:
            shutil.rmtree(folder)
    spectator = trial.spectator
    print("read: " + ", ".join(f"{name} {count} times" for name, count in spectator.reads.items()))
    print(f"the youngest ply or result that a spectator saw was {spectator.youngest:.1f} s old, wanted at least {DELAY:.0f}")
    print(f"with a network, all that was due was in the copy {trial.longest:.1f} s after the clock had jumped, at most")
    for fault in faults:
        print(f"FAULT: {fault}")
    print(f"{len(trial.played)} games, {len(faults)} faults")
    return 1 if faults else 0


if __name__ == "__main__":
    sys.exit(main())
