#!/usr/bin/env python3
"""Plays so many simulated boards at once, and measures what bench/live.sh tells.

`live_boards.py BOARDS MOVES PAUSE` plays MOVES moves in all, a board one each PAUSE seconds on average, at random moments, with a
clock. As a hand does, it lifts a piece, and puts it down STEP seconds later. Each board has a dgt_live of its own; with `round` behind these words one dgt_round has all, with `round READERS` so many
spectators read its page meanwhile, from another process, and with `round READERS DELAY` they see it so many minutes late. For each
move it takes the time from its last byte to its line, and to a NAME.pgn that has it. One line comes out: boards, moves, the median
and the 99th of 100 of both in ms, processes, memory (PSS, MiB) and processor time (ms a second, and ms a move) of a board.
"""

import contextlib
import ctypes
import dataclasses
import multiprocessing
import os
import pathlib
import random
import selectors
import signal
import socket
import sys
import tempfile
import time
from typing import Callable, Dict, List, Optional, Sequence, Tuple

sys.dont_write_bytecode = True
TOP = pathlib.Path(__file__).resolve().parents[1]
sys.path.insert(0, str(TOP / "tests"))
from played.boards import Board  # noqa: E402
from played.games import PARIS, PARIS_TEXT  # noqa: E402
from played.recorder import Live, processes  # noqa: E402

# The game of the tests without its last move, and then king and queen there and back again.
MOVES = PARIS[:-1]
SANS = [word for word in PARIS_TEXT.split() if not word[0].isdigit()][:-1]
BACK_AND_FORTH = [("c1b1", "Kb1"), ("e6b6", "Qb6"), ("b1c1", "Kc1"), ("b6e6", "Qe6")]
LATE = 30.0  # seconds after which a move counts as lost
STEP = 0.1  # seconds between two squares that change


def ply(number: int) -> Tuple[str, str]:
    """The move of a ply, and how the line begins that tells it."""
    if number < len(MOVES):
        move, san = MOVES[number], SANS[number]
    else:
        move, san = BACK_AND_FORTH[(number - len(MOVES)) % 4]
    return move, f"{number // 2 + 1}{'.' if number % 2 == 0 else '...'} {san}"


class Said:
    """What a recorder says, line by line as it comes."""

    def __init__(self, live: Live) -> None:
        self.live = live
        self._text = b""

    def lines(self) -> List[str]:
        """Those that have come since the last time."""
        self.live.told.came = b""
        self.live.told.read()
        *lines, self._text = (self._text + self.live.told.came).split(b"\n")
        return [line.decode() for line in lines]


class Hand(Board):
    """A board on which a move takes time: the squares that still have to change wait."""

    def __init__(self, folder: pathlib.Path) -> None:
        super().__init__(folder)
        self.waiting: List[Tuple[int, int]] = []

    def show(self, number: int, code: int) -> None:
        self.waiting.append((number, code))

    def step(self) -> None:
        """The next square changes."""
        super().show(*self.waiting.pop(0))


@dataclasses.dataclass
class Table:
    """A board, where its game is kept, and the ply that is under way."""

    board: Hand
    name: pathlib.Path
    random: random.Random
    plies: int = 0
    next_at: float = 0.0
    step_at: float = 0.0
    sent: float = 0.0  # its last byte
    told: bool = True
    kept: bool = True
    begun: bool = False
    file: int = 0  # the number of the NAME.pgn that was last looked at

    @property
    def waits(self) -> bool:
        """Whether a ply was sent whole, and its line or its game is still to come."""
        return not (self.told and self.kept)

    @property
    def is_free(self) -> bool:
        return not (self.waits or self.board.waiting)

    def play(self, now: float, pause: float) -> None:
        """A hand begins a ply."""
        move, _ = ply(self.plies)
        self.board.clock(5400 - self.plies // 2 % 3600, 5400)
        self.board.play(move)
        self.plies += 1
        self.next_at, self.step_at = now + pause * (0.5 + self.random.random()), now + STEP

    def go_on(self, now: float) -> None:
        """The hand goes on with it, if it is time."""
        if self.board.waiting and now >= self.step_at:
            self.board.step()
            self.step_at = now + STEP
            if not self.board.waiting:
                self.sent = time.monotonic()
                self.told = self.kept = False

    def hear(self, words: str) -> bool:
        """A line without its time. Whether it tells the ply that is under way."""
        self.begun = self.begun or words.startswith("agrees")
        if self.told or not words.startswith(ply(self.plies - 1)[1]):
            return False
        self.told = True
        return True

    def look_at_game(self) -> bool:
        """Whether the game has the ply just now."""
        if self.kept:
            return False
        with contextlib.suppress(FileNotFoundError):
            number = os.stat(self.name).st_ino
            if number != self.file:
                self.file = number
                self.kept = self.name.read_text().count("[%clk") >= self.plies
        return self.kept


def processor_time(process: int) -> float:
    """Seconds of a process and of its children that have ended."""
    try:
        fields = pathlib.Path(f"/proc/{process}/stat").read_text().rpartition(")")[2].split()
    except OSError:
        return 0.0
    return sum(map(int, fields[11:15])) / os.sysconf("SC_CLK_TCK")


def memory(process: int) -> int:
    """What a process takes of the memory, KiB, with its share of what it shares."""
    with contextlib.suppress(OSError):
        for line in pathlib.Path(f"/proc/{process}/smaps_rollup").read_text().splitlines():
            if line.startswith("Pss:"):
                return int(line.split()[1])
    return 0


def all_processes() -> List[int]:
    return [process for live in Live.all for process in processes(live.process.pid)]


def read_page(port: int, count: int, told: ctypes.c_int) -> None:
    """So many read the events of a page, all that comes, and one more fetches the games each two seconds. `told` is how many
    have had something."""
    selector = selectors.DefaultSelector()
    for _ in range(count):
        line = socket.create_connection(("127.0.0.1", port))
        line.sendall(b"GET /events HTTP/1.1\r\nHost: localhost\r\n\r\n")
        line.setblocking(False)
        selector.register(line, selectors.EVENT_READ, [])
    poller = socket.create_connection(("127.0.0.1", port))
    poller.setblocking(False)
    selector.register(poller, selectors.EVENT_READ, [True])
    asks_at = 0.0
    while True:
        for key, _ in selector.select(0.5):
            assert isinstance(key.fileobj, socket.socket)
            if not key.fileobj.recv(1 << 20):
                raise SystemExit("the page has hung up on a reader")
            if not key.data:
                key.data.append(True)
                told.value += 1
        if time.monotonic() >= asks_at:
            asks_at = time.monotonic() + 2
            poller.sendall(b"GET /round.pgn HTTP/1.1\r\nHost: localhost\r\n\r\n")


class Hall:
    """All tables, and what waits for something from them."""

    def __init__(
        self, folder: pathlib.Path, boards: int, in_a_round: bool, readers: int, delay: str = "0", *, typed: bool = False
    ) -> None:
        self.tables: List[Table] = []
        self.selector = selectors.DefaultSelector()
        self.said: Dict[int, Tuple[Said, Optional[Table]]] = {}
        self.page: Optional[Tuple[int, int]] = None  # its port, and how many read it
        for number in range(1, boards + 1):
            place = folder / f"{number:02}"
            place.mkdir()
            board = Hand(place)
            name = folder / "round" / f"{number:02}.pgn" if in_a_round else place / "game.pgn"
            table = Table(board, name, random.Random(number))
            self.tables.append(table)
            self.selector.register(board.line, selectors.EVENT_READ, table)
            if not in_a_round:
                self.hear(Said(Live(board.device, place / "game")), table)
        if in_a_round:
            lines = [f"{number},{table.board.device}" for number, table in enumerate(self.tables, 1)]
            (folder / "round.csv").write_text("\n".join(["board,device", *lines, ""]))
            port = free_port()
            page = ["--page", str(port), "--delay", delay] if readers else []
            self.round = Live(folder / "round.csv", folder / "round", *page, program=TOP / "bin" / "dgt_round", typed=typed)
            self.hear(Said(self.round), None)
            if readers:
                self.page = (port, readers)

    def hear(self, said: Said, table: Optional[Table]) -> None:
        self.said[said.live.told.end] = (said, table)
        self.selector.register(said.live.told.end, selectors.EVENT_READ, None)

    def turn(self, seconds: float) -> List[Table]:
        """Boards answer, and lines are read. Those whose ply is told just now."""
        told = []
        for key, _ in self.selector.select(seconds):
            if key.data:
                key.data.board.turn()
                continue
            said, of_one = self.said[key.fd]
            if not said.live.runs:
                raise SystemExit(f"a recorder has ended: {said.live.complaint()}")
            for line in said.lines():
                table, words = of_one, line[10:]
                if table is None and line[10:13].strip().isdigit():
                    table, words = self.tables[int(line[10:13]) - 1], line[15:]
                if table and table.hear(words):
                    told.append(table)
        return told

    def begin(self) -> None:
        over = time.monotonic() + 120
        while not all(table.begun for table in self.tables):
            if time.monotonic() > over:
                raise SystemExit("not all boards are recorded")
            self.turn(0.01)
        if self.page:
            port, count = self.page
            served = multiprocessing.RawValue(ctypes.c_int, 0)  # which the reader alone writes
            multiprocessing.Process(target=read_page, args=(port, count, served), daemon=True).start()
            while served.value < count:
                self.turn(0.01)

    def play(
        self, moves: int, pause: float, rests: int = 0, meanwhile: Callable[[float], None] = lambda now: None
    ) -> Tuple[List[float], List[float]]:
        """Seconds from a move's last byte to its line, and to its game. The first boards rest, and `meanwhile` is called each turn."""
        lines: List[float] = []
        games: List[float] = []
        now = time.monotonic()
        for table in self.tables:
            table.next_at = now + pause * table.random.random()
        played = 0
        while played < moves or not all(table.is_free for table in self.tables):
            told = self.turn(0.001 if any(table.waits for table in self.tables) else 0.005)
            now = time.monotonic()
            meanwhile(now)
            lines.extend(now - table.sent for table in told)
            for table in self.tables[rests:]:
                if table.look_at_game():
                    games.append(time.monotonic() - table.sent)
                if table.waits and now - table.sent > LATE:
                    raise SystemExit(f"ply {table.plies} of {table.name} is lost")
                table.go_on(now)
                if table.is_free and now >= table.next_at and played < moves:
                    table.play(now, pause)
                    played += 1
        return lines, games


def free_port() -> int:
    with socket.socket() as found:
        found.bind(("127.0.0.1", 0))
        return int(found.getsockname()[1])


def of_100(seconds: Sequence[float], share: float) -> float:
    return 1000 * sorted(seconds)[min(len(seconds) - 1, int(share * len(seconds)))]


def main() -> None:
    signal.signal(signal.SIGTERM, lambda *_: sys.exit(143))
    boards, moves, pause = int(sys.argv[1]), int(sys.argv[2]), float(sys.argv[3])
    in_a_round, readers = sys.argv[4:5] == ["round"], int(sys.argv[5]) if sys.argv[5:] else 0
    with tempfile.TemporaryDirectory(prefix="dgt_live.") as folder:
        (pathlib.Path(folder) / "room").mkdir()
        Live.scratch_folder = pathlib.Path(folder) / "room"
        try:
            hall = Hall(pathlib.Path(folder), boards, in_a_round, readers, *sys.argv[6:7])
            hall.begin()
            before, start = sum(map(processor_time, all_processes())), time.monotonic()
            lines, games = hall.play(moves, pause)
            found = all_processes()
            spent, passed = sum(map(processor_time, found)) - before, time.monotonic() - start
            mib = sum(map(memory, found)) / 1024
            if readers and not multiprocessing.active_children():
                raise SystemExit("the readers of the page have ended")
        finally:
            for reader in multiprocessing.active_children():
                reader.kill()
            for live in Live.all:
                live.end()
    print(
        f"{boards} {moves} {of_100(lines, 0.5):.1f} {of_100(lines, 0.99):.1f} {of_100(games, 0.5):.1f} {of_100(games, 0.99):.1f} "
        f"{len(found) / boards:.1f} {mib / boards:.1f} {1000 * spent / passed / boards:.1f} {1000 * spent / moves:.1f}"
    )


if __name__ == "__main__":
    main()
