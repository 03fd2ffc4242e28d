"""One board plays game after game, is unplugged, gets results and moves by hand, its page is read, and each call that it makes
fails once in each of three ways. Another board plays one long game meanwhile: none of its moves is lost, and the loop that
hears both never waits for anything else."""

import contextlib
import http.client
import itertools
import json
import pathlib
import random
import socket
import subprocess
import sys
import threading
import time
from typing import Any, Callable, Dict, Iterator, List, Optional, Tuple

from play_board import INITIAL, field
from played import TOP
from played.boards import Board
from played.ports import free_port
from played.recorder import LIVE, Live, command, signal_to
from played.stage import bytes_of, ended, movetext, same, turn, until
from rounds.crowds import page_of
from rounds.hall import Hall

RAISING = TOP / "tests" / "guarded" / "raising.py"
SOON = 1.0  # seconds from a hand to its line: what takes longer is printed
PLY = 0.3  # seconds between two plies of the second board
LONGEST = 60.0  # seconds in which errors are raised, and longer until enough were
FEWEST = {"board 1": 60, "page": 1, "typed": 1}  # calls that are tried
TABLE_TRIES = 12  # each error that keeps the table from being read
QUIET = 12.0  # seconds in which no call was new: it has tried them all
# The ranks where each may stand; not where another knight could go, nor where it has no two ways to go on.
KNIGHTS = {"g1": ("345", "a3 c3 a4 b5"), "g8": ("456", "a6 c6 a5 b4")}
Step = Tuple[Callable[[], object], float]  # what is waited for, and the seconds after which it is waited for no longer


def knights(seed: int) -> Iterator[Tuple[str, str]]:
    """An endless game of the kings' knights: each move, and how it is told. No piece is taken and no king attacked, and no other
    knight may go to the same square."""
    hand = random.Random(seed)
    places = ["g1", "g8"]
    for ply in itertools.count():
        side = ply % 2
        ranks, never = KNIGHTS[("g1", "g8")[side]]
        file, rank = places[side][0], places[side][1]
        steps = [(a, b) for a in (-2, -1, 1, 2) for b in (-2, -1, 1, 2) if abs(a) != abs(b)]
        reached = [chr(ord(file) + a) + chr(ord(rank) + b) for a, b in steps]
        free = [s for s in reached if s[0] in "abcdefgh" and s[1] in ranks and s not in never.split() and s not in places]
        target = hand.choice(free)
        yield places[side] + target, f"{ply // 2 + 1}{'.' if side == 0 else '...'} N{target}"
        places[side] = target


class Second:
    """The board that nothing goes wrong with."""

    def __init__(self, board: Board, lines: "Lines", seed: int) -> None:
        self._board, self._lines, self._game = board, lines, knights(seed)
        self.sans: List[str] = []
        self.waits: List[float] = []  # seconds up to each line
        self.slow: List[Tuple[float, float]] = []  # and when it came, of the longest ones
        self._told = ""
        self._due = time.monotonic()

    def turn(self, now: float, plays: bool, stalled: float) -> None:
        """Plays a ply where it is time, and hears when it was told. What this process itself was held up by counts for nothing."""
        if self._told:
            self._due += stalled
            if self._lines.has(self._told):
                self.waits.append(now - self._due)
                if now - self._due > SOON:
                    self.slow.append((now - self._due, now))
                self._told = ""
                self._due = now + PLY
        elif plays and now >= self._due:
            move, told = next(self._game)
            self._board.play(move)
            self.sans.append(told.split(" ")[1])
            self._told, self._due = f"  2  {told}\n", now

    @property
    def rests(self) -> bool:
        return not self._told

    @property
    def text(self) -> str:
        """Its movetext."""
        numbered = [san if ply % 2 else f"{ply // 2 + 1}. {san}" for ply, san in enumerate(self.sans)]
        return " ".join([*numbered, "*"])


class Lines:
    """What a recorder says, of which only what is new is looked at."""

    def __init__(self, live: Live) -> None:
        self._live, self._seen = live, 0
        self.text = ""

    def read(self) -> None:
        self.text = self._live.lines()

    def has(self, part: str) -> bool:
        """Whether it has come since the last one that was found."""
        at = self.text.find(part, self._seen)
        if at >= 0:
            self._seen = at + len(part)
        return at >= 0


class Readers:
    """Readers of the page, beside all else: what becomes of them counts for nothing, but that the page answers again."""

    PATHS = ("/", "/state.json", "/round.pgn", "/01.pgn", "/nothing", "/page.js")

    def __init__(self, address: Tuple[str, int]) -> None:
        self._address, self._ends = address, False
        self._thread = threading.Thread(target=self._read, daemon=True)
        self._thread.start()

    def status(self, path: str) -> int:
        """That of an answer, or none."""
        with contextlib.suppress(OSError, http.client.HTTPException):
            call = http.client.HTTPConnection(*self._address, timeout=5)
            call.request("GET", path)
            answer = call.getresponse()
            answer.read(200)
            call.close()
            return answer.status
        return 0

    def _read(self) -> None:
        while not self._ends:
            for path in self.PATHS:
                self.status(path)
            for sent in (b"POST / HTTP/1.1\r\nHost: localhost\r\n\r\n", b"GET /01.pgn HTTP/1.1\r\nHost: localhost\r\n\r\n" * 3, b"x"):
                with contextlib.suppress(OSError), socket.create_connection(self._address, 2) as line:
                    line.sendall(sent)
                    line.settimeout(0.3)
                    line.recv(4096)
            with contextlib.suppress(OSError), socket.create_connection(self._address, 2) as line:
                line.sendall(b"GET /events HTTP/1.1\r\nHost: localhost\r\n\r\n")
                line.settimeout(0.3)
                for _ in range(10):
                    line.recv(65536)
            time.sleep(0.05)

    def end(self) -> None:
        self._ends = True
        self._thread.join()


class Room:
    """A round of two boards, and the errors that are raised in it."""

    def __init__(self, folder: pathlib.Path, number: int) -> None:
        self.hall = Hall(folder, 2)
        self.first, second = self.hall.boards
        self._journal = folder / "journal"
        self._journal.touch()
        self._read, self._entries = 0, []  # type: int, List[Dict[str, Any]]
        self.games = 0
        self.calls: "List[subprocess.Popen[bytes]]" = []
        self.name_game()
        start = [sys.executable, RAISING, self._journal, number]
        self.live = self.hall.record("--page", str(free_port()), typed=True, start=start)
        self.lines = Lines(self.live)
        self.second = Second(second, Lines(self.live), number)
        self._turned = time.monotonic()

    def name_game(self, plain: bool = False) -> None:
        """The first board begins another game, as its line has another name now."""
        self.games += 1
        more = "" if plain else f"{self.name},{'yes' if self.games % 2 else 'no'}"
        self.hall.extra = {1: f",{more}"}
        self.hall.write(header="board,device,white,black,name,recover")

    @property
    def name(self) -> str:
        return f"game {self.games}"

    @property
    def path(self) -> str:
        return str(self.hall.games / self.name)

    def type(self, text: str) -> None:
        with contextlib.suppress(OSError):
            self.live.type(text)

    # What is raised.

    def journal(self) -> List[Dict[str, Any]]:
        """What it has so far; of a line that is just being written nothing."""
        with open(self._journal, "rb") as file:
            file.seek(self._read)
            *lines, part = file.read().split(b"\n")
            self._read = file.tell() - len(part)
        self._entries += [json.loads(line) for line in lines]
        return self._entries

    def errors(self) -> List[Dict[str, Any]]:
        return [entry for entry in self.journal() if "error" in entry]

    def stop_raising(self) -> None:
        pathlib.Path(f"{self._journal}.stop").touch()

    # What happens on the boards.

    def turn(self, plays: bool = True) -> None:
        """All boards answer; the second one plays on."""
        turn(0.005)
        for lines in (self.lines, self.second._lines):
            lines.read()
        now = time.monotonic()
        stalled, self._turned = max(0.0, now - self._turned - 0.05), now
        self.second.turn(now, plays, stalled)
        assert self.live.runs, f"the round has ended:\n{self.lines.text[-2000:]}{self.live.complaint()[-4000:]}"

    def until(self, holds: Callable[[], object], what: str, plays: bool = True) -> None:
        def held() -> object:
            self.turn(plays)
            return holds()

        until(held, what)

    def play(self, move: str, san: str) -> Step:
        self.first.play(move)
        return lambda: f"{san} *" in movetext(self.path), 0.6

    def adding(self, text: str) -> Step:
        """A call of `--add`."""
        call = subprocess.Popen([LIVE, "--add", text, self.path], stdout=subprocess.DEVNULL, stderr=subprocess.DEVNULL)
        self.calls.append(call)
        return lambda: call.poll() is not None, 1.0

    def a_game(self) -> Iterator[Step]:
        """All that may happen to a board, in a few seconds."""
        self.name_game()
        self.first.codes = list(INITIAL)
        for _ in range(TABLE_TRIES):
            self.type("r")
            yield lambda: bytes_of(f"{self.path}.pgn"), 0.5
            if bytes_of(f"{self.path}.pgn"):
                break
        yield self.agrees, 1.0
        yield self.play("e2e4", "1. e4")
        yield self.play("e7e5", "e5")
        for move in ("g1f3", "b8c6"):
            self.move_unseen(move)
        self.type("1 Nf3 Nc6")
        yield lambda: "Nc6" in movetext(self.path), 0.6
        for text in ("1 Qh5 Qxh9", "1", "hello", "9 1-0", f"1 name WhiteElo={2000 + self.games % 100}"):
            self.type(text)
        self.first.pull()
        yield (lambda: self.lines.has("  1  UNPLUGGED")), 0.6
        self.first.plug()
        yield (lambda: self.first.asked_for_updates), 0.8
        yield self.play("f1b5", "3. Bb5")
        self.move_unseen("a7a6")
        yield self.adding("a6")
        for child in self.live.children():
            if {"live", "--recover"} <= set(command(child)):
                signal_to(child)
        yield self.play("b5a4", "4. Ba4")
        if self.games % 3 == 0:
            self.first.kings_in_centre("e4", "e5")
        else:
            self.type("1 1-0")
        yield (lambda: " 1-0" in movetext(self.path)), 0.6
        yield (lambda: False), 0.3
        self.type("1 0-1")
        yield (lambda: " 0-1" in movetext(self.path)), 0.6
        yield self.adding("1/2-1/2")

    def move_unseen(self, move: str) -> None:
        """A piece is moved, and no update tells of it."""
        self.first.codes[field(move[2:])] = self.first.codes[field(move[:2])]
        self.first.codes[field(move[:2])] = 0

    def agrees(self) -> bool:
        return self.lines.has("  1  agrees")


def are_enough(errors: List[Dict[str, Any]]) -> bool:
    """Whether calls of each part were tried."""
    owners = [entry["owner"] for entry in errors]
    return all(owners.count(owner) >= fewest for owner, fewest in FEWEST.items())


def play(folder: pathlib.Path, number: int) -> None:
    """Plays a room, and says what was tried there."""
    room = Room(folder, number)
    room.until(lambda: room.lines.text.count("agrees") >= 1, "that the second board agrees", plays=False)
    readers = Readers(page_of(room.live))
    begun = new = time.monotonic()
    tried, step = 0, None
    steps: Optional[Iterator[Step]] = None
    enough = False
    while not enough or time.monotonic() < min(begun + LONGEST, new + QUIET):
        room.turn()
        errors = room.errors()
        if len(errors) > tried:
            tried, new, enough = len(errors), time.monotonic(), are_enough(errors)
        if step is None or step[0]() or time.monotonic() > step[1]:
            steps = steps or room.a_game()
            wanted = next(steps, None)
            if wanted is None:
                steps, step = None, None
            else:
                step = wanted[0], time.monotonic() + wanted[1]
    room.stop_raising()
    for call in room.calls:
        room.until(lambda: call.poll() is not None, "the end of a call of --add", plays=False)
    finish(room, readers)
    tell(room)


def finish(room: Room, readers: Readers) -> None:
    """Both boards are well: the second has lost nothing, the first plays another game."""
    room.until(lambda: room.second.rests, "the last ply of the second board", plays=False)
    room.name_game()
    room.first.codes = list(INITIAL)
    if not room.first.plugged:
        room.first.plug()
    typed_at = 0.0

    def is_recorded() -> bool:
        """An error of before may have taken what is typed: it is typed again."""
        nonlocal typed_at
        if time.monotonic() - typed_at > 3:
            typed_at = time.monotonic()
            room.type("r")
        return b"agrees" in bytes_of(f"{room.path}.log") and room.first.asked_for_updates

    room.until(is_recorded, "that the first board is recorded again")
    for ply, move in enumerate(("d2d4", "d7d5", "c2c4", "e7e6")):
        room.first.play(move)
        wanted = " ".join("1. d4 d5 2. c4 e6".split()[: (2, 3, 5, 6)[ply]]) + " *"
        room.until(lambda: movetext(room.path) == wanted, f"{wanted} on the first board")
    room.until(lambda: readers.status("/state.json") == 200, "that the page answers")
    readers.end()
    room.until(lambda: room.second.rests, "the last ply of the second board", plays=False)
    same(movetext(room.hall.name(2)), room.second.text)
    until(lambda: movetext(room.hall.name(2)).encode()[:200] in bytes_of(room.hall.games / "round.pgn").replace(b"\n", b" "), "round.pgn")
    room.type("q\nq")  # a game is being played
    same(ended(room.live), 0)


def passed_over(entry: Dict[str, Any], said: str) -> bool:
    """Whether nobody was told of an error that nobody reckons with. What is closed at the end of a part is closed as far as that
    can be. Where the loop can't be woken it looks by itself; what can't be printed is printed with the next line."""
    file, _, function, name = entry["site"]
    closes = function == "close" or name.endswith("close")
    mended = (file, name) in (("run/loop.py", "socket.socket.send"), ("show/terminal.py", "posix.write"))
    return not (entry["error"] == "OSError" or closes or mended or entry["text"] in said)


def tell(room: Room) -> None:
    """What was tried; and nothing that nobody expects was passed over in silence, and the loop has waited for nothing else."""
    errors, waits = room.errors(), sorted(room.second.waits)
    said = room.live.lines() + room.live.complaint()
    said += "".join(path.read_text(errors="replace") for path in room.hall.games.glob("*.log"))
    silent = [entry for entry in errors if passed_over(entry, said)]
    owners = {owner: sum(entry["owner"] == owner for entry in errors) for owner in sorted({e["owner"] for e in errors})}
    print(f"   {len(errors)} calls: {owners}; {room.games} games of the first board, {len(waits)} plies of the second, told after", end="")
    print(f" {waits[len(waits) // 2]:.2f} s (median), {waits[-1]:.2f} s at most", flush=True)
    for wait, at in room.second.slow:
        before = [f"{entry['error']} at {entry['site']}" for entry in errors if at - wait - 0.5 < entry["at"] < at]
        print(f"   {wait:.2f} s from a hand to its line, after {', '.join(before)}", flush=True)
    for entry in silent:
        print(f"   nobody was told of {entry['error']} at {entry['site']}, {entry['owner']}", flush=True)
    same(len(silent), 0)
    assert are_enough(errors), owners
    same([entry["site"] for entry in room.journal() if "waits" in entry], [])
    same("Traceback" in room.live.complaint(), False)


def errors_1(folder: pathlib.Path) -> None:
    """At each call of one board, of a page and of typed lines an error is raised; the other board doesn't hear of it."""
    play(folder, 0)


def errors_2(folder: pathlib.Path) -> None:
    """The same with the next kind of error at each call."""
    play(folder, 1)


def errors_3(folder: pathlib.Path) -> None:
    """The same with the third kind."""
    play(folder, 2)
