"""A round that goes out late is killed: what readers have stays as it is, in each output, until the recorder knows again what is hidden."""

import json
import pathlib
import sys
import threading
import time
import urllib.request
from typing import Callable, Dict, List, Sequence, Tuple

from played.hidden import hidden_shots
from played.ports import free_port
from played.recorder import Live
from played.stage import bytes_of, kill, same, stop, until, until_line
from rounds.delayed import DELAY, FIRST, SECOND, stuck_program, words_of
from rounds.going_out import Clock
from rounds.hall import ROUND, Hall
from rounds.outputs import CARRIES
from rounds.witness import Witness, served, texts_of

Plies = List[int]  # of each game, as a reader has them


def of_texts(content: bytes) -> Plies:
    return [sum(1 for word in text.split()[:-1] if not word[0].isdigit()) for text in texts_of(content)]


def of_state(content: bytes) -> Plies:
    return [len(board["moves"]) for board in json.loads(content)["boards"]]


def of_events(port: int) -> Plies:
    """The boards of the first events that a browser gets."""
    found: Dict[int, int] = {}
    numbers: List[int] = []
    with urllib.request.urlopen(f"http://127.0.0.1:{port}/events", timeout=60) as answer:
        kind = ""
        while True:
            line = answer.readline().decode()
            if not line:
                raise ValueError("the recorder has ended")
            if line.startswith("event: "):
                kind = line.split()[1]
            elif line.startswith("data: ") and kind == "round":
                numbers = json.loads(line[6:])["numbers"]
                if not numbers:
                    return []
            elif line.startswith("data: ") and kind == "board":
                board = json.loads(line[6:])
                found[board["number"]] = len(board["moves"])
                if len(found) == len(numbers):
                    return [found[number] for number in numbers]


class Readers:
    """All who read something of the round, again and again, while there is something to read."""

    def __init__(self, *reads: Tuple[str, Callable[[], Plies]]) -> None:
        self._reads, self._least, self._ends = reads, [0, 0], False
        self.seen: Dict[str, int] = {}  # how often each has read something
        self.back: List[str] = []  # steps back
        self._thread = threading.Thread(target=self._read, daemon=True)
        self._thread.start()

    def have(self, plies: Plies) -> None:
        """From now on nobody may have fewer plies of a game."""
        until(lambda: self._all(plies), f"{plies} for all readers", 0.05)
        self._least, self.seen = plies, {}

    def until_read(self) -> None:
        """Each has read something since then."""
        for name, _ in self._reads:
            until(lambda: name in self.seen, f"that {name} is read", 0.05)

    def _all(self, plies: Plies) -> bool:
        try:
            return all(read() == plies for _, read in self._reads)
        except (OSError, ValueError):
            return False

    def _read(self) -> None:
        while not self._ends:
            for name, read in self._reads:
                try:
                    least, plies = self._least, read()
                except (OSError, ValueError):
                    continue  # nobody serves just now
                self.seen[name] = self.seen.get(name, 0) + 1
                if len(plies) < len(least) or any(one < other for one, other in zip(plies, least)):
                    self.back.append(f"{name} had {least}, and has {plies}")
            time.sleep(0.002)

    def end(self) -> None:
        self._ends = True
        self._thread.join()
        same(self.back[:3], [])


class Cup:
    """A tournament whose round goes out fifteen minutes late, everywhere: in files, on a page, on a site, by a command, in a second
    output."""

    def __init__(self, folder: pathlib.Path) -> None:
        self.folder, self.clock, self.hall, self.cup, self.port = folder, Clock(folder), Hall(folder, 2), folder / "cup", free_port()
        self.cup.mkdir()
        self.hall.games = self.cup / "round1"
        (folder / "carries.py").write_text(CARRIES)
        (self.cup / "boards.csv").write_text("board;device\n" + "".join(f"{number};{folder}/board{number}\n" for number in (1, 2)))
        (self.cup / "round1.csv").write_text("board;white;black\n1;A;B\n2;C;D\n")
        carries = [f"{sys.executable} {folder}/carries.py {folder}/carried-{name} {folder}/ahead" for name in ("first", "agency")]
        settings = [f"page = {self.port}", "delay = 15", "web = site", f"publish = {carries[0]}", f"output agency = 15, web agency, {carries[1]}"]
        (self.cup / "tournament.txt").write_text("\n".join([*settings, ""]))
        games, port = self.hall.games, self.port
        self.texts = [games / "broadcast.pgn", games / "output-agency" / "broadcast.pgn", self.cup / "all.pgn",
                      *(self.cup / site / "round1" / "round.pgn" for site in ("site", "agency"))]  # fmt: skip
        self.states = [self.cup / site / "round1" / "state.json" for site in ("site", "agency")]
        self.reads: List[Tuple[str, Callable[[], Plies]]] = [
            *((str(path), lambda path=path: of_texts(bytes_of(path))) for path in self.texts),
            *((str(path), lambda path=path: of_state(bytes_of(path))) for path in self.states),
            *((name, lambda name=name: of_texts(self.carried(name))) for name in ("first", "agency")),
            ("/round.pgn", lambda: of_texts(served(port, "/round.pgn"))), ("/02.pgn", lambda: 2 * of_texts(served(port, "/02.pgn"))),
            ("/state.json", lambda: of_state(served(port, "/state.json"))), ("/events", lambda: of_events(port)),
        ]  # fmt: skip

    def carried(self, name: str) -> bytes:
        files = sorted((self.folder / f"carried-{name}").glob("*.pgn"))
        return bytes_of(files[-1]) if files else b""

    def now(self) -> float:
        return time.monotonic() + float(bytes_of(self.folder / "ahead") or b"0")

    def record(self, program: pathlib.Path = ROUND) -> Live:
        return Live(self.cup, "1", program=program, typed=True, start=self.clock.start, environment=self.hall.cables.environment())

    def until_hidden(self, ply: int) -> None:
        def last(place: pathlib.Path, number: int) -> Sequence[str]:
            return [text for shot in hidden_shots(place / f"{number:02}") for text in texts_of(shot.text)][-1:]

        wanted, games = [[FIRST[ply - 1]], [SECOND[ply - 1]]], self.hall.games
        until(lambda: all([last(place, number) for number in (1, 2)] == wanted for place in (games, games / "output-agency")), f"ply {ply}, hidden", 0.02)


def a_folder(path: pathlib.Path) -> pathlib.Path:
    path.mkdir()
    return path


def no_step_back(folder: pathlib.Path) -> None:
    """Two plies of each game are out and one is hidden as the round is killed. The next call is stuck before it knows what is hidden, and
    is killed too; the one after goes on. All the time no reader has less than before, and no ply is out too soon."""
    cup = Cup(folder)
    witness = Witness(cup.now, DELAY, *cup.texts)
    witness.watch_state(*cup.states)
    witness.begin()
    live = cup.record()
    cup.hall.begun(live)

    def play(begin: int, end: int) -> None:
        for ply in range(begin, end):
            for texts in (FIRST, SECOND):
                witness.plays(texts[ply])
            cup.hall.play(ply, ply + 1)

    play(0, 2)
    cup.until_hidden(2)
    cup.clock.be(910)
    readers = Readers(*cup.reads)
    readers.have([2, 2])
    play(2, 3)
    cup.until_hidden(3)
    kill(live)
    stuck = folder / "stuck"
    for how in ("live", ""):
        stuck.write_text(how)
        live = cup.record(stuck_program(a_folder(folder / how), stuck) if how else ROUND)
        until_line(live, "the round is shown at")
        readers.seen = {}
        if how:
            until(lambda: how in words_of(live), f"a call of {how} that is stuck")
            readers.until_read()
            witness.look_at(cup.port)
            stuck.unlink()
            kill(live)
    cup.until_hidden(3)
    readers.until_read()
    witness.look_at(cup.port)
    cup.clock.be(1820)
    readers.have([3, 3])
    same(stop(live) in (0, 3), True)
    readers.end()
    witness.end()


def lost_or_damaged(folder: pathlib.Path) -> None:
    """What is kept of that is damaged, or of a shorter delay: it counts for nothing, and nothing is out too soon. Without a delay it goes."""
    cup = Cup(folder)
    live = cup.record()
    cup.hall.begun(live)
    cup.hall.play(0, 2)
    cup.until_hidden(2)
    cup.clock.be(910)
    kept = cup.hall.games / "broadcast.shown"
    until(lambda: b'"e4"' in bytes_of(kept) and of_state(served(cup.port, "/state.json")) == [2, 2], "two plies", 0.05)
    kill(live)
    whole, settings = bytes_of(kept), (cup.cup / "tournament.txt").read_text()
    stuck = folder / "stuck"
    for number, (content, delay, shown) in enumerate((
        (whole, "15", [2, 2]), (whole.replace(b'"e4"', b'"d4"'), "15", []), (whole[:-9], "15", []), (b"", "15", []), (whole, "16", []), (whole, "3", [2, 2]),
    )):  # fmt: skip
        kept.write_bytes(content)
        (cup.cup / "tournament.txt").write_text(settings.replace("delay = 15", f"delay = {delay}"))
        stuck.write_text("live")
        live = cup.record(stuck_program(a_folder(folder / str(number)), stuck))
        until_line(live, "the round is shown at")
        until(lambda: "live" in words_of(live), "a call of live that is stuck")
        same((number, of_state(served(cup.port, "/state.json"))), (number, shown))
        stuck.unlink()
        kill(live)
    (cup.cup / "tournament.txt").write_text(settings.replace("delay = 15", "delay = 0"))
    live = cup.record()
    until(lambda: not kept.exists(), "that it is gone", 0.02)
    stop(live)


CASES = [no_step_back, lost_or_damaged]
