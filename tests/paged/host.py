"""A page in a process of its own: `host.py [ADDRESS:]PORT LIMITS`, with port 0 for a free one, and some limits of
`live.serving` as JSON, so that a case needn't wait for the real ones; with `spectators` among them it is their page.

It prints its URL, then shows each round that it reads, a line of JSON each, and answers each line with what its loop did at
most in a turn since the last one, as `Work` has it, and the number of its readers.
"""

import collections
import json
import os
import pathlib
import socket
import sys
from typing import Any, Callable, Counter, Dict, List, Mapping, Optional, Sequence, Tuple

sys.dont_write_bytecode = True
sys.path[:0] = [str(pathlib.Path(__file__).resolve().parents[number]) for number in (2, 1)]
from live.out.spectators import Clocks, Player, Ply, Shot, SpectatorBoard  # noqa: E402
from live.run.loop import Loop, Watch  # noqa: E402
from live.show import page, serving  # noqa: E402
from live.show.address import Address, Door, names_of, read_address  # noqa: E402
from live.show.page import ARBITER, SPECTATORS, Page  # noqa: E402
from live.show.view import Board, BoardView, RoundView, Standing  # noqa: E402
from paged.web import EMBEDDED, SpectatorsGiven, Work  # noqa: E402


class CountingLoop(Loop):
    """A loop that counts what is done in each of its turns."""

    def __init__(self) -> None:
        self.answers: Counter[object] = collections.Counter()  # of each reader
        self.sent: Counter[object] = collections.Counter()  # bytes to each reader
        self.texts = 0  # of boards
        self.most = Work()
        super().__init__()

    def _ready(self) -> List[Tuple[Watch, int]]:
        most = self.most
        answers, sent = max(self.answers.values(), default=0), max(self.sent.values(), default=0)
        self.most = Work(max(most.answers, answers), max(most.sent, sent), most.texts + self.texts)
        self.answers.clear()
        self.sent.clear()
        self.texts = 0
        return super()._ready()

    def count(self) -> None:
        """From here on what the page does is counted."""
        answer, take, text = serving.Reader._answer, serving.Server._take, BoardView.text

        def answers(reader: serving.Reader, request: Any) -> None:
            self.answers[reader] += 1
            answer(reader, request)

        def takes(server: serving.Server, line: socket.socket, *more: Any) -> None:
            take(server, CountedLine(line, self), *more)  # type: ignore[arg-type]  # it does what a socket does

        def texts(board: BoardView, offset: float, before: Optional[BoardView] = None) -> bytes:
            self.texts += 1
            return text(board, offset, before)

        setattr(serving.Reader, "_answer", answers)
        setattr(serving.Server, "_take", takes)
        setattr(BoardView, "text", texts)


class CountedLine:
    """A connection whose bytes are counted."""

    def __init__(self, line: socket.socket, loop: CountingLoop) -> None:
        self._line, self._loop = line, loop

    def send(self, part: bytes) -> int:
        count = self._line.send(part)
        self._loop.sent[self] += count
        return count

    def __getattr__(self, name: str) -> Callable[..., Any]:
        call: Callable[..., Any] = getattr(self._line, name)
        return call


def players_of(values: SpectatorsGiven) -> Tuple[Player, Player]:
    """White and Black, of JSON."""
    more = (values.get(what, ("", "")) for what in ("titles", "ratings", "teams", "federations"))
    white, black = (Player(*parts) for parts in zip((values["white"], values["black"]), *more))
    return white, black


def spectators_board_of(values: SpectatorsGiven, now: float) -> SpectatorBoard:
    """A board as spectators see it, of JSON."""
    white, black = values["clocks"]
    clocks = Clocks(white, black, values.get("runs", ""), now - values.get("ago", 0.0))
    moves = tuple(Ply(*move[:2]) for move in values["moves"])
    pgn = values["pgn"].encode()
    shot = Shot(values["result"], moves, tuple(values["positions"]), pgn, clocks)
    return SpectatorBoard(values["number"], *players_of(values), shot, pgn)


def board_of(values: SpectatorsGiven, _: float) -> BoardView:
    """A board, of JSON."""
    white, black = players_of(values)
    white_clock, black_clock = values["clocks"]
    return BoardView(
        number=values["number"],
        name=values["name"],
        white=white,
        black=black,
        result=values["result"],
        standing=Standing(values["state"], values["since"], values["alarm"], values["mend"], tuple(values["differing"])),
        clocks=(white_clock, black_clock),
        moves=tuple(Ply(*move) for move in values["moves"]),
        positions=tuple(values["positions"]),
        pgn=values["pgn"].encode(),
    )


class Host:
    def __init__(self, address: Address, limits: Mapping[str, float]) -> None:
        spectators = "spectators" in limits
        self.board_of: Callable[[SpectatorsGiven, float], Board] = board_of
        if spectators:
            self.board_of = spectators_board_of
        for name, value in limits.items():
            setattr(page if hasattr(page, name) else serving, name, value)
        self.loop = CountingLoop()
        self.loop.count()
        embed = EMBEDDED if "embedded" in limits else ""
        door = Door(address, names_of("Hall.club.example", ["chess.example.org"]), embed=embed)
        self.page = Page(self.loop, door, SPECTATORS if spectators else ARBITER, self.trouble)
        self.boards: Dict[int, Board] = {}
        self.text = b""
        os.set_blocking(0, False)
        self.loop.watch(0, self.read)
        print(self.page.url, flush=True)

    def trouble(self, text: str) -> None:
        print("TROUBLE", json.dumps(text), flush=True)

    def read(self) -> None:
        part = os.read(0, 1 << 20)
        if not part:
            self.loop.stop()
        *lines, self.text = (self.text + part).split(b"\n")
        for line in lines:
            given = json.loads(line)
            boards: Sequence[SpectatorsGiven] = given["boards"]
            for values in boards:
                self.boards[values["number"]] = self.board_of(values, self.loop.now())
            numbers = given.get("numbers", sorted(self.boards))
            said = tuple(given["said"].items())
            self.page.show(RoundView(given["event"], tuple(self.boards[number] for number in numbers), said))
            print(*self.loop.most, self.page.readers, flush=True)
            self.loop.most = Work()


if __name__ == "__main__":
    where, port = sys.argv[1].rpartition(":")[::2]
    given = Address(read_address(f"{where}:1" if where else "1").host, int(port))
    Host(given, json.loads(sys.argv[2])).loop.run()
