"""A page that is served for a case, and readers that ask it."""

import contextlib
import json
import pathlib
import select
import signal
import socket
import subprocess
import sys
import time
import urllib.parse
from typing import Callable, Dict, Iterator, List, Mapping, NamedTuple, Optional, Sequence, Tuple, TypedDict

HOST = pathlib.Path(__file__).resolve().parent / "host.py"
PATIENCE = 300  # seconds, on a machine that has too much to do, or was stopped for a while
STANDSTILL = PATIENCE

Answer = Tuple[int, Dict[str, str], bytes]  # the status, the fields and the content


class Work(NamedTuple):
    """What a page's loop did at most in a turn, and in all turns."""

    answers: int = 0  # for one reader, in a turn
    sent: int = 0  # bytes to one reader, in a turn
    texts: int = 0  # of boards that were made, in all turns


class Given(TypedDict):
    """A board, as host.py reads it: a `BoardView` in JSON. A move is its SAN, its clock and its kind, of which the last may lack."""

    number: int
    name: str
    white: str
    black: str
    result: str
    state: str
    since: int
    alarm: bool
    mend: str
    differing: Sequence[str]
    clocks: Sequence[str]
    moves: Sequence[Sequence[str]]
    positions: Sequence[str]
    pgn: str


class SpectatorsGiven(Given, total=False):
    """The same with what spectators are told besides: whose clock runs, and for how many seconds it has from what is given."""

    titles: Sequence[str]
    ratings: Sequence[str]
    teams: Sequence[str]
    federations: Sequence[str]
    runs: str
    ago: float


class ShownPly(TypedDict):
    """A ply, as the page has it."""

    san: str
    clock: str
    kind: str


class Told(TypedDict, total=False):
    """What the page tells in JSON: the data of a `beat`, of a `round` or of a `board`, each with its own of these fields."""

    now: float
    event: str
    numbers: List[int]
    number: int
    name: str
    white: str
    black: str
    result: str
    state: str
    mend: str
    since: Optional[float]
    alarm: bool
    differing: List[str]
    clocks: List[str]
    pgn: str
    moves: List[ShownPly]
    positions: List[str]
    kept: Dict[str, int]
    titles: List[str]
    ratings: List[str]
    runs: str


# A game of six plies, with both castlings under way; the positions are worked by hand.
MOVES = [["e4", "1:29:55"], ["e5", "1:29:48"], ["Nf3", "1:29:41"], ["Nc6", "1:29:30"], ["Bc4", "1:29:20"], ["Bc5", "1:29:10"],
         ["O-O", "1:29:02"]]  # fmt: skip
POSITIONS = [
    "rnbqkbnr/pppppppp/8/8/8/8/PPPPPPPP/RNBQKBNR w KQkq - 0 1",
    "rnbqkbnr/pppppppp/8/8/4P3/8/PPPP1PPP/RNBQKBNR b KQkq - 0 1",
    "rnbqkbnr/pppp1ppp/8/4p3/4P3/8/PPPP1PPP/RNBQKBNR w KQkq - 0 2",
    "rnbqkbnr/pppp1ppp/8/4p3/4P3/5N2/PPPP1PPP/RNBQKB1R b KQkq - 1 2",
    "r1bqkbnr/pppp1ppp/2n5/4p3/4P3/5N2/PPPP1PPP/RNBQKB1R w KQkq - 2 3",
    "r1bqkbnr/pppp1ppp/2n5/4p3/2B1P3/5N2/PPPP1PPP/RNBQK2R b KQkq - 3 3",
    "r1bqk1nr/pppp1ppp/2n5/2b1p3/2B1P3/5N2/PPPP1PPP/RNBQK2R w KQkq - 4 4",
    "r1bqk1nr/pppp1ppp/2n5/2b1p3/2B1P3/5N2/PPPP1PPP/RNBQ1RK1 b kq - 5 4",
]


def a_board(
    number: int,
    plies: int,
    *,
    white: Optional[str] = None,
    black: Optional[str] = None,
    result: str = "*",
    state: str = "agrees",
    alarm: bool = False,
    mend: str = "",
    differing: Sequence[str] = (),
    clocks: Optional[Sequence[str]] = None,
    moves: Optional[Sequence[Sequence[str]]] = None,
    positions: Optional[Sequence[str]] = None,
    pgn: Optional[str] = None,
) -> Given:
    """A board after so many plies of that game, but for what is given otherwise."""
    times = ["1:30:00", "1:30:00"]
    for ply, (_, clock) in enumerate(MOVES[:plies]):
        times[ply % 2] = clock
    return {
        "number": number,
        "name": f"{number:02}",
        "white": f"White {number}" if white is None else white,
        "black": f"Black {number}" if black is None else black,
        "result": result,
        "state": state,
        "since": 5,
        "alarm": alarm,
        "mend": mend,
        "differing": differing,
        "clocks": times if clocks is None else clocks,
        "moves": MOVES[:plies] if moves is None else moves,
        "positions": POSITIONS[: plies + 1] if positions is None else positions,
        "pgn": f'[White "White {number}"]\n\n{plies} *\n\n' if pgn is None else pgn,
    }


EMBEDDED = "http://federation.example"  # the site that may show a page with `embedded`


class Site:
    """A page in a process of its own, from `with` on: the arbiter's, or with `spectators` theirs."""

    said: Mapping[str, object] = {}  # of the round, beside its event

    def __init__(self, address: str = "0", **limits: float) -> None:
        self._call = [sys.executable, str(HOST), address, json.dumps(limits)]
        self._event = "Round 1"

    def __enter__(self) -> "Site":
        self.process = subprocess.Popen(self._call, stdin=subprocess.PIPE, stdout=subprocess.PIPE, text=True)
        assert self.process.stdin and self.process.stdout
        self._shows, self._says = self.process.stdin, self.process.stdout
        self.url = self._says.readline().strip()
        parts = urllib.parse.urlsplit(self.url)
        self.address = (str(parts.hostname), int(parts.port or 0))
        return self

    def __exit__(self, *_: object) -> None:
        self._shows.close()
        self.process.wait(PATIENCE)
        self._says.close()

    def show(self, *boards: Mapping[str, object], event: Optional[str] = None, numbers: Optional[Sequence[int]] = None) -> Work:
        """Shows these boards beside those that it has, or of all those with these numbers. What its loop has done since the
        last time."""
        self._event = event or self._event
        shown = {} if numbers is None else {"numbers": numbers}
        self._shows.write(json.dumps({"event": self._event, "said": self.said, "boards": boards, **shown}) + "\n")
        self._shows.flush()
        assert select.select([self._says], [], [], STANDSTILL)[0], "its loop stands still"
        line = self._says.readline()
        assert not line.startswith("TROUBLE"), line
        *work, self.readers = (int(word) for word in line.split())
        return Work(*work)

    @contextlib.contextmanager
    def stopped(self) -> Iterator[None]:
        """It stands still meanwhile: what is sent it finds there when it goes on."""
        self.process.send_signal(signal.SIGSTOP)
        try:
            yield
        finally:
            self.process.send_signal(signal.SIGCONT)

    def memory(self) -> int:
        """The kilobytes that it has."""
        status = pathlib.Path(f"/proc/{self.process.pid}/status").read_text()
        return int(status.partition("VmRSS:")[2].split()[0])

    def line(self) -> socket.socket:
        """A connection."""
        line = socket.create_connection(self.address, PATIENCE)
        line.settimeout(PATIENCE)
        return line

    def ask(self, sent: bytes) -> bytes:
        """All that comes back for these bytes until the connection is closed."""
        with self.line() as line:
            with contextlib.suppress(BrokenPipeError, ConnectionResetError):
                line.sendall(sent)
            return rest(line)

    def get(self, path: str, *fields: str, method: str = "GET", host: str = "localhost") -> Answer:
        """The status, the fields and the content of one answer."""
        lines = [f"{method} {path} HTTP/1.1", f"Host: {host}", "Connection: close", *fields, "", ""]
        return parted(self.ask("\r\n".join(lines).encode("latin-1")))

    def status(self, sent: bytes) -> int:
        """The status of the answer to these bytes."""
        return parted(self.ask(sent))[0]

    def until(self, path: str, holds: Callable[[bytes], object]) -> bytes:
        """The content of the path, once it holds."""
        ends = time.monotonic() + PATIENCE
        while True:
            content = self.get(path)[2]
            if holds(content):
                return content
            assert time.monotonic() < ends, content


def rest(line: socket.socket) -> bytes:
    """What comes until the connection ends."""
    came = b""
    with contextlib.suppress(ConnectionResetError):
        while True:
            part = line.recv(1 << 16)
            if not part:
                break
            came += part
    return came


def parted(answer: bytes) -> Answer:
    """The status, the fields and the content of an answer."""
    if not answer:
        return 0, {}, b""
    head, _, content = answer.partition(b"\r\n\r\n")
    line, *lines = head.decode("latin-1").split("\r\n")
    return int(line.split(" ")[1]), {name: value for name, value in (one.split(": ", 1) for one in lines)}, content


class Events:
    """A reader of /events."""

    def __init__(self, site: Site, last: str = "", small: bool = False) -> None:
        self.line = socket.socket(socket.AF_INET6 if ":" in site.address[0] else socket.AF_INET)
        if small:
            self.line.setsockopt(socket.SOL_SOCKET, socket.SO_RCVBUF, 4096)
        self.line.settimeout(PATIENCE)
        self.line.connect(site.address)
        given = f"Last-Event-ID: {last}\r\n" if last else ""
        self.line.sendall(f"GET /events HTTP/1.1\r\nHost: localhost\r\n{given}\r\n".encode())
        self.text = b""
        self.head: Optional[bytes] = None
        self.boards: Dict[int, Told] = {}
        self.last = ""

    def next(self) -> Tuple[str, Told]:
        """The next event: its kind and its data. A board is put together with what came of it before."""
        if self.head is None:
            self.head = self._up_to(b"\r\n\r\n")
        values = {}
        for line in self._up_to(b"\n\n").decode("ascii").split("\n"):
            name, _, value = line.partition(": ")
            values[name] = value
        self.last = values.get("id", self.last)
        data: Told = json.loads(values["data"])
        if values["event"] == "board":
            self._take(data)
        return values["event"], data

    def _take(self, board: Told) -> None:
        kept = board.get("kept")
        whole = board.copy()
        if kept:
            before = self.boards[board["number"]]
            whole["moves"] = before["moves"][: kept["moves"]] + board["moves"]
            whole["positions"] = before["positions"][: kept["positions"]] + board["positions"]
            del whole["kept"]
        self.boards[board["number"]] = whole

    def _up_to(self, mark: bytes) -> bytes:
        while mark not in self.text:
            part = self.line.recv(1 << 16)
            assert part, "the events have ended"
            self.text += part
        part, _, self.text = self.text.partition(mark)
        return part

    def until(self, holds: Callable[[], object]) -> List[Tuple[str, Told]]:
        """Reads on until it holds; the events that came."""
        events: List[Tuple[str, Told]] = []
        ends = time.monotonic() + PATIENCE
        while not holds():
            assert time.monotonic() < ends, events[-3:]
            events.append(self.next())
        return events

    def close(self) -> None:
        self.line.close()
