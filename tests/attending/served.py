"""A serial server and what a recorder's connection makes of it, by `Connection` of live/board/connection.py: what the server sends in which
parts, and what is passed on. The program says when a board has answered."""

import os
import pathlib
import socket
import tempfile
from typing import Callable, List, Optional, Sequence, Tuple

from live.board.connection import FLOOD, Connection, Happened
from live.child.program import Program
from live.game.times import HEARD
from live.run.loop import Guard, Loop

from attending.numbers import DEADLY, DUMP, UPDATE, children, dying, numbered
from decided.table import same
from given.case import program

LONG = 120.0  # seconds that no case takes
TEXT = b"\r\nraspberrypi login: "
HALF = 33
PAUSE = 0.02  # seconds between two parts
HUNG_UP = None  # in place of a part
Part = Optional[bytes]


class Heard:
    """What is reported of a connection, in order: news by its word, and all bytes that come one behind the other as one."""

    def __init__(self) -> None:
        self.news: List[object] = []

    def hears(self, it: Happened) -> None:
        """This happens on the line, or the board has sent this."""
        if it.what == HEARD:
            before = self.news.pop() if self.news and isinstance(self.news[-1], bytes) else b""
            assert isinstance(before, bytes)
            self.news.append(before + it.sent)
        else:
            self.news.append(it.what)


class Played:
    """A server that sends these parts, one after the other. Then it hangs up, or not."""

    def __init__(self, parts: Sequence[Part], path: str = "") -> None:
        self.heard, self.loop = Heard(), Loop()
        self.troubles: List[Exception] = []
        self._parts = list(parts)
        self._listener = socket.create_server(("127.0.0.1", 0))
        self._call: Optional[socket.socket] = None
        self.guard = Guard(self.loop, self.troubles.append, self.troubles.append)
        address = f"tcp://127.0.0.1:{self._listener.getsockname()[1]}"
        self.connection = Connection(self.guard, Program(path or program()), address, self.heard.hears)
        self.loop.watch(self._listener.fileno(), self._called)

    def _called(self) -> None:
        self._call, _ = self._listener.accept()
        self._call.setsockopt(socket.IPPROTO_TCP, socket.TCP_NODELAY, 1)
        self.loop.forget(self._listener.fileno())
        self._sends()

    def _sends(self) -> None:
        """The next part, and others a little later. It hangs up at once."""
        assert self._call
        if self._parts:
            self._call.sendall(self._parts.pop(0) or b"")
            if self._parts[:1] == [HUNG_UP]:
                self._parts.clear()
                self._call.close()
            self.loop.after(PAUSE, self._sends)

    def until(self, holds: Callable[[List[object]], object]) -> List[object]:
        """What was reported, as soon as it holds."""
        over = self.loop.now() + LONG

        def look() -> None:
            if (holds(self.heard.news) and not self._parts) or self.loop.now() > over:
                self.loop.stop()
            else:
                self.loop.after(0.005, look)

        self.connection.begin()
        look()
        self.loop.run()
        return self.heard.news

    def end(self) -> None:
        self.guard.end()
        self.loop.close()
        self._listener.close()
        if self._call:
            self._call.close()


def case(name: str, parts: Sequence[Part], expected: Sequence[object], why: str = "", path: str = "") -> None:
    """What is reported of these parts, and why the line is gone."""
    opened, started = len(os.listdir("/proc/self/fd")), children()
    played = Played(parts, path)
    try:
        last = expected[-1]
        news = played.until(lambda news: news and news[-1] == last)
        same(name, (news, played.connection.why, played.troubles), (list(expected), why, []))
        if "plugged" in news:
            same(f"{name}: no child is needed any more", children() - started, set())
    finally:
        played.end()
    same(f"{name}: nothing stays open", (len(os.listdir("/proc/self/fd")), children() - started), (opened, set()))


def first_dumps() -> None:
    """Nothing is passed on before a dump has ended; then all of it, in order, and what comes behind it."""
    answered = ["opened", "answered", "plugged"]
    gone = ["gone", "unplugged"]
    hung_up = "it has hung up"
    cases: List[Tuple[str, Sequence[Part], Sequence[object], str]] = [
        ("at once", [DUMP], [*answered, DUMP], ""),
        ("in parts", [DUMP[:HALF], DUMP[HALF:]], [*answered, DUMP], ""),
        ("byte by byte", [DUMP[at : at + 1] for at in range(len(DUMP))], [*answered, DUMP], ""),
        ("behind text", [TEXT, TEXT, DUMP], [*answered, TEXT + TEXT + DUMP], ""),
        ("behind one that was cut", [DUMP[:HALF], UPDATE, DUMP], [*answered, DUMP[:HALF] + UPDATE + DUMP], ""),
        ("behind a number", [numbered("01234") + DUMP[:1], DUMP[1:]], [*answered, numbered("01234") + DUMP], ""),
        ("with half of the next", [DUMP + DUMP[:HALF]], [*answered, DUMP + DUMP[:HALF]], ""),
        ("with noise behind it", [DUMP + b"\xff\x00", UPDATE], [*answered, DUMP + b"\xff\x00" + UPDATE], ""),
        ("an empty board's", [DUMP[:3] + bytes(64), UPDATE], [*answered, DUMP[:3] + bytes(64) + UPDATE], ""),
        ("of pieces that there aren't", [DUMP[:3] + b"\x0f" * 64], [*answered, DUMP[:3] + b"\x0f" * 64], ""),
        ("the last that it sends", [TEXT, DUMP, HUNG_UP], [*answered, TEXT + DUMP, *gone], hung_up),
        ("none, but text", [TEXT, HUNG_UP], ["opened", *gone], f"{hung_up}, and said 'raspberrypi login:'"),
        ("none, but updates", [UPDATE * 3, HUNG_UP], ["opened", *gone], hung_up),
        ("none of codes that a dump may have", [DUMP[:3] + b"\x10" * 64, HUNG_UP], ["opened", *gone], hung_up),
        ("none, and nothing else", [b"", HUNG_UP], ["opened", *gone], hung_up),
        ("a flood", [b"\xff" * 70_000], ["opened", *gone], FLOOD),
    ]
    for name, parts, expected, why in cases:
        case(name, parts, expected, why)


def children_that_die() -> None:
    """The child that hears a server dies: another one hears what comes then, and all that has waited is passed on with the next dump. If
    it dies again and again, the server counts as away."""
    with tempfile.TemporaryDirectory() as folder:
        parts = [TEXT, DUMP[:HALF], DEADLY, DUMP]
        case("once", parts, ["opened", "answered", "plugged", b"".join(parts)], path=dying(folder, once=True))
        case("again and again", parts, ["opened", "gone", "unplugged"], "live ended with status 9", path=dying(folder, once=False))
        nothing = str(pathlib.Path(folder, "nothing"))
        why = "live can't be started (No such file or directory), and said 'raspberrypi login:'"
        case("no program", [TEXT], ["opened", "gone", "unplugged"], why, path=nothing)


TABLES = [first_dumps, children_that_die]
