"""Server-sent events: their form, what is new in each, and what comes after a connection that was lost."""

import json
import re
from typing import Dict, List, Tuple, cast

from decided.table import same

from live.show import page, serving
from paged.web import Events, Given, Site, Told, a_board

NAME = "</script><img src=x onerror=alert(1)>\n\ndata: x\r\u2028 \"'&"
EVENT = re.compile(rb"event: (beat|round|board)\n(id: [0-9a-f]{8}-\d+\n)?data: [ -~]+\n\n")


def state(site: Site) -> Dict[int, Told]:
    """What /state.json says, by the boards' numbers."""
    return {board["number"]: board for board in json.loads(site.get("/state.json")[2])["boards"]}


def form() -> None:
    with Site() as site:
        site.show(a_board(1, 2, white=NAME), a_board(2, 0), event=NAME)
        site.until("/state.json", lambda content: b"Black 2" in content)
        with site.line() as line:
            line.sendall(b"GET /events HTTP/1.1\r\nHost: localhost\r\n\r\n")
            came = b""
            while came.count(b"event: board") < 2 or not came.endswith(b"\n\n"):
                came += line.recv(65536)
        head, _, text = came.partition(b"\r\n\r\n")
        same("status", head.split(b"\r\n")[0], b"HTTP/1.1 200 OK")
        same("kind", b"\r\nContent-Type: text/event-stream; charset=utf-8" in head, True)
        same("no length", b"Content-Length" in head, False)
        same("not kept", b"\r\nCache-Control: no-cache" in head, True)
        same("when to try again", text.startswith(b"retry: 1000\n"), True)
        events = text[len(b"retry: 1000\n") :]
        same("all is events, in printable ASCII", EVENT.sub(b"", events), b"")
        same("which", [found[0] for found in EVENT.findall(events)], [b"beat", b"round", b"board", b"board"])
        same("HEAD", site.get("/events", method="HEAD")[2], b"")
        reader = Events(site)
        reader.until(lambda: len(reader.boards) == 2)
        same("a name with markup is the same name", reader.boards[1]["white"], NAME)
        same("as in /state.json", reader.boards, state(site))
        reader.close()


def news() -> None:
    with Site(PAUSE=0.01) as site:
        site.show(a_board(1, 5), a_board(2, 0))
        reader = Events(site)
        reader.until(lambda: len(reader.boards) == 2)
        corrected = [*a_board(1, 5)["moves"], ["Be7", "1:29:00", "correction"]]
        changes: List[Tuple[str, Given, Tuple[int, int], List[str]]] = [
            ("a move", a_board(1, 6), (5, 6), ["Bc5"]),
            ("a clock", a_board(1, 6, clocks=["1:00:00", "0:59:00"]), (6, 7), []),
            ("a correction", a_board(1, 6, moves=corrected), (5, 7), ["Be7"]),
            ("a move is taken back", a_board(1, 4), (4, 5), []),
            ("another game", a_board(1, 1, moves=[["d4"]], positions=["x", "y"]), (0, 0), ["d4"]),
        ]
        for what, board, kept, new in changes:
            site.show(board)
            events = reader.until(lambda: reader.boards[1]["clocks"] == board["clocks"]
                and [move["san"] for move in reader.boards[1]["moves"]] == [move[0] for move in board["moves"]])  # fmt: skip
            boards = [data for kind, data in events if kind == "board"]
            same(f"{what}: one board", [data["number"] for data in boards], [1])
            same(f"{what}: what is kept", tuple(boards[-1]["kept"][name] for name in ("moves", "positions")), kept)
            same(f"{what}: what is new", [move["san"] for move in boards[-1]["moves"]], new)
            same(f"{what}: together", reader.boards, state(site))
        site.show(a_board(3, 1), numbers=[3, 1])
        events = reader.until(lambda: 3 in reader.boards)
        same("other boards", [data["numbers"] for kind, data in events if kind == "round"], [[3, 1]])
        reader.close()
        site.show(numbers=[1, 2, 3])
        reader = Events(site)
        reader.until(lambda: len(reader.boards) == 3)
        same("a board that was gone, and is back", reader.boards, state(site))
        reader.close()


def again() -> None:
    with Site(PAUSE=0.01) as site:
        site.show(*[a_board(number, number) for number in range(1, 6)])
        reader = Events(site)
        reader.until(lambda: len(reader.boards) == 5)
        last, known = reader.last, reader.boards
        reader.close()
        site.show(a_board(2, 6))
        site.show(a_board(4, 6))
        site.until("/state.json", lambda content: content.count(b"Bc5") == 2)
        again = Events(site, last)
        again.boards = known
        events = again.until(lambda: again.boards == state(site))
        site.show(a_board(2, 7))
        events += again.until(lambda: len(again.boards[2]["moves"]) == 7)
        same("what has changed meanwhile, and it goes on from there", again.boards, state(site))
        same("nothing else", {data["number"] for kind, data in events if kind == "board"}, {2, 4})
        first = again.last.split("-")[0]
        again.close()
        for what, identifier in [
            ("of another call", "00000000-3"),
            ("from the future", first + "-999"),
            ("of no number", first + "-x"),
            ("of a long number", first + "-" + "9" * 1000),
            ("no sense", "-\u00b2"),
        ]:
            reader = Events(site, identifier)
            reader.until(lambda: len(reader.boards) == 5)
            same(f"a last event {what}: all", reader.boards, state(site))
            reader.close()
        with Site() as other:
            other.show(a_board(1, 1))
            reader = Events(other, again.last)
            reader.until(lambda: 1 in reader.boards)
            same("a recorder that was started again", reader.boards, state(other))
            reader.close()


def beats() -> None:
    with Site(BEAT=0.05, SWEEP=0.02) as site:
        reader = Events(site)
        times: List[float] = []
        while len(times) < 4:
            kind, data = reader.next()
            if kind == "beat":
                times.append(data["now"])
        same("the time goes on", times == sorted(times), True)
        reader.close()
    with Site() as site:
        reader = Events(site)
        times = []
        while len(times) < 4:
            kind, data = reader.next()
            if kind == "beat":
                times.append(data["now"])
        same("without any news too", len(times), 4)
        reader.close()


class Clock:
    """What the events of a page ask of it, at a time that is said."""

    header, time, changes = b"{}", 100.0, page.Changes(0.0)

    def now(self) -> float:
        return self.time


def when_it_beats() -> None:
    """Every 2 s, and the next sweep comes a second later at the latest. A page says after 4 s that nothing comes."""
    clock = Clock()
    events = page.Events(cast(page.Page, clock), 0)
    beats_at = []
    for tenth in range(101):
        clock.time = 100.0 + tenth / 10
        if b"event: beat" in events.more():
            beats_at.append(tenth / 10)
    same("when it beats", beats_at, [0.0, 2.0, 4.0, 6.0, 8.0, 10.0])
    same("and a sweep", serving.SWEEP, 1.0)


TABLES = [form, news, again, beats, when_it_beats]
