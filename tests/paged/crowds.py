"""Many readers, slow ones, and ones that never end: what the recorder's loop does meanwhile."""

import contextlib
import json
import select
import socket
import time
from typing import List, Sequence

from decided.table import same

from live.show import serving
from paged.answers import one_answer
from paged.web import MOVES, PATIENCE, POSITIONS, Events, Site, Work, a_board, parted, rest

BOARDS = 32
READERS = 200
SHOWN = 100
MOST_TEXTS = BOARDS + 2 * SHOWN  # of boards: a whole one for each that is there, and for each change that and what is new
PIPELINING = 100
REQUESTS = b"GET /x HTTP/1.1\r\nHost: localhost\r\n\r\n" * 2000
MOST_MEMORY = 16_000  # kB, for all of them


def ready(site: Site, number: int = 1) -> None:
    """The site shows some boards."""
    site.show(*[a_board(each, 2) for each in range(1, number + 1)])
    site.until("/state.json", lambda content: content.count(b'"e4"') == number)


def many() -> None:
    with Site() as site:
        ready(site, BOARDS)
        readers = [Events(site) for _ in range(READERS)]
        for reader in readers:
            reader.until(lambda: len(reader.boards) == BOARDS)
        works = [site.show()]
        for change in range(1, SHOWN + 1):
            number = change % BOARDS + 1
            works.append(site.show(a_board(number, 2 + change % 5, state=f"change {change}")))
            drain(readers)
            if change % 10 == 0:
                time.sleep(0.05)
        last = f'"change {SHOWN}"'.encode()
        text = site.until("/state.json", lambda content: last in content)
        expected = {board["number"]: board for board in json.loads(text)["boards"]}
        for reader in readers:
            reader.until(lambda: reader.boards == expected)
        same(f"{READERS} readers have seen {SHOWN} changes", len(readers), READERS)
        few_in_a_turn(works)
        texts = sum(work.texts for work in works[1:])
        same("a change is put into words for all readers at once, and once for those who are behind", 0 < texts <= MOST_TEXTS or texts, True)
        print(f"  {READERS} readers, {SHOWN} changes: {texts} texts of boards")
        for reader in readers:
            reader.close()


def few_in_a_turn(works: Sequence[Work]) -> None:
    """The page did no more in a turn of the loop than it may, so that boards have their turns."""
    answers, sent = max(work.answers for work in works), max(work.sent for work in works)
    same("two answers to each reader in a turn: one came, and one had come with it", 0 < answers <= 2 or answers, True)
    same("a part to each reader in a turn, and news", 0 < sent <= 2 * serving.PART or sent, True)


def drain(readers: Sequence[Events]) -> None:
    """They take what is there."""
    for line in select.select([reader.line for reader in readers], [], [], 0)[0]:
        reader = next(reader for reader in readers if reader.line is line)
        reader.text += line.recv(1 << 16)


def slow() -> None:
    long_game = a_board(1, 0, moves=MOVES * 300, positions=POSITIONS[:1] + POSITIONS[1:] * 300, pgn="x" * 1_000_000)
    with Site(PAUSE=0.01, TAKEN=5.0, SLOWEST=10**9, SWEEP=0.05) as site:
        site.show(long_game)
        site.until("/01.pgn", lambda content: len(content) == 1_000_000)
        lines = [Events(site, small=True).line for _ in range(20)]
        for path in ["/01.pgn", "/round.pgn", "/state.json"] * 5:
            line = socket.socket()
            line.setsockopt(socket.SOL_SOCKET, socket.SO_RCVBUF, 4096)
            line.settimeout(PATIENCE)
            line.connect(site.address)
            line.sendall(f"GET {path} HTTP/1.1\r\nHost: localhost\r\n\r\n".encode())
            lines.append(line)
        quick = Events(site)
        works = [site.show()]
        for change in range(20):
            works.append(site.show({**long_game, "state": f"change {change}"}))
            quick.until(lambda: quick.boards and quick.boards[1]["state"] == f"change {change}")
        few_in_a_turn(works)
        ends = time.monotonic() + PATIENCE
        while site.readers > 1 and time.monotonic() < ends:
            site.show()
            time.sleep(0.02)
        same("they are dropped", site.readers, 1)
        # What the system has kept for each comes drop by drop: two are enough.
        same("and have had a part", [len(rest(line)) < 900_000 for line in (lines[0], lines[-1])], [True, True])
        for line in lines:
            line.close()
        same("the others aren't", quick.boards[1]["state"], "change 19")
        site.show(a_board(1, 1, state="after"))
        quick.until(lambda: quick.boards[1]["state"] == "after")
        quick.close()


def wait_for_much() -> None:
    """What waits for readers has a limit of its own."""
    with Site(MOST_UNSENT=3_000_000, PAUSE=0.01, SWEEP=0.05) as site:
        lines = []
        for turn in range(6):
            site.show(a_board(1, 1, pgn=f"{turn}" * 1_000_000))
            site.until("/01.pgn", lambda content: content.startswith(b"%d" % turn))
            line = socket.socket()
            line.setsockopt(socket.SOL_SOCKET, socket.SO_RCVBUF, 4096)
            line.settimeout(PATIENCE)
            line.connect(site.address)
            line.sendall(b"GET /01.pgn HTTP/1.1\r\nHost: localhost\r\nConnection: close\r\n\r\n")
            line.recv(1)
            lines.append(line)
        ends = time.monotonic() + PATIENCE
        site.show()
        while site.readers > 3 and time.monotonic() < ends:
            site.show()
        got = [len(rest(line)) > 900_000 for line in lines]
        same("those go that have waited longest, the others get all", got, [False] * 3 + [True] * 3)
        for line in lines:
            line.close()


def full() -> None:
    with Site(MOST_READERS=21, WHOLE=60, IDLE=60) as site:  # of which this computer may have 19
        ready(site)
        idle = [site.line() for _ in range(19)]
        for line in idle[:1]:
            line.sendall(b"GET /icon.svg HTTP/1.1\r\nHost: localhost\r\n\r\n")
            same("an answer", one_answer(line)[0], 200)
        same("one more: an idle one goes", site.get("/icon.svg")[0], 200)
        same("the oldest", rest(idle[0]), b"")
        readers = [Events(site) for _ in range(19)]
        for reader in readers:
            reader.until(lambda: 1 in reader.boards)
        status, fields, _ = site.get("/icon.svg")
        same("all follow the events: no more", (status, "Retry-After" in fields), (503, True))
        readers.pop().close()
        same("one has gone", parted_until(site, 200), 200)
        site.show(a_board(1, 3))
        for reader in readers:
            reader.until(lambda: len(reader.boards[1]["moves"]) == 3)
        same("those who follow still do", len(readers), 18)
        for line in idle + [reader.line for reader in readers]:
            line.close()


def all_are_answered() -> None:
    """A school behind one address: as many as there is room for follow the events, and each of 150 more gets an answer, with a
    sentence and when to come again."""
    with Site(MOST_READERS=128, WHOLE=60, IDLE=60) as site:
        ready(site)
        readers = [Events(site) for _ in range(120)]
        for reader in readers:
            reader.until(lambda: 1 in reader.boards)
        lines = [site.line() for _ in range(150)]
        for line in lines:
            with contextlib.suppress(OSError):  # it may have been answered already
                line.sendall(b"GET / HTTP/1.1\r\nHost: localhost\r\n\r\n")
        answers = [rest(line) for line in lines]
        wanted = (b"HTTP/1.1 503 ", b"Refresh: 5", b"As many readers as there is room for are here already: this page asks again")
        same("all", [number for number, answer in enumerate(answers) if not all(part in answer for part in wanted)], [])
        site.show(a_board(1, 3))
        for reader in readers:
            reader.until(lambda: len(reader.boards[1]["moves"]) == 3)
        for line in lines + [reader.line for reader in readers]:
            line.close()


def shares() -> None:
    for readers, expected in [(256, 240), (20, 18), (1, 1), (0, 1)]:
        same(f"of {readers} places", serving.share(readers), expected)
    for address, host in [
        ("192.168.1.5", "192.168.1.5"), ("::ffff:192.168.1.5", "192.168.1.5"), ("::ffff:127.0.0.1", "127.0.0.1"),
        ("::1", "::1"), ("2001:db8::7", "2001:db8::7"), ("fe80::7%eth0", "fe80::7%eth0"),
    ]:  # fmt: skip
        same(f"the machine at {address}", serving.host_of(address), host)


def one_machine() -> None:
    """One machine opens all connections that it can: others are answered, and so is one more of its own once it lets one go."""
    with Site("0.0.0.0:0", MOST_READERS=40, WHOLE=60, IDLE=60) as site:
        ready(site)
        port = site.address[1]

        def comes(host: str) -> socket.socket:
            line = socket.create_connection(("127.0.0.1", port), PATIENCE, source_address=(host, 0))
            with contextlib.suppress(ConnectionResetError, BrokenPipeError):
                line.sendall(b"GET /events HTTP/1.1\r\nHost: localhost\r\n\r\n")
            return line

        def status(line: socket.socket) -> bytes:
            with contextlib.suppress(ConnectionResetError):
                return line.recv(12)[9:]
            return b""

        lines: List[socket.socket] = []
        answers: List[bytes] = []
        for _ in range(60):
            lines.append(comes("127.0.0.2"))
            answers.append(status(lines[-1]))
        same("of 40 places 37", answers.count(b"200"), 37)
        same("the first ones", answers[:37], [b"200"] * 37)
        same("all others are told that there are too many", answers[37:], [b"503"] * 23)
        for host in ("127.0.0.3", "127.0.0.4", "127.0.0.1"):
            lines.append(comes(host))
            same(f"another follows, at {host}", status(lines[-1]), b"200")
        lines.pop(0).close()
        ends = time.monotonic() + PATIENCE
        seen = b""
        while seen != b"200" and time.monotonic() < ends:
            with comes("127.0.0.2") as line:
                seen = status(line)
            time.sleep(0.02)
        same("one of its own has gone: the next is answered", seen, b"200")
        for line in lines:
            line.close()


def parted_until(site: Site, status: int) -> int:
    """The status of an answer, once it is this one."""
    ends = time.monotonic() + PATIENCE
    while True:
        seen = site.get("/icon.svg")[0]
        if seen == status or time.monotonic() > ends:
            return seen


def noise() -> None:
    """Bytes without sense, connections that break off."""
    with Site() as site:
        ready(site)
        state = site.get("/state.json")[2]
        for number in range(150):
            with site.line() as line:
                line.sendall(bytes((number * 7 + step * 13) % 256 for step in range(number * 3)))
                if number % 3 == 0:
                    line.setsockopt(socket.SOL_SOCKET, socket.SO_LINGER, b"\1\0\0\0\0\0\0\0")
        for number in range(50):
            with site.line() as line:
                line.sendall(b"GET /events HTTP/1.1\r\nHost: localhost\r\n\r\n" + b"more" * number)
        same("nothing has changed", site.get("/state.json")[2], state)
        same("it answers", parted(site.ask(b"GET / HTTP/1.0\r\n\r\n"))[0], 200)
        site.show()


def pipelined() -> None:
    """Readers that send requests as fast as they can, and take the answers, or none of them."""
    with Site() as site:
        ready(site, BOARDS)
        site.show()
        memory = site.memory()
        lines = [site.line() for _ in range(PIPELINING)]
        waiting = dict.fromkeys(lines, REQUESTS)
        for line in lines:
            line.setblocking(False)
        works = [site.show()]
        sent, ends = 0, time.monotonic() + 4
        looks = time.monotonic() + 0.2
        while time.monotonic() < ends:
            takers = [line for number, line in enumerate(lines) if number % 2]  # the others take nothing
            readable, writable, _ = select.select(takers, lines, [], 0.05)
            for line in readable:
                line.recv(1 << 16)
            for line in writable:
                count = line.send(waiting[line])
                sent += count
                waiting[line] = waiting[line][count:] + waiting[line][:count]
            if time.monotonic() > looks:
                works.append(site.show())
                looks = time.monotonic() + 0.2
        few_in_a_turn(works)
        grown = site.memory() - memory
        same(f"{sent} bytes of requests take less than {MOST_MEMORY} kB", grown < MOST_MEMORY or grown, True)
        print(f"  {PIPELINING} readers that pipeline: {grown} kB more")
        for line in lines:
            line.close()


TABLES = [many, slow, wait_for_much, full, all_are_answered, shares, one_machine, noise, pipelined]
