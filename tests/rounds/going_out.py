"""A round that goes out late, to a page and by a command. The case controls the recorder's clock: fifteen minutes take no time."""

import base64
import http.server
import json
import pathlib
import re
import socket
import sys
import threading
import time
import urllib.error
import urllib.request
from typing import Dict, List, Optional, Tuple

from played import TOP
from played.hidden import NOTES, QUEUED, hidden_shots
from played.ports import free_port
from played.recorder import Live, processes
from played.stage import bytes_of, check, kill, movetext, same, stop, until, until_line
from rounds.crowds import page_of
from rounds.hall import Hall, games_of, plain, quits
from rounds.rounds import boards_of, fetch

PATHS = ["/", "/state.json", "/round.pgn", "/01.pgn", "/02.pgn", "/03.pgn", "/nothing", "/page.js", "/broadcast.pgn", "/01.delay", "/01.began"]
# Starts the recorder with clocks that are ahead of the computer's by as many seconds as a file says. It publishes quickly, and a
# run may take as long as another file says. What waits is noted.
AHEAD = """
import pathlib, runpy, sys
sys.dont_write_bytecode = True
ahead, longest, sys.argv = pathlib.Path(sys.argv[1]), pathlib.Path(sys.argv[2]), sys.argv[3:]
sys.path.insert(0, {top!r})
{notes}
from live.out import publish
publish.EACH, publish.PAUSES = 0.1, (0.1, 0.2)
run = publish.run
publish.run = lambda words, path, _: run(words, path, float(longest.read_text()))
runpy.run_path(sys.argv[0], run_name="__main__")
"""
# Puts a file to an address, with a token that it reads itself.
PUTS = """
import pathlib, sys, urllib.request
address, token, path = sys.argv[1], pathlib.Path(sys.argv[2]).read_text(), sys.argv[3]
fields = {"Authorization": "Bearer " + token}
try:
    urllib.request.urlopen(urllib.request.Request(address, pathlib.Path(path).read_bytes(), fields, method="PUT"), timeout=60).read()
except Exception as error:
    sys.exit(f"not sent: {error}")
"""
TOKEN = "lip_7Kx2vQ9rTz4WmB8n"
# Words that stand nowhere in what spectators are served; and those that stand in no answer but the page's own files, in which
# `device-width` is one and the name of a constant another.
NOWHERE = [b"alarm", b"WRONG", b"UNPLUGGED", b"NO START", b"NOT RECORDED", b"NOT PUBLISHED", b"in hand", b"waits for", b"clock stopped", b"correct",
           b"/dev", TOKEN.encode()]  # fmt: skip
NOT_TOLD = [b"device", b"differing", b"SILENT", b"LOOK", b"agrees", b"state", b"since", b".dgt"]


class Clock:
    """How far the recorder's clock is ahead, and how long a run of its command may take."""

    def __init__(self, folder: pathlib.Path) -> None:
        self._ahead, self._longest, script = folder / "ahead", folder / "longest", folder / "ahead.py"
        script.write_text(AHEAD.format(top=str(TOP), notes=NOTES))
        (folder / QUEUED).mkdir(exist_ok=True)
        self.start: List[object] = [sys.executable, script, self._ahead, self._longest]
        self.be(0)
        self.may_take(300)

    def be(self, seconds: float) -> None:
        put(self._ahead, seconds)

    def may_take(self, seconds: float) -> None:
        put(self._longest, seconds)


def put(file: pathlib.Path, seconds: float) -> None:
    """At once, as a recorder may be reading it."""
    new = file.with_suffix(".new")
    new.write_text(str(seconds))
    new.replace(file)


def raw(address: Tuple[str, int], request: str) -> bytes:
    """All that comes back, the head too. Of events, what comes first."""
    with socket.create_connection(address, 300) as line:
        line.sendall(f"{request} HTTP/1.1\r\nHost: localhost\r\nConnection: close\r\n\r\n".encode())
        line.settimeout(300)
        came = b""
        while part := line.recv(1 << 16):
            came += part
            if b"text/event-stream" in came and (b"event: board" in came or b"event: round" in came) and came.endswith(b"\n\n"):
                break
        return came


def all_served(address: Tuple[str, int]) -> Dict[str, bytes]:
    """Each byte that goes out to a spectator: the answers with their heads, and those that the page asks for itself."""
    page = raw(address, "GET /").decode("utf-8", "replace")
    named = [f"/{name}" for name in re.findall(r'(?:href|src)="/([^"#]+)"', page)]
    modules: List[str] = []
    for name in named:
        if name.endswith(".js"):
            modules += imported(address, name)
    paths = dict.fromkeys([*PATHS, *named, *modules])
    served = {path: raw(address, f"GET {path}") for path in paths}
    served.update({f"HEAD {path}": raw(address, f"HEAD {path}") for path in ("/", "/round.pgn", "/events")})
    return {**served, "/events": raw(address, "GET /events"), "POST": raw(address, "POST /")}


def imported(address: Tuple[str, int], name: str) -> List[str]:
    """The modules that one imports, and those that they import."""
    found = [f"/{other}" for other in re.findall(r"from '\./([^']+)'", raw(address, f"GET {name}").decode("utf-8", "replace"))]
    return found + [more for other in found for more in imported(address, other)]


def has_none(served: Dict[str, bytes], words: List[bytes]) -> None:
    """Nothing that was served has any of these words."""
    same([(where, word) for where, content in served.items() for word in words if word in content], [])


def is_for_spectators(served: Dict[str, bytes], folder: pathlib.Path) -> None:
    """Nothing in it is the recorder's: no alarm, no path, no device, no state of a board."""
    has_none(served, [*NOWHERE, str(folder).encode()])
    has_none({where: content for where, content in served.items() if not where.endswith((".js", ".css", "/"))}, NOT_TOLD)


def texts_of(content: bytes) -> List[str]:
    """The movetexts of the games, without clocks."""
    return [plain(" ".join(game.split(b"\n\n")[1].decode().split())) for game in games_of(content)]


def texts(path: pathlib.Path) -> List[str]:
    return texts_of(bytes_of(path))


def both_have(files: List[pathlib.Path], wanted: List[List[str]]) -> None:
    """The text that goes out has these games, and no other text was copied."""
    until(lambda: bytes_of(files[0]) == bytes_of(files[1]), "the copy, which may just be made")
    same([texts(file) for file in files], wanted)


def hidden(hall: Hall) -> List[str]:
    """The newest text that is kept of each of the two games, shown or not."""
    shots = [hidden_shots(hall.name(number)) for number in (1, 2)]
    return [text for one in shots for text in texts_of(one[-1].text if one else b"")]


def sans(port: int, number: int = 0) -> str:
    """The moves of a board of the page, where it is there."""
    return " ".join(ply["san"] for board in boards_of(port)[number : number + 1] for ply in board["moves"])


# What a move would be found by, wherever it were: its name, its text and its position.
FIRST = [b'"e4"', b"1. e4", b"/4P3/", b'"d4"', b"1. d4", b"/3P4/", b'"Nc6"', b"Nc6 {"]
FOUR = ["1. e4 e5 2. Nf3 Nc6 *", "1. d4 d5 2. c4 e6 *"]
SIX = ["1. e4 e5 2. Nf3 Nc6 3. Bb5 a6 *", "1. d4 d5 2. c4 e6 3. Nc3 Nf6 *"]
FIFTH = [b"Bb5", b"/1B2p3/", b'"Nc3"', b"3. Nc3"]


def fifteen_minutes_late(folder: pathlib.Path) -> None:
    """A round goes out fifteen minutes late, is killed in the midst and started again: spectators, the file and its copy have it
    as it was then, its result too, and nothing that they are served has a word of what is still hidden."""
    clock, port, arbiters, www = Clock(folder), free_port(), free_port(), folder / "www"
    www.mkdir()
    hall = Hall(folder, 2, clocks=(0,))
    options = ["--event", "Club", "--page", str(port), "--arbiter-page", str(arbiters), "--publish", f"cp -t {www}"]
    live = hall.record(*options, "--delay", "15", typed=True, start=clock.start)
    until_line(live, "spectators see the round 15 minutes late")
    hall.begun(live)
    address = page_of(live)
    files, unplayed = [hall.games / "broadcast.pgn", www / "broadcast.pgn"], [["*", "*"]] * 2
    until(lambda: [texts(file) for file in files] == unplayed, "both games, without a move, in both files", 0.05)
    hall.play(0, 4)
    until(lambda: sans(arbiters) == "e4 e5 Nf3 Nc6", "four plies on the arbiter's page", 0.05)
    until(lambda: len(boards_of(port)) == 2, "both boards on the spectators' page", 0.05)
    until(lambda: hidden(hall) == FOUR, "four plies of each game, kept", 0.05)
    four = bytes_of(hall.name(1) + ".pgn")
    has_none(all_served(address), FIRST)
    is_for_spectators(all_served(address), folder)
    both_have(files, unplayed)

    kill(live)
    clock.be(450)
    live = hall.record(*options, typed=True, start=clock.start)
    until_line(live, "15 minutes late as before; --delay 0 ends that")
    hall.begun(live)
    address = page_of(live)
    has_none(all_served(address), FIRST)
    hall.play(4, 6)
    until(lambda: hidden(hall) == SIX, "six plies of each game, kept", 0.05)
    both_have(files, unplayed)

    clock.be(905)
    until(lambda: sans(port) == "e4 e5 Nf3 Nc6", "four plies on the spectators' page", 0.05)
    until(lambda: texts(files[1]) == FOUR, "four plies in the copy", 0.05)
    served = {**all_served(address), "file": bytes_of(files[0]), "copy": bytes_of(files[1])}
    has_none(served, FIFTH)
    is_for_spectators(served, folder)
    same(bytes_of(files[0]).split(b"\n\n")[1], four.split(b"\n\n")[1])  # as NAME.pgn had it then, to the byte
    until(lambda: fetch(port, "/round.pgn") == served["file"], "the file's text on the spectators' page", 0.05)
    until(lambda: sans(arbiters) == "e4 e5 Nf3 Nc6 Bb5 a6", "six plies on the arbiter's page", 0.05)
    live.type("1 1-0")
    hall.until_over(live, 1, "1-0")
    until(lambda: boards_of(arbiters)[0]["result"] == "1-0", "the result on the arbiter's page", 0.05)
    same(boards_of(port)[0]["result"], "*")
    has_none(all_served(address), [b"1-0"])
    live.type("q")
    until_line(live, "spectators see the last moves at ")
    kill(live)

    clock.be(1400)
    live = hall.record(*options, typed=True, start=clock.start)
    address = page_of(live)
    until(lambda: sans(port) == "e4 e5 Nf3 Nc6 Bb5 a6", "six plies on the spectators' page", 0.05)
    has_none(all_served(address), [b"1-0"])
    clock.be(2400)
    until(lambda: [board["result"] for board in boards_of(port)] == ["1-0", "*"], "the result on the spectators' page", 0.05)
    until(lambda: texts(files[1])[:1] == ["1. e4 e5 2. Nf3 Nc6 3. Bb5 a6 1-0"], "the result in the copy", 0.05)
    hall.until_round()
    same(check(games_of(bytes_of(hall.games / "round.pgn"))[0]), "moves 6, result 1-0")
    quits(live)


class Server:
    """A server that a text is put to. `mood` says what it does with a request: `takes` it, `refuses` it, is `slow`, or `cuts` the
    connection; it may be `away`."""

    def __init__(self) -> None:
        self.mood, self.last, self.tokens = "takes", b"", set()  # type: str, bytes, set[str]
        self.asked = 0
        outer = self

        class Handler(http.server.BaseHTTPRequestHandler):
            def do_PUT(self) -> None:
                outer.asked += 1
                mood = outer.mood
                if mood == "cuts":
                    self.rfile.read(10)
                    self.connection.close()
                    return
                content = self.rfile.read(int(self.headers["Content-Length"]))
                while outer.mood == mood == "slow":
                    time.sleep(0.05)
                if mood == "takes":
                    outer.last = content
                    outer.tokens.add(self.headers["Authorization"])
                self.send_response(200 if mood == "takes" else 403)
                self.end_headers()

            def log_message(self, *_: object) -> None:
                pass

        self._handler = Handler
        self.port = free_port()
        self._server: Optional[http.server.ThreadingHTTPServer] = None

    def begin(self) -> None:
        self._server = http.server.ThreadingHTTPServer(("127.0.0.1", self.port), self._handler)
        threading.Thread(target=self._server.serve_forever, args=(0.05,), daemon=True).start()

    def end(self) -> None:
        if self._server:
            self._server.shutdown()
            self._server.server_close()
        self._server = None


def command_lines(live: Live) -> str:
    """Those of all its processes."""
    return " ".join(bytes_of(f"/proc/{number}/cmdline").replace(b"\0", b" ").decode(errors="replace") for number in processes(live.process.pid))


def published(folder: pathlib.Path) -> None:
    """The server is away, refuses, cuts connections off and is slow: an alarm says so, and goes; the last text arrives each time,
    and at the end. The token is in no file of the round, no line, no list of processes, and on no page."""
    server, arbiters = Server(), free_port()
    token, puts = folder / "token", folder / "puts.py"
    token.write_text(TOKEN)
    puts.write_text(PUTS)
    hall = Hall(folder, 1)
    command = f"{sys.executable} {puts} http://127.0.0.1:{server.port}/round.pgn {token}"
    clock = Clock(folder)
    live = hall.record("--arbiter-page", str(arbiters), "--publish", command, typed=True, start=clock.start)
    hall.begun(live)
    path, seen, ply = hall.games / "broadcast.pgn", 0, 0
    for mood, told in (
        ("away", "not sent: <urlopen error [Errno 111] Connection refused>"),
        ("refuses", "not sent: HTTP Error 403: Forbidden"),
        ("cuts", "not sent: "),
        ("slow", "the command took more than 2 s, and was ended"),
    ):
        server.mood = mood
        clock.may_take(2 if mood == "slow" else 300)
        hall.play(ply, ply + 1)
        ply += 1
        if mood == "away":
            until_line(live, f"NOT PUBLISHED: {told}")
            server.begin()
        until(lambda: f"NOT PUBLISHED: {told}" in live.lines()[seen:], f"that it is told: {told}")
        until(lambda: b"NOT PUBLISHED" in fetch_events(arbiters), "that the arbiter's page says so", 0.1)
        same(TOKEN in command_lines(live), False)
        server.mood = "takes"
        clock.may_take(300)
        until(lambda: server.last == bytes_of(path) and movetext(hall.name(1)).split(" ")[-2] in server.last.decode(), "the last text", 0.05)
        until(lambda: f"{path} is published again" in live.lines()[seen:], "that it goes out again")
        until(lambda: b"NOT PUBLISHED" not in fetch_events(arbiters), "that the arbiter's page says it no more", 0.1)
        seen = len(live.lines())
        hall.play(ply, ply + 1)
        ply += 1
        until(lambda: server.last == bytes_of(path) and movetext(hall.name(1)).split(" ")[-2] in server.last.decode(), "the next one", 0.05)
    live.type("1 1-0")
    quits(live)
    same(server.last, bytes_of(path))
    same(b"1-0" in server.last, True)
    server.end()
    same(server.tokens, {f"Bearer {TOKEN}"})
    has = [str(file) for file in hall.games.iterdir() if TOKEN.encode() in bytes_of(file)]
    same((has, TOKEN in live.lines() + live.complaint()), ([], False))


def fetch_events(port: int) -> bytes:
    """The first events of a page."""
    return raw(("127.0.0.1", port), "GET /events")


def left_unpublished(folder: pathlib.Path) -> None:
    """Where nobody takes the text at the end, the call ends all the same, with a word and a status."""
    hall = Hall(folder, 1)
    live = hall.record("--publish", "false", typed=True, start=Clock(folder).start)
    until_line(live, "NOT PUBLISHED: the command ended with status 1")
    hall.play(0, 1)
    quits(live, 3)
    same("isn't published: the command ended with status 1" in live.complaint(), True)


def opened_page(folder: pathlib.Path) -> None:
    """The arbiter's page is on this computer alone, and opens to others with a password that is printed and is nowhere else."""
    hall, port = Hall(folder, 1), free_port()
    live = hall.record("--page", str(free_port()), "--arbiter-page", f"0.0.0.0:{port}")
    hall.begun(live)
    until(lambda: "\n" in live.lines().partition("with any name and the password ")[2], "the password")
    password = live.lines().partition("with any name and the password ")[2].split()[0]
    same(re.fullmatch(r"([a-z2-9]{4}-){3}[a-z2-9]{4}", password) is not None, True)
    for path in ("/", "/state.json", "/round.pgn", "/01.pgn", "/events", "/page.js", "/nothing"):
        answer = raw(("127.0.0.1", port), f"GET {path}")
        same((path, answer[9:12], b"WWW-Authenticate: Basic" in answer, b"board" in answer), (path, b"401", True, False))
    for given, status in (("", 401), (password[:-1], 401), (password + "x", 401), (password, 200)):
        same((given, status_of(port, given)), (given, status))
    has_none(all_served(page_of(live)), [password.encode()])
    has = [str(file) for file in hall.games.iterdir() if password.encode() in bytes_of(file)]
    same((has, password in command_lines(live)), ([], False))
    same(stop(live), 0)
    alone = hall.record("--page", str(free_port()))
    until_line(alone, ", on this computer alone")
    own = int(alone.lines().partition("the arbiter's page is at http://127.0.0.1:")[2].partition("/")[0])
    until(lambda: len(json.loads(fetch(own, "/state.json"))["boards"]) == 1, "the board on the arbiter's page", 0.05)
    same(stop(alone), 0)


def status_of(port: int, password: str) -> int:
    """What is answered to a password."""
    word = base64.b64encode(f"arbiter:{password}".encode()).decode()
    request = urllib.request.Request(f"http://127.0.0.1:{port}/state.json", headers={"Authorization": f"Basic {word}"})
    try:
        with urllib.request.urlopen(request, timeout=300) as answer:
            return int(answer.status)
    except urllib.error.HTTPError as error:
        return error.code


CASES = [fifteen_minutes_late, published, left_unpublished, opened_page]
