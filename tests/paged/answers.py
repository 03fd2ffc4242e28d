"""Answers to requests over a connection: each path, odd ones, and what is too long, too late or too much."""

import contextlib
import json
import socket
import time

from decided.table import refused, same, skip

from live.run.refused import Refused
from live.show import http
from live.show.address import read_site
from paged.web import EMBEDDED, PATIENCE, Answer, Site, a_board, parted, rest

KINDS = {
    "/": "text/html; charset=utf-8",
    "/page.js": "text/javascript; charset=utf-8",
    "/page.css": "text/css; charset=utf-8",
    "/pieces.svg": "image/svg+xml",
    "/state.json": "application/json",
    "/round.pgn": "application/vnd.chess-pgn",
    "/01.pgn": "application/vnd.chess-pgn",
    "/12.pgn": "application/vnd.chess-pgn",
}
NOTHING = [
    "/x", "//", "/../x", "/../live/page.py", "/%2e%2e/page.py", "/page/index.html", "/index.html", "/page.py", "/1.pgn", "/001.pgn",
    "/03.pgn", "/-1.pgn", "/pieces", "/page.js/", "/./page.js", "/%70age.js", "/page.js%00", "/events/", "/Events", "\\..\\x",
    "*", "http://localhost/../x", "http://localhost//", "ftp://x/", "x" * 2000, "/" * 2000,
]  # fmt: skip


def embedded() -> None:
    """A page that a site may embed says so, of that site alone, on each path; any other says that nobody may."""
    with Site(spectators=1, embedded=1) as site:
        for path in ("/", "/spectators.js", "/state.json", "/round.pgn", "/nothing"):
            _, fields, _ = site.get(path)
            policy = fields["Content-Security-Policy"].split("; ")
            same(path, [part for part in policy if part.startswith("frame-ancestors")], [f"frame-ancestors {EMBEDDED}"])
            same(f"{path}: the rest", sorted(policy)[:3], sorted(http.EVERYWHERE["Content-Security-Policy"].split("; "))[:3])
            read_by = fields.get("Access-Control-Allow-Origin"), fields.get("Cross-Origin-Resource-Policy")
            same(f"{path}: who may read it", read_by, (EMBEDDED, "cross-origin"))
        known = site.get("/state.json")[1]["ETag"]
    with Site(spectators=1) as site:
        _, fields, _ = site.get("/state.json")
        same("the same content, known from then, is sent again: the browser would keep who might read it",
             site.get("/state.json", f"If-None-Match: {known}")[0], 200)  # fmt: skip
        same("nobody", (fields.get("Access-Control-Allow-Origin"), fields["Cross-Origin-Resource-Policy"]), (None, "same-origin"))
    for typed, expected in (
        ("https://Chess.Example.org/", "https://chess.example.org"), ("http://localhost:8080", "http://localhost:8080"),
        ("http://192.168.1.5", "http://192.168.1.5"),
    ):  # fmt: skip
        same(typed, read_site(typed), expected)
    for typed in ("*", "chess.example.org", "https://", "https://a b", "https://x/page", "https://x; script-src *", "null", "https://*.example.org",
                  "ftp://x", "https://x y"):  # fmt: skip
        why = f"--embed {typed!r}: it is the site whose pages show this one, as https://chess.example.org"
        same(typed, refused(typed, Refused, read_site, typed), why)


def paths() -> None:
    with Site() as site:
        site.show(a_board(1, 3), a_board(12, 2, pgn=""))
        site.until("/state.json", lambda content: b"White 12" in content)
        for path, kind in KINDS.items():
            status, fields, content = site.get(path)
            same(path, (status, fields["Content-Type"], int(fields["Content-Length"])), (200, kind, len(content)))
            safe = {name: fields.get(name) for name in http.EVERYWHERE}
            same(f"{path}: the fields that keep a browser safe", safe, http.EVERYWHERE)
            head = site.get(path, method="HEAD")
            same(f"HEAD {path}", (head[0], head[1]["ETag"], head[1]["Content-Length"], head[2]),
                 (200, fields["ETag"], fields["Content-Length"], b""))  # fmt: skip
            known = site.get(path, f"If-None-Match: {fields['ETag']}")
            same(f"{path} that is known", (known[0], known[1]["ETag"], known[2]), (304, fields["ETag"], b""))
            same(f"{path} that was known", site.get(path, 'If-None-Match: "x"')[0], 200)
        policy = site.get("/")[1]["Content-Security-Policy"].split("; ")
        same("nothing comes from elsewhere", policy[0], "default-src 'self'")
        same("no page of somebody else has it in a frame", "frame-ancestors 'none'" in policy, True)
        same("01.pgn", site.get("/01.pgn")[2], b'[White "White 1"]\n\n3 *\n\n')
        same("a board without a game", site.get("/12.pgn")[2], b"")
        for path in NOTHING:
            answer = site.get(path)
            same(f"no {path[:30]}", (answer[0], "frame-ancestors 'none'" in answer[1]["Content-Security-Policy"]), (404, True))
        same("a whole URI", site.get("http://localhost/01.pgn")[0], 200)
        same("with a query", site.get("/01.pgn?t=5")[0], 200)
        same("HEAD /x", site.get("/x", method="HEAD")[::2], (404, b""))
        for method in ("POST", "PUT", "DELETE", "OPTIONS", "CONNECT", "TRACE", "PATCH", "BREW"):
            status, fields, _ = site.get("/", method=method)
            same(method, (status, fields["Allow"]), (405, "GET, HEAD"))


def hosts() -> None:
    """Only who asks for this computer, or for a name that --page-host gave, is answered."""
    with Site() as site:
        site.show(a_board(1, 3))
        for host, status in [
            ("localhost:8000", 200), ("127.0.0.1", 200), ("[::1]:8000", 200), ("hall", 200), ("chess.example.org:8000", 200),
            ("evil.example", 421), ("127.0.0.1.evil.example:8000", 421), ("", 421),
        ]:  # fmt: skip
            for path in ("/", "/state.json", "/round.pgn", "/page.js", "/x"):
                expected = 404 if (path, status) == ("/x", 200) else status
                same(f"Host: {host}, {path}", site.get(path, host=host)[0], expected)
        for path in ("/events", "/state.json"):
            status, fields, content = site.get(path, host="evil.example")
            same(f"{path} says what to do", (status, b"--page-host NAME" in content, b"White" in content), (421, True, False))
            same(f"{path} is as long as said", int(fields["Content-Length"]), len(content))
        same("a whole URI of another host", site.get("http://evil.example/01.pgn")[0], 421)
        same("counts, and not the field", site.get("http://localhost/state.json", host="evil.example")[0], 200)
        same("it answers on", site.get("/state.json")[0], 200)


def changes() -> None:
    with Site() as site:
        same("no board yet", json.loads(site.get("/state.json")[2]), {"event": "", "boards": []})
        same("no game yet", site.get("/round.pgn")[2], b"")
        site.show(a_board(1, 2), a_board(2, 3, pgn="Two 1-0\n\n"), a_board(3, 0, pgn=""), event="Äpfel")
        first = site.until("/round.pgn", lambda content: content)
        same("round.pgn", first, b'[White "White 1"]\n\n2 *\n\nTwo 1-0\n\n')
        state = json.loads(site.get("/state.json")[2])
        same("event", state["event"], "Äpfel")
        same("numbers", [board["number"] for board in state["boards"]], [1, 2, 3])
        same("moves", state["boards"][0]["moves"], [{"san": "e4", "clock": "1:29:55", "kind": "move"},
             {"san": "e5", "clock": "1:29:48", "kind": "move"}])  # fmt: skip
        same("pgn", state["boards"][1]["pgn"], "/02.pgn")
        tags = {path: site.get(path)[1]["ETag"] for path in ("/state.json", "/round.pgn", "/01.pgn", "/02.pgn")}
        site.show(a_board(1, 3))
        site.until("/round.pgn", lambda content: content != first)
        for path, changed in [("/state.json", 200), ("/round.pgn", 200), ("/01.pgn", 200), ("/02.pgn", 304)]:
            same(f"{path} after a move", site.get(path, f"If-None-Match: {tags[path]}")[0], changed)
        site.show(numbers=[2])
        site.until("/01.pgn", lambda content: content.startswith(b"404"))
        same("a board that is gone", site.get("/round.pgn")[2], b"Two 1-0\n\n")


def long_ones() -> None:
    with Site() as site:
        same("a long path", site.get("/" + "a" * 3000)[0], 414)
        same("a long line without an end", site.status(b"GET /" + b"a" * 300_000), 414)
        same("a long field", site.get("/", "A: " + "a" * 9000)[0], 431)
        same("a long head without an end", site.status(b"GET / HTTP/1.1\r\n" + b"A: b\r\n" * 30_000), 431)
        same("many fields", site.get("/", *["A: b"] * 100)[0], 431)
        same("content", site.get("/", "Content-Length: 5")[0], 413)
        same("NUL", site.status(b"GET /\x00 HTTP/1.1\r\nHost: localhost\r\n\r\n"), 400)
        same("no HTTP", site.status(b"\x16\x03\x01\x02\x00\x01\x00\x01\xfc\x03\x03\r\n\r\n"), 400)
        same("HTTP/2", site.status(b"PRI * HTTP/2.0\r\n\r\nSM\r\n\r\n"), 505)
        same("it is well", site.get("/")[0], 200)


def connections() -> None:
    with Site() as site:
        request = b"GET /icon.svg HTTP/1.1\r\nHost: localhost\r\n\r\n"
        with site.line() as line:
            seen = []
            for _ in range(3):
                line.sendall(request)
                seen.append(one_answer(line))
            same("one after the other", [answer[0] for answer in seen], [200, 200, 200])
            line.sendall(b"\r\n" + request[:9])
            time.sleep(0.05)
            line.sendall(request[9:])
            same("in two parts, after an empty line", one_answer(line)[2], seen[0][2])
            line.sendall(b"GET /x HTTP/1.1\r\nHost: localhost\r\n\r\n")
            same("a path that isn't there ends no connection", one_answer(line)[0], 404)
            line.sendall(request.replace(b"Host", b"Connection: close\r\nHost"))
            same("and then it is closed", (parted(rest(line))[0]), 200)
        together = site.ask(request * 40 + request.replace(b"Host", b"Connection: close\r\nHost"))
        same("many at once", together.count(b"HTTP/1.1 200 OK"), 41)
        bad = b"POST / HTTP/1.1\r\nHost: localhost\r\n\r\n"
        same("after a bad one nothing is answered", site.ask(bad + request).count(b"HTTP/"), 1)
        old = parted(site.ask(b"GET /icon.svg HTTP/1.0\r\n\r\n"))
        same("HTTP/1.0", (old[0], old[1]["Connection"], old[2]), (200, "close", seen[0][2]))
        with site.line() as line:
            line.sendall(request)
            line.shutdown(socket.SHUT_WR)
            same("its own end is closed", parted(rest(line))[2], seen[0][2])


def one_answer(line: socket.socket) -> Answer:
    """The status, the fields and the content of one answer on a connection that is kept."""
    came = b""
    while b"\r\n\r\n" not in came:
        came += line.recv(1)
    fields = parted(came)[1]
    content = b""
    while len(content) < int(fields["Content-Length"]):
        content += line.recv(int(fields["Content-Length"]) - len(content))
    return (*parted(came)[:2], content)


def late_ones() -> None:
    with Site(WHOLE=0.4, IDLE=0.4, LINGER=0.4, SWEEP=0.05) as site:
        with site.stopped():
            line = site.line()
            line.sendall(b"GET / HTTP/1.1\r\nHost:")
        with line:
            same("half a request", parted(rest(line))[0], 408)
        begun = time.monotonic()
        with site.line() as line:
            same("nothing is asked", rest(line), b"")
            same("and not at once", time.monotonic() - begun > 0.2, True)
        with site.stopped():
            line = site.line()
            line.sendall(b"GET /icon.svg HTTP/1.1\r\nHost: localhost\r\n\r\n")
        with line:
            same("an answer", one_answer(line)[0], 200)
            same("nothing more is asked", rest(line), b"")
        with site.stopped():
            line = site.line()
            line.sendall(b"G")
        with line, contextlib.suppress(BrokenPipeError, ConnectionResetError):
            begun = time.monotonic()
            line.settimeout(0.05)
            came = b""
            while b"408" not in came and time.monotonic() < begun + PATIENCE:
                line.sendall(b"G")
                try:
                    came += line.recv(4096)
                except socket.timeout:
                    pass
            same("a byte now and then makes no time", b"408" in came, True)


def addresses() -> None:
    for address in ("[::1]:0", "0.0.0.0:0", "127.0.0.1:0"):
        if address.startswith("[") and not has_ipv6():
            skip(f"at {address}", "this machine has no IPv6")
            continue
        with Site(address) as site:
            same(f"at {address}", (site.url.startswith("http://" + address[:-2]), site.get("/")[0]), (True, 200))


def has_ipv6() -> bool:
    try:
        with socket.socket(socket.AF_INET6) as line:
            line.bind(("::1", 0))
        return True
    except OSError:
        return False


TABLES = [paths, embedded, hosts, changes, long_ones, connections, late_ones, addresses]
