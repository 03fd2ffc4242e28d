"""Requests as bytes: what is read of them, and what is refused with which status."""

from typing import Callable, Optional

from decided.table import same

from live.show import http

HOST = b"Host: x\r\n"
READ = [
    (b"GET / HTTP/1.1\r\nHost: x\r\n\r\n", ("GET", "/", True)),
    (b"HEAD /01.pgn HTTP/1.1\r\nHost: x\r\n\r\n", ("HEAD", "/01.pgn", True)),
    (b"GET / HTTP/1.1\nHost: x\n\n", ("GET", "/", True)),
    (b"GET / HTTP/1.0\r\n\r\n", ("GET", "/", False)),
    (b"GET / HTTP/1.1\r\nHost: x\r\nConnection: close\r\n\r\n", ("GET", "/", False)),
    (b"GET / HTTP/1.1\r\nhost:x\r\nCONNECTION:  Upgrade , Close \r\n\r\n", ("GET", "/", False)),
    (b"GET /state.json?t=5 HTTP/1.1\r\nHost: x\r\n\r\n", ("GET", "/state.json", True)),
    (b"GET http://hall:80/state.json HTTP/1.1\r\nHost: x\r\n\r\n", ("GET", "/state.json", True)),
    (b"GET HTTPS://hall HTTP/1.1\r\nHost: x\r\n\r\n", ("GET", "/", True)),
    (b"GET %2e%2e HTTP/1.1\r\nHost: x\r\n\r\n", ("GET", "%2e%2e", True)),
    (b"GET / HTTP/1.2\r\nHost: x\r\nContent-Length: 0\r\n\r\n", ("GET", "/", True)),
]
HOSTS = [
    (b"GET / HTTP/1.1\r\nHost: Hall:8000\r\n\r\n", "Hall:8000"),
    (b"GET / HTTP/1.1\r\nHost:\r\n\r\n", ""),
    (b"GET / HTTP/1.0\r\n\r\n", None),
    (b"GET http://one:80/x HTTP/1.1\r\nHost: other\r\n\r\n", "one:80"),
    (b"GET HTTP://one HTTP/1.0\r\n\r\n", "one"),
    (b"GET //one/x HTTP/1.1\r\nHost: other\r\n\r\n", "other"),
]
BAD = [
    (b"\r\n\r\n", 400),
    (b"GET /\r\n\r\n", 400),
    (b"GET  / HTTP/1.1\r\nHost: x\r\n\r\n", 400),
    (b"GET / x HTTP/1.1\r\nHost: x\r\n\r\n", 400),
    (b"GET / HTTP/1.1 \r\nHost: x\r\n\r\n", 400),
    (b"GET /\x00 HTTP/1.1\r\nHost: x\r\n\r\n", 400),
    (b"GET /\xc3\xa9 HTTP/1.1\r\nHost: x\r\n\r\n", 400),
    (b"G\x00T / HTTP/1.1\r\nHost: x\r\n\r\n", 400),
    (b"GET / HTTP/1.1\r\n\r\n", 400),
    (b"GET / HTTP/1.1\r\nHost: x\r\nHost: y\r\n\r\n", 400),
    (b"GET / HTTP/1.1\r\nHost: x\r\nA b: c\r\n\r\n", 400),
    (b"GET / HTTP/1.1\r\nHost: x\r\nA: b\r\n c\r\n\r\n", 400),
    (b"GET / HTTP/1.1\r\nHost: x\r\nA: b\x00c\r\n\r\n", 400),
    (b"GET / HTTP/1.1\r\nHost: x\r\nA: b\rc\r\n\r\n", 400),
    (b"GET / HTTP/1.1\r\nHost: x\r\nnothing\r\n\r\n", 400),
    (b"GET / HTTP/2.0\r\n\r\n", 505),
    (b"POST / HTTP/1.1\r\nHost: x\r\nContent-Length: 1\r\n\r\n", 405),
    (b"OPTIONS * HTTP/1.1\r\nHost: x\r\n\r\n", 405),
    (b"get / HTTP/1.1\r\nHost: x\r\n\r\n", 405),
    (b"GET / HTTP/1.1\r\nHost: x\r\nContent-Length: 1\r\n\r\n", 413),
    (b"GET / HTTP/1.1\r\nHost: x\r\nContent-Length: -1\r\n\r\n", 413),
    (b"GET / HTTP/1.1\r\nHost: x\r\nTransfer-Encoding: chunked\r\n\r\n", 413),
    (b"GET / HTTP/1.1\r\nHost: x\r\n" + b"A: b\r\n" * 64 + b"\r\n", 431),
]
TAGS = [
    ('"a"', True), ('W/"a"', True), ('"b", "a"', True), ('"b",W/"a"', True), ("*", True),
    ('"b"', False), ("a", False), ("", False), ('"a', False),
]  # fmt: skip


def status(call: Callable[..., object], *arguments: object) -> Optional[int]:
    """The status with which it is refused, or None."""
    try:
        call(*arguments)
    except http.Bad as bad:
        return bad.status
    return None


def read() -> None:
    for head, expected in READ:
        request = http.read_request(head)
        same(repr(head), (request.method, request.path, request.keeps), expected)
    for head, host in HOSTS:
        same(f"the host of {head!r}", http.read_request(head).host, host)
    for head, refusal in BAD:
        same(repr(head[:80]), status(http.read_request, head), refusal)
    same("64 fields", status(http.read_request, b"GET / HTTP/1.1\r\nHost: x\r\n" + b"A: b\r\n" * 63 + b"\r\n"), None)


def limits() -> None:
    line = b"GET /" + b"a" * (http.LONGEST_LINE - 15) + b" HTTP/1.1\r"
    same("a line of 2,048 bytes with its CR", (len(line), http.head_end(line + b"\n\r\n")), (2048, 2051))
    same("one more", status(http.head_end, b"a" + line + b"\n\r\n"), 414)
    same("one more, without an end", status(http.head_end, b"a" * 2049), 414)
    same("not yet", http.head_end(b"a" * 2048), None)
    head = b"GET / HTTP/1.1\r\nHost: x\r\nA: "
    full = head + b"a" * (http.LONGEST_HEAD - len(head) - 4) + b"\r\n\r\n"
    same("a head of 8,192 bytes", (len(full), http.head_end(full + b"GET")), (8192, 8192))
    same("one more", status(http.head_end, head + b"a" + full[len(head) :]), 431)
    same("one more, without an end", status(http.head_end, head + b"a" * 8192), 431)
    same("the first of two", http.head_end(b"GET / HTTP/1.1\r\n\r\nGET / HTTP/1.1\r\n\r\n"), 18)


def tags() -> None:
    for given, expected in TAGS:
        request = http.Request("GET", "/", fields={"if-none-match": given})
        same(f"If-None-Match: {given}", http.has_tag(request, '"a"'), expected)
    same("no If-None-Match", http.has_tag(http.Request("GET", "/"), '"a"'), False)


def answers() -> None:
    head, content = http.complaint(405, 784111777, False, {})
    # The date is the example of RFC 9110, section 5.6.7.
    same("a complaint", head.split(b"\r\n")[:2], [b"HTTP/1.1 405 Method Not Allowed", b"Date: Sun, 06 Nov 1994 08:49:37 GMT"])
    same("says what is allowed", b"\r\nAllow: GET, HEAD\r\n" in head, True)
    same("its content", content, b"405 Method Not Allowed\n")
    same("its length", b"\r\nContent-Length: 23\r\n" in head, True)
    same("no content for HEAD", http.complaint(404, 0, True, {}, False)[1], b"")


TABLES = [read, limits, tags, answers]
