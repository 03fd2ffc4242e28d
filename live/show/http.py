"""Requests and answers of HTTP/1.1, as bytes: only what a read-only page needs.

The size of a request is limited before it is read: a request line of 2,048 bytes, a head of 8,192, no content.
"""

from __future__ import annotations

import base64
import email.utils
import hmac
import re
from dataclasses import dataclass, field
from typing import Dict, Mapping, Optional, Tuple

from live.words.message import Message

LONGEST_LINE = 2048  # bytes of a request line
LONGEST_HEAD = 8192  # bytes of a request line and its header fields
MOST_FIELDS = 64

REASONS = {
    200: "OK",
    304: "Not Modified",
    400: "Bad Request",
    401: "Unauthorized",
    404: "Not Found",
    405: "Method Not Allowed",
    408: "Request Timeout",
    413: "Content Too Large",
    414: "URI Too Long",
    421: "Misdirected Request",
    431: "Request Header Fields Too Large",
    503: "Service Unavailable",
    505: "HTTP Version Not Supported",
}
REALM = f'Basic realm="{Message("page.realm")}", charset="UTF-8"'
MORE = {
    401: Message("page.screen_has_password"),
    421: Message("page.in_numbers"),
    503: Message("page.full"),
}
POLICY = "Content-Security-Policy"
ALLOWED = "default-src 'self'; img-src 'self' data:; base-uri 'none'; form-action 'none'; frame-ancestors "
EVERYWHERE = {
    POLICY: f"{ALLOWED}'none'",
    "X-Content-Type-Options": "nosniff",
    "Cross-Origin-Resource-Policy": "same-origin",
    "Referrer-Policy": "no-referrer",
    "Cache-Control": "no-cache",
}
METHODS = ("GET", "HEAD")
TOKEN = r"[!#$%&'*+.^_`|~0-9A-Za-z-]+"
REQUEST_LINE = re.compile(rf"({TOKEN}) ([!-~]+) HTTP/(\d)\.(\d)".encode("ascii"))
FIELD = re.compile(rf"({TOKEN}):[ \t]*([\t -~\x80-\xff]*?)[ \t]*".encode("latin-1"))
ABSOLUTE = re.compile(r"https?://([^/?#]*)", re.IGNORECASE)


class Bad(Exception):
    """A request that can't be answered as asked, with the status that says why."""

    def __init__(self, status: int) -> None:
        super().__init__(REASONS[status])
        self.status = status


@dataclass(frozen=True)
class Request:
    """A request. `path` is as it was sent, without a query; nothing in it is decoded. `host` is the named server, as it was sent,
    perhaps with a port: from the target if that is a whole URI, else from the field Host (RFC 9112, 3.3); None if neither is
    there, as HTTP/1.0 allows."""

    method: str
    path: str
    keeps: bool = True  # whether the connection may be kept for the next one
    fields: Mapping[str, str] = field(default_factory=dict)  # by name, in lower case
    host: Optional[str] = None

    @property
    def with_body(self) -> bool:
        return self.method != "HEAD"


def head_end(received: bytes) -> Optional[int]:
    """The size of the first request's head, or None if it isn't complete yet. Raises Bad if it is too long."""
    line_end = received.find(b"\n")
    if (line_end if line_end >= 0 else len(received)) > LONGEST_LINE:
        raise Bad(414)
    ends = [found + len(mark) for mark in (b"\r\n\r\n", b"\n\n") for found in [received.find(mark)] if found >= 0]
    if (min(ends) if ends else len(received)) > LONGEST_HEAD:
        raise Bad(431)
    return min(ends) if ends else None


def read_request(head: bytes) -> Request:
    """The request in a complete head. Raises Bad if there is none."""
    line, *lines = [line[:-1] if line.endswith(b"\r") else line for line in head.split(b"\n")]
    match = REQUEST_LINE.fullmatch(line)
    if not match:
        raise Bad(400)
    method, target, major, minor = (part.decode("ascii") for part in match.groups())
    if major != "1":
        raise Bad(505)
    if method not in METHODS:
        raise Bad(405)
    fields = _fields([line for line in lines if line])
    if minor != "0" and "host" not in fields:
        raise Bad(400)
    if "transfer-encoding" in fields or fields.get("content-length", "0").strip("0"):
        raise Bad(413)
    ends = "close" in [token.strip().lower() for token in fields.get("connection", "").split(",")]
    host, path = _parts(target)
    return Request(method, path, minor != "0" and not ends, fields, fields.get("host") if host is None else host)


def _parts(target: str) -> Tuple[Optional[str], str]:
    """The host in a request's target, if that is a whole URI, and its path."""
    absolute = ABSOLUTE.match(target)
    path = target[absolute.end() :] or "/" if absolute else target
    return absolute.group(1) if absolute else None, path.partition("?")[0]


def _fields(lines: "list[bytes]") -> Dict[str, str]:
    if len(lines) > MOST_FIELDS:
        raise Bad(431)
    fields: Dict[str, str] = {}
    for line in lines:
        match = FIELD.fullmatch(line)
        if not match:
            raise Bad(400)
        name, value = (part.decode("latin-1") for part in match.groups())
        name = name.lower()
        if name in fields and name in ("host", "content-length"):
            raise Bad(400)
        fields[name] = f"{fields[name]}, {value}" if name in fields else value
    return fields


def has_tag(request: Request, tag: str) -> bool:
    """Whether the reader already has the content with this entity tag (`If-None-Match`)."""
    given = request.fields.get("if-none-match")
    if given is None:
        return False
    tags = [one.strip() for one in given.split(",")]
    return "*" in tags or tag in [one[2:] if one.startswith("W/") else one for one in tags]


def has_password(request: Request, password: str) -> bool:
    """Whether the reader sends this password, with any user name (RFC 7617)."""
    scheme, _, given = request.fields.get("authorization", "").partition(" ")
    if scheme.lower() != "basic":
        return False
    try:
        _, _, typed = base64.b64decode(given.strip(), validate=True).partition(b":")
    except ValueError:
        return False
    return hmac.compare_digest(typed, password.encode("utf-8"))


def answer(status: int, fields: Mapping[str, str], now: float) -> bytes:
    """The head of an answer. `now` is the time of day, in seconds since 1970."""
    dated = {"Date": email.utils.formatdate(now, usegmt=True), **EVERYWHERE, **fields}
    lines = [f"HTTP/1.1 {status} {REASONS[status]}", *(f"{name}: {value}" for name, value in dated.items())]
    return "\r\n".join(lines).encode("ascii") + b"\r\n\r\n"


def for_a_site(site: str) -> Dict[str, str]:
    """The fields with which this site alone may show the page in a frame, and read it; none if there is no such site."""
    if not site:
        return {}
    return {POLICY: f"{ALLOWED}{site}", "Cross-Origin-Resource-Policy": "cross-origin", "Access-Control-Allow-Origin": site}


def complaint(status: int, now: float, keeps: bool, more: Mapping[str, str], with_body: bool = True) -> Tuple[bytes, bytes]:
    """The head, with the server's own fields, and the content of an error answer."""
    content = "".join(f"{line}\n" for line in (f"{status} {REASONS[status]}", MORE.get(status, "")) if line).encode("ascii")
    fields = {"Content-Type": "text/plain; charset=utf-8", "Content-Length": str(len(content))}
    if status == 405:
        fields["Allow"] = ", ".join(METHODS)
    if status == 401:
        fields["WWW-Authenticate"] = REALM
    if status == 503:
        fields["Retry-After"] = fields["Refresh"] = "5"  # for programs, for browsers
    fields["Connection"] = "keep-alive" if keeps else "close"
    return answer(status, {**fields, **more}, now), content if with_body else b""
