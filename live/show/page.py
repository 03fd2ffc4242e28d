"""A round on a page: what any browser shows of the boards, and what a broadcast fetches. It can only be read. A call has two: the
spectators', at `--page`, and the arbiter's. That is on this computer alone, unless `--arbiter-page` says where else; then it has a password.

    door = Door(read_address("8000"), read_names([]))
    page = Page(loop, door, SPECTATORS, trouble)  # Refused if nothing can be served there
    page.url                             # http://127.0.0.1:8000/
    page.show(RoundView(event, boards))  # at each change, as often as you like; it takes no time
    page.close()

What is shown is a value; boards that haven't changed may be the same objects as before. Readers get the newest state, at most
ten times a second. `trouble` gets errors that end one reader's connection and should never happen.

It serves `/` and its files, `/state.json`, `/round.pgn`, `/01.pgn` and so on by the boards' numbers, and `/events`: for each
change a `round` (its boards' numbers) or a `board`, as its text has it, and in between a `beat` with the time of day.
"""

from __future__ import annotations

import contextlib
import hashlib
import pathlib
import secrets
import time
from dataclasses import dataclass
from typing import Any, Callable, Dict, List, Optional, Sequence, Tuple

from live.out.broadcast import Broadcast
from live.out.spectators import json_text, pgn_path, round_pgn, round_text
from live.run.loop import Guard, Loop, Restarted, Timer, Turns
from live.run.refused import Refused
from live.show.address import HERE, HIGHEST_PORT, Address, Door, Names, Pages
from live.show.serving import PART, Content, Server
from live.show.view import ArbiterView, Board, RoundView
from live.words.message import ENGLISH, Message, used_in

PAUSE = 0.1  # seconds between two changes that readers see
GATHERED = 0.05  # seconds in which changes are shown at once
AGAIN = 1.0  # seconds until a page is started again after an error
BEAT = 2.0  # seconds, and up to a sweep more; a page that hears nothing for two beats says so (SILENT in page/stream.js)
RETRY = 1000  # milliseconds after which a browser connects again
FOLDER = pathlib.Path(__file__).resolve().parent / "page"
KINDS = {
    ".html": "text/html; charset=utf-8",
    ".js": "text/javascript; charset=utf-8",
    ".css": "text/css; charset=utf-8",
    ".svg": "image/svg+xml",
}
PIECES, WORDS = b"<!-- pieces.svg -->", b"<!-- words.en.json -->"  # the places in the page where they are put in
SHARED = ("boards.js", "card.js", "chess.js", "clock.js", "diagram.js", "game.js", "grid.js", "icon.svg", "message.js", "names.js",
          "page.css", "files.js", "pieces.svg", "sheet.js", "source.js", "stream.js")  # fmt: skip
PGN = "application/vnd.chess-pgn"
JSON = "application/json"
ANY_PORT = 0
AS_BEFORE = Message("page.as_before")
NOT_AS_BEFORE = Message("page.not_as_before")
THIS_COMPUTER = Names(frozenset({"localhost"}))  # who leads another name here could read a page without a password
LETTERS = "abcdefghjkmnpqrstuvwxyz23456789"  # none looks like another one
GROUPS, GROUP = 4, 4  # of a password: 79 bits


@dataclass(frozen=True)
class Site:
    """The files of a page: the one at `/`, and all others. A reader gets no other file."""

    index: str
    files: Tuple[str, ...]


ARBITER = Site("index.html", (*SHARED, "arbiter.css", "large.js", "page.js", "tile.js"))
SPECTATORS = Site("spectators.html", (*SHARED, "spectators.css", "spectators.js"))


class Shown:
    """A board as readers have it since a change."""

    def __init__(self, board: Board, change: int, changes: Changes, before: Optional[Shown]) -> None:
        self.board, self.change = board, change
        self._before: Any = before.board if before else None  # of the same kind
        self._identifier = f"{changes.epoch}-{change}"
        self._offset = changes.offset
        self._whole = b""

    @property
    def whole(self) -> bytes:
        """The whole board in JSON."""
        if not self._whole:
            self._whole = self.board.text(self._offset, None)
        return self._whole

    def event(self, is_news: bool) -> bytes:
        """The event with the whole board, or with what is new to readers who had it before this change."""
        if not is_news or self._before is None:
            return event("board", self.whole, self._identifier)
        return event("board", self.board.text(self._offset, self._before), self._identifier)


class Changes:
    """The boards as readers have them, and what has changed."""

    def __init__(self, offset: float) -> None:
        self.offset = offset  # turns the loop's time into seconds since 1970
        self.epoch = secrets.token_hex(4)  # other calls of the recorder have other events
        self.last = self._before = 0  # the last change of the last publication, and of the one before it
        self._news: Optional[bytes] = None  # what is new to readers who have seen the one before it
        self.boards: Dict[int, Shown] = {}  # by number, in the order of their changes

    def take(self, boards: Sequence[Board]) -> None:
        """Readers have these boards from now on."""
        self._before, self._news = self.last, None
        for gone in set(self.boards) - {board.number for board in boards}:
            del self.boards[gone]
        for board in boards:
            before = self.boards.get(board.number)
            if before is None or before.board is not board and before.board != board:
                self.last += 1
                self.boards.pop(board.number, None)
                self.boards[board.number] = Shown(board, self.last, self, before)

    def since(self, seen: int) -> Tuple[bytes, int]:
        """The next events for a reader who has seen everything up to this change, and the last change in them."""
        if seen == self._before:
            if self._news is None:
                self._news = b"".join(shown.event(True) for shown in self._newer(seen))
            if len(self._news) <= PART:
                return self._news, self.last
        parts: List[bytes] = []
        size = 0
        for shown in self._newer(seen):
            parts.append(shown.event(False))
            size += len(parts[-1])
            seen = shown.change
            if size >= PART:
                break
        return b"".join(parts), seen

    def _newer(self, seen: int) -> List[Shown]:
        """The boards that have changed after this change, in the order of their changes."""
        newer: List[Shown] = []
        for shown in reversed(list(self.boards.values())):
            if shown.change <= seen:
                break
            newer.append(shown)
        return newer[::-1]


class Page:
    """The page of a round, at an address."""

    def __init__(self, loop: Turns, door: Door, site: Site, trouble: Callable[[str], None]) -> None:
        self._loop = loop
        self.changes = Changes(time.time() - loop.now())
        self.header = b""
        self._round = RoundView("")
        self._next: Optional[RoundView] = None
        self._publishes: Optional[Timer] = None
        self._published_at = loop.now() - PAUSE
        self._key = hashlib.blake2b(door.embed.encode("ascii")).digest()
        self._files = {f"/{name}": self._content(KINDS[pathlib.Path(name).suffix], (FOLDER / name).read_bytes()) for name in site.files}
        self._files["/"] = self._content(KINDS[".html"], index_of(site))
        self._made: Dict[str, Content] = {}
        self.begin(self._round)
        self._server = Server(loop, door, self, trouble)

    @property
    def url(self) -> str:
        return f"http://{self._server.address.text}/"

    @property
    def readers(self) -> int:
        """The number of connections."""
        return len(self._server.readers)

    def now(self) -> float:
        """The time of day, counted on from the page's beginning."""
        return self._loop.now() + self.changes.offset

    # What is shown.

    def begin(self, state: RoundView) -> None:
        """Shows this at once."""
        self._next, self._round = None, state
        header = state.header
        self.header = self.header if header == self.header else header
        self._made.clear()
        self.changes.take(state.boards)

    def show(self, state: RoundView) -> None:
        """Shows this from now on."""
        self._next = state
        if self._publishes is None:
            wait = self._published_at + PAUSE - self._loop.now()
            self._publishes = self._loop.after(max(0.0, wait), self._publish)

    def _publish(self) -> None:
        self._publishes = None
        self._published_at = self._loop.now()
        if self._next is not None:
            self.begin(self._next)
            self._server.wake()

    # What is served.

    def content(self, path: str) -> Optional[Content]:
        """The content of this path, if any."""
        found = self._files.get(path) or self._made.get(path)
        if found is None:
            found = self._make(path)
            if found is not None:
                self._made[path] = found
        return found

    def _make(self, path: str) -> Optional[Content]:
        boards = self._round.boards
        if path == "/state.json":
            texts = [self.changes.boards[board.number].whole for board in boards]
            return self._content(JSON, round_text(self._round.values, texts))
        if path == "/round.pgn":
            return self._content(PGN, round_pgn(board.pgn for board in boards))
        board = next((board for board in boards if pgn_path(board.number) == path), None)
        return self._content(PGN, board.pgn) if board else None

    def _content(self, kind: str, body: bytes) -> Content:
        """Its tag is another one for another site that may read it: a browser that has the same tag keeps who might read it before."""
        return Content(kind, body, f'"{hashlib.blake2b(body, digest_size=12, key=self._key).hexdigest()}"')

    def stream(self, path: str, last: str) -> Optional[Events]:
        """The events of this path, from the one after `last` on, if it has events."""
        if path != "/events":
            return None
        epoch, _, seen = last.partition("-")
        known = epoch == self.changes.epoch and seen.isascii() and seen.isdigit() and len(seen) < 16
        return Events(self, int(seen) if known and int(seen) <= self.changes.last else 0)

    def close(self) -> None:
        """Ends all connections."""
        if self._publishes:
            self._publishes.cancel()
        self._server.close()


class Events:
    """The events for one reader, who has seen all changes up to one. A slow reader misses states that were soon over."""

    def __init__(self, page: Page, seen: int) -> None:
        self._page, self._seen = page, seen
        self._header = b""
        self._beats_at = 0.0

    def more(self) -> bytes:
        """The next events."""
        now = self._page.now()
        first = b""
        if now >= self._beats_at:
            if not self._header:
                first = b"retry: %d\n" % RETRY
            first += event("beat", json_text({"now": round(now, 1)}))
            self._beats_at = now + BEAT
        if self._header is not self._page.header:
            self._header = self._page.header
            first += event("round", self._header)
        boards, self._seen = self._page.changes.since(self._seen)
        return first + boards if first else boards


def event(kind: str, data: bytes, identifier: str = "") -> bytes:
    """A server-sent event. Its data is one line."""
    named = f"id: {identifier}\n" if identifier else ""
    return f"event: {kind}\n{named}data: ".encode("ascii") + data + b"\n\n"


def index_of(site: Site) -> bytes:
    """The page at `/`. The pieces come with it, so no board is shown empty if another answer fails; and so do the sentences of its
    scripts, for which nobody waits then."""
    code = "".join((FOLDER / name).read_text("utf-8") for name in site.files if name.endswith(".js"))
    words = json_text(used_in(code, ENGLISH)).replace(b"<", rb"\u003c")
    return (FOLDER / site.index).read_bytes().replace(PIECES, (FOLDER / "pieces.svg").read_bytes()).replace(WORDS, words)


class RoundPage:
    """A page that is started again if an error ends it. `trouble` gets errors that should never happen."""

    def __init__(self, loop: Loop, door: Door, site: Site) -> None:
        """Refused if no page can be served there."""
        self._door, self._site = door, site
        self.view: Callable[[], RoundView] = lambda: RoundView("")  # what is shown, to the first reader too
        self._timer: Optional[Timer] = None
        self.trouble: Callable[[str], None] = lambda text: None
        self._part = Restarted(loop, self._begin, lambda text: self.trouble(text), AGAIN)

    def _begin(self, guard: Guard) -> None:
        self._timer = None
        self._page = Page(guard, self._door, self._site, lambda text: self.trouble(text))
        guard.opened(self._page.close)
        guard.call(lambda: self._page.begin(self.view()))

    @property
    def url(self) -> str:
        return self._page.url

    def shows(self, view: Callable[[], RoundView]) -> None:
        """Shows this from now on. Call `changed` when it has changed."""
        self.view = view
        self._part.guard.call(lambda: self._page.begin(view()))

    def changed(self) -> None:
        if self._timer is None:
            self._timer = self._part.guard.after(GATHERED, self._show)

    def _show(self) -> None:
        self._timer = None
        self._page.show(self.view())

    def close(self) -> None:
        self._part.end()


def new_password() -> str:
    """A password that is easy to type and can't be guessed."""
    return "-".join("".join(secrets.choice(LETTERS) for _ in range(GROUP)) for _ in range(GROUPS))


@dataclass(frozen=True)
class Title:
    """What is shown above the boards."""

    event: str
    round: str = ""
    late: str = ""  # how late spectators see them, in words

    @property
    def said(self) -> Tuple[Tuple[str, str], ...]:
        """What is shown in addition to the event."""
        return tuple((name, value) for name, value in (("round", self.round), ("late", self.late)) if value)


class TwoPages:
    """The pages of a call. Refused if one that was asked for can't be served. One that was kept from before is left out then: the
    boards are recorded all the same."""

    def __init__(self, loop: Loop, pages: Pages, are_kept: bool) -> None:
        self._loop, self._are_kept = loop, are_kept
        self._left_out: List[str] = []  # why
        self._password = ""
        self._spectators: Optional[RoundPage] = None
        if pages.spectators:
            self._spectators = self._page(Door(pages.spectators, pages.names, embed=pages.embed), SPECTATORS)
        self._arbiter = self._arbiters(pages) if pages.any else None
        self.trouble: Callable[[str], None] = lambda text: None

    def _page(self, door: Door, site: Site) -> Optional[RoundPage]:
        """A page behind this door, unless it is left out."""
        try:
            return RoundPage(self._loop, door, site)
        except Refused as refused:
            if not self._are_kept:
                raise
            self._left_out.append(refused.lines[0])
            return None

    def _arbiters(self, pages: Pages) -> Optional[RoundPage]:
        """The arbiter's page. If no address is given, it is on this computer alone, at the next port or at any free one."""
        if pages.arbiter and pages.arbiter.host not in (HERE, "::1"):
            self._password = new_password()
            return self._page(Door(pages.arbiter, pages.names, self._password), ARBITER)
        if pages.arbiter:
            return self._page(Door(pages.arbiter, THIS_COMPUTER), ARBITER)
        port = pages.spectators.port if pages.spectators else HIGHEST_PORT
        if port < HIGHEST_PORT:
            with contextlib.suppress(Refused):
                return RoundPage(self._loop, Door(Address(HERE, port + 1), THIS_COMPUTER), ARBITER)
        return RoundPage(self._loop, Door(Address(HERE, ANY_PORT), THIS_COMPUTER), ARBITER)

    def show(self, title: Title, arbiter: ArbiterView, broadcast: Broadcast) -> None:
        """Shows these from now on. What spectators see comes from the broadcast alone."""
        for page in self._all:
            page.trouble = self.trouble
        if self._spectators:
            broadcast.on_news = self._spectators.changed
            self._spectators.shows(lambda: RoundView(title.event, broadcast.boards, (*title.said, *broadcast.matches)))
        if self._arbiter:
            self._arbiter.shows(arbiter.view)

    @property
    def _all(self) -> List[RoundPage]:
        return [page for page in (self._spectators, self._arbiter) if page]

    def changed(self) -> None:
        """A board has changed."""
        if self._arbiter:
            self._arbiter.changed()

    def told(self, what: str) -> List[str]:
        """Lines that say where they are served, and why one isn't."""
        lines: List[str] = [Message("page.shown_at", what=what, url=self._spectators.url)] if self._spectators else []
        if self._arbiter and not self._password:
            lines.append(Message("page.arbiters", url=self._arbiter.url))
        if self._left_out:
            lines += [*self._left_out, NOT_AS_BEFORE]
        elif self._are_kept and self._all:
            lines.append(AS_BEFORE)
        return lines

    @property
    def secret(self) -> str:
        """The line that says where the arbiter's page is, if it has a password: no file gets it."""
        if not (self._arbiter and self._password):
            return ""
        return Message("page.arbiters_with_password", url=self._arbiter.url, password=self._password)

    def close(self) -> None:
        for page in self._all:
            page.close()
