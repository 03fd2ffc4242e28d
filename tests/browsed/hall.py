"""Boards on the ports of a browser: what a board sends goes to the page that has its port open, and what that writes to the
board."""

from __future__ import annotations

import contextlib
import json
import os
import pathlib
import select
import termios
import time
from typing import Callable, List, Optional, Sequence

from browsed.page import RECORDER, Device, Page, asked
from paged.devtools import Browser, Json
from played.boards import Board
from played.stage import LIMIT, Patience, Stage, a_board

STARTS = "Starting"  # what the page says before all is there
SCREEN = (1366, 768)
PAUSE = 0.004  # seconds between two looks
DROPPED = 15  # seconds after which a file that the browser hasn't begun to save is given it again
TRIES = 4  # to save a file


class Port:
    """A cable with a board. `limit` is how many bytes more go over it; the others wait."""

    def __init__(self, number: int, board: Board) -> None:
        self.number, self.board = number, board
        self.is_granted = False
        self.limit: Optional[int] = None
        self.holders: List[Page] = []  # the pages that have it open
        self.delivered = b""  # to the page that has it open
        self.was_shared = False

    @property
    def device(self) -> Device:
        return Device(self.number, self.is_granted, self.board.plugged)

    def turn(self) -> None:
        """What the board has sent goes to the page."""
        if not self.board.plugged:
            return
        os.set_blocking(self.board.slave, False)
        if not self.holders:
            termios.tcflush(self.board.slave, termios.TCIFLUSH)  # what nobody has open hears nothing
            return
        count = 4096 if self.limit is None else min(4096, self.limit)
        sent = b""
        with contextlib.suppress(BlockingIOError):
            sent = os.read(self.board.slave, count) if count else b""
        if sent:
            self.limit = None if self.limit is None else self.limit - len(sent)
            self.delivered += sent
            for page in self.holders:
                page.deliver(self.number, sent)

    def take(self, written: bytes) -> None:
        if self.board.plugged:
            os.write(self.board.slave, written)


def unexpected(message: Json) -> None:
    raise AssertionError(message)


class Hall:
    """A browser, its tabs and the boards, from `with` on."""

    def __init__(self, folder: pathlib.Path, page: pathlib.Path = RECORDER, browser: Optional[Browser] = None) -> None:
        self.folder, self._path = folder, page
        self.downloads = folder / "downloads"
        self.downloads.mkdir()
        self.ports: List[Port] = []
        self.pages: List[Page] = []
        self.browser = browser or Browser()
        self.others: Callable[[Json], None] = unexpected  # hears what is none of a port
        self.may_cancel = False  # whether the browser's list may be closed with nothing chosen

    def __enter__(self) -> Hall:
        self.browser.__enter__()
        return self

    def __exit__(self, *_: object) -> None:
        self.browser.__exit__()

    def board(self, codes: Optional[Sequence[int]] = None, rotated: bool = False) -> Port:
        """A board that is plugged in."""
        number = len(self.ports) + 1
        port = Port(number, a_board(self.folder, codes, rotated, self.folder / f"board{number}", number))
        self.ports.append(port)
        for page in self.pages:
            page.value(f"boards.plug({number})")
        return port

    def tab(self, before: Sequence[str] = ()) -> Page:
        """A new tab with the page, which is open."""
        page = Page(self.browser.tab(), self, before)
        self.pages.append(page)
        page.tab.look(*SCREEN)
        page.tab.call("Browser.setDownloadBehavior", behavior="allow", downloadPath=str(self.downloads), eventsEnabled=True)
        self.open(page)
        return page

    def open(self, page: Page) -> None:
        """The page is loaded, or loaded again."""
        self.leave(page)
        page.open([port.device for port in self.ports], self._path)
        self.until(lambda: page.text("#line") not in ("", STARTS), "the page")

    def leave(self, page: Page) -> None:
        """The page has gone, and with it what it had open."""
        for port in self.ports:
            port.holders = [one for one in port.holders if one is not page]

    def close(self, page: Page) -> None:
        self.pages.remove(page)
        self.leave(page)
        page.tab.close()

    def crash(self, page: Page) -> None:
        """Its process is killed, and the tab closed."""
        self.pages.remove(page)
        self.leave(page)
        page.crash()

    def kill(self) -> None:
        """All processes of the browser are killed, and it is started again."""
        for page in self.pages:
            self.leave(page)
            page.tab.line.close()
        self.pages.clear()
        self.browser.kill()
        self.browser = Browser(self.browser.folder, self.browser.start, self.browser.seen).__enter__()

    def told(self, page: Page, message: Json) -> None:
        """What a page does with its ports."""
        if message["what"] == "began":
            self.leave(page)
        elif message["what"] == "ask":
            assert message["wasChosen"] or self.may_cancel, f"the page asks for a port, and none was to be chosen: {self.describe()}"
        elif "port" not in message:
            self.others(message)
        else:
            port = self.ports[message["port"] - 1]
            if message["what"] == "open":
                assert message["baudRate"] == 9600, message
                port.is_granted = True
                port.was_shared = port.was_shared or bool(port.holders)
                port.holders.append(page)
                port.delivered = b""
            elif message["what"] == "close":
                port.holders = [one for one in port.holders if one is not page]
            else:
                port.take(asked(message))

    # The cables.

    def pull(self, port: Port, stays_granted: bool = True) -> None:
        """Out of the computer. Without a serial number of its own, the browser forgets that the page may have it."""
        port.board.pull()
        port.holders = []
        port.is_granted = port.is_granted and stays_granted
        for page in self.pages:
            page.value(f"boards.unplug({port.number}, {str(stays_granted).lower()})")

    def plug(self, port: Port) -> None:
        port.board.plug()
        for page in self.pages:
            page.value(f"boards.plug({port.number})")

    # Time goes on.

    def turn(self, pause: float = PAUSE) -> None:
        """The boards, their ports and the pages do what is due."""
        for board in Stage.boards:
            board.turn()
        for page in self.pages:
            page.hear()
        for port in self.ports:
            port.turn()
        lines = [page.tab.line for page in self.pages]
        select.select([*lines, *(port.board.slave for port in self.ports if port.board.plugged)], [], [], pause)

    def until(self, holds: Callable[[], object], what: str) -> None:
        """Until it holds. One wait may take a third of the case's time."""
        patience = Patience(LIMIT / 3)
        while not holds():
            if time.monotonic() > Stage.ends or patience.is_over():
                raise AssertionError(f"{patience.seconds:.0f} s are over, still to come: {what}\n{self.describe()}")
            assert not self.browser.has_ended, f"the browser has ended, still to come: {what}"
            self.turn()

    def comes(self, holds: Callable[[], object], seconds: float) -> bool:
        """Whether it holds within this time."""
        patience = Patience(seconds)
        while not holds():
            if patience.is_over():
                return False
            self.turn()
        return True

    def rest(self, seconds: float) -> None:
        over = time.monotonic() + seconds
        self.until(lambda: time.monotonic() > over, "the end of a rest")

    def describe(self) -> str:
        return "\n".join(f"tab {number}: {page.describe()}" for number, page in enumerate(self.pages, 1))

    # What many cases do.

    def until_text(self, page: Page, where: str, text: str) -> None:
        self.until(lambda: page.text(where) == text, f"{text!r} at {where}")

    def until_part(self, page: Page, where: str, part: str) -> None:
        self.until(lambda: part in page.text(where), f"{part!r} in {where}")

    def until_moves(self, page: Page, moves: Sequence[str]) -> None:
        self.until(lambda: page.moves == list(moves), f"the moves {list(moves)}")

    def until_dumped(self, page: Page, port: Port) -> None:
        """The board has said again how it stands, and the page has kept that, and so all that the board has sent before."""
        start = len(page.kept(port.number))
        self.until(lambda: port.board.dump() in page.kept(port.number)[start:], f"a dump of board {port.number} that is kept")

    def add(self, page: Page, port: Port) -> None:
        """Adds a board: a click, and the choice in the browser's list."""
        self.until(lambda: page.shows("#add:enabled"), "the button that adds a board")
        page.value(f"boards.choose({port.number})")
        page.click("#add")
        self.until(lambda: page in port.holders, f"board {port.number} to be opened")

    def enlarge(self, page: Page, number: int) -> None:
        """Has a board large: a click on its card, unless it is large."""
        tile = f"a.tile[href='#{number}']"
        self.until(lambda: page.shows(tile) or page.text("#title") == f"Board {number}", f"board {number}")
        if page.text("#title") != f"Board {number}" or not page.shows("#title"):
            page.click(tile)
        self.until(lambda: page.shows("#title") and page.text("#title") == f"Board {number}", f"board {number} to be large")

    def show_all(self, page: Page) -> None:
        """Goes back from the large board to all boards: a click, after which the page needs a moment. Until then it shows the large
        board, which a case must not take for one that it has just enlarged."""
        page.click("#back")
        self.until(lambda: not page.shows("#title"), "all boards, and none large")

    def until_none_is_large(self, page: Page) -> None:
        """The page goes back to all boards by itself, once it has done what was asked."""
        self.until(lambda: not page.shows("#round-dialog") and not page.shows("#title"), "all boards, and none large")

    def begin_round(self, page: Page) -> None:
        """Presses the button that begins a new round, and waits until that is done, as somebody must who sees its window."""
        page.click("#round-begin")
        self.until_none_is_large(page)

    def press(self, page: Page, label: str) -> None:
        """Presses the button of a notice that has this label."""
        button = f"[...document.querySelectorAll('#notices button')].find((one) => one.textContent === {json.dumps(label)})"
        page.click_on(button, f"the button {label}")

    def saved(self, page: Page, where: str) -> bytes:
        """The file that a click on a button gives. If the browser drops it, the button is clicked again."""
        for _ in range(TRIES):
            count = len(page.saves)
            page.click(where)
            self.until(lambda: len(page.saves) > count, f"a file from {where}")
            url = page.saves[count]
            if self.comes(lambda: page.download(url), DROPPED):
                return self.file(page, url, where)
            print(f"  the browser has dropped a file from {where}")
        raise AssertionError(f"the browser saves no file from {where}: {self.describe()}")

    def file(self, page: Page, url: str, what: str) -> bytes:
        """A file that the browser has begun to save, as soon as it is whole."""

        def is_whole() -> bool:
            told = page.download(url) or {}
            assert told.get("state") != "canceled", f"the browser has cancelled {what}: {told}"
            return told.get("state") == "completed"

        self.until(is_whole, f"the end of {what}")
        told = page.download(url) or {}
        self.saved_as = pathlib.Path(told.get("filePath") or told["suggestedFilename"]).name
        return (self.downloads / self.saved_as).read_bytes()
