#!/usr/bin/env python3
"""How much memory the process of bin/recorder.html takes with a capture at its limit, in Chromium: one board sends 63 MiB of dumps and
times (bench/recorder_boards.js), faster than a line can.

Prints the resident memory, MB, when the board is added; when nearly all is sent, and the most until then; and the most, and what is left
a few seconds later: as the game ends; when the page is opened again; as the next game begins; when the page is opened again with that. The
browser's own code is a part of each figure, some 125 MB.

With files of other pages all is measured with each of them, by turns.
"""

from __future__ import annotations

import argparse
import pathlib
import sys
import time
from typing import Callable

TOP = pathlib.Path(__file__).resolve().parent.parent
sys.dont_write_bytecode = True
sys.path[:0] = [str(TOP), str(TOP / "tests")]
from paged.devtools import Browser, Tab  # noqa: E402
from played.recorder import processes  # noqa: E402
from recorder_page import PAGE, opened, press, serving  # noqa: E402

MIB = 2**20  # bytes
LIMIT = 63 * MIB  # bytes that a game may have
LEFT = MIB // 2  # bytes of them that are sent last
PIECE = 8192  # bytes that the board sends at a time
ENDS = 120  # seconds in which something must have happened
OPEN = "rnbqkbnr" + "pppp.ppp" + "........" + "....p..." + "....P..." + "........" + "PPPP.PPP" + "RNBQKBNR"  # after 1. e4 e5
# Bytes are sent as fast as the page keeps them. The folder is the browser's private one, since nobody is there to choose one.
SENDS = """
window.showDirectoryPicker = () => navigator.storage.getDirectory();
window.kept = 0;
const put = IDBObjectStore.prototype.put;
IDBObjectStore.prototype.put = function (value, ...given) {
  if (this.name === 'chunks') {
    const { length } = value.bytes;
    this.transaction.addEventListener('complete', () => (kept += length));
  }
  return put.call(this, value, ...given);
};
window.send = async (wanted, size) => {
  const port = boards.ports.get(1);
  const shown = [0x86, 0, 67, ...port.codes, 0x8d, 0, 10, 1, 0x12, 0x34, 1, 0x30, 0, 1];
  const piece = Uint8Array.from({ length: Math.floor(size / shown.length) * shown.length }, (_, at) => shown[at % shown.length]);
  const before = kept;
  window.isSending = true;
  for (let sent = 0; kept - before < wanted; ) {
    for (; sent < wanted && sent - (kept - before) < 8 * size; sent += piece.length) port.controller.enqueue(piece.slice());
    await new Promise((go) => setTimeout(go));
  }
  window.isSending = false;
};
"""
STATE = "document.querySelector('#boards .state')?.textContent"
SAID = "[...document.querySelectorAll('#messages li')].some((line) => line.textContent.includes('{}'))"


class Process:
    """The process of a browser's page: of those that show pages, the one that takes the most."""

    def __init__(self, browser: Browser) -> None:
        found = [one for one in processes(browser.process.pid) if b"--type=renderer" in pathlib.Path(f"/proc/{one}/cmdline").read_bytes()]
        self.number = max(found, key=lambda one: self._of(one, "VmRSS"))

    @staticmethod
    def _of(number: int, name: str) -> float:
        lines = pathlib.Path(f"/proc/{number}/status").read_text().splitlines()
        return next(int(line.split()[1]) * 1024 / 1e6 for line in lines if line.startswith(f"{name}:"))

    def tell(self, when: str) -> None:
        """The most since this was told last, and what is taken now."""
        print(f"  {when}: at most {self._of(self.number, 'VmHWM'):.0f} MB, then {self._of(self.number, 'VmRSS'):.0f}", flush=True)
        pathlib.Path(f"/proc/{self.number}/clear_refs").write_text("5")


def until(tab: Tab, expression: str) -> None:
    assert tab.until(f"Boolean({expression})", True, ENDS) is True, f"never: {expression}"


def send(tab: Tab, count: int) -> None:
    """Until the page has kept so many bytes more."""
    tab.value(f"void send({count}, {PIECE})")
    until(tab, "!isSending")


def measure(url: str, has_folder: bool, rest: Callable[[], None]) -> None:
    """One board, from its first byte to its second game."""
    with Browser() as browser:
        tab = opened(browser, url, "boards.add(1);" + SENDS)
        until(tab, "!document.getElementById('add').disabled")
        press(tab, "add")
        until(tab, f"{STATE} === 'agrees'")
        if has_folder:
            press(tab, "folder")
            until(tab, SAID.format("the games are written to the folder"))
        rest()
        process = Process(browser)
        process.tell("the board is added")
        for start, end in (("e2", "e4"), ("e7", "e5")):
            tab.value(f"boards.play(1, '{start}', '{end}')")
            rest()
        send(tab, LIMIT - LEFT)
        process.tell("nearly all is sent")
        send(tab, LEFT)
        until(tab, SAID.format("its capture has 63 MiB"))
        rest()
        process.tell("the game ends")
        tab.close()
        tab = opened(browser, url, f"boards.add(1, true, '{OPEN}');" + SENDS)
        until(tab, f"{STATE}.includes('over')")
        rest()
        process = Process(browser)
        process.tell("opened again")
        for name, letter in (("e4", "."), ("e5", "."), ("d2", "."), ("d7", "."), ("d2", "P"), ("d7", "p"), ("e2", "P"), ("e7", "p")):
            tab.value(f"boards.set(1, '{name}', '{letter}')")
        until(tab, SAID.format("board 1-2 begins"))
        rest()
        process.tell("the next game begins")
        tab.close()
        tab = opened(browser, url, "boards.add(1, true);" + SENDS)
        until(tab, f"{STATE} === 'agrees'")
        rest()
        Process(browser).tell("opened again with the next game")


def main() -> int:
    parser = argparse.ArgumentParser(description=__doc__, formatter_class=argparse.RawDescriptionHelpFormatter)
    parser.add_argument("pages", nargs="*", type=pathlib.Path, default=[PAGE], help="files of pages; bin/recorder.html without any")
    parser.add_argument("--folder", action="store_true", help="the page writes files too")
    parser.add_argument("--turns", type=int, default=1, help="how often all is measured")
    parser.add_argument("--rest", type=float, default=5.0, help="seconds until what is left is looked at")
    given = parser.parse_args()
    for _ in range(given.turns):
        for page in given.pages:
            print(f"{page}: {page.stat().st_size / 1000:.0f} kB", flush=True)
            server = serving(page.resolve())
            measure(f"http://127.0.0.1:{server.server_address[1]}/", given.folder, lambda: time.sleep(given.rest))
            server.shutdown()
    return 0


if __name__ == "__main__":
    sys.exit(main())
