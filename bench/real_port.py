#!/usr/bin/env python3
"""real_port.py [PICTURE]: bin/recorder.html with the browser's own list of ports, and a port of the system, on a screen that nobody
sees.

Chromium lists no pseudo-terminal. So the browser gets a mount namespace in which /dev/ttyS0, which the kernel has, is the terminal
of a board that this script plays. The list is used by keys. Four plies are played; what the page shows is compared with them. Needs
root, Chromium, Xvfb and xdotool. PICTURE, a file of xwd, takes what the screen showed last.
"""

from __future__ import annotations

import datetime
import os
import pathlib
import shutil
import subprocess
import sys
import tempfile
import time
from typing import List, Sequence

TOP = pathlib.Path(__file__).resolve().parent.parent
sys.dont_write_bytecode = True
sys.path[:0] = [str(TOP / "tests"), str(TOP), str(TOP / "tools")]
from browsed.page import MOVES, RECORDER  # noqa: E402
from paged.devtools import Browser, Tab  # noqa: E402
from played.boards import Board  # noqa: E402

PORT = "/dev/ttyS0"
PLIES = {"e2e4": "e4", "e7e5": "e5", "g1f3": "Nf3", "b8c6": "Nc6"}
# From Cancel, on which the list opens, back to the first port; from there to Connect.
KEYS = ("shift+Tab", "shift+Tab", "Down", "Tab", "Tab", "Tab", "Return")
PATIENCE = 60.0  # seconds
CENTRE = """
(() => {{
  const {{ x, y, width, height }} = document.querySelector('{where}').getBoundingClientRect();
  return [x + width / 2, y + height / 2];
}})()
"""


class Seen(Browser):
    """A browser on a screen."""

    screen = ()


def until(board: Board, tab: Tab, expression: str, expected: object) -> None:
    """Plays the board until an expression has this value on the page."""
    ends = time.monotonic() + PATIENCE
    while (seen := tab.value(expression)) != expected:
        if time.monotonic() > ends:
            sys.exit(f"{PATIENCE:.0f} s are over: wanted {expected!r}, got {seen!r}\n{tab.value('document.body.innerText')}")
        board.listen(0.02)


def click(tab: Tab, where: str) -> None:
    at = tab.value(CENTRE.format(where=where))
    assert isinstance(at, list), at
    for kind in ("mousePressed", "mouseReleased"):
        tab.call("Input.dispatchMouseEvent", type=kind, x=at[0], y=at[1], button="left", clickCount=1)


def choose(board: Board, display: str) -> None:
    """Chooses the first port in the browser's list, which takes a while to be filled."""
    for key in KEYS:
        board.listen(1.0)
        subprocess.run(["xdotool", "key", key], env={**os.environ, "DISPLAY": display}, check=True)


def begun(words: Sequence[str], others: List["subprocess.Popen[bytes]"]) -> str:
    """Begins a process, which is ended later. Returns the first line that it writes."""
    process = subprocess.Popen(words, stdin=subprocess.PIPE, stdout=subprocess.PIPE, stderr=subprocess.DEVNULL)
    others.append(process)
    assert process.stdout is not None
    line = process.stdout.readline().decode().strip()
    if not line:
        sys.exit(f"{words[0]} doesn't begin")
    return line


def main(arguments: Sequence[str]) -> None:
    if os.geteuid() or not os.path.exists(PORT):
        sys.exit(f"this needs root, and {PORT}")
    if lacking := [tool for tool in ("Xvfb", "xdotool", "unshare", "nsenter") if shutil.which(tool) is None]:
        sys.exit(f"there is no {', '.join(lacking)}: apt-get install xvfb xdotool util-linux")
    others: List["subprocess.Popen[bytes]"] = []
    folder = pathlib.Path(tempfile.mkdtemp(prefix="real_port."))
    board = Board(folder)
    try:
        screen = ["Xvfb", "-displayfd", "1", "-screen", "0", "1280x900x24", "-nolisten", "tcp", "-fbdir", str(folder)]
        display = f":{begun(screen, others)}"
        mounts = f'mount --bind "$1" {PORT} && echo there && exec cat'
        begun(["unshare", "--mount", "sh", "-c", mounts, "", os.readlink(board.device)], others)
        start = ["env", f"DISPLAY={display}", "nsenter", f"--target={others[-1].pid}", "--mount"]
        with Seen(start=start) as browser:
            tab = browser.tab()
            tab.call("Page.bringToFront")
            tab.open(RECORDER.as_uri())
            until(board, tab, "document.querySelector('#add')?.disabled", False)
            click(tab, "#add")
            choose(board, display)
            until(board, tab, "document.querySelector('a.tile .state')?.textContent.startsWith('agrees') ?? false", True)
            tab.value("location.hash = '#1'")
            for count, move in enumerate(PLIES, 1):
                board.play(move)
                until(board, tab, MOVES, list(PLIES.values())[:count])
            version = tab.call("Browser.getVersion")["product"]
            if arguments:
                shutil.copy(folder / "Xvfb_screen0", arguments[0])
        print(f"{datetime.date.today()}, {version}: {PORT} was listed, chosen and opened; recorded {' '.join(PLIES.values())}")
    finally:
        board.end()
        for process in reversed(others):
            process.terminate()
            process.wait()
        shutil.rmtree(folder, ignore_errors=True)


if __name__ == "__main__":
    main(sys.argv[1:])
