"""A round that is played while a browser without a screen shows the arbiter's page."""

import pathlib
import time
from typing import List

import outside
from paged.devtools import Shared, Tab
from played.ports import free_port
from played.stage import Skipped, rest, same, stop, until
from rounds.hall import Hall, moves

SHOWN = ["1. e4", "1... e5", "2. Nf3", "2... Nc6", "3. Bb5", "3... a6", "4. Ba4", "4... Nf6", "5. O-O", "5... Be7"]
TILE = "document.querySelector(\".tile[href='#1'] {}\").textContent"
# By the squares' numbers, a8 is 0: where each move leads to, and what stands there then.
GOALS = [(36, "wP"), (28, "bP"), (45, "wN"), (18, "bN"), (25, "wB"), (16, "bP"), (32, "wB"), (21, "bN"), (62, "wK"),
         (12, "bB")]  # fmt: skip


def on_the_page(ply: int) -> str:
    """Whether the last move, its piece on its square, and its clock are shown."""
    number, piece = GOALS[ply]
    side = "wb"[ply % 2]
    clock = f"1:{29 if ply else 30}:{(60 - ply) % 60:02}"
    square = f"document.querySelectorAll(\".tile[href='#1'] i\")[{number}].classList"
    return (
        f"[{TILE.format('.last')}, {square}.contains('{piece}') && {square}.contains('to'), "
        f"{TILE.format(f'.seat .{side} ~ .clock')}].join() === '{SHOWN[ply]},true,{clock}'"
    )


def in_a_browser(folder: pathlib.Path) -> None:
    """A game is played: diagram, clock and last move follow before the next move, and the page asks for nothing more; keys step
    through it; nobody else is asked. The page is named by event and round."""
    if lacking := outside.lacks("chromium"):
        raise Skipped(lacking)
    hall = Hall(folder, 2, clocks=(0,))
    port = free_port()
    live = hall.record("--event", "Club", "--round", "3", "--arbiter-page", str(port))
    hall.begun(live)
    tab = Shared.tab()
    try:
        tab.look(1280, 720)
        tab.open(f"http://127.0.0.1:{port}/")
        until_value(tab, "document.getElementById('line').textContent", "Live")
        same([tab.value(f"document.{what}") for what in ("querySelector('h1').textContent", "title")], ["Club, round 3"] * 2)
        times: List[float] = []
        asked = len(tab.requests())
        for ply in range(len(SHOWN)):
            hall.make(ply, (0,))
            begun = time.monotonic()
            until_value(tab, on_the_page(ply), True)
            times.append(time.monotonic() - begun)
            rest(0.05)
        print(f"  on the page after {1000 * sorted(times)[5]:.0f} ms, and at most {1000 * max(times):.0f}")
        same(tab.requests()[asked:], [])
        tab.press("ArrowRight", "Enter")
        at = "document.getElementById('at').textContent"
        until_value(tab, at, "5... Be7")
        tab.press("ArrowLeft", "ArrowLeft")
        until_value(tab, at, "4... Nf6 (2 moves back)")
        tab.press("Home", "ArrowRight")
        until_value(tab, at, "1. e4 (9 moves back)")
        tab.press("End")
        until_value(tab, at, "5... Be7")
        hall.make(0, (1,))
        tab.press("Escape")
        until_value(tab, "document.querySelector(\".tile[href='#2'] .last\").textContent", "1. d4")
        urls = tab.requests()
        same([url for url in urls if not url.startswith(f"http://127.0.0.1:{port}/")], [])
        assert urls and not tab.printed(), tab.printed()
        tab.close()
    finally:
        Shared.end()
    same(moves(0)[-1], "f8e7")
    same(stop(live), 0)


def until_value(tab: Tab, expression: str, expected: object) -> None:
    """The expression has this value on the page; the boards answer meanwhile."""
    until(lambda: tab.value(expression) == expected, f"{expected} as {expression}, which is {tab.value(expression)}", 0.01)
