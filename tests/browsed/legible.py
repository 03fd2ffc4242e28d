"""What everybody must be able to read, hit and hear: contrast, sizes, and what a screen reader reads out."""

import pathlib
from typing import List

from browsed.folders import Chosen
from browsed.games import QUEENS, RUY, RUY_SANS, play, until_agrees
from browsed.hall import Hall
from browsed.page import Page
from browsed.stage import with_chromium
from paged.legible import faults
from played.stage import same

# Keeps what a screen reader is given: what is added to a live region, or changes in one.
HEARS = """
window.heard = [];
addEventListener('DOMContentLoaded', () => {
  const LIVE = '[aria-live], [role=status], [role=alert], [role=log], output';
  const take = (node) => {
    const region = (node.nodeType === Node.TEXT_NODE ? node.parentElement : node)?.closest(LIVE);
    const text = node.textContent.trim();
    if (region && region.getAttribute('aria-live') !== 'off' && text) window.heard.push(text);
  };
  new MutationObserver((changes) => {
    for (const { type, target, addedNodes } of changes) {
      if (type === 'characterData') take(target);
      else addedNodes.forEach(take);
    }
  }).observe(document.body, { subtree: true, childList: true, characterData: true });
});
"""


def legible_so(page: Page, view: str) -> None:
    wrong = faults(page.tab)
    if wrong:
        print(f"  {view}: {wrong}")
    same((view, wrong), (view, {}))


@with_chromium
def legible(folder: pathlib.Path) -> None:
    """Each text has a contrast of 4.5 to 1 and letters of 12 pixels, and what is pressed has 24 pixels, on three screens, light
    and dark: nothing yet, a large board, one with an alarm, a new round, boards with alarms and notices."""
    with Hall(folder) as stage:
        chosen = Chosen(stage)
        first, second = stage.board(), stage.board()
        page = stage.tab([chosen.script()])
        stage.until(lambda: page.shows("#add:enabled"), "the page")
        page.value("document.querySelector('#welcome details').open = true")
        legible_so(page, "nothing yet")
        for port in (first, second):
            stage.add(page, port)
        stage.enlarge(page, 1)
        until_agrees(stage, page)
        page.type("Anna", "#white")
        play(stage, page, first, RUY[:5], RUY_SANS[:5], [5400, 5400])
        legible_so(page, "a large board")
        page.tab.press("ArrowLeft")
        legible_so(page, "a large board, looked back")
        page.type("nonsense")
        stage.until(lambda: page.text("#answer"), "the answer")
        stage.pull(first)
        stage.until_part(page, "#state", "UNPLUGGED")
        legible_so(page, "a large board with an alarm")
        page.click("#new-round")
        stage.until(lambda: page.shows("#round-ends"), "the window for a new round")
        legible_so(page, "a new round")
        page.click("#round-cancel")
        stage.show_all(page)
        for move in QUEENS[:3]:
            second.board.play(move)
        stage.until_text(page, "a.tile[href='#2'] .last", "2. c4")
        chosen.choose(stage, page)
        page.value("folder.fails = 'QuotaExceededError'")
        second.board.play(QUEENS[3])
        stage.until_part(page, "#notices", "can't be written")
        stage.pull(second)
        stage.until_part(page, "a.tile[href='#2']", "UNPLUGGED")
        legible_so(page, "boards with alarms")
        same(page.tab.printed(), [])


def heard(page: Page, part: str) -> List[str]:
    """What a screen reader was given with this in it."""
    return [text for text in page.value("window.heard") if part in text]


@with_chromium
def read_out(folder: pathlib.Path) -> None:
    """A screen reader reads out each move of the large board once, no move of another board, and each alarm and notice once."""
    with Hall(folder) as stage:
        chosen = Chosen(stage)
        first, second = stage.board(), stage.board()
        page = stage.tab([chosen.script(), HEARS])
        for port in (first, second):
            stage.add(page, port)
        chosen.choose(stage, page)
        stage.until_part(page, "a.tile[href='#2']", "agrees")
        stage.enlarge(page, 1)
        until_agrees(stage, page)
        for move in QUEENS[:2]:
            second.board.play(move)
        stage.until_text(page, "a.tile[href='#2'] .last", "1... d5")
        play(stage, page, first, RUY[:3], RUY_SANS[:3])
        stage.until(lambda: heard(page, "knight f3"), "the last move, read out")
        same([len(heard(page, said)) for said in ("pawn e4", "pawn e5", "knight f3")], [1, 1, 1])
        same([heard(page, said) for said in ("e4", "Nf3", "d4", "d5")], [heard(page, "pawn e4"), [], [], []])
        stage.pull(second)
        stage.until(lambda: heard(page, "UNPLUGGED"), "the alarm, read out")
        same(len(heard(page, "Board 2: UNPLUGGED")), 1)
        page.value("folder.fails = 'QuotaExceededError'")
        play(stage, page, first, RUY[3:4], RUY_SANS[3:4])
        stage.until(lambda: heard(page, "can't be written"), "the notice, read out")
        same(len(heard(page, "can't be written")), 1)
