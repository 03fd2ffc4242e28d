"""Notices: what can't be written is an alarm, and a step that comes to nothing is answered by a sentence."""

import pathlib

from browsed.folders import Chosen, begin_in
from browsed.games import RUY, RUY_SANS, begin, play, until_agrees
from browsed.hall import Hall
from browsed.page import Page
from browsed.stage import with_chromium
from played.stage import same

# The colours of a notice's edges, and that of alarms.
EDGES = """
(() => {
  const notice = [...document.querySelectorAll('#notices li')].find((one) => one.textContent.includes("can't be written"));
  const alarm = document.body.appendChild(document.createElement('i'));
  alarm.style.color = 'var(--warning)';
  const told = [getComputedStyle(notice).borderLeftColor, getComputedStyle(alarm).color];
  alarm.remove();
  return told;
})()
"""


@with_chromium
def unwritten_is_red(folder: pathlib.Path) -> None:
    """The notice about files that can't be written is red, and goes away as soon as they can."""
    with Hall(folder) as stage:
        chosen = Chosen(stage)
        page, port = begin_in(stage, chosen)
        chosen.choose(stage, page)
        page.value("folder.fails = 'QuotaExceededError'")
        play(stage, page, port, RUY[:1], RUY_SANS[:1])
        stage.until_part(page, "#notices", "can't be written")
        edge, red = page.value(EDGES)
        same(edge, red)
        page.value("folder.fails = ''")
        stage.until(lambda: "can't be written" not in page.text("#notices"), "the end of the notice")


@with_chromium
def folder_refused(folder: pathlib.Path) -> None:
    """Who closes the window that asks for a folder, or presses Don't Allow, reads where the games are kept."""
    with Hall(folder) as stage:
        chosen = Chosen(stage)
        page, port = begin_in(stage, chosen)
        page.value("folder.refuses = true")
        page.click("#folder")
        stage.until_part(page, "#notices", "no folder")
        page.value("folder.refuses = false")
        chosen.choose(stage, page)
        stage.until(lambda: "no folder" not in page.text("#notices"), "the end of the notice")
        play(stage, page, port, RUY[:1], RUY_SANS[:1])
        stage.until(lambda: "round.pgn" in chosen.files, "the game in the folder")
        page.value("folder.refuses = true")
        page.click("#folder")
        stage.until_part(page, "#notices", "still written to the folder chosen")
        page = opened_again(stage, chosen, page)
        page.value("folder.answers = 'denied'")
        stage.press(page, "Write to chosen")
        stage.until_part(page, "#notices", "doesn't let this page write to chosen")


def opened_again(stage: Hall, chosen: Chosen, page: Page) -> Page:
    """Another tab, which must ask for the folder again."""
    stage.close(page)
    page = stage.tab([chosen.script("prompt")])
    stage.until_part(page, "#notices", "chosen")
    return page


@with_chromium
def nothing_to_save(folder: pathlib.Path) -> None:
    """Without a move, Save all games says that there is none, and gives no file; with one it gives the file."""
    with Hall(folder) as stage:
        page, port = begin(stage)
        until_agrees(stage, page)
        page.click("#save-round")
        stage.until_part(page, "#notices", "nothing was saved")
        same(page.saves, [])
        play(stage, page, port, RUY[:1], RUY_SANS[:1])
        assert b"1. e4 *" in stage.saved(page, "#save-round")
        assert "nothing was saved" not in page.text("#notices"), page.describe()
