"""The page on screens of three sizes, light and dark, by keys alone, and as those have it who don't see it."""

import os
import pathlib
from typing import Dict, List, Set

from browsed.games import QUEENS, RUY, RUY_SANS, begin, play, until_agrees
from browsed.hall import Hall
from browsed.hostile import KEPT
from browsed.page import Page
from browsed.stage import with_chromium
from paged.legible import DRAWN
from played.stage import same

PICTURES = os.environ.get("PICTURES")  # a folder that takes pictures of the screens
SIZES = ((390, 844), (1366, 768), (1920, 1080))
WIDE = ((1024, 768), *SIZES[1:])  # beside whose board there is room for the moves
LOWER = "document.querySelector('#lower').getBoundingClientRect().bottom <= innerHeight"
CONTROLS = {"button", "link", "textbox", "checkbox", "combobox", "spinbutton", "switch", "radio", "slider", "searchbox"}
# What can be seen and used: the name of each, by its id where it has one.
FOCUSABLE = """
[...document.querySelectorAll('a[href], button, input, select, textarea, summary, [tabindex="0"]')]
  .filter((one) => !one.disabled && one.tabIndex >= 0 && one.checkVisibility({ visibilityProperty: true }))
  .filter((one) => one.getClientRects().length > 0)
  .map((one) => one.id || one.getAttribute('href') || one.textContent.trim())
"""
FOCUSED = """
(() => {
  const one = document.activeElement;
  return one.id || one.getAttribute('href') || one.textContent.trim();
})()
"""
WIDER = """
[...document.querySelectorAll('body *')]
  .filter((one) => one.checkVisibility() && one.getBoundingClientRect().right > document.documentElement.clientWidth + 1)
  .map((one) => one.id || one.className || one.tagName).slice(0, 8)
"""
SMALL = """
[...document.querySelectorAll('a[href]:not(p a), button, input, select')]
  .filter((one) => one.checkVisibility({ visibilityProperty: true }) && one.getClientRects().length > 0)
  .filter((one) => ![one, ...(one.labels ?? [])].some((part) => {
    const { width, height } = part.getBoundingClientRect();
    return width >= 20 && height >= 20;
  }))
  .map((one) => one.id || one.textContent.trim())
"""


# How many cards are whole on the screen.
WHOLE = "[...document.querySelectorAll('a.tile')].filter((tile) => tile.getBoundingClientRect().bottom <= innerHeight).length"
FIRST = "document.querySelector('a.tile').getBoundingClientRect().top"
# Ends when the page has been drawn, and so was told of its size.


def unnamed(page: Page) -> List[str]:
    """Controls that a screen reader finds without a name."""
    nodes = page.tab.call("Accessibility.getFullAXTree")["nodes"]
    controls = [node for node in nodes if not node.get("ignored") and node.get("role", {}).get("value") in CONTROLS]
    assert controls, "no control is there"
    return [str(node["role"]["value"]) for node in controls if not node.get("name", {}).get("value", "").strip()]


def walk(page: Page) -> Set[str]:
    """What Tab comes to, from the top of the page on, until it is there again."""
    page.value("document.activeElement.blur()")
    seen: List[str] = []
    for _ in range(200):
        page.tab.press("Tab")
        at = str(page.value(FOCUSED))
        if seen and at == seen[0]:
            break
        seen.append(at)
    return set(seen)


def looked_at(stage: Hall, page: Page, name: str) -> None:
    """On each screen: nothing is wider than it, each control has a name, is large enough to be hit, and Tab comes to it."""
    wrong: Dict[str, object] = {}
    for width, height in SIZES:
        for dark in (False, True):
            page.tab.look(width, height, dark)
            page.value(DRAWN)
            if PICTURES:
                page.tab.picture(pathlib.Path(PICTURES) / f"{name}-{width}-{'dark' if dark else 'light'}.png")
            if page.value("document.documentElement.scrollWidth > innerWidth"):
                wrong[f"{width} px: wider than the screen"] = page.value(WIDER)
        if small := page.value(SMALL):
            wrong[f"{width} px: too small to hit"] = small
    if lacking := unnamed(page):
        wrong["without a name"] = lacking
    if missed := set(page.value(FOCUSABLE)) - walk(page):
        wrong["Tab doesn't come to"] = sorted(missed)
    if wrong:
        print(f"  {name}: {wrong}")
    same((name, wrong), (name, {}))


@with_chromium
def sizes(folder: pathlib.Path) -> None:
    """390, 1366 and 1920 pixels wide, light and dark: nothing overflows, and every control has a name and can be reached. On a wide screen
    the board is so large that both players are seen with it."""
    with Hall(folder) as stage:
        first, second = stage.board(), stage.board()
        page = stage.tab()
        stage.until(lambda: page.shows("#add"), "the page")
        looked_at(stage, page, "empty")
        page.tab.look(1366, 768)
        stage.add(page, first)
        stage.enlarge(page, 1)
        until_agrees(stage, page)
        play(stage, page, first, RUY, RUY_SANS)
        for width, height in WIDE:
            page.tab.look(width, height)
            page.value(DRAWN)
            stage.until(lambda: page.value(LOWER) is True, f"both players on a screen {width} pixels wide")
        page.tab.look(1366, 768)
        page.type("Anna-Katharina von Hohenstein-Breitenfeld", "#white")
        page.type("Jörg", "#black")
        looked_at(stage, page, "board")
        page.tab.look(1366, 768)
        stage.show_all(page)
        stage.add(page, second)
        stage.until_part(page, "a.tile[href='#2']", "agrees")
        for move in QUEENS:
            second.board.play(move)
        page.value("location.hash = ''")
        stage.until_text(page, "a.tile[href='#2'] .last", "3... Nf6")
        stage.pull(second)
        stage.until(lambda: "UNPLUGGED" in page.text("a.tile[href='#2']"), "the alarm")
        looked_at(stage, page, "boards")
        same(page.tab.printed(), [])


@with_chromium
def many_cards(folder: pathlib.Path) -> None:
    """Below a notice, eight boards are whole on a laptop's screen, and 48 on a large one; a laptop has two rows of them. On a phone two cards stand side by
    side, and begin in its upper third."""
    with Hall(folder) as stage:
        for count, wanted in ((8, {(1366, 768): 8, (1920, 1080): 8}), (48, {(1366, 768): 16, (1920, 1080): 48})):
            page = stage.tab()
            stage.until(lambda: page.shows("#add"), "the page")
            page.value(KEPT % count)
            stage.open(page)
            stage.until(lambda: page.value("document.querySelectorAll('a.tile').length") == count, "all boards")
            page.click("#save-round")
            stage.until(lambda: page.shows("#notices li"), "a notice")
            for (width, height), whole in wanted.items():
                page.tab.look(width, height)
                page.value(DRAWN)
                stage.until(lambda: page.value(WHOLE) == whole, f"{whole} of {count} boards on a screen {width} pixels wide")
            page.tab.look(390, 844)
            page.value(DRAWN)
            stage.until(lambda: page.value(FIRST) < 844 / 3, "the first card, near the top of a phone")
            stage.close(page)


def to(page: Page, name: str) -> None:
    """By Tab to a control."""
    for _ in range(100):
        if page.value(FOCUSED) == name:
            return
        page.tab.press("Tab")
    raise AssertionError(f"Tab never comes to {name}")


@with_chromium
def by_keys(folder: pathlib.Path) -> None:
    """By keys alone: a board is added, its game looked at, a result typed, a name given, and the game saved."""
    with Hall(folder) as stage:
        port = stage.board()
        page = stage.tab()
        stage.until(lambda: page.shows("#add"), "the page")
        to(page, "add")
        page.value(f"boards.choose({port.number})")
        page.tab.press("Enter")
        stage.until(lambda: page in port.holders, "the board to be opened")
        stage.until(lambda: page.shows("a.tile[href='#1']"), "the board")
        to(page, "#1")
        page.tab.press("Enter")
        until_agrees(stage, page)
        play(stage, page, port, RUY[:4], RUY_SANS[:4])
        to(page, "typed")
        page.tab.press(*"1-0", "Enter")
        stage.until_part(page, "#at", "1\u20130")
        to(page, "Names and options")
        page.tab.press("Enter")
        to(page, "white")
        page.tab.press(*"Anna", "Tab")
        stage.until(lambda: "Anna" in page.text("#lower") + page.text("#upper"), "the name beside the board")
        to(page, "save-game")
        before = set(stage.downloads.iterdir())
        page.tab.press("Enter")
        stage.until(lambda: set(stage.downloads.iterdir()) - before, "the file")


@with_chromium
def left_by_esc(folder: pathlib.Path) -> None:
    """Esc in a field leaves the field, and the next one closes the board. A line that was typed and not entered is there again when the
    board is; a name that was begun is gone."""
    with Hall(folder) as stage:
        page, _ = begin(stage)
        until_agrees(stage, page)
        to(page, "typed")
        page.tab.press(*"e4 e5", "Escape")
        same((page.shows("#title"), page.field("#typed"), page.value("document.activeElement.id")), (True, "e4 e5", ""))
        page.tab.press("Escape")
        stage.until(lambda: not page.shows("#title"), "all boards, and none large")
        stage.enlarge(page, 1)
        same(page.field("#typed"), "e4 e5")
        page.value("document.querySelector('#details').open = true")
        to(page, "white")
        page.tab.press(*"An", "Escape")
        same((page.shows("#title"), page.field("#white"), page.text("#lower .player")), (True, "", "White: White"))
        page.click("#enter")
        stage.until_moves(page, ["e4", "e5"])
        stage.until(lambda: page.field("#typed") == "", "an empty field")


@with_chromium
def shown_again(folder: pathlib.Path) -> None:
    """A board that was turned, the steps through a game, and a game that follows: what the arbiter's page has."""
    with Hall(folder) as stage:
        page, port = begin(stage)
        until_agrees(stage, page)
        play(stage, page, port, RUY[:4], RUY_SANS[:4])
        page.value("document.activeElement.blur()")
        page.tab.press("ArrowLeft")
        stage.until_text(page, "#at", "2. Nf3 (1 move back)")
        port.board.play(RUY[4])
        stage.until_moves(page, RUY_SANS[:5])
        same(page.text("#at"), "2. Nf3 (2 moves back)")
        page.tab.press("End")
        stage.until_text(page, "#at", "3. Bb5")
