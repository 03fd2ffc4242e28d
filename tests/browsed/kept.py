"""What a page has shown is there when it is opened again: its tab is killed in the middle of a frame, or the whole browser. It says the
same alarms and state then as a recorder that was told the same and never killed."""

import os
import pathlib
import random
import re
from typing import List

from browsed.games import RUY, RUY_SANS, answered, begin, of_record, play, until_agrees
from browsed.hall import Hall, Port
from browsed.page import DATABASE, Page
from browsed.stage import with_chromium
from played.games import PARIS
from played import unkilled
from played.killing import SANS
from played.stage import same

KILLS = int(os.environ.get("KILLS", "10"))  # of a tab, in each case
BROWSERS = 3  # that are killed
LAST = len(PARIS) - 1  # the mate isn't played
ALIKE = 30.0  # seconds in which all that was heard is kept, and said
OK = 0.3  # of the kills, after which somebody has looked


def opened_again(stage: Hall, port: Port, shown: List[str]) -> Page:
    """Another tab: it has what was shown, and goes on recording by itself."""
    page = stage.tab()
    stage.enlarge(page, 1)
    stage.until(lambda: page.moves, "moves that the page has kept") if shown else None
    same(page.moves[: len(shown)], shown)
    stage.until(lambda: page in port.holders, "the board to be opened by itself")
    return page


def press(stage: Hall, page: Page, port: Port) -> None:
    """The clock runs and is pressed, and nobody presses it for the next plies."""
    for lever in (False, True):
        port.board.clock(600, 600, runs=True, lever=lever)
    stage.until_dumped(page, port)


def says_the_same(stage: Hall, page: Page) -> bool:
    """It comes to say the same as a recorder that was never killed. Returns whether that is an alarm."""
    seen: List[unkilled.Said] = []

    def is_alike() -> bool:
        seen[:] = [unkilled.said(page.kept(1), "".join(page.kept_times(1)).encode())]
        state = re.sub(r", [0-9].*", "", page.text("#state"))  # without its duration
        return seen[0].state(seen[0].looks) == state and all(look.text in page.text("#ask") for look in seen[0].looks.open)

    assert stage.comes(is_alike, ALIKE), f"{seen} is what a recorder says that was never killed, and not {page.describe()}"
    return bool(seen[0].looks.open)


def killed(folder: pathlib.Path, seed: int) -> int:
    """Plies are played; with each, the tab is killed while a part of its frames has come, shown or not. Returns behind how many of them
    somebody was to look."""
    chance = random.Random(seed)
    alarms = 0
    with Hall(folder) as stage:
        page, port = begin(stage)
        until_agrees(stage, page)
        press(stage, page, port)
        plies = sorted(chance.sample(range(LAST), min(KILLS, LAST)))
        for ply in range(LAST):
            if ply in plies:
                port.limit = chance.randrange(1, 10)
            port.board.play(PARIS[ply])
            if ply in plies:
                for _ in range(chance.randrange(12)):
                    stage.turn()
                shown = page.moves
                stage.crash(page)
                port.limit = None
                same(shown, SANS[: len(shown)])
                page = opened_again(stage, port, shown)
            stage.until_moves(page, SANS[: ply + 1])
            if ply in plies:
                alarms += says_the_same(stage, page)
                if chance.random() < OK and page.shows("#ok"):
                    page.click("#ok")
                    stage.until(lambda: "LOOK" not in page.text("#state"), "that somebody has looked")
                    press(stage, page, port)
        text, capture = stage.saved(page, "#save-game"), stage.saved(page, "#save-capture")
        same(text, of_record(text, capture))
    return alarms


@with_chromium
def tab_killed_1(folder: pathlib.Path) -> None:
    """A tab is killed ten times in the middle of a frame: opened again, it has all that it showed, and goes on."""
    killed(folder, 1)


@with_chromium
def tab_killed_2(folder: pathlib.Path) -> None:
    """A tab is killed ten times more."""
    killed(folder, 2)


@with_chromium
def tab_killed_3(folder: pathlib.Path) -> None:
    """A tab is killed ten times more."""
    killed(folder, 3)


@with_chromium
def tab_killed_4(folder: pathlib.Path) -> None:
    """A tab is killed ten times more."""
    killed(folder, 4)


@with_chromium
def tab_killed_5(folder: pathlib.Path) -> None:
    """A tab is killed ten times more."""
    killed(folder, 5)


@with_chromium
def browser_killed(folder: pathlib.Path) -> None:
    """All processes of the browser are killed, as when the power fails: it has all that it showed."""
    with Hall(folder) as stage:
        page, port = begin(stage)
        until_agrees(stage, page)
        for number in range(BROWSERS):
            plies = range(2 * number, 2 * number + 2)
            play(stage, page, port, [RUY[ply] for ply in plies], [RUY_SANS[ply] for ply in plies])
            shown = page.moves
            port.limit = 0
            port.board.lift("e1")
            stage.kill()
            port.limit = None
            port.board.put("e1", 5)
            page = opened_again(stage, port, shown)
        play(stage, page, port, RUY[6:7], RUY_SANS[6:7])
        text, capture = stage.saved(page, "#save-game"), stage.saved(page, "#save-capture")
        same(text, of_record(text, capture))


@with_chromium
def two_tabs(folder: pathlib.Path) -> None:
    """Two tabs never record one board: the second one says who does, and records it once the first is closed."""
    with Hall(folder) as stage:
        page, port = begin(stage)
        until_agrees(stage, page)
        play(stage, page, port, RUY[:2], RUY_SANS[:2])
        other = stage.tab()
        stage.until(lambda: other.shows("a.tile[href='#1']") or "tab" in other.text("#line"), "the board in the other tab")
        print(f"  the other tab says: {other.describe()}")
        play(stage, page, port, RUY[2:4], RUY_SANS[2:4])
        same((port.was_shared, port.holders), (False, [page]))
        stage.close(page)
        stage.until(lambda: port.holders == [other], "the other tab to record it")
        stage.enlarge(other, 1)
        stage.until_moves(other, RUY_SANS[:4])
        play(stage, other, port, RUY[4:6], RUY_SANS[4:6])
        text, capture = stage.saved(other, "#save-game"), stage.saved(other, "#save-capture")
        same(text, of_record(text, capture))
        same(port.was_shared, False)


# How many boards, games and captures from before a way back are kept, and of how many games there is anything else.
LEFT = DATABASE.format(body="""
const keys = (name) => read(name, (store) => store.getAllKeys());
const counts = await Promise.all(['boards', 'games', 'before'].map(async (name) => (await keys(name)).length));
const others = [...(await keys('chunks')).map(([game]) => game), ...(await keys('settings')).filter(Array.isArray).map(([, game]) => game)];
return [...counts, new Set(others).size];
""")


@with_chromium
def removed_with_its_games(folder: pathlib.Path) -> None:
    """A board is removed: its games are gone from the browser, with what was kept as plies were taken off. Those of another board stay."""
    with Hall(folder) as stage:
        page = stage.tab()
        for _ in range(2):
            port = stage.board()
            stage.show_all(page) if page.shows("#back") else None
            stage.add(page, port)
            stage.enlarge(page, port.number)
            until_agrees(stage, page)
            play(stage, page, port, RUY[:2], RUY_SANS[:2])
            port.board.lift("e1")
            stage.until_dumped(page, port)
            answered(stage, page, "back 1. e4", "back to 1. e4; taken off: 1... e5")
        stage.until(lambda: page.value(LEFT) == [2, 2, 2, 2], "what is kept of two boards")
        page.click("#remove")
        page.click("#remove")
        stage.until_none_is_large(page)
        stage.until(lambda: page.value(LEFT) == [1, 1, 1, 1], "what is kept of one board")
        stage.open(page)
        stage.enlarge(page, 1)
        stage.until_moves(page, RUY_SANS[:1])
