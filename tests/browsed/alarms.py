"""Alarms that the program raises: each stays until somebody has looked, whatever ends the page meanwhile."""

import json
import pathlib
from typing import List, Optional, Sequence, Tuple

from browsed.games import RUY, RUY_SANS, answered, begin, play, until_agrees
from browsed.hall import Hall, Port
from browsed.losses import opened_again
from browsed.page import Page
from browsed.stage import with_chromium
from play_board import INITIAL, field
from played import words
from played.stage import same

KING = 5
KNIGHTS = ["g1f3", "b8c6"]
BACK = ["f3g1", "c6b8"]
MISSED = "LOOK at 2. Nf3"
OWN = {"what": "at the game", "why": "somebody kept this earlier", "about": ""}
UNHURRIED = 2.0  # seconds a ply
PAUSE = 2.5  # seconds until players take plies back
COUNTED = 1.5  # seconds a ply that counts if nobody presses for it
TOLD = 1.2  # seconds after which a dump is sure, and what it says is shown
# Puts other alarms into the record of the first board's game.
RECORDED = """
(async () => {
  const answer = (request) => new Promise((done, failed) => {
    request.onsuccess = () => done(request.result);
    request.onerror = () => failed(request.error);
  });
  const database = await answer(indexedDB.open('dgt_recorder'));
  const change = database.transaction(['boards', 'games'], 'readwrite');
  const { game } = await answer(change.objectStore('boards').get(1));
  const kept = await answer(change.objectStore('games').get(game));
  await answer(change.objectStore('games').put({ ...kept, looks: LOOKS }));
  await new Promise((done) => (change.oncomplete = done)); // else the next page may come before it
  database.close();
})()
"""


def missed(stage: Hall) -> Tuple[Page, Port]:
    """A game with an alarm: its third ply was made while the cable was pulled."""
    page, port = begin(stage)
    until_agrees(stage, page)
    play(stage, page, port, RUY[:2], RUY_SANS[:2])
    stage.pull(port)
    stage.until(lambda: page.text("#state").startswith("UNPLUGGED"), "the alarm of an unplugged board")
    stage.rest(4)
    port.board.play(RUY[2])
    stage.plug(port)
    stage.until_part(page, "#state", MISSED)
    return page, port


def killed(stage: Hall, page: Page, port: Port, sans: Sequence[str]) -> Page:
    """The tab is killed once its times are kept, and opened again."""
    stage.rest(TOLD)
    stage.crash(page)
    page = opened_again(stage, port, list(sans))
    stage.until_dumped(page, port)
    stage.rest(TOLD)
    return page


def recorded(stage: Hall, page: Page, port: Port, looks: List[object]) -> None:
    """The page is opened again, with these alarms in the game's record."""
    stage.rest(TOLD)
    stage.leave(page)
    page.value(RECORDED.replace("LOOKS", json.dumps(looks)))
    stage.open(page)
    stage.enlarge(page, 1)
    stage.until_moves(page, RUY_SANS[:3])
    stage.until(lambda: page in port.holders, "the board to be opened by itself")
    stage.until_dumped(page, port)
    stage.rest(TOLD)


def looked(stage: Hall, page: Page) -> None:
    """Somebody has looked."""
    page.click("#ok")
    stage.until(lambda: "LOOK" not in page.text("#state"), "no alarm any more")


def nobody_need_look(page: Page) -> None:
    assert "LOOK" not in page.text("#state"), page.describe()


@with_chromium
def alarm_stays(folder: pathlib.Path) -> None:
    """A tab with an alarm is killed: opened again, it has the alarm once, and says no word of it. Somebody looks, and after the next
    kill there is none."""
    with Hall(folder) as stage:
        page, port = missed(stage)
        page = killed(stage, page, port, RUY_SANS[:3])
        stage.until_part(page, "#state", MISSED)
        assert "more" not in page.text("#state"), page.describe()
        same([line for line in page.messages if "LOOK" in line], [])
        looked(stage, page)
        page = killed(stage, page, port, RUY_SANS[:3])
        nobody_need_look(page)
        play(stage, page, port, RUY[3:5], RUY_SANS[3:5])
        nobody_need_look(page)


@with_chromium
def alarm_of_the_record(folder: pathlib.Path) -> None:
    """The game's record has lost its alarm: the program raises it again. It has one that the program doesn't know: that stays, until
    somebody has looked."""
    with Hall(folder) as stage:
        page, port = missed(stage)
        recorded(stage, page, port, [])
        stage.until_part(page, "#state", MISSED)
        recorded(stage, page, port, [OWN])
        stage.until_part(page, "#state", "LOOK at the game and 1 more")
        stage.until_part(page, "#ask", MISSED)
        looked(stage, page)
        page = killed(stage, page, port, RUY_SANS[:3])
        nobody_need_look(page)


@with_chromium
def pieces_put_back(folder: pathlib.Path) -> None:
    """Two plies are taken off, and a slow hand puts their pieces back, which both sides' stand elsewhere until then: nobody need look,
    though the tab is killed before. Later the same is an alarm."""
    with Hall(folder) as stage:
        page, port = begin(stage)
        until_agrees(stage, page)
        play(stage, page, port, RUY[:4], RUY_SANS[:4])
        port.board.lift("e1")
        stage.until_dumped(page, port)
        answered(stage, page, "back 1... e5", "back to 1... e5; taken off: 2. Nf3 Nc6")
        page = killed(stage, page, port, RUY_SANS[:2])
        for is_put_back in (True, False):
            for move in BACK if is_put_back else ():
                port.board.play(move)
                stage.rest(1)
            if not is_put_back:
                port.board.lift("e1")
                for move in (*KNIGHTS, *BACK):
                    port.board.play(move)
                    stage.rest(1)
            port.board.put("e1", KING)
            stage.until(lambda: "agrees" in page.text("#state"), "a board that agrees")
            stage.rest(TOLD)
            if is_put_back:
                nobody_need_look(page)
        stage.until_part(page, "#state", "LOOK after 1... e5")
        same(page.moves, RUY_SANS[:2])


class Clock:
    """A clock that runs, and that players press or forget."""

    def __init__(self, stage: Hall, port: Port) -> None:
        self._stage, self._port = stage, port
        self._lever, self._times = False, [600, 600]  # while the lever is up, Black's time runs
        self._show()

    def waits(self) -> None:
        """A second passes, and the clock says so."""
        self._stage.rest(1.0)
        self._show()

    def _show(self) -> None:
        white, black = self._times
        self._port.board.clock(white, black, runs=True, lever=self._lever)

    def play(self, moves: Sequence[str], pace: Optional[float] = UNHURRIED, presses: bool = True) -> None:
        """Both sides by turns, White first."""
        for move in moves:
            if pace:
                self._stage.rest(pace)
                self._times[self._lever] -= int(pace)
                self._show()
            self._port.board.play(move)
            if presses:
                self._lever = not self._lever
                self._show()


@with_chromium
def taken_back_together(folder: pathlib.Path) -> None:
    """Both players go straight back, and nobody presses the clock: somebody must look. He takes the plies off, and that settles it."""
    with Hall(folder) as stage:
        page, port = begin(stage)
        until_agrees(stage, page)
        clock = Clock(stage, port)
        clock.play([*RUY[:2], *KNIGHTS])
        stage.until_moves(page, RUY_SANS[:4])
        stage.rest(PAUSE)
        clock.play(BACK, None, presses=False)
        clock.waits()
        stage.until_part(page, "#state", "LOOK at 3... Nb8")
        stage.until_part(page, "#ask", "both players went straight back")
        same(page.moves, [*RUY_SANS[:4], "Ng1", "Nb8"])
        answered(stage, page, "back 1... e5", "type it again")
        answered(stage, page, "back 1... e5", "Settled: LOOK at 3... Nb8")
        stage.until_moves(page, RUY_SANS[:2])
        nobody_need_look(page)


@with_chromium
def nobody_presses(folder: pathlib.Path) -> None:
    """Six plies without a press while the clock runs: the game may be over. With presses nobody need look."""
    with Hall(folder) as stage:
        page, port = begin(stage)
        until_agrees(stage, page)
        clock = Clock(stage, port)
        clock.play(RUY[:2])
        clock.play(RUY[2:8], 1.0)
        stage.until_moves(page, RUY_SANS[:8])
        nobody_need_look(page)
        clock.play(["e1g1", "c8g4", "h2h3", "g4h5", "d2d3", "f7f6"], COUNTED, presses=False)
        stage.until_part(page, "#state", "LOOK at 7... f6")
        stage.until_part(page, "#ask", "six moves were made and nobody pressed the clock")


@with_chromium
def clock_is_stopped(folder: pathlib.Path) -> None:
    """Both sides stop the clock: the page says so, and with a piece in a hand too, until the clock runs again; a page that is opened again
    says it anew. Nobody need look."""
    with Hall(folder) as stage:
        page, port = begin(stage)
        until_agrees(stage, page)
        port.board.clock(600, 600, runs=True)
        play(stage, page, port, RUY[:1], RUY_SANS[:1])
        assert words.CLOCK_STOPPED not in page.text("#state"), page.describe()
        port.board.clock(600, 590, runs=False)
        stage.until_part(page, "#state", f"agrees{words.CLOCK_STOPPED}")
        port.board.lift("g8")
        stage.until_part(page, "#state", f"in hand g8{words.CLOCK_STOPPED}")
        port.board.put("g8", INITIAL[field("g8")])
        page = killed(stage, page, port, RUY_SANS[:1])
        stage.until_part(page, "#state", f"agrees{words.CLOCK_STOPPED}")
        nobody_need_look(page)
        port.board.clock(600, 590, runs=True)
        stage.until(lambda: page.text("#state").startswith("agrees") and words.CLOCK_STOPPED not in page.text("#state"), "a clock that runs")
