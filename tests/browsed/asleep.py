"""The computer sleeps, or the browser is stopped: what was played meanwhile is in the game, or somebody must look. A tab that nobody
sees records as any other."""

import functools
import pathlib
import signal
import threading
import time

from browsed.games import RUY, RUY_SANS, answered, begin, play, until_agrees
from browsed.hall import Hall, Port
from browsed.page import Page
from browsed.stage import with_chromium
from played.asleep import MEANWHILE, THERE_AND_BACK, unheard
from played.stage import same

# The clocks of the page, which the case puts forward; and the longest time between two looks at them.
CLOCKS = """
window.clocks = { running: 0, counting: 0, longest: 0 };
{
  const running = performance.now.bind(performance);
  const counting = Date.now;
  let last = counting();
  performance.now = () => running() + clocks.running;
  Date.now = () => {
    const now = counting() + clocks.counting;
    clocks.longest = Math.max(clocks.longest, now - last);
    last = now;
    return now;
  };
}
"""
# The longest time between two calls of a timer of the page itself.
TIMER = """
window.timer = { longest: 0 };
{
  let last = performance.now();
  setInterval(() => {
    const now = performance.now();
    timer.longest = Math.max(timer.longest, now - last);
    last = now;
  }, 250);
}
"""
# Has the program told what happens only when that is asked for.
HOLDS = """
window.program = { held: null };
{
  const post = Worker.prototype.postMessage;
  Worker.prototype.postMessage = function (message) {
    if (program.held && message.name === 'tell') program.held.push(() => post.call(this, message));
    else post.call(this, message);
  };
}
"""
HOLD = "program.held = []"
REPORT = "{ const { held } = program; program.held = null; held.forEach((call) => call()); }"
GOES_ON = "clocks.longest = 0; clocks.running += %d; clocks.counting += %d"
LOOK = "LOOK after 1... e5"
SECONDS = 5.0  # of a time away
STOPPED = 12  # seconds
LINGERS = 12  # seconds after which a result has ended a game
THROTTLED = 900  # milliseconds between two calls of a timer that wants one each 250


def begin_with(stage: Hall, script: str) -> "tuple[Page, Port]":
    """A game of two plies on a page with this script before its own."""
    port = stage.board()
    page = stage.tab([script])
    stage.add(page, port)
    stage.enlarge(page, 1)
    until_agrees(stage, page)
    play(stage, page, port, RUY[:2], RUY_SANS[:2])
    stage.until_dumped(page, port)
    return page, port


def looked_at(stage: Hall, page: Page) -> None:
    """Somebody must look; he does."""
    stage.until_part(page, "#state", LOOK)
    page.click("#ok")
    stage.until(lambda: "LOOK" not in page.text("#state"), "no alarm any more")


def is_shown(page: Page, state: str) -> bool:
    return page.text("#state").startswith(state)


@with_chromium
def computer_asleep(folder: pathlib.Path) -> None:
    """The computer sleeps for 35 s by a clock that counts on, and by one that stands still. Four plies that lead back, and none at
    all, are something to look at; after two the board differs, and they are typed."""
    with Hall(folder) as stage:
        page, port = begin_with(stage, CLOCKS)
        for clocks in ((35000, 35000), (0, 35000)):
            for moves in MEANWHILE:
                stage.until_dumped(page, port)
                unheard(port.board, moves)
                page.value(GOES_ON % clocks)
                looked_at(stage, page)
        stage.until(lambda: any("this computer slept, or the browser was stopped, for 35 s" in line for line in page.messages), "why")
        same(page.moves, RUY_SANS[:2])
        unheard(port.board, RUY[2:4])
        page.value(GOES_ON % (0, 35000))
        stage.until_dumped(page, port)
        stage.until(lambda: "agrees" not in page.text("#state"), "a board that has gone on")
        page.type("Nf3 Nc6")
        stage.until_moves(page, RUY_SANS[:4])


@with_chromium
def held_up(folder: pathlib.Path) -> None:
    """The page is held up for less than five seconds, and the clock on the wall is put back by an hour: nobody need look at
    anything."""
    with Hall(folder) as stage:
        page, port = begin_with(stage, CLOCKS)
        for clocks in ((4000, 4000), (4000, 4000), (0, -3600000)):
            page.value(GOES_ON % clocks)
            stage.until_dumped(page, port)
            stage.rest(1.2)  # what a dump says is sure a second later
            if page.value("clocks.longest") <= 1000 * SECONDS:  # else this machine has held it up for longer
                assert "LOOK" not in page.text("#state"), page.describe()
            page.click("#ok") if page.shows("#ok") else None
        play(stage, page, port, RUY[2:4], RUY_SANS[2:4])


@with_chromium
def reported_late(folder: pathlib.Path) -> None:
    """The program reports moves only four seconds later, when the clock has been stopped: one that was made before that is nothing to
    look at. One that was made afterwards is."""
    with Hall(folder) as stage:
        page, port = begin_with(stage, f"{CLOCKS}{HOLDS}")
        clock = [5400, 5400]
        play(stage, page, port, RUY[2:4], RUY_SANS[2:4], clock)
        for ply, state in ((4, "agrees"), (5, "LOOK since 3. Bb5")):
            page.value(HOLD)
            port.board.play(RUY[ply])
            stage.rest(1)
            port.board.clock(clock[0], clock[1], False)
            stage.rest(4)
            page.value(REPORT)
            stage.until_moves(page, RUY_SANS[: ply + 1])
            if page.value("clocks.longest") <= 1000 * SECONDS:  # else this machine has held it up for longer
                stage.until(functools.partial(is_shown, page, state), f"the state {state}")


@with_chromium
def browser_stopped(folder: pathlib.Path) -> None:
    """All processes of the browser are stopped for twelve seconds: plies that the line has kept are in the game; after four that
    lead back, and that nobody has heard, somebody must look."""
    with Hall(folder) as stage:
        page, port = begin(stage)
        until_agrees(stage, page)
        play(stage, page, port, RUY[:2], RUY_SANS[:2])
        for moves in (THERE_AND_BACK, RUY[2:6]):
            stage.until_dumped(page, port)
            stage.browser.send(signal.SIGSTOP)
            if moves == THERE_AND_BACK:
                unheard(port.board, moves)
            else:
                port.board.play(*moves)
            time.sleep(STOPPED)
            stage.browser.send(signal.SIGCONT)
            if moves == THERE_AND_BACK:
                looked_at(stage, page)
        stage.until_moves(page, RUY_SANS[:6])


@with_chromium
def result_taken_back(folder: pathlib.Path) -> None:
    """The kings stand in the centre by mistake, and go back while the browser is stopped, and a move is made: the game is over with
    their result. Without it the game goes on, with this move."""
    with Hall(folder) as stage:
        page, port = begin(stage)
        until_agrees(stage, page)
        play(stage, page, port, RUY[:2], RUY_SANS[:2])
        stage.until_dumped(page, port)
        port.board.kings_in_centre("d4", "d5")
        stage.until_part(page, "#state", "result 1/2-1/2")
        stage.browser.send(signal.SIGSTOP)
        port.board.play("d4e1", "d5e8", RUY[2])
        threading.Timer(LINGERS, lambda: stage.browser.send(signal.SIGCONT)).start()
        port.turn()  # what the board has sent waits in the browser's line
        stage.until(lambda: page.text("#state").endswith("over"), "the end of the game")
        stage.until_dumped(page, port)
        same(page.moves, RUY_SANS[:2])
        answered(stage, page, "*", "board 1 goes on, without the result")
        stage.until_moves(page, RUY_SANS[:3])


@with_chromium
def tab_hidden(folder: pathlib.Path) -> None:
    """Another tab is in front, and the browser calls the timers of the page less often: the page records as before, and nobody need
    look at anything. Tried for longer, until they were called once a minute, the loop turned four times a second."""
    with Hall(folder) as stage:
        page, port = begin_with(stage, f"{CLOCKS}{TIMER}")
        stage.browser.tab().call("Page.bringToFront")
        stage.until(lambda: page.value("document.hidden"), "a page that nobody sees")
        page.value("timer.longest = clocks.longest = 0")
        stage.until(lambda: page.value(f"timer.longest > {THROTTLED}"), "a page whose timers are called less often")
        stage.rest(SECONDS)
        stage.until_dumped(page, port)
        stage.rest(1.2)  # what a dump says is sure a second later
        if page.value("clocks.longest") <= 1000 * SECONDS:  # else this machine has held it up for longer
            assert "LOOK" not in page.text("#state"), page.describe()
        play(stage, page, port, RUY[2:4], RUY_SANS[2:4])
        print(f"  the longest time between two turns: {page.value('clocks.longest')} ms")
