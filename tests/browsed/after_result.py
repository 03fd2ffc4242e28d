"""What the page says of a game that is over: why, what to press if it goes on, and the moves that were made meanwhile."""

import pathlib
from typing import List, Tuple

from browsed.ends import until_over
from browsed.games import RUY, RUY_SANS, answered, begin, of_record, play, until_agrees
from browsed.hall import Hall, Port
from browsed.page import Page
from browsed.series import movetext_of
from browsed.stage import with_chromium
from played.stage import same

GOES_ON = "If the game goes on, press No result."
GIVEN = "added by hand: the result 0-1 after 2... Nc6, 4 plies"
STANDS = ["result 0-1", "ends in 10 seconds; if the result was given by mistake, press No result"]
OTHER = "board 1 is over: another move was made after its result. If it goes on, press No result"


def said(page: Page, after: str) -> List[str]:
    """The messages behind one with these words, the oldest first, without the time of day and the board's number."""
    lines = [line[13:] for line in reversed(page.messages)]
    return lines[lines.index(after) + 1 :]


def four_plies(stage: Hall) -> Tuple[Page, Port]:
    page, port = begin(stage)
    until_agrees(stage, page)
    play(stage, page, port, RUY[:4], RUY_SANS[:4])
    return page, port


@with_chromium
def moves_after_the_result(folder: pathlib.Path) -> None:
    """A result is given for the wrong board, and the players go on. Their moves aren't told as moves of the game; the page says what to
    press if it goes on, and then lists them."""
    with Hall(folder) as stage:
        page, port = four_plies(stage)
        page.click("[data-says='0-1']")
        stage.until_part(page, "#state", "result 0-1")
        port.board.play(RUY[4])
        stage.until_text(page, "#state", "over")
        stage.until_text(page, "#mend", GOES_ON)
        told = said(page, "2... Nc6")
        same((GIVEN in told[:3], [line for line in told if line != GIVEN]), (True, [*STANDS, OTHER]))
        port.board.play(RUY[5])
        stage.until_text(page, "#state", "LOOK after 2... Nc6; over")
        look = "LOOK after 2... Nc6: 2 moves were made, and the game is over: 0-1"
        stage.until_text(page, "#ask", f"{look}. If the game isn't over, press No result: it goes on with these moves")
        stage.until_text(page, "#mend", "")
        raised = f"{look}. Look at it, and press OK; if the game isn't over, press No result: it goes on with these moves"
        same(said(page, OTHER), [raised])
        page.click("[data-says='*']")
        goes_on = "board 1 goes on, without the result; played since: 3. Bb5 a6"
        stage.until_text(page, "#answer", goes_on)
        stage.until_moves(page, RUY_SANS[:6])
        stage.until_text(page, "#ask", look)
        page.click("#ok")
        until_agrees(stage, page)
        same(said(page, raised), [goes_on, "acknowledged: " + look])
        game, capture = stage.saved(page, "#save-game"), stage.saved(page, "#save-capture")
        same((movetext_of(game), game), ("1. e4 e5 2. Nf3 Nc6 3. Bb5 a6 *", of_record(game, capture)))


@with_chromium
def corrected_and_played_on(folder: pathlib.Path) -> None:
    """The last move is corrected after the result, and White replies. With No result the game goes on with both moves, as the page says,
    and is played on."""
    with Hall(folder) as stage:
        page, port = four_plies(stage)
        answered(stage, page, "0-1", "added by hand")
        port.board.play("c6a6")
        stage.until_text(page, "#state", "LOOK at 2... Na6; over")
        stage.until_text(page, "#mend", GOES_ON)
        over = "board 1 is over: its last move was corrected after its result. If it goes on, press No result"
        stage.until(lambda: over in said(page, "2... Nc6"), "why it is over")
        assert not any(line.startswith("correction") for line in said(page, "2... Nc6")), page.messages
        port.board.play("d2d4")
        stage.until_dumped(page, port)
        answered(stage, page, "*", "board 1 goes on, without the result; 2... Nc6 was corrected to 2... Na6; played since: 3. d4")
        stage.until_moves(page, [*RUY_SANS[:3], "Na6", "d4"])
        page.click("#ok")
        until_agrees(stage, page)
        play(stage, page, port, ["e5d4"], ["exd4"])
        game, capture = stage.saved(page, "#save-game"), stage.saved(page, "#save-capture")
        same((movetext_of(game), game), ("1. e4 e5 2. Nf3 Na6 3. d4 exd4 *", of_record(game, capture)))


@with_chromium
def ends_that_are_said(folder: pathlib.Path) -> None:
    """A game that has no result when the pieces are set up: the page says that somebody must give it, and where. After mate there is
    nothing to press. Without the mate, which the board still shows, the game has no result: the page says what to press. When the kings
    have given the result, it says what to press if the game goes on."""
    with Hall(folder) as stage:
        page, port = four_plies(stage)
        stage.rest(3)
        port.board.set_up([])
        stage.until_moves(page, [])
        until_agrees(stage, page)
        same(said(page, "2... Nc6")[:1], ["board 1 is over: the pieces are at the start again. Give its result beside the next game"])
        same(page.text("#before-which"), "The game before, board 1, has no result. What was it?")
        page.click("[data-before='1-0']")
        play(stage, page, port, ["f2f3", "e7e5", "g2g4", "d8h4"], ["f3", "e5", "g4", "Qh4#"])
        until_over(stage, page)
        same((page.text("#state"), page.text("#mend")), ("over", ""))
        answered(stage, page, "back", "back to 2. g4; taken off: 2... Qh4#; the result 0-1 is gone. The board still shows it, so the game stays over")
        stage.until_text(page, "#mend", f"The game has no result: press 1\u20130, \u00bd\u2013\u00bd or 0\u20131. {GOES_ON}")
        port.board.play("h4d8")
        stage.until_dumped(page, port)
        answered(stage, page, "*", "back to 2. g4; no ply is taken off")
        until_agrees(stage, page)
        port.board.kings_in_centre("e4", "d5")
        stage.until_part(page, "#at", "1\u20130")
        until_over(stage, page)
        stage.until_text(page, "#mend", GOES_ON)
