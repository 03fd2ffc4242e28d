"""The result that the kings gave is replaced by another one, which somebody gives on the page."""

import pathlib

from browsed.ends import opened_again, until_over
from browsed.games import RUY, RUY_SANS, answered, begin, of_record, play, until_agrees
from browsed.hall import Hall, Port
from browsed.page import Page
from browsed.series import movetext_of
from browsed.stage import with_chromium
from played.recovered import hurried
from played.stage import same

SHOWN = "the board still shows the result 1/2-1/2. Put the kings where they belong, and type it again"


def draws(stage: Hall, page: Page, port: Port) -> None:
    """Both kings are set in the centre."""
    port.board.kings_in_centre("d4", "d5")
    stage.until_part(page, "#at", "\u00bd\u2013\u00bd")


def kings_go_home(stage: Hall, page: Page, port: Port) -> None:
    for move in ("d4e1", "d5e8"):
        port.board.play(move)
    stage.until_dumped(page, port)


@with_chromium
def replaced_while_it_stands(folder: pathlib.Path) -> None:
    """Within the ten seconds the page refuses another result while the kings are in the centre, and says what to do. When the kings are
    where they belong, it takes the other result."""
    with Hall(folder) as stage:
        page, port = begin(stage)
        until_agrees(stage, page)
        play(stage, page, port, RUY[:2], RUY_SANS[:2])
        draws(stage, page, port)
        page.click("[data-says='1-0']")
        stage.until_part(page, "#answer", f"refused: 1-0: {SHOWN}")
        kings_go_home(stage, page, port)
        page.click("[data-says='1-0']")
        stage.until_part(page, "#answer", "added by hand: the result 1-0 after 1... e5, 2 plies")
        stage.until_part(page, "#at", "1\u20130")
        until_over(stage, page)
        game, capture = stage.saved(page, "#save-game"), stage.saved(page, "#save-capture")
        same((movetext_of(game), game), ("1. e4 e5 1-0", of_record(game, capture)))


@with_chromium
def replaced_when_over(folder: pathlib.Path) -> None:
    """The same when the game is over: with another result it stays over, also when the page is opened again, and what the board had
    sent is kept. A third result replaces the second. The next game begins when the pieces are set up."""
    with Hall(folder) as stage:
        page, port = begin(stage)
        until_agrees(stage, page)
        play(stage, page, port, RUY[:2], RUY_SANS[:2])
        draws(stage, page, port)
        until_over(stage, page)
        answered(stage, page, "1-0", f"refused: 1-0: {SHOWN}")
        kings_go_home(stage, page, port)
        told = "added by hand: the result 1-0 after 1... e5, 2 plies; the result 1/2-1/2 is gone. What the board had sent is kept"
        answered(stage, page, "1-0", told)
        stage.until_part(page, "#at", "1\u20130")
        stage.rest(2)
        same((page.text("#state"), page.moves, page.shows("#save-before")), ("over", RUY_SANS[:2], True))
        opened_again(stage, page, port)
        same((page.text("#state"), page.moves), ("over", RUY_SANS[:2]))
        game = stage.saved(page, "#save-game")
        same(movetext_of(game), "1. e4 e5 1-0")
        answered(stage, page, "0-1", "added by hand: the result 0-1 after 1... e5, 2 plies")
        stage.until(lambda: movetext_of(stage.saved(page, "#save-game")) == "1. e4 e5 0-1", "the third result")
        port.board.set_up([])
        stage.until_moves(page, [])
        play(stage, page, port, RUY[:1], RUY_SANS[:1])
        texts = stage.saved(page, "#save-round").decode().replace("\n", " ")
        assert "1. e4 e5 0-1" in texts and "1. e4 *" in texts, texts


@with_chromium
def replaced_before_moves(folder: pathlib.Path) -> None:
    """The kings were in the centre for another board: the game is over, and the players have made two more moves. Another result ends it
    where it ended, and with No result it goes on with these moves."""
    with Hall(folder) as stage:
        page, port = begin(stage)
        until_agrees(stage, page)
        play(stage, page, port, RUY[:2], RUY_SANS[:2])
        draws(stage, page, port)
        until_over(stage, page)
        kings_go_home(stage, page, port)
        for move in RUY[2:4]:
            port.board.play(move)
            stage.until_dumped(page, port)
        stage.until_part(page, "#state", "LOOK after 1... e5")
        answered(stage, page, "0-1", "added by hand: the result 0-1 after 1... e5, 2 plies; the result 1/2-1/2 is gone")
        stage.until(lambda: movetext_of(stage.saved(page, "#save-game")) == "1. e4 e5 0-1", "the other result")
        stage.rest(2)
        same(page.moves, RUY_SANS[:2])
        answered(stage, page, "*", "board 1 goes on, without the result")
        stage.until_moves(page, RUY_SANS[:4])
        game, capture = stage.saved(page, "#save-game"), stage.saved(page, "#save-capture")
        same((movetext_of(game), game), ("1. e4 e5 2. Nf3 Nc6 *", of_record(game, capture)))


@with_chromium
def mate_put_in(folder: pathlib.Path) -> None:
    """Moves that come in place of others end with mate: that ends the game."""
    with Hall(folder) as stage:
        page, port = begin(stage)
        until_agrees(stage, page)
        play(stage, page, port, RUY[:2], RUY_SANS[:2])
        answered(stage, page, "Bc4 Nc6 Qh5 a6 h3", "added by hand: Bc4 Nc6 Qh5 a6 h3")
        answered(stage, page, "instead 4. Qxf7#", "now 4. Qxf7#; taken off: 4. h3. What the board had sent is kept")
        until_over(stage, page)
        game, capture = stage.saved(page, "#save-game"), stage.saved(page, "#save-capture")
        same((movetext_of(game), game), ("1. e4 e5 2. Bc4 Nc6 3. Qh5 a6 4. Qxf7# 1-0", of_record(game, capture)))


@with_chromium
def replaced_beside_a_pair(folder: pathlib.Path) -> None:
    """The kings have confirmed two moves that two hands hid, so the game has these with their result alone: another one is refused, also
    when the game is over and the kings are where they belong, and the game keeps its own."""
    with Hall(folder) as stage:
        page, port = begin(stage)
        until_agrees(stage, page)
        page.click("#recover")
        play(stage, page, port, RUY[:2], RUY_SANS[:2])
        hurried(port.board)
        stage.until_dumped(page, port)
        draws(stage, page, port)
        stage.until_moves(page, RUY_SANS[:4])
        until_over(stage, page)
        kings_go_home(stage, page, port)
        answered(stage, page, "1-0", "refused: 1-0: what the board shows would change the game. Set the pieces as they stand after")
        same((page.text("#state"), page.moves), ("over", RUY_SANS[:4]))
        same(movetext_of(stage.saved(page, "#save-game")), "1. e4 e5 2. Nf3 Nc6 1/2-1/2")
