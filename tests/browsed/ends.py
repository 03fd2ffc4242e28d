"""How a game ends, as the program says it: what counts, what somebody must look at, and what stays over."""

import pathlib

from browsed.games import QUEENS, QUEENS_SANS, RUY, RUY_SANS, answered, begin, of_record, play, until_agrees
from browsed.hall import Hall, Port
from browsed.page import Page
from browsed.series import movetext_of
from browsed.stage import with_chromium
from played.recovered import hurried
from played.stage import same

PLAYED = "LOOK after 1... e5"
TOLD = 1.2  # seconds after which a dump is sure, and what it says is shown
# The first board's game is stored as over, with so many bytes.
ENDED = """
(async () => {
  const answer = (request) => new Promise((done, failed) => {
    request.onsuccess = () => done(request.result);
    request.onerror = () => failed(request.error);
  });
  const database = await answer(indexedDB.open('dgt_recorder'));
  const change = database.transaction(['boards', 'games'], 'readwrite');
  const { game } = await answer(change.objectStore('boards').get(1));
  const { played, ...kept } = await answer(change.objectStore('games').get(game));
  await answer(change.objectStore('games').put({ ...kept, end: END }));
  await new Promise((done) => (change.oncomplete = done)); // else the next page may come before it
  database.close();
})()
"""

# The browser has kept these bytes too, as the last ones of the first board's game.
CAME = """
(async () => {
  const answer = (request) => new Promise((done, failed) => {
    request.onsuccess = () => done(request.result);
    request.onerror = () => failed(request.error);
  });
  const database = await answer(indexedDB.open('dgt_recorder'));
  const change = database.transaction(['boards', 'chunks'], 'readwrite');
  const { game } = await answer(change.objectStore('boards').get(1));
  const chunks = await answer(change.objectStore('chunks').getAll(IDBKeyRange.bound([game, 0], [game, Infinity])));
  const { number, at } = chunks.at(-1);
  await answer(change.objectStore('chunks').put({ game, number: number + 1, at: at + 20, bytes: Uint8Array.from(BYTES) }));
  await new Promise((done) => (change.oncomplete = done)); // else the next page may come before it
  database.close();
})()
"""


def until_over(stage: Hall, page: Page) -> None:
    stage.until(lambda: page.text("#state").endswith("over"), "the end of the game")


def opened_again(stage: Hall, page: Page, port: Port) -> None:
    """The page is opened again, and has heard its board."""
    stage.open(page)
    stage.until(lambda: page in port.holders, "the board to be opened by itself")
    stage.enlarge(page, 1)
    stage.until_dumped(page, port)
    stage.rest(TOLD)


def is_over_with(page: Page, look: str, moves: int) -> None:
    """It is over with so many moves of the game, and somebody must look at this, or at nothing."""
    same((page.text("#state"), page.moves), (f"{look}; over" if look else "over", RUY_SANS[:moves]))


@with_chromium
def plays_on(folder: pathlib.Path) -> None:
    """The kings show a result, and another move is made before it has stood for ten seconds: the game is over with the result. The move
    after that is something to look at, also when the page is opened again; but not once somebody has looked. `*` goes on with both, also
    when the page is opened again, and another result ends the game."""
    with Hall(folder) as stage:
        page, port = begin(stage)
        until_agrees(stage, page)
        play(stage, page, port, RUY[:2], RUY_SANS[:2])
        port.board.kings_in_centre("d4", "d5")
        stage.until_part(page, "#state", "result 1/2-1/2")
        for move in ("d4e1", "d5e8", RUY[2]):
            port.board.play(move)
        until_over(stage, page)
        stage.until(lambda: any("another move was made after its result" in line for line in page.messages), "why it is over")
        stage.until_dumped(page, port)
        is_over_with(page, "", 2)
        port.board.play(RUY[3])
        stage.until_part(page, "#state", PLAYED)
        opened_again(stage, page, port)
        is_over_with(page, PLAYED, 2)
        page.click("#ok")
        stage.until_text(page, "#state", "over")
        opened_again(stage, page, port)
        is_over_with(page, "", 2)
        answered(stage, page, "*", "board 1 goes on, without the result")
        stage.until_moves(page, RUY_SANS[:4])
        until_agrees(stage, page)
        opened_again(stage, page, port)
        same((page.text("#state").split(",")[0], page.moves), ("agrees", RUY_SANS[:4]))
        answered(stage, page, "0-1", "added by hand: the result 0-1")
        until_over(stage, page)
        game, capture = stage.saved(page, "#save-game"), stage.saved(page, "#save-capture")
        same((movetext_of(game), game), ("1. e4 e5 2. Nf3 Nc6 0-1", of_record(game, capture)))


@with_chromium
def pieces_home_after_the_result(folder: pathlib.Path) -> None:
    """Two knights go home after the result, and the game goes on with that, as No result says. So the set-up that follows at once takes
    these plies off no more."""
    with Hall(folder) as stage:
        page, port = begin(stage)
        until_agrees(stage, page)
        play(stage, page, port, RUY[:4], RUY_SANS[:4])
        answered(stage, page, "1-0", "added by hand: the result 1-0")
        stage.rest(1.5)
        port.board.play("f3g1")
        until_over(stage, page)
        port.board.play("c6b8")
        stage.until_dumped(page, port)
        answered(stage, page, "*", "board 1 goes on, without the result; played since: 3. Ng1 Nb8")
        port.board.set_up([])
        stage.until_moves(page, [])
        until_agrees(stage, page)
        texts = stage.saved(page, "#save-round").decode().replace("\n", " ")
        assert "1. e4 e5 2. Nf3 Nc6 3. Ng1 Nb8 *" in texts, texts


@with_chromium
def start_stands_already(folder: pathlib.Path) -> None:
    """A move is taken back, and a result is typed while the start stands there: the next game begins with the board's next dump. A game
    that was forfeited is over too while the start stands there; that is its own, so it stays. Who comes late plays, and it goes on."""
    with Hall(folder) as stage:
        page, port = begin(stage)
        until_agrees(stage, page)
        play(stage, page, port, RUY[:1], RUY_SANS[:1])
        port.board.play("e4e2")
        stage.until_dumped(page, port)
        answered(stage, page, "0-1", "added by hand: the result 0-1 after 1. e4, 1 ply")
        stage.until(lambda: "the pieces are at the start: board 1-2 begins" in [line[13:] for line in page.messages], "the next game")
        stage.until_moves(page, [])
        until_agrees(stage, page)
        play(stage, page, port, QUEENS[:2], QUEENS_SANS[:2])
        texts = stage.saved(page, "#save-round").decode().replace("\n", " ")
        assert "1. e4 0-1" in texts and "1. d4 d5 *" in texts, texts
        page.click("[data-says='1-0']")
        until_over(stage, page)
        port.board.set_up([])
        stage.until_moves(page, [])
        until_agrees(stage, page)
        answered(stage, page, "+-", "forfeit 1-0: it isn't played")
        stage.until(lambda: "board 1-3 is over: it has a result" in [line[13:] for line in page.messages], "the end of the third game")
        for _ in range(3):
            stage.until_dumped(page, port)
            stage.rest(1)
        same((page.text("#state"), page.moves), ("forfeit 1-0", []))
        for move in RUY[:2]:
            port.board.play(move)
            stage.until_dumped(page, port)
        stage.until(lambda: any("LOOK after the start: 2 moves were made, and the game is over: 1-0" in line for line in page.messages), "an alarm")
        answered(stage, page, "*", "board 1-3 goes on, without the result; played since: 1. e4 e5")
        stage.until_moves(page, RUY_SANS[:2])
        page.click("#ok")
        until_agrees(stage, page)


@with_chromium
def moved_at_once(folder: pathlib.Path) -> None:
    """The start stands there when the game ends. The first move of the next one is made as soon as the board has sent its dump, before
    the page looks: the next game has it."""
    with Hall(folder) as stage:
        page, port = begin(stage)
        until_agrees(stage, page)
        play(stage, page, port, RUY[:1], RUY_SANS[:1])
        port.board.play("e4e2")
        stage.until_dumped(page, port)
        answered(stage, page, "0-1", "added by hand: the result 0-1 after 1. e4, 1 ply")
        stage.until(lambda: "board 1 is over: it has a result" in [line[13:] for line in page.messages], "the end of the game")
        stage.until_dumped(page, port)
        port.board.play(QUEENS[0])
        stage.until(lambda: "the pieces are at the start: board 1-2 begins" in [line[13:] for line in page.messages], "the next game")
        stage.until_moves(page, QUEENS_SANS[:1])


@with_chromium
def kings_on_a_board_that_is_away(folder: pathlib.Path) -> None:
    """The kings were in the centre when the cable was pulled out: while it is in, no other result is taken, and none is taken off. Once
    it is out nobody can put the kings back: then both can be."""
    with Hall(folder) as stage:
        page, port = begin(stage)
        until_agrees(stage, page)
        play(stage, page, port, RUY[:2], RUY_SANS[:2])
        port.board.kings_in_centre("d4", "d5")
        stage.until_part(page, "#at", "\u00bd\u2013\u00bd")
        until_over(stage, page)
        stage.until_dumped(page, port)
        still = "the board still shows the result 1/2-1/2. Put the kings where they belong, and type it again"
        for text in ("1-0", "*"):
            answered(stage, page, text, f"refused: {text}: {still}")
        stage.pull(port)
        stage.until(lambda: not port.holders, "the board to be left")
        answered(stage, page, "1-0", "added by hand: the result 1-0 after 1... e5, 2 plies; the result 1/2-1/2 is gone")
        stage.until(lambda: movetext_of(stage.saved(page, "#save-game")) == "1. e4 e5 1-0", "another result")
        answered(stage, page, "*", "board 1 goes on: back to 1... e5; no ply is taken off; the result 1-0 is gone. What the board had sent is kept")
        stage.until(lambda: movetext_of(stage.saved(page, "#save-game")) == "1. e4 e5 *", "no result")
        for move in ("d4e1", "d5e8"):
            port.board.play(move)
        stage.plug(port)
        until_agrees(stage, page)
        play(stage, page, port, RUY[2:3], RUY_SANS[2:3])


@with_chromium
def corrected_after_the_result(folder: pathlib.Path) -> None:
    """The last move is corrected on the board after its result was typed: the game is over as it was, and somebody must look."""
    with Hall(folder) as stage:
        page, port = begin(stage)
        until_agrees(stage, page)
        play(stage, page, port, RUY[:2], RUY_SANS[:2])
        answered(stage, page, "1-0", "added by hand: the result 1-0")
        port.board.play("e5e6")
        stage.until_text(page, "#state", "LOOK at 1... e6; over")
        stage.until_moves(page, RUY_SANS[:2])
        same(movetext_of(stage.saved(page, "#save-game")), "1. e4 e5 1-0")
        answered(stage, page, "0-1", "added by hand: the result 0-1")
        stage.until(lambda: movetext_of(stage.saved(page, "#save-game")) == "1. e4 e5 0-1", "another result")


@with_chromium
def stored_as_over(folder: pathlib.Path) -> None:
    """A game is stored as over that the program takes for one that goes on: it stays over, with
    its own moves, whatever is played. The next one begins when the pieces are set up."""
    with Hall(folder) as stage:
        page, port = begin(stage)
        until_agrees(stage, page)
        play(stage, page, port, RUY[:2], RUY_SANS[:2])
        stage.until_dumped(page, port)
        end = len(page.kept(1))
        play(stage, page, port, RUY[2:4], RUY_SANS[2:4])
        stage.until_dumped(page, port)
        stage.leave(page)
        page.value(ENDED.replace("END", str(end)))
        opened_again(stage, page, port)
        is_over_with(page, "", 2)
        port.board.play(RUY[4])
        stage.until_dumped(page, port)
        is_over_with(page, "", 2)
        port.board.set_up([])
        stage.until_moves(page, [])
        until_agrees(stage, page)
        play(stage, page, port, QUEENS[:2], QUEENS_SANS[:2])
        texts = stage.saved(page, "#save-round").decode().replace("\n", " ")
        assert "1. e4 e5 *" in texts and "1. d4 d5 *" in texts, texts


@with_chromium
def over_by_what_was_kept(folder: pathlib.Path) -> None:
    """The tab was killed when the pieces had been set up, and before the page had stored that the game is over: opened again, the
    program says so of what was kept, and the next game begins."""
    with Hall(folder) as stage:
        page, port = begin(stage)
        until_agrees(stage, page)
        start = port.board.dump()
        play(stage, page, port, RUY[:4], RUY_SANS[:4])
        stage.until_dumped(page, port)
        stage.rest(3)
        stage.leave(page)
        stage.pull(port)
        port.board.set_up([])
        page.value(CAME.replace("BYTES", str(list(start[:-32] + bytes(32) + start))))
        stage.open(page)
        stage.enlarge(page, 1)
        stage.until(lambda: any("board 1 is over: the pieces are at the start again" in line for line in page.messages), "the end")
        stage.until_moves(page, [])
        stage.plug(port)
        play(stage, page, port, QUEENS[:1], QUEENS_SANS[:1])
        texts = stage.saved(page, "#save-round").decode().replace("\n", " ")
        assert "1. e4 e5 2. Nf3 Nc6 *" in texts and "1. d4 *" in texts, texts


@with_chromium
def back_into_a_pair(folder: pathlib.Path) -> None:
    """The last three plies of a game that is over came at once: a pair that two hands hid, and the move that confirms it. The page
    doesn't take off that move alone while the board shows it, since what the board had sent up to there gives it too. With a king
    lifted, the move goes and the pair stays."""
    with Hall(folder) as stage:
        page, port = begin(stage)
        until_agrees(stage, page)
        page.click("#recover")
        play(stage, page, port, RUY[:2], RUY_SANS[:2])
        hurried(port.board)
        stage.until_dumped(page, port)
        port.board.play(RUY[4])
        stage.until_moves(page, RUY_SANS[:5])
        answered(stage, page, "1-0", "added by hand: the result 1-0")
        until_over(stage, page)
        page.type("back")
        stage.until(lambda: not page.text("#answer").startswith("added"), "an answer")
        told = "refused: the board still shows 3. Bb5: it would come back at once. If another move was played, wait for the next one"
        assert page.text("#answer").startswith(told), page.text("#answer")
        same((page.text("#state"), page.moves), ("over", RUY_SANS[:5]))
        same(movetext_of(stage.saved(page, "#save-game")), "1. e4 e5 2. Nf3 Nc6 3. Bb5 1-0")
        port.board.lift("e1")
        stage.until_dumped(page, port)
        answered(stage, page, "back", "back to 2... Nc6; taken off: 3. Bb5; the result 1-0 is gone. What the board had sent is kept")
        stage.until_moves(page, RUY_SANS[:4])
