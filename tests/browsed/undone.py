"""The line that was typed last is taken back on the page: the game has the plies from before it, and what the board has sent since."""

import pathlib

from browsed.ends import opened_again, until_over
from browsed.folders import Chosen, begin_in, until_text
from browsed.games import RUY, RUY_SANS, answered, begin, of_record, play, until_agrees
from browsed.hall import Hall
from browsed.series import movetext_of
from browsed.stage import with_chromium
from browsed.times import until_times
from played.stage import same

BY_HAND = "Take plies off with back, and a result with *"
NOTHING = f"refused: nothing was typed since this recording began, and what was typed before can't be undone. {BY_HAND}"


@with_chromium
def moves_undone(folder: pathlib.Path) -> None:
    """Two moves were typed for another board, and the players have gone on: the two go, and their next move stays. All bytes are in the times;
    the capture from before is kept. After a kill of the tab the game is so, and nothing can be undone."""
    with Hall(folder) as stage:
        chosen = Chosen(stage)
        page, port = begin_in(stage, chosen)
        chosen.choose(stage, page)
        until_agrees(stage, page)
        play(stage, page, port, RUY[:5], RUY_SANS[:5])
        answered(stage, page, "undo", NOTHING)
        answered(stage, page, "Nf6 O-O", "added by hand: Nf6 O-O")
        stage.until_moves(page, [*RUY_SANS[:5], "Nf6", "O-O"])
        answered(stage, page, "Nc3", "Nothing was added")
        answered(stage, page, "undo 2", "undo takes back the line that was typed last, and stands alone")
        port.board.play(RUY[5])
        stage.until_dumped(page, port)
        same(page.moves, [*RUY_SANS[:5], "Nf6", "O-O"])
        answered(stage, page, "undo", 'undone: "Nf6 O-O"; taken off: 3... Nf6 4. O-O; 6 plies again, the last one 3... a6. What the board had sent is kept')
        stage.until_moves(page, RUY_SANS[:6])
        until_agrees(stage, page)
        answered(stage, page, "undo", 'refused: "Nf6 O-O" is undone, and nothing else is left to undo. To have it again, type it again')
        answered(stage, page, "Nf3", "Nothing was added")
        play(stage, page, port, RUY[6:7], RUY_SANS[6:7])
        text = "1. e4 e5 2. Nf3 Nc6 3. Bb5 a6 4. Bxc6 *"
        until_text(stage, chosen, "board 1.pgn", text)
        game, capture = stage.saved(page, "#save-game"), stage.saved(page, "#save-capture")
        same((movetext_of(game), game), (text, of_record(game, capture)))
        same(sorted(name for name in chosen.files if "before" in name), ["board 1.before-1.dgt", "board 1.before-1.times"])
        until_times(stage, chosen, "board 1", lambda read: read.gone_back == 1 and read.total() == len(chosen.files["board 1.dgt"]), "all bytes")
        stage.crash(page)
        page = stage.tab([chosen.script()])
        stage.enlarge(page, 1)
        stage.until_moves(page, RUY_SANS[:7])
        answered(stage, page, "undo", NOTHING)


@with_chromium
def plies_again(folder: pathlib.Path) -> None:
    """Plies were taken off, and others put in their place, by mistake: all are there again, also if the tab is killed as soon as that is answered,
    and the next move comes to them. `ok` and `*` can't
    be undone: the answer says what to type."""
    with Hall(folder) as stage:
        page, port = begin(stage)
        until_agrees(stage, page)
        play(stage, page, port, RUY[:5], RUY_SANS[:5])
        port.board.lift("e1")
        stage.until_dumped(page, port)
        answered(stage, page, "back 1... e5", "takes off 3 plies, from 2. Nf3: type it again")
        answered(stage, page, "back 1... e5", "back to 1... e5; taken off: 2. Nf3 Nc6 3. Bb5")
        stage.until_moves(page, RUY_SANS[:2])
        answered(stage, page, "undo", 'undone: "back 1... e5"; 5 plies again, the last one 3. Bb5. What the board had sent is kept')
        stage.until_moves(page, RUY_SANS[:5])
        answered(stage, page, "instead 3. Bc4", "now 3. Bc4; taken off: 3. Bb5")
        stage.until_moves(page, [*RUY_SANS[:4], "Bc4"])
        answered(stage, page, "undo", 'undone: "instead 3. Bc4"; taken off: 3. Bc4; 5 plies again, the last one 3. Bb5. What the board had sent is kept')
        stage.until_moves(page, RUY_SANS[:5])
        stage.crash(page)  # as soon as it is answered
        page = stage.tab()
        stage.enlarge(page, 1)
        stage.until_moves(page, RUY_SANS[:5])
        port.board.put("e1", 5)
        until_agrees(stage, page)
        play(stage, page, port, RUY[5:6], RUY_SANS[5:6])
        for line, done, why in (
            ("ok", "there is no LOOK here", "You have looked at it, so there is nothing to take back"),
            ("1-0", "added by hand: the result 1-0", ""),
            ("*", "the result 1-0 is gone", "Type the result again"),
        ):
            answered(stage, page, line, done)
            if why:
                answered(stage, page, "undo", f'refused: "{line}" was typed last, and can\'t be undone. {why}')
        game, capture = stage.saved(page, "#save-game"), stage.saved(page, "#save-capture")
        same((movetext_of(game), game), ("1. e4 e5 2. Nf3 Nc6 3. Bb5 a6 *", of_record(game, capture)))


@with_chromium
def results_undone(folder: pathlib.Path) -> None:
    """A result was meant for another board: within the ten seconds and after them the game goes on, with the moves made since. A second result in
    the place of the first is taken back, and the first one stands; so it does once plies were taken off the game that is over, whether that stayed
    over or went on. It is so when the page is opened again. Once the next game has begun, nothing of this one is undone."""
    with Hall(folder) as stage:
        page, port = begin(stage)
        until_agrees(stage, page)
        play(stage, page, port, RUY[:4], RUY_SANS[:4])
        answered(stage, page, "1-0", "added by hand: the result 1-0")
        answered(stage, page, "undo", 'undone: "1-0"; 4 plies again, the last one 2... Nc6; the result 1-0 is gone. What the board had sent is kept')
        until_agrees(stage, page)
        answered(stage, page, "1-0", "added by hand: the result 1-0")
        until_over(stage, page)
        for move in RUY[4:6]:
            port.board.play(move)
            stage.until_dumped(page, port)
        answered(stage, page, "undo", 'undone: "1-0"; 6 plies again, the last one 3... a6; the result 1-0 is gone. What the board had sent is kept')
        stage.until_moves(page, RUY_SANS[:6])
        page.click("#ok")
        until_agrees(stage, page)
        answered(stage, page, "1-0", "added by hand: the result 1-0")
        until_over(stage, page)
        answered(stage, page, "0-1", "added by hand: the result 0-1")
        again = "6 plies again, the last one 3... a6; the result 1-0 again. What the board had sent is kept"
        answered(stage, page, "undo", f'undone: "0-1"; {again}')
        stage.until(lambda: movetext_of(stage.saved(page, "#save-game")).endswith("a6 1-0"), "the first result")
        same(page.text("#state"), "over")
        answered(stage, page, "back", "taken off: 3... a6; the result 1-0 is gone. The board still shows it, so the game stays over")
        answered(stage, page, "undo", f'undone: "back"; {again}')
        stage.until(lambda: movetext_of(stage.saved(page, "#save-game")).endswith("a6 1-0"), "all plies")
        port.board.lift("e1")
        stage.until_dumped(page, port)
        answered(stage, page, "back", "back to 3. Bb5; taken off: 3... a6; the result 1-0 is gone. What the board had sent is kept")
        stage.until_moves(page, RUY_SANS[:5])
        stage.until(lambda: not page.text("#state").endswith("over"), "a game that goes on")
        answered(stage, page, "undo", f'undone: "back"; {again}')
        until_over(stage, page)
        port.board.put("e1", 5)
        opened_again(stage, page, port)
        same((page.text("#state"), page.moves), ("over", RUY_SANS[:6]))
        answered(stage, page, "0-1", "added by hand: the result 0-1")
        port.board.set_up([])
        stage.until_moves(page, [])
        play(stage, page, port, RUY[:1], RUY_SANS[:1])
        answered(stage, page, "undo", 'refused: undo: "0-1" was typed before board 1-2 began. Give board 1 its result beside that name')
        texts = stage.saved(page, "#save-round").decode().replace("\n", " ")
        assert "3. Bb5 a6 0-1" in texts and "1. e4 *" in texts, texts
