"""Games one after the other, lines that lose what is sent, hidden moves, and many boards: what is typed and clicked then."""

import pathlib

from browsed.folders import Chosen, begin_in, names_of, until_recorded_so, until_text
from browsed.games import QUEENS, QUEENS_SANS, RUY, RUY_SANS, answered, begin, of_record, play, until_agrees
from browsed.hall import Hall
from browsed.stage import with_chromium
from played.games import PARIS, PARIS_TEXT
from played.killing import SANS
from played.recovered import hurried
from played.stage import same
from rounds.hall import moves, plain, text, told

BOARDS = 4
# Each text takes a second to be made.
LATE_TEXTS = """
const post = Worker.prototype.postMessage;
Worker.prototype.postMessage = function (message) {
  if (message?.name === 'run' && message.given.words[0] === 'record') setTimeout(() => post.call(this, message), 1000);
  else post.call(this, message);
};
"""


def movetext_of(game: bytes) -> str:
    return game.decode().split("\n\n")[1].replace("\n", " ")


@with_chromium
def games_in_a_row(folder: pathlib.Path) -> None:
    """A result by the kings, and the pieces set up again: the next game begins by itself, and each has files of its own."""
    with Hall(folder) as stage:
        chosen = Chosen(stage)
        page, port = begin_in(stage, chosen)
        chosen.choose(stage, page)
        play(stage, page, port, RUY[:4], RUY_SANS[:4])
        port.board.kings_in_centre("e4", "d5")
        stage.until_part(page, "#at", "1\u20130")
        stage.until(lambda: page.text("#state").startswith("over"), "the end of the game")
        port.board.set_up([])
        stage.until_moves(page, [])
        until_agrees(stage, page)
        play(stage, page, port, QUEENS[:4], QUEENS_SANS[:4])
        stage.until(lambda: len(names_of(chosen, ".pgn")) == 2, "a text for each game")
        first, second = sorted(names_of(chosen, ".pgn"), key=lambda name: b"1. d4" in chosen.files[name])
        until_text(stage, chosen, second, "1. d4 d5 2. c4 e6 *")
        until_text(stage, chosen, first, "1. e4 e5 2. Nf3 Nc6 1-0")
        both = chosen.files[first] + chosen.files[second]
        stage.until(lambda: chosen.files.get("round.pgn") == both, "both games in round.pgn")


@with_chromium
def saved_at_once(folder: pathlib.Path) -> None:
    """A game that is saved as soon as a move is shown has that move, though its text is still being made."""
    with Hall(folder) as stage:
        port = stage.board()
        page = stage.tab([LATE_TEXTS])
        stage.add(page, port)
        stage.enlarge(page, 1)
        until_agrees(stage, page)
        play(stage, page, port, RUY[:1], RUY_SANS[:1])
        same(movetext_of(stage.saved(page, "#save-game")), "1. e4 *")
        stage.show_all(page)
        port.board.play(RUY[1])
        stage.until_text(page, "a.tile[href='#1'] .last", "1... e5")
        same(movetext_of(stage.saved(page, "#save-round")), "1. e4 e5 *")


@with_chromium
def bad_lines(folder: pathlib.Path) -> None:
    """One board loses a fifth of its updates and cuts others, another one sends noise all the time: the first game is whole."""
    with Hall(folder) as stage:
        page, port = begin(stage)
        until_agrees(stage, page)
        noisy = stage.board()
        stage.show_all(page)
        stage.add(page, noisy)
        stage.enlarge(page, 1)
        port.board.spoiled_share = 0.2
        for ply, move in enumerate(PARIS):
            noisy.board.make_noise(2)
            port.board.lost_whole = bool(ply % 2)
            port.board.play(move)
            stage.until_moves(page, SANS[: ply + 1])
        game, capture = stage.saved(page, "#save-game"), stage.saved(page, "#save-capture")
        same((movetext_of(game), game), (PARIS_TEXT, of_record(game, capture)))
        same(page.tab.printed(), [])


@with_chromium
def hidden_moves(folder: pathlib.Path) -> None:
    """Two hands hide a pair of moves: with the switch they are put in and looked at, and `OK` says that somebody has looked."""
    with Hall(folder) as stage:
        page, port = begin(stage)
        until_agrees(stage, page)
        play(stage, page, port, RUY[:2], RUY_SANS[:2])
        hurried(port.board)
        stage.until_dumped(page, port)
        stage.until(lambda: "agrees" not in page.text("#state"), "a board that has gone on")
        same(page.moves, RUY_SANS[:2])
        page.click("#recover")
        port.board.play(RUY[4])
        stage.until_moves(page, RUY_SANS[:5])
        stage.until(lambda: any("recovered 2. Nf3 2... Nc6" in line for line in page.messages), "what was recovered")
        game = stage.saved(page, "#save-game")
        same(movetext_of(game), "1. e4 e5 2. Nf3 Nc6 3. Bb5 *")
        page.click("#recover")
        stage.until_moves(page, RUY_SANS[:2])
        page.click("#recover")
        stage.until_moves(page, RUY_SANS[:5])


@with_chromium
def hidden_moves_are_named(folder: pathlib.Path) -> None:
    """Two hands hide a pair of moves, and the play goes on: when the board has been wrong for long, the page asks about them. A press on the
    button puts them in, and what was played since. A board that is wrong for another reason isn't asked about."""
    with Hall(folder) as stage:
        page, port = begin(stage)
        until_agrees(stage, page)
        play(stage, page, port, RUY[:2], RUY_SANS[:2])
        port.board.play("g8h5")
        stage.until(lambda: page.text("#state").startswith("WRONG"), "a knight where it can't go")
        stage.rest(18)
        same((page.value("document.querySelector('#yes').hidden"), "Set the pieces" in page.text("#mend")), (True, True))
        port.board.play("h5g8")
        until_agrees(stage, page)
        hurried(port.board)
        port.board.play(RUY[4])
        stage.until_part(page, "#ask", "Did the board miss 2. Nf3 Nc6? If so, type y")
        same(page.moves, RUY_SANS[:2])
        stage.rest(1.5)
        page.click("#yes")
        stage.until_part(page, "#answer", "put in, as the board has shown since: 2. Nf3 Nc6; 5 plies, the last one 3. Bb5")
        stage.until_moves(page, RUY_SANS[:5])
        stage.until(lambda: page.value("document.querySelector('#yes').hidden"), "no question any more")


@with_chromium
def asked_and_accepted(folder: pathlib.Path) -> None:
    """No picture showed a move whole before its reply: the page asks about both, and `y` puts them in. Nothing is asked before."""
    with Hall(folder) as stage:
        page, port = begin(stage)
        until_agrees(stage, page)
        play(stage, page, port, RUY[:2], RUY_SANS[:2])
        answered(stage, page, "y", "nothing is asked at this board")
        hurried(port.board)
        stage.until_part(page, "#ask", "Was 2. Nf3 Nc6 played? If so, type y")
        stage.rest(1.5)
        answered(stage, page, "y", "added by hand: 2. Nf3 Nc6")
        stage.until_moves(page, RUY_SANS[:4])
        until_agrees(stage, page)
        play(stage, page, port, RUY[4:5], RUY_SANS[4:5])


@with_chromium
def looked_at(folder: pathlib.Path) -> None:
    """Moves on an unplugged board are an alarm that stays until somebody says that he has looked."""
    with Hall(folder) as stage:
        page, port = begin(stage)
        until_agrees(stage, page)
        play(stage, page, port, RUY[:2], RUY_SANS[:2])
        stage.pull(port)
        stage.until(lambda: page.text("#state").startswith("UNPLUGGED"), "the alarm of an unplugged board")
        stage.rest(4)
        port.board.play(RUY[2])
        stage.plug(port)
        stage.until_moves(page, RUY_SANS[:3])
        stage.until_part(page, "#state", "LOOK at 2. Nf3")
        assert page.shows("#ok"), page.describe()
        play(stage, page, port, RUY[3:4], RUY_SANS[3:4])
        stage.rest(0.5)
        assert "LOOK at 2. Nf3" in page.text("#state"), page.describe()
        page.click("#ok")
        stage.until(lambda: "LOOK" not in page.text("#state"), "no alarm any more")


@with_chromium
def kings_by_mistake(folder: pathlib.Path) -> None:
    """The kings stood in the centre, and that ended a game; the players go on: LOOK says so, and `*` goes on with their moves."""
    with Hall(folder) as stage:
        page, port = begin(stage)
        until_agrees(stage, page)
        play(stage, page, port, RUY[:2], RUY_SANS[:2])
        stage.until_dumped(page, port)
        port.board.kings_in_centre("d4", "d5")
        stage.until(lambda: page.text("#state").startswith("over"), "the end of the game")
        for move in ("d4e1", "d5e8", *RUY[2:4]):
            port.board.play(move)
            stage.until_dumped(page, port)
        stage.until_part(page, "#state", "LOOK after 1... e5")
        same(page.moves, RUY_SANS[:2])
        page.type("*")
        stage.until_moves(page, RUY_SANS[:4])
        page.click("#ok")
        stage.until(lambda: "LOOK" not in page.text("#state"), "no alarm any more")
        play(stage, page, port, RUY[4:5], RUY_SANS[4:5])
        game, capture = stage.saved(page, "#save-game"), stage.saved(page, "#save-capture")
        same((movetext_of(game), game), ("1. e4 e5 2. Nf3 Nc6 3. Bb5 *", of_record(game, capture)))


@with_chromium
def many_boards(folder: pathlib.Path) -> None:
    """Four boards at once, each with its own game and clock: each text is what was played, and the program makes it so."""
    with Hall(folder) as stage:
        chosen = Chosen(stage)
        page = stage.tab([chosen.script()])
        chosen.choose(stage, page)
        for number in range(BOARDS):
            stage.add(page, stage.board())
            stage.until_part(page, f"a.tile[href='#{number + 1}']", "agrees")
        for ply in range(max(len(moves(number)) for number in range(BOARDS))):
            for number, port in enumerate(stage.ports):
                if ply < len(moves(number)):
                    port.board.clock(5400 - ply, 5400 - ply)
                    port.board.play(moves(number)[ply])
                    stage.turn()
        for number in range(BOARDS):
            stage.until_part(page, f"a.tile[href='#{number + 1}'] .last", told(number, len(moves(number)) - 1))
        stage.until(lambda: len(chosen.files.get("round.pgn", b"").split(b"[Event ")) == BOARDS + 1, "all games in round.pgn")
        played = sorted(text(number) for number in range(BOARDS))
        texts = names_of(chosen, ".pgn")
        stage.until(lambda: sorted(plain(movetext_of(chosen.files[name])) for name in texts) == played, "all moves")
        for name in texts:
            until_recorded_so(stage, chosen, name)
        same(page.tab.printed(), [])
