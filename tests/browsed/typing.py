"""What an arbiter types: in order, once for each line, while the board goes on, and what is refused."""

import pathlib
import time
from typing import Tuple

from browsed.folders import Chosen, begin_in, until_text
from browsed.games import QUEENS, QUEENS_SANS, RUY, RUY_SANS, answered, begin, of_record, play, until_agrees
from browsed.hall import Hall, Port
from browsed.page import Page
from browsed.series import movetext_of
from browsed.stage import with_chromium
from played.stage import same

BLACK_PAWN = 7  # by the protocol
KNIGHTS = ["e2e4", "e7e5", "g1f3", "a7a6", "d2d4", "d7d6", "f3g1", "a6a5"]  # one of which goes home
KNIGHTS_SANS = ["e4", "e5", "Nf3", "a6", "d4", "d6", "Ng1", "a5"]
# Counts the calls of the program for typed lines, and holds back the answer to the first one while `isHeld`.
HELD = """
window.isHeld = false;
window.typedCalls = [];
window.letGo = [];
const post = Worker.prototype.postMessage;
Worker.prototype.postMessage = function (message) {
  const words = message?.name === 'run' ? message.given.words : [];
  if (words[0] !== 'add' && words[0] !== 'back') return post.call(this, message);
  window.typedCalls.push(words.at(-1));
  if (!window.isHeld) return post.call(this, message);
  window.isHeld = false;
  window.letGo.push(() => post.call(this, message));
};
"""


def held(stage: Hall) -> Tuple[Page, Port]:
    """A page with one board, whose calls for typed lines are counted and can be held back."""
    port = stage.board()
    page = stage.tab([HELD])
    stage.add(page, port)
    stage.enlarge(page, 1)
    until_agrees(stage, page)
    return page, port


@with_chromium
def help_is_given(folder: pathlib.Path) -> None:
    """`help` and `?` are answered with what can be typed, and that is no refusal; what no line has is asked about."""
    with Hall(folder) as stage:
        page, port = begin(stage)
        until_agrees(stage, page)
        for text in ("help", "?"):
            answered(stage, page, text, "Type 1-0, 0-1, 1/2-1/2, moves (Nf3 Nc6)")
            same(page.text("#answer").startswith("Type"), True)
            same(page.value("document.querySelector('#answer').classList.contains('refused')"), False)
            answered(stage, page, "q", "press Stop recording")
        answered(stage, page, "back 0", "back 0: the game has no move")
        answered(stage, page, "back", "back: the game has no move")
        answered(stage, page, "back 1", "which ply? Type it as the screen printed it")
        for text in ("nf3", "Ng1f3"):
            answered(stage, page, text, "write Nf3")
        for text in ("5 Nf3", "5 1-0", "5 +-", "1 ok"):
            answered(stage, page, text, f"refused: {text}: leave out the number in front. Type 1-0")
        answered(stage, page, "ok 1", "refused: ok 1: ok stands alone")
        same(page.moves, [])


@with_chromium
def result_stands(folder: pathlib.Path) -> None:
    """A typed result stands ten seconds before the game is over, as mate does: until then it is taken off, or replaced."""
    with Hall(folder) as stage:
        page, port = begin(stage)
        until_agrees(stage, page)
        play(stage, page, port, RUY[:4], RUY_SANS[:4])
        answered(stage, page, "1-0", "added by hand: the result 1-0")
        stage.rest(3)
        assert not page.text("#state").startswith("over"), page.describe()
        answered(stage, page, "*", "no ply is taken off; the result 1-0 is gone")
        stage.rest(9)
        assert not page.text("#state").startswith("over"), page.describe()
        play(stage, page, port, RUY[4:6], RUY_SANS[4:6])
        typed_at = time.monotonic()
        answered(stage, page, "0-1", "added by hand: the result 0-1")
        stage.until(lambda: page.text("#state").startswith("over"), "the end of the game")
        assert time.monotonic() - typed_at > 9, "the game ended at once"
        game, capture = stage.saved(page, "#save-game"), stage.saved(page, "#save-capture")
        same(movetext_of(game), "1. e4 e5 2. Nf3 Nc6 3. Bb5 a6 0-1")
        same(game, of_record(game, capture))


@with_chromium
def result_and_set_up(folder: pathlib.Path) -> None:
    """A result is typed, and the pieces are set up before the ten seconds are over: the game has its result and all its moves, and
    the next one begins. A result that is typed then is refused, since that game has no move. One that is typed after a move of the
    third game counts if it is typed twice, since the second has no result: it may be meant for that. Once the third game is over, a result
    is for it, and nobody is asked."""
    with Hall(folder) as stage:
        chosen = Chosen(stage)
        page, port = begin_in(stage, chosen)
        page.type("Anna", "#white")
        page.type("Ben", "#black")
        chosen.choose(stage, page)
        play(stage, page, port, RUY[:4], RUY_SANS[:4])
        answered(stage, page, "1-0", "added by hand: the result 1-0")
        port.board.set_up([])
        stage.until_moves(page, [])
        until_agrees(stage, page)
        until_text(stage, chosen, "Anna - Ben.pgn", "1. e4 e5 2. Nf3 Nc6 1-0")
        answered(stage, page, "0-1", "Anna - Ben-2 has no move yet")
        stage.rest(1)
        same(page.text("#at").count("1"), 0)
        play(stage, page, port, QUEENS[:2], QUEENS_SANS[:2])
        until_text(stage, chosen, "Anna - Ben-2.pgn", "1. d4 d5 *")
        until_text(stage, chosen, "Anna - Ben.pgn", "1. e4 e5 2. Nf3 Nc6 1-0")
        stage.rest(3)
        port.board.set_up([])
        stage.until_moves(page, [])
        until_agrees(stage, page)
        play(stage, page, port, RUY[:2], RUY_SANS[:2])
        answered(stage, page, "1-0", "Anna - Ben-2 has no result yet. If it is the result of Anna - Ben-2, press 1-0 beside that name; "
                 "if it is that of Anna - Ben-3, type 1-0 again")  # fmt: skip
        answered(stage, page, "1-0", "added by hand: the result 1-0 after 1... e5, 2 plies")
        until_text(stage, chosen, "Anna - Ben-3.pgn", "1. e4 e5 1-0")
        stage.until(lambda: page.text("#state").endswith("over"), "the end of the third game")
        answered(stage, page, "0-1", "added by hand: the result 0-1 after 1... e5, 2 plies")
        until_text(stage, chosen, "Anna - Ben-3.pgn", "1. e4 e5 0-1")
        until_text(stage, chosen, "Anna - Ben-2.pgn", "1. d4 d5 *")


@with_chromium
def killed_while_a_result_stands(folder: pathlib.Path) -> None:
    """A tab is killed while a result stands: opened again, the game is over after ten seconds more."""
    with Hall(folder) as stage:
        page, port = begin(stage)
        until_agrees(stage, page)
        play(stage, page, port, RUY[:4], RUY_SANS[:4])
        answered(stage, page, "1-0", "added by hand: the result 1-0")
        stage.until_dumped(page, port)
        stage.rest(1)
        stage.crash(page)
        page = stage.tab()
        stage.enlarge(page, 1)
        stage.until_moves(page, RUY_SANS[:4])
        stage.until(lambda: page.text("#state").startswith("over"), "the end of the game")


@with_chromium
def typed_at_start(folder: pathlib.Path) -> None:
    """Moves are typed while the start is shown after a game, and the page has just heard that this ends it, or hears it soon: they are
    refused, or they are in a game. Many times, since it is a matter of a moment."""
    with Hall(folder) as stage:
        page, port = begin(stage)
        until_agrees(stage, page)
        kept = []
        for count in range(6):
            play(stage, page, port, RUY[:4], RUY_SANS[:4])
            page.fill("Bb5 a6", "#typed")
            port.board.set_up([])
            for _ in range(4 * count):
                stage.turn()
            page.tab.press("Enter")
            stage.until(lambda: page.text("#answer"), "an answer")
            said = page.text("#answer")
            assert said.startswith(("refused", "added by hand: Bb5 a6")), said
            kept.append(said.startswith("added"))
            stage.until_moves(page, [])
            until_agrees(stage, page)
            page.value("document.querySelector('#answer').textContent = ''")
        texts = stage.saved(page, "#save-round").decode().split("[Event ")[1:]
        same(["Bb5 a6" in text for text in texts], kept)


@with_chromium
def board_goes_on(folder: pathlib.Path) -> None:
    """While the program reads a typed line, the board plays the same move: that is kept at once, and the line is read anew, since it
    would play the move a second time. Lines are answered in the order in which they were typed, each with one call."""
    with Hall(folder) as stage:
        page, port = held(stage)
        play(stage, page, port, RUY[:3], RUY_SANS[:3])
        page.value("window.isHeld = true")
        page.type("Nc6")
        stage.until(lambda: page.value("window.letGo.length") == 1, "the call for the line")
        port.board.play(RUY[3])
        stage.until_moves(page, RUY_SANS[:4])
        stage.until(lambda: port.board.update(18) in page.kept(1), "the move to be kept")
        same(page.text("#answer"), "")
        page.value("window.letGo.pop()()")
        stage.until_part(page, "#answer", "Nc6 is no legal move: White is to move, after 2... Nc6")
        same(page.moves, RUY_SANS[:4])
        stage.rest(1)
        page.value("window.isHeld = true")
        page.type("back")
        stage.until(lambda: page.value("window.letGo.length") == 1, "the call for the line")
        port.board.lift("a7")
        port.board.lift("h7")
        stage.until_dumped(page, port)
        page.value("window.letGo.pop()()")
        stage.until_part(page, "#answer", "back to 2. Nf3; taken off: 2... Nc6")
        stage.until_moves(page, RUY_SANS[:3])
        for square in ("a7", "h7"):
            port.board.put(square, BLACK_PAWN)
        stage.until_moves(page, RUY_SANS[:4])
        until_agrees(stage, page)
        stage.rest(1)
        before = page.value("window.typedCalls.length")
        page.value("""
        for (const text of ['Bb5', 'hello', 'a6', 'ok', 'Ba4 Nf6']) {
          document.querySelector('#typed').value = text;
          document.querySelector('#say').requestSubmit();
        }
        """)
        stage.until_moves(page, [*RUY_SANS[:6], "Ba4", "Nf6"])
        calls = page.value("window.typedCalls")
        order = [line for at, line in enumerate(calls[before:]) if line not in calls[before : before + at]]
        same(order, ["--line=Bb5", "--line=hello", "--line=a6", "--line=Ba4 Nf6"])


@with_chromium
def answered_is_kept(folder: pathlib.Path) -> None:
    """The tab is killed as soon as moves are answered: opened again, it has them."""
    with Hall(folder) as stage:
        page, port = begin(stage)
        until_agrees(stage, page)
        shown = RUY_SANS[:2]
        play(stage, page, port, RUY[:2], shown)
        for number, line in enumerate(("Nf3 Nc6", "Bb5", "a6 Bxc6 dxc6")):
            page.type(line)
            stage.until(lambda: line in page.text("#answer"), f"an answer to {line}")
            stage.crash(page)
            shown = [*shown, *line.split()]
            page = stage.tab()
            stage.enlarge(page, 1)
            stage.until_moves(page, shown)
            assert number < 3


@with_chromium
def edited_result(folder: pathlib.Path) -> None:
    """Somebody writes a result into a file while the page is closed: his text is kept beside it when the page writes its own."""
    with Hall(folder) as stage:
        chosen = Chosen(stage)
        page, port = begin_in(stage, chosen)
        chosen.choose(stage, page)
        play(stage, page, port, RUY[:3], RUY_SANS[:3])
        until_text(stage, chosen, "board 1.pgn", "1. e4 e5 2. Nf3 *")
        until_text(stage, chosen, "round.pgn", "1. e4 e5 2. Nf3 *")
        stage.close(page)
        edited = chosen.files["board 1.pgn"].replace(b'"*"', b'"1-0"').replace(b"Nf3 *", b"Nf3 1-0")
        chosen.files["board 1.pgn"] = edited
        page = stage.tab([chosen.script()])
        stage.until(lambda: page in port.holders, "the board to be opened by itself")
        stage.enlarge(page, 1)
        stage.until_moves(page, RUY_SANS[:3])
        play(stage, page, port, RUY[3:4], RUY_SANS[3:4])
        until_text(stage, chosen, "board 1.pgn", "1. e4 e5 2. Nf3 Nc6 *")
        same(chosen.files.get("board 1.edited.pgn"), edited)
        same(sorted(name for name in chosen.files if "edited" in name), ["board 1.edited.pgn"])


@with_chromium
def result_before_a_move(folder: pathlib.Path) -> None:
    """A result before the first move is asked about: the question says what to type if a player hasn't come, and that the result is to be given
    again if it is right. Another result is asked about anew. A forfeit is not; once it is taken off, the game begins as any other."""
    with Hall(folder) as stage:
        page, port = begin(stage)
        until_agrees(stage, page)
        page.click("#white-wins")
        stage.until_part(page, "#answer", "no move was made yet. If Black has not come, type +-. For 1-0 all the same, give it again")
        answered(stage, page, "0-1", "no move was made yet. If White has not come, type -+. For 0-1 all the same, give it again")
        answered(stage, page, "1/2-1/2", "no move was made yet. For 1/2-1/2 all the same, give it again")
        until_agrees(stage, page)
        answered(stage, page, "+-", "forfeit 1-0: it isn't played")
        answered(stage, page, "*", "the result 1-0 is gone")
        until_agrees(stage, page)
        answered(stage, page, "1-0", "no move was made yet. If Black has not come, type +-. ")
        answered(stage, page, "1-0", "added by hand: the result 1-0 before the first move")


@with_chromium
def asked_twice(folder: pathlib.Path) -> None:
    """Many plies are taken off only if that is typed twice, with nothing else between. The tab is killed as soon as it is answered:
    opened again, the game has the plies that stay."""
    with Hall(folder) as stage:
        page, port = begin(stage)
        until_agrees(stage, page)
        play(stage, page, port, RUY[:6], RUY_SANS[:6])
        port.board.lift("e1")
        stage.until_dumped(page, port)
        question = "takes off 4 plies, from 2. Nf3: type it again"
        answered(stage, page, "back 1... e5", question)
        answered(stage, page, "back 3. Bb5 Nf6", "The nearest is 3. Bb5: type back 3. Bb5")
        answered(stage, page, "back 1...e5", question)
        same(page.moves, RUY_SANS[:6])
        answered(stage, page, "back 1... e5", "back to 1... e5; taken off: 2. Nf3 Nc6 3. Bb5 a6. What the board had sent is kept")
        stage.crash(page)
        page = stage.tab()
        stage.enlarge(page, 1)
        stage.until_moves(page, RUY_SANS[:2])


@with_chromium
def result_of_another_board(folder: pathlib.Path) -> None:
    """A result was typed for the wrong board and has ended its game; the players go on. `*` takes it off, and the game has their moves;
    `back` while it is over takes off plies of the game, and none that came after it."""
    with Hall(folder) as stage:
        page, port = begin(stage)
        until_agrees(stage, page)
        play(stage, page, port, RUY[:4], RUY_SANS[:4])
        answered(stage, page, "1-0", "added by hand")
        stage.until(lambda: page.text("#state").startswith("over"), "the end of the game")
        for move in RUY[4:6]:
            port.board.play(move)
            stage.until_dumped(page, port)
        stage.until_part(page, "#state", "LOOK after 2... Nc6")
        same(page.moves, RUY_SANS[:4])
        answered(stage, page, "*", "board 1 goes on, without the result")
        page.click("#ok")
        stage.until_moves(page, RUY_SANS[:6])
        play(stage, page, port, RUY[6:8], RUY_SANS[6:8])
        answered(stage, page, "0-1", "added by hand")
        stage.until(lambda: page.text("#state").startswith("over"), "the end of the game")
        port.board.play(RUY[8])
        stage.until_dumped(page, port)
        answered(stage, page, "back", "back to 4. Bxc6; taken off: 4... dxc6; the result 0-1 is gone. What the board had sent is kept")
        stage.until_moves(page, RUY_SANS[:7])
        game, capture = stage.saved(page, "#save-game"), stage.saved(page, "#save-capture")
        same((movetext_of(game), game), ("1. e4 e5 2. Nf3 Nc6 3. Bb5 a6 4. Bxc6 *", of_record(game, capture)))


@with_chromium
def start_after_back(folder: pathlib.Path) -> None:
    """Plies are taken off while the board is away, and when it comes back its pieces are at the start: the game is over with all
    plies that stay, also with a piece that went home last, and the next one begins."""
    with Hall(folder) as stage:
        page, port = begin(stage)
        until_agrees(stage, page)
        play(stage, page, port, KNIGHTS, KNIGHTS_SANS)
        port.board.lift("e1")
        stage.until_dumped(page, port)
        stage.pull(port)
        stage.until(lambda: page.text("#state").startswith("UNPLUGGED"), "the alarm of an unplugged board")
        answered(stage, page, "back 4. Ng1", "back to 4. Ng1; taken off: 4... a5")
        port.board.set_up([])
        stage.plug(port)
        stage.until_moves(page, [])
        until_agrees(stage, page)
        play(stage, page, port, QUEENS[:2], QUEENS_SANS[:2])
        texts = stage.saved(page, "#save-round").decode().replace("\n", " ")
        assert "1. e4 e5 2. Nf3 a6 3. d4 d6 4. Ng1 *" in texts and "1. d4 d5 *" in texts, texts


@with_chromium
def back_between_games(folder: pathlib.Path) -> None:
    """The game is over and the board still shows the ply that is taken off: the game stays over without it, and the next one begins
    when the pieces are set up. Then its result is given."""
    with Hall(folder) as stage:
        chosen = Chosen(stage)
        page, port = begin_in(stage, chosen)
        page.type("Anna", "#white")
        page.type("Ben", "#black")
        chosen.choose(stage, page)
        play(stage, page, port, RUY[:6], RUY_SANS[:6])
        answered(stage, page, "1-0", "added by hand")
        stage.until(lambda: page.text("#state").startswith("over"), "the end of the game")
        answered(stage, page, "back", "back to 3. Bb5; taken off: 3... a6; the result 1-0 is gone. The board still shows it, so the game stays over")
        stage.until_moves(page, RUY_SANS[:5])
        stage.rest(2)
        assert page.text("#state").startswith("over") and page.moves == RUY_SANS[:5], page.describe()
        until_text(stage, chosen, "Anna - Ben.pgn", "1. e4 e5 2. Nf3 Nc6 3. Bb5 *")
        port.board.set_up([])
        stage.until_moves(page, [])
        until_agrees(stage, page)
        page.click("[data-before='0-1']")
        until_text(stage, chosen, "Anna - Ben.pgn", "1. e4 e5 2. Nf3 Nc6 3. Bb5 0-1")
        play(stage, page, port, QUEENS[:2], QUEENS_SANS[:2])
        until_text(stage, chosen, "Anna - Ben-2.pgn", "1. d4 d5 *")


@with_chromium
def forfeited(folder: pathlib.Path) -> None:
    """A player doesn't come: the game has a result, no move and the tag that says so, on the card, in the folder and in round.pgn, also
    when the page is opened again; a new round leaves it as it is. If both don't come it has no result."""
    with Hall(folder) as stage:
        chosen = Chosen(stage)
        page, port = begin_in(stage, chosen)
        page.type("Anna", "#white")
        page.type("Ben", "#black")
        chosen.choose(stage, page)
        for text, part in {"0-0": "If neither player has come, type --", "help": "+- (Black has not come"}.items():
            answered(stage, page, text, part)
        answered(stage, page, "--", "forfeit 0-0: it isn't played")
        stage.until_part(page, "#state", "forfeit 0-0")
        until_text(stage, chosen, "Anna - Ben.pgn", "*")
        answered(stage, page, "*", "the game isn't forfeited any more")
        stage.until_part(page, "#state", "agrees")
        answered(stage, page, "*", "the game has no result")
        answered(stage, page, "-+", "forfeit 0-1: it isn't played")
        answered(stage, page, "*", "no ply is taken off; the result 0-1 is gone")
        until_agrees(stage, page)
        answered(stage, page, "1-0 FF", "forfeit 1-0: it isn't played")
        until_text(stage, chosen, "Anna - Ben.pgn", "1-0")
        assert b'[Termination "rules infraction"]' in chosen.files["Anna - Ben.pgn"], chosen.files["Anna - Ben.pgn"]
        stage.until_part(page, "#at", "1\u20130 forfeit")
        stage.show_all(page)
        stage.until_part(page, "a.tile[href='#1']", "1\u20130 forfeit")
        stage.open(page)
        stage.until_part(page, "a.tile[href='#1']", "1\u20130 forfeit")
        page.click("#new-round")
        page.fill("Carl; Dora", "#round-pairs")
        stage.begin_round(page)
        stage.enlarge(page, 1)
        stage.until(lambda: page.field("#white") == "Carl", "the next game")
        until_agrees(stage, page)
        play(stage, page, port, RUY[:2], RUY_SANS[:2])
        answered(stage, page, "+-", "the game has moves, so it isn't a forfeit: type 1-0")
        texts = stage.saved(page, "#save-round").decode()
        assert "Termination" in texts.split("[Event ")[1] and "1-0" in texts.split("[Event ")[1], texts
        assert "1. e4 e5 *" in texts.split("[Event ")[2] and "Termination" not in texts.split("[Event ")[2], texts


@with_chromium
def look_is_settled(folder: pathlib.Path) -> None:
    """`back` over a ply with an alarm settles the alarm: what it was about is gone. If that is undone, both are there again. Once somebody has
    looked, the alarm stays away, also when later moves are undone."""
    with Hall(folder) as stage:
        page, port = begin(stage)
        until_agrees(stage, page)
        play(stage, page, port, RUY[:2], RUY_SANS[:2])
        stage.pull(port)
        stage.until(lambda: page.text("#state").startswith("UNPLUGGED"), "the alarm of an unplugged board")
        stage.rest(4)
        port.board.play(RUY[2])
        stage.plug(port)
        stage.until_moves(page, RUY_SANS[:3])
        stage.until_part(page, "#state", "LOOK at 2. Nf3")
        port.board.lift("e1")
        stage.until_dumped(page, port)
        answered(stage, page, "back 1... e5", "back to 1... e5; taken off: 2. Nf3. Settled: LOOK at 2. Nf3.")
        stage.until(lambda: "LOOK" not in page.text("#state"), "no alarm any more")
        stage.until_moves(page, RUY_SANS[:2])
        answered(stage, page, "undo", 'undone: "back 1... e5"; 3 plies again, the last one 2. Nf3. What the board had sent is kept')
        stage.until_part(page, "#state", "LOOK at 2. Nf3")
        stage.until_moves(page, RUY_SANS[:3])
        port.board.put("e1", 5)
        answered(stage, page, "ok", "acknowledged: LOOK at 2. Nf3")
        answered(stage, page, "Nc6 Bb5", "added by hand: Nc6 Bb5")
        answered(stage, page, "undo", 'undone: "Nc6 Bb5"; taken off: 2... Nc6 3. Bb5; 3 plies again, the last one 2. Nf3.')
        until_agrees(stage, page)
        stage.rest(1)
        assert "LOOK" not in page.text("#state"), page.describe()
