"""Rounds: a new one begins on all boards at once, what all boards share is typed once, and games with the same names are asked
about."""

import pathlib
import re
from typing import Dict, List

from browsed.folders import Chosen, begin_in, until_text
from browsed.games import QUEENS, QUEENS_SANS, RUY, RUY_SANS, answered, begin, play, until_agrees
from browsed.hall import Hall, Port
from browsed.page import Page
from browsed.stage import with_chromium
from played.stage import same


BOTH = ["1. e4 e5 2. Nf3 Nc6 0-1", "1. d4 d5 *"]


def turn_to(stage: Hall, page: Page, number: int) -> None:
    if page.shows("#back"):
        stage.show_all(page)
    stage.enlarge(page, number)


def with_boards(stage: Hall, count: int) -> Page:
    page = stage.tab()
    for _ in range(count):
        port = stage.board()
        stage.add(page, port)
        stage.until_part(page, f"a.tile[href='#{port.number}']", "agrees")
    return page


def played_on(stage: Hall, page: Page, port: Port, moves: List[str], sans: List[str]) -> None:
    turn_to(stage, page, port.number)
    until_agrees(stage, page)
    play(stage, page, port, moves, sans)


def games(text: bytes) -> List[Dict[str, str]]:
    """The tags of each game, and its moves."""
    found = []
    for game in text.decode().split("[Event ")[1:]:
        tags = dict(re.findall(r'^\[(\w+) "(.*)"\]$', f"[Event {game}", re.MULTILINE))
        found.append({**tags, "moves": game.split("\n\n")[1].replace("\n", " ")})
    return found


@with_chromium
def new_round(folder: pathlib.Path) -> None:
    """One button begins the next round on three boards, of which one game is over, one goes on and one has no move: event, round
    and date are those that were typed, names are pasted or cleared, and the games before keep theirs."""
    with Hall(folder) as stage:
        page = with_boards(stage, 3)
        first, second, third = stage.ports
        played_on(stage, page, first, RUY[:6], RUY_SANS[:6])
        for where, value in {"#white": "Anna", "#black": "Ben", "#white-elo": "2050", "#round": "3", "#date": "2024.05.31"}.items():
            page.type(value, where)
        answered(stage, page, "1-0", "added by hand")
        played_on(stage, page, second, QUEENS, QUEENS_SANS)
        page.type("Carl", "#white")
        page.type("Dora", "#black")
        page.click("#new-round")
        stage.until(lambda: page.field("#round-number") == "4", "the number of the next round")
        stage.until_part(page, "#round-ends", "Board 2: the game has no result")
        page.fill("Club cup", "#round-event")
        page.fill("31.2.2024", "#round-date")
        page.fill("Board\tWhite\tBlack\n1\tBen\tEmil Roth\n3\tKern, Anna\tDora", "#round-pairs")
        page.click("#round-begin")
        stage.until_part(page, "#round-answer", "isn't in the calendar")
        page.fill("1.6.2024", "#round-date")
        stage.begin_round(page)
        for number, names in ((1, ["Ben", "Emil Roth"]), (2, ["White", "Black"]), (3, ["Kern, Anna", "Dora"])):
            for side, name in zip("wb", names):
                stage.until_text(page, f"a.tile[href='#{number}'] .player.{side}", name)
        for port, moves, sans in ((first, RUY, RUY_SANS), (second, RUY, RUY_SANS), (third, QUEENS, QUEENS_SANS)):
            port.board.set_up([])
            played_on(stage, page, port, moves[:1], sans[:1])
        told = games(stage.saved(page, "#save-round"))
        wanted = [
            ["?", "3", "2024.05.31", "Anna", "Ben", "1. e4 e5 2. Nf3 Nc6 3. Bb5 a6 1-0"],
            ["?", "3", told[1]["Date"], "Carl", "Dora", "1. d4 d5 2. c4 e6 3. Nc3 Nf6 *"],
            ["Club cup", "4", "2024.06.01", "Ben", "Emil Roth", "1. e4 *"],
            ["Club cup", "4", "2024.06.01", "?", "?", "1. e4 *"],
            ["Club cup", "4", "2024.06.01", "Kern, Anna", "Dora", "1. d4 *"],
        ]
        same([[game[name] for name in ("Event", "Round", "Date", "White", "Black", "moves")] for game in told], wanted)
        same([game.get("WhiteElo") for game in told], ["2050", None, None, None, None])
        same(page.tab.printed(), [])


@with_chromium
def pairs_as_they_are_read(folder: pathlib.Path) -> None:
    """Pairs are pasted: the window shows at once how they are read, or why they aren't; then nothing is begun with them. A numbered list
    gives its numbers to boards, and not to players."""
    with Hall(folder) as stage:
        page = with_boards(stage, 3)
        page.click("#new-round")
        stage.until(lambda: page.shows("#round-begin"), "the window")
        page.fill("2;Ben;", "#round-pairs")
        stage.until_text(page, "#round-unread", "Not read yet: line 1 has one name, Ben, and needs two. Type White; Black, or the board's "
                         "number before them, as 3; White; Black.")  # fmt: skip
        page.click("#round-begin")
        stage.until_part(page, "#round-answer", "line 1 has one name, Ben, and needs two")
        page.fill("3. Carl - Dora\n1. Anna - Ben\n9. Emil - Finn", "#round-pairs")
        read = "[...document.querySelectorAll('#round-read td')].map((cell) => cell.textContent)"
        stage.until(lambda: page.value(read) == ["1", "Anna", "Ben", "3", "Carl", "Dora"], "the pairs as they are read")
        same(page.text("#round-unread"), "Board 2: no players are given, so the names are cleared. Passed over: 9. Emil - Finn")
        stage.begin_round(page)
        for number, names in ((1, ["Anna", "Ben"]), (2, ["White", "Black"]), (3, ["Carl", "Dora"])):
            for side, name in zip("wb", names):
                stage.until_text(page, f"a.tile[href='#{number}'] .player.{side}", name)


@with_chromium
def event_for_all(folder: pathlib.Path) -> None:
    """Event and round that are typed once reach the boards that are there; boards that have others are asked about."""
    with Hall(folder) as stage:
        page = with_boards(stage, 2)
        turn_to(stage, page, 1)
        page.type("Club cup", "#event-name")
        page.type("3", "#round")
        turn_to(stage, page, 2)
        same([page.field(where) for where in ("#event-name", "#round")], ["Club cup", "3"])
        page.type("4", "#round")
        stage.until_part(page, "#answer", "Board 1 has another round.")
        turn_to(stage, page, 1)
        same(page.field("#round"), "3")
        page.type("5", "#round")
        stage.until_part(page, "#for-all", "Round 5 for all boards")
        page.click("#for-all")
        turn_to(stage, page, 2)
        stage.until(lambda: page.field("#round") == "5", "the round of all boards")


def next_game(stage: Hall, page: Page, port: Port) -> None:
    """The game ends by its kings, and the pieces are set up."""
    port.board.kings_in_centre("e4", "d5")
    stage.until(lambda: page.text("#state").startswith("over"), "the end of the game")
    port.board.set_up([])
    stage.until_moves(page, [])
    until_agrees(stage, page)


@with_chromium
def same_names(folder: pathlib.Path) -> None:
    """The next game has the names and the round of the one before: the page asks once; a new round names it and goes on with
    it."""
    with Hall(folder) as stage:
        page, port = begin(stage)
        until_agrees(stage, page)
        for where, value in {"#white": "Anna", "#black": "Ben", "#round": "3"}.items():
            page.type(value, where)
        play(stage, page, port, RUY[:4], RUY_SANS[:4])
        next_game(stage, page, port)
        same("same names" in page.text("#notices"), False)
        play(stage, page, port, QUEENS[:2], QUEENS_SANS[:2])
        stage.until_part(page, "#notices", "A game has the same names and the same round as one before it (board 1, Anna - Ben)")
        stage.press(page, "It is right")
        stage.until(lambda: "same names" not in page.text("#notices"), "the end of the question")
        stage.open(page)
        stage.until(lambda: page in port.holders, "the board to be opened again")
        stage.enlarge(page, 1)
        until_agrees(stage, page)
        play(stage, page, port, QUEENS[2:4], QUEENS_SANS[2:4])
        same("same names" in page.text("#notices"), False)
        next_game(stage, page, port)
        play(stage, page, port, RUY[:2], RUY_SANS[:2])
        stage.press(page, "New round")
        stage.until_part(page, "#round-ends", "Board 1: the game that is on belongs to the new round")
        page.fill("Carl; Dora", "#round-pairs")
        stage.begin_round(page)
        stage.until(lambda: "same names" not in page.text("#notices"), "the end of the question")
        told = games(stage.saved(page, "#save-round"))
        wanted = [["3", "Anna", "1. e4 e5 2. Nf3 Nc6 1-0"], ["3", "Anna", "1. d4 d5 2. c4 e6 1-0"], ["4", "Carl", "1. e4 e5 *"]]
        same([[game[name] for name in ("Round", "White", "moves")] for game in told], wanted)


@with_chromium
def first_move_on_the_board(folder: pathlib.Path) -> None:
    """A board stands as after a first move when the next round or game is asked for: that move isn't its first one. The game waits
    until the pieces are set up, also if the page is opened again; or it begins with that move, if somebody says so."""
    with Hall(folder) as stage:
        page, port = begin(stage)
        until_agrees(stage, page)
        page.type("Anna", "#white")
        play(stage, page, port, RUY[:1], RUY_SANS[:1])
        stage.until_dumped(page, port)
        page.click("#new-round")
        page.fill("Carl; Dora", "#round-pairs")
        stage.begin_round(page)
        stage.enlarge(page, 1)
        stage.until_part(page, "#state", "over: set up the pieces for the next game")
        same((page.moves, page.field("#white")), (RUY_SANS[:1], "Anna"))
        stage.open(page)
        stage.until(lambda: page in port.holders, "the board to be opened again")
        stage.enlarge(page, 1)
        stage.until_part(page, "#state", "over: set up the pieces for the next game")
        port.board.set_up([])
        stage.until_moves(page, [])
        until_agrees(stage, page)
        same(page.field("#white"), "Carl")
        play(stage, page, port, QUEENS[:1], QUEENS_SANS[:1])
        stage.until_dumped(page, port)
        page.click("#next-game")
        page.click("#next-game")
        stage.until_text(page, "#next-game", "Begin with the move on the board")
        same([game["moves"] for game in games(stage.saved(page, "#save-round"))], ["1. e4 *", "1. d4 *"])
        page.click("#next-game")
        stage.until_text(page, "#next-game", "Next game")
        stage.until_moves(page, QUEENS_SANS[:1])
        play(stage, page, port, QUEENS[1:2], QUEENS_SANS[1:2])
        told = games(stage.saved(page, "#save-round"))
        same([[game["White"], game["moves"]] for game in told], [["Anna", "1. e4 *"], ["Carl", "1. d4 *"], ["Carl", "1. d4 d5 *"]])


@with_chromium
def next_of_none(folder: pathlib.Path) -> None:
    """Next game is pressed before the first move, once more than anybody needs: the game without a move is none, in no file, and nobody is
    asked about it. The game before it is still the one before, also when the page is opened again."""
    with Hall(folder) as stage:
        chosen = Chosen(stage)
        page, port = begin_in(stage, chosen)
        page.type("Anna", "#white")
        page.type("Ben", "#black")
        chosen.choose(stage, page)
        until_agrees(stage, page)
        page.click("#next-game")
        stage.until(lambda: any(line.endswith("Anna - Ben-2 begins") for line in page.messages), "the second game")
        until_agrees(stage, page)
        stage.rest(1)
        same((page.shows("#before-game"), chosen.files), (False, {}))
        page.click("#save-round")
        stage.until_part(page, "#notices", "nothing was saved")
        play(stage, page, port, RUY[:2], RUY_SANS[:2])
        same("same names" in page.text("#notices"), False)
        port.board.set_up([])
        stage.until_moves(page, [])
        until_agrees(stage, page)
        page.click("#next-game")
        stage.until(lambda: any(line.endswith("Anna - Ben-4 begins") for line in page.messages), "the fourth game")
        play(stage, page, port, QUEENS[:2], QUEENS_SANS[:2])
        for is_again in (False, True):
            if is_again:
                stage.open(page)
                stage.enlarge(page, 1)
                stage.until_moves(page, QUEENS_SANS[:2])
            stage.until_part(page, "#before-which", "The game before, Anna - Ben-2, has no result")
            same([game["moves"] for game in games(stage.saved(page, "#save-round"))], ["1. e4 e5 *", "1. d4 d5 *"])


GARBLED = bytes([0x86, 0, 67]) + bytes([16]) * 64  # no dump: the last code is 15


def until_next_game(stage: Hall, page: Page) -> None:
    """The next game, which has no move, or that it waits for its start."""
    stage.until(lambda: not page.moves or page.text("#state").startswith("over: set up the pieces"), "the next game")


def answers_at_once(port: Port) -> None:
    port.board.answers_after = 0.0
    port.board.answers.clear()


@with_chromium
def left_for_the_next(folder: pathlib.Path) -> None:
    """The next game is asked for by mistake, and waits until the pieces are set up; the players go on. With `*` the game has their moves,
    and the next one begins when the pieces are set up."""
    with Hall(folder) as stage:
        page, port = begin(stage)
        until_agrees(stage, page)
        play(stage, page, port, RUY[:1], RUY_SANS[:1])
        stage.until_dumped(page, port)
        page.click("#next-game")
        page.click("#next-game")
        stage.until_part(page, "#state", "over: set up the pieces for the next game")
        port.board.play(RUY[1])
        stage.until_dumped(page, port)
        answered(stage, page, "*", "board 1 goes on; played since: 1... e5")
        stage.until_moves(page, RUY_SANS[:2])
        play(stage, page, port, RUY[2:4], RUY_SANS[2:4])
        stage.rest(3)
        port.board.set_up([])
        stage.until_moves(page, [])
        until_agrees(stage, page)
        same([game["moves"] for game in games(stage.saved(page, "#save-round"))], ["1. e4 e5 2. Nf3 Nc6 *"])


@with_chromium
def next_game_as_it_stands(folder: pathlib.Path) -> None:
    """The next game is asked for. It begins with the board as it stands, though the last dump is older; and it waits if the board shows
    a first move, though bytes that are no dump came since, or a result."""
    with Hall(folder) as stage:
        page, port = begin(stage)
        until_agrees(stage, page)
        play(stage, page, port, RUY[:1], RUY_SANS[:1])
        stage.until_dumped(page, port)
        port.board.answers_after = 60.0
        play(stage, page, port, RUY[1:2], RUY_SANS[1:2])
        page.click("#next-game")
        page.click("#next-game")
        until_next_game(stage, page)
        same((page.moves, page.kept(1)[:67]), ([], port.board.dump()))
        answers_at_once(port)
        port.board.set_up([])
        until_agrees(stage, page)
        play(stage, page, port, QUEENS[:1], QUEENS_SANS[:1])
        stage.until_dumped(page, port)
        port.board.answers_after = 60.0
        port.board.send(GARBLED)
        stage.until(lambda: GARBLED in page.kept(1), "what is no dump")
        page.click("#next-game")
        page.click("#next-game")
        until_next_game(stage, page)
        same(page.moves, QUEENS_SANS[:1])
        page.click("#next-game")
        stage.until_text(page, "#next-game", "Next game")
        stage.until_moves(page, QUEENS_SANS[:1])
        same(page.kept(1)[:67], port.board.dump())
        answers_at_once(port)
        stage.rest(3)
        port.board.set_up([])
        stage.until_moves(page, [])
        until_agrees(stage, page)
        port.board.kings_in_centre("d4", "d5")
        stage.until_part(page, "#state", "result 1/2-1/2")
        page.click("#next-game")
        stage.until_text(page, "#state", "over: set up the pieces for the next game")
        assert any("the board shows the result 1/2-1/2: set up the pieces" in line for line in page.messages), page.describe()
        port.board.set_up([])
        until_agrees(stage, page)
        texts = stage.saved(page, "#save-round")
        same([game["moves"] for game in games(texts)], ["1. e4 e5 *", "1. d4 *", "1. d4 *", "1/2-1/2"])


@with_chromium
def result_of_the_game_before(folder: pathlib.Path) -> None:
    """The pieces are set up before anybody has given the result: the page asks for it beside the next game, which stays as it
    is; the folder and round.pgn have it, also when the page is opened again."""
    with Hall(folder) as stage:
        chosen = Chosen(stage)
        page, port = begin_in(stage, chosen)
        page.type("Anna", "#white")
        page.type("Ben", "#black")
        chosen.choose(stage, page)
        play(stage, page, port, RUY[:4], RUY_SANS[:4])
        same(page.shows("#before-game"), False)
        port.board.set_up([])
        stage.until_moves(page, [])
        until_agrees(stage, page)
        play(stage, page, port, QUEENS[:2], QUEENS_SANS[:2])
        stage.until_part(page, "#before-which", "The game before, Anna - Ben, has no result")
        page.click("[data-before='0-1']")
        until_text(stage, chosen, "Anna - Ben.pgn", "1. e4 e5 2. Nf3 Nc6 0-1")
        stage.until(lambda: not page.shows("#before-game"), "the end of the question")
        stage.until(lambda: [game["moves"] for game in games(chosen.files["round.pgn"])] == BOTH, "both games in round.pgn")
        same(page.moves, QUEENS_SANS[:2])
        until_text(stage, chosen, "Anna - Ben-2.pgn", "1. d4 d5 *")
        stage.open(page)
        stage.enlarge(page, 1)
        stage.until_moves(page, QUEENS_SANS[:2])
        same(page.shows("#before-game"), False)
        same([game["moves"] for game in games(stage.saved(page, "#save-round"))], BOTH)
