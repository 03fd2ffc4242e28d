"""Games on one board and on several, as they are played: the expected moves are written by hand."""

import pathlib
import re
from typing import List, Optional, Sequence, Tuple

from browsed.hall import Hall, Port
from browsed.page import Page
from browsed.stage import with_chromium
from play_board import field
from played.stage import run, same

# What is played: the moves on the board, and in SAN.
RUY = ["e2e4", "e7e5", "g1f3", "b8c6", "f1b5", "a7a6", "b5c6", "d7c6", "e1g1", "c8g4"]
RUY_SANS = ["e4", "e5", "Nf3", "Nc6", "Bb5", "a6", "Bxc6", "dxc6", "O-O", "Bg4"]
QUEENS = ["d2d4", "d7d5", "c2c4", "e7e6", "b1c3", "g8f6"]
QUEENS_SANS = ["d4", "d5", "c4", "e6", "Nc3", "Nf6"]
RUY_TEXT = """[Event "Club"]
[Site "?"]
[Date "2024.05.31"]
[Round "3"]
[White "Anna"]
[Black "Ben"]
[Result "1/2-1/2"]

1. e4 {[%clk 1:29:53]} 1... e5 {[%clk 1:29:53]} 2. Nf3 {[%clk 1:29:46]} 2...
Nc6 {[%clk 1:29:46]} 3. Bb5 {[%clk 1:29:39]} 3... a6 {[%clk 1:29:39]} 4. Bxc6
{[%clk 1:29:32]} 4... dxc6 {[%clk 1:29:32]} 5. O-O {[%clk 1:29:25]} 5... Bg4
{[%clk 1:29:25]} 1/2-1/2

"""
TAGS = {"#event-name": "Club", "#round": "3", "#date": "31.5.2024", "#white": "Anna", "#black": "Ben"}


def play(
    stage: Hall, page: Page, port: Port, moves: Sequence[str], sans: Sequence[str], clock: Optional[List[int]] = None
) -> None:
    """Each move, until the page shows it; with a clock each takes seven seconds, and the clock is pressed."""
    shown = page.moves
    for ply, (move, san) in enumerate(zip(moves, sans), len(shown)):
        if clock:
            clock[ply % 2] -= 7
            port.board.clock(clock[0], clock[1], True, lever=ply % 2 == 1)
        port.board.play(move)
        shown.append(san)
        stage.until_moves(page, shown)


def begin(stage: Hall, rotated: bool = False) -> Tuple[Page, Port]:
    """A page with one board, which is large and agrees."""
    port = stage.board(rotated=rotated)
    page = stage.tab()
    stage.add(page, port)
    stage.enlarge(page, 1)
    return page, port


def until_agrees(stage: Hall, page: Page) -> None:
    stage.until(lambda: page.text("#state").startswith("agrees"), "a board that agrees")


def answered(stage: Hall, page: Page, text: str, part: str) -> None:
    """What is typed is answered so."""
    page.type(text)
    stage.until(lambda: part in page.text("#answer"), f"{part!r} after {text}")


def of_record(text: bytes, capture: bytes, *options: str) -> bytes:
    """What the program for x86-64 makes of a capture, with the date that a text has."""
    date = text.decode().partition('[Date "')[2].partition('"')[0]
    return run("record", *options, "--date", date, given=capture).stdout


@with_chromium
def one_board(folder: pathlib.Path) -> None:
    """A game with a clock: its text is that of `record` over the capture, and the capture is what the board sent."""
    with Hall(folder) as stage:
        page, port = begin(stage)
        until_agrees(stage, page)
        for where, value in TAGS.items():
            page.type(value, where)
        port.board.spoiled = [None, 3]  # the second update is cut, and the next dump shows it
        play(stage, page, port, RUY, RUY_SANS, [5400, 5400])
        same(page.value("[...document.querySelectorAll('#moves button .time')].map((time) => time.textContent)")[-2:],
             ["1:29:25", "1:29:25"])  # fmt: skip
        port.board.kings_in_centre("e4", "e5")
        stage.until(lambda: "1/2-1/2" in page.text("#state"), "the result")
        text, named = stage.saved(page, "#save-game"), stage.saved_as
        stage.rest(0.5)
        capture = stage.saved(page, "#save-capture")
        same(text.decode(), RUY_TEXT)
        same(text, of_record(text, capture, "--event", "Club", "--round", "3", "--white", "Anna", "--black", "Ben"))
        same(port.delivered[: len(capture)], capture)
        same((pathlib.Path(named).suffix, pathlib.Path(stage.saved_as).suffix), (".pgn", ".dgt"))
        same(set(port.board.asked), set(b"EBK"))
        same(page.tab.printed(), [])


STATES = """
window.states = [];
new MutationObserver(() => states.push(document.getElementById('state').textContent))
  .observe(document.getElementById('state'), { childList: true, characterData: true, subtree: true });
"""


@with_chromium
def named_while_wrong(folder: pathlib.Path) -> None:
    """Names are typed while a square has been wrong for some time: it stays wrong since then, the board isn't waited for, and the text
    follows. No byte is lost, and the moves go on."""
    with Hall(folder) as stage:
        page, port = begin(stage)
        until_agrees(stage, page)
        play(stage, page, port, RUY[:2], RUY_SANS[:2])
        port.board.lift("a2")
        stage.until(lambda: page.text("#state").startswith("WRONG: a2, 1"), "the square that is wrong")
        page.value(STATES)
        page.type("Anna", "#white")
        page.type("Ben", "#black")
        assert b'[White "Anna"]\n[Black "Ben"]' in stage.saved(page, "#save-game")
        stage.rest(2)
        states = [*page.value("states"), page.text("#state")]
        same([text for text in states if not re.fullmatch("WRONG: a2, [1-4][0-9] s", text)], [])
        port.board.put("a2", port.board.codes[field("b2")])
        until_agrees(stage, page)
        play(stage, page, port, RUY[2:4], RUY_SANS[2:4])
        text = stage.saved(page, "#save-game")
        stage.rest(0.5)
        capture = stage.saved(page, "#save-capture")
        same(text, of_record(text, capture, "--white", "Anna", "--black", "Ben"))
        same(port.delivered[: len(capture)], capture)
        same(page.tab.printed(), [])


@with_chromium
def two_boards(folder: pathlib.Path) -> None:
    """Two games at once, one of them on a board that lies the other way round: each has its own moves and files."""
    with Hall(folder) as stage:
        page, first = begin(stage)
        until_agrees(stage, page)
        second = stage.board(rotated=True)
        stage.show_all(page)
        stage.add(page, second)
        stage.enlarge(page, 2)
        stage.until(lambda: "turned round" in page.text("#state"), "the question whether the board is turned round")
        page.click("#rotated")
        until_agrees(stage, page)
        sans: Tuple[List[str], List[str]] = ([], [])
        for ply in range(6):
            first.board.play(RUY[ply])
            second.board.play(QUEENS[ply])
            sans[0].append(RUY_SANS[ply])
            sans[1].append(QUEENS_SANS[ply])
            stage.until_moves(page, sans[1])
        stage.show_all(page)
        stage.until_text(page, "a.tile[href='#1'] .last", "3... a6")
        stage.until_text(page, "a.tile[href='#2'] .last", "3... Nf6")
        both = stage.saved(page, "#save-round")
        for number, (port, options) in enumerate(((first, ()), (second, ("--rotated",))), 1):
            stage.show_all(page) if number > 1 else None
            stage.enlarge(page, number)
            stage.until_moves(page, sans[number - 1])
            text, capture = stage.saved(page, "#save-game"), stage.saved(page, "#save-capture")
            same(text, of_record(text, capture, *options))
            same(port.delivered[: len(capture)], capture)
            assert text in both, (text, both)
        same(page.tab.printed(), [])


@with_chromium
def pulled_cable(folder: pathlib.Path) -> None:
    """A cable is pulled and comes back, once known again by itself and once chosen anew: the game lacks nothing."""
    with Hall(folder) as stage:
        page, port = begin(stage)
        until_agrees(stage, page)
        play(stage, page, port, RUY[:3], RUY_SANS[:3])
        stage.pull(port)
        stage.until(lambda: page.text("#state").startswith("UNPLUGGED"), "the alarm of an unplugged board")
        stage.until(lambda: page.shows("#alarms") or page.value("document.title").startswith("(!)"), "an alarm beside the title")
        port.board.play(RUY[3])
        stage.plug(port)
        stage.until(lambda: port.holders, "the board to be opened again")
        stage.until_moves(page, RUY_SANS[:4])
        play(stage, page, port, RUY[4:6], RUY_SANS[4:6])
        stage.pull(port, stays_granted=False)
        stage.until(lambda: page.text("#state").startswith("UNPLUGGED"), "the alarm of an unplugged board")
        stage.plug(port)
        stage.rest(0.3)
        same(port.holders, [])
        page.value(f"boards.choose({port.number})")
        page.click("#connect")
        stage.until(lambda: port.holders, "the board that was chosen")
        play(stage, page, port, RUY[6:8], RUY_SANS[6:8])
        text, capture = stage.saved(page, "#save-game"), stage.saved(page, "#save-capture")
        same(text, of_record(text, capture))
        assert "4. Bxc6 dxc6 *" in text.decode(), text.decode()


@with_chromium
def typed(folder: pathlib.Path) -> None:
    """Missed moves, a result and `back` are typed; what isn't understood is refused with what to type, and changes nothing."""
    with Hall(folder) as stage:
        page, port = begin(stage)
        until_agrees(stage, page)
        play(stage, page, port, RUY[:2], RUY_SANS[:2])
        refused = {"hello": "hello", "Nf6": "Nf6 is no legal move", "0-0": "do both lose?", "<b>e4</b>": "<b>e4</b>"}
        refused["17. Nc3"] = "17. isn't the number of the next move: 2. is next, after 1... e5. Nothing was added"
        for text, part in refused.items():
            answered(stage, page, text, part)
        same(page.moves, RUY_SANS[:2])
        stage.pull(port)
        for move in RUY[2:4]:
            port.board.play(move)
        stage.plug(port)
        stage.until_dumped(page, port)
        stage.until(lambda: "agrees" not in page.text("#state"), "a board that has gone on")
        same(page.moves, RUY_SANS[:2])
        page.type("Nf3 Nc6")
        stage.until_moves(page, RUY_SANS[:4])
        play(stage, page, port, RUY[4:6], RUY_SANS[4:6])
        answered(stage, page, "back", "the board still shows 3... a6: it would come back at once. If another move was played, wait for the next one")
        port.board.play("a6a7")
        stage.until_dumped(page, port)
        answered(stage, page, "back", "back to 3. Bb5; taken off: 3... a6")
        stage.until_moves(page, RUY_SANS[:5])
        play(stage, page, port, ["g8f6"], ["Nf6"])
        answered(stage, page, "back 1... e5", "takes off 4 plies, from 2. Nf3: type it again")
        page.type("1-0")
        stage.until_part(page, "#at", "1\u20130")
        page.type("*")
        stage.until(lambda: "1\u20130" not in page.text("#at"), "no result")
        page.click("#draw")
        stage.until_part(page, "#at", "\u00bd\u2013\u00bd")
        game, capture = stage.saved(page, "#save-game"), stage.saved(page, "#save-capture")
        same(game, of_record(game, capture))
        same(game.decode().split("\n\n")[1], "1. e4 e5 2. Nf3 Nc6 3. Bb5 Nf6 1/2-1/2")
