"""A whole evening on two boards: what goes wrong in it comes in one go, and each game is whole in the folder at its end."""

import pathlib
from typing import List

from browsed.folders import Chosen, names_of, until_recorded_so, until_text
from browsed.games import QUEENS, QUEENS_SANS, RUY, RUY_SANS, answered, play, until_agrees
from browsed.hall import Hall, Port
from browsed.page import Page
from browsed.series import movetext_of
from browsed.stage import with_chromium
from played.stage import same

TEXTS = [
    "1. d4 d5 1-0",
    "1. d4 d5 2. c4 e6 3. Nc3 Nf6 1-0",
    "1. e4 e5 2. Nf3 Nc6 3. Bb5 Nf6 4. O-O Be7 1/2-1/2",
]
SPANISH_SANS = [*RUY_SANS[:5], "Nf6", "O-O", "Be7"]  # on the second board, with another third move of Black


def turn_to(stage: Hall, page: Page, number: int) -> None:
    stage.show_all(page)
    stage.enlarge(page, number)


def until_recorded(stage: Hall, page: Page, port: Port) -> None:
    """The large board is known again by its number; if that came too late on a slow machine, it is chosen as the page asks."""

    def is_unknown() -> bool:
        return any("can't see which one it is" in line for line in page.messages)

    stage.until(lambda: "agrees" in page.text("#state") or is_unknown(), "a board that is recorded again")
    if is_unknown():
        stage.rest(3)  # it may be the other board
    if "agrees" not in page.text("#state"):
        page.value(f"boards.choose({port.number})")
        page.click("#connect")
    stage.until_part(page, "#state", "agrees")


def games_of(texts: bytes) -> List[bytes]:
    return [b"[Event " + game for game in texts.split(b"[Event ")[1:]]


@with_chromium
def one_evening(folder: pathlib.Path) -> None:
    """Two boards, a folder, a pulled cable, a typed result, `back`, and a tab that is killed: the folder has all three games."""
    with Hall(folder) as stage:
        chosen = Chosen(stage)
        first, second = stage.board(), stage.board()
        page = stage.tab([chosen.script()])
        for port in (first, second):
            port.board.serial_number = b"%d" % (10000 + port.number)
            stage.add(page, port)
        chosen.choose(stage, page)
        stage.enlarge(page, 2)
        until_agrees(stage, page)
        play(stage, page, second, RUY[:3], RUY_SANS[:3])
        stage.pull(second)
        stage.until(lambda: page.text("#state").startswith("UNPLUGGED"), "the alarm of an unplugged board")

        turn_to(stage, page, 1)
        play(stage, page, first, QUEENS[:2], QUEENS_SANS[:2])
        page.type("1-0")
        stage.until(lambda: page.text("#state").startswith("over"), "the end of the first game")
        first.board.set_up([])
        stage.until_moves(page, [])
        until_agrees(stage, page)
        play(stage, page, first, QUEENS[:3], QUEENS_SANS[:3])

        stage.plug(second)
        stage.until(lambda: second.holders, "the board to be opened again")
        turn_to(stage, page, 2)
        play(stage, page, second, RUY[3:6], RUY_SANS[3:6])
        second.board.play("a6a7")
        stage.until(lambda: "agrees" not in page.text("#state"), "a board without the last ply")
        stage.until_dumped(page, second)
        answered(stage, page, "back", "back to 3. Bb5; taken off: 3... a6")
        stage.until_moves(page, RUY_SANS[:5])
        play(stage, page, second, ["g8f6"], ["Nf6"])
        until_text(stage, chosen, "board 2.pgn", "1. e4 e5 2. Nf3 Nc6 3. Bb5 Nf6 *")  # else a text with a6 is kept beside it

        for port, move in ((first, QUEENS[3]), (second, "e1g1")):
            port.limit = 7  # the second update is cut
            port.board.play(move)
        stage.rest(0.2)
        stage.crash(page)
        for port in (first, second):
            port.limit = None
        page = stage.tab([chosen.script("prompt")])
        stage.press(page, "Write to chosen")

        stage.enlarge(page, 1)
        until_recorded(stage, page, first)
        stage.until_moves(page, QUEENS_SANS[:4])
        play(stage, page, first, QUEENS[4:], QUEENS_SANS[4:])
        first.board.kings_in_centre("e4", "d5")
        stage.until_part(page, "#at", "1\u20130")
        turn_to(stage, page, 2)
        until_recorded(stage, page, second)
        stage.until_moves(page, SPANISH_SANS[:7])
        play(stage, page, second, ["f8e7"], SPANISH_SANS[7:])
        second.board.kings_in_centre("e4", "e5")
        stage.until_part(page, "#at", "\u00bd\u2013\u00bd")

        def texts() -> List[bytes]:
            return [chosen.files[name] for name in names_of(chosen, ".pgn")]

        stage.until(lambda: sorted(movetext_of(game) for game in texts() if game) == TEXTS, "each game in the folder")
        stage.until(lambda: sorted(games_of(chosen.files["round.pgn"])) == sorted(texts()), "all games in round.pgn")
        for name in names_of(chosen, ".pgn"):
            until_recorded_so(stage, chosen, name)
        same((first.was_shared, second.was_shared, page.tab.printed()), (False, False, []))
