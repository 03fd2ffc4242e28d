"""A board that comes back on another device, or whose device the browser has forgotten: its game goes on, and no board has two
cards."""

import pathlib
from typing import List, Optional, Sequence

from browsed.games import QUEENS, QUEENS_SANS, RUY, RUY_SANS, begin, of_record, play, until_agrees
from browsed.hall import Hall, Port
from browsed.page import Page
from browsed.series import movetext_of
from browsed.stage import with_chromium
from played.stage import same

CARDS = "document.querySelectorAll('a.tile').length"
STATES = "[...document.querySelectorAll('a.tile .state')].map(({ textContent }) => textContent)"


def numbered(port: Port, number: int) -> Port:
    """The port, whose board gives this serial number."""
    port.board.serial_number = b"%05d" % number
    return port


def moved(stage: Hall, port: Port) -> Port:
    """The board is plugged into another port, of which the browser knows nothing."""
    other = stage.board(port.board.codes)
    other.board.serial_number = port.board.serial_number
    return other


def choose(page: Page, port: Port, where: str) -> None:
    """A button is pressed, and the port chosen in the browser's list."""
    page.value(f"boards.choose({port.number})")
    page.click(where)


def away(stage: Hall, page: Page, number: Optional[int] = None) -> Port:
    """A board is recorded, is unplugged after two plies, and the browser has forgotten its device."""
    stage.show_all(page) if page.shows("#back") else None
    port = stage.board()
    if number:
        numbered(port, number)
    stage.add(page, port)
    stage.enlarge(page, len(stage.ports))
    until_agrees(stage, page)
    play(stage, page, port, RUY[:2], RUY_SANS[:2])
    stage.pull(port, stays_granted=False)
    stage.until(lambda: page.text("#state").startswith("UNPLUGGED"), "the alarm of an unplugged board")
    return port


def goes_on(stage: Hall, page: Page, port: Port) -> None:
    """The large board is recorded from this port, and there is no other card."""
    stage.until(lambda: page in port.holders, "the board to be opened")
    stage.until_part(page, "#state", "agrees")  # it was away, so somebody may have to look
    play(stage, page, port, RUY[2:4], RUY_SANS[2:4])
    same((page.value(CARDS), page.text("#title")), (1, "Board 1"))
    text, capture = stage.saved(page, "#save-game"), stage.saved(page, "#save-capture")
    same(text, of_record(text, capture))


@with_chromium
def another_port(folder: pathlib.Path) -> None:
    """A board that gives its number comes back on another port: Add a board goes on with its game."""
    with Hall(folder) as stage:
        page = stage.tab()
        port = moved(stage, away(stage, page, 10001))
        choose(page, port, "#add")
        goes_on(stage, page, port)


@with_chromium
def forgotten_port(folder: pathlib.Path) -> None:
    """A board without a number is plugged in again, and the browser has forgotten it: Add a board goes on with its game."""
    with Hall(folder) as stage:
        page = stage.tab()
        port = away(stage, page)
        stage.plug(port)
        choose(page, port, "#add")
        goes_on(stage, page, port)


@with_chromium
def chosen_in_the_alarm(folder: pathlib.Path) -> None:
    """The alarm of an unplugged board has the button that opens the browser's list."""
    with Hall(folder) as stage:
        page = stage.tab()
        port = moved(stage, away(stage, page))
        choose(page, port, "#choose")
        goes_on(stage, page, port)
        same(page.shows("#choose"), False)


@with_chromium
def asked_which(folder: pathlib.Path) -> None:
    """A board without a number on another port: the page asks whether it is the one that is away, or a new one."""
    with Hall(folder) as stage:
        page = stage.tab()
        first = away(stage, page)
        port = moved(stage, first)
        choose(page, port, "#add")
        stage.until_part(page, "#notices", "gives no serial number")
        same(page.value(CARDS), 1)
        stage.press(page, "Board 1")
        goes_on(stage, page, port)
        stage.pull(port, stays_granted=False)
        stage.until(lambda: page.text("#state").startswith("UNPLUGGED"), "the alarm of an unplugged board")
        other = stage.board()
        choose(page, other, "#add")
        stage.press(page, "A new board")
        stage.until(lambda: page.value(CARDS) == 2, "a card for the new board")
        assert page.moves == RUY_SANS[:4], page.describe()


@with_chromium
def no_second_card(folder: pathlib.Path) -> None:
    """A device that is chosen again, and one that sends the number of a board that is recorded, get no card of their own. If it is another
    board, somebody must look at both: their numbers don't tell them apart."""
    with Hall(folder) as stage:
        page, port = begin(stage)
        numbered(port, 10001)
        stage.pull(port)
        stage.plug(port)  # the number is asked for when the line is opened
        stage.until(lambda: page in port.holders, "the board to be opened again")
        until_agrees(stage, page)
        stage.show_all(page)
        choose(page, port, "#add")
        stage.until(lambda: any("recorded already" in line for line in page.messages), "a word on it")
        same((page.value(CARDS), page.text("#title")), (1, "Board 1"))
        twin = moved(stage, port)
        choose(page, twin, "#add")
        stage.until_part(page, "#notices", "the same serial number, 10001")
        same(page.value(CARDS), 1)
        stage.press(page, "It is another board")
        stage.until(lambda: page.value(CARDS) == 2, "a card for the other board")
        stage.show_all(page)
        stage.enlarge(page, 2)
        stage.until_part(page, "#state", "LOOK at the cable; agrees")
        for other in (1, 2):
            told = f"LOOK at the cable: board {other} has the same serial number"
            stage.until(lambda: any(told in line for line in page.messages), "a word on both")
        play(stage, page, twin, QUEENS[:1], QUEENS_SANS[:1])


@with_chromium
def number_comes_late(folder: pathlib.Path) -> None:
    """A board is added on another port before it has power: as soon as it gives its number, its own game goes on, without the
    new card."""
    with Hall(folder) as stage:
        page = stage.tab()
        port = moved(stage, away(stage, page, 10001))
        port.board.switch_off()
        choose(page, port, "#add")
        stage.until(lambda: page.value(CARDS) == 2, "a card for a board that doesn't answer")
        port.board.switch_on()
        stage.until(lambda: page.value(CARDS) == 1, "the end of that card")
        stage.enlarge(page, 1)
        goes_on(stage, page, port)


@with_chromium
def chosen_for_another(folder: pathlib.Path) -> None:
    """Of two boards that are away the wrong one is chosen for a card: its number says whose it is, and that game goes on."""
    with Hall(folder) as stage:
        page = stage.tab()
        for number in (10001, 10002):
            away(stage, page, number)
        second = moved(stage, stage.ports[1])
        stage.show_all(page)
        stage.enlarge(page, 1)
        choose(page, second, "#choose")
        stage.until_text(page, "#title", "Board 2")
        stage.until_part(page, "#state", "agrees")
        play(stage, page, second, RUY[2:4], RUY_SANS[2:4])
        same(page.value(CARDS), 2)


def exchange(stage: Hall, first: Port, second: Port) -> None:
    """The boards of two ports change places."""
    for port in (first, second):
        stage.pull(port)
    first.board, second.board = second.board, first.board
    for port in (first, second):
        stage.plug(port)
    stage.until(lambda: first.holders and second.holders, "both boards to be opened again")


@with_chromium
def cables_exchanged(folder: pathlib.Path) -> None:
    """Two boards change places, and later change back: each game has the moves of its own board, and somebody must look."""
    with Hall(folder) as stage:
        page = stage.tab()
        first, second = numbered(stage.board(), 10001), numbered(stage.board(), 10002)
        for port, moves, sans in ((first, RUY[:2], RUY_SANS[:2]), (second, QUEENS[:2], QUEENS_SANS[:2])):
            stage.show_all(page) if page.shows("#back") else None
            stage.add(page, port)
            stage.enlarge(page, port.number)
            until_agrees(stage, page)
            play(stage, page, port, moves, sans)
        exchange(stage, first, second)
        goes = "what it sends goes to the game of board 1"
        stage.until(lambda: any(goes in line for line in page.messages), "a word on the other board")
        play(stage, page, first, QUEENS[2:4], QUEENS_SANS[2:4])  # the board of the second game, on the first port
        stage.show_all(page)
        stage.enlarge(page, 1)
        stage.until_part(page, "#state", "LOOK at the cable")
        play(stage, page, second, RUY[2:4], RUY_SANS[2:4])
        exchange(stage, first, second)
        stage.until(lambda: any("its own, 10001, is back" in line for line in page.messages), "a word that it is back")
        for number in (1, 2):  # what came over the other cable is the board's, and nobody has added it
            words = [line.split()[1] for line in "".join(page.kept_times(number)).splitlines()]
            same(("brought" in words, "added" in words), (True, False))
        play(stage, page, first, RUY[4:6], RUY_SANS[4:6])
        text, capture = stage.saved(page, "#save-game"), stage.saved(page, "#save-capture")
        same(text, of_record(text, capture))
        stage.show_all(page)
        stage.enlarge(page, 2)
        play(stage, page, second, QUEENS[4:], QUEENS_SANS[4:])
        same(page.tab.printed(), [])


def two_alike(stage: Hall, page: Page, numbers: Sequence[int] = ()) -> List[Port]:
    """Two boards with the same two plies, which give these numbers or none."""
    ports = [stage.board() for _ in range(2)]
    for port, number in zip(ports, numbers):
        numbered(port, number)
    for port in ports:
        stage.show_all(page) if page.shows("#back") else None
        stage.add(page, port)
        stage.enlarge(page, port.number)
        until_agrees(stage, page)
        play(stage, page, port, RUY[:2], RUY_SANS[:2])
    return ports


def states(page: Page) -> List[str]:
    """What the cards of all boards say."""
    return list(map(str, page.value(STATES)))


def hub_fails(stage: Hall, page: Page, ports: Sequence[Port]) -> None:
    """All these boards go, and come back, which has shown how they stand."""
    for port in ports:
        stage.pull(port)
    stage.until(lambda: all(states(page)[port.number - 1].startswith("UNPLUGGED") for port in ports), "alarms of unplugged boards")
    for port in ports:
        stage.plug(port)
    stage.until(lambda: all(port.holders for port in ports), "all boards to be opened again")
    for port in ports:
        stage.until_dumped(page, port)
    stage.rest(2)


@with_chromium
def exchanged_though_alike(folder: pathlib.Path) -> None:
    """Two boards without numbers go at the same time and stand alike: their cables may be exchanged, and somebody must look at both. It is
    kept with the times, so a tab that is killed loses none of it; and once somebody has looked, it is gone. One board alone, and boards
    with different numbers, have no such alarm."""
    with Hall(folder) as stage:
        page = stage.tab()
        first, second = two_alike(stage, page)
        third, fourth = two_alike(stage, page, (10003, 10004))
        stage.show_all(page)
        hub_fails(stage, page, [first])
        hub_fails(stage, page, [third, fourth])
        same([state for state in states(page) if "cable" in state], [])
        hub_fails(stage, page, [first, second, third, fourth])
        same(["LOOK at the cable" in state for state in states(page)], [True, True, False, False])
        for number, other in ((1, 2), (2, 1)):
            told = f"it was away together with board {other}, which stands alike, and no serial number tells them apart"
            assert any(told in line for line in page.messages), page.messages
            stage.until(lambda: f" suspect {other}\n" in "".join(page.kept_times(number)), f"what board {number} is suspected of")
        stage.crash(page)
        page = stage.tab()
        stage.until(lambda: len(states(page)) == 4 and all(port.holders for port in stage.ports), "all boards to be opened by themselves")
        stage.rest(2)
        same(["LOOK at the cable" in state for state in states(page)], [True, True, False, False])
        for number in (1, 2):
            stage.show_all(page) if page.shows("#back") else None
            stage.enlarge(page, number)
            page.click("#ok")
            stage.until(lambda: "LOOK" not in page.text("#state"), "no alarm any more")
        same(page.tab.printed(), [])


@with_chromium
def exchanged_before_the_first_move(folder: pathlib.Path) -> None:
    """Two boards without numbers go at the same time before their first moves: they stand alike then too."""
    with Hall(folder) as stage:
        page = stage.tab()
        ports = [stage.board() for _ in range(2)]
        for port in ports:
            stage.show_all(page) if page.shows("#back") else None
            stage.add(page, port)
            stage.enlarge(page, port.number)
            until_agrees(stage, page)
        stage.show_all(page)
        hub_fails(stage, page, ports)
        same(["LOOK at the cable" in state for state in states(page)], [True, True])
        same(page.tab.printed(), [])


@with_chromium
def board_of_a_finished_game(folder: pathlib.Path) -> None:
    """A board fails, and that of a game that is over is put on its cable: OK gives it to the game that goes on, which has it also when
    the page is opened again. The other game stays as it was, and its next one begins on another board."""
    with Hall(folder) as stage:
        page = stage.tab()
        first, second = numbered(stage.board(), 10001), numbered(stage.board(), 10002)
        for port, moves, sans in ((first, RUY[:2], RUY_SANS[:2]), (second, QUEENS[:2], QUEENS_SANS[:2])):
            stage.show_all(page) if page.shows("#back") else None
            stage.add(page, port)
            stage.enlarge(page, port.number)
            until_agrees(stage, page)
            play(stage, page, port, moves, sans)
        page.click("[data-says='1-0']")
        stage.until(lambda: page.text("#state").endswith("over"), "the end of the second game")
        for port in (first, second):
            stage.pull(port)
        second.board.codes[:] = first.board.codes
        first.board, second.board = second.board, first.board
        stage.plug(first)
        stage.show_all(page)
        stage.enlarge(page, 1)
        stage.until_part(page, "#ask", "it has the board of board 2, whose game is over, serial number 10002, and not 10001")
        page.click("#ok")
        taken = "the board with serial number 10002 is recorded here"
        stage.until(lambda: any(taken in line for line in page.messages), "a word that it is taken")
        play(stage, page, first, RUY[2:4], RUY_SANS[2:4])
        stage.open(page)
        stage.until(lambda: page in first.holders, "the board to be opened by itself")
        stage.enlarge(page, 1)
        stage.until_moves(page, RUY_SANS[:4])
        play(stage, page, first, RUY[4:6], RUY_SANS[4:6])
        same(movetext_of(stage.saved(page, "#save-game")), "1. e4 e5 2. Nf3 Nc6 3. Bb5 a6 *")
        stage.show_all(page)
        stage.enlarge(page, 2)
        same((page.text("#state").endswith("over"), page.moves), (True, QUEENS_SANS[:2]))
        numbered(second, 10003).board.set_up([])
        stage.plug(second)
        stage.until_moves(page, [])
        until_agrees(stage, page)
        play(stage, page, second, QUEENS[:1], QUEENS_SANS[:1])
        same(page.tab.printed(), [])


@with_chromium
def another_board(folder: pathlib.Path) -> None:
    """A board is replaced by another one: what that sends is kept back until somebody presses OK, and then the game has all of it."""
    with Hall(folder) as stage:
        page = stage.tab()
        port = numbered(stage.board(), 10001)
        stage.add(page, port)
        stage.enlarge(page, 1)
        until_agrees(stage, page)
        play(stage, page, port, RUY[:2], RUY_SANS[:2])
        stage.pull(port)
        spare = stage.board(port.board.codes)
        numbered(spare, 10009)
        port.board, spare.board = spare.board, port.board
        port.board.pull()
        stage.plug(port)
        stage.until_part(page, "#state", "LOOK at the cable")
        before = len(page.kept(1))
        port.board.play(RUY[2])
        stage.rest(2)
        same((page.moves, len(page.kept(1))), (RUY_SANS[:2], before))
        page.click("#ok")
        stage.until_moves(page, RUY_SANS[:3])
        unknown = ("LOOK after 1... e5", "LOOK at 2. Nf3")  # the first, if it has shown the position before the move
        stage.until(lambda: page.text("#state").startswith(unknown), "a word that nobody knows what was played until then")
        play(stage, page, port, RUY[3:5], RUY_SANS[3:5])
        text, capture = stage.saved(page, "#save-game"), stage.saved(page, "#save-capture")
        same(text, of_record(text, capture))
