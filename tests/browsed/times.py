"""When the bytes of a board came, and what else happened: in the browser and in the folder."""

from __future__ import annotations

import pathlib
import random
from typing import Callable, List, Optional

from browsed.asleep import CLOCKS, GOES_ON
from browsed.folders import Chosen, begin_in, until_text
from browsed.games import QUEENS, QUEENS_SANS, RUY, RUY_SANS, answered, begin, play, until_agrees
from browsed.hall import Hall
from browsed.page import DATABASE, Page
from browsed.stage import with_chromium
from played.stage import same
from played.times import ALONE, NOTHING, Read, accounted
from played.times import read as read_beside

KILLS = 8  # of a tab
END = """
const { game } = await read('boards', (store) => store.get(1));
return (await read('games', (store) => store.get(game))).end;
"""


def read(stage: Hall, name: str, capture: bytes, times: bytes, lost: bool = False, is_odd: bool = False) -> Read:
    """What stands in times beside a capture, each byte of which is accounted for; if they were odd before, in the last call."""
    path = stage.folder / name
    path.with_suffix(".dgt").write_bytes(capture)
    path.with_suffix(".times").write_bytes(times)
    if not is_odd:
        return accounted(path, lost)
    found = read_beside(path)
    same((found.torn, found.total()), (False, len(capture)))
    return found


def until_kept(stage: Hall, page: Page, lost: bool = False, is_odd: bool = False) -> Read:
    """What the browser has of the first board's times, as soon as each byte that it has is accounted for."""
    found: List[Read] = []

    def is_whole() -> bool:
        times = "".join(page.kept_times(1)).encode()
        try:
            found[:] = [read(stage, "kept", page.kept(1), times, lost, is_odd)]
        except (AssertionError, IndexError, ValueError):
            return False
        return True

    stage.until(is_whole, "times of each byte that is kept")
    return found[0]


def until_calls(stage: Hall, page: Page, number: int) -> Read:
    """What the browser has of them, as soon as that many calls stand there: one that is killed before its first line is kept leaves none."""
    stage.until(lambda: len(until_kept(stage, page, lost=True).calls) == number, f"the times of {number} calls")
    return until_kept(stage, page, lost=True)


def in_folder(stage: Hall, chosen: Chosen, name: str, lost: bool = False) -> Read:
    """What the folder has of a game's times, which tell of the capture that is there."""
    return read(stage, "in the folder", chosen.files[f"{name}.dgt"], chosen.files[f"{name}.times"], lost)


def until_times(stage: Hall, chosen: Chosen, name: str, holds: Callable[[Read], object], what: str) -> Read:
    """The same, as soon as it holds: the folder gets them after the capture and the text."""

    def is_there() -> bool:
        try:
            return bool(holds(in_folder(stage, chosen, name, True)))
        except (AssertionError, KeyError, IndexError, ValueError):
            return False

    stage.until(is_there, f"{what} in {name}.times, among {sorted(chosen.files)}")
    return in_folder(stage, chosen, name, True)


def end_of(page: Page) -> Optional[int]:
    """Where the first board's game ends, as it is on the disk."""
    end = page.value(DATABASE.format(body=END))
    return None if end is None else int(end)


def ends_in(found: Read) -> List[int]:
    """Where the game ended, in all calls."""
    return [end for call in range(len(found.calls)) for end in found.numbers("over", call)]


def until_ends(stage: Hall, page: Page, ends: List[Optional[int]], lost: bool = False) -> Read:
    """What the browser has of the first board's times, as soon as these ends stand in them."""
    stage.until(lambda: ends_in(until_kept(stage, page, lost)) == ends, f"the ends {ends}")
    return until_kept(stage, page, lost)


def said_of_times(page: Page) -> List[str]:
    """What the messages say of the file, the oldest first."""
    return [line for line in reversed(page.messages) if ".times" in line]


def until_over(stage: Hall, page: Page) -> None:
    stage.until(lambda: page.text("#state").endswith("over"), "the end of the game")


@with_chromium
def times_of_a_game(folder: pathlib.Path) -> None:
    """Moves on the board, two that are typed, an unplugged cable, a result: each byte is accounted for, and so is what was typed."""
    with Hall(folder) as stage:
        page, port = begin(stage)
        until_agrees(stage, page)
        play(stage, page, port, RUY[:2], RUY_SANS[:2])
        page.type("Nf3 Nc6")
        stage.until_moves(page, RUY_SANS[:4])
        stage.pull(port)
        stage.until(lambda: page.text("#state").startswith("UNPLUGGED"), "the alarm of an unplugged board")
        stage.plug(port)
        stage.until(lambda: port.holders, "the board to be opened again")
        port.board.play(*RUY[2:4])
        stage.until_part(page, "#state", "agrees")
        answered(stage, page, "1-0", "the result 1-0")
        until_over(stage, page)
        found = until_ends(stage, page, [end_of(page)])
        same((found.gone_back, len(found.calls), found.numbers("begin")), (0, 1, [0]))
        same([word for word in found.words() if word in ALONE], ["opened", "gone", "opened"])
        same(len(found.numbers("added")), 2)
        assert 3 in found.numbers("asked"), found
        stage.until_dumped(page, port)
        answered(stage, page, "0-1", "the result 0-1")
        again = until_ends(stage, page, [end_of(page)], lost=True)  # what came after the first end has no times any more
        same((len(again.calls), again.numbers("over", 0), again.total(0)), (3, [], found.numbers("over")[0]))
        assert ends_in(again)[0] > found.numbers("over")[0], again
        same(said_of_times(page), [])


@with_chromium
def times_after_kills(folder: pathlib.Path) -> None:
    """Its tab is killed eight times, some time after a move: each call begins with what the browser has kept, and says how long nobody
    was there. The folder never has lines that the browser has lost, so no file in it is taken for another one."""
    chance = random.Random(1)
    with Hall(folder) as stage:
        chosen = Chosen(stage)
        page, port = begin_in(stage, chosen)
        chosen.choose(stage, page)
        found = until_calls(stage, page, 1)
        for number in range(KILLS):
            port.board.play(RUY[number])
            for _ in range(chance.randrange(60)):
                stage.turn()
            stage.crash(page)
            page = stage.tab([chosen.script()])
            stage.enlarge(page, 1)
            stage.until(lambda: page in port.holders, "the board to be opened by itself")
            stage.until_moves(page, RUY_SANS[: number + 1])
            found = until_calls(stage, page, number + 2)
            said = said_of_times(page)
            assert len(said) < 2 and all(line.endswith(NOTHING) for line in said), said
        same([len(found.numbers("away", call)) for call in range(len(found.calls))], [0, *KILLS * [1]])
        assert all(found.numbers("away", call)[0] < 60_000 for call in range(1, KILLS + 1)), found
        same([name for name in chosen.files if "other" in name], [])


@with_chromium
def times_of_the_way_back(folder: pathlib.Path) -> None:
    """Plies are taken off: the new capture has times of its own, and the old one's are kept beside it, in the folder too. A game that
    was over goes on: its times have no end any more."""
    with Hall(folder) as stage:
        chosen = Chosen(stage)
        page, port = begin_in(stage, chosen)
        chosen.choose(stage, page)
        play(stage, page, port, RUY[:2], RUY_SANS[:2])
        until_text(stage, chosen, "board 1.pgn", "1. e4 e5 *")
        port.board.play("e5e7")
        stage.until_dumped(page, port)
        answered(stage, page, "back 1. e4", "back to 1. e4")
        stage.until(lambda: "board 1.before-1.times" in chosen.files, "the times of the old capture")
        stage.until_moves(page, ["e4"])
        play(stage, page, port, ["c7c5"], ["c5"])
        until_text(stage, chosen, "board 1.pgn", "1. e4 c5 *")
        found = until_times(stage, chosen, "board 1", lambda read: read.gone_back == 1, "the new times")
        before = in_folder(stage, chosen, "board 1.before-1")
        same((before.gone_back, before.numbers("begin")), (0, [0]))
        same((found.words()[:6], found.numbers("away")), (["begin", "away", "opened", "added", "back", "reopened"], [0]))
        answered(stage, page, "1-0", "the result 1-0")
        until_over(stage, page)
        until_ends(stage, page, [end_of(page)])
        port.board.play("g1f3")
        stage.until_dumped(page, port)
        answered(stage, page, "*", "goes on, without the result")
        stage.until_moves(page, ["e4", "c5", "Nf3"])
        found = until_ends(stage, page, [])
        same((found.gone_back, len(found.calls), end_of(page), found.words().count("back")), (1, 1, None, 2))
        same(found.words().count("reopened"), 2)
        same(said_of_times(page), [])


@with_chromium
def times_of_two_games(folder: pathlib.Path) -> None:
    """Two games on one board: each has times of its own, and the result that the first is given later stands in them."""
    with Hall(folder) as stage:
        chosen = Chosen(stage)
        page, port = begin_in(stage, chosen)
        chosen.choose(stage, page)
        play(stage, page, port, RUY[:2], RUY_SANS[:2])
        port.board.set_up([])
        stage.until_moves(page, [])
        until_agrees(stage, page)
        play(stage, page, port, QUEENS[:2], QUEENS_SANS[:2])
        until_text(stage, chosen, "board 1-2.pgn", "1. d4 d5 *")
        first = until_times(stage, chosen, "board 1", lambda read: read.numbers("over"), "an end")
        second = until_times(stage, chosen, "board 1-2", lambda read: read.numbers("heard"), "what came")
        same((first.numbers("begin"), first.words().count("opened")), ([0], 1))
        same((second.gone_back, second.words()[:2]), (0, ["begin", "opened"]))
        end = first.numbers("over")[0]
        page.click("[data-before='0-1']")
        until_text(stage, chosen, "board 1.pgn", "1. e4 e5 0-1")
        found = until_times(stage, chosen, "board 1", lambda read: read.numbers("over") not in ([], [end]), "another end")
        assert found.numbers("over")[0] > end and len(found.calls) == 2, found
        until_kept(stage, page)
        stage.open(page)
        stage.enlarge(page, 1)
        stage.until_moves(page, QUEENS_SANS[:2])
        stage.until(lambda: page in port.holders, "the board to be opened by itself")
        stage.until_dumped(page, port)
        same(len(until_kept(stage, page, lost=True).calls), 2)


@with_chromium
def times_of_a_set_up(folder: pathlib.Path) -> None:
    """Pieces are set up while it records: what came before the start is kept with its times, and the game has its own."""
    with Hall(folder) as stage:
        chosen = Chosen(stage)
        port = stage.board()
        port.board.play("e2e4")
        page = stage.tab([chosen.script()])
        stage.add(page, port)
        stage.enlarge(page, 1)
        chosen.choose(stage, page)
        stage.until_moves(page, ["e4"])
        port.board.set_up([])
        stage.until_moves(page, [])
        until_agrees(stage, page)
        stage.until(lambda: "board 1.before-1.times" in chosen.files, "the times of the set-up")
        play(stage, page, port, QUEENS[:2], QUEENS_SANS[:2])
        until_text(stage, chosen, "board 1.pgn", "1. d4 d5 *")
        found = until_times(stage, chosen, "board 1", lambda read: read.numbers("heard"), "what came")
        same((found.gone_back, found.words()[:3]), (0, ["begin", "away", "opened"]))
        same(in_folder(stage, chosen, "board 1.before-1").numbers("begin"), [0])


@with_chromium
def times_asleep(folder: pathlib.Path) -> None:
    """The computer sleeps for 35 s, by a clock that stands still meanwhile, and by one that counts on: it is written so, and later
    times count on."""
    with Hall(folder) as stage:
        port = stage.board()
        page = stage.tab([CLOCKS])
        stage.add(page, port)
        stage.enlarge(page, 1)
        until_agrees(stage, page)
        for number, clocks in enumerate(((0, 35000), (35000, 35000))):
            play(stage, page, port, RUY[number : number + 1], RUY_SANS[number : number + 1])
            stage.until_dumped(page, port)
            page.value(GOES_ON % clocks)
            stage.until_dumped(page, port)
        found = until_kept(stage, page)
        lasted = found.numbers("stopped")
        assert len(lasted) == 2 and all(35_000 <= each < 40_000 for each in lasted), found
        times = [at for at, _, _ in found.calls[0]]
        assert sum(after - before >= 34_000 for before, after in zip(times, times[1:])) == 2, found
