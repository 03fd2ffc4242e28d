"""The files of times of a round have what its programs were told, also where cables are swapped."""

import pathlib

from played.filed import is_filed
from played.stage import rest, same, stop, until_line
from played.tapped import Tap
from rounds.alarms import goes
from rounds.hall import Hall
from rounds.swapped import AT_USB, SETTLED, Tables


def filed_in_a_hall(folder: pathlib.Path) -> None:
    """Two cables are swapped and stay so: what comes over another game's cable has a word of its own, there and in the file."""
    tap = Tap(folder)
    hall = Tables(folder, 2, start=tap.start)
    hall.begun()
    hall.play(2)
    hall.swap([(1, 2)], AT_USB)
    hall.until_named([(1, 2)])
    rest(SETTLED)
    hall.play(3)
    hall.acknowledge([(1, 2)])
    hall.play(1)
    same(stop(hall.live), 0)
    for number in hall.seats:
        events = is_filed(hall.name(number), tap.calls_of(f"{number:02}"))
        found = [word for _, word, _ in events]
        same((found.count("brought") > 3, found.count("added"), found.count("ok"), found.count("called") > 0), (True, 0, 1, True))


def filed_if_suspected(folder: pathlib.Path) -> None:
    """Two boards without numbers go together and stand alike: each game is told, and its file has it."""
    tap, hall = Tap(folder), Hall(folder, 2)
    live = hall.record(start=tap.start)
    hall.begun(live)
    for number, board in enumerate(hall.boards, 1):
        board.play("e2e4")
        hall.until_text(number, "1. e4 *")
    goes(hall, live, [1, 2])
    for number in (1, 2):
        until_line(live, f"  {number}  LOOK at the cable: it was away together with board")
    same(stop(live), 0)
    for number in (1, 2):
        events = is_filed(hall.name(number), tap.calls_of(f"{number:02}"))
        same([count for _, word, count in events if word == "suspect"], [3 - number])


CASES = [filed_in_a_hall, filed_if_suspected]
