"""In a round it is asked whether moves were played that alone explain a board: the number of that board and `y` put them in."""

import pathlib

from played.alarms import hide_two
from played.stage import rest, same, stop, until_line
from rounds.hall import Hall


def asked_in_a_round(folder: pathlib.Path) -> None:
    """Two boards, and one is asked about. `y` is refused for the other one, and without a number. A name that was typed last can't be undone."""
    hall = Hall(folder, 2)
    live = hall.record(typed=True)
    hall.begun(live)
    hall.play(0, 1)
    hall.until_text(1, "1. e4 *")
    hide_two(hall.boards[0])
    asked = "was 1... e5 2. Nf3 played? If so, type 1 y"
    until_line(live, asked)
    live.type("y")
    until_line(live, "of which board? Type its number first")
    live.type("2 y")
    until_line(live, "2 refused: nothing is asked at this board")
    rest(1.5)
    live.type("1 y")
    until_line(live, f"1: added to {hall.name(1)}: 1... e5 2. Nf3")
    hall.until_text(1, "1. e4 e5 2. Nf3 *")
    live.type("1 name White=Anna")
    until_line(live, "White is now Anna")
    live.type("1 undo")
    until_line(live, '"name White=Anna" was typed last, and can\'t be undone')
    hall.boards[0].play("b8c6")
    hall.until_text(1, "1. e4 e5 2. Nf3 Nc6 *")
    same(stop(live), 0)
