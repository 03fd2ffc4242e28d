"""Whose board is on a cable: what it says of itself, and whether what comes from it is the game's, by the rules in Python that `live` is
compared with; and what is said of another board."""

from live.board.state import Owner, another, back, changing, may_take

from attending.whose_rules import Whose
from decided.cases import cases
from decided.table import same

HERE, UNSURE, OTHER = "here", "unsure", "other"


def boards() -> None:
    """Each as it is after what has happened."""
    for name, own, steps, expected in cases("whose", "boards"):
        whose = Whose(own)
        for now, step in steps:
            if step == "connected":
                whose.connected(now)
            elif step == "asked":
                whose.asked(now)
            elif step == "dump":
                whose.dumped()
            else:
                whose.told(step)
        seen = [[now, UNSURE if whose.is_unsure(now) else OTHER if whose.is_other else HERE] for now, _ in expected]
        same(name, seen, expected)


def alarms() -> None:
    """What is told of another board on the cable, and of its own that is back: one alarm, which the next takes the place of."""
    for other, has_moves, text, takes in cases("whose", "told"):
        owner = Owner(*other) if other else None
        look = another("01234", "01235", owner, has_moves)
        same(f"{owner}, moves {has_moves}", (look.text, may_take(owner, has_moves)), (text, takes))
        same("one alarm", look.about, back("01234", "01235").about)
    told = "LOOK at the cable: it had the board with serial number 01235; its own, 01234, is back"
    told_of_many = "LOOK at the cable: it has a board that gives one serial number after the other, and not 01234: what it sends is kept back"
    same("one after the other", changing("01234").text, f"{told_of_many}. Put the cables right, or take another board")
    same("its own is back", back("01234", "01235").text, told)


TABLES = [boards, alarms]
