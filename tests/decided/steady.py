"""When a ply goes out: once it has stood, or the clock was pressed, or it was answered."""

from typing import List, Optional, Tuple

from decided.table import refused, same
from live.out.delay import Steady, read_hold
from live.out.spectators import Clocks, Ply, Shot
from live.run.refused import Refused


def shot(text: str, runs: str = "", result: str = "*") -> Shot:
    """A game with these plies, and whose clock runs."""
    sans = text.split()
    side = "wb"[len(sans) % 2]
    return Shot(result, tuple(Ply(san, "") for san in sans), (f"8/8 {side} - - 0 1",), text.encode(), Clocks(runs=runs))


def sans(seen: Shot) -> str:
    """The plies of a game."""
    return " ".join(ply.san for ply in seen.moves)


# When a game was looked at, in seconds; its plies, whose clock runs, its result; the plies that go out.
Row = Tuple[float, str, str, str, str]
GAMES: List[Tuple[str, List[Row]]] = [
    ("what is there first goes out", [(0.0, "e4 e5", "", "*", "e4 e5")]),
    ("but no first ply", [(5.0, "e4", "", "*", ""), (6.9, "e4", "", "*", ""), (7.0, "e4", "", "*", "e4")]),
    ("a ply goes out when it has stood", [(0.0, "", "", "*", ""), (1.0, "e4", "", "*", ""), (2.9, "e4", "", "*", ""), (3.0, "e4", "", "*", "e4")]),
    ("an unfinished slide doesn't", [(0.0, "", "", "*", ""), (1.0, "c3", "", "*", ""), (1.5, "c4", "", "*", ""), (3.0, "c4", "", "*", ""), (3.5, "c4", "", "*", "c4")]),
    ("nor one that is taken back", [(0.0, "", "", "*", ""), (1.0, "c3", "", "*", ""), (1.5, "", "", "*", ""), (9.0, "", "", "*", "")]),
    ("the clock was pressed", [(0.0, "", "w", "*", ""), (1.0, "e4", "w", "*", ""), (1.2, "e4", "b", "*", "e4")]),
    ("it was pressed as the move was made", [(0.0, "", "w", "*", ""), (1.0, "e4", "b", "*", "e4")]),
    ("a press was forgotten, and the other side moves", [(0.0, "e4", "b", "*", ""), (2.0, "e4", "b", "*", "e4"), (5.0, "e4 e5", "b", "*", "e4"), (8.0, "e4 e5 Nf3", "b", "*", "e4 e5"), (9.9, "e4 e5 Nf3", "b", "*", "e4 e5"), (10.0, "e4 e5 Nf3", "b", "*", "e4 e5 Nf3")]),
    ("it is pressed twice", [(0.0, "e4 e5", "w", "*", "e4 e5"), (5.0, "e4 e5 Nf3", "b", "*", "e4 e5 Nf3"), (6.0, "e4 e5 Nf3", "w", "*", "e4 e5 Nf3")]),
    ("the clock is read the wrong way round", [(0.0, "", "b", "*", ""), (1.0, "e4", "b", "*", ""), (2.9, "e4", "b", "*", ""), (3.0, "e4", "b", "*", "e4")]),
    ("a late correction, and the clock runs", [(0.0, "e4 e5", "w", "*", "e4 e5"), (9.0, "e4 c5", "w", "*", "e4 e5"), (11.0, "e4 c5", "w", "*", "e4 c5")]),
    ("nobody's clock was running before", [(0.0, "", "", "*", ""), (1.0, "e4", "b", "*", ""), (3.0, "e4", "b", "*", "e4")]),
    ("a reply was made", [(0.0, "", "", "*", ""), (1.0, "e4", "", "*", ""), (1.5, "e4 e5", "", "*", "e4"), (3.5, "e4 e5", "", "*", "e4 e5")]),
    ("two at once", [(0.0, "", "", "*", ""), (1.0, "e4 e5", "", "*", ""), (3.0, "e4 e5", "", "*", "e4 e5")]),
    ("the game is over", [(0.0, "", "", "*", ""), (1.0, "e4", "", "1-0", "e4")]),
    ("plies are taken off", [(0.0, "e4 e5 Nf3", "", "*", "e4 e5 Nf3"), (1.0, "e4", "", "*", "e4")]),
    ("a late correction stands too", [(0.0, "e4 e5", "", "*", "e4 e5"), (9.0, "e4 c5", "", "*", "e4 e5"), (11.0, "e4 c5", "", "*", "e4 c5")]),
]


def held_back() -> None:
    for name, rows in GAMES:
        steady = Steady(2.0)
        for now, plies, runs, result, out in rows:
            same(f"{name}, at {now}", sans(steady.take(now, shot(plies, runs, result))), out)


def at_once() -> None:
    steady = Steady(0.0)
    same("nothing is held back", [sans(steady.take(now, shot(plies))) for now, plies in ((0.0, ""), (0.1, "e4"))], ["", "e4"])
    steady = Steady(2.0)
    steady.take(0.0, shot(""))
    same("nothing waits", steady.due, None)
    steady.take(1.0, shot("e4"))
    same("it waits until then", steady.due, 3.0)
    waits = steady.last
    same("a game that isn't recorded any more", waits and [sans(steady.take(now, waits)) for now in (2.9, 3.0)], ["", "e4"])
    same("and then nothing waits", steady.due, None)
    steady = Steady(2.0)
    steady.take(0.0, shot(""))
    steady.take(1.0, shot("e4"))
    steady.release()
    same("nothing more comes", sans(steady.take(1.1, shot("e4"))), "e4")


HOLDS: List[Tuple[str, Optional[float]]] = [("2", 2.0), ("0", 0.0), ("0.5", 0.5), ("60", 60.0), ("60.1", None), ("-1", None), ("", None), ("x", None), ("1e1", None)]


def typed() -> None:
    for text, expected in HOLDS:
        if expected is None:
            refused(text, Refused, read_hold, text)
        else:
            same(text, read_hold(text), expected)


TABLES = [held_back, at_once, typed]
