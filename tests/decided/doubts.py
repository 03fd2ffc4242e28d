"""What somebody is to look at, in words, and how it is kept."""

import tempfile
from typing import List, Sequence

from live.child.lines import Answers, Doubt, Move
from live.game.files import Paths
from live.game.looks import OVER, Alarms, Look, Looks, byte_of, kept_looks, look_of

from decided.cases import cases
from decided.table import same

PLIES = [Move("1.", "e4"), Move("1...", "e5"), Move("2.", "Nf3", "0:09:58")]


def looks_of(text: str, plies: Sequence[Move]) -> List[Look]:
    """What a line of the program says in a game of these plies."""
    (answer,) = Answers().take(f"keep\n{text}\ndone -\n".encode())
    return [look_of(doubt, plies) for doubt in answer.doubts]


def words() -> None:
    """What is said of the program's lines."""
    for text, expected in cases("doubts", "said"):
        same(text, [look.text for look in looks_of(text, PLIES)], [expected])
    (answer,) = Answers().take(b"keep\nlook at 3 LATE\nlook SUSPECT 3\ndone 5\n")
    same("two of them", answer.doubts, [Doubt("at", 3, "LATE"), Doubt("SUSPECT", 3, "SUSPECT")])


def corrected() -> None:
    """What is open if a ply becomes another one."""
    for name, steps, expected in cases("doubts", "corrected"):
        looks = Looks()
        for last, text in steps:
            for look in looks_of(text, [*PLIES[:2], Move(*last.split(" "))]):
                looks = looks.with_one_more(look)
        same(name, [look.text for look in looks.open], expected)


def places() -> None:
    """With which byte the ply came that each is about, where the plies came with the bytes 70, 140 and 210."""
    for where, plies, expected in (("at", 3, 210), ("at", 1, 70), ("after", 2, 140), ("after", 3, 210), ("since", 2, 210), ("since", 0, 70), ("at", 4, 0), ("after", 0, 0)):
        same(f"{where} {plies}", byte_of(Doubt(where, plies, "LATE"), [70, 140, 210]), expected)
    with tempfile.TemporaryDirectory() as folder:
        alarms = Alarms(Paths(f"{folder}/game"))
        for name, byte in (("at 1. e4", 70), ("after 1. e4", 70), ("at 1... e5", 140), ("the cable", 0)):
            same(name, (alarms.add(Look(name, "why"), byte), alarms.add(Look(name, "why"), byte)), (True, False))
        alarms.end(71)
        same("the game has 71 bytes", [look.what for look in alarms.looks.open], ["at 1. e4", "after 1. e4", "the cable"])
        same("seen", alarms.acknowledge(), "LOOK at 1. e4: why; LOOK after 1. e4: why; LOOK the cable: why")
        same("none is kept", kept_looks(Paths(f"{folder}/game")), Looks())


def kept() -> None:
    """What is open, as it is told and kept."""
    queen, clock = Look("at 4... Qg4+", "why"), Look("since 38. Kf2", "2 moves", "clock")
    looks = Looks().with_one_more(queen)
    same("none", (Looks().short, Looks().all, Looks().content()), ("", "", b""))
    same("one", (looks.short, looks.all), ("LOOK at 4... Qg4+", "LOOK at 4... Qg4+: why"))
    same("the same again", looks.with_one_more(queen), looks)
    both = looks.with_one_more(clock)
    same("two", both.short, "LOOK at 4... Qg4+ and 1 more")
    more = Look("since 38. Kf2", "3 moves", "clock")
    same("the clock again", both.with_one_more(more).open, (queen, more))
    over, hidden = Look("after 38. Kf2", "why", OVER), Look("after 38. Kf2", "why")
    for gone, left in ((["at 38. Kf2"], [hidden]), (["at 37... Kf7", "since 38. Kf2"], [over, hidden]), (["after 38. Kf2"], [])):
        same(f"settled: {gone}", list(Looks((over, hidden)).without(gone).open), left)
    same("in full", both.all, "LOOK at 4... Qg4+: why; LOOK since 38. Kf2: 2 moves")
    same("read again", Looks.of_content(both.content()), both)
    same("an old file", Looks.of_content(b"what is this?\n").short, "LOOK at the game")


TABLES = [words, corrected, places, kept]
