"""What is said of a cable once another board is known to be on it, and of its own board that is back."""

from typing import Iterable, List

from live.board.cable import Cable, Foreign, FromCable, Gone, OtherBoard, OwnIsBack
from live.board.connection import PLUGGED, Connection, Happened
from live.board.plan import Means, Numbered, Plan, Rules
from live.child.lines import KEEP, OTHER, Answer
from live.child.program import Program
from live.game.attending import Told
from live.game.log import Screen
from live.game.times import HEARD
from live.run.loop import Guard, Loop, Worker

from decided.table import same

ITS_OWN, THE_OTHER = "00001", "00002"
LENT = f"lent to {THE_OTHER}"
NO_PROGRAM = Program("/dev/null")


def words_of(said: Iterable[FromCable]) -> List[str]:
    """What comes of a cable, in words."""
    return [word_of(one) for one in said]


def word_of(one: FromCable) -> str:
    if isinstance(one, Happened):
        return one.what
    if isinstance(one, Numbered):
        return f"numbered {one.number}"
    if isinstance(one, OtherBoard):
        return f"another {one.number}"
    if isinstance(one, OwnIsBack):
        return f"back {one.other}"
    if isinstance(one, Foreign):
        return f"lent to {one.number}"
    return one.message if isinstance(one, Gone) else one.name.lower()


def cable_of(number: str) -> Cable:
    """The cable of a board with this number, whose line is open."""
    guard = Guard(Loop(), lambda error: None, lambda error: None)
    plan, worker = Plan("/dev/none", "game", Rules()), Worker(guard)
    guard.opened(worker.close)
    connection = Connection(guard, NO_PROGRAM, plan.device, lambda it: None)
    cable = Cable(Means(guard, worker, Screen(None)), NO_PROGRAM, plan, number, connection, lambda told, answer: None)
    same("its line is open", words_of(cable.happens(Happened(PLUGGED), None)), [])
    return cable


def told_at_once() -> None:
    """With the answer that says it, and once. The number of its own board is known before."""
    cable = cable_of(ITS_OWN)
    own, other = (Told(0.0, HEARD, b"\x91\x00\x08" + number.encode()) for number in (ITS_OWN, THE_OTHER))
    is_own, is_other = Answer(own.sent, handling=KEEP), Answer(handling=OTHER, other=THE_OTHER)
    for name, hears_it, message, answer, told, on_it in (
        ("its own", cable.answered, own, is_own, [], ""),
        ("another", cable.answered, other, is_other, ["another", f"another {THE_OTHER}", "missing", LENT], THE_OTHER),
        ("the same", cable.of_another, other, is_other, [LENT], THE_OTHER),
        ("its own, as another child hears", cable.of_another, own, is_own, ["opened", "heard"], ""),
        ("and as the game's hears", cable.answered, own, is_own, [f"back {THE_OTHER}"], ""),
        ("its own still", cable.answered, own, is_own, [], ""),
    ):
        said = words_of(hears_it(message, answer, None))
        same(f"{name}: told, and the board on it", (said, cable.another.number), (told, on_it))


def its_own_number() -> None:
    """A game whose board's number isn't known has the one that the program says."""
    cable = cable_of("")
    for part, said, told in (
        (b"\x86\x00\x91\x00\x080", "", []),
        (b"000", "", []),
        (b"1\x86", ITS_OWN, [f"numbered {ITS_OWN}"]),
        (b"\x91\x00\x0800001", "", []),
    ):
        same(f"{part!r}", words_of(cable.answered(Told(0.0, HEARD, part), Answer(part, handling=KEEP, number=said), None)), told)
    same("its number", cable.number, ITS_OWN)


TABLES = [told_at_once, its_own_number]
