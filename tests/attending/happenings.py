"""What may happen in an evening, and how often; evenings that are drawn from a seed, and one that plays a sample again."""

import functools
import random
import subprocess
from typing import Callable, Dict, Tuple

from attending.answers import Entry, brings
from attending.evenings import OTHER, OWN, SAMPLE, Evening, Table, played
from attending.host import Host
from attending.pictures import KINGS, dump, kings, updates, with_codes
from given.case import program

EMPTY_BOARD = bytes(64)
TIME = b"\x8d\x00\x0a\x01\x29\x59\x01\x30\x00\x01"
THINGS = 16  # that happen in an evening


def ply(table: Table, lost: bool = False) -> None:
    if table.ply + 1 < len(table.plies):
        table.ply += 1
        table.shows(table.plies[table.ply], lost=lost)


def lost_update(table: Table) -> None:
    ply(table, lost=True)


def hidden(table: Table) -> None:
    """Two hands move at once: no picture shows the first of both plies."""
    if table.ply + 2 < len(table.plies):
        table.ply += 2
        table.shows(table.plies[table.ply])


def wrong_square(table: Table) -> None:
    """The piece is set down beside its square, and then put right."""
    if table.ply + 1 < len(table.plies):
        table.ply += 1
        right = table.plies[table.ply]
        landed = [at for at in range(64) if right[at] != table.shown[at] and right[at]][0]
        beside = [at for at in (landed - 8, landed + 8, landed - 1, landed + 1) if 0 <= at < 64 and not right[at]]
        if beside:
            table.shows(with_codes(right, [(landed, 0), (table.chance.choice(beside), right[landed])]))
            table.passes(table.chance.randrange(3000))
        table.shows(right)


def touched(table: Table) -> None:
    lifted_for(table, table.chance.randrange(200, 3000), 1)


def forgotten(table: Table) -> None:
    lifted_for(table, table.chance.randrange(10000, 18000), table.chance.randrange(1, 3))


def knocked(table: Table) -> None:
    lifted_for(table, table.chance.randrange(2000, 17000), table.chance.randrange(7, 12))


def lifted_for(table: Table, milliseconds: int, count: int) -> None:
    before = table.shown
    table.shows(table.without(count), slow=False)
    table.passes(milliseconds)
    table.shows(before, slow=count < 5)


def fault(table: Table) -> None:
    table.hears(table.chance.choice([b"\x05", b"\x8e\x00\x05\x34", b"\x86\x00\x43" + bytes(9), b"\x93\x00\x02", b"\xff\xff"]))
    table.passes(table.chance.randrange(1500))


def clock(table: Table) -> None:
    table.hears(TIME)


def silent(table: Table) -> None:
    table.is_mute = True
    table.passes(table.chance.randrange(4000, 12000))
    table.is_mute = False


def called_again(table: Table) -> None:
    """A serial server whose board is silent."""
    silent(table)
    table.tell(Entry(table.now, "called"))
    table.passes(300)
    table.tell(Entry(table.now, "opened"))
    table.tell(Entry(table.now + 40, "answered"))


def pulled(table: Table) -> None:
    table.goes()
    table.passes(table.chance.randrange(500, 20000))
    table.opens()


def another(table: Table) -> None:
    """Another board is on the cable for a while; it may be lent."""
    own, shown = table.number, table.shown
    table.goes()
    table.number, table.shown = OTHER if own == OWN else OWN, played()[0]
    table.opens()
    table.passes(table.chance.randrange(1000, 9000))
    what = table.chance.choice(["back", "lent", "took"])
    if what == "lent":
        table.tell(Entry(table.now, "lent"))
        table.passes(1500)
    if what == "took":
        table.tell(Entry(table.now, "took"))
        table.passes(700)
        table.shows(shown, slow=False)
        return
    table.goes()
    table.number, table.shown = own, shown
    table.opens()
    table.passes(table.chance.randrange(3000))


def typed(table: Table) -> None:
    """A move that the board didn't show is added by hand; then the board shows it."""
    if table.ply + 1 < len(table.plies):
        table.ply += 1
        table.tell(brings(table.now, "added", dump(table.plies[table.ply])))
        table.passes(table.chance.randrange(1500))
        table.shows(table.plies[table.ply])


def elsewhere(table: Table) -> None:
    """The game's board is on another game's cable for a while: what it sends comes from there."""
    table.goes()
    for _ in range(table.chance.randrange(1, 4)):
        if table.ply + 1 < len(table.plies):
            before, after = table.shown, table.plies[table.ply + 1]
            table.ply, table.shown = table.ply + 1, after
            table.tell(brings(table.now, "brought", table.chance.choice([updates(before, after), dump(after)])))
        table.passes(table.chance.randrange(5000))
    table.opens()
    table.passes(table.chance.randrange(1500))


def stopped(table: Table) -> None:
    """Nobody listens for a while, and nobody wakes the recorder."""
    away = table.chance.randrange(2000, 40000)
    table.call.now += away
    table.tell(Entry(table.now, "stopped", away))
    table.passes(500)


def ended(table: Table) -> None:
    """The kings say a result, and stand at home again."""
    before = table.shown
    table.shows(with_codes(before, [(at, 0) for at, code in enumerate(before) if code in (5, 11)]))
    table.shows(kings(before, table.chance.choice(sorted(KINGS))))
    table.passes(2000)
    table.shows(before)


def next_call(table: Table) -> None:
    """The line is closed, and so the file of times has a line of when the call ended."""
    if table.is_plugged:
        table.goes()
    table.call.due = None
    table.begins(table.chance.choice([None, 0, 700, 35000]))


def alarmed(table: Table, chance: random.Random) -> None:
    """What concerns alarms, now and then. It has a chance of its own, so that all else of an evening is as it would be without it."""
    word = chance.choice(["ok", "back", "suspect", *[""] * 5])
    if word:
        table.tell(Entry(table.now, word, chance.randrange(1000) if word == "suspect" else None))


HAPPENS: Dict[Callable[[Table], None], int] = {  # and how often
    ply: 30, touched: 8, wrong_square: 5, hidden: 4, lost_update: 4, clock: 4, fault: 6, forgotten: 3, knocked: 2,
    silent: 2, called_again: 2, pulled: 3, another: 3, typed: 3, stopped: 2, ended: 1, next_call: 2,
}  # fmt: skip
HAPPENS_ELSEWHERE: Dict[Callable[[Table], None], int] = {**HAPPENS, elsewhere: 15}


def set_up(table: Table) -> None:
    """The pieces are put on an empty board."""
    table.shown = EMPTY_BOARD
    table.begins()
    table.passes(1500)
    table.shows(table.plies[0], slow=False)


def at_home(table: Table) -> None:
    table.begins()


@functools.lru_cache(maxsize=None)
def evening(seed: int) -> Evening:
    """The evening of a seed."""
    return drawn(seed, f"evening {seed}", HAPPENS)


@functools.lru_cache(maxsize=None)
def moved_about(seed: int) -> Evening:
    """Another one, whose board is on another game's cable again and again."""
    return drawn(seed, f"elsewhere {seed}", HAPPENS_ELSEWHERE)


def drawn(seed: int, name: str, happens: Dict[Callable[[Table], None], int]) -> Evening:
    chance, alarms = random.Random(name), random.Random(f"alarms {seed}")
    options = ["--recover"] if seed % 3 == 2 else []
    with Host(*options) as host:
        table = Table(host, chance, b"" if seed % 5 == 4 else OWN)
        chance.choice([set_up, at_home, at_home])(table)
        table.passes(chance.randrange(2500))
        for _ in range(THINGS):
            chance.choices(list(happens), list(happens.values()))[0](table)
            alarmed(table, alarms)
            table.passes(chance.randrange(1500))
        return table.evening(name, options)


def plies_of(lived: Evening) -> int:
    """How many plies its game has."""
    lines = [line for _, answer in lived.told for line in answer.report]
    return sum(line.split()[1] == "move" for line in lines)


def capture_of(lived: Evening, stays: int) -> Tuple[bytes, int]:
    """Its capture with so many plies; or with fewer, if the board still shows the next one."""
    done = subprocess.run([program(), "back", *lived.options, f"--to={stays}"], input=lived.capture, stdout=subprocess.PIPE, stderr=subprocess.DEVNULL)
    return (done.stdout, stays) if done.returncode == 0 else capture_of(lived, stays - 1)


@functools.lru_cache(maxsize=None)
def gone_back(seed: int) -> Evening:
    """What comes behind an evening whose last plies are taken off: the pieces are put where they belong, and the game goes on."""
    before, chance = evening(seed), random.Random(f"back {seed}")
    capture, stays = capture_of(before, chance.randrange(plies_of(before)))
    return goes_on(before, chance, capture, stays, "back")


@functools.lru_cache(maxsize=None)
def next_game(seed: int) -> Evening:
    """The next game of a series, on the board of an evening: it begins with a dump of the start, and what came behind it."""
    before, chance = evening(seed), random.Random(f"series {seed}")
    return goes_on(before, chance, dump(played()[0]), 0, "the next game of")


def goes_on(before: Evening, chance: random.Random, capture: bytes, plies: int, name: str) -> Evening:
    with Host(*before.options) as host:
        table = Table(host, chance, before.marks[-1].number)
        table.goes_on(before, capture, int(name == "back"))
        table.ply = plies
        table.begins(0)
        if name == "back":
            table.tell(Entry(table.now, "back"))
        table.passes(chance.randrange(2500))
        table.shows(table.plies[plies])
        for _ in range(THINGS // 2):
            chance.choices(list(HAPPENS), list(HAPPENS.values()))[0](table)
            alarmed(table, chance)
            table.passes(chance.randrange(1500))
        return table.evening(f"{name} {before.name}", before.options)


def sample(size: int = 12000) -> Evening:
    """The capture of a long game, in reads of any size, on a line whose board answers nothing else."""
    chance = random.Random("sample")
    left = SAMPLE.with_suffix(".dgt").read_bytes()[:size]
    with Host() as host:
        table = Table(host, chance, b"")
        table.is_mute = True
        table.begins()
        while left:
            count = chance.randrange(1, 120)
            part, left = left[:count], left[count:]
            table.hears(part)
            table.passes(chance.randrange(2500))
        return table.evening("a long game", [])
