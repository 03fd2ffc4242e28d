"""Plays a scene in simulated time: an emulated board and its clock against the real program, and what came of it."""

from __future__ import annotations

import functools
import math
import re
import subprocess
from dataclasses import dataclass, field
from typing import Iterator, NamedTuple, Optional, Sequence, Tuple

import elsewhere
from hands import moves_of, movetext
from marks_scenes import Deed, Plan, What

from attending.answers import Answer, Entry, State, brings  # noqa: E402  (hands has put its folder on the path)
from attending.evenings import added  # noqa: E402
from attending.host import Call, Host  # noqa: E402
from emulated.board import Board  # noqa: E402
from emulated.clock import Clock  # noqa: E402
from given.case import program  # noqa: E402
from live.line.protocol import Picture  # noqa: E402

GATHERED = 32  # milliseconds in which bytes are gathered
TIME = 5400.0  # seconds on each clock
HOLDS = 1.0  # seconds behind a ply, after which a WRONG from before it has outlasted it
FINE = ("AGREES", "RESULT")
RECOVERED = re.compile(r"\d+ recovered (\d+)(\.+) (\S+) \d+\.+ (\S+)")
LOOK = re.compile(r"look (at|after|since) (\d+) (\S+)(?: (\d+))?")


class Look(NamedTuple):
    """An alarm: the ply that it is about, and why."""

    ply: int
    why: str


def look_of(line: str) -> Look:
    """The alarm in a line. `since 24 STOPPED 3` is about the third ply behind the 24th."""
    found = LOOK.fullmatch(line)
    assert found, line
    return Look(int(found[2]) + int(found[4] or 0), found[3])


class Pair(NamedTuple):
    """Two plies that were put in: the first one's number, and both."""

    ply: int
    sans: Tuple[str, str]


@dataclass(frozen=True)
class Told:
    """What the program said of a game."""

    sans: Tuple[str, ...]
    result: str
    looks: Tuple[Look, ...]
    pairs: Tuple[Pair, ...]
    states: Tuple[Tuple[float, State], ...]  # since when
    over: str  # the last line about the end; none while the game goes on


@dataclass(frozen=True)
class Judged:
    """What came of a game."""

    plies: int
    is_wrong: bool  # the text isn't that of the game
    is_marked: bool  # somebody is to look, or the board doesn't agree
    whys: Tuple[str, ...]  # of the alarms
    alarms: Tuple[str, ...]  # states that are alarms
    lasting: int  # of these WRONG, that were still said behind another ply
    pairs: int = 0
    right_pairs: int = 0
    marked_pairs: int = 0  # of the right ones


@dataclass
class Player:
    """A board on the cable, and the program that hears it."""

    host: Host
    plan: Plan
    options: Sequence[str]
    seed: str
    call: Call = field(init=False)
    capture: bytearray = field(default_factory=bytearray)
    now: float = 0.0

    def __post_init__(self) -> None:
        self.call = Call(self.host)
        clock = Clock(TIME) if self.plan.has_clock else None
        self.board = Board(self.plan.pictures[0], clock=clock, seed=self.seed, second_at=0.5 + sum(self.seed.encode()) % 64 / 128)
        self.is_plugged = True

    def play(self) -> Told:
        self._tell(Entry(0, "begin", 0))
        self._tell(Entry(2, "opened"))
        for deed in self.plan.deeds:
            self._passes(deed.at)
            self._do(deed)
        self._passes(self.plan.ends)
        return self._told()

    def _passes(self, until: float) -> None:
        """What the board sends is heard, and the program woken, up to this time."""
        while True:
            grid = max(self.now, math.ceil(self.board.due() * 1000 / GATHERED) * GATHERED / 1000)
            woken = math.inf if self.call.due is None else max(self.now, self.call.due / 1000)
            if min(grid, woken) > until:
                break
            self.now = min(grid, woken)
            if woken <= grid:
                self._tell(Entry(self._milliseconds(), "wake"))
            elif sent := self.board.take(self.now):
                self._tell(brings(self._milliseconds(), "heard", sent))
        self.now = until

    def _milliseconds(self) -> int:
        return math.ceil(round(self.now * 1000, 3))

    def _tell(self, entry: Entry) -> Answer:
        answer = self.call.tell(entry)
        self.capture += added(entry, answer)
        if answer.asked and self.is_plugged:
            self.board.command(self.now, answer.asked.encode())
        return answer

    def _do(self, deed: Deed) -> None:
        board = self.board
        if deed.what is What.TOUCH:
            board.show(deed.at, deed.square, deed.code)
            return
        board.advance(deed.at)
        if deed.what in (What.OFF, What.ON):
            board.power(deed.at, deed.what is What.ON)
        elif deed.what in (What.PULL, What.PLUG):
            self.is_plugged = deed.what is What.PLUG
            board.power(deed.at, self.is_plugged)
            self._tell(Entry(self._milliseconds(), "opened" if self.is_plugged else "gone"))
        elif deed.what is What.HOLD:
            board.line.hold(deed.until)
        elif deed.what is What.TYPE:
            self._type(deed.line)
        elif board.clock:
            {What.START: board.clock.start, What.PRESS: board.clock.press, What.STOP: board.clock.stop}[deed.what](deed.at)

    def _type(self, line: str) -> None:
        words = [program(), "add", f"--line={line}", *self.options]
        done = subprocess.run(words, input=bytes(self.capture), stdout=subprocess.PIPE, stderr=subprocess.PIPE, check=True)
        if done.stdout:
            self._tell(brings(self._milliseconds(), "added", done.stdout))

    def _told(self) -> Told:
        text = self._tell(Entry(self._milliseconds(), "text")).game.decode()
        told = self.call.told
        looks = [look_of(line) for _, answer in told for line in answer.looks]
        pairs = [RECOVERED.fullmatch(line) for _, answer in told for line in answer.report if " recovered " in line]
        over = ""
        for line in (line for _, answer in told for line in answer.ends):
            over = line if line.startswith("over") else "" if line.startswith("played") else over
        return Told(
            tuple(moves_of(text)),
            movetext(text)[-1],
            tuple(looks),
            tuple(Pair(2 * int(pair[1]) - (pair[2] == "."), (pair[3], pair[4])) for pair in pairs if pair),
            tuple((entry.at / 1000, answer.state) for entry, answer in told if answer.state),
            over,
        )


class Wrong(NamedTuple):
    """A time in which a state that is an alarm is said."""

    kind: str
    begins: float
    ends: float


def wrongs(states: Sequence[Tuple[float, State]]) -> Iterator[Wrong]:
    """Those times; a WRONG that names other squares is the same one."""
    since: Optional[Tuple[str, float]] = None
    for at, state in [*states, (math.inf, State("AGREES"))]:
        kind = state.kind if state.is_alarm else ""
        if since and since[0] != kind:
            yield Wrong(since[0], since[1], at)
            since = None
        if kind and not since:
            since = kind, at


def judged(plan: Plan, told: Told, sans: Sequence[str]) -> Judged:
    """What came of a game of these moves."""
    said = list(wrongs(told.states))
    lasting = [
        one for one in said if one.kind == "WRONG" and any(one.begins < at and at + HOLDS < one.ends for at in plan.done)
    ]
    stands = told.states[-1][1].kind in FINE and not told.states[-1][1].hint
    is_fine = told.over.endswith(" sure") if told.over else stands
    right = [pair for pair in told.pairs if tuple(sans[pair.ply - 1 : pair.ply + 1]) == pair.sans]
    about = {look.ply for look in told.looks}
    return Judged(
        len(plan.done),
        told.sans != tuple(sans) or told.result != plan.result,
        bool(told.looks) or not is_fine,
        tuple(look.why for look in told.looks),
        tuple(one.kind for one in said),
        len(lasting),
        len(told.pairs),
        len(right),
        sum(bool(about & {pair.ply, pair.ply + 1}) for pair in right),
    )


@functools.lru_cache(maxsize=64)
def sans_of(pictures: Tuple[Picture, ...]) -> Tuple[str, ...]:
    """The moves of these pictures, by the program."""
    return elsewhere.sans_of(pictures, [program(), "live"])


def played(plan: Plan, seed: str, recovers: bool) -> Judged:
    """A game that is played."""
    options = ["--recover"] if recovers else []
    with Host(*options) as host:
        told = Player(host, plan, options, seed).play()
    return judged(plan, told, sans_of(plan.pictures))
