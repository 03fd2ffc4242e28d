"""What to record on a board: a device, and a game or a series of games; why a game is over, and what becomes of its board then; and what
goes up from a session to its board, and from that to whoever has it, as values which are taken in the same turn, in order."""

from __future__ import annotations

import enum
import os
from dataclasses import dataclass
from typing import Callable, List, NamedTuple, Optional, Sequence, Union

from live.board.state import Owner, Return
from live.game.files import Paths
from live.game.game import Course
from live.game.log import Screen
from live.game.opening import Opening
from live.run.loop import Guard, Worker
from live.run.refused import DGT_LIVE, Answer as Reply, Refused
from live.words.message import Message


class Reason(enum.Enum):
    """Why a game is over."""

    RESULT = Message("over.has_a_result")
    TYPED = Message("over.result_given")
    PLAYS_ON = Message("over.played_on")
    CORRECTED = Message("over.corrected")
    SET_UP = Message("over.set_up")
    LIMIT = Message("over.capture_full")


SAID = {"PLAYS-ON": Reason.PLAYS_ON, "CORRECTED": Reason.CORRECTED, "UNFINISHED": Reason.SET_UP}  # by the program's word
PLAYED_ON = (Reason.PLAYS_ON, Reason.CORRECTED)  # the board isn't left alone


@dataclass(frozen=True)
class Rules:
    """Whether another game follows on the same board; and whether the board is listened to once its game is over."""

    series: bool = False
    listens: bool = False

    def marks(self, reason: Reason) -> bool:
        """Whether to mark how many bytes are the game's, since others may come after them."""
        return self.series or reason not in (Reason.RESULT, Reason.LIMIT) or (self.listens and reason is Reason.RESULT)

    def attends(self, reason: Reason) -> bool:
        """Whether the board is attended after that."""
        return self.series or reason in PLAYED_ON or (self.listens and reason is not Reason.LIMIT)


def told(reason: Reason, result: str, goes_on: str, reopens: str, is_alone: bool) -> str:
    """Why a game is over, and what to do then. `result`, `goes_on` and `reopens` are what to type, the first two also once nobody listens
    any more. Nothing comes after a game that is alone."""
    if reason is Reason.SET_UP:
        return Message("over.type_result", why=reason.value, result=result, goes_on=goes_on)
    if reason in PLAYED_ON:
        if is_alone:
            goes_on = Message("over.if_it_goes_on_alone", why=reason.value, reopens=reopens)
        else:
            goes_on = Message("over.if_it_goes_on", why=reason.value, how=Message("typed.line", line=reopens))
        return Message("over.last_move", goes_on=goes_on, reopens=reopens) if reason is Reason.PLAYS_ON else goes_on
    return str(reason.value)


def told_of_end(plan: Plan, name: str, reason: Reason, screen: Screen, known: Optional[Course]) -> List[str]:
    """That this game is over, why, and what to do then; `known` is the course of one that was over before this call."""
    series = plan.rules.series
    why = told(reason, screen.result_of(name, series), screen.goes_on(name, series), screen.reopens(), plan.is_alone)
    more = [told_of_before(name, known)] if known and plan.is_alone else []
    return [Message("over.is_over", name=name, why=why), *more]


def told_of_before(name: str, course: Course) -> str:
    """What to do with a game that was over before this call began."""
    if course.is_given:
        goes_on = Message("over.add_reopens", dgt_live=DGT_LIVE, name=name)
    else:
        last = course.plies[-2].short if len(course.plies) > 1 else "0"
        goes_on = Message("over.back_again", dgt_live=DGT_LIVE, last=last, name=name)
    return Message("over.another_name", goes_on=goes_on)


def numbered(name: str, number: int) -> Paths:
    """The files of a game of a series."""
    return Paths(f"{name}-{number}")


def last_number(name: str) -> int:
    """The number of the last existing game of a series, else 1."""
    number = 1
    while os.path.lexists(numbered(name, number + 1).capture):
        number += 1
    return number


@dataclass(frozen=True)
class Plan:
    """What to record, and how: a device, and the name of a game or of a series. `board` is its number in a round; `serial` is the
    board's own serial number, if given. A plan that only `shows` a game opens no board."""

    device: str
    name: str
    rules: Rules
    once: bool = False
    board: str = ""
    serial: str = ""
    shows: bool = False

    @property
    def paths(self) -> Paths:
        """The files of the game, or of the last existing game of the series."""
        return numbered(self.name, last_number(self.name)) if self.rules.series else Paths(self.name)

    def after(self, paths: Paths) -> Paths:
        """The files of the game after this one of the series."""
        return numbered(self.name, int(paths.name.rpartition("-")[2]) + 1)

    @property
    def is_alone(self) -> bool:
        """Whether it is one game, on the only board."""
        return not self.rules.series and not self.board

    @property
    def before(self) -> Optional[Paths]:
        """The files of the game before that one, if this is a series and they are there."""
        before = numbered(self.name, last_number(self.name) - 1) if self.rules.series else None
        return before if before and os.path.lexists(before.capture) else None


@dataclass(frozen=True)
class Means:
    """With what a board is recorded: its guard, who works beside the loop, and its screen."""

    guard: Guard
    worker: Worker
    screen: Screen


@dataclass(frozen=True)
class Wanted:
    """What is to be recorded, and how its game is opened."""

    plan: Plan
    opening: Callable[[], Opening]


@dataclass
class Next:
    """The game before this one, and how the next one begins: whether the start begins this one anew, and why none can be begun, as it was
    said."""

    before: Optional[Paths]
    is_anew: bool = False
    why_not: str = ""


@dataclass
class Ends:
    """How it ends: why its game is over, and whether that is just being closed; whether it ends itself, or is to end once nothing is held any
    more, and the reason if that was an error."""

    reason: Optional[Reason] = None
    is_closing: bool = False
    is_ending: bool = False
    is_put_off: bool = False
    refused: Optional[Refused] = None


@dataclass(frozen=True)
class Others:
    """The other games that are recorded at the same time: the one that is recorded from the board with this serial number; and whether it takes
    what that board has sent."""

    owner: Callable[[str], Optional[Owner]]
    takes: Callable[[str, bytes], bool]


@dataclass
class Among:
    """What it is among the boards of a round: how it is called; which have its serial number, told before it was recorded; when it was away
    last, and heard again."""

    called: str = ""
    alike: Sequence[int] = ()
    back: Optional[Return] = None


# What goes up.


class News(enum.Enum):
    """What goes up without more."""

    RESTORED = enum.auto()  # the capture was removed, and is written again
    SET_UP = enum.auto()  # the pieces were set up again after a game
    PLACED = enum.auto()  # a new text of the game is in place, or its alarms have changed
    OVER = enum.auto()  # the game is over, and its board is watched for more moves
    REOPENED = enum.auto()  # a game that was over goes on
    MISSING = enum.auto()  # its board, whose serial number is known, isn't on its cable any more


class Ended(NamedTuple):
    """The game has ended."""

    reason: Reason


class BeginsBehind(NamedTuple):
    """The game begins only now: so many bytes of the capture belong to the set-up."""

    size: int


class StartShown(NamedTuple):
    """The pieces are at the start with this byte of the capture: the next game begins."""

    offset: int


class LooksFrom(NamedTuple):
    """Another child looks for the start, from this byte of the capture on."""

    offset: int


class CameBack(NamedTuple):
    """The board, which was unplugged or silent and had been heard last then, if it was, is heard again. The recorder may have slept too."""

    heard_at: Optional[float]
    has_slept: bool


class Numbered(NamedTuple):
    """The serial number of its board has just become known. It is kept once that is taken: so it is news only once, and a kill costs no
    alarm."""

    number: str


class Asked(NamedTuple):
    """Another call asks for this, and gets the answer."""

    text: str
    answered: Callable[[Reply], None]


class Stopped(NamedTuple):
    """The recording has ended; with the reason if that was an error."""

    refused: Optional[Refused]


Up = Union[News, Ended, BeginsBehind, StartShown, LooksFrom, CameBack, Numbered, Asked, Stopped]


class Change(enum.Enum):
    """What has happened at a board, for whoever has it."""

    SHOWN = enum.auto()  # what it shows has changed
    REMADE = enum.auto()  # the text of its game has changed
    CAME_BACK = enum.auto()  # it was away, and is there again
    NUMBERED = enum.auto()  # its serial number has just become known
    MISSING = enum.auto()  # it isn't on its cable any more, and its serial number is known


@dataclass
class NotRecorded:
    """Its recording has ended, or couldn't begin, for this reason; None if its game is over. Whoever has it says whether it is tried again."""

    why: Optional[Exception]
    is_tried_again: bool = True


BoardUp = Union[Change, NotRecorded]
