"""What `live` says through whole evenings, beside what rules in Python say, which the recorders had before: when the board is asked and
what, what is done with what it sends, and what is read of it.

A call that follows another one is left out of the last: the recorders know nothing of the times before a call. The decisions in Python
take seconds, in which sums fall short of what they stand for; so their clock is a little ahead, each time a little more.
"""

import dataclasses
from typing import List, Optional, Tuple

from attending.answers import Answer, Entry
from attending.asking_rules import START_REQUEST, Asking
from attending.emulated_evenings import emulated_evening
from attending.evenings import Evening, played
from attending.happenings import evening, moved_about
from attending.reading import Read, in_order
from attending.state_rules import BoardState
from attending.whose_rules import Whose
from decided.table import same
from live.board.state import OTHER_BOARD
from live.child.lines import event_of
from live.line.protocol import picture_of_placement

EVENINGS, ELSEWHERE, EMULATED = 60, 12, 8
AHEAD = 1e-8  # seconds


def seconds(entry: Entry, number: int) -> float:
    """When an entry is told, which has this number in its evening."""
    return entry.at / 1000 + AHEAD * (number + 1)


class Line:
    """What the rules say of a line."""

    def __init__(self) -> None:
        self._asking, self._whose = Asking(), Whose()

    def after(self, now: float, entry: Entry) -> Tuple[str, str]:
        """What is sent after this has happened, and what is done with what the board has sent."""
        if entry.word == "begin":
            self._asking, self._whose = Asking(has_number=bool(self._whose.own)), Whose(self._whose.own)
        elif entry.word == "opened":
            self._asking.connected(now)
            self._whose.connected(now)
        elif entry.word == "answered":
            self._whose.connected(now)
        elif entry.word in ("gone", "called"):
            self._asking.disconnected()
        elif entry.word in ("added", "brought", "stopped"):
            self._asking.added(entry.sent)
        elif entry.word == "heard":
            self._hears(now, entry.sent)
        elif entry.word == "took" and self._whose.shown:
            self._whose.said(self._whose.shown)
        handling = "hold" if self._whose.is_unsure(now) else "other" if self._whose.is_other else "keep"
        request = self._asking.request(now)
        if START_REQUEST in request:
            self._whose.asked(now)
        return request.decode(), handling

    @property
    def is_own(self) -> bool:
        """Whether the game's own board is surely on the line."""
        return self._whose.is_own

    def _hears(self, now: float, sent: bytes) -> None:
        came = self._asking.came(now, sent)
        if came.dumped:
            self._whose.dumped()
        if came.serial:
            self._whose.told(came.serial)
            self._whose.own = self._whose.own or came.serial
            self._asking.has_number = True


def asked_otherwise(lived: Evening) -> List[str]:
    """Where the board is asked otherwise, or something else is done with what it has sent."""
    line, wrong = Line(), []
    for number, (entry, answer) in enumerate(lived.told):
        asked, handling = line.after(seconds(entry, number), entry)
        if asked != answer.asked:
            wrong.append(f"at {entry.at} {entry.word}: {answer.asked or 'nothing'} is asked, and {asked or 'nothing'} there")
        if entry.word == "heard" and handling != answer.handling:
            wrong.append(f"at {entry.at} {entry.word}: {answer.handling}, and {handling} there")
    return wrong


@dataclasses.dataclass
class Stands:
    """What the rules make of it; whether the board is silent is what the recorder has said."""

    board: BoardState
    is_silent: bool = False
    line: Line = dataclasses.field(default_factory=Line)

    def after(self, now: float, entry: Entry, answer: Answer) -> str:
        """What is read after this."""
        if entry.word == "opened":
            self.board.plugged()
        elif entry.word == "gone":
            self.board.unplugged(now)
        for line in answer.report:
            _, _, words = line.partition(" ")
            if words.startswith("picture "):
                self.board.shows(picture_of_placement(words.split()[1]))
            self.board.told(now, event_of(words))
        was_silent, self.is_silent = self.is_silent, answer.state.kind == "SILENT" if answer.state else self.is_silent
        if was_silent or self.is_silent:
            self.board.silent(now, self.is_silent)
        self.line.after(now, entry)
        state = self.board.state(now)
        if self.line.is_own and state.hint == OTHER_BOARD:
            state = state._replace(hint="")
        return in_order(state.text(now))


def read_otherwise(lived: Evening) -> List[str]:
    """Where something else is read of the board, in the first call."""
    stands, read, wrong = Stands(BoardState(tuple(played()[0]))), Read(), []
    second: Optional[int] = next((at for at, (entry, _) in enumerate(lived.told) if at and entry.word == "begin"), None)
    for number, (entry, answer) in enumerate(lived.told[:second]):
        read = read.after(entry.at, answer)
        seen, there = in_order(read.text(entry.at + 1e-3)), stands.after(seconds(entry, number), entry, answer)
        if seen != there:
            wrong.append(f"at {entry.at} {entry.word}: {seen!r}, and {there!r} there")
    return wrong


def evenings() -> List[Evening]:
    return [*map(evening, range(EVENINGS)), *map(moved_about, range(ELSEWHERE)), *map(emulated_evening, range(EMULATED))]


def asked_alike() -> None:
    for lived in evenings():
        same(f"{lived.name}: {len(lived.told)} times", asked_otherwise(lived)[:3], [])


def read_alike() -> None:
    for lived in evenings():
        same(f"{lived.name}: {len(lived.told)} times", read_otherwise(lived)[:3], [])


TABLES = [asked_alike, read_alike]
