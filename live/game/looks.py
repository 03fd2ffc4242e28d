"""What somebody must look at in a game: alarms that stay until they are acknowledged, whatever the board shows; what the program finds
doubtful, in words; what comes of a board whose game is over; and how that is kept beside the game, in NAME.look, so a restart loses none."""

from __future__ import annotations

import contextlib
import os
from dataclasses import dataclass
from typing import Container, Dict, Iterable, List, Optional, Sequence, Tuple

from live.child.lines import AFTER, SINCE, UNPLAYED, Doubt, Event, Move
from live.game.files import Paths, existing, put_in_place, remove
from live.words.message import Message, linked, plural

AFTER_RESULT = Message("look.after_result")
AT_THE_GAME = Message("look.at_the_game")
OVER = "over"  # what an alarm about moves after a result is about


@dataclass(frozen=True)
class Look:
    """An alarm. A row has room for `LOOK` and `what`: `at 4... Qg4+`. A new alarm about the same thing replaces it."""

    what: str
    why: str
    about: str = ""

    @property
    def short(self) -> str:
        """`LOOK at 4... Qg4+`."""
        return Message("look.short", what=self.what)

    @property
    def text(self) -> str:
        """In full."""
        return linked("colon", (self.short, self.why))

    def counts_on(self, before: Look) -> bool:
        """Whether it only counts more moves after a result than the one before."""
        return self.about == before.about == OVER and self.what == before.what

    def is_about(self, settled: Container[str]) -> bool:
        """Whether it is about one of these. Moves after a result are settled if the last ply before it is: then it is gone too."""
        return self.what in settled or (self.about == OVER and self.what.replace("after ", "at ", 1) in settled)


@dataclass(frozen=True)
class Looks:
    """The alarms of a game that nobody has acknowledged, the newest last."""

    open: Tuple[Look, ...] = ()

    def with_one_more(self, look: Look) -> "Looks":
        """With one more."""
        same = [one for one in self.open if one.what == look.what or (look.about and one.about == look.about)]
        return Looks((*(one for one in self.open if one not in same), look))

    def without(self, settled: Container[str]) -> "Looks":
        """Without those about something that is settled."""
        return Looks(tuple(look for look in self.open if not look.is_about(settled)))

    @property
    def short(self) -> str:
        """The first one in a few words, and how many more there are; empty if there is none."""
        if not self.open:
            return ""
        more = len(self.open) - 1
        return Message("look.and_more", look=self.open[0].short, count=more) if more else self.open[0].short

    @property
    def all(self) -> str:
        """All of them in full."""
        return linked("semicolon", (look.text for look in self.open))

    def content(self) -> bytes:
        """The text that is kept beside the game: a line for each."""
        return "".join("\t".join((look.what, look.why, look.about)) + "\n" for look in self.open).encode("utf-8", "replace")

    @staticmethod
    def of_content(content: bytes) -> "Looks":
        """What was kept. A line that can't be read counts as an alarm."""
        return Looks(tuple(_read(content.decode("utf-8", "replace").splitlines())))


def _read(lines: Iterable[str]) -> List[Look]:
    looks: List[Look] = []
    for line in lines:
        parts = line.split("\t")
        if len(parts) == 3:
            looks.append(Look(*parts))
        elif line.strip():
            looks.append(Look(AT_THE_GAME, line.strip()))
    return looks


WHY = {
    "LATE": Message("doubt.late"),
    "ELSEWHERE": Message("doubt.elsewhere"),
    "BOTH-ELSEWHERE": Message("doubt.both_elsewhere"),
    "AFTER-GAP": Message("doubt.after_gap"),
    "TAKEN-BACK": Message("doubt.taken_back"),
    "UNPRESSED": Message("doubt.unpressed"),
    "MOVED-ON": Message("doubt.moved_on"),
    "RETURNED": Message("doubt.returned"),
    "OTHER-TIME": Message("doubt.other_time"),
}
ABOUT_CLOCK, ABOUT_RESULT = "clock", "result"
THE_START = Message("ply.the_start")  # in the place of a ply
UNKNOWN = Message("doubt.unknown")  # for a word of a newer program


def byte_of(doubt: Doubt, ends: Sequence[int]) -> int:
    """The byte of the capture with which the ply came that it is about, by those that gave the plies; 0 if that isn't known. Moves that
    were made `since` a ply begin with the next one."""
    ply = doubt.plies if doubt.where == SINCE else doubt.plies - 1
    return ends[ply] if 0 <= ply < len(ends) else 0


def name_of(number: int, plies: Sequence[Move]) -> str:
    """How the ply with this number is called, in a game that has these; 0 is the start."""
    if not number:
        return THE_START
    return plies[number - 1].short if number <= len(plies) else Message("ply.number", number=number)


def look_of(doubt: Doubt, plies: Sequence[Move]) -> Look:
    """What somebody must look at, in a game that has these plies. A ply that isn't known is named by its number."""
    name = name_of(doubt.plies, plies)
    if doubt.where == SINCE and doubt.why == UNPLAYED:
        return Look(Message("look.since", ply=name), plural("doubt.unplayed", doubt.moves), f"{ABOUT_RESULT} {name}")
    if doubt.where == SINCE:
        return Look(Message("look.since", ply=name), plural("doubt.clock_stopped", doubt.moves), f"{ABOUT_CLOCK} {name}")
    what = Message("look.after", ply=name) if doubt.where == AFTER else Message("look.at", ply=name)
    return Look(what, WHY.get(doubt.why, UNKNOWN))


SURE = 2  # moves: one alone may be a piece that somebody sets straight


def over(result: str) -> str:
    """The message that a game is over, with this result or without one."""
    return Message("over.without_result") if result == "*" else Message("over.with_result", result=result)


def went_on(after: str, moves: int, result: str) -> Look:
    """The program says that so many moves were made after a game with this last move and this result."""
    return Look(Message("look.after", ply=after), Message("look.moves_after_result", count=moves, over=over(result)), OVER)


def corrected(ply: str) -> Look:
    """This ply corrects the last one of a game after its result, with which the game is over."""
    return Look(Message("look.at", ply=ply), AFTER_RESULT)


def unheard(ply: str) -> Look:
    """The board wasn't heard until the result had stood, with which the game is over. This is its last ply."""
    return Look(Message("look.after", ply=ply), Message("look.unheard_after_result"))


def is_read_anew(stood: str, start: str, plies: int) -> bool:
    """Whether what a board shows behind the end of its game is read by itself, since it stood at the start last before that: then the
    next dump begins the next game. A game without a move was forfeited, and the start is its own."""
    return plies > 0 and stood == start


def is_set_up(shown: str, start: str, plies: int) -> bool:
    """Whether a board whose game is over, with so many plies, was set up for another one: it shows the start. A game without a move stands
    at the start itself. There a piece was only set straight, and moves from there may be that game's."""
    return plies > 0 and shown == start


def next_begins(pictures: Sequence[Tuple[int, str]], end: int, start: str) -> Optional[int]:
    """The byte with which the next game begins, of these pictures with their offsets: the first start from the end on; None if there is
    none."""
    return next((offset for offset, placement in pictures if offset >= end and placement == start), None)


@dataclass
class FromTheStart:
    """Takes the reported events of a board whose game is over, and that stands at the start. If the game has moves, it is over without a
    result, since its pieces were set up: perhaps somebody tried some moves before the game, and it begins only now. If it has none, the
    players may be late, or its result was meant for another board."""

    after: str  # the last move of the game, as `38. Kf2`
    result: str
    count: int = 0

    def take(self, event: Event) -> Optional[Look]:
        """Takes the next event. Returns an alarm, if any."""
        if not isinstance(event, Move):
            return None
        self.count += not event.corrects
        if self.count < SURE:
            return None
        why = Message("look.moves_from_the_start", count=self.count, over=over(self.result))
        return Look(Message("look.after", ply=self.after), why, OVER)


def kept_looks(paths: Paths) -> Looks:
    """The alarms that were kept beside a game. If they can't be read, that is an alarm."""
    try:
        return Looks.of_content(existing(paths.look))
    except OSError:
        return Looks((Look(AT_THE_GAME, Message("look.unreadable", path=paths.look)),))


def keep_looks(paths: Paths, looks: Looks) -> None:
    """Keeps them. Raises OSError if they can't be written."""
    if looks.open:
        put_in_place(paths.look, looks.content())
    else:
        remove(paths.look)


def keep_one_more(paths: Paths, look: Look) -> None:
    """Keeps one more, if that can be written."""
    with contextlib.suppress(OSError):
        keep_looks(paths, kept_looks(paths).with_one_more(look))


def acknowledged(seen: str) -> str:
    """The answer to an acknowledgement."""
    return Message("look.acknowledged", seen=seen) if seen else Message("look.none")


def acknowledge(paths: Paths) -> str:
    """Acknowledges the alarms of a game that nobody records now. Returns the answer. Raises OSError if that can't be kept."""
    seen = kept_looks(paths).all
    keep_looks(paths, Looks())
    return acknowledged(seen)


def carry_over(before: Paths, looks: Looks, paths: Paths) -> None:
    """Carries the open alarms of a game over to the next one of a series. Raises OSError if they can't be kept."""
    if looks.open:
        keep_looks(paths, Looks((Look(Message("look.at", ply=os.path.basename(before.name)), looks.all),)))


class Alarms:
    """The open alarms of a game, and since when each is there."""

    def __init__(self, paths: Paths) -> None:
        self._paths = paths
        self.looks = kept_looks(paths)
        self._since: Dict[str, int] = {}  # with which byte of the capture the ply came that each alarm of this call is about
        self.trouble: Optional[OSError] = None  # why they can't be kept

    def add(self, look: Look, byte: int = 0) -> bool:
        """Somebody must look at this. It is about a ply that came with this byte of the capture, if about any. Returns whether it is new."""
        if look in self.looks.open:
            return False
        self._since[look.what] = byte
        self.looks = self.looks.with_one_more(look)
        self.keep()
        return True

    def end(self, size: int) -> None:
        """The game has this many bytes. The plies that came after them were setting up, and nobody need look at them."""
        left = Looks(tuple(look for look in self.looks.open if self._since.get(look.what, 0) < size))
        if left != self.looks:
            self.looks = left
            self.keep()

    def acknowledge(self) -> str:
        """Somebody has looked. Returns at what."""
        seen, self.looks = self.looks.all, Looks()
        self.keep()
        return seen

    def keep(self) -> None:
        """Keeps the open alarms beside the game. If that fails, it is tried again later."""
        self.trouble = None
        try:
            keep_looks(self._paths, self.looks)
        except OSError as error:
            self.trouble = error
