"""The cable of a board: messages when it is unplugged or plugged in, when the board is silent, and when another board is on it. The
program decides when the board is asked and whose board it is. What comes of it are values, which the session takes one after the other."""

from __future__ import annotations

from dataclasses import dataclass, field
from typing import Iterator, List, NamedTuple, Optional, Set, Union

from live.board.connection import BUSY, PLUGGED, UNPLUGGED, Connection, Happened, Hears
from live.board.plan import Means, News, Numbered, Others, Plan
from live.board.state import AT_THE_CABLE, MOST_NUMBERS, Standing, another, back, changing, of_line
from live.child.lines import KEEP, NUMBER, OTHER, SILENT, UNPLUGGED as GONE_AWAY, WAITS, WAKE, Answer
from live.child.program import Program
from live.game.attending import OF_THE_LINE, Attending, Hears as HearsAnswer, Told
from live.game.kept import MEMORY
from live.game.looks import Look
from live.game.times import HEARD, OPENED, TOOK
from live.run.loop import Guard
from live.run.refused import DGT_LIVE, printable, recorded_elsewhere
from live.words.message import Message

NO_BOARD = (WAITS, GONE_AWAY)  # states that don't say whether the board answers
ANOTHER = "another"  # happens if another board is on the cable, which the game's program attends no more


class OtherBoard(NamedTuple):
    """The board with this number is on the cable, not the game's own."""

    number: str


class OwnIsBack(NamedTuple):
    """The game's own board is on the cable again, instead of the one with this number."""

    other: str


class Foreign(NamedTuple):
    """The board with this number has sent these. What its own game takes is removed from the list."""

    number: str
    sent: List[bytes]


class Gone(NamedTuple):
    """The board isn't there and isn't waited for, or another process has its line."""

    message: str
    was_there: bool


FromCable = Union[Happened, Numbered, OtherBoard, OwnIsBack, Foreign, Gone, News]


class AskedFirst:
    """A board that is asked while its game is opened: a large capture takes long to be read. What has come of it meanwhile waits here, up to a
    limit of bytes: the oldest go first. When it is asked, a child says that knows nothing of its game."""

    def __init__(self, guard: Guard, program: Program, device: str, number: str) -> None:
        self._happened: List[Happened] = []
        self._attending = Attending(guard, program, (), None, self._answered)
        self.connection = Connection(guard, program, device, self._keep)
        if number:
            self._attending.tell(NUMBER, number.encode("ascii"))
        self.connection.begin()

    def pass_on(self, hears: Hears) -> None:
        """From now on this one hears it, first what has come so far."""
        self._attending.close()
        self.connection.hears = hears
        for one in self._happened:
            hears(one)

    def _keep(self, it: Happened) -> None:
        self._happened.append(it)
        limit(self._happened)
        if it.what == HEARD or it.what in OF_THE_LINE:
            self._attending.tell(it.what, it.sent)

    def _answered(self, told: Told, answer: Answer) -> None:
        if answer.asked:
            self.connection.ask(answer.asked)


class Strangers:
    """What is said of other boards on the cable of a game. If the table says which board is where, each `is_found` by itself."""

    def __init__(self, others: Others, is_found: bool) -> None:
        self.others, self._is_found = others, is_found
        self._numbers: Set[str] = set()  # those that were on its cable and that no board has

    def told(self, said: Union[OtherBoard, OwnIsBack], cable: Cable, left: str, has_moves: bool, is_over: bool) -> List[Union[Look, str]]:
        """The alarm, or the message, in a game that has moves or not, if there is one. The board with the number `left` was left there
        before. If the game `is_over` with a result, another board is no alarm, unless that is the board of a game."""
        if isinstance(said, OwnIsBack):
            is_known = self._is_found if self.others.owner(said.other) else is_over
            is_one_of_many = len(self._numbers) > MOST_NUMBERS
            return [] if is_known or is_one_of_many else [back(cable.number, said.other)]
        owner = self.others.owner(said.number)
        if owner and (self._is_found or said.number == left):
            return [Message("cable.other_game", cable=cable.name, owner=owner.name, number=said.number)]
        if owner is None and is_over:
            return []
        self._numbers |= {said.number} if owner is None else set()
        is_changing = owner is None and len(self._numbers) > MOST_NUMBERS
        return [changing(cable.number) if is_changing else another(cable.number, said.number, owner, has_moves)]


@dataclass
class LineState:
    """How the line is: whether it is gone, since when, and whether it has been there; whether the board on it is silent."""

    is_unplugged: bool = False
    unplugged_at: float = 0.0
    was_plugged: bool = False
    is_silent: bool = False


@dataclass
class Another:
    """Another board on the cable: its number, and that of the one that was last reported, while it is there; who attends it, and knows nothing
    but the number of the game's own; what has come, while nobody knows whose it is; what it has sent and no game has taken."""

    number: str = ""
    told: str = ""
    attending: Optional[Attending] = None
    unsure: List[bytes] = field(default_factory=list)
    foreign: List[bytes] = field(default_factory=list)


class Cable:
    """The state of a board's line. If it listens `once`, a board that goes away isn't waited for. What a board with another number
    sends is lent to the game that has this board; if there is none, it is kept back."""

    def __init__(
        self, means: Means, program: Program, plan: Plan, number: str, connection: Connection, hears_another: HearsAnswer
    ) -> None:
        self._means, self._program, self._hears_another = means, program, hears_another
        self._device, self._once, self._connection = plan.device, plan.once, connection
        self.number = number  # of the game's board; empty if unknown
        self._line, self.another = LineState(), Another()

    @property
    def name(self) -> str:
        """The name under which the device is opened again."""
        return self._connection.cable

    @property
    def lacks(self) -> str:
        """The serial number of the game's board, if that isn't on this cable; else empty."""
        return self.number if self._line.is_unplugged or self.another.number else ""

    @property
    def holds(self) -> str:
        """The device that is open, if it is."""
        return "" if self._line.is_unplugged else self.name

    def move_to(self, device: str) -> None:
        """The game's board is on this device."""
        self._means.screen.say(Message("cable.recorded_there", number=self.number, device=device))
        self._device = device
        self._connection.move_to(device)

    def last_words(self) -> None:
        """Takes what has come so far, and closes the line."""
        self._connection.last_words()

    def tell(self, standing: Standing) -> None:
        """Reports the line's state to a new listener."""
        if self._line.is_unplugged:
            standing.unplugged(self._line.unplugged_at, self._connection.is_server, self._how_it_is_there())
        if self._line.is_silent:
            standing.was_away = True

    # What the line does.

    def happens(self, it: Happened, standing: Optional[Standing]) -> Iterator[FromCable]:
        """This happens on the line, of a board that stands so."""
        if it.what == HEARD:
            if self.another.attending:
                self.another.attending.tell(HEARD, it.sent)
            else:
                yield it
        elif it.what == PLUGGED:
            self._is_plugged(standing)
        elif it.what == UNPLUGGED:
            yield from self._is_unplugged(standing)
        elif it.what == BUSY:
            yield Gone(recorded_elsewhere(self._device), False)
        else:
            if it.what in OF_THE_LINE:
                self._leave_another()
            yield it

    # What the program answers.

    def answered(self, told: Told, answer: Answer, standing: Optional[Standing]) -> Iterator[FromCable]:
        """Asks the board what the program says, and does as it says with what the board has sent."""
        is_doubtful = told.what == HEARD and answer.handling != KEEP
        if self.another.attending:  # it was told this before
            if is_doubtful and self.another.number:
                yield self._is_foreign([told.sent])
            elif is_doubtful:  # nobody knows yet which board this is
                keep(self.another.unsure, told.sent)
            return
        self._asks(answer, standing)
        if told.what == OPENED:
            self.another.unsure.clear()
        elif is_doubtful:
            keep(self.another.unsure, told.sent)
        if answer.number and not self.number:
            yield self._is_own(answer.number)
        if answer.handling == OTHER and answer.other != self.number:  # else it was taken meanwhile
            yield from self._attend_another()
            yield from self._is_other(answer.other)
        elif answer.handling == KEEP:
            self.another.unsure.clear()
            if answer.kept and self.another.told:  # the game gets what the board on the cable sends
                before, self.another.told = self.another.told, ""
                self.another.foreign.clear()
                yield OwnIsBack(before)

    def of_another(self, told: Told, answer: Answer, standing: Optional[Standing]) -> Iterator[FromCable]:
        """The same for another board, or perhaps the game's own again."""
        self._asks(answer, standing)
        if told.what == HEARD:
            keep(self.another.unsure, told.sent)
        elif told.what != WAKE:
            return  # its line isn't open yet
        if answer.handling == OTHER:
            yield from self._is_other(answer.other)
        elif answer.handling == KEEP:
            yield from self._goes_on()

    def _asks(self, answer: Answer, standing: Optional[Standing]) -> None:
        if answer.asked:
            self._connection.ask(answer.asked)
        if answer.stood:
            is_silent = answer.stood.kind == SILENT
            if is_silent != self._line.is_silent and answer.stood.kind not in NO_BOARD:
                self._silence(is_silent, standing)

    def plays_elsewhere(self) -> Iterator[FromCable]:
        """The game's board is on another cable: what is on this one isn't known."""
        if self.another.attending is None and not self._line.is_unplugged:
            yield from self._attend_another()

    def _attend_another(self) -> Iterator[FromCable]:
        """The game's own board may come over another cable, so another child attends this one."""
        yield Happened(ANOTHER)
        self.another.attending = Attending(self._means.guard, self._program, (), None, self._hears_another)
        self.another.attending.tell(NUMBER, self.number.encode("ascii"))
        self.another.attending.tell(OPENED)

    def _is_other(self, number: str) -> Iterator[FromCable]:
        """The board with this number is on the cable, and has sent what nobody knew the sender of."""
        self.another.number = number
        if number != self.another.told:
            self.another.told = number
            self.another.foreign.clear()
            yield OtherBoard(number)
            yield News.MISSING
        unsure, self.another.unsure = self.another.unsure, []
        yield self._is_foreign(unsure)

    def _is_foreign(self, sent: List[bytes]) -> Foreign:
        """The other board has sent this. What no game takes is kept back."""
        for one in sent:
            keep(self.another.foreign, one)
        return Foreign(self.another.number, self.another.foreign)

    def _leave_another(self) -> None:
        """The other board isn't attended any more."""
        attending, self.another.attending, self.another.number = self.another.attending, None, ""
        if attending:
            attending.close()

    def _goes_on(self) -> Iterator[FromCable]:
        """The program that attends the game hears the cable again: its own board is there, or a third one."""
        self._leave_another()
        unsure, self.another.unsure = self.another.unsure, []
        yield Happened(OPENED)
        if unsure:
            yield Happened(HEARD, b"".join(unsure))

    def _is_own(self, number: str) -> Numbered:
        """From now on the board with this number is the game's."""
        self.number = number
        return Numbered(number)

    def take(self) -> Iterator[FromCable]:
        """From now on the board on the cable is the game's, with all that it has sent."""
        if self.another.number:
            yield self._is_own(self.another.number)
            self.another.told = ""
            yield Happened(TOOK)
            self.another.unsure = [*self.another.foreign, *self.another.unsure]
            self.another.foreign = []
            yield from self._goes_on()

    # How it is.

    def _is_plugged(self, standing: Optional[Standing]) -> None:
        """The line is open."""
        if self._line.is_unplugged:
            self._means.screen.say(Message("cable.is_there", name=self.name))
        elif self.name != self._device:
            self._means.screen.say(Message("cable.waits_for", device=self._device, name=self.name))
        self._line.is_unplugged, self._line.was_plugged = False, True
        if standing:
            standing.plugged()

    def _is_unplugged(self, standing: Optional[Standing]) -> Iterator[FromCable]:
        """The line has gone away, or wasn't there."""
        self._line.is_unplugged, self._line.is_silent, self._line.unplugged_at = True, False, self._means.guard.now()
        self.another.unsure.clear()
        if not self._once and standing and self.name:  # a game that is over ends without it; one that isn't played needs none
            self._means.screen.cable(isnt_there(self.name, self._connection.why, self._how_it_is_there()))
        if standing:
            standing.unplugged(self._line.unplugged_at, self._connection.is_server, self._how_it_is_there())
        if self.number:
            yield News.MISSING
        if self._once:
            yield Gone(self._gone_for_good(), self._line.was_plugged)

    def _how_it_is_there(self) -> str:
        """What to do so that it is there again."""
        screen, is_server = self._means.screen, bool(self._connection.why)
        return of_line(is_server, "" if self._line.was_plugged else screen.other_address() if is_server else screen.other_device())

    def _gone_for_good(self) -> str:
        """Why it isn't there, if it isn't waited for; and what to do if it never was."""
        why = printable(self._connection.why)
        if self._line.was_plugged:
            return Message("cable.gone_why", device=self._device, why=why) if why else Message("cable.gone", device=self._device)
        looks = Message("cable.look_at_the_server") if why else Message("cable.plug_in", dgt_live=DGT_LIVE)
        return isnt_there(self._device, why, looks)

    def _silence(self, silent: bool, standing: Optional[Standing]) -> None:
        """The board sends no dumps, or sends them again."""
        self._line.is_silent = silent
        self._connection.silence(silent)
        if silent:
            self._means.screen.cable(Message("cable.no_answer", name=self.name, advice=AT_THE_CABLE))
        else:
            self._means.screen.say(Message("cable.answers_again", name=self.name))
        if standing:
            standing.silence(silent)


def isnt_there(name: str, why: str, advice: str) -> str:
    """The message that a line isn't there: why, if that is known, and what to do."""
    if why:
        return Message("cable.isnt_there_why", name=name, why=printable(why), advice=advice)
    return Message("cable.isnt_there", name=name, advice=advice)


def keep(kept: List[bytes], sent: bytes) -> None:
    """Keeps this, and drops the oldest bytes beyond the limit."""
    kept.append(sent)
    size = sum(map(len, kept))
    while size > MEMORY:
        size -= len(kept.pop(0))


def limit(happened: List[Happened]) -> None:
    """Drops the oldest bytes beyond the limit."""
    size = sum(len(one.sent) for one in happened)
    while size > MEMORY:
        oldest = next(at for at, one in enumerate(happened) if one.sent)
        size -= len(happened.pop(oldest).sent)
