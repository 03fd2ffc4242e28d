"""The state of a board, as an arbiter reads it: in words; and how it is shown whenever it changes. The program says how a board stands, and
since when; the recorder adds what only it knows. And what an arbiter does about it: one text for each kind of trouble, for the terminal and
for his page. Followed word for word it costs no right move. So for another board on the cable of a game, for two that may have been exchanged
though no square shows it, and for boards with one number.

- `agrees`: the board shows the game's position. `result 1-0`: it has shown the result, wherever the pieces are put afterwards.
- `in hand g1 f3`: a few squares differ, each for no longer than a hand takes. `WRONG since 40 s: e2 d5`: these have differed for longer.
  It may ask: `WRONG: e5 g1 f3; was 1... e5 2. Nf3 played? If so, type y`.
- `setting up`: more squares differ than hands change in a move, and pieces are still moved or no move has been played. When few
  are left, they are `WRONG` once nothing has moved for so long. A game that hasn't agreed for a time is `WRONG`, whatever moves.
- `NO START`: pieces are moved, but the board has never shown the start, and hasn't come nearer to it for a time.
- `agrees; clock stopped`, and so with a hand and with `WRONG`: both sides have stopped a clock that ran.
- `LOOK at 4... Qg4+`, before or after any other: somebody must look at that and acknowledge it.
- `waits for the board`: it has shown nothing yet. If a game goes on, what the board showed before this call doesn't count.
- `SILENT`, `UNPLUGGED`: the board no longer answers, or its line is gone, whatever it showed before.
- `DISK FULL`, `NOT WRITTEN`: shown with any other.
"""

from __future__ import annotations

import enum
import math
from dataclasses import dataclass
from typing import Callable, Dict, List, Mapping, NamedTuple, Optional, Sequence, Tuple

from live.child.lines import UNSEEN, Stood
from live.game.log import Screen
from live.game.looks import ABOUT_CLOCK, ABOUT_RESULT, AFTER_RESULT, OVER, THE_START, WHY, Look, over
from live.game.typed import NO_PLIES, NO_RESULT
from live.line.protocol import differing, picture_of_placement
from live.run.loop import Turns
from live.run.refused import BACK, INSTEAD, OK, RECOVERS, REOPENS, YES, NotDone
from live.words.message import Message, has, is_of, linked, plural

MOST_LISTED = 8
NOTHING_ASKED, JUST_ASKED, ASKED_ANEW = Message("typed.nothing_asked"), Message("typed.just_asked"), Message("typed.asked_anew")
READ = 1.0  # seconds in which nobody can have read a question and answered it
TURNED_ROUND = Message("state.turned_round")
OTHER_BOARD = Message("state.other_board")
CLOCK_STOPPED = Message("state.clock_stopped")
DISK_FULL, NOT_WRITTEN = Message("state.disk_full"), Message("state.not_written")  # there is no room, or another reason


def trouble_of(full: bool) -> str:
    """What keeps a file from being written, as the state names it: the disk is `full`, or there is another reason."""
    return DISK_FULL if full else NOT_WRITTEN


def mend_of(full: bool) -> str:
    """What to do about it."""
    return Message("disk.make_room") if full else Message("disk.put_right")


class Kind(enum.Enum):
    """What an arbiter reads first."""

    WAITS = Message("state.waits")
    AGREES = Message("state.agrees")
    RESULT = Message("state.result")
    IN_HAND = Message("state.in_hand")
    WRONG = Message("state.wrong")
    NO_START = Message("state.no_start")
    SETTING_UP = Message("state.setting_up")
    SILENT = Message("state.silent")
    UNPLUGGED = Message("state.unplugged")

    @staticmethod
    def of(word: str) -> Kind:
        """The kind that the program calls so."""
        return Kind[word.replace("-", "_")]


ALARMS = (Kind.WRONG, Kind.NO_START, Kind.SILENT, Kind.UNPLUGGED)
WITH_CLOCK = (Kind.AGREES, Kind.IN_HAND, Kind.WRONG)  # states in which a stopped clock is news


class State(NamedTuple):
    """The state at a moment."""

    kind: Kind
    since: float
    squares: Tuple[str, ...] = ()
    result: str = ""
    hint: str = ""
    disk: str = ""  # what keeps something from being written
    look: str = ""  # what somebody must look at
    line: str = ""  # what to do so that its line is there again
    clock_stopped: bool = False  # whether both sides have stopped a clock that ran
    fits: str = ""  # what is typed for the change of the game that alone explains the board
    asks: str = ""  # the question whether it was played so

    @property
    def is_alarm(self) -> bool:
        """Whether somebody must go to the board, or to the disk."""
        return bool(self.disk or self.hint or self.look) or self.kind in ALARMS

    @property
    def differing(self) -> Tuple[str, ...]:
        """The squares that a page marks."""
        return self.squares if self.kind in (Kind.WRONG, Kind.NO_START, Kind.IN_HAND) else ()

    @property
    def clock(self) -> str:
        """What is said of its clock; empty if nothing is."""
        return CLOCK_STOPPED if self.clock_stopped and self.kind in WITH_CLOCK and not self._is_turned else ""

    @property
    def _is_turned(self) -> bool:
        """Whether its hint leaves no room for more."""
        return bool(self.hint) and has(self.hint, "state.turned_round")

    @property
    def news(self) -> Tuple[object, ...]:
        """The part of a state whose change is reported by a line. A state that only lasts isn't reported again."""
        return (self.kind, self.result, self.hint, self.disk, self.look, self.clock, self.squares if self.kind is Kind.WRONG else (), self.fits)

    def parts(self, most_listed: int = MOST_LISTED) -> Tuple[str, str]:
        """The words of the state before and after its duration. More than `most_listed` squares are only counted."""
        words = " ".join(self.squares) if len(self.squares) <= most_listed else Message("state.squares", count=len(self.squares))
        front: str = self.kind.value
        rest = ""
        if self.kind is Kind.RESULT:
            front = linked("space", (front, self.result))
        elif words:
            rest = linked("space" if self.kind is Kind.IN_HAND else "colon", ("", words))
        if self._is_turned:
            front, rest = self.hint, ""  # it says why the board is being set up
        elif self.hint:
            rest = linked("semicolon", (rest, self.hint))
        if self.look and (self.kind in ALARMS or self.hint):
            rest = linked("semicolon", (rest, self.look))
        elif self.look:
            front, rest = self.look, linked("semicolon", ("", linked("nothing", (front, rest))))
        if self.clock:
            rest = linked("semicolon", (rest, self.clock))
        if self.asks:
            rest = linked("semicolon", (rest, self.asks))
        return (linked("comma", (self.disk, front)) if self.disk else front), rest

    def text(self, now: float, most_listed: int = MOST_LISTED) -> str:
        """The state in a line."""
        front, rest = self.parts(most_listed)
        if self.kind in ALARMS and now >= self.since + 1:
            front = Message("state.since", state=front, time=lasting(now - self.since))
        return linked("nothing", (front, rest))


def asked_of(fits: str, yes: str) -> str:
    """The question whether it was played so: moves, or others instead, or the last ones were taken back. `yes` is typed if it was."""
    word, _, rest = fits.partition(" ")
    if word == BACK:
        asked = Message("state.taken_back", last=rest) if rest != NO_PLIES else Message("state.taken_back_to_the_start")
    elif word == RECOVERS:
        asked = Message("state.missed", moves=rest)
    else:
        asked = Message("state.played_instead", moves=rest) if word == INSTEAD else Message("state.played", moves=fits)
    return Message("state.if_so", question=asked, yes=yes)


def lasting(seconds: float) -> str:
    """A duration in words: `40 s`, `3 min`, `2 h 05 min`."""
    whole = max(0, math.floor(seconds))
    if whole < 120:
        return Message("time.seconds", seconds=whole)
    if whole < 7200:
        return Message("time.minutes", minutes=whole // 60)
    return Message("time.hours", hours=whole // 3600, minutes=f"{whole // 60 % 60:02}")


@dataclass
class BoardState:
    """What is known of a board."""

    turned_hint: str = TURNED_ROUND
    yes: str = YES  # how somebody types that it was so
    look: str = ""  # what somebody must look at
    disk: str = ""  # what keeps something from being written
    result: str = ""  # that the board has shown
    differs: Tuple[str, ...] = ()  # the squares that the report has named last
    unplugged_since: Optional[float] = None  # a serial server may be there without a board
    line: str = ""  # what to do so that its line is there again
    clock_stopped: bool = False  # whether both sides have stopped a clock that ran
    hidden: str = ""  # what is typed for two plies that no picture showed, if some are found
    has_gone_back: bool = False  # whether it shows a position from more than two plies ago: then more than one change explains it
    _stood: Stood = Stood("WAITS")
    _since: float = 0.0

    def asks_nothing(self) -> None:
        """Nothing is asked until the program says it."""
        self.hidden, self._stood = "", self._stood._replace(fits="")

    def stands(self, now: float, stood: Stood) -> None:
        """The program has said this."""
        self._stood, self._since = stood, now - (stood.lasted or 0) / 1000

    @property
    def is_explained(self) -> bool:
        """Whether a change of the game alone explains what the board shows."""
        return bool(self._stood.fits)

    @property
    def is_seen(self) -> bool:
        """Whether the board has shown its pieces since it was last away."""
        return self._stood.kind not in UNSEEN

    @property
    def state(self) -> State:
        """The state now."""
        if self.unplugged_since is not None:
            return State(Kind.UNPLUGGED, self.unplugged_since, disk=self.disk, look=self.look, line=self.line)
        stood, kind = self._stood, Kind.of(self._stood.kind)
        squares = self.differs if kind is Kind.IN_HAND else stood.squares
        hint = {"": "", "TURNED-ROUND": self.turned_hint, "OTHER-BOARD": OTHER_BOARD}[stood.hint]
        result = self.result if kind is Kind.RESULT else ""
        fits = "" if self.has_gone_back else stood.fits or self.hidden
        asks = asked_of(fits, self.yes) if fits else ""
        return State(kind, self._since, squares, result, hint, self.disk, self.look, self.line, self.clock_stopped, fits, asks)


@dataclass(frozen=True)
class Question:
    """What is asked about, as it is typed; when; and what the board showed then."""

    fits: str = ""
    at: float = 0.0
    shows: str = ""


IN_A_SET_UP = (Kind.WAITS, Kind.AGREES, Kind.IN_HAND)  # states that say nothing while no game is played


class Standing:
    """Keeps a board's state, and shows it on a screen. If no game is `played`, pieces are being set up. A board that `has_shown` its pieces
    stands as it did `before`, or nobody knows how, until the program says it."""

    def __init__(
        self, loop: Turns, screen: Screen, rotated: bool, played: bool = True, has_shown: bool = False, before: Optional[Standing] = None
    ) -> None:
        self._loop, self._screen, self.is_played = loop, screen, played
        self.board: BoardState = before.board if before else BoardState(linked("space", (TURNED_ROUND, screen.turn(rotated))), screen.typed(YES))
        self._is_unknown = has_shown and before is None
        self.was_away = False  # unplugged or silent since it was last heard
        self._hint = ""
        self.shows = ""  # the picture that the report has named last
        self._question = Question()  # that was asked last
        self.board.asks_nothing()  # what was asked was asked about another capture
        self._closed = False

    @property
    def state(self) -> Optional[State]:
        """The board's state, if it is known."""
        return None if self._is_unknown else self.board.state

    @property
    def trouble(self) -> str:
        """What keeps something from being written, if anything does."""
        return self.board.disk

    def show(self) -> None:
        """Shows the state. Call this after each change."""
        if self._closed or self._is_unknown:
            return
        state = self.board.state
        if not self.is_played and state.kind in IN_A_SET_UP:
            state = state._replace(kind=Kind.SETTING_UP, squares=())
        news = state.news
        self._screen.state(state.text(self._loop.now()), news)
        if state.hint and state.hint != self._hint:
            self._screen.hint(state.hint)
        self._hint = state.hint
        if state.fits != self._question.fits:
            self._question = Question(state.fits, self._loop.now(), self.shows)
            if state.asks:
                self._screen.asks(state.asks)

    def accepts(self) -> str:
        """What somebody accepts by `y`, as it is typed: the change that was last asked about. Refused if nothing is asked; if nobody can have
        read the question; or if the board shows something else by now. But a game goes on behind plies that no picture showed."""
        question = self._question
        self.show()
        if not self._question.fits:
            raise NotDone(NOTHING_ASKED)
        if question != self._question or self._loop.now() < question.at + READ:
            raise NotDone(JUST_ASKED)
        if self.shows != question.shows and not question.fits.startswith(RECOVERS):
            raise NotDone(ASKED_ANEW)
        return question.fits

    @property
    def is_explained(self) -> bool:
        """Whether a change of the game alone explains what the board shows."""
        return self.board.is_explained

    def finds(self, hidden: str) -> None:
        """Asks about plies that no picture showed, given as they are typed; empty if there are none."""
        if hidden != self.board.hidden:
            self.board.hidden = hidden
            self.show()

    def lasts(self) -> None:
        """Call this each second: a terminal shows how long it has lasted."""
        if self._screen.shows_time:
            self.show()

    def stands(self, at: float, stood: Stood) -> None:
        """The program says that the board stood so at that time. This is shown with the rest of its answer."""
        self._is_unknown = False
        self.board.stands(at, stood if self.is_played else stood._replace(fits=""))

    def clock(self, stopped: bool) -> bool:
        """The program says that both sides have `stopped` the clock, or that it isn't stopped. Returns whether that is news, which is shown
        with the rest of its answer."""
        before, self.board.clock_stopped = self.board.clock_stopped, stopped
        return stopped != before

    def plugged(self) -> None:
        """The board is there."""
        if self.board.unplugged_since is not None:
            self.board.unplugged_since = None
            self.show()

    def unplugged(self, at: float, is_server: bool, line: str) -> None:
        """The line has gone away, as the program says too; but a serial server's may be open again before its board is there. `line` says
        what to do."""
        self.was_away, self.board.line = True, line
        if is_server:
            self._is_unknown, self.board.unplugged_since = False, at
            self.show()

    def silence(self, silent: bool) -> None:
        """The board is silent, as the program says too, or answers again."""
        self.was_away = self.was_away or silent

    def look(self, text: str) -> None:
        """Shows what somebody must look at, in a few words; empty if there is nothing."""
        self.board.look = text
        self.show()

    def disk(self, trouble: str) -> None:
        """Shows what keeps something from being written, if anything does."""
        self.board.disk = trouble
        self.show()

    def close(self) -> None:
        """Shows nothing further."""
        self._closed = True


WHERE = Message("look.at_the_cable")
MOST_NUMBERS = 3  # of boards that nobody knows, each of which is named on a cable


@dataclass(frozen=True)
class Owner:
    """Another game that is recorded at the same time: the name of its board, and whether it has a move."""

    name: str
    has_moves: bool


def may_take(owner: Optional[Owner], has_moves: bool) -> bool:
    """Whether `ok` gives the board on the cable to this game and takes it from its owner: a game with moves keeps its board."""
    return owner is None or not (owner.has_moves or has_moves)


def another(own: str, shown: str, owner: Optional[Owner], has_moves: bool) -> Look:
    """The message about a board with another number on the cable of a game."""
    if owner is None:
        has = Message("cable.unknown_board", number=shown, own=own)
        return Look(WHERE, Message("cable.unknown_board_taken", has=has), WHERE)
    of_owner = Message("cable.board_of_another", owner=owner.name, number=shown, own=own)
    return Look(WHERE, linked("semicolon", (of_owner, Message("cable.may_take"))) if may_take(owner, has_moves) else of_owner, WHERE)


def changing(own: str) -> Look:
    """The message about a board that gives another number again and again."""
    has = Message("cable.changing_numbers", own=own)
    return Look(WHERE, Message("cable.changing_advice", has=has), WHERE)


def back(own: str, other: str) -> Look:
    """The message when the game's own board is on the cable again."""
    return Look(WHERE, Message("cable.own_is_back", other=other, own=own), WHERE)


TOGETHER = 60.0  # seconds between two cables that somebody may have exchanged
APART = 2  # squares on which two boards that stand alike differ at most: a move was just made, or a piece is in a hand


@dataclass(frozen=True)
class Return:
    """A board was unplugged or silent: when it was heard last before that, and when it was heard again."""

    heard_at: float
    came_at: float


@dataclass(frozen=True)
class Returned:
    """A board that was away: when; its serial number, empty if it has none; and what it shows now."""

    back: Return
    number: str
    placement: str


def came_back(heard_at: Optional[float], has_slept: bool, now: float) -> Optional[Return]:
    """A board that was heard last at this time, if it was, is heard again now. When it was away; None if nobody knows that: the recorder
    had not heard it before, or has slept too."""
    return None if heard_at is None or has_slept else Return(heard_at, now)


def may_be_exchanged(one: Returned, other: Returned) -> bool:
    """Whether two boards went within a minute, both were away at a time, nothing tells them apart, and both stand alike."""
    went = abs(one.back.heard_at - other.back.heard_at) <= TOGETHER
    met = one.back.heard_at <= other.back.came_at and other.back.heard_at <= one.back.came_at
    return went and met and one.number == other.number and stand_alike(one.placement, other.placement)


def stand_alike(one: str, other: str) -> bool:
    """Whether two boards show the same, or almost, if it is known what both show."""
    return bool(one and other) and len(differing(picture_of_placement(one), picture_of_placement(other))) <= APART


def told_of_exchange(others: Sequence[int]) -> Look:
    """The message at one of them; the others are the boards with these numbers."""
    return Look(WHERE, plural("cable.exchanged", len(others), boards=_named(others)), WHERE)


def same_number(serials: Mapping[int, str], board: int) -> List[int]:
    """The serial number of this board has just become known. The boards that have it; none if no other one does."""
    same = sorted(one for one, serial in serials.items() if serial and serial == serials.get(board))
    return same if len(same) > 1 else []


def told_of_same_number(others: Sequence[int]) -> Look:
    """The message at one of them, about the others."""
    return Look(WHERE, plural("cable.same_number", len(others), boards=_named(others)), WHERE)


def _named(boards: Sequence[int]) -> str:
    names = [str(number) for number in sorted(boards)]
    return linked("and", filter(None, (", ".join(names[:-1]), names[-1])))


MOVES = "Nf3 Nc6"  # examples
FROM_THE_START = "e4 e5 Nf3 Nc6"
PLY = "13... Nf6"
IN_MEMORY = Message("advice.in_memory")
AT_THE_CABLE = Message("advice.at_the_cable")
PLUG_IN = Message("advice.plug_in")
AT_THE_SERVER = Message("advice.at_the_server")
# plies that go, if the players took them back, or only tried them
GO_BACK: Dict[str, int] = {WHY["TAKEN-BACK"]: 4, WHY["UNPRESSED"]: 5}
CHANGED = 4  # plies, of which the players changed two

WITH_A_LINE = (
    *("advice.fits", "advice.missing", "advice.wrong", "advice.no_start", "advice.cables", "advice.look", "advice.no_result"),
    *("screen.other_address", "row.write_device"),
)  # the keys of what says that something is to be typed

Typed = Callable[[str], str]  # how a line is typed for this board: in a round with its number


@dataclass(frozen=True)
class Moves:
    """What advice needs of a game: its plies as they are printed, as `14. Bxf6`."""

    plies: Sequence[str] = ()

    def before(self, ply: str, count: int = 1) -> Optional[str]:
        """The ply that is the last one if so many go, of which this is the last; 0 if none is left, and None if it isn't known."""
        at = self._at(ply)
        if at is None or at + 1 < count:
            return None
        return self.plies[at - count] if at >= count else NO_PLIES

    def from_on(self, where: str, ply: str, count: int = 1) -> Optional[str]:
        """The number of the first ply that may be wrong, of so many up to this ply, or the one after it; empty if that hasn't come yet, and
        None if it isn't known."""
        at = self._at(ply)
        if at is None or (where != "after" and at + 1 < count):
            return None
        first = at + 1 if where == "after" else at + 1 - count
        return "".join(self.plies[first : first + 1]).partition(" ")[0]

    def _at(self, ply: str) -> Optional[int]:
        return next((at for at in reversed(range(len(self.plies))) if self.plies[at] == ply), None)


def missing(typed: Typed) -> str:
    """What to do if moves were missed."""
    return Message("advice.missing", moves=typed(MOVES))


def of_state(state: State, typed: Typed) -> List[str]:
    """About a state, apart from what somebody must look at."""
    told: List[str] = []
    if state.disk:
        told.append(linked("colon", (mend_of(state.disk == DISK_FULL), IN_MEMORY)))
    if state.hint == OTHER_BOARD:
        told.append(_asking(state, Message("advice.other_board", missing=missing(typed))))
    elif state.kind is Kind.WRONG:
        wrong = Message("advice.wrong", missing=missing(typed), back=typed(BACK), back_to=typed(f"{BACK} {PLY}"))
        told.append(_asking(state, wrong))
    elif state.kind is Kind.NO_START:
        told.append(Message("advice.no_start", moves=typed(FROM_THE_START)))
    elif state.kind is Kind.SILENT:
        told.append(Message("join.capital", text=AT_THE_CABLE))
    elif state.kind is Kind.UNPLUGGED:
        told.append(Message("join.capital", text=state.line or PLUG_IN))
    return told


def _asking(state: State, otherwise: str) -> str:
    """The question, and what to do if it wasn't so; without a question that alone."""
    return Message("advice.fits", asks=Message("join.capital", text=state.asks), wrong=otherwise) if state.asks else otherwise


def of_line(is_server: bool, otherwise: str) -> str:
    """How a line is there again. If it has never been there, `otherwise` says what to do about its device or its address."""
    if not otherwise:
        return AT_THE_SERVER if is_server else PLUG_IN
    if is_server:
        return Message("advice.server_or_address", otherwise=otherwise)
    return Message("advice.plug_in_or_device", otherwise=otherwise)


def of_look(look: Look, typed: Typed, moves: Moves) -> str:
    """About something that somebody must look at: what to type if the game is right as it is, and what else."""
    otherwise = if_not(look, typed, moves)
    return linked("semicolon", filter(None, (closing(look, typed), otherwise)))


def closing(look: Look, typed: Typed) -> str:
    """What to type if it is right as it is. Before the first move `ok` takes the board on a cable for its game: so the cables come first."""
    if look.about == WHERE:
        return Message("advice.cables", ok=typed(OK))
    return Message("advice.look", how=Message("typed.line", line=typed(OK)))


def if_not(look: Look, typed: Typed, moves: Moves) -> str:
    """What to do if it isn't; empty if the words say that."""
    where, _, ply = look.what.partition(" ")
    if look.about == OVER:
        if is_of(look.why, "look.moves_from_the_start") and look.why.endswith(over(NO_RESULT)):
            return Message("advice.begins_now", back=typed(f"{BACK} {NO_PLIES}"))
        return Message("advice.not_over", how=Message("typed.line", line=typed(REOPENS)))
    if look.why == AFTER_RESULT:
        return Message("advice.this_one_is_right", reopens=typed(REOPENS))
    if is_of(look.why, "look.unheard_after_result"):
        return Message("advice.not_over", how=Message("typed.line", line=typed(REOPENS)))
    since = NO_PLIES if ply == THE_START else ply
    if look.about.startswith(ABOUT_RESULT):
        if moves.plies and moves.before(moves.plies[-1]) == since:  # the board still shows this one
            return Message("advice.take_one_off_before_result", back=typed(f"{BACK} {since}"))
        return Message("advice.take_off_before_result", back=typed(f"{BACK} {since}"))
    if look.about.startswith(ABOUT_CLOCK):
        return Message("advice.take_off", back=typed(f"{BACK} {since}"))
    if look.why in (WHY["OTHER-TIME"], WHY["RETURNED"]) or look.about == WHERE:
        return ""
    if look.why in GO_BACK:
        last = moves.before(ply, GO_BACK[look.why])
        return "" if last is None else Message("advice.take_off", back=typed(f"{BACK} {last}"))
    is_changed = look.why == WHY["MOVED-ON"]
    number = moves.from_on(where, ply, CHANGED if is_changed else 1)
    if number is None:
        return ""
    if is_changed:
        return Message("advice.change_them", instead=typed(f"{INSTEAD} {number}"))
    if not number:
        return Message("advice.moves_missing_at_the_end", moves=typed(MOVES))
    return Message("advice.moves_missing", instead=typed(f"{INSTEAD} {number}"))


def told_of(look: Look, typed: Typed, moves: Moves) -> Tuple[str, ...]:
    """What is said of it, in a game that has these moves: what it is, and what to do."""
    told, otherwise = linked("stop", (look.text, closing(look, typed))), if_not(look, typed, moves)
    return (Message("look.and_advice", look=told), otherwise) if otherwise else (told,)


def wants_a_line(advice: str) -> bool:
    """Whether it says that something is to be typed."""
    return any(has(advice, key) for key in WITH_A_LINE)


def of_no_result(typed: Typed) -> str:
    """About a game that is over without a result."""
    return Message("advice.no_result", result=typed("1-0"), reopens=typed(REOPENS))


def all_of(state: Optional[State], looks: Sequence[Look], over_without_result: bool, typed: Typed, moves: Moves) -> str:
    """All that is to be done about a board; empty if nothing is."""
    told = [linked("stop", (look.text, of_look(look, typed, moves))) for look in looks]
    if state:
        told += of_state(state, typed)
    elif over_without_result:
        told.append(of_no_result(typed))
    return linked("stop", told)
