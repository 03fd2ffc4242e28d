"""When something goes out, and by which command: each thing that was said of a game waits in a queue until it is old enough, and a last
ply until it has stood for some seconds, or the clock was pressed: until then a hand may still slide on, or take it back. Times are
passed in.

A delay stays in force until another one is given, also for each game of the round or series for which it was given. So do the seconds
for which a last ply must stand, and that a command carried it away; the command's words aren't kept, since a password may be among them."""

from __future__ import annotations

import math
import os
import shlex
import time
from dataclasses import dataclass, field
from typing import Iterable, List, Optional, Sequence, Tuple

from live.game.files import NO_SUCH_FILE, Paths, beginning, existing, not_written, put_in_place, remove, text_of
from live.game.game import has_delay, owners_of
from live.game.options import PLAYERS
from live.game.tags import SIDES, published
from live.game.typed import told_to_readers
from live.out.spectators import NOTHING, OTHER, Game, Player, Shot, Shots, SpectatorBoard, played
from live.run.refused import ARGUMENTS, FAILED, REFUSED, Refused
from live.words.message import Message, linked

MINUTE = 60.0
LONGEST = 24 * 60 * MINUTE  # seconds
HOLD, LONGEST_HOLD = 2.0, 60.0  # seconds
LONGEST_FILE = 40  # bytes of the file that keeps it
LONGEST_KEPT = 200  # bytes of the file
OF_HOLD, OF_COMMAND = "--hold ", "--publish"
UNPUBLISHED = Message("broadcast.command_not_kept")
ALWAYS = -math.inf  # the time of something that is no secret
Said = Tuple[float, Shot]  # when, by the loop's clock; and what the game was from then on


@dataclass(frozen=True)
class GoingOut:
    """`delay` is in seconds, as is `hold`, for which a last ply must stand before it goes out; the first output of a round, and the
    only one of a single board, has no name."""

    delay: float = 0.0
    command: Tuple[str, ...] = ()
    name: str = ""
    hold: float = HOLD

    @property
    def late(self) -> str:
        """How late it is, in words; empty if it isn't."""
        return minutes(self.delay) if self.delay else ""


def seconds_in(text: str) -> Optional[float]:
    """`15` minutes in seconds; None if the text is not such a number."""
    front, dot, rest = text.partition(".")
    is_number = (front + rest).isdecimal() and text.isascii() and len(text) < 9
    seconds = float(text) * MINUTE if is_number else LONGEST + 1
    return seconds if seconds <= LONGEST else None


def read_delay(text: str) -> float:
    """`15` minutes in seconds. Refused if the text is not such a number."""
    seconds = seconds_in(text)
    if seconds is None:
        raise Refused(ARGUMENTS, Message("option.delay", value=repr(text)))
    return seconds


def read_hold(text: str) -> float:
    """`2` seconds. Refused if the text is not such a number."""
    front, dot, rest = text.partition(".")
    if not (front + rest).isdecimal() or not text.isascii() or len(text) > 8 or float(text) > LONGEST_HOLD:
        raise Refused(ARGUMENTS, Message("option.hold", value=repr(text)))
    return float(text)


def read_command(text: str, option: str = "--publish") -> Tuple[str, ...]:
    """The words of a command; `~/` before it is the home folder. Refused if it has none."""
    try:
        words = tuple(shlex.split(text))
    except ValueError:
        words = ()
        why: str = Message("option.open_quote")
    else:
        why = Message("option.command")
    if not words:
        raise Refused(ARGUMENTS, linked("colon", (option, why)))
    return (in_home(words[0]), *words[1:])


def in_home(text: str) -> str:
    """A path whose `~/` is the home folder, as a shell has it."""
    return os.path.expanduser(text) if text == "~" or text.startswith("~/") else text


def minutes(seconds: float) -> str:
    """`15 minutes`."""
    whole = f"{seconds / MINUTE:.2f}".rstrip("0").rstrip(".")
    return Message("time.one_minute") if whole == "1" else Message("time.whole_minutes", minutes=whole)


def clock_in(seconds: float) -> str:
    """The time of day after this many seconds: the next full minute."""
    return time.strftime("%H:%M", time.localtime(time.time() + seconds + 59))


def kept_delay(paths: Paths) -> float:
    """The delay in force for a game or a round: the longest of those that were given last for it and for what it belongs to.
    Refused if one can't be read: nobody may see delayed moves too soon."""
    return max(_given_last(owner) for owner in owners_of(paths))


def _given_last(paths: Paths) -> float:
    try:
        text = beginning(paths.delay, LONGEST_FILE).decode("ascii", "replace").strip()
    except OSError as error:
        if error.errno in NO_SUCH_FILE:
            return 0.0
        raise Refused(FAILED, Message("delay.unreadable", path=paths.delay, why=text_of(error))) from None
    try:
        return read_delay(text)
    except Refused:
        raise Refused(REFUSED, Message("delay.no_number", path=paths.delay)) from None


def keep_delay(paths: Paths, seconds: float, games: Sequence[Paths]) -> None:
    """Keeps it, with each of these games too: so no one file that is lost shows them all at once. With 0 it goes from the games first.
    Refused if a file can't be written."""
    own = dict.fromkeys([*(game.delay for game in games), paths.delay])
    try:
        if not seconds:
            for path in own:
                remove(path)
            return
        hundredths = math.ceil(round(seconds / MINUTE * 100, 6))  # of a minute: never less than was given
        text = b"%.6g\n" % (hundredths / 100)
        for path in own:
            if os.path.islink(path) or existing(path) != text:
                put_in_place(path, text)
    except OSError as error:
        raise Refused(FAILED, not_written(paths.delay, error)) from None


def delay_of(paths: Paths, given: Optional[float], games: Sequence[Paths]) -> float:
    """The delay of these games from now on: the given one, which is kept, or else the kept one. If that is lost, it is the longest
    that was kept with a game."""
    if given is not None:
        keep_delay(paths, given, games)
        return given
    if has_delay(paths):
        return kept_delay(paths)
    return max((_given_last(game) for game in games), default=0.0)


@dataclass(frozen=True)
class KeptOut:
    """`hold` is in seconds, None if none was given; and whether a command was."""

    hold: Optional[float] = None
    command: bool = False

    def hold_with(self, given: Optional[float]) -> float:
        """For how many seconds a last ply must stand, if this was given."""
        return next((seconds for seconds in (given, self.hold) if seconds is not None), HOLD)


def read_kept(text: str) -> KeptOut:
    """What the file says. Refused if it has no number of seconds."""
    lines = text.splitlines()
    holds = [read_hold(line[len(OF_HOLD) :]) for line in lines if line.startswith(OF_HOLD)]
    return KeptOut(holds[-1] if holds else None, OF_COMMAND in lines)


def kept_text(kept: KeptOut) -> str:
    """The file."""
    lines: List[str] = []
    if kept.hold is not None:
        lines.append(f"{OF_HOLD}{kept.hold:g}")
    if kept.command:
        lines.append(OF_COMMAND)
    return "".join(f"{line}\n" for line in lines)


def with_given(kept: KeptOut, hold: Optional[float], command: bool) -> KeptOut:
    """What is kept from now on."""
    return KeptOut(kept.hold if hold is None else hold, kept.command or command)


def told_of_kept(kept: KeptOut, hold: Optional[float], command: bool) -> List[str]:
    """What to say at the start of a call that was given this."""
    told: List[str] = []
    if hold is None and kept.hold not in (None, HOLD):
        how = Message("hold.stands", seconds=f"{kept.hold:g}") if kept.hold else Message("hold.none")
        told.append(Message("hold.as_before", how=how, usual=f"{HOLD:g}"))
    return [*told, UNPUBLISHED] if kept.command and not command else told


def kept_out(paths: Paths) -> KeptOut:
    """What is kept for a game or a round; of the seconds, also what is kept for the round or series to which a game may belong. Refused
    if it can't be read."""
    found = [_kept(owner) for owner in owners_of(paths)]
    holds = [kept.hold for kept in found if kept.hold is not None]
    return KeptOut(holds[0] if holds else None, found[0].command)


def _kept(paths: Paths) -> KeptOut:
    try:
        return read_kept(beginning(paths.out, LONGEST_KEPT).decode("ascii", "replace"))
    except OSError as error:
        if error.errno in NO_SUCH_FILE:
            return KeptOut()
        raise Refused(FAILED, Message("hold.unreadable", path=paths.out, why=text_of(error))) from None
    except Refused:
        raise Refused(REFUSED, Message("hold.no_number", path=paths.out)) from None


def keep_out(paths: Paths, hold: Optional[float], command: bool) -> None:
    """Keeps what was given. Refused if that can't be kept_text."""
    kept = _kept(paths)
    now = with_given(kept, hold, command)
    if now == kept:
        return
    try:
        put_in_place(paths.out, kept_text(now).encode("ascii"))
    except OSError as error:
        raise Refused(FAILED, not_written(paths.out, error)) from None


@dataclass(frozen=True)
class Entry:
    """What a game was from a time on."""

    came: float
    shot: Shot


@dataclass
class Waiting:
    """The entries that wait, and the one that is shown. Each is shown once it is as old as the delay, and none before one that came
    earlier."""

    delay: float
    entries: List[Entry] = field(default_factory=list)
    out: Optional[Entry] = None

    def take(self, now: float, shot: Shot) -> bool:
        """The game is this now. Returns whether that is new. A game without a move is shown at once, except for its clocks: its
        players are no secret. A game that already has moves when first seen is shown without them."""
        if self.delay and not self.known and not shot.says_nothing:
            self.entries.append(Entry(ALWAYS, shot.unplayed()))
        if shot.says_nothing and all(entry.shot.says_nothing for entry in self.known):
            entry = Entry(ALWAYS, Shot(positions=shot.positions, text=shot.text))
        else:
            entry = Entry(now, shot)
        if self.known[-1:] and self.known[-1].shot == entry.shot:
            return False
        self.entries.append(entry)
        return True

    def look(self, now: float) -> bool:
        """Moves on to this time. Returns whether another shot is shown now."""
        before = self.out
        while self.entries and self.entries[0].came <= now - self.delay:
            self.out = self.entries.pop(0)
        return self.out is not before

    def was_out(self, shot: Shot) -> None:
        """Spectators had this before: of what waits it is shown, with all before it. Of several moments with the same moves, it is the one
        with the same clocks, else the first."""
        same = [at for at, entry in enumerate(self.entries) if entry.shot.has_game_of(shot)]
        run = [at for index, at in enumerate(same) if at == same[0] + index]
        clocks = [at for at in run if self.entries[at].shot.clocks.times == shot.clocks.times]
        for at in (clocks or run)[:1]:
            self.out = self.entries[at]
            del self.entries[: at + 1]

    @property
    def known(self) -> List[Entry]:
        """What is shown, and what waits."""
        return [self.out, *self.entries] if self.out else self.entries

    @property
    def shot(self) -> Shot:
        """What is shown."""
        return self.out.shot if self.out else NOTHING

    @property
    def next_at(self) -> Optional[float]:
        """When the next shot is shown."""
        return self.entries[0].came + self.delay if self.entries else None

    @property
    def ends_at(self) -> Optional[float]:
        """When the last shot is shown."""
        return self.entries[-1].came + self.delay if self.entries else None


@dataclass
class Steady:
    """Takes what a game is, and gives what may go out of it."""

    hold: float  # seconds; 0 if each ply goes out at once
    out: Optional[Shot] = None  # what went out last
    last: Optional[Shot] = None  # what came last
    _since: float = 0.0  # since when it has these plies
    _ran: str = ""  # whose clock ran when the last ply was made, or after that while it wasn't pressed

    def take(self, now: float, shot: Shot) -> Shot:
        """The game is this now. What goes out is this or what went out before. Of a game that is first seen all goes out, but no
        first ply that may just be made."""
        last, self.last = self.last, shot
        if self.out is None or last is None:
            self.out, self._since = shot.unplayed() if len(shot.moves) == 1 else shot, now
        elif shot.plies != last.plies:
            self._since, self._ran = now, last.clocks.runs
            if shot.plies[:-1] == last.plies:
                self.out = last  # a reply was made
        if shot.clocks.runs == OTHER[shot.to_move]:
            self._ran = shot.clocks.runs
        if self._is_steady(now, shot, self.out):
            self.out = shot
        return self.out

    def _is_steady(self, now: float, shot: Shot, out: Shot) -> bool:
        plies = shot.plies
        is_no_more = plies == out.plies[: len(plies)]  # the same plies, or some were taken off
        is_over = shot.result != "*" or bool(shot.forfeit)
        return is_no_more or is_over or now - self._since >= self.hold or self._is_pressed(shot)

    def _is_pressed(self, shot: Shot) -> bool:
        """Whether the last ply was followed by a press: the clock of who made it ran, and now that of the side to move does. If that ran
        before, a press was forgotten, or the clock is read the wrong way round."""
        side = shot.to_move
        return side != "" and shot.clocks.runs == side and self._ran == OTHER[side]

    @property
    def due(self) -> Optional[float]:
        """When what came last may go out; None if it has."""
        return None if self.last is self.out else self._since + self.hold

    def release(self) -> None:
        """What came last may go out now, since nothing more comes."""
        self._since -= self.hold


class OneGame:
    """A game as it goes out. If it goes out late, the program must first say again what was said of it; until then nothing is shown."""

    def __init__(self, name: str, out: GoingOut, before: Optional[Shot] = None) -> None:
        self._before = before  # what readers had of it when this call began
        self.name, self.waiting, self.steady = name, Waiting(out.delay), Steady(out.hold)
        self.is_told = True  # whether what was said of it before is known
        self._shots = Shots()
        self.board: Optional[SpectatorBoard] = None  # as it is shown
        self._text: Tuple[object, bytes] = ((), b"")  # what the published text was made of, and that text
        self._shown: Tuple[object, ...] = ()  # what the shown board was made of
        self._shot = self.waiting.shot

    def tell(self, said: Iterable[Said], now: float) -> None:
        """This was said of it, each at its time."""
        for came, shot in said:
            self._releases(came)
            self.waiting.take(came, self.steady.take(came, shot))
        self._releases(now)
        if self._before:
            self.waiting.was_out(self._before)
        self.is_told = True

    def _releases(self, now: float) -> None:
        """A last ply has stood long enough before this time."""
        at = self.steady.due
        if at is not None and at < now and self.steady.last:
            self.steady.release()
            self.waiting.take(at, self.steady.take(at, self.steady.last))

    def take(self, game: Game, now: float) -> None:
        """Looks at the game as it is now, if that is known."""
        board = game.board
        is_known = not (board.is_new or board.trouble)
        shot = self._shots.take(played(board), now) if is_known else self.steady.last  # what waits goes out all the same
        if shot:
            self.waiting.take(now, self.steady.take(now, shot))
        self.waiting.look(now)

    def show(self, game: Game) -> None:
        """Shows what is due."""
        shot = self.waiting.shot
        names = {side: game.options.written(option) for side, option in zip(SIDES, PLAYERS)}
        tags = {**dict(game.options.tags), **names}
        shown_of = (id(shot), game.number, tuple(tags.items()))
        if shown_of == self._shown:
            return
        self._shown, self._shot = shown_of, shot  # the shot is kept, so that its id stays its own
        of = (tuple(tags.items()), shot.text, shot.forfeit)
        if of != self._text[0]:
            self._text = of, published(shot.text, tags, told_to_readers(shot.forfeit))
        white, black = (Player.of_tags(tags, side, names[side]) for side in SIDES)
        board = SpectatorBoard(game.number, white, black, shot, self._text[1], self.waiting.delay)
        self.board = self.board if board == self.board else board  # one that is as before stays the same object
