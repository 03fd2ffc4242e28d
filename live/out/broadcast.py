"""What goes out of a round or of a single board: the published text, the command that carries it away, and what the spectators'
page shows. All of it is delayed as wanted. Nothing else that spectators are served knows the games as they are now. A round may have
several of them, each with files of its own; none knows of another.
"""

from __future__ import annotations

import contextlib
import os
from dataclasses import replace
from typing import Callable, Dict, Iterable, List, Optional, Sequence, Set, Tuple

from live.child.program import Program
from live.game.files import AnyPath, Paths, folder_of, remove, sync_folder
from live.game.typed import NO_RESULT
from live.out.again import Keeper, WentOut, games_before, read_shown, said_again, shown_beside
from live.out.delay import GoingOut, OneGame, Said, Waiting
from live.out.publish import Published, Publisher
from live.out.spectators import UNKNOWN, Game, Paired, Shot, SpectatorBoard, round_pgn, said_of_matches
from live.run.loop import Guard, Loop, Restarted, Timer, Worker, traced
from live.run.refused import Refused
from live.words.message import Message, linked

GATHERED = 0.05  # seconds in which changes are gathered if a page shows them
FOR_A_FILE = 0.5  # the same if they only go to a file
TICK = 1.0  # seconds between two looks at the clocks
AGAIN = 1.0  # seconds after which it begins again if an error has ended it, and the program is asked again
TRIES = 4  # of the program to say again what was hidden of a game
NOT_PUBLISHED = Message("broadcast.not_published")
Due = Tuple[Tuple[SpectatorBoard, ...], Tuple[Paired, ...]]  # the boards, and those of the table that aren't recorded


class Carrier:
    """The published text in its file, and the command that carries it away. `says` gets lines for the screen."""

    def __init__(self, guard: Guard, out: GoingOut, place: AnyPath, text: Callable[[], bytes], says: Callable[[str], None]) -> None:
        self._out, self._place, self._says = out, place, says
        self.alarm = ""  # why the text can't be carried away
        self.make_folder()
        self._keeper: Optional[Keeper] = None
        self._publisher: Optional[Publisher] = None
        if out.delay:
            self._keeper = Keeper(guard, shown_beside(place), out.delay)
            guard.opened(self._keeper.close)
        self._file = Published(guard, place, text, says, self.changed)
        guard.opened(self._file.stop)
        if out.command:
            self._publisher = Publisher(guard, out.command, place, self._told)
            guard.opened(self._publisher.close)

    def make_folder(self) -> None:
        """A named output has a folder of its own. If it can't be made, that is said of the text."""
        folder = folder_of(self._place) if self._out.name else ""
        if folder and not os.path.isdir(folder):
            with contextlib.suppress(OSError):
                os.mkdir(folder)
                sync_folder(folder_of(folder))

    def keep(self, went: WentOut, goes_out: Callable[[], None]) -> None:
        """This goes out; if it is late, once it is kept that it does."""
        if self._keeper:
            self._keeper.keep(went, goes_out)
        else:
            goes_out()

    def write(self) -> None:
        """The text has changed."""
        self._file.changed()

    def changed(self) -> None:
        """A file has changed that the command carries away."""
        if self._publisher:
            self._publisher.changed()

    def is_out(self, has_text: bool) -> bool:
        """Whether the text, if there is one, is written and carried away."""
        is_written = not has_text or self._file.is_written
        return is_written and (self._keeper is None or self._keeper.is_idle) and (self._publisher is None or self._publisher.is_idle)

    @property
    def told_of_alarm(self) -> str:
        """That the text can't be carried away, and why; empty if it can."""
        if not self.alarm:
            return ""
        of_output = [Message("output.called", name=self._out.name)] if self._out.name else []
        return linked("colon", (NOT_PUBLISHED, *of_output, self.alarm))

    def _told(self, trouble: str) -> None:
        """A run of the command has ended, with what went wrong, or nothing."""
        before, self.alarm = self.alarm, trouble
        if trouble and trouble != before:
            self._says(Message("broadcast.again", alarm=self.told_of_alarm))
        elif before and not trouble:
            self._says(Message("broadcast.is_out_again", place=self._place))

    def keep_last(self) -> None:
        """Keeps what waits, and lets it out."""
        if self._keeper:
            self._keeper.finish()

    def write_last(self) -> None:
        """Writes the text a last time."""
        self._file.close()

    def carry_last(self, done: Callable[[], None]) -> bool:
        """Has the command carry it away a last time, then calls this. Returns whether there is a command."""
        if self._publisher:
            self._publisher.finish(done)
        return self._publisher is not None


class Broadcast:
    """What goes out of some games, in their order: under their own names in the folder of `place`, the file of the published text; or
    under `name`, if it is of one board. Without a `place` no text is published. `says` gets lines for the screen, `trouble` errors that
    should never happen."""

    def __init__(
        self,
        loop: Loop,
        program: Program,
        out: GoingOut,
        place: Optional[AnyPath],
        games: Callable[[], Iterable[Game]],
        says: Callable[[str], None],
        trouble: Callable[[str], None],
        name: str = "",
        unrecorded: Callable[[], Iterable[Paired]] = lambda: (),
    ) -> None:
        self._loop, self._program, self._out, self._place, self._games, self._name = loop, program, out, place, games, name
        self._says, self._trouble = says, trouble
        self.on_news: Optional[Callable[[], None]] = None  # called when what the page shows has changed; None if there is no page
        self.finishes: List[Callable[[], None]] = []  # each writes other files that are made of what goes out a last time
        self._of: Dict[int, OneGame] = {}
        self._before = self._kept_before()
        self.boards, self._pairs = self._before.boards, self._before.pairs  # as they are out, with the table's boards that aren't recorded
        self._unrecorded = unrecorded  # the table's boards that aren't recorded
        self._results: Dict[int, Waiting] = {}  # the results that the table has for them
        self._is_known = False  # whether the games have been looked at
        self._changed: Optional[Set[int]] = set()  # the games to look at soon; None for all
        self._carrier: Optional[Carrier] = None
        self._part = Restarted(loop, self._begin, trouble, AGAIN)

    def _kept_before(self) -> WentOut:
        """What was out before this call, if it goes out late."""
        if self._place and self._out.delay:
            return read_shown(shown_beside(self._place), self._out.delay)
        if self._place:
            with contextlib.suppress(OSError):  # it is put right with the next delay
                remove(shown_beside(self._place))
        return WentOut()

    def _begin(self, guard: Guard) -> None:
        self._guard = guard
        self._timer: Optional[Timer] = None
        self._due: Optional[Timer] = None
        self._beside: Optional[Worker] = None
        self._of = {number: one for number, one in self._of.items() if one.is_told}
        self._next: Optional[Due] = None  # nothing of this call has gone out yet
        if self._place:
            alarm = self._carrier.alarm if self._carrier else ""
            self._carrier = Carrier(guard, self._out, self._place, self.text, self._says)
            self._carrier.alarm = alarm
        guard.after(TICK, self._each_second)
        if self._is_known:  # it begins again
            guard.call(self._look)
            if self._carrier and self.boards:
                self._carrier.write()

    # What goes out.

    def changed(self, number: Optional[int] = None) -> None:
        """The game with this number has changed. Without a number any game may have changed, or there are others."""
        self._is_known = self._place is not None or self.on_news is not None
        if number is None:
            self._changed = None
        elif self._changed is not None:
            self._changed.add(number)
        if self._is_known and self._timer is None:
            self._timer = self._guard.after(GATHERED if self.on_news else FOR_A_FILE, self._take)

    def _take(self) -> None:
        self._timer = None
        self._look(self._changed)

    def _each_second(self) -> None:
        self._guard.after(TICK, self._each_second)
        if self._carrier:
            self._carrier.make_folder()
        if self._is_known:
            self._look()

    def look(self) -> None:
        """Takes the games as they are now."""
        if self._is_known:
            self._guard.call(self._look)

    def _look(self, changed: Optional[Set[int]] = None) -> None:
        """Looks at all games, or at those that have `changed` and at new ones, and shows what is due."""
        games = {game.number: game for game in self._games()}
        before, self._of = self._of, {number: self._one(game) for number, game in games.items()}
        untold = {number for number, one in self._of.items() if not one.is_told}
        if untold and (not self.boards or any(board.number in untold for board in self.boards)):
            self._changed = None  # nothing that was seen goes back; then all are looked at
            return
        self._changed = set()
        for number, game in games.items():
            one = self._of[number]
            if number in untold:
                continue
            if changed is None or number in changed or one is not before.get(number):
                try:
                    one.take(game, self._loop.now())
                    one.show(game)
                except Exception as error:  # it stays as it was, and the others go on
                    self._trouble(traced(error))
        due = tuple(one.board for one in self._of.values() if one.board), self._take_unrecorded()
        if due != self._next:
            self._next = due
            self._lets_out(due)
        self._wait()

    def _lets_out(self, due: Due) -> None:
        def goes_out() -> None:
            self.boards, self._pairs = due
            if self.on_news:
                self.on_news()
            if self._carrier:
                self._carrier.write()

        boards, pairs = due
        if self._carrier:
            names = tuple(os.path.basename(self._of[board.number].name) for board in boards)
            self._carrier.keep(WentOut(boards, names, pairs), goes_out)
        else:
            goes_out()

    def _take_unrecorded(self) -> Tuple[Paired, ...]:
        """The boards that aren't recorded. A result that the table gets for one goes out as late as one of a game."""
        now, pairs, before = self._loop.now(), list(self._unrecorded()), self._results
        self._results = {pair.number: before.get(pair.number) or Waiting(self._out.delay) for pair in pairs}
        for pair in pairs:
            self._results[pair.number].take(now, Shot(pair.score or NO_RESULT))
            if pair in self._before.pairs:
                self._results[pair.number].was_out(Shot(pair.score or NO_RESULT))
            self._results[pair.number].look(now)
        return tuple(replace(pair, score=self._results[pair.number].shot.result.replace(NO_RESULT, UNKNOWN)) for pair in pairs)

    @property
    def matches(self) -> Tuple[Tuple[str, object], ...]:
        """What is said of matches of teams."""
        return said_of_matches(self.boards, self._pairs)

    def _one(self, game: Game) -> OneGame:
        """The game as it goes out; from its beginning if its name has changed."""
        one = self._of.get(game.number)
        name = self._name or f"{folder_of(self._place or '')}/{game.name}"
        if one is None or one.name != name:
            one = OneGame(name, self._out, self._before.of(game.number, os.path.basename(name)))
            last = game.board.paths
            games = [Paths(f"{folder_of(last.capture)}/{each}") for each in games_before(os.path.basename(name), os.path.basename(last.name))]
            one.is_told = not self._out.delay or not any(os.path.lexists(paths.capture) for paths in games)
            if not one.is_told:
                self._say_again(game.number, one, games)
        return one

    def _say_again(self, number: int, one: OneGame, games: Sequence[Paths], tries: int = TRIES) -> None:
        """Has the program say again what was said of a game, and of those before in its series. Nothing goes out before. If it fails
        again and again, all is hidden anew."""

        def asks() -> Tuple[List[Said], str]:
            try:
                return said_again(self._program, games, self._out.delay, self._loop.now), ""
            except Refused:
                return [], ""  # the reason is reported when the game is opened
            except Exception as error:
                return [], traced(error)

        def answered(answer: Tuple[List[Said], str]) -> None:
            said, trouble = answer
            if self._of.get(number) is not one:
                return
            if trouble and tries > 1:
                self._guard.after(AGAIN, lambda: self._say_again(number, one, games, tries - 1))
                return
            if trouble:
                self._trouble(trouble)
            one.tell(said, self._loop.now())
            self._look()

        if self._beside is None:
            self._beside = Worker(self._guard)
            self._guard.opened(self._beside.close)
        self._beside.do(asks, answered)

    @property
    def is_told(self) -> bool:
        """Whether what was said of the games before is known."""
        return all(one.is_told for one in self._of.values())

    def _wait(self) -> None:
        """Sets a timer for the next thing that is due."""
        if not self._out.delay and not self._out.hold:
            return
        times = [at for one in self._of.values() for at in (one.waiting.next_at, one.steady.due) if at is not None]
        if self._due:
            self._due.cancel()
            self._due = None
        if times:
            self._due = self._guard.after(max(0.0, min(times) - self._loop.now()), self._look)

    def text(self) -> bytes:
        """What is published."""
        return round_pgn(board.pgn for board in self.boards)

    @property
    def hidden_for(self) -> Optional[float]:
        """For how many seconds something of the games is still hidden; None if nothing is. As long as it isn't known what was said of a
        game, all of its moves may be hidden."""
        if not self._out.delay:
            return None
        now, delay = self._loop.now(), self._out.delay
        played = {game.number for game in self._games() if game.board.plies}
        told = [one for one in self._of.values() if one.is_told]
        untold = [now + delay for number, one in self._of.items() if not one.is_told and number in played]
        held = [one.steady.due + delay for one in told if one.steady.due is not None]  # a last ply that must stand first
        times = [*untold, *held, *(one.waiting.ends_at for one in told)]
        last = max((at for at in times if at is not None), default=None)
        return None if last is None else max(0.0, last - now)

    # How it is carried away.

    @property
    def is_out(self) -> bool:
        """Whether all that is shown is written and carried away."""
        return self.is_told and (self._carrier is None or self._carrier.is_out(bool(self.boards)))

    def other_changed(self) -> None:
        """Another file has changed that the command carries away."""
        if self._carrier:
            self._carrier.changed()

    @property
    def told_of_alarm(self) -> str:
        """That the text can't be carried away, and why; empty if it can."""
        return self._carrier.told_of_alarm if self._carrier else ""

    # How it ends.

    def finish(self, done: Callable[[], None]) -> None:
        """Writes and publishes a last time what is shown, then calls this."""
        is_carried = False

        def finishes() -> None:
            nonlocal is_carried
            for one in self._of.values():
                one.steady.release()
            if self._is_known:
                self._look()
            if self._carrier:
                self._carrier.keep_last()
                if self.boards:  # without a game there is no text
                    self._carrier.write_last()
            for finish in self.finishes:
                try:
                    finish()
                except Exception as error:  # it keeps nothing else from going out
                    self._trouble(traced(error))
            is_carried = self._carrier is not None and self._carrier.carry_last(done)

        self._guard.call(finishes)
        if not is_carried:
            self._loop.after(0, done)

    def close(self) -> List[str]:
        """Lets nothing further go out. Returns what was wrong at the end."""
        self._part.end()
        why = self._carrier.alarm if self._carrier else ""
        return [Message("broadcast.is_not_out", place=self._place, why=why)] if why else []
