"""What an arbiter types to the games of one board, line after line, and how it is obeyed while the board plays on. Each line is obeyed once the
one before it has been answered, and gets an answer, whatever happens.

The program answers beside the loop, and what the board sends is kept and recorded meanwhile. If the capture has grown by then, the
program is asked again, since its answer holds for the bytes that it has read. At the last try, and while files are put in place,
what the board sends is held in memory, and recorded right after: a kill loses no more of it than of what is still on the line.
"""

from __future__ import annotations

import collections
import contextlib
import dataclasses
import functools
import os
from dataclasses import dataclass
from typing import Callable, Deque, List, Optional, Sequence, Tuple, TypeVar, Union

from live.board.over import SettingUp, Watched
from live.board.plan import News
from live.board.playing import PATIENCE, Playing
from live.board.session import Session
from live.board.state import NOTHING_ASKED, may_take, mend_of
from live.child.lines import Move
from live.game.attending import Attending, read_game
from live.game.changing import add_and_make, add_by_name, ask_first, change_closed, course_of, or_reopened, put_names_right, put_way, reopen, told_of_next, unforfeited
from live.game.files import Paths, open_regular, part_of
from live.game.game import Course, Game, end_mark, forget_question, game_of, keep_other
from live.game.kept import Capture
from live.game.hidden import put_between
from live.game.looks import acknowledge
from live.game.opening import Chooses, Opened, named
from live.game.options import IN_A_TABLE, is_naming
from live.game.typed import ALL, BOARD, LONG, NO_RESULT, ONE_BOARD, UNENDED, UNPLAYED, WAYS, Accepted, Acknowledged, Added, Anew, Back, Forfeit, Instead, Nothing, Quit, Recover, Reopened, Said, Typed, Undo, Way, ask_for_way, ask_to_add, drop_forfeit, is_unended, keep_forfeit, kept_forfeit, meaning, no_way, not_added, nothing_goes, place_of, read_typed, read_words, refuse_played, result_typed, way_of, which_game, with_more
from live.game.undone import Obeyed, Undone, put_in, put_undone, to_undo, undone
from live.run.loop import Callback, Resume, Steps, beside, walk
from live.run.refused import DGT_LIVE, DONE, UNDO, Answer, Asked, NotDone, Refused, refusal, shown
from live.words.message import Message, linked

TRIES = 3  # calls before what the board sends is held
HOLDS = 60.0  # seconds for which the answer to a question counts
JUST_ENDED = Message("typed.just_ended")
ADDED, TAKEN_OFF, RENAMED = Message("done.added"), Message("done.taken_off"), Message("done.renamed")
FORFEITS = {"1-0": (Message("side.black"), "+-"), "0-1": (Message("side.white"), "-+")}  # who hasn't come, and what is typed then
Result = TypeVar("Result")


@dataclass(frozen=True)
class Line:
    """A typed line: what obeys it, and who gets the answer."""

    text: str
    obeys: Callable[[], Steps[Answer]]
    answered: Callable[[Answer], None]


class TypedLines:
    """Obeys them in their order. `refuses` makes an answer of an error."""

    def __init__(self, refuses: Callable[[str, Exception], Answer]) -> None:
        self._refuses = refuses
        self._waiting: Deque[Line] = collections.deque()
        self._now: Optional[Line] = None  # the line that is obeyed
        self._obeys = False
        self._then: List[Callback] = []  # what waits for the answer to it
        self._idle: List[Callback] = []  # what waits for the answers to all

    def take(self, line: Line) -> None:
        """The next line."""
        self._waiting.append(line)
        self._obey()

    def then(self, callback: Callback) -> None:
        """Calls this when the line that is obeyed is answered; at once if there is none."""
        self._call_or_keep(callback, self._then, self._now is not None)

    def when_idle(self, callback: Callback) -> None:
        """Calls this when all lines are answered; at once if they are."""
        self._call_or_keep(callback, self._idle, bool(self._now or self._waiting))

    @staticmethod
    def _call_or_keep(callback: Callback, kept: List[Callback], waits: bool) -> None:
        if waits:
            kept.append(callback)
        else:
            callback()

    def drop(self, error: Exception) -> None:
        """What obeys the present line goes no further: this error is its answer."""
        if self._now:
            self._answer(self._now, error)

    def _obey(self) -> None:
        """Obeys lines until one must wait."""
        if self._obeys:
            return
        self._obeys = True
        while self._now is None and self._waiting:
            line = self._now = self._waiting.popleft()
            walk(line.obeys(), functools.partial(self._answer, line))
        self._obeys = False
        if self._now is None:
            idle, self._idle = self._idle, []
            for callback in idle:
                callback()

    def _answer(self, line: Line, answer: Union[Answer, Exception]) -> None:
        """Answers a line, unless that was done."""
        if self._now is not line:
            return
        self._now = None
        try:
            line.answered(self._refuses(line.text, answer) if isinstance(answer, Exception) else answer)
        except Exception as error:  # it ends nothing
            self._refuses(line.text, error)
        then, self._then = self._then, []
        for callback in then:
            callback()
        self._obey()


class Arbiter:
    """Obeys what is typed. Each line gets an answer, with its status."""

    def __init__(self, session: Session) -> None:
        self.session, self._guard, self._screen, self._plan = session, session.means.guard, session.means.screen, session.plan
        self._asked_about: Optional[Tuple[str, float]] = None  # the result of a game without a move, and when it was asked about
        self._last: Optional[Obeyed] = None  # the line that was obeyed last
        self._added = range(0)  # where in the capture is what a line has added to the recorded game

    def typed(self, text: str) -> Steps[Answer]:
        """A line of the terminal. In a series it may end with the name of this game or of the one before."""
        words, _, name = text.rpartition(" ")
        last, here, series = self.session.next.before, self.session.game.paths.name, self._plan.rules.series
        named = series and name in (here, last.name if last else here)
        if series and not named and is_naming(text) and os.path.lexists(Paths(name).capture):
            return refusal(text, NotDone(Message("naming.other_game", name=name, dgt_live=DGT_LIVE)))
        before = last if last and name == last.name else None
        status, answer = yield from self._ended(text, self._obeys(words if named else text, before, named, may_quit=True))
        return status, with_more(answer, *ONE_BOARD)

    def add(self, text: str, is_sure: bool) -> Steps[Answer]:
        """A line that was typed elsewhere."""
        return (yield from self._ended(text, self._obeys(text, None, is_sure, may_quit=False)))

    def rename(self, text: str, prepares: Callable[[], Chooses]) -> Steps[Answer]:
        """The names of a table, which somebody has read again by this."""
        renamed = yield from self._ended(text, self._rename(prepares))
        if is_naming(text):
            self._not_undone(text, Message("undo.name"))
        return renamed

    def _ended(self, text: str, steps: Steps[Answer]) -> Steps[Answer]:
        before = self._edition
        try:
            answer = yield from steps
        except Exception as error:
            now = self._edition
            if now[0] is before[0] and now != before:
                self._not_undone(text, Message("undo.failed"))
            if not isinstance(error, (NotDone, OSError, Refused)):
                self.session.let_go()
                raise
            answer = refusal(text, error)
        self.session.let_go()
        return answer

    @property
    def _edition(self) -> Tuple[Capture, int, int]:
        """The capture of the game, and what is another one once it was made anew."""
        game = self.session.game
        return game.capture, game.capture.number, game.times.generation

    def _obeys(self, text: str, before: Optional[Paths], sure: bool, may_quit: bool) -> Steps[Answer]:
        session = self.session
        if is_naming(text) and not before:
            if self._plan.board:
                raise NotDone(IN_A_TABLE)
            renamed = yield from self._rename(functools.partial(named, session.game.program, text))
            self._not_undone(text, Message("undo.name"))
            return renamed
        typed = read_typed(text, os.path.basename(session.game.paths.name))
        if isinstance(typed, Nothing):
            return DONE, ""
        if isinstance(typed, Quit) and may_quit:
            session.end()
            return DONE, Message("typed.it_ends")
        if isinstance(typed, Acknowledged) and not before:
            seen = self._acknowledge()
            self._not_undone(text, Message("undo.look"))
            return seen
        if isinstance(typed, Accepted):
            accepted = self._asked_and_so(before)
            return (yield from self._plays_on(read_words(accepted), accepted, True))
        if before:
            status, answer = yield from self._add_before(before, text, isinstance(typed, (Reopened, Back, Instead, Recover)))
            if status == DONE:
                self._not_undone(text, Message("undo.by_name", name=before.name))
            return status, answer
        if isinstance(typed, Forfeit):
            forfeited = yield from self._forfeit(typed)
            self._not_undone(text, Message("undo.forfeit"))
            return forfeited
        if isinstance(typed, Undo):
            return (yield from self.undo())
        return (yield from self._plays_on(typed, text, sure))

    def _asked_and_so(self, before: Optional[Paths]) -> str:
        """What the question at this board asks about, as it is typed. Nothing is asked about the game before, nor about one that is over."""
        if before or not self.session.standing:
            raise NotDone(NOTHING_ASKED)
        return self.session.standing.accepts()

    def _plays_on(self, typed: Typed, text: str, sure: bool) -> Steps[Answer]:
        """A result, moves, or what takes them off: the game isn't forfeited any more."""
        game, self._added = self.session.game, range(0)
        end, generation, was_forfeited = end_mark(game.paths), game.times.generation, kept_forfeit(game.paths)
        if isinstance(typed, Reopened):
            answer = yield from self._take_result_off()
        elif isinstance(typed, (Back, Instead, Recover)):
            answer = yield from self.go_back(typed)
        elif isinstance(typed, Added):
            answer = yield from self._add(typed.line, sure)
        else:
            raise NotDone(WAYS)
        drop_forfeit(game.paths)
        put = None if was_forfeited or isinstance(typed, Reopened) else put_in(game, generation, self._added, end)
        if put:
            self._last = Obeyed(" ".join(text.split()), game.capture, put)
        else:
            self._not_undone(text, Message("undo.result_off") if isinstance(typed, Reopened) else Message("undo.other_way"))
        return answer

    def _not_undone(self, line: str, why: str) -> None:
        """This line was obeyed last, and can't be taken back."""
        self._last = Obeyed(line, self.session.game.capture, why=Message("undo.cannot", line=shown(line.strip()), why=why))

    def _acknowledge(self) -> Answer:
        """Acknowledges the alarms of this game. If the board on the cable is another one, that may give it to this game."""
        session, other = self.session, self.session.cable.another.number
        owner = session.strangers.others.owner(other) if other else None
        takes = bool(other) and not (owner and self._plan.serial) and may_take(owner, bool(session.course.plies))
        if other and not takes:
            keep_other(session.game.paths, other)
        if session.now:
            seen = session.now.acknowledge()
        else:
            seen = acknowledge(session.game.paths)
            self._screen.say(seen)
        if takes:
            session.does(session.cable.take())
            seen = Message("look.acknowledged_and_taken", seen=seen, number=session.cable.number)
        return DONE, seen

    # What is added.

    def _add(self, line: str, sure: bool) -> Steps[Answer]:
        """Adds to the game. A result in a series may be meant for the game before, unless it is `sure` which one is meant."""
        session = self.session
        if not isinstance(session.now, Playing):
            return (yield from self._add_last(line))
        adds = functools.partial(_added_by, session.game, line)
        said = yield from self._asked(ADDED, adds)
        now, had, before = self._playing(ADDED), session.course.result, session.next.before
        if said.kind == BOARD and had != NO_RESULT:
            outcome = yield from self._beside(functools.partial(result_typed, session.game.program, line))
            if outcome and before and not sure:
                yield from self._be_sure(outcome, before)
            if outcome:
                yield from self._take_result_off()
                said = yield from self._asked(ADDED, functools.partial(_added_by, session.game, line))
                now = self._playing(ADDED)
        if said.outcome and before and not sure:
            yield from self._be_sure(said.outcome, before)
        elif said.outcome and not sure and not session.course.plies:
            self._ask_once(said.outcome)
        game, sans = session.game, [ply.san for ply in session.course.plies]
        if said.put and not game.capture.has_room(len(said.put)):
            raise not_added(Said(LONG), line, "")
        if not said.put:
            raise not_added(said, line, place_of(said, game.options.fen, sans, line))
        self._not_undone(line, Message("undo.failed"))
        self._added = range(game.capture.total, game.capture.total + len(said.put))
        now.put(said.put, said.outcome)
        yield from self._on_the_disk()
        if not (yield from now.reports_put()):
            raise NotDone(JUST_ENDED)
        forget_question(session.game.paths)
        what = meaning(said, line, [ply.short for ply in session.course.plies])
        if not said.outcome and had != NO_RESULT:
            what = linked("semicolon", (what, Message("result.gone", result=had)))
        self._screen.say(Message("typed.added_by_hand", what=what))
        return DONE, Message("typed.added_to", name=session.game.paths.name, what=what)

    def _be_sure(self, outcome: str, before: Paths) -> Steps[None]:
        """Asks which game is meant if the result may be that of the game before."""
        name = self.session.game.paths.name
        meant = which_game(len(self.session.course.plies), (yield from self._beside(functools.partial(is_unended, before))))
        why = {UNPLAYED: Message("which.no_move", name=name), UNENDED: Message("which.no_result", name=before.name)}.get(meant)
        if why:
            raise NotDone(Message("which.type_one", why=why, result=outcome, before=before.name, name=name))

    def _ask_once(self, outcome: str) -> None:
        """Asks about a result of a game without a move, unless it was just asked about."""
        asked, now = self._asked_about, self._guard.now()
        if asked is None or asked[0] != outcome or now - asked[1] > HOLDS:
            self._asked_about = outcome, now
            absent = FORFEITS.get(outcome)
            if absent:
                raise Asked(Message("result.no_move_or_absent", side=absent[0], forfeit=self._screen.typed(absent[1]), result=outcome))
            raise Asked(Message("result.no_move", result=outcome))
        self._asked_about = None

    def _add_before(self, paths: Paths, text: str, opens: bool) -> Steps[Answer]:
        """Adds to the game before this one. What `opens` that game leaves it as one that nobody records."""
        program = self.session.game.program
        status, answer = yield from self._beside(functools.partial(add_by_name, program, paths, text, 0))
        if status == DONE and opens:
            more = yield from self._beside(functools.partial(told_of_next, paths))
            answer = Message("over.nobody_records", done=answer, dgt_live=DGT_LIVE, device=self._plan.device, name=paths.name)
            answer = linked("stop", filter(None, (answer, more)))
        if status == DONE:
            self._screen.say(by_hand(answer))
        return status, answer

    def _add_last(self, line: str) -> Steps[Answer]:
        """Adds to the game that is over while its board is watched, or while the pieces are set up."""
        session, name = self.session, self.session.game.paths.name
        adds = functools.partial(_added_last, session.game, line, self._is_there, self._guard.now())
        what, course, self._added = yield from self._changed(ADDED, adds)
        self._screen.say(Message("typed.added_by_hand_to", name=name, what=what))
        self._watch_on(course)
        return DONE, Message("typed.added_to", name=name, what=what)

    def _watch_on(self, course: Course) -> None:
        """The game is over still, and is this now."""
        session = self.session
        session.close_now()
        session.course = course
        session.ups.append(News.PLACED)
        session.watch_on()

    # What is taken off.

    def _take_result_off(self) -> Steps[Answer]:
        """Takes the result off: the game goes on."""
        game, course = self.session.game, self.session.course
        if isinstance(self.session.now, Playing):
            if course.result == NO_RESULT and not course.plies and kept_forfeit(game.paths):
                return DONE, self._unforfeited(course.plies)  # its board may be away
            return DONE, (yield from self._put(Back(ALL)))
        is_there = self._is_there
        said = yield from self._changed(TAKEN_OFF, lambda: or_reopened(game, lambda: reopen(game, is_there)))
        yield from self._go_on(said)
        return DONE, said

    def go_back(self, typed: Anew) -> Steps[Answer]:
        """Takes plies off, or puts others in their place, and a game that was over goes on; between two games of a series it stays over if
        the board still shows what was taken off."""
        game, now = self.session.game, self.session.now
        if isinstance(now, Playing):
            return DONE, (yield from self._put(typed))
        may_stay = isinstance(now, SettingUp)
        listens = self._is_there or may_stay
        return (yield from self._change_last(lambda: change_closed(game, typed, listens, may_stay)))

    def _change_last(self, change: Callable[[], str]) -> Steps[Answer]:
        """The game that is over changes so: it goes on, or stays over."""
        game = self.session.game
        done, course = yield from self._changed(TAKEN_OFF, functools.partial(_changed_so, game, change, self._guard.now()))
        if course is None:
            yield from self._go_on(done)
        else:
            self._screen.say(done)
            self._watch_on(course)
        return DONE, linked("colon", (game.paths.name, done))

    def undo(self) -> Steps[Answer]:
        """Takes back the line that was obeyed last: the game is what it would be without it."""
        session, game = self.session, self.session.game
        line, put = to_undo(self._last, game)
        if not isinstance(session.now, Playing):
            answer = yield from self._change_last(lambda: put_undone(game, undone(game, line, put, game.capture.bytes())))
        else:
            way = yield from self._asked(TAKEN_OFF, functools.partial(undone, game, line, put))
            session.hold()
            yield from self._beside(functools.partial(ask_first, game.paths, way))
            answer = DONE, (yield from self._replace(way) if put.end is None else self._end_again(way))
        self._last = Obeyed(UNDO, game.capture, why=Message("undo.twice", line=shown(line)))
        return answer

    def _end_again(self, way: Undone) -> Steps[str]:
        """The recorded game was over before a line, and is over again without it."""
        session, game = self.session, self.session.game
        self._playing(TAKEN_OFF)
        session.close_now()
        session.now = None
        try:
            done, course = yield from self._beside(functools.partial(_changed_so, game, lambda: put_undone(game, way), self._guard.now()))
            session.restored()
        except Exception:  # it goes on all the same
            yield from self._begin_anew()
            raise
        self._screen.say(done)
        if course:
            self._watch_on(course)
        if not self._plan.rules.series:
            session.ups.append(News.OVER)
        return linked("colon", (game.paths.name, done))

    def _put(self, typed: Anew) -> Steps[str]:
        """The recorded game changes so. Returns what was done."""
        session = self.session
        if isinstance(typed, Recover):
            between = yield from self._asked(ADDED, functools.partial(put_between, session.game, typed.moves))
            session.hold()
            return (yield from self._replace(between))
        game, line, changes = session.game, typed.line if isinstance(typed, Instead) else "", typed
        said = yield from self._asked(TAKEN_OFF, lambda sent: ask_for_way(game.program, game.options, sent, changes))
        session.hold()
        way = way_of(said, session.course.plies, line)
        if said.put and way is None:  # not all of it has been reported yet
            course = yield from self._beside(lambda: game_of(game.program, game.options, game.capture.bytes()))
            way = way_of(said, course.plies, line)
        if way is None:
            raise no_way(said, typed, game.options.fen, session.course.plies)
        if way.changes_nothing and isinstance(typed, Back):
            if typed.to != ALL:
                raise nothing_goes(way, typed.to)
            return self._unforfeited(way.plies)
        yield from self._beside(functools.partial(ask_first, game.paths, way))
        return (yield from self._replace(way))

    def _replace(self, way: Way) -> Steps[str]:
        """The recorded game gets this capture. Returns what was done."""
        session, game = self.session, self.session.game
        self._playing(TAKEN_OFF)
        session.close_now()
        try:
            kept, opened = yield from self._beside(functools.partial(_put_in_place, session.game, way, self._guard.now()))
        except Exception:  # it goes on all the same
            yield from self._begin_anew()
            raise
        session.record_anew(opened)
        done = linked("stop", (way.words, kept))
        self._screen.say(done)
        session.ups.append(News.PLACED)
        return linked("colon", (game.paths.name, done))

    def _unforfeited(self, plies: Sequence[Move]) -> str:
        """The game isn't forfeited any more. Returns what was done."""
        paths = self.session.game.paths
        done = unforfeited(paths, plies)
        self._screen.say(done)
        self.session.ups.append(News.PLACED)
        return linked("colon", (paths.name, done))

    def _go_on(self, said: str) -> Steps[None]:
        """The game is no longer over."""
        self._screen.say(said)
        self.session.close_now()
        yield from self._begin_anew(is_reopened=True)
        self.session.ups.append(News.REOPENED)

    def _begin_anew(self, is_reopened: bool = False) -> Steps[None]:
        """Starts the recording again from the game's new capture."""
        session = self.session
        session.hold()
        try:
            opened = yield from self._beside(functools.partial(_opened, session.game, self._guard.now()))
        except Exception as error:
            self._guard.raised(error)  # it isn't recorded any more: that begins again after a while
            raise
        session.record_anew(dataclasses.replace(opened, is_reopened=is_reopened))

    # Names, and games that aren't played.

    def _rename(self, prepares: Callable[[], Chooses]) -> Steps[Answer]:
        """The game has other tags from now on: those of `name White=Anna`, or of its line in a table. Its text follows. If it is over, so
        has the next one."""
        session = self.session
        now, game, has_moves = session.now, session.game, bool(session.course.plies)
        is_recorded = isinstance(now, Playing)
        if now is None:
            raise NotDone(JUST_ENDED)
        if not is_recorded:
            yield from self._hold(RENAMED)
        options, told = yield from self._beside(functools.partial(put_names_right, game, prepares, has_moves, is_recorded))
        if session.game is not game:
            raise NotDone(JUST_ENDED)
        if session.now is not now:  # the game is over meanwhile, and its text is made
            return (yield from self._rename(prepares))
        session.game = dataclasses.replace(game, options=options)
        if isinstance(now, Playing):
            now.renamed(session.game)
        for line in told:
            self._screen.say(line)
        session.ups.append(News.PLACED)
        return DONE, linked("colon", (game.paths.name, linked("semicolon", told)))

    def _forfeit(self, typed: Forfeit) -> Steps[Answer]:
        """The result ends the game as if it had been typed; if both players are absent, it has none."""
        game, has = self.session.game, self.session.course.result
        refuse_played(len(self.session.course.plies), has, typed)
        keep_forfeit(game.paths, typed.kind, game.capture.total)
        if typed.result not in (NO_RESULT, has):
            yield from self._add(typed.result, sure=True)
        self._screen.say(Message("typed.added_by_hand", what=typed.words))
        self.session.ups.append(News.PLACED)
        return DONE, Message("forfeit.not_played_of", name=game.paths.name, words=typed.words)

    # The steps that lines have in common.

    def _beside(self, job: Callable[[], Result]) -> Steps[Result]:
        """Waits for a job that is done beside the loop."""
        return beside(self.session.means.worker, job)

    @property
    def _is_there(self) -> bool:
        """Whether the board's device is there. What the board of a game that is over shows counts for what is typed only then: nobody can
        set pieces right on a board that isn't there."""
        return bool(self.session.cable.holds)

    def _playing(self, done: str) -> Playing:
        """The game that is recorded. Refused if it is just being ended, or if its capture can't be written: then nothing can be
        `added`, or `taken off`."""
        session, now = self.session, self.session.now
        if not isinstance(now, Playing) or now.end.is_over or session.is_closing:
            raise NotDone(JUST_ENDED)
        capture = session.game.capture
        if capture.waits:
            why = Message("disk.is_full") if capture.full else Message("file.unwritten_so", path=capture.path, why=capture.trouble)
            raise NotDone(Message("typed.nothing_can_be", why=why, done=done, mend=mend_of(capture.full)))
        return now

    def _asked(self, done: str, asks: Callable[[bytes], Result]) -> Steps[Result]:
        """What the program answers, given all that the board has sent by then."""
        game = self.session.game
        for tries in range(TRIES + 1):
            if tries == TRIES:
                yield from self._hold(done)
            now, path, size = self._playing(done), game.paths.capture, game.capture.size
            answer = yield from self._beside(functools.partial(_asked_of, asks, path, size))
            if self._playing(done) is not now:
                raise NotDone(JUST_ENDED)
            if game.capture.size == size and now.attended.attending.is_settled:
                break
        return answer

    def _hold(self, done: str) -> Steps[None]:
        """From now on what the board sends is held. Waits until the program has answered all that it was told before."""
        self.session.hold()
        now = self.session.now
        if now:
            attending = now.attended.attending
            yield lambda resume: self._once_settled(attending, resume)
            if not attending.is_settled:
                raise NotDone(Message("typed.not_now", done=done))

    def _once_settled(self, attending: Attending, resume: Resume) -> None:
        """Resumes then, or after a while."""
        waits = [resume]

        def ends() -> None:
            if waits:
                timer.cancel()
                waits.pop()(lambda: None)

        timer = self._guard.after(PATIENCE, ends)
        attending.then(ends)

    def _on_the_disk(self) -> Steps[None]:
        """Waits until the capture is on the disk. If the disk has a fault, its text says so."""
        number = os.dup(self.session.game.capture.number)
        yield from self._beside(functools.partial(_sync, number))

    def _changed(self, done: str, change: Callable[[], Result]) -> Steps[Result]:
        """Changes the files of a game that is over, while its board isn't watched; the caller watches it again, or records it. If it
        is refused, everything stays as it was."""
        session, now = self.session, self.session.now
        if not isinstance(now, (Watched, SettingUp)) or session.next.is_anew or session.game.capture.waits:
            raise NotDone(Message("typed.not_now", done=done))
        yield from self._hold(done)
        if session.now is not now:
            raise NotDone(Message("typed.not_now", done=done))
        session.pause()
        try:
            changed = yield from self._beside(change)
        except OSError:  # its capture may have lost what came after its end
            session.close_now()
            session.restored()
            session.watch_on()
            raise
        except Exception:
            session.go_on()
            raise
        session.restored()
        return changed


def by_hand(answer: str) -> str:
    """An answer in the words of the game's log, which has what the board has shown too."""
    if not isinstance(answer, Message):
        return answer
    if answer.key == "typed.added_to":
        return Message("typed.added_by_hand_to", name=answer.places["name"], what=answer.places["what"])
    return answer.with_places(lambda place: by_hand(place) if isinstance(place, str) else place)


# What is done beside the loop.


def _asked_of(asks: Callable[[bytes], Result], path: str, size: int) -> Result:
    number = open_regular(path, os.O_RDONLY)
    try:
        sent = part_of(number, 0, size)
    finally:
        os.close(number)
    return asks(sent)


def _sync(number: int) -> None:
    try:
        with contextlib.suppress(OSError):
            os.fsync(number)
    finally:
        os.close(number)


def _added_by(game: Game, line: str, sent: bytes) -> Said:
    return ask_to_add(game.program, game.options, sent, line)


def _added_last(game: Game, line: str, is_there: bool, now: float) -> Tuple[str, Course, range]:
    """What was added to a game that is over, its course then, and where in the capture that is, unless that was made anew."""
    end, size, generation = end_mark(game.paths), game.capture.size, game.times.generation
    begins = size if end is None else end
    what = add_and_make(game, line, is_there)
    added = range(begins, begins + game.capture.size - size) if game.times.generation == generation else range(0)
    return what, course_of(game, now), added


def _changed_so(game: Game, change: Callable[[], str], now: float) -> Tuple[str, Optional[Course]]:
    """How a game that is over, or isn't recorded meanwhile, has changed, and its course then; None if it goes on."""
    done = or_reopened(game, change)
    return done, None if end_mark(game.paths) is None else course_of(game, now)


def _put_in_place(game: Game, way: Way, now: float) -> Tuple[str, Opened]:
    return put_way(game, way), _opened(game, now)


def _opened(game: Game, now: float) -> Opened:
    return Opened(game, read_game(game, None, now))
