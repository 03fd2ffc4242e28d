"""The session of one board: its games while they are recorded, a single one, or one after the other. It takes what happens, at whatever stage
its game is, and yields what goes up to its owner."""

from __future__ import annotations

import functools
import os
from dataclasses import dataclass, field
from typing import Deque, Iterable, Iterator, List, Optional, Tuple, Type, Union, cast

from live.board.cable import ANOTHER, AskedFirst, Cable, Foreign, FromCable, Gone, OtherBoard, OwnIsBack, Strangers, limit
from live.board.calls import Control
from live.board.connection import Connection, Happened
from live.board.over import SettingUp, Watched, begin_anew, begin_next, not_begun
from live.board.plan import Asked, BeginsBehind, Ended, Ends, LooksFrom, Means, News, Next, Numbered, Others, Plan, Reason, StartShown, Stopped, Up, told_of_end
from live.board.playing import Playing, unwritten_of
from live.board.state import Moves, Standing, told_of
from live.child.lines import LENT, NUMBER, Answer
from live.game.attending import OF_THE_LINE, Reader, Told
from live.game.files import text_of
from live.game.game import Game, end_mark, forget_question, keep_serial, kept_other, kept_serial, mark_end, mebibytes, nothing_old
from live.game.log import Log
from live.game.looks import Look, Looks, keep_one_more, kept_looks
from live.game.making_pgn import Made
from live.game.opening import Opened
from live.game.times import ASKED, BROUGHT, CALLED, HEARD, TOOK, line_after
from live.game.typed import dump_at_end
from live.run.refused import FAILED, Broken, Refused
from live.words.message import Message, linked

TICK = 1.0  # seconds between two looks at what waits, and between two tries to begin a game anew
LENDS = "lends"  # the game's board has sent this on another game's cable
NOTED = (*OF_THE_LINE, TOOK)  # news that the game's times have too
Stage = Union[Playing, SettingUp, Watched]


@dataclass
class Waits:
    """What whoever attends the board next is told first: how the line is, and what the board has sent and no game has taken. And what has come
    while a typed line is obeyed, if it is held."""

    line: Tuple[str, ...] = ()
    left: List[bytes] = field(default_factory=list)
    held: Optional[List[Happened]] = None


class Session:
    """Records the games of one board, one after the other, until it is ended."""

    def __init__(self, means: Means, plan: Plan, opened: Opened, others: Others, asked: Optional[AskedFirst] = None) -> None:
        self.means, self.plan = means, plan
        self.strangers = Strangers(others, bool(plan.serial))
        self.next, self._ends, self._waits = Next(plan.before), Ends(), Waits()
        number = plan.serial or kept_serial(opened.game.paths)
        program = opened.game.program
        connection = asked.connection if asked else Connection(means.guard, program, plan.device, self.happened)
        self.cable = Cable(means, program, plan, number, connection, self._of_another)
        self.now: Optional[Stage] = None  # the stage of the game, which gets what the program says
        self._take(opened.game)
        if plan.serial:
            self._numbered(plan.serial)
        self.course = opened.old.course
        if plan.rules.series and (opened.is_over or opened.is_full):
            self._await_start(None, reader=opened.reader)
        elif plan.rules.listens and opened.is_over:
            self._await_moves(reader=opened.reader)
        else:
            self._record(opened)
        if opened.reader:
            opened.reader.close()  # unless it attends the board
        means.guard.after(TICK, self._each_second)
        if asked:
            asked.pass_on(self.happened)
        else:
            connection.begin()

    @property
    def ups(self) -> Deque[Up]:
        """What has gone up and wasn't taken yet."""
        return cast("Deque[Up]", self.means.guard.ups)

    def turn(self) -> Iterator[Up]:
        """What has gone up since the last turn, in order, but for what the session takes itself. Whoever calls it takes all of that."""
        while self.ups:
            up, now = self.ups.popleft(), self.now
            if isinstance(up, Ended):
                self._over(up.reason)
            elif isinstance(up, BeginsBehind):
                self.means.guard.after(0, functools.partial(self._begin_behind, up.size))
            elif isinstance(up, StartShown):
                if isinstance(now, SettingUp) and not self._ends.is_ending and not self._ready(now.content_from(up.offset)):
                    now.not_begun()
            elif isinstance(up, LooksFrom):
                if isinstance(now, SettingUp):
                    self._look_from(now, up.offset)
            elif up is News.RESTORED:
                self.game.times.restored()
                self.restored()
            elif up is News.SET_UP:
                self.means.guard.after(0, self.end)
            else:
                yield up
                if isinstance(up, Numbered):
                    self._keep_number(up.number)

    def _each_second(self) -> None:
        self.means.guard.after(TICK, self._each_second)
        if self.now and not self.now.attended.is_closed:
            self.now.each_second()

    def _take(self, game: Game) -> None:
        """Makes this the game: its log is kept, and other calls may ask for it."""
        self.game = game
        self.means.screen.keep(Log(game.paths.log))
        game.times.attend(self.means.guard, self.means.screen.note)
        self._listen()

    def _listen(self) -> None:
        control = Control(self.means.guard, self.game.capture.number, lambda text, answered: self.ups.append(Asked(text, answered)), self.plan.board)
        self._close_control = self.means.guard.opened(control.close)

    def restored(self) -> None:
        """The capture is another file now."""
        self._close_control()
        self._listen()

    # What comes over its cable, and what the program says.

    def happened(self, it: Happened) -> None:
        """This happens on its cable."""
        if it.what == HEARD and self.now and self._waits.held is None and self.cable.another.attending is None:
            self._hears(self.now, it.sent)  # the shortest way, since somebody waits for what follows from it
        else:
            self.does(self.cable.happens(it, self.standing))

    def _hears(self, now: Stage, sent: bytes) -> None:
        now.attended.attending.tell(HEARD, sent)
        if isinstance(now, SettingUp):
            now.came(sent)

    def takes(self, sent: bytes) -> None:
        """The board has sent this on another game's cable."""
        self.does(self.cable.plays_elsewhere())
        self._comes(Happened(LENDS, sent))

    def _answered(self, told: Told, answer: Answer) -> None:
        """The program answers what was told: what it keeps is written first, then the cable does as it says, then it counts."""
        now = self.now
        assert now
        if answer.kept:
            now.keeps(answer.kept, at=told.at)
        for one in self.cable.answered(told, answer, now.standing):
            self._does(one)
        if not now.attended.is_closed:
            now.takes(told, answer)

    def _of_another(self, told: Told, answer: Answer) -> None:
        self.does(self.cable.of_another(told, answer, self.standing))

    def _child_ended(self, text: str, is_broken: bool) -> None:
        if is_broken:
            self._fail(Message("board.failed_again", what=text, played=Message("board.played_is_in", pgn=self.game.paths.pgn)), Broken)
        else:
            self.means.screen.say(text)

    def does(self, said: Iterable[FromCable]) -> None:
        """Does what comes of the cable, one after the other."""
        for one in said:
            self._does(one)

    def _does(self, one: FromCable) -> None:
        if isinstance(one, Happened):
            self._comes(one)
        elif isinstance(one, Numbered):
            self._numbered(one.number)
        elif isinstance(one, (OtherBoard, OwnIsBack)):
            is_over = bool(self.now) and not self.standing and self.course.result != "*"
            for told in self.strangers.told(one, self.cable, kept_other(self.game.paths), bool(self.course.plies), is_over):
                self.look_at(told) if isinstance(told, Look) else self.means.screen.say(told)
        elif isinstance(one, Foreign):
            while one.sent and self.strangers.others.takes(one.number, one.sent[0]):
                one.sent.pop(0)
        elif isinstance(one, Gone):
            self._gone(one.message, one.was_there)
        else:
            self.ups.append(one)

    def _comes(self, it: Happened) -> None:
        """This goes to the program and to the game's times; or it is held."""
        self._waits.line = () if it.what == ANOTHER else line_after(self._waits.line, it.what)
        if it.what == ASKED:
            self.game.times.happened(ASKED, it.size)
        elif self._waits.held is None:
            self._passes(it.what, it.sent)
        else:
            self._waits.held.append(it)
            limit(self._waits.held)

    def _passes(self, what: str, sent: bytes) -> None:
        now = self.now
        if what in NOTED and not (now and now.attended.attending.notes):
            self.game.times.happened(what)
        if now is None:
            self._waits.left.append(sent)
        elif what == HEARD:
            self._hears(now, sent)
        elif what == LENDS:
            now.keeps(sent, BROUGHT)
            now.attended.attending.tell(BROUGHT, sent)
        elif what == ANOTHER:  # it is told that the line isn't there, and that somebody else has what it has kept aside
            now.attended.attending.tell(CALLED)
            now.attended.attending.tell(LENT)
        else:
            now.attended.attending.tell(what)

    def _begun(self, now: Stage, is_known: bool = False) -> None:
        """The program attends the board anew: it is told whose board that is, how the line is, and what is left. That may be known to the
        program that attended the game."""
        left, self._waits.left = b"".join(self._waits.left), []
        if self.cable.number:
            now.attended.attending.tell(NUMBER, self.cable.number.encode("ascii"))
        for what in self._waits.line:
            now.attended.attending.tell(what)
        if left and is_known:
            now.attended.attending.tell(HEARD, left)
        elif left:
            self._hears(now, left)
        if self._waits.held is not None:
            now.attended.attending.pause()

    def hold(self) -> None:
        """From now on what the board sends is held, until the line is answered, and the program isn't woken."""
        if self._waits.held is None:
            self._waits.held = []
            if self.now:
                self.now.attended.attending.pause()

    def let_go(self) -> None:
        """What was held is recorded. Nothing more is held."""
        held, self._waits.held = self._waits.held, None
        if self.means.guard.ended:
            return
        if held is not None and self.now:
            self.now.attended.attending.go_on()
        for it in held or ():
            self._passes(it.what, it.sent)
        if self._ends.is_put_off:
            self._ends.is_put_off = False
            self.end()

    # Its games.

    def _stands_at(self, now: Stage, took_over: bool = False) -> None:
        """From now on this is the stage, which gets the board's bytes and the cable's state."""
        self.now = now
        if now.standing:
            now.standing.look(self.looks.short)
            self.cable.tell(now.standing)
        if not took_over:
            self._begun(now)

    def close_now(self) -> None:
        """The stage ends. What the board has sent and the program hasn't taken is left for the next one."""
        if self.now:
            self._waits.left.append(self.now.close())

    def _record(self, opened: Opened, says: bool = True, remakes: bool = False) -> None:
        self._ends.reason = None
        paths, before = self.game.paths, self.now.attended if self.now and not says else None
        if says:
            device = self.plan.device or Message("table.no_board")
            records = Message("board.records", device=device, capture=paths.capture, pgn=paths.pgn)
            # In a round Ctrl-C would end all boards.
            self.means.screen.say(records if self.plan.board else linked("semicolon", (records, Message("board.ctrl_c_ends"))))
        playing = Playing(self.means, opened, self.plan.rules, before)
        self.course = playing.course
        playing.attend(self._answered, self._child_ended, opened, before)
        self._stands_at(playing)
        if remakes:
            playing.remake()  # what is under way for the game before may arrive late

    def record_anew(self, opened: Opened) -> None:
        """The game is recorded, from its new capture. Nothing of it is reported again."""
        self.restored()
        opened.old.course.news.clear()
        self._record(opened, says=False, remakes=True)

    def _over(self, reason: Reason) -> None:
        self._ends.reason = reason
        if reason is Reason.LIMIT and not self.plan.rules.series:
            has = Message("file.has", path=self.game.paths.capture, mebibytes=mebibytes(self.game.options))
            self._ends.refused = Refused(FAILED, Message("file.has_most_of_a_game", has=has))
        self.means.guard.after(0, self._close_game)

    def _close_game(self) -> None:
        if self._ends.is_ending or self._ends.is_closing or not isinstance(self.now, Playing):
            return
        self._ends.is_closing = True
        is_attended = self._ends.reason is not None and self.plan.rules.attends(self._ends.reason)
        if not is_attended:
            self._ends.is_ending = True
            self.cable.last_words()
        self.now.finish(self._game_closed, is_attended)

    def _game_closed(self, unwritten: str) -> None:
        before = self.now if isinstance(self.now, Playing) else None
        if self._ends.reason and before:
            known = self.course if before.end.was_over else None
            self.means.screen.say(*told_of_end(self.plan, self.game.paths.name, self._ends.reason, self.means.screen, known))
        self._ends.is_closing = False
        if self._ends.is_ending or not before or (unwritten and not self.plan.rules.series):
            self.close_now()
            self.now = None
        if self._ends.is_ending:
            self._all_closed(unwritten)
        elif self.plan.rules.series:
            self._await_start(before.end.size if before else None, before)
        elif unwritten:
            self._ends.is_ending = True
            self.cable.last_words()
            self._all_closed(unwritten)
        else:
            self._await_moves(before)
            self.ups.append(News.OVER)

    def _await_moves(self, before: Optional[Playing] = None, reader: Optional[Reader] = None) -> None:
        """The game is over: moves that are still made are reported."""
        alarms, end = (before.attended.alarms, None) if before else (None, end_mark(self.game.paths) or 0)
        watched = Watched(self.means, self.game, self.course, alarms, end)
        goes_on = watched.attend(self._answered, self._child_ended, before.attended if before else None, reader)
        if before and goes_on:
            self.means.guard.after(0, functools.partial(watched.has_heard, before.end))
        if before:
            self.close_now()
        self._stands_at(watched, goes_on)

    def watch_on(self) -> None:
        """The game is over, and its board is watched as before."""
        if self.plan.rules.series:
            self._look_for_start(end_mark(self.game.paths))
        else:
            self._await_moves()

    def _await_start(self, end: Optional[int], before: Optional[Playing] = None, reader: Optional[Reader] = None) -> None:
        """The game is over, and the next one begins when the pieces are at the start."""
        paths, size = self.game.paths, self.game.capture.size
        mark = end_mark(paths)
        end = (size if mark is None else mark) if end is None else end
        if mark is None:
            try:
                mark_end(paths, self.game.capture, end)
                self.game.times.over(end)
            except OSError as error:
                self.means.screen.say(Message("file.unwritten_so", path=paths.end, why=text_of(error)))
        self.means.screen.say(Message("over.next_begins", name=self.plan.after(self.game.paths).name))
        self._look_for_start(end, before, reader)

    def _look_for_start(self, end: Optional[int], before: Optional[Playing] = None, reader: Optional[Reader] = None) -> None:
        alarms, end = before.attended.alarms if before else None, self.game.capture.size if end is None else end
        setting_up = SettingUp(self.means, self.game, self.course, alarms, end)
        self._waits.left.append(setting_up.attend(self._answered, self._child_ended, before, reader))
        if before:
            self.close_now()
        self._stands_at(setting_up)

    def _look_from(self, now: SettingUp, offset: int) -> None:
        """Another child looks for the start. Who hears of moves after the game was told what is left when it came."""
        self._waits.left.append(now.attended.attending.take())
        now.look_from(self._answered, self._child_ended, offset)
        self._begun(now, is_known=True)

    def pause(self) -> None:
        """The capture isn't used: it is just being changed."""
        if isinstance(self.now, (SettingUp, Watched)):
            self._waits.left.append(self.now.pause())

    def go_on(self) -> None:
        """It is used again, and is what it was."""
        if isinstance(self.now, (SettingUp, Watched)) and self.now.go_on(self._answered, self._child_ended):
            self._begun(self.now)

    def _begin_behind(self, size: int) -> None:
        """What looked like the first move of this game was part of its set-up, as so many bytes of the capture were: it begins with the board
        as it stood with these. If that can't be written, it is tried again."""
        if not isinstance(self.now, Playing) or self._ends.is_ending or self._ends.is_closing:
            return
        self.next.is_anew, capture = True, self.game.capture
        start = dump_at_end(self.game.program, self.game.options, capture.bytes(0, size))
        if not self._ready(start + capture.bytes(size)):
            self.means.guard.after(TICK, functools.partial(self._begin_behind, size))

    def _ready(self, content: bytes) -> bool:
        """The pieces are at the start: the capture of the next game begins with it, or that of this one anew. Returns whether it could begin;
        why not is said once."""
        game, capture, is_next = self.game, self.game.capture.number, not self.next.is_anew
        paths = self.plan.after(game.paths) if is_next else game.paths
        if is_next and os.path.exists(paths.pgn):
            self._fail(Message("name.text_alone", pgn=paths.pgn, capture=paths.capture))
            return False
        try:
            begun = begin_next(game, paths, content, self.looks) if is_next else begin_anew(game, content)
        except OSError as error:
            if game.capture.number != capture:
                self.restored()
            told = not_begun(paths.name, error)
            if told != self.next.why_not and self.standing and not self.standing.trouble:
                self.next.why_not = told
                self.means.screen.say(told)
            return False
        if is_next:
            self.next.before = game.paths
        else:
            self.means.screen.say(Message("board.set_up", name=paths.name))
        self.next.is_anew, self.next.why_not = False, ""
        self.close_now()
        forget_question(game.paths)
        self._close_control()
        game.times.close()
        game.capture.close()
        self.means.guard.opened(begun.capture.close)
        self._take(begun)
        if self.cable.number:
            self._numbered(self.cable.number)
        self._record(Opened(begun, nothing_old(begun.options, begun.capture.size)), remakes=True)
        return True

    def _numbered(self, number: str) -> None:
        """The serial number of its board is this from now on."""
        if self.now:
            self.now.attended.attending.tell(NUMBER, number.encode("ascii"))
        kept = kept_serial(self.game.paths)
        if kept and number != kept:
            self._keep_number(number)
        elif not kept:
            self.ups.append(Numbered(number))

    def _keep_number(self, number: str) -> None:
        try:
            keep_serial(self.game.paths, number)
        except OSError as error:
            self.means.screen.say(Message("file.unwritten_so", path=self.game.paths.serial, why=text_of(error)))

    def look_at(self, look: Look) -> None:
        """Raises an alarm."""
        if self.now:
            self.now.look_at(look)
            return
        keep_one_more(self.game.paths, look)
        self.means.screen.say(*told_of(look, self.means.screen.typed, Moves([ply.short for ply in self.course.plies])))

    def _gone(self, message: str, was_there: bool) -> None:
        """The board isn't there and isn't waited for, or another process has its line."""
        ends = was_there and self.course.result != "*" and not self.plan.board
        if self.now and (ends or not self.standing):  # its game is over, or ends so
            self.means.guard.after(0, self.end)
            return
        self._fail(Message("board.gone_and_played", why=message, pgn=self.game.paths.pgn) if was_there else message)

    @property
    def standing(self) -> Optional[Standing]:
        """The board's state; None if its game is over."""
        return self.now.standing if self.now else None

    @property
    def looks(self) -> Looks:
        """The alarms of the game."""
        return self.now.attended.alarms.looks if self.now else kept_looks(self.game.paths)

    @property
    def is_closing(self) -> bool:
        """Whether the recorded game is just being ended, or begun anew."""
        return self._ends.is_closing or self.next.is_anew or self._ends.reason is not None

    def _fail(self, message: str, kind: Type[Refused] = Refused) -> None:
        self._ends.refused = self._ends.refused or kind(FAILED, message, Message("board.start_again"))
        self.means.guard.after(0, self.end)

    def end(self) -> None:
        """Ends everything in order. A second call does nothing."""
        if self._ends.is_ending:
            return
        if self._waits.held is not None:
            self._ends.is_put_off = True  # files are just being put in place
            return
        self._ends.is_ending = True
        self.cable.last_words()
        if self._ends.is_closing:
            return  # the game is being closed, and everything after it
        if self.now:
            self.now.finish(self._game_closed)
        else:
            self._all_closed(unwritten_of(self.game, Made()))

    def _all_closed(self, unwritten: str) -> None:
        forget_question(self.game.paths)
        if unwritten and self._ends.refused is None:
            self._ends.refused = Refused(FAILED, unwritten, Message("board.start_again_when_right"))
        self.ups.append(Stopped(self._ends.refused))
