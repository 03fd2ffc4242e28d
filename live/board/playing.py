"""A game whose board the program attends, and the stage in which it is played, from its first byte to its text: what the program keeps goes into
the capture first; what is reported is printed then, and counts; and NAME.pgn is made anew if the game has changed. What can't be written ends
nothing: it is tried again, and each error is reported once."""

from __future__ import annotations

import os
from dataclasses import dataclass, field
from typing import Callable, Iterator, List, Optional, Sequence, Tuple

from live.board.hidden import Hidden
from live.board.plan import SAID, BeginsBehind, CameBack, Ended, Means, News, Reason, Rules, Up
from live.board.state import DISK_FULL, IN_MEMORY, Moves, Standing, lasting, mend_of, told_of, told_of_exchange, trouble_of
from live.child.lines import STOOD, SUSPECT, Answer, Differs, Doubt, Event, Fault, Line, Move, Over, Picture, Reported, Result
from live.game import times
from live.game.attending import Attending, Ended as ChildEnded, Hears, Past, Reader, Told
from live.game.files import folder_of, text_of, unwritten
from live.game.game import Game, forget_question, front_of, largest, mark_end, mebibytes
from live.game.kept import Capture
from live.game.log import Screen
from live.game.looks import Alarms, Look, acknowledged, byte_of, corrected, look_of, name_of, unheard
from live.game.making_pgn import Made, Maker, told_of_edit
from live.game.opening import Opened
from live.game.times import ADDED, BACK, BEGIN, HEARD, LOOKED, OVER, REOPENED
from live.run.loop import Callback, Resume, Steps, Timer
from live.words.message import Message, linked

PATIENCE = 5.0  # seconds that the last answers may take
LARGE = 48 * 1024 * 1024  # bytes of a capture, at which somebody may still look at its board
STANDS = 10  # seconds that a result stands before the program says that it ends a game


class Disk:
    """Appends to a capture, tries failed writes again, and reports each error once. Where no state is shown nothing is reported."""

    def __init__(self, screen: Screen, standing: Optional[Standing], capture: Capture) -> None:
        self._screen, self._standing, self._capture = screen, standing, capture
        self.text = ""  # what keeps the text from being written, in the words of a state
        self._not_restored = ""
        self._told = ""  # why the capture can't be written, as it was reported

    def append(self, sent: bytes) -> int:
        """Appends what the board has sent or somebody has added. Returns how many bytes of it are kept."""
        lost = self._capture.lost
        kept = self._capture.append(sent)
        if self._standing is None:
            return kept
        if self._capture.trouble or self._told:
            self.look()
        if self._capture.lost and not lost and not self._capture.at_limit:
            self._screen.say(Message("disk.lost", path=self._capture.path))
        return kept

    def try_again(self) -> bool:
        """Tries again what has failed. Call this each second. Returns whether the capture was removed, and is written again."""
        is_restored = self._standing is not None and self.restore()
        if self._capture.waits:
            self._capture.write()
        self.look()
        return is_restored

    def look(self) -> None:
        """Reports changes, also those of the text."""
        if self._standing is None:
            return
        before, why, full = self._standing.trouble, self._capture.trouble, self._capture.full
        trouble = trouble_of(full) if self._capture.waits else self.text
        if trouble == before and why == self._told:
            return
        self._told = why
        if self._capture.waits:
            told = Message("disk.unwritten", trouble=trouble, path=self._capture.path, why=why, mend=mend_of(full))
            self._screen.say(told, IN_MEMORY)
        elif not trouble:
            self._capture.lost = 0
            self._screen.say(Message("disk.room_again") if before == DISK_FULL else Message("disk.all_written"))
        self._standing.disk(trouble)

    def restore(self) -> bool:
        """If the capture was removed, writes it again as a whole: the open file still has its bytes. Returns whether it was."""
        path = self._capture.path
        if os.path.lexists(path) or not os.path.isdir(folder_of(path)):
            return False
        try:
            self._capture.renew(self._capture.bytes())
        except OSError as error:
            if text_of(error) != self._not_restored:
                self._screen.say(Message("disk.not_restored", path=path, why=text_of(error)))
            self._not_restored = text_of(error)
            return False
        self._not_restored = ""
        self._screen.say(Message("disk.restored", path=path))
        return True


def unwritten_of(game: Game, made: Made) -> str:
    """That the capture or the text of a game can't be written, and why; empty if both are."""
    if game.capture.waits:
        return unwritten(game.capture.path, game.capture.trouble, game.capture.full)
    return made.told(game.paths.pgn) if made.trouble else ""


class Attended:
    """The game, its alarms, and the child that attends its board: at each stage of the game another one, or the same."""

    attending: Attending

    def __init__(
        self, means: Means, game: Game, standing: Optional[Standing] = None, alarms: Optional[Alarms] = None
    ) -> None:
        self.means, self.game = means, game
        self.standing = standing  # None if the board may stand as it likes
        self.disk = Disk(means.screen, standing, game.capture)
        self.alarms = alarms or Alarms(game.paths)
        self.moves: Callable[[], Moves] = Moves  # the plies of the game, as far as advice needs them
        self._late: List[Tuple[Told, Answer]] = []  # what is said of bytes that wait to be written
        self._is_news = False  # whether the state may be another one than the one that is shown
        self._settling: Optional[Timer] = None  # how long it still has to be settled, if it ends
        self.is_handed_over = self.is_closed = self._is_ending = False

    def attend(
        self, hears: Hears, ended: ChildEnded, words: Tuple[str, ...], start: int = 0,
        with_times: bool = False, known: int = 0, reader: Optional[Reader] = None
    ) -> None:  # fmt: skip
        """The program reads what is kept, from an offset on, unless a child has read it. The first `known` lines of its report are left
        out."""
        self._late.clear()
        self.game.capture.lacks = False
        past = Past(self.game.capture, start, self.game.times if with_times else None, reader)
        self.attending = Attending(self.means.guard, self.game.program, words, past, hears, ended, known)

    def take_over(self, before: Attended) -> None:
        """The child that attends this game goes on for another stage of it."""
        self.attending, self._late = before.hand_over(), before._late

    def hand_over(self) -> Attending:
        """The child goes on for another stage."""
        self.is_handed_over = True
        return self.attending

    # What is kept.

    def append(self, sent: bytes, what: str = HEARD) -> None:
        """The capture gets this. Its line in the game's times is written here, unless the program is told of it: then it comes with that."""
        kept = self.disk.append(sent)
        if kept and (what == HEARD or not self.attending.notes):
            self.game.times.happened(what, kept)

    # What counts.

    def counts(self, told: Told, answer: Answer) -> bool:
        """Whether something is said of the game in this answer, and counts now. Its bytes may wait to be written: then it counts later."""
        if not (answer.report or answer.doubts or answer.over or answer.played or answer.begins):
            return False
        self._is_news = True
        if self.game.capture.pending or self._late:
            self._late.append((told, answer))
            return False
        return True

    def counts_late(self) -> Iterator[Tuple[Told, Answer]]:
        """Call this now and then: what has waited, and counts now."""
        if self.alarms.trouble:
            self._keep_looks()
        self.attending.wake()
        if self.game.capture.waits:
            return
        if self.game.capture.lacks:
            self.game.capture.lacks = False
            self.attending.unreported(sum(len(answer.report) for _, answer in self._late))
            self._late.clear()
            self.attending.restart()
        late, self._late = self._late, []
        for told, answer in late:
            if not self.is_closed:
                yield told, answer
        if late and self.standing:
            self.standing.show()

    def goes_up(self, up: Up) -> None:
        """This goes up, to whoever has the session."""
        self.means.guard.ups.append(up)

    @property
    def is_late(self) -> bool:
        """Whether something waits to count."""
        return bool(self._late)

    def stands_as(self, told: Told, answer: Answer) -> None:
        """What is said of its clock, and of how the board stands. As a call begins, nothing is said of a clock that isn't stopped."""
        if self.standing is None or self._is_ending:
            return
        if told.what == BEGIN or answer.clock_stopped is not None:
            self._is_news = self.standing.clock(bool(answer.clock_stopped)) or self._is_news
        if answer.stood:
            self._is_news = True
            self.standing.stands(told.at, answer.stood)

    def shows(self) -> None:
        """All is said of what was told last: the state is shown if it may be news."""
        if self._is_news and self.standing and self.attending.is_settled:
            self._is_news = False
            self.standing.show()

    # What somebody must look at.

    def look_at(self, look: Look, byte: int = 0) -> bool:
        """Somebody must look at this, which is about a ply that came with this byte, if about any. It is said if it is new, and what to
        do. One that is open, and only counts more moves now, is noted in the log. Returns whether it is new."""
        counts_on = any(look.counts_on(one) for one in self.alarms.looks.open)
        if not self.alarms.add(look, byte):
            return False
        if counts_on:
            self.means.screen.note(look.text)
        else:
            self.means.screen.say(*told_of(look, self.means.screen.typed, self.moves()))
        self.look_again()
        return True

    def look_again(self) -> None:
        """The alarms have changed."""
        if self.standing:
            self.standing.look(self.alarms.looks.short)
        if self.alarms.trouble:
            self.means.screen.say(Message("file.unwritten_again", path=self.game.paths.look, why=text_of(self.alarms.trouble)))

    def acknowledge(self) -> str:
        """Acknowledges the alarms. Returns the answer. A child that attends the game later hears of it too."""
        seen = acknowledged(self.alarms.acknowledge())
        self.means.screen.say(seen)
        if self.attending.notes:
            self.attending.tell(LOOKED)
        else:
            self.game.times.happened(LOOKED)
        self.look_again()
        return seen

    def _keep_looks(self) -> None:
        """Tries again to keep the alarms beside the game."""
        self.alarms.keep()
        if not self.alarms.trouble:
            self.means.screen.say(Message("file.is_written", path=self.game.paths.look))

    # How it ends.

    def settle(self, done: Callback) -> None:
        """Calls this once all is answered, or after a while: then what has no answer is kept too, if what came before was."""

        def late() -> None:
            self._settling = None
            keeps, left = self.attending.board.keeps, self.attending.take()
            if left and keeps:
                self.append(left)
            done()

        def ended() -> None:
            if self._settling:
                self._settling.cancel()
                self._settling = None
                done()

        self._is_ending = True  # that the line is closed now is no state of the board
        self._settling = self.means.guard.after(PATIENCE, late)
        self.attending.then(ended)

    def close(self) -> bytes:
        """Ends everything under way. The capture stays open. Returns what the board has sent, and the program hasn't taken, unless the child
        goes on."""
        self.is_closed = True
        if self._settling:
            self._settling.cancel()
            self._settling = None
        if self.standing:
            self.standing.close()
        return b"" if self.is_handed_over else self.attending.take()


@dataclass
class LastHeard:
    """When the board was heard last in this call, and for how long this recorder was away by then. A board that has come back was heard
    last at `before`, if it was, and the recorder `has_slept` meanwhile; it `is_back` until it has shown its pieces."""

    away: float
    at: Optional[float] = None
    is_back: bool = False
    before: Optional[float] = None
    has_slept: bool = False


@dataclass
class End:
    """How the game ends, as far as it is known: how many bytes are the game's, if not all are; whether it was over before this call; moves
    that were made since, and whether the start was shown since; moves that were reported behind the end."""

    size: Optional[int] = None
    was_over: bool = False
    played: int = 0
    is_set_up: bool = False
    dropped: List[Move] = field(default_factory=list)
    is_over: bool = False  # it is recorded no more
    has_ended: bool = False  # and that is because the game has ended
    is_marked: bool = False  # and NAME.end must say how many bytes are the game's
    is_reopened: bool = False  # by an arbiter, and the program doesn't know it yet
    begins_anew: bool = False  # the game begins only now, and what follows belongs to its new capture
    is_heard: bool = False  # all is heard, and what comes now doesn't count


@dataclass
class ByHand:
    """What an arbiter has added last: its bytes, and the result if it is one; whether the game has it, once that is known; and what waits
    for that."""

    bytes: range = range(0)
    result: str = ""
    is_put: Optional[bool] = None
    waits: Optional[Resume] = None


class Playing:
    """A game on a board. What came before this call was reported then."""

    def __init__(
        self, means: Means, opened: Opened, rules: Rules, before: Optional[Attended] = None
    ) -> None:
        self._rules, game, self.course = rules, opened.game, opened.old.course
        has_shown = before is not None and before.attending.board.has_shown
        stood = before.standing if before and has_shown and before.standing and before.standing.is_played else None
        self.standing = Standing(means.guard, means.screen, game.options.rotated, has_shown=has_shown, before=stood)
        self.standing.was_away = bool(opened.old.lines)  # what it showed before this call is long ago
        self.attended = Attended(means, game, self.standing)
        self.attended.moves = lambda: Moves([ply.short for ply in self.course.plies])
        self.standing.board.look = self.attended.alarms.looks.short
        self._old = opened.old.size  # bytes from before this call
        self.end, self._by_hand, self._heard = End(), ByHand(), LastHeard(means.guard.away.seconds)
        self._faults: List[str] = []
        self._is_large = False  # and that was said
        self._suspected: List[int] = []  # the boards with which its cable may have been exchanged, until somebody has looked
        self._maker = Maker(means.guard, means.worker, game, self._made)
        self._hidden = Hidden(means, game, self.standing)
        game.capture.limit = largest(game.options)
        if opened.old.lines:
            self._tell_old()

    def attend(
        self, hears: Hears, ended: ChildEnded, opened: Opened, before: Optional[Attended]
    ) -> None:  # fmt: skip
        """From now on the program attends the board."""
        game, known = self.attended.game, opened.old.lines
        self.attended.attend(hears, ended, game.options.of_live(), with_times=True, known=known, reader=opened.reader)
        attending = self.attended.attending
        self._maker.asks = attending.ask_text
        attending.board.has_shown = before is not None and before.attending.board.has_shown
        if known:
            attending.then(lambda: self._hear_result(self.course.result))
        if self._old == front_of(game.paths, game.capture) != 0:  # nothing has come since plies were taken off
            self._goes_on(*((BACK, REOPENED) if self.course.result == "*" else (BACK,)))  # the moves that came may end with mate
        elif opened.is_reopened and self.course.result == "*":  # as the times of the calls before say, if they could be written
            self._goes_on(REOPENED, BACK)

    def _goes_on(self, *told: str) -> None:
        """An arbiter has said that the game goes on. What the program says of its end before it knows that is no end."""
        for what in told:
            self.attended.attending.tell(what)
        self.end.is_reopened = True
        self.attended.attending.then(self._has_gone_on)

    def _has_gone_on(self) -> None:
        self.end.is_reopened = False
        self.end.played, self.end.is_set_up = 0, False  # what came after the end that it had belongs to the game

    def _tell_old(self) -> None:
        """Shows what was played before this call."""
        if self.course.is_given:  # perhaps an arbiter has typed its result just before
            self._by_hand.bytes = times.added_last(self.attended.game.times.content())
            self._by_hand.result = self.course.result if self.course.result_at in self._by_hand.bytes else ""
        for news in self.course.news:
            self.attended.means.screen.told(news.shown, True)
        self.course.news.clear()
        for event in self.course.standing():
            self._stands(event)
        self.standing.show()

    # What the board sends.

    def keeps(self, sent: bytes, what: str = HEARD, at: Optional[float] = None) -> None:
        """The board has sent this, and it is the game's."""
        unheard, heard = self.attended.means.guard.away.seconds - self._heard.away, self._heard
        if self.standing.was_away or unheard:
            heard.away = self.attended.means.guard.away.seconds
            heard.before, heard.has_slept = heard.at, unheard > 0
            if unheard:
                self.attended.means.screen.say(Message("board.slept", time=lasting(unheard)))
            heard.is_back, self.standing.was_away = True, False
        heard.at = self.attended.means.guard.now() if at is None else at
        self._append(sent, what)

    def _append(self, sent: bytes, what: str) -> None:
        game = self.attended.game
        self.attended.append(sent, what)
        if game.capture.size >= LARGE and not self._is_large:
            self._is_large = True
            most = mebibytes(game.options)
            self.attended.means.screen.say(
                Message("file.large", path=game.capture.path, mebibytes=most),
                Message("file.large_ends", mebibytes=most),
            )
        if game.capture.size >= LARGE and game.capture.at_limit:
            self._end(Reason.LIMIT)

    def each_second(self) -> None:
        """Tries again what has failed."""
        attended = self.attended
        if attended.disk.try_again():
            attended.goes_up(News.RESTORED)
        attended.game.times.wake()
        for told, answer in attended.counts_late():
            self._says(told, answer)
        self._maker.wake()
        self._hidden.look()
        if self._faults:
            more = len(self._faults) - 1
            self.attended.means.screen.note(Message("board.faults", fault=self._faults[0], count=more) if more else self._faults[0])
            self._faults.clear()
        self.standing.lasts()

    # What the program says.

    def takes(self, told: Told, answer: Answer) -> None:
        """Takes an answer, whose bytes are kept."""
        attended = self.attended
        if attended.counts(told, answer):
            self._says(told, answer)
        if attended.is_closed:
            return
        attended.stands_as(told, answer)
        if self._heard.is_back and self.standing.board.is_seen and not attended.is_late:
            self._heard.is_back = False
            attended.goes_up(CameBack(self._heard.before, self._heard.has_slept))
        attended.shows()

    def _says(self, told: Told, answer: Answer) -> None:
        """What is said of the game. Where it ended or began comes first, since what is reported behind that isn't this game's."""
        if answer.begins and not self.end.is_over and not self.end.begins_anew:
            self.end.begins_anew = True
            self.attended.goes_up(BeginsBehind(answer.begins))
        if answer.over:
            self._ends_with(answer.over, told.what == BEGIN)
        if answer.events and not self.end.is_heard and not self.end.begins_anew:
            self._hear(told.at, answer.events)
        self._doubts(answer.doubts)
        if answer.over and not self.attended.is_closed:
            self._is_over_by(answer.over)
        if answer.played and not self.attended.is_closed:
            self.end.played = answer.played

    def _hear(self, came: float, report: Sequence[Reported]) -> None:
        """Takes what is reported of bytes that came then. What changes the game is printed first, also before what was reported just before
        is taken, since somebody waits for it."""
        left: List[Line] = []
        for offset, events, shown in report:
            if self.end.size is not None and offset >= self.end.size:  # the game is over with this many bytes
                events, shown = self._behind_the_end(events), []
            left += [Line(offset, event) for event in events]
            if not shown:
                continue
            for text in shown:
                self.attended.means.screen.told(text, offset < self._old)
            if offset >= self._maker.made_of:
                self._maker.want()
                os.sched_yield()  # whoever reads these lines need not wait for what follows
            self._take(left, came)
            left.clear()
        self._take(left, came)

    def _behind_the_end(self, events: Sequence[Event]) -> List[Event]:
        """Those of a byte behind the end that count."""
        self.end.dropped += [event for event in events if isinstance(event, Move)]
        pictures: List[Event] = [event for event in events if isinstance(event, Picture)]
        self.end.is_set_up = self.end.is_set_up or Picture(self.attended.game.options.start) in pictures
        return pictures

    def _take(self, lines: Sequence[Line], came: float) -> None:
        """Takes the events of bytes that came then."""
        for line in lines:
            self.course.take(line, came)
        for offset, event in lines:
            if isinstance(event, Fault) and offset >= self._old:
                self._faults.append(Message("board.fault", fault=event.words, offset=offset))
            self._stands(event)
            if isinstance(event, Result):
                self._hear_result(event.outcome)
        self.course.news.clear()
        self.standing.board.has_gone_back = self.course.has_gone_back

    def _stands(self, event: Event) -> None:
        """What the report says of the board's squares, and of its result, is read with its state."""
        if isinstance(event, Differs):
            self.standing.board.differs = event.squares
        elif isinstance(event, Picture):
            self.standing.shows = event.placement
        elif isinstance(event, Result):
            self.standing.board.result = event.outcome

    def _hear_result(self, result: str) -> None:
        if result == "*" or self.end.is_over or self.end.size is not None:  # the game was over before
            return
        if result == self._by_hand.result:
            self.attended.means.screen.say(linked("semicolon", filter(None, (Message("over.ends_in", seconds=STANDS), self.attended.means.screen.mistyped()))))
        elif self.course.is_given:
            self.attended.means.screen.say(Message("over.ends_soon_kings", seconds=STANDS, reopens=self.attended.means.screen.reopens()))
        else:
            self.attended.means.screen.say(Message("over.ends_soon", seconds=STANDS))

    # What is doubtful.

    def _doubts(self, doubts: List[Doubt]) -> None:
        self._suspects([doubt.plies for doubt in doubts if doubt.where == SUSPECT])
        for doubt in doubts:
            if doubt.where == SUSPECT:
                self.look_at(told_of_exchange(self._suspected))
            elif self.end.size is None or byte_of(doubt, self.course.ends) < self.end.size:
                self.look_at(look_of(doubt, self.course.plies), byte_of(doubt, self.course.ends))

    def look_at(self, look: Look, byte: int = 0) -> None:
        """Somebody must look at this."""
        self.attended.look_at(look, byte)

    def suspect(self, others: Sequence[int]) -> None:
        """The board's cable may have been exchanged with that of one of these boards. The program keeps the suspicions."""
        self._suspects(others)
        for other in others:
            self.attended.attending.tell(times.SUSPECT, count=other)

    def _suspects(self, others: Sequence[int]) -> None:
        self._suspected += [other for other in others if other not in self._suspected]

    def acknowledge(self) -> str:
        """Acknowledges the alarms. Returns the answer."""
        self._suspected.clear()
        return self.attended.acknowledge()

    # Its text.

    def remake(self) -> None:
        """Makes the text anew, whatever is there."""
        self._maker.want()

    def renamed(self, game: Game) -> None:
        """The game has other tags from now on. Its text follows, if they are in it."""
        before, self.attended.game = self.attended.game.options, game
        if game.options.of_live() != before.of_live():
            self.attended.attending.begin_again(game.options.of_live())
            self._maker.makes(game)

    def _made(self, made: Made) -> None:
        """NAME.pgn was made anew, perhaps over a text that somebody had edited; or can't be made."""
        attended, paths = self.attended, self.attended.game.paths
        attended.disk.text = trouble_of(made.full) if made.trouble else ""
        if not made.trouble:
            if made.edited:
                self.attended.means.screen.say(told_of_edit(paths.pgn, made.edited))
            attended.disk.look()
            attended.goes_up(News.PLACED)
        elif attended.disk.restore():
            attended.goes_up(News.RESTORED)  # the capture was gone, and is there again
        else:
            self.attended.means.screen.say(
                Message("text.unwritten", pgn=paths.pgn, why=made.trouble, capture=paths.capture, mend=mend_of(made.full)),
                Message("text.tried_again"),
            )
            attended.disk.look()

    # What an arbiter adds.

    def put(self, put: bytes, outcome: str) -> None:
        """These bytes are in the capture from now on, after all that the board has sent: moves, or a result."""
        size = self.attended.game.capture.size
        self._by_hand = ByHand(range(size, size + len(put)), outcome, waits=self._by_hand.waits)
        self._append(put, ADDED)
        self.attended.attending.tell(ADDED, put)
        self.attended.attending.then(lambda: self._put_ends(not self.end.is_over))

    def reports_put(self) -> Steps[bool]:
        """Waits until the program has reported what was added last. Returns whether the game has it: what came before it may have
        ended the game."""
        if self._by_hand.is_put is None:
            timer = self.attended.means.guard.after(PATIENCE, lambda: self._put_ends(not self.end.is_over))
            yield self._wait_for_put
            timer.cancel()
        return bool(self._by_hand.is_put)

    def _wait_for_put(self, resume: Resume) -> None:
        self._by_hand.waits = resume

    def _put_ends(self, is_put: bool) -> None:
        """What was added last belongs to the game, or came after its end."""
        if self._by_hand.is_put is None:
            self._by_hand.is_put = is_put
        waits, self._by_hand.waits = self._by_hand.waits, None
        if waits:
            waits(lambda: None)

    # How it ends.

    def _ends_with(self, over: Over, is_known: bool) -> None:
        """The program says that the game is over. What it says of an end again, once another child attends the board, is known."""
        game, end = self.attended.game, self.end
        if end.is_over or self.end.begins_anew or end.is_reopened:
            return
        if is_known and over.result == "*" and over.size <= front_of(game.paths, game.capture):  # its times don't tell that an arbiter has reopened it
            self.attended.attending.tell(REOPENED)
            return
        end.was_over, end.size = is_known, over.size
        if is_known:
            end.dropped += self.course.end(end.size, over.result)

    def _is_over_by(self, over: Over) -> None:
        end = self.end
        if end.is_over or end.size is None:
            return
        is_typed = self._by_hand.result == over.result and end.size == self._by_hand.bytes.stop
        reason = SAID.get(over.why, Reason.TYPED if is_typed else Reason.RESULT)
        self.attended.alarms.end(end.size)
        self.standing.look(self.attended.alarms.looks.short)
        if reason is Reason.SET_UP:
            known = [ply for ply, at in zip(self.course.plies, self.course.ends) if at >= end.size]
            dropped = [*known, *end.dropped]
            if dropped:
                self.attended.means.screen.say(Message("over.dropped", plies="; ".join(ply.words for ply in dropped)))
        if reason is Reason.CORRECTED and end.dropped:
            self.look_at(corrected(end.dropped[0].short))
        elif over.why == STOOD and not over.sure:
            if not end.was_over:
                self.look_at(unheard(name_of(len(self.course.plies), self.course.plies)))
        elif not over.sure:
            self.attended.means.screen.say(Message("over.end_not_sure", pgn=self.attended.game.paths.pgn))
        self._end(reason)

    def _end(self, reason: Reason) -> None:
        if self.end.is_over:
            return
        if reason is not Reason.TYPED:
            self._by_hand.result = ""
        self.end.is_marked = self._rules.marks(reason)
        self.end.is_over = self.end.has_ended = True
        self._put_ends(False)
        self.attended.goes_up(Ended(reason))

    def finish(self, done: Callable[[str], None], is_attended: bool = False) -> None:
        """Hears the last lines, makes the text a last time, and then reports what can't be written, and why; nothing if all is. All lines of
        a game that is over were heard; if its board `is_attended` after that, there is nothing to wait for."""
        self.end.is_over = True
        is_watched = is_attended and not self._rules.series  # then the alarms are said once that ends
        if is_attended:
            self._all_is_heard(done, is_watched)
        else:
            self.attended.settle(lambda: self._all_is_heard(done, is_watched))

    def _all_is_heard(self, done: Callable[[str], None], is_watched: bool) -> None:
        game, end, looks = self.attended.game, self.end, self.attended.alarms.looks
        self.end.is_heard = end.size is None
        forget_question(game.paths)
        game.capture.write()
        if end.is_marked and not game.capture.waits:
            try:
                mark_end(game.paths, game.capture, game.capture.size if end.size is None else end.size)
                self._note_end()
            except OSError as error:
                self.attended.means.screen.say(Message("file.unwritten_so", path=game.paths.end, why=text_of(error)))
        if end.has_ended and not end.is_marked:
            self._note_end()
        if self.course.recovered:
            pairs = "; ".join(pair.replace("recovered ", "") for pair in self.course.recovered)
            self.attended.means.screen.say(Message("text.recovered", pgn=game.paths.pgn, pairs=pairs))
        if looks.open and not is_watched:
            self.attended.means.screen.say(Message("look.in_text", pgn=game.paths.pgn, looks=looks.all))
        if self._by_hand.result not in ("", self.course.result):
            self.attended.means.screen.say(Message("text.other_result", pgn=game.paths.pgn, result=self._by_hand.result))
        self._maker.finish(lambda written: done(unwritten_of(game, Made() if written else self._maker.last)), end.size)

    def _note_end(self) -> None:
        capture, attending = self.attended.game.capture, self.attended.attending
        size = capture.total if self.end.size is None else self.end.size
        if attending.notes:
            attending.tell(OVER, count=size)
        else:
            self.attended.game.times.over(size)

    def close(self) -> bytes:
        """Ends everything under way. Returns what the board has sent, and the program hasn't taken."""
        self._put_ends(False)
        left = self.attended.close()
        self._maker.close()
        return left
