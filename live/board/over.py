"""The stages of a board whose game is over: it is watched for more moves, or its pieces are set up for the next game of a series; and how a
game begins. What the board sends is kept after the game's bytes."""

from __future__ import annotations

import contextlib
import dataclasses
from typing import Callable, Optional, Sequence

from live.board.plan import LooksFrom, Means, News, StartShown
from live.board.playing import Attended, End, Playing, unwritten_of
from live.board.state import WHERE, Standing, mend_of, trouble_of
from live.child.lines import Answer, Differs, Event, Picture
from live.game.attending import Attending, Ended, Hears, Past, Reader, Told
from live.game.files import LARGEST, NO_ROOM, Paths, put_in_place, remove
from live.game.game import Course, Game, put_options
from live.game.kept import Capture
from live.game.looks import Alarms, FromTheStart, Look, Looks, carry_over, is_read_anew, is_set_up, keep_looks, kept_looks, next_begins, went_on
from live.game.making_pgn import Made, Text
from live.game.options import Options, today
from live.game.times import BEGIN, HEARD
from live.game.typed import NO_RESULT, dump_at_end, reached
from live.line.protocol import DUMP_BEGINS
from live.run.refused import reason_of
from live.words.message import Message, linked

MOST = 4 * 1024 * 1024  # bytes to watch, some fifteen hours
LOOKED_BACK = 65536  # bytes before the end that are searched for the last dump


class Watched:
    """A board whose game is over, and that may stand as it likes. If the game has a result, the board is watched until its pieces are set
    up: the result may have been meant for another board, or the kings may have been in the centre by mistake. If it has none, it is watched
    for moves from the start: perhaps somebody tried some moves before the game, and it begins only now. So it is if the game has no move:
    then the start is its own, and no set-up ends that.

    The program that attended the game says how many moves were made after its result; where the game has no move, its report has them. A
    game without a result is over because its pieces were set up: from then on another child attends the board, which begins with the
    start."""

    standing = None

    def __init__(self, means: Means, game: Game, course: Course, alarms: Optional[Alarms], end: Optional[int]) -> None:
        self._result, self._plies = course.result, len(course.plies)
        self.attended = Attended(means, game, None, alarms)
        self._last = reached(course.plies)
        is_at_start = course.result == NO_RESULT or not course.plies
        self._from_the_start = FromTheStart(self._last, course.result) if is_at_start else None
        self._from = game.capture.size
        self._reads_from = self._from if course.result == NO_RESULT else 0  # the byte with which the report begins
        self._end = self._from if end is None else end
        self._was_set_up = False  # whether its board has shown the start last, in the calls before
        self._played = 0  # moves since the end, as far as they are known
        self._is_paused = False
        self._shows()

    def attend(self, hears: Hears, ended: Ended, before: Optional[Attended], reader: Optional[Reader]) -> bool:
        """The program that attended the game goes on, if it can, or another child does. Returns whether it goes on."""
        options = self.attended.game.options
        if self._result == NO_RESULT:
            self.attended.attend(hears, ended, options.of_board(), self._from)
        elif before is None or before.attending.is_closed:
            self.attended.attend(hears, ended, options.of_live(), with_times=True, reader=reader)
        else:
            self.attended.take_over(before)
            return True
        return False

    def has_heard(self, end: End) -> None:
        """What the program has said since the game was over."""
        if self.attended.is_closed:
            return
        if self._from_the_start:
            self._plays_from(self._from_the_start, end.dropped, True)
            return
        if end.played > self._played:
            self._plays_on(end.played, False)
        if end.is_set_up:
            self.attended.goes_up(News.SET_UP)

    def keeps(self, sent: bytes, what: str = HEARD, at: Optional[float] = None) -> None:
        """The board has sent this, and it is the game's."""
        self.attended.append(sent, what)

    def takes(self, told: Told, answer: Answer) -> None:
        """Takes an answer, whose bytes are kept. If the pieces were set up before this call, watching ends."""
        attended = self.attended
        if attended.counts(told, answer):
            self._says(told, answer)
        if attended.is_closed:
            return
        if attended.game.capture.size - self._from > MOST or (told.what == BEGIN and self._was_set_up):
            attended.goes_up(News.SET_UP)

    def each_second(self) -> None:
        """Tries again what has failed."""
        attended = self.attended
        if not self._is_paused:
            attended.disk.try_again()
            attended.game.times.wake()
        for told, answer in attended.counts_late():
            self._says(told, answer)
        if self.attended.means.screen.shows_time:
            self._shows()

    def _shows(self) -> None:
        """That the game is over, and what somebody must look at."""
        looks = self.attended.alarms.looks
        over = Message("state.over_no_result") if self._result == NO_RESULT else Message("state.over_with", result=self._result)
        self.attended.means.screen.over(linked("semicolon", (looks.short, over)) if looks.open else over)

    def _says(self, told: Told, answer: Answer) -> None:
        for byte, event in ((byte, event) for byte, events, _ in answer.events for event in events):
            offset = self._reads_from + byte
            if offset < self._end:
                continue
            if self._from_the_start:
                self._plays_from(self._from_the_start, [event], offset >= self._from)
            elif isinstance(event, Picture):
                self._was_set_up = is_set_up(event.placement, self.attended.game.options.start, self._plies)
                if self._was_set_up and offset >= self._from:
                    self.attended.goes_up(News.SET_UP)
                    break
        if answer.played:
            self._plays_on(answer.played, told.what == BEGIN)

    def _plays_from(self, start: FromTheStart, events: Sequence[Event], are_news: bool) -> None:
        """Counts moves from the start. Nobody is told again of those from before this call."""
        looks = [look for look in map(start.take, events) if look]
        if looks and are_news:
            self.look_at(looks[-1])

    def _plays_on(self, moves: int, is_known: bool) -> None:
        is_news, self._played = moves > self._played, moves
        if is_news and not is_known and not self._from_the_start:
            self.look_at(went_on(self._last, moves, self._result))

    def look_at(self, look: Look) -> None:
        """Somebody must look at this."""
        if self.attended.look_at(look):
            self._shows()
            self.attended.goes_up(News.PLACED)

    def acknowledge(self) -> str:
        """Acknowledges the alarms. Returns the answer."""
        seen = self.attended.acknowledge()
        self._shows()
        self.attended.goes_up(News.PLACED)
        return seen

    def pause(self) -> bytes:
        """The capture isn't used: it is just being changed."""
        self._is_paused = True
        return b""

    def go_on(self, hears: Hears, ended: Ended) -> bool:
        """It is used again, and is what it was. Returns whether another child attends the board."""
        self._is_paused = False
        return False

    def finish(self, done: Callable[[str], None]) -> None:
        """What is still to be answered comes into the capture."""

        def ended() -> None:
            game, looks = self.attended.game, self.attended.alarms.looks
            if looks.open:
                self.attended.means.screen.say(Message("look.in_text", pgn=game.paths.pgn, looks=looks.all))
            done(unwritten_of(game, Made()))

        self.attended.settle(ended)

    def close(self) -> bytes:
        """Stops watching. Returns what the board has sent, and the program hasn't taken."""
        return self.attended.close()


class SettingUp:
    """Between two games of a series: looks for the first picture of the start after an offset of a capture.

    The next game's capture begins with a dump of the start, as the program makes it of what was shown, followed by all that came
    after the byte that completed the start. So a first move that is made at once is in it."""

    def __init__(self, means: Means, game: Game, course: Course, alarms: Optional[Alarms], end: int) -> None:
        self._course, self._end = course, end
        self.standing = Standing(means.guard, means.screen, game.options.rotated, played=False)
        self.attended = Attended(means, game, self.standing, alarms)
        self._from = end  # the byte with which reading begins
        self._after: Optional[Afterwards] = None
        self._is_paused = self._is_unbegun = False  # whether the start was shown, and the next game couldn't begin
        game.capture.limit = None  # the game is over: the file may now grow past a game's limit

    def attend(self, hears: Hears, ended: Ended, before: Optional[Playing], reader: Optional[Reader]) -> bytes:
        """A child looks for the start; and the one that attended the game goes on, if it can, or another one does, if the game has a result.
        Returns what the board has sent and the former hasn't taken."""
        self.look_from(hears, ended, self._end)
        if before and not before.attended.attending.is_closed and self._course.result != NO_RESULT:
            self._after = Afterwards(before.attended.hand_over(), self._course, before.end.played, self.look_at)
            return self._after.undecided
        if before is None:
            self._attend_after(reader)
        return b""

    def look_from(self, hears: Hears, ended: Ended, offset: int) -> None:
        """A child looks from this offset on. Reading begins at the last dump before it: without one no update would count."""
        game = self.attended.game
        self._end = self._from = offset
        looks_at = max(0, offset - LOOKED_BACK)
        before = game.capture.bytes(looks_at, offset)
        dump = before.rfind(DUMP_BEGINS)
        if dump >= 0:
            # A picture is reported if it differs from the one before: so the start is, unless the board shows it already.
            shown = game.program.lines("pictures", *game.options.of_pictures(), given=before[dump:])
            if not is_read_anew("".join(shown[-1:]), game.options.start, len(self._course.plies)):
                self._from = looks_at + dump
        self.attended.attend(hears, ended, game.options.of_board(), self._from)

    def _attend_after(self, reader: Optional[Reader] = None) -> None:
        """From now on another child hears of moves after the game's result, if it has one."""
        game = self.attended.game
        if self._course.result != NO_RESULT:
            past = Past(game.capture, 0, game.times, reader)
            attending = Attending(self.attended.means.guard, game.program, game.options.of_live(), past, lambda told, answer: None)
            self._after = Afterwards(attending, self._course, 0, self.look_at)

    def came(self, sent: bytes) -> None:
        """The board has sent this: the program that attended the game hears it too."""
        if self._after:
            self._after.came(sent)

    def keeps(self, sent: bytes, what: str = HEARD, at: Optional[float] = None) -> None:
        """The board has sent this, and it is kept behind the game."""
        self.attended.append(sent, what)

    def takes(self, told: Told, answer: Answer) -> None:
        """Takes an answer, whose bytes are kept."""
        attended = self.attended
        if attended.counts(told, answer):
            self._says(told, answer)
        attended.stands_as(told, answer)
        size = attended.game.capture.size
        if size - self._from > LARGEST // 2:
            attended.goes_up(LooksFrom(size))  # the program reads no more than twice that
        attended.shows()

    def _says(self, told: Told, answer: Answer) -> None:
        pictures = []
        for byte, event in ((byte, event) for byte, events, _ in answer.events for event in events):
            if isinstance(event, Differs):
                self.standing.board.differs = event.squares
            elif isinstance(event, Picture):
                pictures.append((self._from + byte, event.placement))
        begins = next_begins(pictures, self._end, self.attended.game.options.start)
        if begins is not None:
            self.attended.goes_up(StartShown(begins))

    def content_from(self, offset: int) -> bytes:
        """With what the next game's capture begins if the start is shown at this byte."""
        game, behind = self.attended.game, offset + 1
        return dump_at_end(game.program, game.options, game.capture.bytes(self._from, behind)) + game.capture.bytes(behind)

    def not_begun(self) -> None:
        """The next game couldn't begin: the start is looked for again soon."""
        self._is_unbegun = True

    def each_second(self) -> None:
        """Tries again what has failed."""
        attended = self.attended
        if self._is_paused:
            return
        if self._is_unbegun:
            self._is_unbegun = False
            attended.goes_up(LooksFrom(self._end))
        if attended.disk.try_again():
            attended.goes_up(News.RESTORED)
        attended.game.times.wake()
        for told, answer in attended.counts_late():
            self._says(told, answer)
        self.standing.lasts()

    def look_at(self, look: Look) -> None:
        """Somebody must look at this: moves were made, and the game is over."""
        self.attended.look_at(look)

    def acknowledge(self) -> str:
        """Acknowledges the alarms. Returns the answer."""
        return self.attended.acknowledge()

    def _leaves(self) -> None:
        """The program that attended the game does so no more."""
        after, self._after = self._after, None
        if after:
            after.close()

    def pause(self) -> bytes:
        """The capture isn't used: it is just being changed. Returns what the board has sent, and the program hasn't taken."""
        self._leaves()
        self._is_paused, self._is_unbegun = True, False
        return self.attended.attending.take()

    def go_on(self, hears: Hears, ended: Ended) -> bool:
        """It is used again: looks for the start from the game's end on. Another child attends the board."""
        self._is_paused = False
        self.look_from(hears, ended, self._end)
        self._attend_after()
        return True

    def finish(self, done: Callable[[str], None]) -> None:
        """What is still to be answered comes into the capture."""
        self.attended.settle(lambda: done(unwritten_of(self.attended.game, Made())))

    def close(self) -> bytes:
        """Stops looking. Returns what the board has sent, and the program hasn't taken."""
        self._leaves()
        return self.attended.close()


class Afterwards:
    """The program that attended a game, while the pieces are set up for the next one of a series: it says how many moves are made after the
    game's result. The kings may have been in the centre by mistake, and the players go on. What else it says isn't used."""

    def __init__(self, attending: Attending, course: Course, played: int, looks: Callable[[Look], None]) -> None:
        self._attending, self._looks = attending, looks
        attending.heard_by(self._answered)
        attending.note_no_more()
        self.undecided = attending.undecided()  # what the board has sent, and was neither kept nor known to be another board's
        self._was_told = self.undecided  # and comes again, before all else
        self._last, self._result = reached(course.plies), course.result
        self._played = played
        if played:
            looks(went_on(self._last, played, self._result))

    def came(self, sent: bytes) -> None:
        """The board has sent this."""
        known, self._was_told = self._was_told, b""
        news = sent[len(known) :] if sent.startswith(known) else sent
        if news:
            self._attending.tell(HEARD, news)

    def _answered(self, told: Told, answer: Answer) -> None:
        """Takes an answer of the program. Moves from before it began are known already."""
        if answer.played > self._played:
            self._played = answer.played
            if told.what != BEGIN:
                self._looks(went_on(self._last, self._played, self._result))

    def close(self) -> None:
        """Ends it."""
        self._attending.take()


# How a game begins: the next one of a series, or one that begins anew once its pieces are set up.


def begin_next(game: Game, paths: Paths, content: bytes, looks: Looks) -> Game:
    """The game after this one, which has these alarms. Its capture begins with this. Raises OSError if it can't be begun."""
    options = game.options.begun(today())
    put_options(paths, options)
    carry_over(game.paths, looks, paths)
    return _begun(game, paths, content, options)


def not_begun(name: str, error: OSError) -> str:
    """That a game can't be begun, why, and what to do."""
    full = error.errno in NO_ROOM
    return Message("board.not_begun", trouble=trouble_of(full), name=name, why=reason_of(error), mend=mend_of(full))


def begin_anew(game: Game, content: bytes) -> Game:
    """The same game, whose capture begins with this; what came before is kept beside it. Raises OSError if it can't be begun: then it goes
    on with the capture that it has."""
    paths = game.paths
    try:
        put_in_place(paths.before, game.capture.bytes())
        game.times.set_aside(paths.before)
        begun = _begun(game, paths, content, game.options)
    except OSError:
        game.times.come_back(paths.before)
        with contextlib.suppress(OSError):
            game.capture.take_back(paths.before)
        raise
    with contextlib.suppress(OSError):
        remove(paths.front)
    with contextlib.suppress(OSError):
        keep_looks(paths, Looks(tuple(look for look in kept_looks(paths).open if look.about == WHERE)))  # the others were about the set-up
    return begun


def _begun(before: Game, paths: Paths, content: bytes, options: Options) -> Game:
    """A game whose capture has this content, with its text made. Raises OSError if it can't be made; a next game isn't there then, since
    what comes goes on behind the end of the game before."""
    capture = Capture.begin(paths.capture, content)
    times = before.times.next(paths, capture)
    game = dataclasses.replace(before, paths=paths, capture=capture, options=options, times=times)
    made = Text(game).make(None)
    if made.trouble:
        for path in (paths.pgn, paths.capture) if paths != before.paths else ():
            with contextlib.suppress(OSError):
                remove(path)
        capture.close()
        raise made.error()
    return game
