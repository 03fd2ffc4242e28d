"""A round: all its boards, the file that names them, what is typed, and round.pgn."""

from __future__ import annotations

import functools
import os
import pathlib
import re
import shlex
import time
from types import MappingProxyType
from typing import Callable, Dict, List, Mapping, Optional, Sequence, Set, Tuple, Union

from live.board.board import Board
from live.board.finder import Finder
from live.board.plan import Change
from live.board.state import may_be_exchanged, same_number
from live.child.lines import listed
from live.game.files import size_of, text_of
from live.game.game import ROUND
from live.game.log import Log, logged_at
from live.game.options import PLAYERS
from live.game.typed import MESSAGES, MOVES, NO_RESULT, UNKNOWN, Said, refuse_no_text, score_of, typed_forfeit
from live.out.broadcast import Broadcast
from live.out.delay import clock_in
from live.out.outputs import Outputs
from live.out.publish import FORFEIT, Published, Result
from live.out.spectators import UNKNOWN as NOT_KNOWN, Paired, matches_of, round_pgn, told_of_matches
from live.round.commands import Leaving, all_ways, is_command, said_of, told_of_answer, ways
from live.round.names import read_with_names
from live.round.row import Earlier, Hall, Line, Row, earlier_game, was_forfeited
from live.round.tournament import another_folder
from live.run.loop import Loop, Worker, traced
from live.run.refused import DGT_ROUND, DONE, FAILED, HELPS, REFUSED, Answer, NotDone, Refused, printable, refusal, shown
from live.show.table import NOT_RECORDED, Display, RowView, boards_are, boards_counted, lines_are_wrong
from live.show.terminal import Typed
from live.table.encoding import is_question
from live.table.hall import Source, not_plugged_in, with_some, without_twice
from live.table.pairings import Pairing, Pairings, Wrong, told_of_wrong
from live.words.message import Message, linked

OPENS = 5.0  # seconds that all games may take to be opened
SHOWN = 1.0  # seconds after which a board that is heard again has shown how it stands
HIGHEST = 6  # digits of a number that may be a board's
SCORE = re.compile(r"\d\s*[-–—−:/]\s*\d", re.ASCII)  # and not a board's number


def with_forfeited(read: Pairings, hall: Hall) -> Pairings:
    """With the pairs whose boards aren't found, if somebody has typed that they aren't played."""
    return with_some(read, [pairing for pairing in read.absent if was_forfeited(hall, pairing)])


def refuse_another_round(source: Source, read: Pairings, hall: Hall) -> Dict[int, Earlier]:
    """Refuses a table that has other players for most of what was played: it is another round's. To be called before anything in the
    folder is changed. Returns the games of single lines that have other players, by board."""
    read = read_with_names(read, hall.folder, hall.options).lines
    lines = {pairing.board: pairing for pairing in without_twice(with_forfeited(read, hall))[0]}
    games = {number: game for number, pairing in lines.items() if (game := earlier_game(hall, pairing))}
    others = {number: game for number, game in games.items() if game.of_others}
    if len(others) > sum(game.is_same for game in games.values()):
        number, game = next(iter(others.items()))
        raise Refused(
            REFUSED,
            Message("round.another", game=f"{hall.folder}/{lines[number].file_name}", is_so=game.of_others, how=other_round(source, hall.folder)),
            Message("round.old_table"),
        )
    return others


def other_round(source: Source, folder: str) -> str:
    """What to do for another round."""
    if source.in_tournament:
        return Message("round.under_its_number", folder=source.file.parent)
    folder = another_folder(folder)
    while os.path.lexists(folder):
        folder = another_folder(folder)
    return Message("round.another_folder", dgt_round=DGT_ROUND, words=shlex.join([str(source.file), folder]))


def goes_on(board: Board) -> bool:
    """Whether its game isn't over; the mark of its end tells that before it is open."""
    return not board.is_over and not size_of(board.paths.end)


class Round:
    """All boards of a round in one loop, which stops when all have ended."""

    def __init__(
        self, loop: Loop, source: Source, read: Pairings, title: str, hall: Hall, held: Mapping[int, Earlier] = MappingProxyType({})
    ) -> None:
        self._loop, self._source, self._file, self._hall = loop, source, source.file, hall
        self.rows: Dict[int, Row] = {}
        self._wrong: List[Wrong] = []
        self._right: Set[int] = set()  # the boards whose lines are right
        self._absent: Dict[int, Pairing] = {}  # the pairs whose boards aren't found
        folder = pathlib.Path(hall.folder)
        self._log = Log(folder / "round.log")
        self._published = Published(loop, folder / f"{ROUND}.pgn", self._text, self.say)
        self.outputs = Outputs(loop, hall.program, folder, hall.out, hall.outputs, self.boards, self._unrecorded, self.say, self.trouble)
        self._display = Display(loop, title, self.views, hall.terminal, self.trouble)
        self._opens_until = loop.now() + OPENS
        loop.after(OPENS, self.remade)
        self._looker: Optional[Worker] = None  # finds out which boards are plugged in
        self._asker: Optional[Worker] = None  # asks the program about lines without a board's number
        self._finder = Finder(loop, hall.program, lambda: [row.board for row in self.boards()], self.trouble)
        self._came_back: Dict[int, float] = {}  # the boards that are just heard again, and when each has shown how it stands
        self._ending = False
        self._leaving = Leaving(loop, self.outputs, self.say)
        self._is_over = False  # all games are, and that was said
        self._left = 0
        self.on_change: Callable[[], None] = lambda: None
        self._was_terminal = os.isatty(0)
        self._take(read, held)
        self._typed = Typed(loop, self.typed, self.refuses, self._input_ended, self._display.shows, self._interrupted)

    @property
    def broadcast(self) -> Broadcast:
        """What goes out first: the page, and the text in the round's own folder."""
        return self.outputs.first

    def boards(self) -> List[Row]:
        """All boards, in order of their numbers."""
        return [self.rows[number] for number in sorted(self.rows)]

    # The file.

    def read_again(self) -> None:
        """Reads the file again, and says what came of it. If it can't be read, nothing changes."""
        try:
            read = self._source.read()
        except OSError as error:
            return self.say_of_table(Message("round.refused_unreadable", file=self._file, why=text_of(error)))
        except Refused as refused:
            return self._refuses_file(refused.lines)
        if not read.boards:
            return self.say_of_table(Message("round.refused_no_line", file=self._file))
        self._take(read)
        self._look_for_boards()
        found = linked("comma", filter(None, (boards_counted(len(self._right)), lines_are_wrong(len(self._wrong)))))
        return self.say_of_table(Message("round.read_again", file=self._file, found=found))

    def _refuses_file(self, lines: Sequence[str]) -> None:
        """Says why the file isn't taken; a question has a line for each answer."""
        if not is_question(lines):
            return self.say_of_table(Message("round.refused_file", file=self._file, why=linked("space", lines)))
        for line in (Message("refused.line", line=self._file, why=lines[0]), *lines[1:]):
            self.say_of_table(line)
        how = Message("round.again_at_r") if self._source.in_tournament else Message("round.end_and_start")
        self.say(Message("round.unchanged", how=how))

    def _look_for_boards(self) -> None:
        """Finds out which boards are plugged in, if some that are named only by serial number weren't found. This takes a while,
        so it is done beside the loop."""
        if not self._source.wants or self._looker:
            return
        self._looker = Worker(self._loop)

        def look() -> Union[Dict[str, str], Exception]:
            try:
                return self._source.look()
            except Exception as error:
                return error

        def found(plugged: Union[Dict[str, str], Exception]) -> None:
            if self._looker:
                self._looker.close()
                self._looker = None
            if isinstance(plugged, Exception):
                self.trouble(traced(plugged))
            elif any(serial in plugged for serial in self._source.wants) and not self._ending:
                self._source.found(plugged)
                self.read_again()

        self._looker.do(look, found)

    def _take(self, read: Pairings, held: Mapping[int, Earlier] = MappingProxyType({})) -> None:
        found = read_with_names(read, self._hall.folder, self._hall.options, keeps=True)
        read = found.lines
        for remark in (*read.remarks, *found.told):
            self.say_of_table(remark)
        had = {number: row.pairing.device for number, row in self.rows.items()}
        boards, self._wrong = without_twice(with_forfeited(read, self._hall), had)
        self._absent = {pairing.board: pairing for pairing in read.absent}
        self._right = {pairing.board for pairing in boards}
        for wrong in self._wrong:
            self.say_of_table(told_of_wrong(wrong, wrong.file or self._file.name, self._why(wrong)))
        named = {pairing.board for pairing in boards} | {wrong.board for wrong in self._wrong}
        for number in sorted(set(self.rows) - {number for number in named if number}):
            # A line whose number can't be read may be this board's.
            if None in named:
                self.say_of_table(Message("round.unnamed_goes_on", number=number))
            else:
                pgn = self.rows[number].board.paths.pgn
                self.say_of_table(Message("round.unnamed_ends", number=number, pgn=pgn))
                self.rows.pop(number).end(self.changed)
        for pairing in boards:
            if pairing.board in self.rows:
                self.rows[pairing.board].take(pairing)
            else:
                row = self.rows[pairing.board] = Row(self._loop, self._hall, pairing, self._hears, self._of_number)
                row.held = held.get(pairing.board)
                row.begin()
        pairs = [Paired(row.number, row.pairing.teams) for row in self.boards()]
        for line in told_of_matches(matches_of([*pairs, *self._unrecorded()])):
            self.say_of_table(line)
        self.remade()
        self.changed()

    # What is shown.

    def say(self, text: str) -> None:
        """A line for the screen."""
        self._display.say(text)
        self.changed()

    def say_of_table(self, text: str) -> None:
        """A line about the table, which the round's log has too."""
        self.say(text)
        self._log.write(logged_at(time.time()), printable(text))

    def views(self) -> List[RowView]:
        """The rows, then the lines that belong to none."""
        rows = [self._view(row) for row in self.boards()]
        for wrong in self._wrong:
            rows.append(RowView(wrong.board, state=told_of_wrong(wrong, wrong.file, self._why(wrong)), alarm=True, is_board=False))
        return rows + [RowView(None, state=why, alarm=True, is_of_all=True) for why in self.outputs.alarms]

    def _view(self, row: Row) -> RowView:
        """What a row shows; if that raises an error, the error."""
        try:
            return row.view()
        except Exception as error:
            self.trouble(traced(error))
            return RowView(row.number, state=NOT_RECORDED, rest=f": {type(error).__name__}: {error}", alarm=True)

    def _why(self, wrong: Wrong) -> str:
        """What is wrong with a line, and what happens to its board."""
        goes_on = wrong.board in self.rows and wrong.board not in self._right
        return Message("round.goes_on_as_begun", why=wrong.why, board=wrong.board) if goes_on else wrong.why

    def changed(self, number: Optional[int] = None) -> None:
        """The row of this board has changed; without a number, what is shown of the round."""
        self.on_change()
        if self._is_opened:
            self.outputs.changed(number)
        if not self._ending:
            self._display.changed()
            self._look_for_end()

    def _look_for_end(self) -> None:
        """Says what to type once all games are over."""
        boards = [row.board for row in self.rows.values()]
        before, self._is_over = self._is_over, bool(boards) and not self._wrong and all(board.is_over for board in boards)
        if self._is_over and not before:
            self.say(Message("round.all_over"))

    @property
    def _is_opened(self) -> bool:
        """Whether all games are open, or opening one takes too long. The first text waits for this, so that it has all games."""
        return self._loop.now() >= self._opens_until or not any(row.board.is_new for row in self.rows.values())

    def remade(self, number: Optional[int] = None) -> None:
        """The text of this board's game has changed; without a number, that of any."""
        if self._is_opened:
            self._published.changed()
            self.outputs.changed(number)

    def _text(self) -> bytes:
        """round.pgn: what was recorded."""
        return round_pgn(row.board.pgn for row in self.boards())

    def results(self) -> List[Result]:
        """Each board with its players, as they are published, and its result: that of its game, else that of its line."""
        found = []
        for row in self.boards():
            result = row.board.forfeit or (row.board.result if row.board.result != NO_RESULT else row.pairing.result)
            score, note = (score_of(result), FORFEIT) if score_of(result) else (result.replace(NO_RESULT, ""), "")
            white, black = map(row.options.written, PLAYERS)
            found.append(Result(row.number, white, black, score, note))
        return found

    def _unrecorded(self) -> List[Paired]:
        """The table's boards that aren't recorded, with the results that it has for them; of some lines nobody knows the teams."""
        lines = {wrong.board: wrong.unplaced or wrong.pairing for wrong in self._wrong if wrong.board}
        found = {**lines, **self._absent}
        pairs = ((number, pairing) for number, pairing in sorted(found.items()) if number not in self.rows)
        return [Paired(number, pairing.teams if pairing else ("", ""), pairing.result if pairing else NOT_KNOWN, False) for number, pairing in pairs]

    def _hears(self, number: int, news: Union[Change, Line]) -> None:
        """What has happened at the board with this number."""
        if isinstance(news, Line):
            (self.say_of_table if news.is_of_table else self.say)(news.text)
        elif news is Change.SHOWN:
            self.changed(number)
        elif news is Change.REMADE:
            self.remade(number)
        elif news is Change.CAME_BACK:
            self._is_back(number)
        elif news is Change.NUMBERED:
            self._numbered(number)

    def _of_number(self, number: str) -> Optional[Board]:
        """The board that has this serial number, unless its game is over."""
        return next((row.board for row in self.boards() if row.serial == number and goes_on(row.board)), None)

    def _numbered(self, number: int) -> None:
        """The serial number of this board has just become known: perhaps other boards have the same."""
        same = same_number({row.number: row.serial for row in self.boards() if goes_on(row.board)}, number)
        for one in same:
            self.rows[one].board.shares_number([other for other in same if other != one])

    def _is_back(self, number: int) -> None:
        """This board was away, and is there again: perhaps on the cable of another one that was away too."""
        if not self._came_back:
            self._loop.after(SHOWN, self._suspect)
        self._came_back[number] = self._loop.now() + SHOWN

    def _suspect(self) -> None:
        """Boards that have come back have shown how they stand. Each game is told with which other boards its own may be exchanged."""
        now, came_back = self._loop.now(), self._came_back
        self._came_back = {number: shown for number, shown in came_back.items() if shown > now}
        if self._came_back:
            self._loop.after(SHOWN, self._suspect)
        away = {row.number: row.board.returned for row in self.boards() if row.number not in self._came_back}
        for number, one in away.items():
            news = [other for other in away if other != number and (number in came_back or other in came_back)]
            others = [other for other in news if one and (two := away[other]) and may_be_exchanged(one, two)]
            if others:
                self.rows[number].board.suspect(others)

    # What is typed.

    def typed(self, text: str) -> None:
        """A line of the terminal."""
        self._display.forget()
        words = text.split()
        if not words:
            pass
        elif words[0].lower() in ("q", "quit", "exit"):
            if self._leaving.may_end(self._playing):
                self.end()
                return
        elif words[0].lower() == "r" and len(words) == 1:
            self.read_again()
        elif words == [MESSAGES]:
            self._display.list_messages()
        elif words[0].lower() in HELPS:
            self.say(Message("join.capital", text=all_ways(sorted(self.rows))))
        elif words[0].isascii() and words[0].isdigit() and not SCORE.fullmatch(text.strip()):
            self._of_board(words[0], words[1:])
        else:
            self._of_no_board(text)
        self.changed()

    def _interrupted(self) -> None:
        """Ctrl-C on an empty line: it asks as `q` does."""
        self.typed("q")

    def refuses(self, text: str, error: Exception) -> None:
        """A line of the terminal raised an error."""
        self.say(refusal(text, error)[1])
        if not isinstance(error, Refused):
            self.trouble(traced(error))

    def _of_board(self, number: str, words: List[str]) -> None:
        board_number = int(number) if len(number) <= HIGHEST else 0
        row, absent = self.rows.get(board_number), self._absent.get(board_number)
        if row is None and absent and typed_forfeit(" ".join(words)):
            self._forfeit(absent, " ".join(words))
        elif row is None:
            self.say(Message("round.no_board", number=shown(number), boards=boards_are(sorted(self.rows))))
        elif words == [MOVES]:
            self._display.show_long(linked("colon", (str(row.number), listed(row.board.plies, row.board.result))))
        elif words:
            row.add(" ".join(words), functools.partial(self._answered, row))
        else:
            board = row.board
            places = ", ".join(filter(None, (row.pairing.device, row.serial, str(board.paths.capture))))
            parts = [row.whole_standing(), *board.recovered, places]
            self.say(linked("colon", (str(row.number), linked("semicolon", parts))))
            if row.advice:
                self.say(linked("colon", (str(row.number), row.advice)))

    def _forfeit(self, pairing: Pairing, text: str) -> None:
        """A pair whose board isn't found isn't played, so it needs none."""
        self._wrong = [line for line in self._wrong if line != not_plugged_in(pairing)]
        self._right.add(pairing.board)
        row = self.rows[pairing.board] = Row(self._loop, self._hall, pairing, self._hears, self._of_number)
        row.begin_with(text, functools.partial(self._answered, row))
        self.remade()

    def _answered(self, row: Row, given: Answer) -> None:
        """What was typed for a board is answered."""
        self.say(told_of_answer(row.number, given))

    def _of_no_board(self, text: str) -> None:
        """Says what to type instead. What isn't a command may be moves or a result: the program knows, and is asked beside the
        loop."""

        def says(said: Said) -> None:
            self.say(Message("refused.line", line=shown(text), why=ways(text, sorted(self.rows), said)))

        try:
            refuse_no_text(text)
        except NotDone as error:
            self.say(refusal(text, error)[1])
            return
        if is_command(text):
            says(Said(UNKNOWN))
            return
        self._asker = self._asker or Worker(self._loop)
        self._asker.do(functools.partial(said_of, self._hall.program, text), says)

    def trouble(self, text: str) -> None:
        """Writes an error that should never happen, and where, to the round's log."""
        self._log.write(logged_at(time.time()), text)

    # How it ends.

    def hung_up(self) -> None:
        """Reads the file again on HUP. If the terminal is gone, everything ends."""
        if self._was_terminal and not os.isatty(0):
            self.end()
            return
        try:
            self.read_again()
        except Exception as error:
            self.refuses("HUP", error)

    @property
    def _playing(self) -> int:
        """How many games have moves and no result."""
        boards = [row.board for row in self.rows.values()]
        return sum(bool(board.plies) and not board.is_over and board.result == NO_RESULT and not board.forfeit for board in boards)

    def _input_ended(self) -> None:
        """Nothing more can be typed: who typed `q` and was asked about games can't answer, and meant it."""
        if self._leaving.is_asked_of_games and not self._ending:
            self.end()

    def end(self) -> None:
        """Ends all boards in order. A second call no longer waits for what is being published."""
        if self._ending:
            if self._left == 0:
                self._loop.stop()
            return
        self._ending = True
        self._finder.close()
        self._left = len(self.rows)
        for row in self.boards():
            row.end(self._one_ended)
        if not self.rows:
            self._loop.after(0, self._all_ended)

    def _one_ended(self) -> None:
        self._left -= 1
        if self._left == 0:
            self._loop.after(0, self._all_ended)

    def _all_ended(self) -> None:
        """Lets the last text go out."""
        self.outputs.finish(self._loop.stop)

    def close(self) -> Tuple[int, List[str]]:
        """Writes the last round.pgn and the last lines, after the loop has stopped. Returns a status and complaints."""
        self._typed.close()
        if self._asker:
            self._asker.close()
        complaints = [linked("colon", (row.board.among.called, row.board.trouble)) for row in self.boards() if row.board.trouble]
        unwritten = self._published.close()
        complaints += filter(None, [unwritten])
        left = self.outputs.hidden_for
        if left is not None:
            self.say(Message("delay.unseen", time=clock_in(left)))
        complaints += self.outputs.close()
        last = Message("round.written_in", folder=self._hall.folder) if unwritten else Message("board.played_is_in", pgn=self._published.path)
        self._display.close(linked("colon", ("dgt_round", last)))
        try:
            self._log.close()
        except Exception as error:
            complaints.append(Message("round.log_unwritten", error=type(error).__name__, why=error))
        return (FAILED if complaints else DONE), complaints
