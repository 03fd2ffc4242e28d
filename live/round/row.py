"""A board of a round, with its line of the table, and what its row shows."""

from __future__ import annotations

import functools
from dataclasses import dataclass
from typing import Callable, List, NamedTuple, Optional, Tuple, Union

from live.board.board import Board
from live.board.plan import BoardUp, Change, NotRecorded, Plan, Rules, Wanted
from live.board.state import OTHER_BOARD, Kind, Moves, State, all_of
from live.child.program import Program
from live.game import files
from live.game.files import Paths
from live.game.game import clocks_of, end_mark, game_of, kept_options, result_in
from live.game.log import Screen
from live.game.opening import Chooses, Opening, checked, of_a_line, recordable, turned
from live.game.options import PLAYERS, UNKNOWN, Options, is_naming, told_of_names
from live.game.typed import Forfeit, forfeit_of
from live.line.line import check
from live.line.protocol import SQUARES
from live.out.delay import GoingOut
from live.out.outputs import Output
from live.round.names import keep_names, kept_names, named_options, told_of_typed, typed_names, with_names
from live.run.loop import Turns
from live.run.refused import DONE, REFUSED, REOPENS, Answer, NotDone, Refused, refusal
from live.show.table import NOT_RECORDED, RowView
from live.show.terminal import Terminal
from live.table.pairings import Pairing, same_but_for_names, same_but_for_result
from live.words.message import Message, has, is_of, linked

ANSWERED = ("typed.added_by_hand", "typed.added_by_hand_to", "look.acknowledged")  # the answer to a typed line says it in other words
A_RESULT = "result "  # a line of the program's report
UNSAID = ("board.records", "cable.waits_for", *ANSWERED)  # not below a table: its rows and the answers show it
BEGUN_ANEW = Message("row.begun_anew")  # if its line has changed
OTHER_FILES = Message("row.other_files")
OTHER_PLAYER = Message("row.other_player", other_files=OTHER_FILES)
OTHER_PAIR = Message("row.other_pair", other_files=OTHER_FILES)
TURNED, OTHER = Message("row.turned"), Message("row.other_board")  # in a row, for a hint that has no room there


@dataclass(frozen=True)
class Hall:
    """What all boards of a round share: the program, the folder of their games, the options of all games, where lines
    are printed, if anywhere, and how the games go out."""

    program: Program
    folder: str
    options: Options
    terminal: Optional[Terminal]
    out: GoingOut = GoingOut()
    outputs: Tuple[Output, ...] = ()  # beside that


class Line(NamedTuple):
    """A line for the screen; one that is about the table is in the round's log too."""

    text: str
    is_of_table: bool = False


Tells = Callable[[int, Union[Change, Line]], None]  # gets what happens at the board with this number


class RowScreen(Screen):
    """Reports about one board, with its number: as lines of a pipe, or below the table."""

    def __init__(self, number: int, terminal: Optional[Terminal], tells: Tells) -> None:
        super().__init__(terminal)
        self._number = number
        self.tells: Callable[[Union[Change, Line]], None] = functools.partial(tells, number)
        self.on_change = functools.partial(tells, number, Change.SHOWN)
        self._has_table = terminal is None
        self._held: Optional[List[Tuple[str, ...]]] = None  # what is said while a typed line is obeyed
        self._of_table = False  # whether that line is a result of the table
        self.needs_board: Callable[[], bool] = lambda: True  # whether its game is played
        self.is_settled: Callable[[], bool] = lambda: False  # whether the table has the game's result, or the game isn't played

    def say(self, text: str, *more: str) -> None:
        for line in (text, *more):
            self.note(line)
        if self._held is None:
            self._shows(text, *more)
        else:
            self._held.append((text, *more))

    def cable(self, text: str, *more: str) -> None:
        """Shows this if its game is played; else only the log has it."""
        if self.needs_board():
            self.say(text, *more)
        else:
            for line in (text, *more):
                self.note(line)

    def _shows(self, text: str, *more: str) -> None:
        """Shows this in a line of a pipe, or below the table."""
        self.show(text, *more)
        if self._has_table and not any(has(text, key) for key in UNSAID):
            self.tells(Line(linked("colon", (str(self._number), linked("space", [text, *more])))))

    def obeys(self, of_table: bool) -> None:
        """A line that was typed, or is of the table, is obeyed from now on: what is said meanwhile is held back."""
        self._held, self._of_table = [], of_table

    def answers(self, answer: Answer) -> None:
        """It is answered. Of what was said meanwhile, only what the answer doesn't have is shown."""
        held, self._held, self._of_table = self._held, None, False
        for text, *more in held or ():
            if text in answer[1] or any(is_of(text, key) for key in ANSWERED):
                continue
            if text.startswith(A_RESULT):
                self.show(text)
            else:
                self._shows(text, *more)

    def _print(self, line: str) -> None:
        super()._print(f"{line[:10]}{self._number:>3}  {line[10:]}")

    def old(self, text: str) -> None:
        """Doesn't repeat what was played before: the table has the last move, and the log has all moves."""

    def over(self, text: str) -> None:
        """Doesn't show it here: the table does."""

    def move(self, text: str) -> None:
        if self._held is not None and text.startswith(A_RESULT):  # the answer has it, and the state would repeat it
            self._last.append(text)
            self.note(text)
            self._held.append((text,))
        else:
            super().say(text)

    def anew(self, pgn: str, text: str) -> str:
        return text

    def turn(self, rotated: bool) -> str:
        return Message("row.write_rotated", answer=Message("table.no") if rotated else Message("table.yes"))

    def typed(self, line: str) -> str:
        return typed_for(self._number, line)

    def mistyped(self) -> str:
        return "" if self._of_table or self.is_settled() else super().mistyped()

    def result_of(self, name: str, in_series: bool) -> str:
        return f"{self._number} 1-0"

    def goes_on(self, name: str, in_series: bool) -> str:
        return Message("typed.line", line=self.reopens())

    def other_device(self) -> str:
        return Message("row.write_device")

    other_address = other_device

    def asks(self, question: str) -> None:
        self.hint(question)

    def hint(self, text: str) -> None:
        if self._has_table:
            self.tells(Line(linked("colon", (str(self._number), text))))


def typed_for(number: int, line: str) -> str:
    """How a line is typed for a board of a round."""
    return f"{number} {line}"


@functools.lru_cache(maxsize=1024)
def typed_options(of_all: Options, pairing: Pairing) -> Options:
    """The options of a line with those of all games, with what was typed for it, and with the published tags. A name that can't be
    written in ASCII is recorded as `White 3` or `Black 3`, with the board's number."""
    options = named_options(of_all, pairing)
    tags = {"Board": str(pairing.board)}
    if options.round not in (None, UNKNOWN) and "." not in (options.round or ""):
        tags["Round"] = f"{options.round}.{pairing.board}"
    numbered = options.tagged({**tags, **dict(options.tags)})
    return recordable(numbered, lambda option: f"{option[2:].capitalize()} {pairing.board}")


def chosen_by(hall: Hall, pairing: Pairing) -> Chooses:
    """What a line says of its game. Refused if the program refuses that."""
    name = f"{hall.folder}/{pairing.file_name}"
    return of_a_line(checked(hall.program, typed_options(hall.options, pairing), Paths(name)), name)


@dataclass(frozen=True)
class Earlier:
    """The game of a line as it is found when a round is started: its options; and what it is, if its line would give it to other
    players."""

    kept: Options
    of_others: str = ""
    is_same: bool = False  # whether both players are known, and those of the line
    are_others: bool = False  # whether both are others

    @property
    def advice(self) -> str:
        """What to do if the line would give it to other players."""
        return OTHER_PAIR if self.are_others else OTHER_PLAYER


def earlier_game(hall: Hall, pairing: Pairing) -> Optional[Earlier]:
    """The game that a line goes on with; None if there is none, or it can't be read. Its line would give it to other players if it is
    over, or has a result, and one of them is another; or if it has moves and both are others."""
    paths = Paths(f"{hall.folder}/{pairing.file_name}")
    try:
        given = turned(typed_options(hall.options, pairing))
        kept = kept_options(paths)
        if kept is None:
            return None
        others = 0 if kept.is_said_by(given) else kept.with_tags_of(given).other_players_than(kept)
        if not others:
            return Earlier(kept, is_same=all(kept.tag(option) == given.tag(option) != UNKNOWN for option in PLAYERS))
        result = result_in(paths)
        if end_mark(paths) is not None or result != "*":
            is_so = Message("row.is_over") if end_mark(paths) is not None else Message("row.has_result", result=result)
            return Earlier(kept, Message("row.played_by", is_so=is_so, players=kept.players), are_others=others == len(PLAYERS))
        has_moves = others == len(PLAYERS) and game_of(hall.program, kept, files.existing(paths.capture)).plies
        return Earlier(kept, Message("row.has_moves", players=kept.players) if has_moves else "", are_others=bool(has_moves))
    except Exception:
        return None  # its row will say it


def was_forfeited(hall: Hall, pairing: Pairing) -> bool:
    """Whether the game of this line is kept as one that isn't played."""
    paths = Paths(f"{hall.folder}/{pairing.file_name}")
    try:
        return bool(forfeit_of(paths, files.existing(paths.pgn)))
    except OSError:
        return False


class Row:
    """A board of the round. `of_number` finds the one that has a serial number."""

    def __init__(self, loop: Turns, hall: Hall, pairing: Pairing, tells: Tells, of_number: Callable[[str], Optional[Board]]) -> None:
        self._loop, self._hall = loop, hall
        self.pairing = pairing
        paths = Paths(f"{hall.folder}/{pairing.file_name}")
        self._screen = RowScreen(pairing.board, hall.terminal, tells)
        self._screen.needs_board = self._is_played
        self.board = Board(loop, hall.program, self._screen, paths, self._wanted, self._hears, of_number)
        self.board.among.called = Message("round.board", board=pairing.board)
        self._screen.is_settled = lambda: bool(self.board.forfeit) or self.board.result == self.pairing.result
        self._device = ""  # the line's device when the recording began
        self._wants_result = True
        self._gets_result = False  # whether its game is just getting that of its line
        self._lacks_names = False  # whether its game couldn't get those of its line
        self._begun_with: Optional[Callable[[], None]] = None  # adds what was typed before its game was open
        self.held: Optional[Earlier] = None  # its game, if that isn't opened before `r`

    @property
    def number(self) -> int:
        """The number of its board."""
        return self.pairing.board

    @property
    def name(self) -> str:
        """The name of its files."""
        return self.pairing.file_name

    @property
    def serial(self) -> str:
        """The serial number of its board, empty if unknown."""
        return self.board.number or self.pairing.serial

    # It is recorded, if it can be.

    def begin(self) -> None:
        """Records it, now or as soon as it can."""
        self.board.begin()

    def begin_with(self, text: str, answered: Callable[[Answer], None]) -> None:
        """Records it, and adds what was typed as soon as its game is open."""
        self._begun_with = functools.partial(self.add, text, answered)
        self.begin()

    def end(self, done: Callable[[], None]) -> None:
        """Ends its recording in order, then calls this."""
        self.board.end(done)

    def _wanted(self) -> Wanted:
        """What to record, as its line says."""
        pairing, hall = self.pairing, self._hall
        has_cable = self.board.left.cable and pairing.device == self._device
        device = self.board.left.cable if has_cable else pairing.device
        self._device, self._lacks_names = pairing.device, False

        def prepares() -> Chooses:
            self._refuse_others()
            chooses = chosen_by(hall, pairing)
            check(device, may_wait=True)
            return chooses

        plan = Plan(device, f"{hall.folder}/{pairing.file_name}", Rules(listens=True), board=str(pairing.board), serial=pairing.serial)
        return Wanted(plan, lambda: Opening(hall.program, plan.paths, prepares, 0))

    def _hears(self, up: BoardUp) -> None:
        """This has happened at its board. If it isn't recorded, that is tried again unless the game is over."""
        if isinstance(up, NotRecorded):
            if up.why is None:
                self._loop.after(0, self._apply_result)
            return
        if up is Change.SHOWN:
            if self._wants_result and self.board.is_recorded:
                self._loop.after(0, self._apply_result)
            if self._begun_with and not self.board.is_new:
                self._loop.after(0, self._begun_with)
                self._begun_with = None
        self._screen.tells(up)

    # Its line is read again.

    def take(self, pairing: Pairing) -> None:
        """Takes the line as it is now. Its names are put right while the game goes on; if more has changed, the recording begins anew. A
        game of another pair is left alone as long as the line is as it was: somebody may have typed `r` for another board."""
        before, self.pairing = self.pairing, pairing
        if self.held and not (self.held.are_others and pairing == before):
            self.held = None
        self._wants_result = True
        if before.result == self.board.forfeit != "" and not pairing.result:
            self._screen.tells(Line(Message("row.no_forfeit", number=self.number, reopens=REOPENS), True))
        if same_but_for_result(before, pairing) and not self._lacks_names:
            self._loop.after(0, self._apply_result)
            if not self.board.is_recorded and not self.board.is_over:
                self.board.begin()
        elif self.board.is_recorded and same_but_for_names(before, pairing):
            self.board.rename("r", functools.partial(chosen_by, self._hall, pairing), self._renamed)
            self._loop.after(0, self._apply_result)
        else:
            self._begins_otherwise()

    def _renamed(self, answer: Answer) -> None:
        """Its game has the names of its line; or it hasn't, and gets them at the next `r`, or as it is opened."""
        self._lacks_names = answer[0] != DONE
        if self._lacks_names and self.board.is_recorded:
            self._screen.tells(Line(linked("space", (str(self.number), answer[1])), True))
        elif self._lacks_names:
            self._begins_otherwise()

    def _begins_otherwise(self) -> None:
        """Its game is opened as its line says."""
        if self.board.is_begun:
            self._wants_result = False  # until it is recorded again
            self.board.end(self._begin_anew)
        else:
            self.board.try_at_once()

    def _begin_anew(self) -> None:
        self._wants_result = True
        self.board.begin()

    def _apply_result(self) -> None:
        """Adds the line's result if the game has none."""
        if not self._wants_result:
            return
        self._wants_result = False
        wanted = self.pairing.result
        if wanted and wanted not in (self.board.forfeit, self.board.result):
            if self.board.result != "*":
                stays = Message("row.result_stays", wanted=wanted, result=self.board.result)
                self._screen.tells(Line(Message("row.to_change", number=self.number, stays=stays, wanted=wanted), True))
            else:
                self._gets_result = True
                self.add(wanted, self._has_result, of_table=True)

    def _has_result(self, answer: Answer) -> None:
        """What its line says was added, or refused."""
        self._gets_result = False
        self._screen.tells(Line(linked("colon", (str(self.number), answer[1]))))

    def _is_played(self) -> bool:
        """Whether its game is played: it isn't forfeited, and its line doesn't say so of a game without moves."""
        is_given = self.pairing.is_forfeited and (self._wants_result or self._gets_result)
        return not (self.board.forfeit or (is_given and self.board.result == "*" and not self.board.plies))

    def add(self, text: str, answered: Callable[[Answer], None], of_table: bool = False) -> None:
        """Adds a result or moves that were typed, or a result of the table, and passes on the answer."""

        def answers(answer: Answer) -> None:
            self._screen.answers(answer)
            answered(answer)

        if is_naming(text):
            self._name(text, answered)
        else:
            self.board.add(text, answers, functools.partial(self._screen.obeys, of_table), is_sure=of_table)

    def _name(self, text: str, answered: Callable[[Answer], None]) -> None:
        """Its pair has these names from now on, and its game gets them as after `r`. They are kept first."""
        hall, before = self._hall, self.options
        try:
            self._refuse_others()
            kept, _ = kept_names(hall.folder)
            names = typed_names(self.pairing, text, kept, hall.options)
            pairing = with_names(self.pairing, names)
            now = turned(typed_options(hall.options, pairing)).begun(before.began)
            if names != kept:
                keep_names(hall.folder, names)
        except (NotDone, OSError, Refused) as error:
            return answered(refusal(text, error))
        self.pairing, told = pairing, told_of_typed(told_of_names(now, before), text, pairing)

        def renamed(answer: Answer) -> None:
            self._lacks_names = answer[0] != DONE
            if self._lacks_names and not self.board.is_recorded:
                self._begins_otherwise()
            answer = answer if self._lacks_names and self.board.is_recorded else (DONE, told)
            self._screen.answers(answer)
            answered(answer)

        if self.board.is_recorded:
            begins = functools.partial(self._screen.obeys, False)
            return self.board.rename(text, functools.partial(chosen_by, hall, pairing), renamed, begins)
        self._begins_otherwise()
        return answered((DONE, told))

    def _refuse_others(self) -> None:
        """Refuses a game that its line would give to other players."""
        if self.held:
            raise Refused(REFUSED, Message("row.game_of_others", of_others=self.held.of_others, advice=self.held.advice))

    # What others see.

    @property
    def options(self) -> Options:
        """The options that have its players' names: those of its game, or of its line as long as no game was found. Both names and
        all tags come from the same, so they change together."""
        if self.board.options.tags:
            return self.board.options
        if self.held:
            return self.held.kept
        return typed_options(self._hall.options, self.pairing)

    def standing(self) -> Tuple[str, Optional[float], bool]:
        """Its state in words, since when, and whether somebody must look at it."""
        front, rest, since, alarm = self._standing(self.board.state)
        return linked("nothing", (front, rest)), since, alarm

    @property
    def advice(self) -> str:
        """What is to be done about it; empty if nothing is. Why it isn't recorded, its row says."""
        board = self.board
        if board.trouble:
            return ""
        state, over = (None if board.forfeit else board.state), board.is_over and board.result == "*" and not board.forfeit
        return all_of(state, board.looks.open, over, functools.partial(typed_for, self.number), Moves([ply.short for ply in board.plies]))

    def whole_standing(self) -> str:
        """Its state in words, with all squares; if somebody must look at it, also how long it has lasted."""
        state = self.board.state
        if state is None or self.board.trouble or self.board.forfeit:
            return self.standing()[0]
        return state.text(self._loop.now(), len(SQUARES))

    def _standing(self, state: Optional[State]) -> Tuple[str, str, Optional[float], bool]:
        """The same, with the words in two parts: before and after how long it has lasted."""
        board = self.board
        if board.trouble:
            return NOT_RECORDED, linked("colon", ("", board.trouble)), None, True
        if board.forfeit:
            return self._over(Forfeit(board.forfeit).words, False)
        if state is None:
            if not board.is_over:
                return BEGUN_ANEW, "", None, False
            has_result = board.result != "*"
            over = Message("state.over_with", result=board.result) if has_result else Message("state.over_no_result")
            return self._over(over, not has_result)
        return (*state.parts(), None if state.kind is Kind.WAITS else state.since, state.is_alarm)

    def _over(self, over: str, alarm: bool) -> Tuple[str, str, Optional[float], bool]:
        look = self.board.looks.short
        return look or over, linked("semicolon", ("", over)) if look else "", None, alarm or bool(look)

    def view(self) -> RowView:
        """What its row shows. A hint was shown in full when it came, and is two words here; that the clock is stopped stays."""
        state = self.board.state
        front, rest, since, alarm = self._standing(state)
        if state and state.hint and not (state.disk or self.board.trouble or self.board.forfeit):
            front = OTHER if state.hint == OTHER_BOARD else TURNED
            more = [part for part in (state.clock, state.asks) if part]
            rest = linked("semicolon", ("", *more)) if more else ""
        plies = self.board.plies
        last = plies[-1].short if plies else ""
        white, black = map(self.options.written, PLAYERS)
        return RowView(self.number, white, black, last, clocks_of(plies), front, rest, since, alarm)
