"""What to type in a round: what answers say of it, also instead of a line that doesn't begin with a board's number; and what `q` asks
before it ends a round: whether to end games that are still being played, and moves that spectators haven't seen. When they have seen all,
that is said."""

from __future__ import annotations

from dataclasses import dataclass
from typing import Callable, Optional, Sequence

from live.child.program import Program
from live.game.options import Options, is_naming
from live.game.typed import ABSENT, ALL_WAYS, ILLEGAL, MEANT, MOVES, OK_NUMBERED, RESULT, UNKNOWN, Accepted, Acknowledged, Back, Instead, Recover, Reopened, Said, Undo, ask_to_add, moves_in, read_words, typed_forfeit
from live.out.delay import clock_in
from live.out.outputs import Outputs
from live.run.loop import Turns
from live.run.refused import DONE, OK, REFUSALS, REOPENS, Answer, NotDone
from live.words.message import Message, has, is_of, linked, plural

LOOK = 0.5  # seconds
PATIENCE = 60.0  # seconds for which an answer about games counts
SEEN = Message("leave.all_seen")


def told_of_answer(number: int, given: Answer) -> str:
    """The answer to what was typed for a board, with the board's number. A result may have been meant for another one."""
    status, answer = given
    if answer == ALL_WAYS:
        return Message("round.behind_the_number", number=number, absent=ABSENT)
    if any(is_of(answer, key) for key in REFUSALS):
        return linked("space", (str(number), answer))
    told = linked("colon", (str(number), answer))
    is_result = status == DONE and has(answer, "result.added") and not has(answer, "join.semicolon")
    return Message("round.another_board", told=told, number=number, reopens=REOPENS) if is_result else told


def example(numbers: Sequence[int]) -> int:
    """A board's number for an example: that in --help, if there is such a board."""
    return 3 if 3 in numbers or not numbers else numbers[-1]


def all_ways(numbers: Sequence[int]) -> str:
    """What can be typed."""
    number = example(numbers)
    here = ", ".join(f"{number} {what}" for what in ("1-0", "+-", "*", "Nf3 Nc6", "back", "name White=Anna", "ok", "moves", "help"))
    return Message("round.all_ways", here=here, number=number)


def ways(text: str, numbers: Sequence[int], said: Said = Said(UNKNOWN)) -> str:
    """What to type instead of a text that doesn't begin with a board's number, given what the program says of it."""
    ok = OK_NUMBERED.fullmatch(text.strip())
    if ok:
        return Message("round.number_first", number=ok[1], ok=OK)
    number = example(numbers)
    line = " ".join(text.split())
    if said.kind == RESULT:
        line = said.outcome
    elif said.kind in (MOVES, ILLEGAL, MEANT):
        line = moves_in(text)[0]
    elif not is_command(text):
        return all_ways(numbers)
    return Message("round.which_board", number=number, line=line)


def is_command(text: str) -> bool:
    """Whether a text without a board's number would be a command for a board, and no moves or result."""
    try:
        commands = (Back, Instead, Recover, Undo, Reopened, Acknowledged, Accepted)
        return is_naming(text) or bool(typed_forfeit(text)) or isinstance(read_words(text), commands)
    except NotDone:
        return False


def said_of(program: Program, text: str) -> Said:
    """What the program says of a text that is typed to a game without moves."""
    try:
        return ask_to_add(program, Options(), b"", text)
    except OSError:
        return Said(UNKNOWN)


@dataclass(frozen=True)
class Question:
    """What was asked, and when: whether it was about so many games, and about what is hidden."""

    at: float
    games: int = 0
    hidden: bool = False


def question(games: int, hidden: bool, before: Optional[Question], now: float) -> Optional[Question]:
    """What to ask if so many games are still being played; None if it may end. A question holds for a minute if it was about games."""
    knows_games = before is not None and before.games > 0 and now - before.at <= PATIENCE
    knows_hidden = before is not None and before.hidden
    if (games and not knows_games) or (hidden and not knows_hidden):
        return Question(now, 0 if knows_games else games, hidden)
    return None


def told(asked: Question, when: str) -> str:
    """The question. `when` is the time of day at which spectators see the last moves."""
    late = Message("delay.last_moves", time=when)
    if not asked.games:
        return Message("leave.leave_running", late=late)
    plays = plural("leave.games", asked.games)
    return Message("leave.end_all_the_same", games=linked("comma_and", (plays, late)) if asked.hidden else plays)


class Leaving:
    """Asks, and says when spectators have seen all."""

    def __init__(self, loop: Turns, outputs: Outputs, says: Callable[[str], None]) -> None:
        self._loop, self._outputs, self._says = loop, outputs, says
        self._asked: Optional[Question] = None
        self._waits = False  # for spectators

    def may_end(self, games: int) -> bool:
        """Whether the round may end now, while so many games are still being played. If not, says why, and what to do."""
        self._outputs.look()
        left = self._outputs.hidden_for
        asked = question(games, left is not None, self._asked, self._loop.now())
        if asked is None:
            self._waits = False
            return True
        self._asked = asked
        self._says(told(asked, "" if left is None else clock_in(left)))
        if asked.hidden and not self._waits:
            self._waits = True
            self._look()
        return False

    @property
    def is_asked_of_games(self) -> bool:
        """Whether an answer would end games, and hide nothing."""
        return self._asked is not None and self._asked.games > 0 and not self._asked.hidden

    def _look(self) -> None:
        """Says once when all is shown and carried away."""
        if not self._waits:
            return
        if self._outputs.hidden_for is None and self._outputs.is_out:
            self._waits, self._asked = False, None
            self._says(SEEN)
        else:
            self._loop.after(LOOK, self._look)
