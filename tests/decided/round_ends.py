"""What `q` asks before it ends a round, and how answers for a board of a round read. Worked by hand."""

from typing import List, Optional, Tuple

from live.doors.audience import stays_for, until_clock_in
from live.game.typed import ALL_WAYS, RESULT, Said, meaning
from live.round.commands import Question, question, told, told_of_answer
from live.run.refused import DONE, REFUSED, Answer, NotDone, refusal
from live.words.message import Message, linked

from decided.table import same

# Games that are being played, whether moves are hidden, what was asked before, the time in seconds, and what is asked.
ASKED: List[Tuple[int, bool, Optional[Question], float, Optional[Question]]] = [
    (0, False, None, 100.0, None),
    (4, False, None, 100.0, Question(100.0, 4)),
    (4, False, Question(100.0, 4), 100.0, None),
    (3, False, Question(100.0, 4), 160.0, None),
    (4, False, Question(100.0, 4), 160.5, Question(160.5, 4)),  # after a minute it may be a mistake again
    (0, False, Question(100.0, 4), 500.0, None),
    (0, True, None, 100.0, Question(100.0, hidden=True)),
    (0, True, Question(100.0, hidden=True), 9000.0, None),
    (1, True, Question(100.0, hidden=True), 9000.0, Question(9000.0, 1, True)),
    (2, True, None, 100.0, Question(100.0, 2, True)),
    (2, True, Question(100.0, 2, True), 130.0, None),
    (0, True, Question(100.0, 2, True), 9000.0, None),
    (2, True, Question(100.0, 2), 130.0, Question(130.0, hidden=True)),  # nothing was hidden when it was asked
]
# For how many seconds moves are hidden, the time of day in seconds, and how long it is until the minute that is printed.
PRINTED = [(5.0, 100.0, 20.0), (0.0, 120.0, 0.0), (1.0, 119.0, 1.0), (2.0, 119.0, 61.0), (900.0, 0.0, 900.0)]
# When all was shown, when the printed minute begins, the time, and for how long the page stays.
STAYED = [(100.0, 0.0, 100.0, 10.0), (100.0, 0.0, 110.0, 0.0), (100.0, 140.0, 100.0, 40.0), (100.0, 105.0, 104.0, 6.0)]
TOLD = [
    (Question(0.0, 1), "1 game is still being played. To end the round all the same, type q again within a minute"),
    (Question(0.0, 4), "4 games are still being played. To end the round all the same, type q again within a minute"),
    (Question(0.0, 4, True), "4 games are still being played, and spectators see the last moves at 15:20. "
     "To end the round all the same, type q again within a minute"),
    (Question(0.0, hidden=True), "spectators see the last moves at 15:20: leave it running until then. To end it now, type q again"),
]


def added(what: str) -> Answer:
    """The answer to what was added."""
    return DONE, Message("typed.added_to", name="round/02", what=what)


ANSWERS: List[Tuple[Answer, str]] = [
    (added(meaning(Said(RESULT, ("1-0",)), "1-0", ["1. e4"])),
     "2: added to round/02: the result 1-0 after 1. e4, 1 ply. If another board was meant, type 2 *"),
    (added(meaning(Said(RESULT, ("1/2-1/2",)), "1/2", [])),
     "2: added to round/02: the result 1/2-1/2 before the first move. If another board was meant, type 2 *"),
    (added("Nf3 Nc6"), "2: added to round/02: Nf3 Nc6"),
    (added(linked("semicolon", ("Nf3", Message("result.gone", result="1-0")))), "2: added to round/02: Nf3; the result 1-0 is gone: add it again"),
    (refusal("2-0", NotDone("neither a move nor a result")), "2 refused: 2-0: neither a move nor a result"),
    ((REFUSED, ALL_WAYS), "2: behind the number, type 1-0, 0-1, 1/2-1/2, moves (Nf3 Nc6), back, back 14. Bxf6, instead 14. O-O, undo, "
     "* (no result), name White=Anna, ok, or +- (Black has not come; -+ White, -- both)"),
]  # fmt: skip


def questions() -> None:
    """When `q` is asked about, and in which words."""
    for games, hidden, before, now, expected in ASKED:
        same(f"{games} {hidden} {before} {now}", question(games, hidden, before, now), expected)
    for asked, text in TOLD:
        same(f"{asked}", told(asked, "15:20"), text)


def leaving() -> None:
    """A call of one board stays for ten seconds after all was shown, and until the minute that it has printed."""
    for left, wall, expected in PRINTED:
        same(f"{left} {wall}", until_clock_in(left, wall), expected)
    for shown_at, told_at, now, expected in STAYED:
        same(f"{shown_at} {told_at} {now}", stays_for(shown_at, told_at, now), expected)


def answers() -> None:
    """An answer has the number of its board; one to a result says how to take it off."""
    for given, text in ANSWERS:
        same(str(given), told_of_answer(2, given), text)


TABLES = [questions, answers, leaving]
