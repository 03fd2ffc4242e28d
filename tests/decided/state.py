"""The state of a board, by the rules in Python that `live` is compared with: what happens when, and what an arbiter reads at which time."""

import math
from typing import Any, Dict, List, Optional

from live.board.state import DISK_FULL, OTHER_BOARD, TURNED_ROUND, Kind, Standing, State, asked_of, lasting
from live.child.lines import Event, Stood, event_of
from live.game.log import PROMPT, Screen
from live.line.protocol import picture_of_placement
from live.run.loop import Loop

from attending.frames import picture_of_dump
from attending.state_rules import BoardState, turned_round
from decided.cases import bytes_of, cases
from decided.table import same

E4 = "rnbqkbnr/pppppppp/8/8/4P3/8/PPPP1PPP/RNBQKBNR"
AFTER_E4 = picture_of_placement(E4)
HINTS = {"": "", "state.turned_round": TURNED_ROUND, "state.other_board": OTHER_BOARD}


def event_of_line(line: str) -> Optional[Event]:
    """The event of a line; of `rest` there is none."""
    return event_of(line.partition(" ")[2])


def happened(board: BoardState, when: float, what: str) -> None:
    """One thing that happens."""
    if what in ("silent", "answers"):
        board.silent(when, what == "silent")
    elif what == "unplugged":
        board.unplugged(when)
    elif what == "plugged":
        board.plugged()
    elif what == "goes on":
        board.goes_on()
    elif what == "shows itself":
        board.shows_itself()
    elif what.startswith("shows "):
        board.shows(picture_of_placement(what[len("shows ") :]))
    elif what == "look":
        board.look = "LOOK at 1. e4"
    elif what in ("full", "written"):
        board.disk(DISK_FULL if what == "full" else "")
    else:
        board.told(when, event_of_line(what))


def texts() -> None:
    """What is read at each time: what happens at just that time isn't known yet."""
    for name, happenings, readings in cases("state", "texts"):
        board = BoardState()
        left = list(happenings)
        seen = []
        for when, _ in readings:
            while left and left[0][0] < when:
                happened(board, *left.pop(0))
            if left and left[0][0] == when and when == happenings[0][0]:
                happened(board, *left.pop(0))
            seen.append([when, board.state(when).text(when)])
        same(name, seen, readings)


def seen_of(board: BoardState, step: Dict[str, Any]) -> object:
    """What a step of a case looks at."""
    what, now = step["see"], step["at"]
    if what == "same news":
        news = [board.state(when).news for when in now]
        return [one == other for one, other in zip(news, news[1:])]
    state: State = board.state(now)
    due = board.due(now)
    return {"due": None if due == math.inf else due, "alarm": state.is_alarm, "since": state.since}[what]


def times() -> None:
    """When the state becomes another one by the time alone, and what is news."""
    for steps in cases("state", "times"):
        board = BoardState()
        for step in steps:
            if "do" in step:
                happened(board, step["at"], step["do"])
            else:
                same(step["name"], seen_of(board, step), step["is"])
    for seconds, text in cases("state", "lasting"):
        same(text, lasting(seconds), text)


def hints() -> None:
    """A board that lies the other way round, and another board on the cable."""
    ways = [Screen(None).turn(given) for given in (False, True)]
    same("what to do then", ways, ["Ctrl-C, start again with --rotated", "Ctrl-C, start again with --rotated=no"])
    for way in ways:
        last = f"13:11:08  {TURNED_ROUND} {way}{PROMPT}"
        same(f"it has room: {last!r}", len(last) < 80, True)
    for name, start, happenings, text, is_alarm in cases("state", "hints"):
        board = BoardState(picture_of_placement(start) if start else None)
        for what in happenings:
            happened(board, 0, what)
        state = board.state(1)
        same(name, (state.text(1), state.is_alarm), (text, is_alarm))
    for name, shown, start, expected in cases("state", "turned round"):
        same(name, turned_round(picture_of_placement(shown), picture_of_placement(start)), expected)
    same("a dump's picture", picture_of_dump(bytes_of(f"rotated:{E4}"), True), AFTER_E4)
    alarms = [kind.name for kind in Kind if kind.value.isupper()]
    same("kinds that are alarms", alarms, ["WRONG", "NO_START", "SILENT", "UNPLUGGED"])


def questions() -> None:
    """What is asked if one change of the game explains the board: it is behind the state, and news."""
    for name, fits, asked in cases("state", "questions"):
        state = State(Kind.WRONG, 0, ("d5",), fits=fits, asks=asked_of(fits, "y"))
        same(name, (state.parts(), state.news[-1]), (("WRONG", f": d5; {asked}"), fits))


def clocks() -> None:
    """What is said of a clock that both sides have stopped, in each state."""
    for name, kind, known, front, rest, is_news in cases("state", "clocks"):
        given: Dict[str, Any] = {**known, "squares": tuple(known.get("squares", ())), "hint": HINTS[known.get("hint", "")]}
        runs = State(Kind[kind], 0, **given)
        stands = runs._replace(clock_stopped=True)
        same(name, stands.parts(), (front, rest))
        same(f"{name}: what is news, and an alarm", (stands.news != runs.news, stands.is_alarm), (is_news, runs.is_alarm))
    wrong = State(Kind.WRONG, 0, ("e2",), clock_stopped=True)
    same("behind how long it has lasted", wrong.text(40), "WRONG since 40 s: e2; clock stopped")


class Shown(Screen):
    """Keeps the states that it is to show."""

    def __init__(self) -> None:
        super().__init__(None)
        self.texts: List[str] = []

    def state(self, text: str, news: object) -> None:
        self.texts.append(text)


def clock_of_a_board() -> None:
    """A clock is news once, is shown with the state, and stays when that changes; but not in a state that says nothing of it."""
    loop, screen = Loop(), Shown()
    try:
        standing = Standing(loop, screen, False)
        same("what is news", [standing.clock(stopped) for stopped in (False, True, True, False, True)], [False, True, False, True, True])
        for kind in ("AGREES", "IN-HAND", "SILENT", "AGREES"):
            standing.stands(loop.now(), Stood(kind))
            standing.show()
        standing.clock(False)
        standing.show()
        same("what is shown", screen.texts, ["agrees; clock stopped", "in hand; clock stopped", "SILENT", "agrees; clock stopped", "agrees"])
        standing.clock(True)
        standing.stands(loop.now(), Stood("AGREES"))
        standing.board.unplugged_since = loop.now()
        same("unplugged", standing.board.state.parts(), ("UNPLUGGED", ""))
        nobody_plays = Standing(loop, screen, False, played=False, before=standing)
        standing.board.unplugged_since = None
        nobody_plays.show()
        same("while pieces are set up", screen.texts[-1], "setting up")
        unknown = Standing(loop, screen, False, has_shown=True)
        unknown.clock(True)
        unknown.show()
        same("before the state is known", (unknown.state, len(screen.texts)), (None, 6))
    finally:
        loop.close()


TABLES = [texts, times, hints, questions, clocks, clock_of_a_board]
