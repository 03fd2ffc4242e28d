"""A recorder that was killed and begins again says what one says that was not: the same state, alarms and text. Both are told the same from
then on. What is kept for the one that begins again is the capture, its file of times and the number of the game's board.

Behind each entry of an evening it is killed. The law is `RestartsAlike` of crates/board_live/specs/Laws.antt. It is about all that was
kept, and a file of times has no line of a board that is silent: that isn't seen, since a call that begins counts its board as
answering. Alarms go by the times of what a board sends, so the same are open. Nor has it a line of a wake at which nothing was asked;
so nobody was there from its last line on, and `begin` names spans that are as much shorter.
"""

import dataclasses
import os
import random
from typing import Iterator, List, Sequence, Tuple

from attending.answers import Answer, Entry, brings
from attending.emulated_evenings import emulated_evening
from attending.evenings import OTHER, OWN, Evening, Mark, number_message
from attending.happenings import evening, gone_back, moved_about, next_game, plies_of, sample
from attending.host import answers
from attending.pictures import Picture, dump
from decided.table import same

EVENINGS, ELSEWHERE, EMULATED = 30, 8, 4
BACK, SERIES = 10, 5  # evenings in which plies are taken off, and which go on with the next game of a series
EACH = int(os.environ.get("EACH_PREFIX", "4"))  # of the wakes and reads of an evening one in so many is tried; 1: each
AWAY = 35000  # milliseconds from the last thing that the killed one was told to the next call


def lifted(shown: Picture) -> bytes:
    """The update of the first piece."""
    at = next((at for at, code in enumerate(shown) if code), 0)
    return b"\x8e\x00\x05" + bytes((at, 0))


def woken(times: Sequence[int]) -> List[Entry]:
    return [Entry(at, "wake") for at in times]


def same_board(mark: Mark) -> Iterator[Entry]:
    """Its own board is there, and a piece is lifted for long."""
    yield from [Entry(10, "opened"), brings(60, "heard", number_message(mark.number or OWN)), brings(130, "heard", dump(mark.shown))]
    yield from [*woken([1010]), brings(1100, "heard", dump(mark.shown)), *woken([2010]), brings(2100, "heard", lifted(mark.shown))]
    yield from [*woken(range(2600, 19000, 700)), brings(19000, "heard", dump(mark.shown)), Entry(19500, "gone"), *woken([20000])]


def another_board(mark: Mark) -> Iterator[Entry]:
    """Another board is there until the arbiter takes it."""
    number = OWN if mark.number == OTHER else OTHER
    yield from [Entry(10, "opened"), brings(60, "heard", dump(mark.shown)), *woken([1010]), brings(1070, "heard", number_message(number))]
    yield from [*woken([2010]), brings(2100, "heard", dump(mark.shown)), Entry(3000, "took"), *woken(range(3100, 6000, 300))]


def no_answer(mark: Mark) -> Iterator[Entry]:
    """The board is silent, and then it gives its pieces and no number."""
    yield from [Entry(10, "opened"), *woken(range(1010, 8000, 500)), brings(8000, "heard", dump(mark.shown)), *woken([9010])]
    yield from [brings(9100, "added", dump(mark.shown)), Entry(12000, "stopped", 2000), *woken([12001])]


NEXT_CALLS = (same_board, another_board, no_answer)


def next_call(mark: Mark, away: int, number: int) -> List[Entry]:
    """What both are told from then on."""
    begun = [Entry(0, "begin", mark.capture), Entry(0, "away", away)]
    owned = [brings(0, "number", mark.number)] if mark.number else []
    call = [*NEXT_CALLS[number % len(NEXT_CALLS)](mark)]
    return [*begun, *owned, Entry(1, "text"), *call, Entry(call[-1].at + 1, "text")]


def kept(lived: Evening, mark: Mark) -> List[Entry]:
    """What is kept of an evening up to there."""
    return [brings(0, "kept", lived.times[: mark.times]), brings(0, "capture", lived.capture[: mark.capture])]


def longer(found: Sequence[Answer], by: int) -> List[Answer]:
    """The answers, with the span in that of `begin` longer."""
    first, *rest = found
    state = first.state
    if state and state.lasted is not None:
        first = dataclasses.replace(first, state=dataclasses.replace(state, lasted=state.lasted + by))
    return [first, *rest]


def reported(told: Sequence[Answer]) -> Tuple[str, ...]:
    return tuple(line for answer in told for line in answer.report)


def unlike(one: Answer, other: Answer) -> str:
    """In what two answers differ; empty if in nothing."""
    names = [field.name for field in dataclasses.fields(Answer) if getattr(one, field.name) != getattr(other, field.name)]
    return ", ".join(f"{name} {getattr(one, name)!r} and {getattr(other, name)!r}" for name in names)


def is_looked_at(at: int, entry: Entry) -> bool:
    """Whether it is tried to kill a recorder behind this entry of an evening."""
    return entry.word not in ("wake", "heard") or at % EACH == 0


def differences(lived: Evening) -> Tuple[int, List[str]]:
    """How often the recorder was killed, and where the one that began again says something else."""
    count, wrong = 0, []
    for at, (entry, _) in enumerate(lived.told):
        if not is_looked_at(at, entry):
            continue
        mark = lived.marks[at]
        before = [told for told, _ in lived.told[: at + 1]]
        gap = mark.now - mark.noted
        whole = answers([*before, *next_call(mark, AWAY, at)], lived.options)
        again = answers([*kept(lived, mark), *next_call(mark, AWAY + gap, at)], lived.options)
        count += 1
        if reported(whole[: at + 1]) != again[1].report:
            wrong.append(f"killed behind entry {at}: other lines of the report")
        for one, other, told in zip(whole[at + 1 :], longer(again[2:], gap), next_call(mark, AWAY, at)):
            if differs := unlike(one, other):
                wrong.append(f"killed behind entry {at}, at {told.text[:20]!r}: {differs}")
                break
    return count, wrong


def alike() -> None:
    """Behind each entry of the evenings."""
    back = [seed for seed in range(EVENINGS) if plies_of(evening(seed)) > 0][:BACK]
    others = [*map(gone_back, back), *map(next_game, range(SERIES)), *map(moved_about, range(ELSEWHERE)), *map(emulated_evening, range(EMULATED))]
    evenings = [sample(), *map(evening, range(EVENINGS)), *others]
    kills = 0
    for lived in evenings:
        count, wrong = differences(lived)
        same(f"{lived.name}: killed {count} times", wrong[:3], [])
        kills += count
    print(f"{len(evenings)} evenings of {sum(len(lived.told) for lived in evenings)} entries, killed behind {kills} of them")


def torn() -> None:
    """A file of times that is torn anywhere costs times, and no line of the report."""
    chance = random.Random("torn")
    for lived in map(evening, range(0, EVENINGS, 5)):
        wanted = reported([answer for _, answer in lived.told])
        for _ in range(4):
            size = chance.randrange(len(lived.times))
            found = answers([brings(0, "kept", lived.times[:size]), brings(0, "capture", lived.capture)], lived.options)
            same(f"{lived.name}, torn at {size}", found[1].report, wanted)


TABLES = [alike, torn]
