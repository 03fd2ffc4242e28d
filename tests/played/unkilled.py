"""What a recorder says that was never killed, and was told all that is kept of a game: each thing when it happened, as one call after the
other. One that was killed and begun again must say the same."""

import dataclasses
import subprocess
from typing import Iterator, List, Sequence, Tuple

from attending.answers import Answer, Entry, all_answers, brings
from live.board.state import Kind, State, told_of_exchange
from live.child.lines import SUSPECT, Answers, Doubt, Move, line_of
from live.game.looks import Looks, look_of
from played.stage import program

FIRST = 2  # lines of a heading


@dataclasses.dataclass(frozen=True)
class Said:
    """The text of the game, its alarms, and how the board stands."""

    text: bytes
    looks: Looks
    stands: State

    def state(self, looks: Looks) -> str:
        """The state in words, if these alarms are open."""
        return self.stands._replace(look=looks.short).text(0.0)


def entries(capture: bytes, times: bytes) -> Iterator[Entry]:
    """What is kept, as it was told. Bytes that have no time came when the next call began."""
    lines = [line.split() for line in times.decode().splitlines()]
    covered = last = 0
    for at, word, *number in lines[FIRST:]:
        count = int(number[0]) if number else 0
        if word == "begin":
            if count > covered:
                yield brings(last, "heard", capture[covered:count])
            covered = count
        if word in ("heard", "brought", "added"):
            yield brings(int(at), word, capture[covered : covered + count])
            covered += count
        else:
            yield Entry(int(at), word, count if number else None)
        last = int(at)
    if covered < len(capture):
        yield brings(last, "heard", capture[covered:])
    yield Entry(last, "text")


def plies_of(answers: Sequence[Answer]) -> List[Move]:
    plies: List[Move] = []
    for line in (line_of(text) for answer in answers for text in answer.report):
        if line and isinstance(line.event, Move):
            plies[len(plies) - line.event.corrects :] = [line.event]
    return plies


def looks_of(told: Sequence[Tuple[Entry, Answer]]) -> Looks:
    """The alarms that are open, in the words of both recorders."""
    doubts: List[Doubt] = []
    for entry, answer in told:
        if entry.word == "ok":
            doubts.clear()
        for line in answer.looks:
            (read,) = Answers().take(f"keep\n{line}\ndone -\n".encode())
            doubts += [doubt for doubt in read.doubts if doubt not in doubts]
    looks, plies = Looks(), plies_of([answer for _, answer in told])
    for doubt in doubts:
        is_suspected = doubt.where == SUSPECT
        looks = looks.with_one_more(told_of_exchange([doubt.plies]) if is_suspected else look_of(doubt, plies))
    return looks


def said(capture: bytes, times: bytes, options: Sequence[str] = ()) -> Said:
    """What it says."""
    entered = list(entries(capture, times))
    sent = b"".join(entry.text for entry in entered)
    done = subprocess.run([program(), "live", *options], input=sent, stdout=subprocess.PIPE, check=True)
    answers = all_answers(done.stdout)[1]
    looks = looks_of(list(zip(entered, answers)))
    kind, squares = Kind.WAITS, ()
    for answer in answers:
        if answer.state:
            kind, squares = Kind.of(answer.state.kind), answer.state.squares  # type: ignore[assignment]  # of any length
    return Said(answers[-1].game, looks, State(kind, 0.0, squares))
