"""Two plies of which no picture was whole: found in a capture as `--recover` finds them, and put in if an arbiter says that they were played."""

from __future__ import annotations

import re
from dataclasses import dataclass
from typing import List, Optional, Sequence, Tuple

from live.child.lines import Move, Recovered, line_of
from live.child.program import Program, told_of_ending
from live.game.game import Course, Game, game_of, largest, placement_of
from live.game.options import Options
from live.game.typed import NO_RESULT, SLOWEST, Way, reached
from live.game.undone import alike
from live.line.protocol import frame_at
from live.run.refused import NotDone
from live.words.message import Message, linked, plural

PLIES = re.compile(r"recovered (\d+)(\.+) (\S+) (\d+\.+) (\S+)", re.ASCII)


@dataclass(frozen=True)
class Pair:
    """Two plies, as they are typed: `3. Bc4 Nc6`; and the offset of the byte with which the board has confirmed them."""

    moves: str
    offset: int


@dataclass(frozen=True)
class PutBetween(Way):
    """The capture with two plies put in; which plies the game has then."""

    moves: str = ""
    now: Sequence[Move] = ()

    @property
    def words(self) -> str:
        """What was done: `put in, as the board has shown since: 3. Bc4 Nc6; 12 plies, the last one 6... O-O`."""
        parts: List[str] = [Message("hidden.put_in", moves=self.moves), plural("hidden.plies", len(self.now), last=reached(self.now))]
        if self.result != NO_RESULT:
            parts.append(Message("back.result_gone", result=self.result))
        return linked("stop", (linked("semicolon", parts), Message("hidden.option")))


def pairs_in(report: str) -> List[Pair]:
    """The pairs that a report of `recover` has."""
    found = []
    for text in report.splitlines():
        line = line_of(text)
        if line and isinstance(line.event, Recovered) and (pair := PLIES.fullmatch(line.event.text)):
            number, dots, first, second_number, second = pair.groups()
            second = second if dots == "." else f"{second_number} {second}"
            found.append(Pair(f"{number}{dots} {first} {second}", line.offset))
    return found


def _recovered(program: Program, options: Options, sent: bytes) -> Tuple[bytes, List[Pair]]:
    done = program.run("recover", *options.of_board(), given=sent, patience=SLOWEST)
    if done.returncode != 0:
        raise OSError(told_of_ending("recover", done.returncode))
    return done.stdout, pairs_in(done.stderr.decode("utf-8", "replace"))


def first_pair(program: Program, options: Options, sent: bytes) -> Optional[Pair]:
    """The first two plies that no picture of these bytes shows, and that are confirmed. Raises OSError if the program fails."""
    _, found = _recovered(program, options, sent)
    return found[0] if found else None


def asked_pair(game: Game, sent: bytes) -> Optional[Pair]:
    """The first pair, unless it leads back to an earlier position of the game: then the plies may have been taken back. Raises OSError if the
    program fails."""
    pair = first_pair(game.program, game.options, sent)
    if pair is None:
        return None
    made, _ = _recovered(game.program, game.options, sent[: pair.offset + 1])
    before, now = game_of(game.program, game.options, sent), game_of(game.program, game.options, between(sent, made, pair.offset))
    return None if leads_back(now, alike(before.plies, now.plies)) else pair


def leads_back(course: Course, stays: int) -> bool:
    """Whether the two plies behind so many lead to a position that the game had before them."""
    placements = [placement_of(fen) for fen in course.fens]
    return placements[stays + 2 : stays + 3] != [] and placements[stays + 2] in placements[: stays + 1]


def between(sent: bytes, made: bytes, offset: int) -> bytes:
    """The bytes of a board with the frames of a pair that `recover` has made behind this byte. They come before the frame that has confirmed
    the pair: so the pair is in the game by then, and isn't found again."""
    begins = frame_at(sent, offset)
    return sent[:begins] + made[offset + 1 :] + sent[begins:]


def put_between(game: Game, moves: str, sent: bytes) -> PutBetween:
    """The way to the game of these bytes with these plies, which are the first that `recover` finds, and no others. Refused if they aren't."""
    pair = first_pair(game.program, game.options, sent)
    if pair is None:
        raise NotDone(Message("hidden.none"))
    if pair.moves != moves:
        raise NotDone(Message("hidden.others", moves=pair.moves))
    made, _ = _recovered(game.program, game.options, sent[: pair.offset + 1])
    content = between(sent, made, pair.offset)
    if len(content) > largest(game.options):
        raise NotDone(Message("back.capture_full"))
    before, now = game_of(game.program, game.options, sent), game_of(game.program, game.options, content)
    gone = before.result if before.result != now.result else NO_RESULT
    return PutBetween(before.plies, alike(before.plies, now.plies), gone, content, moves=pair.moves, now=now.plies)
