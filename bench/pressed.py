#!/usr/bin/env python3
"""How often `dgt_replay live` asks somebody to look at a game for when plies are made and whether the clock is pressed: where hands are
honest, and where they do what is no play.

honest      Games of an engine at three paces, with hands as in bench/doubts.py. Of 100 presses 3 are forgotten: then the time
            of the side that forgot runs on until its next ply. Each alarm is a false one. `Shuffled` are endings in which
            pieces mostly go back to where they were.
taken back  After some plies both sides take back their last one, or their last two: the side that moved first goes first, and
            nobody presses the clock. Then the game is played on.
replaced    Both put the piece that they moved last where it could have gone too.
analysis    From some ply on twelve plies are tried while the clock runs.
tried       The clock is stopped, and two plies are tried, one second each.
exchanged   The clock's sides are read the wrong way.
hidden      The clock runs, and the cable is out while four plies lead back to the start. Then the game is played.

A wrong game is silent without these rules if each of its plies is recorded and the board agrees at the end. The program is the real
one; times and the clock are simulated. No real hands, no real clock.
pressed.py [--games N] [--wrong N] [--seed N] [--program PATH] [--at-once N]
"""

from __future__ import annotations

import argparse
import itertools
import random
import subprocess
import sys
from collections import Counter
from concurrent.futures import ProcessPoolExecutor
from dataclasses import dataclass, field
from typing import Iterator, List, NamedTuple, Optional, Sequence, Tuple

import doubts
import hurried
import streams
from hands import EMPTY, PROGRAM

from live.line.protocol import Picture  # noqa: E402  (hands has put its folder on the path)
from live.child.lines import Agrees, Answers, Differs, Move, line_of  # noqa: E402

PACES = (1.0, 3.0, 30.0)  # seconds to think, the median
FORGOTTEN = 3  # of 100 presses
PRESSES = (0.1, 0.5)  # seconds after a ply at which its player presses
SAID = (0.0, 0.3)  # seconds after which the clock has said so
COUNTS = (0.0, 1.0)  # seconds after which a time has gone down
GOES_BACK = (1.0, 0.5)  # seconds until a piece goes back, the median and the spread
TRIES = 1.0
PAWNS = (1, 7)
HIDDEN = (6, 10)  # seconds for which the cable is out before the first move
TIME = 5400  # seconds on each clock
KINDS = ("taken back", "two each", "replaced", "analysis", "tried", "exchanged", "hidden")
Pictures = Sequence[Picture]
Found = Sequence[Tuple[float, str]]  # when there is an alarm, and why


class Said(NamedTuple):
    """What the clock says: `clock 1` that it runs, `counts 0` that White's time has gone down, `pressed`."""

    at: float
    words: str


@dataclass(frozen=True)
class Told:
    """What came of a game."""

    plies: int
    with_clock: Found
    without: Found
    is_silent: bool = True  # all that was done is recorded, and the board agrees at the end
    since: float = 0.0  # when the first ply was made that wasn't played


class Row(NamedTuple):
    """Games that are played alike."""

    name: str
    pace: float
    games: List[Told]


def other_side(words: str) -> str:
    return f"counts {1 - int(words[-1])}" if words.startswith("counts") else words


@dataclass
class Clock:
    """A clock beside a board. White's time runs first."""

    chance: random.Random
    turn: int = 0
    pressed_at: float = 0.0
    turns: List[Tuple[float, int]] = field(default_factory=list)
    said: List[Said] = field(default_factory=lambda: [Said(0.0, "clock 1"), Said(0.5, "counts 0")])

    def made(self, at: float, side: int) -> None:
        """This side has made a ply, and presses unless it forgets to, or its time doesn't run."""
        if self.turn != side or self.chance.random() * 100 < FORGOTTEN:
            return
        self.pressed_at = max(at + self.chance.uniform(*PRESSES), self.pressed_at + 0.05)
        self.turn = 1 - side
        self.said.append(Said(self.pressed_at + self.chance.uniform(*SAID), "pressed"))
        self.turns.append((self.pressed_at, self.turn))

    def stop(self, at: float) -> None:
        self.said.append(Said(at, "clock 0"))

    def heard(self, until: float, exchanged: bool) -> List[Said]:
        """All that it says. A time goes down within a second, if it still runs then."""
        counts = []
        for (begins, side), (ends, _) in zip(self.turns, [*self.turns[1:], (until, 0)]):
            shown = begins + self.chance.uniform(*COUNTS)
            counts += [Said(shown, f"counts {side}")] if shown < ends else []
        said = sorted([*self.said, *counts])
        return [Said(at, other_side(words) if exchanged else words) for at, words in said]


class Table:
    """Two players at a board with a clock."""

    def __init__(self, seed: str, pace: float, start: Picture) -> None:
        self.chance = random.Random(seed)
        self.hands = doubts.Players(self.chance, pace)
        self.clock = Clock(self.chance)
        self.start = self.board = start

    @property
    def now(self) -> float:
        return self.hands.made_at[-1]

    def play(self, pictures: Pictures, first: int = 0) -> None:
        """Plays on through these pictures, as they think; Black first if that is 1."""
        for number, picture in enumerate(pictures):
            self.hands.play([self.board, picture])
            self.board = picture
            self.clock.made(self.now, (first + number) % 2)

    def do(self, pictures: Pictures, think: Tuple[float, float]) -> None:
        """Shows these pictures without a press."""
        hands = self.hands
        usual = hands.pace, hands.spread
        hands.pace, hands.spread = think
        for picture in pictures:
            hands.play([self.board, picture])
            self.board = picture
        hands.pace, hands.spread = usual

    def told(self, program: str, plies: int, since: float = 0.0, exchanged: bool = False, fen: str = "", gaps: Sequence[doubts.Gap] = ()) -> Told:
        sent = doubts.sent_by(self.start, self.hands.changes, gaps, self.chance, 0)
        words = [program, "live", *(("--fen", fen) if fen else ())]
        said = self.clock.heard(sent.times[-1], exchanged)
        alarms, recorded, agrees = told_of(with_clock(sent, said, gaps), gaps, words)
        return Told(plies, alarms, told_of(sent, gaps, words)[0], recorded == plies and agrees, since)


def messages(said: Sequence[Said]) -> Iterator[Tuple[float, bytes]]:
    """The clock's messages."""
    times, runs, lever = [TIME, TIME], 0, 0
    for at, words in said:
        what, _, number = words.partition(" ")
        if what == "counts":
            times[int(number)] -= 1
        elif what == "clock":
            runs = int(number)
        else:
            lever = 1 - lever
        groups = [f"{part:02}" for time in times for part in (time // 3600, time // 60 % 60, time % 60)]
        yield at, bytes((0x8D, 0, 10, *(int(digits, 16) for digits in groups), runs | lever << 1))


def with_clock(sent: doubts.Sent, said: Sequence[Said], gaps: Sequence[doubts.Gap]) -> doubts.Sent:
    """What the board sends, with its clock's messages."""
    came = itertools.groupby(zip(sent.times, sent.content), lambda one: one[0])
    frames = [(at, bytes(byte for _, byte in of_a_time)) for at, of_a_time in came]
    heard = [(at, frame) for at, frame in messages(said) if not any(begin <= at < until for begin, until in gaps)]
    both = doubts.Sent()
    for at, frame in sorted([*frames, *heard], key=lambda one: one[0]):
        both.put(at, frame)
    return both


def told_of(sent: doubts.Sent, gaps: Sequence[doubts.Gap], words: Sequence[str]) -> Tuple[Found, int, bool]:
    """The program's alarms; how many plies it tells of; whether the board agrees at the end."""
    entered = b"".join(doubts.entries(sent, gaps))
    text = subprocess.run([*words], input=entered, stdout=subprocess.PIPE, check=True).stdout
    alarms: List[Tuple[float, str]] = []
    agrees, plies = False, 0
    for at, answer in zip(doubts.times_of(sent, gaps), Answers().take(text)):
        alarms += [(at, doubt.why) for doubt in answer.doubts]
        for line in filter(None, map(line_of, answer.report)):
            if isinstance(line.event, (Move, Agrees, Differs)):
                agrees = not isinstance(line.event, Differs)
            plies += isinstance(line.event, Move) and not line.event.corrects
    return alarms, plies, agrees


def with_changes(board: Picture, changes: Sequence[Tuple[int, int]]) -> Picture:
    codes = list(board)
    for square, code in changes:
        codes[square] = code
    return tuple(codes)


def is_quiet(before: Picture, after: Picture) -> bool:
    """Whether a piece, no pawn, goes to an empty square."""
    changed = [at for at in range(64) if before[at] != after[at]]
    goes = all(EMPTY in (before[at], after[at]) and before[at] not in PAWNS for at in changed)
    return len(changed) == 2 and goes


def way(before: Picture, after: Picture) -> Tuple[int, int]:
    """From where to where a quiet ply goes."""
    changed = [at for at in range(64) if before[at] != after[at]]
    return (changed[0], changed[1]) if after[changed[0]] == EMPTY else (changed[1], changed[0])


def position(board: Picture, side: int) -> streams.Game:
    """A position without castling and en passant."""
    game = streams.Game()
    game.board, game.side, game.unmoved = list(board), side, set()
    return game


def moves(game: streams.Game) -> Iterator[Picture]:
    """The boards after each legal move."""
    for changes in game.ways():
        if game.is_legal(changes):
            yield with_changes(tuple(game.board), changes)


def others(chance: random.Random, before: Picture, after: Picture, side: int) -> Optional[Picture]:
    """Another quiet move of the same piece."""
    origin, target = way(before, after)
    boards = [board for board in moves(position(before, side)) if is_quiet(before, board)]
    boards = [board for board in boards if way(before, board)[0] == origin and way(before, board)[1] != target]
    return chance.choice(boards) if boards else None


def taken_back(pictures: Pictures, last: int, plies: int) -> List[Picture]:
    """The boards while so many plies are taken back, the side that moved first always first."""
    boards, board = [], pictures[last]
    for first in range(last - 2, last - plies - 1, -2):
        for at in (first, first + 1):
            origin, target = way(pictures[at], pictures[at + 1])
            board = with_changes(board, [(origin, board[target]), (target, EMPTY)])
            boards.append(board)
    return boards


def replaced(chance: random.Random, pictures: Pictures, last: int) -> Optional[List[Picture]]:
    """The boards while both sides put the piece that they moved last on another square; None if one of them can't."""
    side = last % 2
    one = others(chance, pictures[last - 2], pictures[last - 1], side)
    if one is None:
        return None
    reply = way(pictures[last - 1], pictures[last])
    if one[reply[0]] != pictures[last - 1][reply[0]] or one[reply[1]] != EMPTY:
        return None
    both = with_changes(one, [(reply[0], EMPTY), (reply[1], one[reply[0]])])
    if both not in list(moves(position(one, 1 - side))):
        return None
    end = others(chance, one, both, 1 - side)
    return [both, end] if end else None


def tried(table: Table, board: Picture, side: int, plies: int) -> List[Picture]:
    """The boards after so many plies at random."""
    boards: List[Picture] = []
    for number in range(plies):
        legal = list(moves(position(board, (side + number) % 2)))
        if not legal:
            break
        board = table.chance.choice(legal)
        boards.append(board)
    return boards


def honest(arguments: Tuple[str, hurried.Game, float, str]) -> Told:
    seed, game, pace, program = arguments
    table = Table(f"{seed} {pace}", pace, game.pictures[0])
    table.play(game.pictures[1:])
    return table.told(program, len(game.sans))


def shuffled(arguments: Tuple[str, float, str]) -> Told:
    seed, pace, program = arguments
    pictures = doubts.rook_ending(random.Random(seed))
    table = Table(f"{seed} {pace}", pace, pictures[0])
    table.play(pictures[1:])
    return table.told(program, len(pictures) - 1, fen=doubts.fen(pictures[0]))


def hidden(table: Table, game: hurried.Game, program: str) -> Told:
    """Four plies before the game, while the cable is out, which lead back to the start."""
    begins = 2.0
    gap = (begins, begins + table.chance.uniform(*HIDDEN))
    table.hands.wait(gap[1])
    table.play(game.pictures[1:41])
    return table.told(program, len(game.pictures[1:41]), gaps=[gap])


def wrong(arguments: Tuple[str, hurried.Game, float, str, str]) -> Optional[Told]:
    """A game in which something is done that is no play; None if it can't be done there."""
    seed, game, pace, kind, program = arguments
    table = Table(f"{seed} {pace} {kind}", pace, game.pictures[0])
    pictures = game.pictures
    if kind == "hidden":
        return hidden(table, game, program)
    if kind == "exchanged":
        table.play(pictures[1:41])
        return table.told(program, len(pictures[1:41]), exchanged=True)
    back = {"taken back": 2, "two each": 4, "replaced": 2}.get(kind, 0)
    quiet = [is_quiet(one, other) for one, other in zip(pictures, pictures[1:])]
    lasts = [at for at in range(16, len(pictures) - 1) if all(quiet[at - back : at])]
    if not lasts:
        return None
    last = table.chance.choice(lasts)
    table.play(pictures[1 : last + 1])
    since = table.now
    if back:
        boards = replaced(table.chance, pictures, last) if kind == "replaced" else taken_back(pictures, last, back)
        if boards is None:
            return None
        table.do(boards, GOES_BACK)
        on = pictures[last - back + 1 : last - back + 15] if kind != "replaced" else []
        table.play(on, last % 2)
        return table.told(program, last + len(boards) + len(on), since)
    if kind == "tried":
        table.clock.stop(since + 0.7)
    boards = tried(table, pictures[last], last % 2, 2 if kind == "tried" else 12)
    table.do(boards, (TRIES, doubts.SPREAD))
    return table.told(program, last + len(boards), since)


def reasons(count: "Counter[str]") -> str:
    return ", ".join(f"{why} {count[why]}" for why in sorted(count)) or "none"


def all_of(rows: Sequence[Told], found: Sequence[Found]) -> str:
    return reasons(Counter(why for one in found for _, why in one))


def caught(rows: Sequence[Told], found: Sequence[Found]) -> str:
    """In how many of the silent games somebody is to look since they are wrong, and why."""
    whys = [{why for at, why in one if at > row.since - 0.001} for row, one in zip(rows, found) if row.is_silent]
    return f"{sum(map(bool, whys))} of {len(whys)}: {reasons(Counter(why for one in whys for why in one))}"


def all_played(words: argparse.Namespace) -> List[Row]:
    """The games of each row."""
    games = hurried.read_games(60)
    rows: List[Row] = []
    with ProcessPoolExecutor(words.at_once) as pool:
        for pace in PACES:
            picked = [(f"{words.seed} {at}", games[at % len(games)], pace, words.program) for at in range(words.games)]
            endings = [(f"{words.seed} {at}", pace, words.program) for at in range(words.games // 4)]
            rows.append(Row("honest", pace, list(pool.map(honest, picked, chunksize=4))))
            rows.append(Row("shuffled", pace, list(pool.map(shuffled, endings, chunksize=4))))
        for kind in KINDS:
            for pace in PACES:
                cases = [(f"{words.seed} {at}", games[at % len(games)], pace, kind, words.program) for at in range(words.wrong)]
                rows.append(Row(kind, pace, [game for game in pool.map(wrong, cases, chunksize=4) if game]))
    return rows


def main() -> int:
    parser = argparse.ArgumentParser(description=__doc__, formatter_class=argparse.RawDescriptionHelpFormatter)
    parser.add_argument("--games", type=int, default=300, help="honest ones, at each pace")
    parser.add_argument("--wrong", type=int, default=120, help="of each kind, at each pace")
    parser.add_argument("--seed", type=int, default=1)
    parser.add_argument("--program", default=PROGRAM)
    parser.add_argument("--at-once", type=int, default=2)
    words = parser.parse_args()
    rows = all_played(words)
    print("| | seconds to think | games, plies | with a clock | without one |\n|---|---|---|---|---|")
    for row in rows:
        tells = caught if row.name in KINDS else all_of
        cells = [tells(row.games, found) for found in ([game.with_clock for game in row.games], [game.without for game in row.games])]
        plies = sum(game.plies for game in row.games)
        print(f"| {row.name} | {row.pace:g} | {len(row.games)}, {plies} | {' | '.join(cells)} |")
    return 0


if __name__ == "__main__":
    sys.exit(main())
