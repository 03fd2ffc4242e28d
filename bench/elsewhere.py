#!/usr/bin/env python3
"""How often the crate `board_doubts` doubts news for pieces that stood elsewhere, for gaps and for late corrections: where hands
are honest, and where plies were hidden.

honest      Games of an engine at three paces, with hands as in bench/doubts.py. Each doubt is a false one. `Beside` are the
            same games where each piece that is straightened shows on a neighbouring square. `Shuffled` are endings in which
            pieces mostly go back to where they were.
endings     King and rook against king and rook, as in bench/doubts.py: hurried, with updates cut off, the cable out, or the
            recorder away for as long.
middle      Games of an engine in which both sides begin to shuffle: of 100 of their plies 8, 20 or 40 are begun before the
            other side's stands.

A wrong game is silent if it has no doubt and agrees with the board at the end, or has a ply that was not played. The lines
come from the real program, the doubts from `bench_calls doubts` (build it by `rt run -- rules` in crates/bench_calls); times
are simulated. No real hands, no real board. With several PATHs each game is judged by each of them.
elsewhere.py [--plies N] [--games N] [--seed N] [--program PATH] [--calls PATH..] [--at-once N]
"""

from __future__ import annotations

import argparse
import itertools
import random
import subprocess
import sys
from collections import Counter, deque
from concurrent.futures import ProcessPoolExecutor
from dataclasses import dataclass
from typing import Deque, List, Optional, Sequence, Tuple

import doubts
import hurried
import pressed
from hands import BENCH, PROGRAM

from live.line.protocol import LETTERS, Picture  # noqa: E402  (hands has put its folder on the path)
from live.child import lines as report  # noqa: E402
from recovering.frames import dump  # noqa: E402

CALLS = str(BENCH.parent / "crates" / "bench_calls" / "out" / "bench_calls")
PACES = (1.0, 3.0, 30.0)  # seconds to think, the median
BESIDE = 1.0  # of the pieces that are straightened, in the row of that name
REPEATED = 8  # positions among which one is repeated
TOLD = 0.2  # seconds in which all is told of a dump
SHUFFLED = 24  # plies of a middle game in which pieces are shuffled
BACK = 0.6  # of these go back, where they can
EARLY = (8, 20, 40)  # of 100 of these
AWAY = "the recorder away"
Pictures = Sequence[Picture]


@dataclass(frozen=True)
class Told:
    """What came of a game."""

    plies: int
    is_wrong: bool
    may_be_silent: bool  # wrong, and nothing but a doubt would show it
    doubts: Tuple[Tuple[str, ...], ...]  # by each of the programs that judge


@dataclass(frozen=True)
class Played:
    """A game that is played, as the board shows it."""

    sent: doubts.Sent
    gaps: Sequence[doubts.Gap]
    sans: Sequence[str]
    words: Sequence[str]
    is_restart: bool = False  # the recorder was away in the gaps


@dataclass(frozen=True)
class Words:
    """Which programs are called."""

    program: str
    calls: Tuple[str, ...]
    seed: int


def letters(picture: Picture) -> str:
    return "".join(LETTERS[code] for code in picture)


class Heard:
    """What is heard of a game, in lines for `bench_calls doubts`."""

    def __init__(self) -> None:
        self.lines: List[str] = ["game"]
        self.recorded: List[str] = []
        self.agrees = False
        self._shown: Optional[Picture] = None
        self._position: Optional[Picture] = None
        self._move: Optional[report.Move] = None
        self._reached: Deque[str] = deque(maxlen=REPEATED + 1)

    def put(self, now: float, words: str) -> None:
        self.lines.append(f"{round(now * 1000)} {words}")

    def away(self, gap: doubts.Gap, is_restart: bool, now: float) -> None:
        """The board is heard again, and something new comes of it now."""
        self.put(gap[1], f"away {round((gap[1] - gap[0]) * 1000)}" + (" 1" if is_restart else ""))
        if now > gap[1] + TOLD and self._shown == self._position:
            self.put(gap[1], "agrees")

    def take(self, now: float, event: report.Event) -> None:
        if isinstance(event, (report.Move, report.Agrees, report.Differs)):
            self.agrees = not isinstance(event, report.Differs)
        if isinstance(event, report.Picture):
            self._shown = event.codes
            self.put(now, f"shows {letters(event.codes)}")
        elif isinstance(event, report.Move):
            self._move = event
            self.recorded[len(self.recorded) - event.corrects :] = [event.san]
        elif isinstance(event, report.Position):
            self._reach(now, event.fen)
        elif isinstance(event, report.Agrees):
            self.put(now, "agrees")
        elif isinstance(event, report.Result):
            self.put(now, "reopens" if event.outcome == "*" else "ends")

    def _reach(self, now: float, fen: str) -> None:
        placement, side = fen.split(" ")[:2]
        if self._move:
            if self._move.corrects:
                self._reached.pop()
            repeats = " 1" if f"{placement} {side}" in self._reached else ""
            self.put(now, ("correction" if self._move.corrects else "move") + repeats)
        if self._move or not self._reached:
            self._reached.append(f"{placement} {side}")
        self._move, self._position = None, report.codes_of(placement)
        self.put(now, f"position {letters(self._position)}" + (" 1" if side == "b" else ""))


def judged(played: Played, words: Words) -> Told:
    """What the programs tell of a game."""
    content = bytes(played.sent.content)
    text = subprocess.run([*played.words], input=content, stdout=subprocess.PIPE, check=True).stdout.decode()
    heard, left = Heard(), sorted(played.gaps, key=lambda gap: gap[1])
    for line in filter(None, map(report.line_of, text.splitlines())):
        now = played.sent.times[line.offset]
        while left and left[0][1] <= now:
            heard.away(left.pop(0), played.is_restart, now)
        heard.take(now, line.event)
    lines = "\n".join(heard.lines).encode()
    found: List[Tuple[str, ...]] = []
    for calls in words.calls:
        said = subprocess.run([calls, "doubts"], input=lines, stdout=subprocess.PIPE, check=True).stdout.decode()
        found.append(tuple(line.split(" ")[1] for line in said.splitlines() if line != "game"))
    told = doubts.Told(tuple(played.sans), tuple(heard.recorded), heard.agrees, (), ())
    return Told(len(played.sans), told.is_wrong, told.is_silent, tuple(found))


def sans_of(pictures: Pictures, words: Sequence[str]) -> Tuple[str, ...]:
    """What is recorded where each position is shown whole."""
    whole = doubts.Sent()
    for at, picture in enumerate(pictures):
        whole.put(float(at), dump(picture, False))
    program, _, *options = words
    sans = doubts.judged(whole, (), (), [program, "live", *options]).recorded
    assert len(sans) == len(pictures) - 1, sans
    return sans


def honest(arguments: Tuple[str, hurried.Game, float, float, Words]) -> Told:
    seed, game, pace, beside, words = arguments
    chance = random.Random(f"{seed} {pace} {beside}")
    doubts.BESIDE = beside
    players = doubts.Players(chance, pace)
    players.play(game.pictures)
    sent = doubts.sent_by(game.pictures[0], players.changes, (), chance, 0)
    return judged(Played(sent, (), game.sans, [words.program, "watch"]), words)


def shuffled(arguments: Tuple[str, float, Words]) -> Told:
    """An ending with honest hands."""
    seed, pace, words = arguments
    chance = random.Random(f"{seed} {pace}")
    pictures = doubts.rook_ending(chance)
    call = [words.program, "watch", "--fen", doubts.fen(pictures[0])]
    players = doubts.Players(chance, pace)
    players.play(pictures)
    sent = doubts.sent_by(pictures[0], players.changes, (), chance, 0)
    return judged(Played(sent, (), sans_of(pictures, call), call), words)


def ended(arguments: Tuple[str, str, float, Words]) -> Told:
    """An ending with hidden plies."""
    seed, kind, pace, words = arguments
    chance = random.Random(f"{seed} {kind} {pace}")
    early, cut = doubts.KINDS.get(kind, (0, 0))
    pictures = doubts.rook_ending(chance)
    call = [words.program, "watch", "--fen", doubts.fen(pictures[0])]
    players = doubts.Players(chance, pace, early, is_clumsy=False)
    players.play(pictures)
    gaps = [] if early or cut else doubts.cable_out(chance, players.made_at)
    sent = doubts.sent_by(pictures[0], players.changes, gaps, chance, cut)
    return judged(Played(sent, gaps, sans_of(pictures, call), call, kind == AWAY), words)


def shuffles(chance: random.Random, board: Picture, side: int) -> List[Picture]:
    """The boards while both sides move pieces, no pawns, which mostly go back to where they were."""
    boards = [board]
    for number in range(SHUFFLED):
        legal = pressed.moves(pressed.position(boards[-1], (side + number) % 2))
        quiet = [after for after in legal if pressed.is_quiet(boards[-1], after)]
        if not quiet:
            break
        back = [after for after in quiet if number > 1 and is_back(boards, after)]
        boards.append(chance.choice(back if back and chance.random() < BACK else quiet))
    return boards


def is_back(boards: Pictures, after: Picture) -> bool:
    """Whether the same side's piece that moved last goes straight back."""
    origin, target = pressed.way(boards[-3], boards[-2])
    return pressed.way(boards[-1], after) == (target, origin)


def middle(arguments: Tuple[str, hurried.Game, int, float, Words]) -> Told:
    """A game that is shuffled by hurried hands from some ply on."""
    seed, game, early, pace, words = arguments
    chance = random.Random(f"{seed} {early} {pace}")
    last = chance.randrange(10, max(11, min(60, len(game.pictures) - 2)))
    boards = shuffles(chance, game.pictures[last], last % 2)
    pictures = [*game.pictures[:last], *boards]
    players = doubts.Players(chance, pace, 0, is_clumsy=False)
    players.play(pictures[: last + 1])
    players.early = early
    players.play(boards)
    call = [words.program, "watch"]
    sent = doubts.sent_by(pictures[0], players.changes, (), chance, 0)
    return judged(Played(sent, (), sans_of(pictures, call), call), words)


def reasons(row: Sequence[Told], judge: int) -> str:
    """The doubts by one of the programs."""
    count = Counter(why for told in row for why in told.doubts[judge])
    return ", ".join(f"{why} {count[why]}" for why in sorted(count)) or "none"


def honest_row(name: str, pace: float, row: Sequence[Told], words: Words) -> str:
    cells = [reasons(row, judge) for judge in range(len(words.calls))]
    return f"| {name} | {pace:g} | {len(row)}, {sum(told.plies for told in row)} | {' | '.join(cells)} |"


def wrong_row(name: str, pace: float, row: Sequence[Told], words: Words) -> str:
    unseen = [told for told in row if told.may_be_silent]
    cells = [str(sum(not told.doubts[judge] for told in unseen)) for judge in range(len(words.calls))]
    whole = [sum(bool(told.doubts[judge]) for told in row if not told.is_wrong) for judge in range(len(words.calls))]
    wrong = sum(told.is_wrong for told in row)
    figures = [str(len(row)), str(wrong), str(len(unseen)), *cells, *map(str, whole)]
    return f"| {name} | {pace:g} | {' | '.join(figures)} |"


def picked(plies: int, games: Sequence[hurried.Game], seed: int) -> List[Tuple[str, hurried.Game]]:
    """Games with so many plies, and a seed for each."""
    found: List[Tuple[str, hurried.Game]] = []
    for number in itertools.count():
        if sum(len(game.sans) for _, game in found) >= plies:
            return found
        found.append((f"{seed} {number}", games[number % len(games)]))
    return found


def show_honest(pool: ProcessPoolExecutor, plies: int, games: Sequence[hurried.Game], words: Words) -> None:
    judges = len(words.calls)
    print(f"| hands | seconds to think | games, plies |{' doubts |' * judges}\n|---|---|---|{'---|' * judges}")
    for name, beside in (("honest", doubts.BESIDE), ("beside", BESIDE)):
        for pace in PACES:
            cases = [(seed, game, pace, beside, words) for seed, game in picked(plies, games, words.seed)]
            row = list(pool.map(honest, cases, chunksize=4))
            print(honest_row(name, pace, row, words), flush=True)
    for pace in PACES:
        endings = [(f"{words.seed} {at}", pace, words) for at in range(plies // doubts.PLIES)]
        print(honest_row("shuffled", pace, list(pool.map(shuffled, endings, chunksize=4)), words), flush=True)


def show_wrong(pool: ProcessPoolExecutor, count: int, games: Sequence[hurried.Game], words: Words) -> None:
    judges = len(words.calls)
    print(f"| hands | seconds to think | games | wrong | of these not to be seen |{' silent |' * judges}"
          f"{' whole games doubted |' * judges}\n|---|---|---|---|---|{'---|' * 2 * judges}")  # fmt: skip
    for kind in (*doubts.KINDS, AWAY):
        for pace in doubts.ENDING_PACES:
            cases = [(f"{words.seed} {at}", kind, pace, words) for at in range(count)]
            row = list(pool.map(ended, cases, chunksize=4))
            print(wrong_row(f"endings, {kind}", pace, row, words), flush=True)
    for early in EARLY:
        for pace in doubts.ENDING_PACES:
            tried = [(f"{words.seed} {at}", games[at % len(games)], early, pace, words) for at in range(count)]
            row = list(pool.map(middle, tried, chunksize=4))
            print(wrong_row(f"middle, {early} of 100 begun early", pace, row, words), flush=True)


def main() -> int:
    parser = argparse.ArgumentParser(description=__doc__, formatter_class=argparse.RawDescriptionHelpFormatter)
    parser.add_argument("--plies", type=int, default=20_000, help="honest ones, in each row")
    parser.add_argument("--games", type=int, default=120, help="with hidden plies, in each row")
    parser.add_argument("--seed", type=int, default=1)
    parser.add_argument("--program", default=PROGRAM)
    parser.add_argument("--calls", nargs="+", default=[CALLS], metavar="PATH")
    parser.add_argument("--at-once", type=int, default=2)
    options = parser.parse_args()
    words = Words(options.program, tuple(options.calls), options.seed)
    games = hurried.read_games(60)
    with ProcessPoolExecutor(options.at_once) as pool:
        show_honest(pool, options.plies, games, words)
        show_wrong(pool, options.games, games, words)
    return 0


if __name__ == "__main__":
    sys.exit(main())
