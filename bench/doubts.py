#!/usr/bin/env python3
"""How often `dgt_replay live` asks somebody to look at a game: where hands are honest, and where plies were hidden.

honest   Games of an engine at six paces. The hands slide pieces, lift a capture's two pieces in either order, castle rook
         first now and then, set a piece down on a wrong square and go on, and straighten pieces of both sides: now and then
         while the other hand moves, and now and then the piece shows on a neighbouring square. Each alarm is a false one.
endings  King and rook against king and rook, with pieces that go back to where they were. The cable is out for one to six
         plies; or of 100 moves 8 or 20 are begun before the other side's move stands; or 5 of 100 updates are cut off. A game
         is wrong where a ply was recorded that was not played, or one is missing. `Silent` are those without an alarm
         that agree with the board at the end, or have a ply that was not played. The others differ from the board
         at the end, and are WRONG.

The board sends a dump each second. The program is the real one, times are simulated. No real hands, no real board.
doubts.py honest|endings [--moves N] [--games N] [--seed N] [--program PATH] [--show]
"""

from __future__ import annotations

import argparse
import heapq
import itertools
import random
import subprocess
import sys
from concurrent.futures import ProcessPoolExecutor
from dataclasses import dataclass, field
from typing import Any, Iterator, List, Sequence, Tuple

import hurried
import streams
from hands import EMPTY, PROGRAM, Game, lognormal

from attending.frames import UPDATE_ID  # noqa: E402  (hands has put its folder on the path)
from live.child.lines import Agrees, Answers, Differs, Doubt, Move, line_of  # noqa: E402
from live.game.attending import entry  # noqa: E402
from live.game.times import BEGIN, GONE, HEARD, OPENED  # noqa: E402
from live.line.protocol import LETTERS, Picture  # noqa: E402
from recovering.frames import dump  # noqa: E402

PACES = (0.3, 1.0, 2.0, 5.0, 15.0, 60.0)  # seconds to think, the median
SPREAD = 0.8
SLIDES = 0.25  # the share of moves along a line that are slid
WRONG_SQUARE = 0.04  # of the moves, whose piece is first set down elsewhere
HOLDS = (1.5, 0.6)  # seconds that it stays there, the median and the spread
STRAIGHTENS = 0.2  # of the moves, around which a piece is straightened
JUST_MOVED = 0.5  # of these pieces have just been moved
OVERLAPS = 0.25  # of them are straightened while the other hand moves
BESIDE = 0.1  # of them show on a neighbouring square
RESTS = 0.4  # seconds that a hand rests before it begins its next move early
POLL = 1.0
PLIES = 36  # of an ending
KINDS = {"the cable out": (0, 0), "8 of 100 begun early": (8, 0), "20 of 100": (20, 0), "5 of 100 cut off": (0, 5)}
ENDING_PACES = (1.0, 2.0, 5.0)
Change = Tuple[float, int, int]
Gap = Tuple[float, float]


@dataclass
class Sent:
    """What a board sends, and when each byte comes."""

    content: bytearray = field(default_factory=bytearray)
    times: List[float] = field(default_factory=list)

    def put(self, now: float, frame: bytes) -> None:
        self.content += frame
        self.times += [now] * len(frame)


@dataclass(frozen=True)
class Told:
    """What came of a game."""

    played: Tuple[str, ...]
    recorded: Tuple[str, ...]
    agrees: bool  # at the end
    corrections: Tuple[float, ...]  # how many seconds after its move, or its last correction, each came
    looks: Tuple[Doubt, ...]

    @property
    def is_wrong(self) -> bool:
        return self.played != self.recorded

    @property
    def is_false(self) -> bool:
        """Whether a ply was recorded that was not played; a last one on its way apart, where the board shows that."""
        return hurried.front(self.recorded, self.played) < len(self.recorded) - (not self.agrees)

    @property
    def is_silent(self) -> bool:
        return self.is_wrong and not self.looks and (self.agrees or self.is_false)


def sent_by(start: Picture, changes: Sequence[Change], gaps: Sequence[Gap], chance: random.Random, cut: int) -> Sent:
    """What comes of these changes. While the line is gone nothing comes, and then a dump. An update that is cut off is a fault
    at the next frame, and a dump comes 0.1 s later."""
    sent, board, count = Sent(), list(start), itertools.count()
    queue = [(change[0], 1, next(count), change) for change in changes]
    ends = int(changes[-1][0]) + 3
    for when in [at * POLL for at in range(ends)] + [until for _, until in gaps]:
        queue.append((when, 0, next(count), (when, -1, 0)))
    heapq.heapify(queue)
    unfinished = False
    while queue:
        when, _, _, (_, square, code) = heapq.heappop(queue)
        if square >= 0:
            board[square] = code
        if any(begin <= when < until for begin, until in gaps):
            continue
        if unfinished:
            heapq.heappush(queue, (when + 0.1, 0, next(count), (when, -1, 0)))
            unfinished = False
        if square < 0:
            sent.put(when, dump(tuple(board), False))
        else:
            frame = bytes((UPDATE_ID, 0, 5, square, code))
            unfinished = chance.random() * 100 < cut
            sent.put(when, frame[: chance.randint(1, 4)] if unfinished else frame)
    return sent


class Players:
    """Two players, who make the moves of a game at a pace."""

    def __init__(self, chance: random.Random, pace: float, early: int = 0, is_clumsy: bool = True) -> None:
        self.chance, self.pace, self.early, self.is_clumsy = chance, pace, early, is_clumsy
        self.spread = SPREAD
        self.changes: List[Change] = []
        self.made_at: List[float] = []
        self._last: List[Change] = [(1.0, 0, EMPTY)]  # the move before
        self._ready = 1.0  # when the mover's own last move was made
        self._straight = 0.0  # until when a piece is straightened

    def wait(self, until: float) -> None:
        """Nobody moves before that."""
        self._last, self._ready, self._straight = [(until, 0, EMPTY)], until, until

    def play(self, pictures: Sequence[Picture]) -> None:
        for before, after in zip(pictures, pictures[1:]):
            self._move(before, after)
        self.changes.sort(key=lambda change: change[0])

    def _move(self, before: Picture, after: Picture) -> None:
        chance, stood = self.chance, self._last[-1][0]
        if len(self.made_at) > 1 and chance.random() * 100 < self.early:
            now = max(chance.uniform(self._last[0][0], stood), self._ready + RESTS) + 0.001
        else:
            if self.is_clumsy and chance.random() < STRAIGHTENS * (1 - OVERLAPS):
                self._straighten(max(stood, self._straight) + chance.uniform(0.05, 0.5), before, set())
            now = max(stood + lognormal(chance, self.pace, self.spread), self._straight) + 0.02
        made: List[Change] = []
        for number, touch in enumerate(self._touches(before, after)):
            now += touch.gap if number else 0
            now = max([now] + [at + hurried.AFTER for at, square, _ in self._last if square == touch.square])
            made.append((now, touch.square, touch.code))
        self.changes += made
        if self.is_clumsy and chance.random() < STRAIGHTENS * OVERLAPS:
            begins = max(chance.uniform(made[0][0] - 0.3, made[-1][0]), stood + 0.02, self._straight + 0.02)
            self._straighten(begins, before, {square for _, square, _ in made})
        self._ready, self._last = stood, made
        self.made_at.append(made[-1][0])

    def _touches(self, before: Picture, after: Picture) -> List[hurried.Touch]:
        """What the hand does, with a wrong square on the way now and then."""
        touches = hurried.hand(self.chance, before, after, SLIDES)
        changed = sum(one != other for one, other in zip(before, after))
        if not self.is_clumsy or changed > 2 or self.chance.random() >= WRONG_SQUARE:
            return touches
        last = touches[-1]
        square = self.chance.choice([at for at in range(64) if before[at] == after[at] == EMPTY])
        held = lognormal(self.chance, *HOLDS)
        return [*touches[:-1], hurried.Touch(last.gap, square, last.code), hurried.Touch(held, square, EMPTY), last]

    def _straighten(self, now: float, board: Picture, busy: "set[int]") -> None:
        """A piece is lifted and set back; on the way it shows on a square beside it now and then."""
        chance = self.chance
        there = [square for square in range(64) if board[square] != EMPTY and square not in busy]
        just = [square for square in there if any(square == moved for _, moved, _ in self._last)]
        square = chance.choice(just if just and chance.random() < JUST_MOVED else there)
        self.changes.append((now, square, EMPTY))
        now += chance.uniform(0.1, 0.8)
        beside = [square + step for step in (-9, -8, -7, -1, 1, 7, 8, 9) if _touch(square, square + step)]
        beside = [other for other in beside if board[other] == EMPTY and other not in busy]
        if beside and chance.random() < BESIDE:
            other = chance.choice(beside)
            self.changes.append((now, other, board[square]))
            now += chance.uniform(0.1, 0.8)
            self.changes.append((now, other, EMPTY))
            now += chance.uniform(0.02, 0.3)
        self.changes.append((now, square, board[square]))
        self._straight = max(self._straight, now)


def _touch(one: int, other: int) -> bool:
    """Whether both are squares, beside each other."""
    return 0 <= other < 64 and abs(one % 8 - other % 8) <= 1


def judged(sent: Sent, gaps: Sequence[Gap], played: Sequence[str], words: Sequence[str]) -> Told:
    """What the program tells of it, which hears each byte when it comes, and when the line is gone."""
    told = subprocess.run([*words], input=b"".join(entries(sent, gaps)), stdout=subprocess.PIPE, check=True).stdout
    looks: List[Doubt] = []
    recorded: List[str] = []
    corrections: List[float] = []
    agrees, moved_at = False, 0.0
    for answer in Answers().take(told):
        looks += answer.doubts
        for line in filter(None, map(line_of, answer.report)):
            now = sent.times[line.offset]
            if isinstance(line.event, Move):
                corrections += [now - moved_at] if line.event.corrects else []
                moved_at = now
                recorded[len(recorded) - line.event.corrects :] = [line.event.san]
            if isinstance(line.event, (Move, Agrees, Differs)):
                agrees = not isinstance(line.event, Differs)
    return Told(tuple(played), tuple(recorded), agrees, tuple(corrections), tuple(looks))


def happens(sent: Sent, gaps: Sequence[Gap]) -> List[Tuple[float, str, bytes]]:
    """What happens when, behind the beginning of the call."""
    came = itertools.groupby(zip(sent.times, sent.content), lambda one: one[0])
    found = [(begin, GONE, b"") for begin, _ in gaps] + [(until, OPENED, b"") for _, until in gaps]
    found += [(at, HEARD, bytes(byte for _, byte in of_a_time)) for at, of_a_time in came]
    return sorted(found, key=lambda one: (one[0], one[1] == HEARD))


def entries(sent: Sent, gaps: Sequence[Gap]) -> Iterator[bytes]:
    """What a host tells of it."""
    yield entry(0, BEGIN, 0) + entry(0, OPENED)
    for at, what, heard in happens(sent, gaps):
        yield entry(int(1000 * at), what, len(heard) if heard else None, heard)


def times_of(sent: Sent, gaps: Sequence[Gap]) -> List[float]:
    """When each of these entries comes."""
    return [0.0, 0.0, *(at for at, _, _ in happens(sent, gaps))]


def honest(arguments: Tuple[str, hurried.Game, float, str]) -> Told:
    seed, game, pace, program = arguments
    chance = random.Random(f"{seed} {pace}")
    players = Players(chance, pace)
    players.play(game.pictures)
    return judged(sent_by(game.pictures[0], players.changes, (), chance, 0), (), game.sans, [program, "live"])


def rook_ending(chance: random.Random) -> List[Picture]:
    """The pictures of an ending in which no rook is given away, and pieces often go back to where they were."""
    while True:
        squares = chance.sample(range(64), 4)
        game: Any = Game()
        game.unmoved, game.board = set(), [EMPTY] * 64
        for square, code in zip(squares, (5, 2, 11, 8)):
            game.board[square] = code
        kings = squares[0], squares[2]
        if streams.is_attacked(game.board, kings[1], 0) or streams.is_attacked(game.board, kings[0], 1):
            continue
        shuffles = chance.choice((0.3, 0.6, 0.85))
        pictures = [tuple(game.board)]
        while len(pictures) <= PLIES:
            good = []
            for way in game.ways():
                after = game.after(way)
                rook = 2 if game.side == 0 else 8
                if game.is_legal(way) and sum(map(bool, after.board)) == 4 and after.goes_on():
                    if not streams.is_attacked(after.board, after.board.index(rook), 1 - game.side):
                        good.append((way[1] if len(pictures) > 2 else (0, -1), after))
            if not good:
                break
            back = [after for (square, code), after in good if code >= 0 and pictures[-3][square] == code]
            game = chance.choice(back if back and chance.random() < shuffles else [after for _, after in good])
            pictures.append(tuple(game.board))
        if len(pictures) == PLIES + 1:
            return pictures


def fen(picture: Picture) -> str:
    """Of a position of White's, without castling."""
    ranks = ["".join(LETTERS[code] for code in picture[at : at + 8]) for at in range(0, 64, 8)]
    text = "/".join(ranks)
    for empty in range(8, 0, -1):
        text = text.replace("." * empty, str(empty))
    return f"{text} w - - 0 1"


def cable_out(chance: random.Random, made_at: Sequence[float]) -> List[Gap]:
    """The cable is out once to three times, each time for one to six plies, and for a second at least."""
    gaps: List[Gap] = []
    for _ in range(chance.choice((1, 2, 3))):
        first, plies = chance.randrange(2, 30), chance.choice((1, 2, 3, 3, 4, 5, 6))
        begins = made_at[first] - chance.uniform(0, 0.5)
        ends = max(made_at[min(PLIES - 1, first + plies)] - chance.uniform(0, 0.6), begins + 1)
        if all(ends < begin - 1 or begins > until + 1 for begin, until in gaps):
            gaps.append((begins, ends))
    return gaps


def ended(arguments: Tuple[str, str, float, str]) -> Told:
    seed, kind, pace, program = arguments
    chance = random.Random(f"{seed} {kind} {pace}")
    early, cut = KINDS[kind]
    pictures = rook_ending(chance)
    words = [program, "live", "--fen", fen(pictures[0])]
    whole = Sent()
    for at, picture in enumerate(pictures):
        whole.put(float(at), dump(picture, False))
    played = judged(whole, (), (), words).recorded
    assert len(played) == PLIES, played
    players = Players(chance, pace, early, is_clumsy=False)
    players.play(pictures)
    gaps = [] if early or cut else cable_out(chance, players.made_at)
    return judged(sent_by(pictures[0], players.changes, gaps, chance, cut), gaps, played, words)


def main() -> int:
    parser = argparse.ArgumentParser(description=__doc__, formatter_class=argparse.RawDescriptionHelpFormatter)
    parser.add_argument("what", choices=("honest", "endings"))
    parser.add_argument("--moves", type=int, default=10_000, help="honest ones")
    parser.add_argument("--games", type=int, default=40, help="endings for each line")
    parser.add_argument("--seed", type=int, default=1)
    parser.add_argument("--program", default=PROGRAM)
    parser.add_argument("--at-once", type=int, default=2)
    parser.add_argument("--show", action="store_true", help="names each game that is silent, and each false alarm")
    words = parser.parse_args()
    with ProcessPoolExecutor(words.at_once) as pool:
        if words.what == "honest":
            games = hurried.read_games(60)
            print("| seconds to think | moves | corrections, half and 99 of 100 within | games, of these whole | false alarms |"
                  "\n|---|---|---|---|---|")  # fmt: skip
            moves = alarms = 0
            for pace in PACES:
                picked, count = [], 0
                for number in itertools.count():
                    if count * len(PACES) >= words.moves:
                        break
                    picked.append((f"{words.seed} {number}", games[number % len(games)], pace, words.program))
                    count += len(games[number % len(games)].sans)
                rows = list(pool.map(honest, picked))
                false = [look for row in rows for look in row.looks]
                whole = sum(not row.is_wrong for row in rows)
                after = sorted(seconds for row in rows for seconds in row.corrections)
                half, most = (after[len(after) * part // 100] for part in (50, 99))
                corrections = f"{len(after)}, {half:.1f} s, {most:.1f} s"
                print(f"| {pace:g} | {count} | {corrections} | {len(rows)}, {whole} | {len(false)} |", flush=True)
                for look in false if words.show else ():
                    print(f"    {look}")
                moves, alarms = moves + count, alarms + len(false)
            print(f"{alarms} false alarms in {moves} moves")
            return 0
        print("| | seconds to think | games | wrong | of these with a ply that was not played | agree at the end | silent "
              "| alarms in whole games |\n|---|---|---|---|---|---|---|---|")  # fmt: skip
        total, silent = 0, 0
        for kind in KINDS:
            for pace in ENDING_PACES:
                cases = [(f"{words.seed} {number}", kind, pace, words.program) for number in range(words.games)]
                rows = list(pool.map(ended, cases))
                wrong = [row for row in rows if row.is_wrong]
                quiet = [case for case, row in zip(cases, rows) if row.is_silent]
                figures = [len(rows), len(wrong), sum(row.is_false for row in wrong), sum(row.agrees for row in wrong)]
                figures += [len(quiet), sum(bool(row.looks) for row in rows if not row.is_wrong)]
                print(f"| {kind} | {pace:g} | {' | '.join(map(str, figures))} |", flush=True)
                for case in quiet if words.show else ():
                    print(f"    {case[0]}")
                total, silent = total + len(rows), silent + len(quiet)
        print(f"{total} endings, {silent} of them wrong without an alarm")
    return 0


if __name__ == "__main__":
    sys.exit(main())
