#!/usr/bin/env python3
"""Hurried hands, and an arbiter who types nothing but `y`: the moves that are kept so, beside `record` alone and after `recover`.

The games of bench/hurried_games.txt are played as bench/hurried.py plays them, on a board that `live` attends: it answers each request,
and the clock is simulated. Where `live` says what alone explains the board, the arbiter looks at it, and answers five seconds later: `y` if
it was played so and the board still shows it; else nothing. So he is asked about a pair of plies that `recover` finds, while a board has
stood otherwise for fifteen seconds, as the recorders ask.

Prints a table, in some minutes.

asked.py [--games N] [--seed N] [--slides SHARE] [--at-once N]
"""

from __future__ import annotations

import argparse
import random
import subprocess
import sys
from concurrent.futures import ProcessPoolExecutor
from dataclasses import dataclass
from typing import List, Optional, Tuple

from hands import INITIAL, PROGRAM, moves_of, program
from hurried import Game, Row, front, read_games, timed

from attending.answers import Answer, Entry, brings  # noqa: E402  (hands has put its folder on the path)
from attending.frames import UPDATE_ID  # noqa: E402
from attending.host import Call, Host  # noqa: E402
from live.game.hidden import between, pairs_in  # noqa: E402
from recovering.frames import dump  # noqa: E402

ROWS = (Row("honest hands"), Row("5 of 100 moves begun early", 5), Row("10 of 100", 10), Row("20 of 100", 20))
LATE = 90  # milliseconds after which the board answers
LOOKS = 5000  # milliseconds after which the arbiter answers
LONG = 15000  # milliseconds in which a board stands otherwise before hidden plies are looked for, and from one time to the next
OTHERWISE = ("WRONG", "IN-HAND", "SETTING-UP")
REST = 40.0  # seconds after the last move


@dataclass(frozen=True)
class Counts:
    """Of some games."""

    plies: int = 0
    kept: int = 0  # by `record` alone
    recovered: int = 0
    asked: int = 0
    yes: int = 0
    questions: int = 0
    not_so: int = 0  # questions about what wasn't played

    def __add__(self, other: Counts) -> Counts:
        return Counts(*(getattr(self, name) + getattr(other, name) for name in self.__dataclass_fields__))


@dataclass(frozen=True)
class Question:
    """What is asked, when the arbiter answers, and what the board showed."""

    fits: str
    at: int
    shown: Tuple[int, ...]


class Table:
    """A board, `live`, and an arbiter. Times are milliseconds since the game began."""

    def __init__(self, game: Game) -> None:
        self.game, self.board = game, list(INITIAL)
        self.sent = bytearray()  # all that the board has sent
        self.capture = bytearray()
        self.yes = self.questions = self.not_so = 0
        self._question: Optional[Question] = None
        self._dump_at: Optional[int] = None  # when the board answers
        self._looks_at: Optional[int] = None  # when hidden plies are looked for
        self._begin(b"", 0)

    def plays(self, changes: List[Tuple[float, int, int]]) -> None:
        """Hands change these squares, at these seconds."""
        for seconds, square, code in changes:
            self._passes(at := int(1000 * seconds))
            self.board[square] = code
            self._sends(at, bytes((UPDATE_ID, 0, 5, square, code)))
        self._passes(int(1000 * (changes[-1][0] + REST)))
        self._host.end()

    def _begin(self, capture: bytes, now: int) -> None:
        """`live` attends the board of a game with this capture from now on."""
        self._host = Host()
        self._call, self._since = Call(self._host), now
        self._dump_at = None
        self.capture = bytearray(capture)
        if capture:
            self._call.tell(brings(0, "capture", capture))
        self._tell(Entry(0, "begin", len(capture)))
        self._tell(Entry(0, "opened"))

    def _passes(self, until: int) -> None:
        """The board answers, `live` is woken, and the arbiter answers, up to this time."""
        while True:
            due = None if self._call.due is None else self._since + self._call.due
            answers = self._question.at if self._question else None
            times = [at for at in (self._dump_at, due, answers, self._looks_at) if at is not None and at <= until]
            if not times:
                return
            now = min(times)
            if now == self._dump_at:
                self._dump_at = None
                self._sends(now, dump(tuple(self.board), False))
            elif now == answers:
                self._answer(now)
            elif now == self._looks_at:
                self._look(now)
            else:
                self._tell(Entry(now - self._since, "wake"))

    def _sends(self, now: int, sent: bytes) -> None:
        self.sent += sent
        self._tell(brings(now - self._since, "heard", sent))

    def _tell(self, entry: Entry) -> Answer:
        answer = self._call.tell(entry)
        self.capture += answer.kept
        now = self._since + entry.at
        if answer.asked:
            self._dump_at = now + LATE
        if answer.state:
            fits = answer.fits.decode().strip()
            is_hidden = self._question is not None and self._question.fits.startswith("recover ")
            if fits or not is_hidden or answer.state.kind not in OTHERWISE:
                self._question = Question(fits, now + LOOKS, tuple(self.board)) if fits else None
            self.questions += bool(fits)
            if fits or answer.state.kind not in OTHERWISE:
                self._looks_at = None
            elif self._looks_at is None:
                self._looks_at = now + LONG
        return answer

    def _look(self, now: int) -> None:
        """Plies that no picture showed are looked for."""
        self._looks_at = now + LONG
        pairs = pairs_in(recovered(bytes(self.capture))[1])
        if pairs and self._question is None:
            self._question = Question(f"recover {pairs[0].moves}", now + LOOKS, ())
            self.questions += 1

    def _put_between(self, now: int) -> None:
        """The arbiter answers `y` if the plies were played that no picture showed."""
        sent = bytes(self.capture)
        pair = pairs_in(recovered(sent)[1])[0]
        made = between(sent, recovered(sent[: pair.offset + 1])[0], pair.offset)
        sans = moves_of(program(["record"], made))
        if front(sans, self.game.sans) < len(sans):
            self.not_so += 1
            return
        self.yes += 1
        self._host.end()
        self._begin(made, now)

    def _answer(self, now: int) -> None:
        """The arbiter answers `y` if it was played so, and the board still shows it."""
        question, self._question = self._question, None
        assert question
        if question.fits.startswith("recover "):
            self._put_between(now)
            return
        if question.shown != tuple(self.board):
            return
        word, _, rest = question.fits.partition(" ")
        words = ["back", f"--to={rest}"] if word == "back" else ["instead", f"--line={rest}"] if word == "instead" else ["add", f"--line={question.fits}"]
        said = subprocess.run([PROGRAM, *words], input=bytes(self.capture), stdout=subprocess.PIPE, stderr=subprocess.DEVNULL, check=False)
        if said.returncode:
            return
        is_added = words[0] == "add"
        made = bytes(self.capture) + said.stdout if is_added else said.stdout
        sans = moves_of(program(["record"], made))
        if front(sans, self.game.sans) < len(sans):
            self.not_so += 1
            return
        self.yes += 1
        if is_added:
            self.capture += said.stdout
            self._tell(brings(now - self._since, "added", said.stdout))
        else:
            self._host.end()
            self._begin(made, now)


def recovered(sent: bytes) -> Tuple[bytes, str]:
    """What `recover` makes of these bytes, and its report."""
    done = subprocess.run([PROGRAM, "recover"], input=sent, stdout=subprocess.PIPE, stderr=subprocess.PIPE, check=True)
    return done.stdout, done.stderr.decode()


def trial(arguments: Tuple[int, Game, Row, float]) -> Counts:
    seed, game, row, slides = arguments
    table = Table(game)
    table.plays(timed(random.Random(f"{seed} {row}"), game, row, slides))
    made, _ = recovered(bytes(table.sent))
    alone, after, asked = (front(moves_of(program(["record"], sent)), game.sans) for sent in (bytes(table.sent), made, bytes(table.capture)))
    return Counts(len(game.sans), alone, after, asked, table.yes, table.questions, table.not_so)


def line_of(row: Row, counts: Counts) -> str:
    shares = [f"{100 * kept / counts.plies:.1f} %" for kept in (counts.kept, counts.asked, counts.recovered)]
    return f"| {' | '.join([row.name, *shares, str(counts.yes), str(counts.questions), str(counts.not_so)])} |"


def main() -> int:
    parser = argparse.ArgumentParser(description=__doc__)
    parser.add_argument("--games", type=int, default=60)
    parser.add_argument("--seed", type=int, default=1)
    parser.add_argument("--slides", type=float, default=0.25, help="the share of moves along a line that are slid")
    parser.add_argument("--at-once", type=int, default=2)
    words = parser.parse_args()
    games = read_games(words.games)
    plies = sum(len(game.sans) for game in games)
    heads = ("plies kept by `record` alone", "with `y`", "after `recover`", "`y` typed", "questions", "of these not played so")
    print(f"| {' | '.join((f'Of {len(games)} games, {plies:,} plies', *heads))} |")
    print("|---" * (1 + len(heads)) + "|")
    with ProcessPoolExecutor(words.at_once) as pool:
        for row in ROWS:
            trials = [(words.seed * 1_000 + number, game, row, words.slides) for number, game in enumerate(games)]
            print(line_of(row, sum(pool.map(trial, trials, chunksize=4), Counts())), flush=True)
    return 0


if __name__ == "__main__":
    sys.exit(main())
