"""What `live` says with WRONG, beside a search over all moves: which change of the game alone explains the board, as somebody types it."""

from __future__ import annotations

import random
from typing import Iterator, List, Optional, Sequence

from attending.answers import Answer, Entry, brings
from attending.beside import evenings
from attending.evenings import Evening
from attending.host import answers
from decided.table import same
from live.child.lines import Move, Picture, Position as Reached, event_of
from recovering.frames import dump
from recovering.oracle import two_plies
from recovering.rules import Position

RANDOM_BOARDS = 200
START = "rnbqkbnr/pppppppp/8/8/8/8/PPPPPPPP/RNBQKBNR w KQkq - 0 1"
E4, E4_E5, E4_E5_NF3 = ("rnbqkbnr/pppppppp/8/8/4P3/8/PPPP1PPP/RNBQKBNR", "rnbqkbnr/pppp1ppp/8/4p3/4P3/8/PPPP1PPP/RNBQKBNR",
                        "rnbqkbnr/pppp1ppp/8/4p3/4P3/5N2/PPPP1PPP/RNBQKB1R")


def typed_moves(base: Position, picture: Sequence[int]) -> Iterator[List[str]]:
    """One or two moves that lead from a position to a picture, as they are typed; the first one's position is given with them."""
    one = base.move_to(tuple(picture))
    if one:
        yield [str(base.after(one).board), base.numbered(one)]
    for first, second in two_plies(base, tuple(picture)):
        middle = base.after(first)
        yield [str(middle.board), base.numbered(first), middle.numbered(second) if middle.white else middle.san(second)]


def last_typed(positions: Sequence[Position]) -> str:
    """The last ply of a game as it is typed; 0 if there is none."""
    if len(positions) < 2:
        return "0"
    before, last = positions[-2:]
    made = before.move_to(last.board)
    assert made
    return before.numbered(made)


def changes(positions: Sequence[Position], picture: Sequence[int]) -> List[str]:
    """All changes of a game with these positions that explain a picture: at most two plies go, and at most two others come."""
    found = []
    for gone in range(min(3, len(positions))):
        stay, went = positions[: len(positions) - gone], str(positions[-gone].board) if gone else ""
        if stay[-1].board == tuple(picture):
            found.append(f"back {last_typed(stay)}" if gone else "")
        for made, *moves in typed_moves(stay[-1], picture):
            if made != went:
                found.append(" ".join(["instead", *moves] if gone else moves))
    return found


class Followed:
    """The positions of a game, and what its board has shown last."""

    def __init__(self) -> None:
        self.positions, self.picture = [Position.of_fen(START)], Position.of_fen(START).board
        self._moves = False

    def takes(self, answer: Answer) -> None:
        """Follows the lines of a report."""
        for line in answer.report:
            event = event_of(line.partition(" ")[2])
            if isinstance(event, Picture):
                self.picture = Position.of_fen(f"{event.placement} w - -").board
            elif isinstance(event, Move):
                self._moves = True
                if event.corrects:
                    self.positions.pop()
            elif isinstance(event, Reached) and self._moves:
                self._moves = False
                self.positions.append(Position.of_fen(event.fen))

    @property
    def explained(self) -> str:
        """What is to be said; empty if no change explains the board, or more than one."""
        found = changes(self.positions, self.picture)
        return found[0] if len(found) == 1 else ""


def explained_otherwise(lived: Evening) -> List[str]:
    """Where something else is said with WRONG, or something with another state, in the first call."""
    followed, wrong = Followed(), []
    second: Optional[int] = next((at for at, (entry, _) in enumerate(lived.told) if at and entry.word == "begin"), None)
    for entry, answer in lived.told[:second]:
        followed.takes(answer)
        there = followed.explained if answer.state and answer.state.kind == "WRONG" else ""
        if answer.fits.decode().strip() != there:
            wrong.append(f"at {entry.at} {entry.word}: {answer.fits.decode()!r}, and {there!r} there")
    return wrong


def said_alike() -> None:
    for lived in evenings():
        same(f"{lived.name}: {len(lived.told)} times", explained_otherwise(lived)[:3], [])


def random_line(chance: random.Random, plies: int) -> List[Position]:
    """The positions of a line of random moves, which ends sooner by mate or stalemate."""
    line = [Position.of_fen(START)]
    while len(line) <= plies and line[-1].legal:
        line.append(chance.choice(list(line[-1].legal.values())))
    return line


def shown_at_last(chance: random.Random, line: Sequence[Position], recorded: int) -> Sequence[int]:
    """What the board shows behind so many plies of a line: up to three more, or fewer; or with a piece on another square."""
    board = list(line[min(len(line) - 1, max(0, recorded + chance.choice((-2, -1, 2, 2, 2, 3))))].board)
    if chance.randrange(8) == 0:
        one, other = chance.sample(range(64), 2)
        board[one], board[other] = board[other], board[one]
    return board


def of_random_boards() -> None:
    """The plies of a line, the last ones perhaps of another line; then what the board shows, for long enough that it is WRONG."""
    said = 0
    for seed in range(RANDOM_BOARDS):
        chance = random.Random(seed)
        line = random_line(chance, chance.randrange(4, 40))
        recorded = max(1, len(line) - 4)
        pictures = [position.board for position in line[:recorded + 1]]
        if chance.randrange(3) == 0:  # the last ply that is recorded is another one than was played
            pictures[-1] = chance.choice(list(line[recorded - 1].legal.values())).board
        told = [Entry(0, "begin", 0), Entry(0, "opened")]
        told += [brings(1000 * at, "heard", dump(picture, False)) for at, picture in enumerate(pictures)]
        last, begun = shown_at_last(chance, line, recorded), 1000 * len(pictures)
        told += [brings(begun + 1000 * at, "heard", dump(last, False)) for at in range(18)]
        followed, wrong = Followed(), []
        for answer in answers(told):
            followed.takes(answer)
            there = followed.explained if answer.state and answer.state.kind == "WRONG" else ""
            said += bool(answer.fits)
            if answer.fits.decode().strip() != there:
                wrong.append((answer.fits.decode(), there))
        same(f"random board {seed}", wrong, [])
    same("most are explained", said > RANDOM_BOARDS // 3, True)


def by_hand() -> None:
    """Worked by hand, so that the search is right too."""
    start = Position.of_fen(START)
    e4 = Position.of_fen(f"{E4} b KQkq e3 0 1")
    e5 = Position.of_fen(f"{E4_E5} w KQkq e6 0 2")
    nf3 = Position.of_fen(f"{E4_E5_NF3} b KQkq - 1 2")
    same("two plies more", changes([start, e4], nf3.board), ["1... e5 2. Nf3"])
    same("two others", changes([start, e4, e4.after(next(iter(e4.legal)))], nf3.board), ["instead 1... e5 2. Nf3"])
    same("taken back", changes([start, e4, e5], e4.board), ["back 1. e4"])
    same("to the start", changes([start, e4], start.board), ["back 0"])


TABLES = [by_hand, said_alike, of_random_boards]
