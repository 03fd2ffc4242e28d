"""Honest games with hands that do more than make moves: between two moves both sides straighten pieces at once, or after the last
one the board is cleared and the kings are set up. `recover` must change no byte of them.

Many of them pass through pictures that a capture and a recapture explain too: the square of the taker and that of the retaker are
empty, and on the square between stands what stood there.
"""

from __future__ import annotations

import random
from dataclasses import dataclass
from typing import Iterator, List, Sequence, Tuple

import hurried
from attending.frames import UPDATE_ID
from recovering.frames import dump
from recovering.rules import BLACK, EMPTY, INITIAL, KING, Move, Picture, Position, is_black, is_white

SLIDES = 0.25  # the share of moves along a line that are slid
CENTRES = ((36, 27), (35, 28), (27, 36), (28, 35), (35, 27), (36, 28))  # where White's king is set, and Black's
Change = Tuple[int, int]  # a square, and the code that it shows


@dataclass(frozen=True)
class Exchange:
    """A capture after so many plies, and a recapture by a piece like the one that was taken; and what may then go to where the
    taker stood and look like it."""

    plies: int
    taker: int
    retaker: int
    followers: Tuple[int, ...]


def legal_moves(position: Position) -> Iterator[Tuple[Move, Position]]:
    for move in position.candidates():
        after = position.after(move)
        if not after.in_check(position.white):
            yield move, after


def exchanges(game: hurried.Game) -> Iterator[Exchange]:
    """The exchanges that are possible in a game."""
    position = Position.of_fen(INITIAL)
    for plies, picture in enumerate(game.pictures):
        if plies:
            move = position.move_to(picture)
            assert move
            position = position.after(move)
        for taking, middle in legal_moves(position):
            victim = position.board[taking.target]
            if victim != EMPTY:
                for retaking, end in legal_moves(middle):
                    if retaking.target == taking.target and middle.board[retaking.origin] == victim:
                        yield Exchange(plies, taking.origin, retaking.origin, tuple(followers(position, taking, end)))


def followers(before: Position, taking: Move, end: Position) -> Iterator[int]:
    for move, after in legal_moves(end):
        if move.target == taking.origin and after.board[move.target] == before.board[move.target]:
            yield move.origin


def merged(chance: random.Random, one: Sequence[Change], other: Sequence[Change]) -> List[Change]:
    """What two hands do at once."""
    left = [list(one), list(other)]
    done: List[Change] = []
    while any(left):
        hand = chance.choice([hand for hand in left if hand])
        done.append(hand.pop(0))
    return done


def straightened(board: Picture, squares: Sequence[int]) -> List[Change]:
    """One hand lifts these pieces and puts them back, one after the other."""
    return [change for square in squares for change in ((square, EMPTY), (square, board[square]))]


def chosen(chance: random.Random, board: Picture, white: bool, most: int) -> List[int]:
    """Some of a side's pieces."""
    own = [square for square, code in enumerate(board) if (is_white(code) if white else is_black(code))]
    return chance.sample(own, min(len(own), chance.randint(1, most)))


def straightens(chance: random.Random, board: Picture, exchange: Exchange) -> List[Change]:
    """Both sides straighten pieces at once, those of the exchange among them."""
    white = is_white(board[exchange.taker])
    one = [exchange.taker, *chance.sample(exchange.followers, min(1, len(exchange.followers)))]
    one += [square for square in chosen(chance, board, white, 2) if square not in one and chance.random() < 0.5]
    other = [exchange.retaker, *chosen(chance, board, not white, 1)][: chance.choice((1, 1, 2))]
    return merged(chance, straightened(board, one), straightened(board, list(dict.fromkeys(other))))


def lifts(chance: random.Random, board: Picture, exchange: Exchange) -> List[Change]:
    """Both sides lift several pieces, those of the exchange among them, and put them back, in any order."""
    white = is_white(board[exchange.taker])
    squares = {exchange.taker, exchange.retaker, *chance.sample(exchange.followers, min(1, len(exchange.followers)))}
    squares |= {*chosen(chance, board, white, 2), *chosen(chance, board, not white, 2)} if chance.random() < 0.5 else set()
    left = sorted(squares) * chance.choice((1, 1, 2))  # how often each is lifted
    off: List[int] = []
    done: List[Change] = []
    while left or off:
        if left and (not off or chance.random() < 0.6):
            square = left.pop(chance.randrange(len(left)))
            if square in off:
                left.append(square)
                continue
            off.append(square)
            done.append((square, EMPTY))
        else:
            square = off.pop(chance.randrange(len(off)))
            done.append((square, board[square]))
    return done


def cleared(chance: random.Random, board: Picture, exchange: Exchange) -> List[Change]:
    """Pieces are taken off the board, the pair of the exchange first or not, and the kings are set up among them: both are lifted
    before one is set down."""
    others = [square for square, code in enumerate(board) if code not in (EMPTY, KING, BLACK + KING)]
    chance.shuffle(others)
    first = [square for square in (exchange.taker, exchange.retaker) if square in others]
    if chance.random() < 0.7:
        others = first + [square for square in others if square not in first]
    stay = chance.choice((0, 0, len(others) - len(first), chance.randrange(len(others) + 1)))  # so many stay on the board
    off: List[Change] = [(square, EMPTY) for square in others[: len(others) - stay]]
    homes = [board.index(KING), board.index(BLACK + KING)]
    targets = chance.choice(CENTRES)
    lifted: List[Change] = [(square, EMPTY) for square in homes]
    set_up: List[Change] = [(targets[0], KING), (targets[1], BLACK + KING)]
    chance.shuffle(lifted)
    chance.shuffle(set_up)
    when = chance.choice((0, min(2, len(off)), chance.randrange(len(off) + 1), len(off)))  # the kings first, last or between
    centre = {square for square, _ in set_up}
    before = [change for change in off if change[0] in centre]  # what stands where a king is set makes room for it
    rest = [change for change in off[when:] if change[0] not in centre]
    room = [change for change in before if change not in off[:when]]
    return [*off[:when], *lifted, *room, *set_up, *rest]


def sent_of(changes: Sequence[Change]) -> bytes:
    """What the board sends."""
    start = Position.of_fen(INITIAL).board
    return dump(start, False) + b"".join(bytes((UPDATE_ID, 0, 5, *change)) for change in changes)


def played(chance: random.Random, game: hurried.Game, first: int, last: int) -> List[Change]:
    """Honest hands make the plies from one of the game's pictures to another."""
    pictures = game.pictures[first : last + 1]
    return [
        (touch.square, touch.code)
        for before, after in zip(pictures, pictures[1:])
        for touch in hurried.hand(chance, before, after, SLIDES)
    ]


def lifting(chance: random.Random, game: hurried.Game, exchange: Exchange) -> bytes:
    """A game in which both sides have several pieces in hand at once, and then a few plies more."""
    last = min(exchange.plies + chance.randint(1, 4), len(game.pictures) - 1)
    changes = played(chance, game, 0, exchange.plies) + lifts(chance, game.pictures[exchange.plies], exchange)
    return sent_of(changes + played(chance, game, exchange.plies, last))


def straightening(chance: random.Random, game: hurried.Game, exchange: Exchange) -> bytes:
    """A game in which both sides straighten pieces, and then a few plies more."""
    board = game.pictures[exchange.plies]
    last = min(exchange.plies + chance.randint(1, 4), len(game.pictures) - 1)
    changes = played(chance, game, 0, exchange.plies) + straightens(chance, board, exchange)
    return sent_of(changes + played(chance, game, exchange.plies, last))


def clearing(chance: random.Random, game: hurried.Game, exchange: Exchange) -> bytes:
    """A game that ends with a board that is cleared, and the kings."""
    return sent_of(played(chance, game, 0, exchange.plies) + cleared(chance, game.pictures[exchange.plies], exchange))
