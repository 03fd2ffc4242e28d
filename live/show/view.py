"""What a page shows, as a value: a round; and of a board, what the arbiter's page does, with its JSON text."""

from __future__ import annotations

from dataclasses import dataclass, field, replace
from typing import Callable, Dict, Iterable, Mapping, Optional, Protocol, Tuple, Union

from live.board.state import wants_a_line
from live.game.game import clocks_of
from live.game.options import PLAYERS
from live.game.tags import SIDES
from live.out.spectators import Game, Player, Ply, SpectatorBoard, board_text, json_text, pgn_path, players_of, sheet_of
from live.run.loop import traced
from live.words.message import Message, linked

NOT_RECORDED = Message("page.not_recorded")  # the reason may contain a folder's path, or a user's name
IN_THE_TERMINAL = Message("page.in_the_terminal")
NOT_PUBLISHED = Message("page.not_published")


@dataclass(frozen=True)
class Standing:
    """How a board stands, in words without a time; since when, in the time of `Loop.now`; and what an arbiter does about it."""

    state: str = ""
    since: Optional[float] = None
    alarm: bool = False
    mend: str = ""
    differing: Tuple[str, ...] = ()


@dataclass(frozen=True)
class BoardView:
    """A board and its game. `positions` are FENs: of the start and after each ply, as far as they are known. The clocks are White's and
    Black's, empty if unknown."""

    number: int
    name: str
    white: Player = Player()
    black: Player = Player()
    result: str = "*"
    standing: Standing = Standing()
    clocks: Tuple[str, str] = ("", "")
    moves: Tuple[Ply, ...] = ()
    positions: Tuple[str, ...] = ()
    pgn: bytes = b""
    tags: Mapping[str, str] = field(default_factory=dict)  # those that are published in other letters, or that `pgn` hasn't

    def text(self, offset: float, before: Optional[BoardView]) -> bytes:
        """The JSON text, for a page that has the earlier view. `offset` turns the loop's time into seconds since 1970."""
        standing = self.standing
        values: Dict[str, object] = {
            "number": self.number,
            "name": self.name,
            **players_of(self.white, self.black),
            "result": self.result,
            "state": standing.state,
            "since": None if standing.since is None else round(standing.since + offset, 1),
            "alarm": standing.alarm,
            "mend": standing.mend,
            "differing": standing.differing,
            "clocks": self.clocks,
            "pgn": pgn_path(self.number),
            **sheet_of(self.pgn, self.tags),
        }
        return board_text(values, ("san", "clock", "kind"), self.moves, self.positions, (before.moves, before.positions) if before else None)


Board = Union[BoardView, SpectatorBoard]  # as a page shows it


@dataclass(frozen=True)
class RoundView:
    """All boards, in the order in which they are shown, and what is common to them. Each has a number of its own."""

    event: str
    boards: Tuple[Board, ...] = ()
    said: Tuple[Tuple[str, object], ...] = ()

    @property
    def values(self) -> Dict[str, object]:
        """Everything except the boards."""
        return {"event": self.event, **dict(self.said)}

    @property
    def header(self) -> bytes:
        """The same in JSON, with the boards' numbers."""
        values = self.values
        values["numbers"] = [board.number for board in self.boards]
        return json_text(values)


class Attended(Game, Protocol):
    """What the arbiter's page reads of a board and its game."""

    @property
    def advice(self) -> str:
        """What is to be done about it; empty if nothing is."""

    def standing(self) -> Tuple[str, Optional[float], bool]:
        """The board's state in words, since when, and whether it is an alarm."""


class ArbiterView:
    """What the arbiter's page shows. `trouble` gets errors that should never happen."""

    def __init__(self, event: str, games: Callable[[], Iterable[Attended]], trouble: Callable[[str], None], round_: str = "") -> None:
        self._event, self._games, self._trouble, self._round = event, games, trouble, round_
        self._views: Dict[int, BoardView] = {}
        self.is_unpublished: Callable[[], bool] = lambda: False

    def view(self) -> RoundView:
        """All boards as they are now."""
        boards = [self._of(game) for game in self._games()]
        self._views = {board.number: board for board in boards}
        said = (("round", self._round), ("notice", NOT_PUBLISHED if self.is_unpublished() else ""))
        return RoundView(self._event, tuple(boards), tuple((name, value) for name, value in said if value))

    def _of(self, game: Attended) -> BoardView:
        """A game as it is shown; its last view, if an error prevents a new one."""
        try:
            return view_of(game)
        except Exception as error:
            self._trouble(traced(error))
            return self._views.get(game.number, BoardView(game.number, ""))


def view_of(game: Attended) -> BoardView:
    """A game as it is shown. Each move is shown with its position."""
    board, options = game.board, game.options
    words, since, alarm = game.standing()
    plies = board.plies[: max(0, len(board.fens) - 1)]
    tags = dict(options.tags)
    white, black = (replace(Player.of_tags(tags, side, ""), name=options.written(option)) for side, option in zip(SIDES, PLAYERS))
    mend = linked("stop", (game.advice, IN_THE_TERMINAL)) if wants_a_line(game.advice) else game.advice
    return BoardView(
        game.number,
        game.name,
        white,
        black,
        board.result,
        Standing(NOT_RECORDED if board.trouble else words, since, alarm, mend, board.differing),
        clocks_of(plies),
        tuple(Ply(ply.san, ply.clock, "correction" if ply.corrects else "move") for ply in plies),
        tuple(board.fens),
        board.pgn,
        tags,
    )
