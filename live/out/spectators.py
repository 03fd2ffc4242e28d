"""What a spectator gets: a game at one moment with its moves, positions, text and clocks; the boards of a round as values and in JSON, their
games as PGN, and the matches of its teams. It has no message of the recorder. Pure: times are passed in.

A running clock is sent once, with the time at which it showed that, and a browser counts on from there. It is sent again only
if that would be wrong: after a move, or if a clock was stopped, set or started. A reading may come late, if this process was held
up, but never early. So a clock that shows more than the browser's count may have been read late; if it shows less, the browser is
behind."""

from __future__ import annotations

import functools
import json
import re
from dataclasses import dataclass
from typing import Dict, FrozenSet, Iterable, List, Mapping, NamedTuple, Optional, Protocol, Sequence, Set, Tuple

from live.board.board import Board
from live.child.lines import Clock, Move
from live.game.game import clocks_of
from live.game.options import Options
from live.game.tags import Tags, pairs_of
from live.game.typed import score_of
from live.words.message import Message, linked, plural

RESULT = re.compile(rb'^\[Result "[^"]*"\]$', re.MULTILINE)
WRONG = 2  # seconds that a clock may show more than the browser's count
BEHIND = 1  # seconds that it may show less
STANDS = 3.0  # seconds without another reading, after which a clock counts as stopped
WHITE, BLACK = "w", "b"
OTHER = {WHITE: BLACK, BLACK: WHITE, "": ""}
SHEET = {"date": "Date", "place": "Site", "control": "TimeControl"}  # what a score sheet has of a game's tags
NOT_GIVEN = ("?", "????.??.??", "-")
NO_TAGS: Mapping[str, str] = {}
HALF_POINTS = {"1-0": (2, 0), "0-1": (0, 2), "1/2-1/2": (1, 1), "0-0": (0, 0), "*": (0, 0)}  # a game that goes on has none yet
UNKNOWN = ""  # the score of a board that isn't recorded, if the table has no result for it
IN_THE_TABLE = Message("match.in_the_table")
MOST_TOLD = 5  # matches that are named one by one
MOST_ODD = 4  # of so many boards one may have a misspelt team

Teams = FrozenSet[str]


@dataclass(frozen=True)
class Ply:
    """A ply of the game: its SAN, its player's clock after it, and whether it was reported as a correction."""

    san: str
    clock: str = ""
    kind: str = "move"  # or "correction"


@dataclass(frozen=True)
class Clocks:
    """Both clocks, whose clock runs (`w`, `b`, or empty), and since when it has run from these times."""

    white: str = ""
    black: str = ""
    runs: str = ""
    at: float = 0.0

    @property
    def times(self) -> Tuple[str, str]:
        """What both show."""
        return self.white, self.black


STANDING = Clocks()


@dataclass(frozen=True)
class Shot:
    """`positions` are FENs, of the start and after each ply; `text` is the text of NAME.pgn."""

    result: str = "*"
    moves: Tuple[Ply, ...] = ()
    positions: Tuple[str, ...] = ()
    text: bytes = b""
    clocks: Clocks = STANDING
    forfeit: str = ""  # how it was forfeited, if it was

    @property
    def says_nothing(self) -> bool:
        """Whether the game has neither a move nor a result, nor its text."""
        return not self.forfeit and not self.moves and self.result == "*" and self.text.partition(b"\n\n")[2].strip() in (b"", b"*")

    @property
    def plies(self) -> Tuple[str, ...]:
        """Its plies, without their times."""
        return tuple(ply.san for ply in self.moves)

    @property
    def to_move(self) -> str:
        """The side to move; empty if the position isn't known."""
        side = "".join(self.positions[-1].split(" ")[1:2]) if self.positions else ""
        return side if side in OTHER else ""

    def has_game_of(self, other: Shot) -> bool:
        """Whether both are the same game: its moves and its result."""
        return (self.plies, self.result, self.forfeit) == (other.plies, other.result, other.forfeit)

    def unplayed(self) -> Shot:
        """The game before its first move."""
        head = RESULT.sub(b'[Result "*"]', self.text.partition(b"\n\n")[0])
        return Shot(positions=self.positions[:1], text=head + b"\n\n*\n\n" if self.text else b"")


NOTHING = Shot()


class Game(Protocol):
    """What is read of a board and its game."""

    board: Board

    @property
    def number(self) -> int:
        """Its board's number."""

    @property
    def name(self) -> str:
        """The name of its files."""

    @property
    def options(self) -> Options:
        """The options that have its players' names and all its tags."""


class Played(NamedTuple):
    """A game as it is now. Its lists only grow at their ends, or are replaced."""

    plies: List[Move]
    fens: List[str]  # of the start and after each ply
    result: str
    pgn: bytes
    forfeit: str
    clock: Optional[Clock]
    clock_at: float  # when that came

    @property
    def seen(self) -> Tuple[object, ...]:
        """Shows whether it has changed since it was last seen."""
        lists: Tuple[Sequence[object], ...] = (self.plies, self.fens)
        return (*((id(each), len(each), each[-1:]) for each in lists), self.pgn, self.forfeit)


def played(board: Board) -> Played:
    """The game of a board as it is now."""
    return Played(board.plies, board.fens, board.result, board.pgn, board.forfeit, board.clock, board.clock_at)


class Shots:
    """Takes snapshots of one game."""

    def __init__(self) -> None:
        self._seen: Tuple[object, ...] = ()
        self._shot = NOTHING
        self._running = Running()
        self._clocks = STANDING

    def take(self, game: Played, now: float) -> Shot:
        """The game as it is now. Returns the same shot as before if nothing is new."""
        seen = game.seen
        clocks = self._running.look(now, game.clock, game.clock_at, self._shot.result == "*")
        if seen != self._seen or clocks is not self._clocks:
            self._seen, self._clocks = seen, clocks
            plies = game.plies[: max(0, len(game.fens) - 1)]
            moves = tuple(Ply(ply.san, ply.clock) for ply in plies)
            shown = Clocks(*clocks_of(plies)) if clocks is STANDING else clocks
            self._shot = Shot(game.result, moves, tuple(game.fens), game.pgn, shown, game.forfeit)
        return self._shot


@functools.lru_cache(maxsize=1024)
def seconds_of(text: str) -> Optional[int]:
    """`1:29:55` in seconds; None if it isn't a time."""
    parts = text.split(":")
    if not all(part.isascii() and part.isdigit() and len(part) < 6 for part in parts):
        return None
    seconds = 0
    for part in parts:
        seconds = 60 * seconds + int(part)
    return seconds


@dataclass
class Running:
    """Follows the clocks of one game. `told` are the ones from which a browser counts."""

    told: Clocks = STANDING
    _read: Optional[Clock] = None
    _came_at: float = 0.0  # when that was read
    _heard_at: float = 0.0  # when it was first looked at
    _side: str = ""  # whose clock was running last

    def look(self, now: float, read: Optional[Clock], came_at: float, goes_on: bool) -> Clocks:
        """The clocks have shown this since then, and the game is in play or over. Returns the clocks from which a browser counts."""
        if read is None:
            return self.told
        if self._read is None or read != self._read:
            self._side = side_between(self._read, read) or self._side
            self._read, self._came_at, self._heard_at = read, came_at, now
        runs = self._side if goes_on and now < self._heard_at + STANDS else ""
        if not counts_to(self.told, self._came_at, read, runs):
            self.told = Clocks(read.white, read.black, runs, self._came_at if runs else 0.0)
        return self.told


def side_between(before: Optional[Clock], now: Clock) -> str:
    """Whose clock runs, by two readings: the only one that went down; or the other one, if this one got time added for its move."""
    if before is None:
        return ""
    down: List[str] = []
    up: List[str] = []
    for side, one, other in ((WHITE, before.white, now.white), (BLACK, before.black, now.black)):
        first, second = seconds_of(one), seconds_of(other)
        if first is not None and second is not None and first != second:
            (down if second < first else up).append(side)
    if len(down) == 1:
        return down[0]
    return OTHER[up[0]] if len(up) == 1 and not down else ""


def counts_to(told: Clocks, came_at: float, read: Clock, runs: str) -> bool:
    """Whether a browser that got this showed the new reading when it came, or nearly."""
    if told.runs != runs:
        return False
    for side, text, before in ((WHITE, read.white, told.white), (BLACK, read.black, told.black)):
        is_seconds, was_seconds = seconds_of(text), seconds_of(before)
        if is_seconds is None or was_seconds is None or side != runs:
            if text != before:
                return False
        elif not -BEHIND <= is_seconds - max(0.0, was_seconds - (came_at - told.at)) <= WRONG:
            return False
    return True


@dataclass(frozen=True)
class Player:
    """A player as named in the table."""

    name: str = ""
    title: str = ""
    rating: str = ""
    team: str = ""
    federation: str = ""

    @staticmethod
    def of_tags(tags: Tags, side: str, name: str) -> Player:
        """`side` is `White` or `Black`."""
        title, rating, team, federation = (tags.get(f"{side}{what}", "") for what in ("Title", "Elo", "Team", "Fed"))
        return Player("" if name == "?" else name, title, rating, team, federation)


@dataclass(frozen=True)
class SpectatorBoard:
    """A board as spectators see it. `pgn` is the published text; what is in `shot` was so `delay` seconds ago."""

    number: int
    white: Player
    black: Player
    shot: Shot
    pgn: bytes = b""
    delay: float = 0.0

    @property
    def score(self) -> str:
        """Of the game, or of its forfeit."""
        return score_of(self.shot.forfeit) or self.shot.result

    def text(self, offset: float, before: Optional[SpectatorBoard], folder: str = "/") -> bytes:
        """The JSON text; `kept` counts the moves and positions that are left out because the page has them. Its PGN is in this folder."""
        shot, clocks = self.shot, self.shot.clocks
        values: Dict[str, object] = {
            "number": self.number,
            **players_of(self.white, self.black),
            "result": shot.result,
            "forfeit": score_of(shot.forfeit),
            "clocks": (clocks.white, clocks.black),
            "runs": clocks.runs,
            "at": round(clocks.at + self.delay + offset, 1) if clocks.runs else None,
            "pgn": pgn_path(self.number, folder),
            **sheet_of(self.pgn),
        }
        had = (before.shot.moves, before.shot.positions) if before else None
        return board_text(values, ("san", "clock"), shot.moves, shot.positions, had)


Had = Optional[Tuple[Sequence[Ply], Sequence[str]]]  # the moves and the positions that a page has, if it has any of a board


def board_text(values: Mapping[str, object], of_ply: Sequence[str], moves: Sequence[Ply], positions: Sequence[str], had: Had) -> bytes:
    """A board in JSON: these values, its moves with what is said of each, and its positions. Unchanged ones at the front are left out if
    the page has them, and `kept` counts them."""
    kept = {"moves": same_front(had[0], moves), "positions": same_front(had[1], positions)} if had else {"moves": 0, "positions": 0}
    plies = [{name: getattr(ply, name) for name in of_ply} for ply in moves[kept["moves"] :]]
    whole: Dict[str, object] = {**values, "moves": plies, "positions": positions[kept["positions"] :]}
    if had:
        whole["kept"] = kept
    return json_text(whole)


def players_of(white: Player, black: Player) -> Dict[str, object]:
    """Both players as JSON has them."""
    both = {"titles": "title", "ratings": "rating", "teams": "team", "federations": "federation"}
    pairs = {name: (getattr(white, what), getattr(black, what)) for name, what in both.items()}
    return {"white": white.name, "black": black.name, **pairs}


def sheet_of(pgn: bytes, tags: Mapping[str, str] = NO_TAGS) -> Dict[str, str]:
    """What a score sheet has of a game besides its event and players, from its text and from tags that this may not have."""
    values = {**pairs_of(pgn.partition(b"\n\n")[0].decode("utf-8", "replace")), **tags}
    found = {name: values.get(tag, "") for name, tag in SHEET.items()}
    return {name: "" if value in NOT_GIVEN else value for name, value in found.items()}


def pgn_path(number: int, folder: str = "/") -> str:
    """The path of a board's PGN."""
    return f"{folder}{number:02}.pgn"


def json_text(value: object) -> bytes:
    """JSON in one line of ASCII."""
    return json.dumps(value, separators=(",", ":")).encode("ascii")


def same_front(one: Sequence[object], other: Sequence[object]) -> int:
    """How many of the first items are the same in both."""
    count = 0
    for here, there in zip(one, other):
        if here != there:
            break
        count += 1
    return count


def round_text(values: Mapping[str, object], boards: Iterable[bytes]) -> bytes:
    """The round in JSON, from what is said of it and the texts of its boards."""
    return json_text(values)[:-1] + b',"boards":[' + b",\n".join(boards) + b"]}\n"


def round_pgn(games: Iterable[bytes]) -> bytes:
    """The games one after the other, with an empty line between them; a board without a game is left out."""
    return b"".join(game.rstrip(b"\n") + b"\n\n" for game in games if game)


@dataclass(frozen=True)
class Paired:
    """A board: the teams of White and of Black, the score of its game or of its forfeit, and whether spectators see it."""

    number: int
    teams: Tuple[str, str]
    score: str = "*"
    is_shown: bool = True


@dataclass(frozen=True)
class Match:
    """Two teams, first that of White at their first board; the points of their games that are over, or None if they aren't known, and
    why not; and those of its boards that spectators see."""

    teams: Tuple[str, str]
    points: Optional[Tuple[float, float]]
    boards: Tuple[int, ...]
    why: str = ""

    @property
    def values(self) -> Dict[str, object]:
        """It as JSON has it."""
        why = {"why": self.why} if self.why else {}
        return {"teams": self.teams, "points": self.points, "boards": self.boards, **why}


def matches_of(boards: Sequence[Paired]) -> Tuple[Match, ...]:
    """The matches of a round, in the order of their first boards, as far as spectators see a board of them. There are none unless more
    than half of the boards are of teams that meet one another and no other, at more than one board: else it is an open whose players have
    clubs. A board or two whose players have one team are a mistake; in an open they are more."""
    if MOST_ODD * sum(one == other != "" for one, other in (board.teams for board in boards)) >= max(1, len(boards)):
        return ()
    groups = _groups(boards)
    certain = sum(len(group) for group in groups if len(group) > 1 and _are_two(group))
    if 2 * certain <= len(boards):
        return ()
    lost = [board for board in boards if not any(board.teams)]
    matches = [_match(sorted(group, key=lambda board: board.number), lost) for group in groups if any(map(any, (one.teams for one in group)))]
    return tuple(sorted((match for match in matches if match.boards), key=lambda match: match.boards))


def _groups(boards: Sequence[Paired]) -> List[List[Paired]]:
    """The boards whose teams meet one another, also over others."""
    groups: List[Tuple[Set[str], List[Paired]]] = []
    for board in boards:
        names, group = set(filter(None, board.teams)), [board]
        met = [one for one in groups if one[0] & names]
        for others, more in met:
            names |= others
            group = [*more, *group]
        groups = [*(one for one in groups if one not in met), (names, group)]
    return [group for _, group in groups]


def _counts(group: Sequence[Paired]) -> Dict[Teams, int]:
    counts: Dict[Teams, int] = {}
    for board in group:
        if all(board.teams) and len(set(board.teams)) > 1:
            counts[frozenset(board.teams)] = counts.get(frozenset(board.teams), 0) + 1
    return counts


def _are_two(group: Sequence[Paired]) -> bool:
    """Whether these boards are a match, of which few have a team that is misspelt or missing."""
    most = max(_counts(group).values(), default=0)
    return most > 1 and MOST_ODD * (len(group) - most) <= len(group)


def _match(group: Sequence[Paired], lost: Sequence[Paired]) -> Match:
    counts = _counts(group)
    teams = max(counts, key=lambda pair: counts[pair], default=frozenset())
    odd = [board for board in group if frozenset(board.teams) != teams]
    first = next((board.teams for board in group if board not in odd), group[0].teams)
    unknown = [board.number for board in group if board.score not in HALF_POINTS]
    why = linked("semicolon", filter(None, (*map(_told_of_odd, (*odd, *lost)), told_of_unknown(unknown))))
    shown = tuple(board.number for board in group if board.is_shown)
    return Match(first, None if why else _points(first, group), shown, why)


def _points(teams: Tuple[str, str], group: Sequence[Paired]) -> Tuple[float, float]:
    halves = dict.fromkeys(teams, 0)
    for game in group:
        for team, half_points in zip(game.teams, HALF_POINTS[game.score]):
            halves[team] += half_points
    return halves[teams[0]] / 2, halves[teams[1]] / 2


def _told_of_odd(board: Paired) -> str:
    one, other = board.teams
    if one and other:
        return Message("match.of_others", board=board.number, one=one, other=other)
    if one:
        return Message("match.no_team_for_black", board=board.number)
    return Message("match.no_team_for_white", board=board.number) if other else Message("match.no_teams", board=board.number)


def told_of_unknown(numbers: Sequence[int]) -> str:
    """That the results of these boards aren't known."""
    names = list(map(str, sorted(numbers)))
    if not names:
        return ""
    return plural("match.unknown_results", len(names), boards=linked("and", filter(None, (", ".join(names[:-1]), names[-1]))))


def told_of_matches(matches: Sequence[Match]) -> List[str]:
    """Lines for the arbiter about matches that show no score."""
    without = [match for match in matches if match.why]
    lines: List[str] = []
    for match in without[:MOST_TOLD]:
        lines.append(Message("match.no_score", teams=" – ".join(match.teams), why=match.why, in_the_table=IN_THE_TABLE))
    more = len(without) - MOST_TOLD
    return [*lines, plural("match.more", more)] if more > 0 else lines


def printed(points: float) -> str:
    """Points as they are written: `2½`."""
    whole, half = divmod(round(2 * points), 2)
    return f"{whole or ''}½" if half else str(whole)


def said_of_matches(boards: Iterable[SpectatorBoard], others: Sequence[Paired] = ()) -> Tuple[Tuple[str, object], ...]:
    """What is said of a round whose boards are matches of teams; `others` are boards that aren't recorded."""
    shown = [Paired(board.number, (board.white.team, board.black.team), board.score) for board in boards]
    matches = matches_of([*shown, *others])
    return (("matches", [match.values for match in matches]),) if matches else ()
