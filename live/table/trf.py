"""The report file of a tournament, FIDE's TRF16: a line for each player, with a column for each letter. One round of it
is read. Pure.

The boards are numbered in the order in which FIDE's rules for Swiss tournaments (C.04.2, D) have pairings published:
by the score of the higher ranked player of a pair, then by the sum of both scores, then by the higher ranked player's
number. The player with more points is ranked higher; if the points are equal, the one with the smaller number. The
scores are those before the round.
"""

from __future__ import annotations

import re
from dataclasses import dataclass
from typing import Dict, List, Optional, Tuple

from live.game.tags import Malformed, cleaned, value_of
from live.game.typed import BLACK, BOTH, WHITE
from live.run.refused import ARGUMENTS, REFUSED, Refused
from live.table.encoding import loose_text, text_of
from live.table.pairings import MOST_UNKNOWN, NO, YES, Pairing, Pairings, Wrong, more_lines, shown
from live.table.sheet import LARGEST
from live.words.message import Message, linked

PLAYER, TEAM, EVENT, SITE, TIME_CONTROL, DATES = "001", "013", "012", "022", "122", "132"
TEAM_OF_2026 = "310"  # a team's line in the later edition, TRF26
MATCHES = "--matches"  # the option that answers whether teams play matches
SAVE_A_TABLE = Message("report.save_a_table")
NOT_NEEDED = ("032", "042", "052", "062", "072", "082", "092", "102", "112")
EXTENSION = re.compile(r"XX[A-Z]|BB[A-Z]|\d{3}")  # of programs, or of a later edition
FIRST_ROUND, ROUND_WIDTH = 91, 10
MOST_NAMED = 5  # players without an opponent
# Half points for the code after a game: played, not rated, forfeited, and without an opponent.
HALF_POINTS = {"1": 2, "W": 2, "+": 2, "F": 2, "U": 2, "=": 1, "D": 1, "H": 1}
OUTCOMES = {"1": "1-0", "W": "1-0", "0": "0-1", "L": "0-1", "=": "1/2-1/2", "D": "1/2-1/2"}  # of White
WITHOUT: Dict[str, str] = {  # an opponent
    "F": Message("report.full_point"),
    "H": Message("report.half_point"),
    "U": Message("report.the_bye"),
}


@dataclass(frozen=True)
class Game:
    """A player's game in a round; no opponent is 0."""

    opponent: int = 0
    colour: str = ""
    result: str = ""


@dataclass(frozen=True)
class Player:
    """A player's line."""

    line: int
    number: int
    name: str
    values: Tuple[Tuple[str, str], ...]  # the columns of the title, the rating ..
    games: Tuple[Game, ...]

    def game(self, round_number: int) -> Game:
        """The game of that round."""
        return self.games[round_number - 1] if round_number <= len(self.games) else Game()

    def score(self, before: int) -> int:
        """Half points before a round."""
        return sum(HALF_POINTS.get(game.result, 0) for game in self.games[: before - 1])


def is_report(content: bytes) -> bool:
    """Whether it is a tournament's report, and not a table."""
    return len(content) <= LARGEST and re.search(r"^\ufeff?001 [ \d]{3}\d ", loose_text(content), re.MULTILINE) is not None


def read_report(content: bytes, round_number: Optional[int], encoding: str = "", no_matches: bool = False) -> Pairings:
    """The pairs of a round. Refused if there is no such round, and if it has a team, unless it is given that teams play no matches."""
    if len(content) > LARGEST:
        raise Refused(REFUSED, Message("file.too_large", largest=LARGEST // 1024))
    if round_number is None:
        raise Refused(REFUSED, Message("report.which_round"))
    players: Dict[int, Player] = {}
    teams: Dict[int, str] = {}
    wrong: List[Wrong] = []
    unknown: List[str] = []
    told_of_control: List[str] = []
    for number, line in enumerate(re.split("\r\n|\r|\n", text_of(content, encoding)), 1):
        code = line.lstrip("\ufeff")[:3]
        if code == PLAYER:
            player = player_of(number, line)
            if player is None or player.number in players:
                text = shown(line[:40].strip())
                why = Message("report.no_player", text=text)
                if player:
                    why = Message("report.number_twice", number=player.number, line=players[player.number].line, text=text)
                wrong.append(Wrong(number, None, why))
            else:
                players[player.number] = player
        elif code == TIME_CONTROL:
            told_of_control += no_time_control(number, line)
        elif code == TEAM_OF_2026:
            raise Refused(REFUSED, *of_matches(number))
        elif code == TEAM and not no_matches:
            raise Refused(REFUSED, *question(number))
        elif code == TEAM:
            teams.update(dict.fromkeys(map(int, re.findall(r"\d+", line[36:])), cleaned(line[4:36])))
        elif line.strip() and code not in (EVENT, SITE, DATES, *NOT_NEEDED) and not EXTENSION.fullmatch(code):
            unknown.append(Message("report.unknown_line", line=number, text=shown(line.strip())))
    rounds = max((len(player.games) for player in players.values()), default=0)
    if not 0 < round_number <= rounds:
        raise Refused(REFUSED, Message("report.no_pairs_of", round=round_number, rounds=told_of_rounds(rounds)))
    told = [*told_of_control[:1], *unknown[:MOST_UNKNOWN], *more_lines(len(unknown) - MOST_UNKNOWN)]
    return _pairs(players, teams, round_number, wrong, told)


def no_time_control(number: int, line: str) -> List[str]:
    """The message about a time control that isn't understood."""
    try:
        value_of("TimeControl", cleaned(line[4:]))
    except Malformed as error:
        return [Message("report.time_control", line=number, why=error.message)]
    return []


def of_matches(line: int) -> Tuple[str, str]:
    """The message that teams play matches: FIDE's order of boards is for players alone."""
    why = Message("report.of_teams", line=line)
    return why, SAVE_A_TABLE


def question(line: int) -> Tuple[str, str, str]:
    """What to ask about a report with a team: its lines of teams may be incomplete, so that they don't show whether teams play
    matches."""
    return (
        Message("report.asks", line=line),
        Message("report.asks_matches", save=SAVE_A_TABLE),
        Message("report.asks_no_matches", option=MATCHES),
    )


def read_matches(text: str) -> bool:
    """Whether it is given that teams play no matches; empty if nothing is given. Refused if it is neither yes nor no."""
    word = text.strip().lower()
    if word not in YES + NO:
        raise Refused(ARGUMENTS, Message("report.matches", option=MATCHES, value=shown(text)))
    return bool(word) and word in NO


def told_of_rounds(rounds: int) -> str:
    """The message with the rounds that there are."""
    return Message("report.no_round") if not rounds else Message("report.rounds", count=rounds) if rounds > 1 else Message("report.one_round")


def _pairs(players: Dict[int, Player], teams: Dict[int, str], of: int, wrong: List[Wrong], told: List[str]) -> Pairings:
    """The pairs of a round, by board."""
    pairs: List[Tuple[Player, Player]] = []
    for player in players.values():
        game = player.game(of)
        opponent = players.get(game.opponent)
        if not game.opponent:
            continue
        back = opponent.game(of) if opponent else Game()
        if opponent is None or back.opponent != player.number or {game.colour, back.colour} != {"w", "b"}:
            differs = Message("report.differs")
            wrong.append(Wrong(player.line, None, Message("report.no_pair", player=player.name, opponent=game.opponent, round=of, differs=differs)))
        elif game.colour == "w":
            pairs.append((player, opponent))

    def place(pair: Tuple[Player, Player]) -> Tuple[int, int, int]:
        higher, lower = sorted(((-player.score(of), player.number) for player in pair))
        return higher[0], higher[0] + lower[0], higher[1]

    boards: List[Pairing] = []
    for number, (white, black) in enumerate(sorted(pairs, key=place), 1):
        codes = white.game(of).result, black.game(of).result
        tags, remarks = tags_of(white, black, teams)
        told += remarks
        boards.append(
            Pairing(white.line, number, "", white.name, black.name, result=outcome_of(*codes), tags=tags, remarks=remarks)
        )
    byes = told_of_byes(players, of)
    if not boards and not wrong:
        raise Refused(REFUSED, Message("report.unpaired", round=of), *byes)
    return Pairings(tuple(boards), tuple(wrong), (*told, *byes), False)


def outcome_of(white: str, black: str) -> str:
    """The result of a pair, or how it was forfeited, from the codes of both players; empty if there is none yet."""
    if "+" in (white, black):
        return WHITE if white == "+" else BLACK
    if "-" in (white, black):
        return BOTH if white == black else BLACK if white == "-" else WHITE
    return OUTCOMES.get(white, "")


def told_of_byes(players: Dict[int, Player], of: int) -> List[str]:
    """The message about players without an opponent in a round."""
    names: List[str] = []
    for player in players.values():
        game = player.game(of)
        if not game.opponent:
            names.append(Message("report.without", name=player.name, has=WITHOUT.get(game.result, Message("report.absent"))))
    if not names:
        return []
    listed = linked("comma", names[:MOST_NAMED])
    if len(names) > MOST_NAMED:
        listed = Message("report.and_more", names=listed, count=len(names) - MOST_NAMED)
    return [Message("report.no_opponent", round=of, names=listed)]


def tags_of(white: Player, black: Player, teams: Dict[int, str]) -> Tuple[Tuple[Tuple[str, str], ...], Tuple[str, ...]]:
    """The tags of two players, and messages about values that are left out."""
    tags: Dict[str, str] = {}
    remarks: List[str] = []
    for side, player in (("White", white), ("Black", black)):
        for name, text in (*player.values, ("Team", teams.get(player.number, ""))):
            try:
                tags[side + name] = value_of(side + name, text)
            except Malformed as error:
                remarks.append(Message("report.tag_not_used", line=player.line, tag=f"{side}{name}", why=error.message))
    return tuple(sorted((name, value) for name, value in tags.items() if value)), tuple(remarks)


def player_of(number: int, line: str) -> Optional[Player]:
    """A player's line; None if it has no number. Some programs count the bytes of a name in UTF-8, not its letters."""
    by_letters = _player(number, line)
    if by_letters and all(game.colour in ("w", "b") for game in by_letters.games if game.opponent):
        return by_letters
    return _player(number, line.encode("utf-8").decode("latin-1"), "latin-1") or by_letters


def _player(number: int, line: str, written: str = "") -> Optional[Player]:
    def column(first: int, last: int) -> str:
        text = line[first - 1 : last]
        return cleaned(text.encode(written).decode("utf-8", "replace") if written else text)

    start = column(5, 8)
    name = column(15, 47)
    if not (start.isascii() and start.isdigit()) or not name:
        return None
    games = []
    for first in range(FIRST_ROUND + 1, len(line.rstrip()) + 1, ROUND_WIDTH):
        opponent = column(first, first + 3)
        digits = int(opponent) if opponent.isascii() and opponent.isdigit() else 0
        games.append(Game(digits, column(first + 5, first + 5).lower(), column(first + 7, first + 7).upper()))
    values = (("Title", column(11, 13)), ("Elo", column(49, 52)), ("Fed", column(54, 56)), ("FideId", column(58, 68)))
    return Player(number, int(start), name, values, tuple(games))


@dataclass(frozen=True)
class Head:
    """What a report says about the whole tournament, as the options of a round: it is what may be typed for them."""

    event: str = ""
    site: str = ""
    date: str = ""
    time_control: str = ""


def head_of(content: bytes, round_number: int, encoding: str = "") -> Head:
    """What the report says about the tournament and the round's day."""
    values: Dict[str, str] = {}
    for line in re.split("\r\n|\r|\n", text_of(content, encoding)):
        code = line.lstrip("\ufeff")[:3]
        if code in (EVENT, SITE, TIME_CONTROL):
            values[code] = cleaned(line[4:])
        elif code == DATES:
            first = FIRST_ROUND + ROUND_WIDTH * (round_number - 1)
            day = re.fullmatch(r"(\d\d)/(\d\d)/(\d\d)", line[first : first + 8].strip(), re.ASCII)
            values[code] = "20" + ".".join(day.groups()) if day else ""
    try:
        value_of("TimeControl", values.get(TIME_CONTROL, ""))
    except Malformed:
        values[TIME_CONTROL] = ""  # that is said when the pairs are read
    return Head(values.get(EVENT, ""), values.get(SITE, ""), values.get(DATES, ""), values.get(TIME_CONTROL, ""))
