"""What of a game is shown to anybody who reads the page."""

import json
import pathlib
import re
from types import SimpleNamespace
from typing import List, Optional, Tuple, cast

from decided.table import same

from live.game.options import Options
from live.out.spectators import Clocks, Player, Ply, Shot, SpectatorBoard, round_text, said_of_matches
from live.show.view import IN_THE_TERMINAL, Attended, BoardView, view_of
from live.words.message import Message

TOP = pathlib.Path(__file__).resolve().parents[2]

REASONS = [
    "/dev/ttyUSB0 may not be opened: let an administrator type 'sudo adduser anna dialout', and then log in again",
    "/home/anna/club/round3/01 has moves of Joerg Mueller - Anna Kern",
]
class Stand:
    """A game as the page asks for it."""

    def __init__(self, trouble: str, words: str, advice: str = "") -> None:
        parts = {"fens": (), "plies": (), "differing": (), "result": "*", "pgn": b"", "trouble": trouble}
        self.board, self.number, self.name, self._words = SimpleNamespace(**parts), 5, "05", words
        self.advice, self.options = advice, Options()

    def standing(self) -> Tuple[str, Optional[float], bool]:
        return self._words, None, True


def nothing_private() -> None:
    """Why a board isn't recorded may have a folder's path or the login name: the screen has it, and the page hasn't."""
    for reason in REASONS:
        view = view_of(cast(Attended, Stand(reason, f"NOT RECORDED: {reason}")))
        text = view.text(0.0, None)
        same(f"{reason}: nothing of it", [word for word in (b"/home", b"/dev", b"anna", b"sudo") if word in text], [])
        same(f"{reason}: that it isn't recorded", (view.standing.state.startswith("NOT RECORDED"), view.standing.alarm), (True, True))
    same("any other state is shown", view_of(cast(Attended, Stand("", "WRONG: e2"))).standing.state, "WRONG: e2")


def what_to_do() -> None:
    """The page says what the terminal says, and where lines are typed."""
    look = Message("advice.look", how=Message("typed.line", line="5 ok"))
    for advice, expected in (("Plug it in", "Plug it in"), ("", ""), (look, f"{look}. {IN_THE_TERMINAL}")):
        same(advice, view_of(cast(Attended, Stand("", "WRONG: e2", advice))).standing.mend, expected)


PUBLISHED = '[Event "Club"]\n[Site "Zürich \\"Süd\\""]\n[Date "2024.05.31"]\n[TimeControl "5400+30"]\n\n1. e4 *\n'.encode()
SHAPES = {
    "number": int, "pgn": str, "white": str, "black": str, "titles": list, "ratings": list, "teams": list, "federations": list, "result": str,
    "forfeit": str, "date": str, "place": str, "control": str,
    "moves": list, "positions": list, "clocks": list, "runs": str, "at": float,
}  # fmt: skip


def documented(page: str) -> List[str]:
    """The fields in the table of /state.json in BROADCAST."""
    rows = page.partition("`/state.json`")[2].partition("| Field | Has |\n|---|---|\n")[2].partition("\n\n")[0]
    return [name for row in rows.splitlines() for name in re.findall(r"`(\w+)`", row.split("|")[1])]


def state_is_what_is_documented() -> None:
    """A board of spectators' /state.json has the fields that BROADCAST promises, each of its kind, and the page has no others."""
    names = documented((TOP / "docs" / "BROADCAST.md").read_text(encoding="utf-8"))
    shot = Shot("1-0", (Ply("e4", "1:29:53"),), ("start", "after"), b"", Clocks("1:29:53", "1:30:00", "b", 5.0))
    tags = {"WhiteTitle": "GM", "WhiteElo": "2401", "BlackTeam": "Basel", "BlackFed": "SUI"}
    white, black = Player.of_tags(tags, "White", "Anna"), Player.of_tags(tags, "Black", "?")
    board = json.loads(SpectatorBoard(3, white, black, shot, PUBLISHED).text(100.0, None))
    same("documented", sorted(names), sorted(board))
    same("known here", sorted(names), sorted(SHAPES))
    same("of these kinds", {name: type(board[name]) for name in names}, {name: SHAPES[name] for name in names})
    values = {
        "number": 3, "pgn": "/03.pgn", "white": "Anna", "black": "", "titles": ["GM", ""], "ratings": ["2401", ""],
        "teams": ["", "Basel"], "federations": ["", "SUI"], "result": "1-0", "forfeit": "", "moves": [{"san": "e4", "clock": "1:29:53"}], "positions": ["start", "after"],
        "clocks": ["1:29:53", "1:30:00"], "runs": "b", "at": 105.0, "date": "2024.05.31", "place": "Zürich \"Süd\"", "control": "5400+30",
    }  # fmt: skip
    same("as they are documented", board, values)
    unknown = b'[Site "?"]\n[Date "????.??.??"]\n\n1. e4 *\n'
    nothing = json.loads(SpectatorBoard(3, white, black, shot, unknown).text(100.0, None))
    same("unknown", [nothing[name] for name in ("date", "place", "control")], ["", "", ""])
    arbiters = json.loads(BoardView(3, "03", pgn=PUBLISHED, tags={"Site": "王"}).text(0.0, None))  # recorded in other letters
    same("on the arbiter's page", [arbiters[name] for name in ("date", "place", "control")], ["2024.05.31", "王", "5400+30"])
    still = json.loads(SpectatorBoard(3, white, black, Shot()).text(100.0, None))
    same("no clock runs", (still["clocks"], still["runs"], still["at"], still["result"]), (["", ""], "", None, "*"))
    round_of = json.loads(round_text({"event": "Club cup"}, [SpectatorBoard(3, white, black, shot).text(0.0, None)]))
    same("the round", (round_of["event"], len(round_of["boards"]), sorted(round_of)), ("Club cup", 1, ["boards", "event"]))


def matches_are_what_is_documented() -> None:
    """A round of two matches: a forfeit counts, a game that goes on does not, and no team of one match is in another."""
    def board(number: int, white: str, black: str, result: str = "*", forfeit: str = "") -> SpectatorBoard:
        return SpectatorBoard(number, Player(team=white), Player(team=black), Shot(result, forfeit=forfeit))

    boards = [board(1, "Nord", "Süd", "1/2-1/2"), board(2, "Süd", "Nord", "0-1"), board(3, "Nord", "Süd", "1-0", "+-"), board(4, "Süd", "Nord", "1-0"),
              board(5, "Ost", "West", "*", "--"), board(6, "West", "Ost")]  # fmt: skip
    round_of = json.loads(round_text({"event": "Cup", **dict(said_of_matches(boards))}, [one.text(0.0, None) for one in boards]))
    same("matches", round_of["matches"], [
        {"teams": ["Nord", "Süd"], "points": [2.5, 1.5], "boards": [1, 2, 3, 4]}, {"teams": ["Ost", "West"], "points": [0, 0], "boards": [5, 6]},
    ])  # fmt: skip
    same("none", said_of_matches(boards[:1]), ())


TABLES = [state_is_what_is_documented, matches_are_what_is_documented, nothing_private, what_to_do]
