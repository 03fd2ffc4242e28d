"""Matches of two teams: which boards are one, and what its score is. Worked by hand."""

from typing import List, Tuple

from live.out.spectators import Match, Paired, matches_of, printed

from decided.table import same

N, S, O, W = "Rochade Nord", "SK Süd", "OSG Ost", "Westhafen"
FOUR = [(1, N, S, "1-0"), (2, S, N, "1/2-1/2"), (3, N, S, "*"), (4, S, N, "0-1")]  # Nord 1 + 1/2 + 1, Süd 1/2
Row = Tuple[int, str, str, str]
# What it is, the boards, and of each match the teams, the points and the boards.
CASES: List[Tuple[str, List[Row], List[Match]]] = [
    ("a match that goes on", FOUR, [Match((N, S), (2.5, 0.5), (1, 2, 3, 4))]),
    ("that has ended", [*FOUR[:2], (3, N, S, "0-1"), FOUR[3]], [Match((N, S), (2.5, 1.5), (1, 2, 3, 4))]),
    ("nothing is over", [(1, N, S, "*"), (2, S, N, "*")], [Match((N, S), (0, 0), (1, 2))]),
    ("White at the first board comes first", [(7, S, N, "1-0"), (8, N, S, "1-0")], [Match((S, N), (1, 1), (7, 8))]),
    ("a forfeit that nobody wins", [(1, N, S, "0-0"), (2, S, N, "1-0")], [Match((N, S), (0, 1), (1, 2))]),
    ("two, board by board", [(1, N, S, "1-0"), (2, O, W, "0-1"), (3, S, N, "1-0"), (4, W, O, "1/2-1/2")],
     [Match((N, S), (1, 1), (1, 3)), Match((O, W), (0.5, 1.5), (2, 4))]),
    ("one of them at one board", [*FOUR, (5, O, W, "1-0")], [Match((N, S), (2.5, 0.5), (1, 2, 3, 4)), Match((O, W), (1, 0), (5,))]),
    ("always the same colour", [(1, N, S, "1-0"), (2, N, S, "1-0")], [Match((N, S), (2, 0), (1, 2))]),
    # Not matches:
    ("no board", [], []),
    ("no teams", [(1, "", "", "1-0"), (2, "", "", "1-0")], []),
    ("players of one club", [*FOUR, (5, O, O, "*"), (6, O, O, "*")], []),
    ("each pair once", [(1, N, S, "1-0"), (2, O, W, "1-0")], []),
    ("other letters are another team", [(1, N, S, "1-0"), (2, S.upper(), N, "1-0")], []),
    ("clubs that meet by chance", [(1, N, S, "1-0"), (2, S, N, "*"), (3, N, O, "*"), (4, O, W, "*")], []),
    ("two boards of one pair, and an open", [(1, N, S, "1-0"), (2, S, N, "*"), (3, O, W, "*"), (4, O, "Club 4", "*")], []),
    # Matches without a score, and others that keep theirs:
    ("a player without a team", [*FOUR[:3], (4, S, "", "0-1")], [Match((N, S), None, (1, 2, 3, 4), "board 4 has no team for Black")]),
    ("nobody knows of which match a board is", [*FOUR, (5, "", "", "*")], [Match((N, S), None, (1, 2, 3, 4), "board 5 has no teams")]),
    ("a team that meets two others", [*FOUR, (5, N, O, "*")], [Match((N, S), None, (1, 2, 3, 4, 5), f"board 5 has {N} – {O}")]),
    ("a misspelt team", [*FOUR[:3], (4, "SK Sued", N, "0-1"), (5, O, W, "1-0"), (6, W, O, "1-0")],
     [Match((N, S), None, (1, 2, 3, 4), f"board 4 has SK Sued – {N}"), Match((O, W), (1, 1), (5, 6))]),
    ("the same team twice", [*FOUR[:3], (4, N, N, "0-1"), (5, O, W, "1-0"), (6, W, O, "1-0")],
     [Match((N, S), None, (1, 2, 3, 4), f"board 4 has {N} – {N}"), Match((O, W), (1, 1), (5, 6))]),
    ("and misspelt", [*FOUR, (5, "Nrod", "Nrod", "0-1")],
     [Match((N, S), (2.5, 0.5), (1, 2, 3, 4)), Match(("Nrod", "Nrod"), None, (5,), "board 5 has Nrod – Nrod")]),
    ("of a match with two boards", [(1, N, S, "1-0"), (2, "SK Sued", N, "0-1"), (3, O, W, "1-0"), (4, W, O, "*"), (5, O, W, "*")],
     [Match((N, S), None, (1, 2), f"board 2 has SK Sued – {N}"), Match((O, W), (1, 0), (3, 4, 5))]),
    ("a result that isn't known", [*FOUR[:3], (4, S, N, ""), (5, O, W, "1-0"), (6, W, O, "*")],
     [Match((N, S), None, (1, 2, 3, 4), "the result of board 4 isn't known"), Match((O, W), (1, 0), (5, 6))]),
    ("three", [*FOUR[:1], (2, S, N, ""), (3, N, S, ""), (4, S, N, "")], [Match((N, S), None, (1, 2, 3, 4), "the results of boards 2, 3 and 4 aren't known")]),
]  # fmt: skip


def which_boards_and_what_score() -> None:
    for name, rows, expected in CASES:
        same(name, matches_of([Paired(number, (white, black), score) for number, white, black, score in rows]), tuple(expected))


def boards_that_nobody_sees() -> None:
    """Boards that aren't recorded count with the results that the table has; spectators see the others alone. Nord has 0 + 0 at boards 1
    and 2, and 1 + 1 + 1 at the others."""
    others = [(1, N, S, "0-1", True), (2, S, N, "1-0", True), (3, N, S, "1-0", False), (4, S, N, "0-1", False), (5, N, S, "1-0", False)]
    hidden = [(6, O, W, "*", False), (7, W, O, "", False)]
    rows = [Paired(number, (white, black), score, shown) for number, white, black, score, shown in (*others, *hidden)]
    same("three points that nobody sees", matches_of(rows), (Match((N, S), (3, 2), (1, 2)),))
    unknown = [*rows[:4], Paired(5, (N, S), "", False)]
    same("one isn't known", matches_of(unknown), (Match((N, S), None, (1, 2), "the result of board 5 isn't known"),))


def printed_points() -> None:
    for points, expected in ((0, "0"), (0.5, "½"), (1, "1"), (2.5, "2½"), (10, "10"), (10.5, "10½")):
        same(str(points), printed(points), expected)


TABLES = [which_boards_and_what_score, boards_that_nobody_sees, printed_points]
