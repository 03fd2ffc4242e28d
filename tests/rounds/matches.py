"""Matches of teams in a hall where only some boards are recorded: a match shows its score only if all results are known."""

import json
import pathlib
import time
from typing import Dict, List, Optional, Tuple

from played.ports import free_port
from played.recorder import Live
from played.stage import bytes_of, holds_within, same, stop, until, until_line
from rounds.going_out import Clock
from rounds.hall import ROUND, Hall
from rounds.site import rows_of
from rounds.witness import served

Shown = Tuple[List[str], Optional[List[float]], List[int], str]


def matches(port: int) -> List[Shown]:
    """The matches as the page has them."""
    found = json.loads(served(port, "/state.json")).get("matches", [])
    return [(match["teams"], match["points"], match["boards"], match.get("why", "")) for match in found]


def are(port: int, *wanted: Shown) -> None:
    until(lambda: matches(port) == list(wanted), f"{list(wanted)} on the page, and not {matches(port)}", 0.05)


NORTH, EAST, MIDDLE = ["Nord", "Süd"], ["Ost", "West"], ["Mitte", "Berg"]
# Of the six boards of the first match two are recorded, three have results in the table, and one is forfeited. Board 8 has no result.
TABLE: Dict[int, Tuple[str, str, str]] = {
    1: ("Nord", "Süd", ""), 2: ("Süd", "Nord", ""), 3: ("Nord", "Süd", "1-0"), 4: ("Süd", "Nord", "0-1"), 5: ("Nord", "Süd", "1-0"), 6: ("Süd", "Nord", ""),
    7: ("Ost", "West", ""), 8: ("West", "Ost", ""), 9: ("Mitte", "Berg", "+/-"), 10: ("Burg", "Mitte", "+/-"), 11: ("Mitte", "Berg", "-/-"),
}  # fmt: skip
RECORDED = (1, 2, 7)


def table(changes: Dict[int, Tuple[str, str, str]]) -> str:
    lines = [f"{number};A{number};B{number};{';'.join(line)}" for number, line in {**TABLE, **changes}.items()]
    return "\n".join(["board;white;black;WhiteTeam;BlackTeam;result", *lines, ""])


def some_boards_recorded(folder: pathlib.Path) -> None:
    """Results of the table and typed forfeits count in a match though the boards aren't recorded. A result that isn't known, or a
    misspelt team, leaves its match without a score, and page, site and screen say why; the other matches keep theirs. What is put right
    in the table counts at once."""
    hall, port, cup, www = Hall(folder, 3), free_port(), folder / "cup", folder / "www"
    cup.mkdir()
    (cup / "boards.csv").write_text("board;device\n" + "".join(f"{number};{folder}/board{at}\n" for at, number in enumerate(RECORDED, 1)))
    (cup / "round1.csv").write_text(table({}))
    live = Live(cup, "1", "--page", str(port), "--web", str(www), program=ROUND, typed=True, environment=hall.cables.environment())
    misspelt, unknown = "board 10 has Burg – Mitte", "the result of board 8 isn't known"
    until_line(live, f"the match Ost – West shows no score: {unknown}: put that right in the table, save it, and type r")
    until_line(live, f"the match Mitte – Berg shows no score: {misspelt}: put that right in the table")
    until_line(live, "the match Nord – Süd shows no score: the result of board 6 isn't known")
    odd: Shown = (MIDDLE, None, [9, 10, 11], misspelt)
    are(port, (NORTH, None, [1, 2], "the result of board 6 isn't known"), (EAST, None, [7], unknown), odd)
    live.type("6 +-")
    are(port, (NORTH, [3.0, 1.0], [1, 2, 6], ""), (EAST, None, [7], unknown), odd)
    for line in ("1 0-1", "2 1-0", "7 1/2-1/2"):  # before a move each is asked about
        live.type(line)
        until_line(live, f"{line[0]}: no move was made yet")
        live.type(line)
    are(port, (NORTH, [3.0, 3.0], [1, 2, 6], ""), (EAST, None, [7], unknown), odd)
    headings = [["Nord 3–3 Süd"], [f"Ost – West no score: {unknown.replace(chr(39), '&#x27;')}"], [f"Mitte – Berg no score: {misspelt}"]]
    until(lambda: [row for row in rows_of(bytes_of(www / "index.html")) if len(row) == 1] == headings, "the site's list", 0.05)
    (cup / "round1.csv").write_text(table({8: ("West", "Ost", "0-1"), 10: ("Berg", "Mitte", "+/-")}))
    live.type("r")
    are(port, (NORTH, [3.0, 3.0], [1, 2, 6], ""), (EAST, [1.5, 0.5], [7], ""), (MIDDLE, [1.0, 1.0], [9, 10, 11], ""))
    same(stop(live), 0)


def boards_without_a_device(folder: pathlib.Path) -> None:
    """A single table: a line without a device is wrong, and its board belongs to its match all the same; so does one whose device is
    another board's. As long as a line can't be read, nobody knows of which match its board is."""
    hall, port = Hall(folder, 2), free_port()
    head = "board,device,white,black,WhiteTeam,BlackTeam,result"
    lines = [f"1,{folder}/board1,A,B,Nord,Süd,", "3,,C,D,Nord,Süd,1-0", f"4,{folder}/board1,E,F,Süd,Nord,1/2-1/2", f"2,{folder}/board2,G,H,Ost,West,"]
    more = [*lines, "5,,I,J,West,Ost,0-1"]
    hall.file.write_text("\n".join([head, *more, '6,,"K,L,Nord,Süd']), encoding="utf-8")
    live = hall.record("--page", str(port), typed=True)
    until_line(live, "the round is shown at")
    lost = "board 6 has no teams"
    are(port, (NORTH, None, [1], lost), (EAST, None, [2], lost))
    hall.file.write_text("\n".join([head, *more]), encoding="utf-8")
    live.type("r")
    are(port, (NORTH, [1.5, 0.5], [1], ""), (EAST, [1.0, 0.0], [2], ""))
    stop(live)


def late_as_games(folder: pathlib.Path) -> None:
    """A result that the table gets for a board that isn't recorded counts fifteen minutes later, as everything else."""
    hall, port, clock = Hall(folder, 1), free_port(), Clock(folder)
    head, one = "board,device,white,black,WhiteTeam,BlackTeam,result", f"1,{folder}/board1,A,B,Nord,Süd,"
    hall.file.write_text("\n".join([head, one, "2,,C,D,Süd,Nord,"]), encoding="utf-8")
    live = hall.record("--page", str(port), "--delay", "15", typed=True, start=clock.start)
    until_line(live, "the round is shown at")
    hidden: Shown = (NORTH, None, [1], "the result of board 2 isn't known")
    are(port, hidden)
    hall.file.write_text("\n".join([head, one, "2,,C,D,Süd,Nord,0-1"]), encoding="utf-8")
    typed_at, ahead = time.monotonic(), 0.0
    live.type("r")
    until_line(live, "is read again")
    while matches(port) == [hidden]:
        ahead += 50
        clock.be(ahead)
        holds_within(lambda: matches(port) != [hidden], 0.5)
    assert time.monotonic() + ahead - typed_at >= 900, f"{ahead} s later"
    are(port, (NORTH, [1.0, 0.0], [1], ""))
    stop(live)


CASES = [some_boards_recorded, boards_without_a_device, late_as_games]
