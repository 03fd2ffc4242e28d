"""Where a round's games are kept if no folder is typed, and what is said if it is typed first."""

import pathlib
import shutil

from played.recorder import Live
from played.stage import movetext, refuses, same, stop, until, until_line
from rounds.hall import ROUND, Hall, plain

ELSE = "for another place type a FOLDER behind the table"


def without_a_folder(folder: pathlib.Path) -> None:
    """Without a folder the games are in one named after the table, and a line says so; the same call goes on there."""
    hall = Hall(folder, 1)
    kept = f"the games are kept in {folder}/round; {ELSE}"
    for begin, end, wanted in ((0, 1, "1. e4 *"), (1, 2, "1. e4 e5 *")):
        live = Live(hall.file, "", program=ROUND)
        until_line(live, kept)
        played_on(hall, live, begin, end, folder / "round" / "01", wanted)
    same(sorted(path.name for path in folder.glob("*.pgn")), [])
    bare = folder / "pairs"
    shutil.copy(hall.file, bare)
    live = Live(bare, "", program=ROUND)
    until_line(live, f"the games are kept in {bare}-games; {ELSE}")
    same(stop(live), 0)


def played_on(hall: Hall, live: Live, begin: int, end: int, name: pathlib.Path, wanted: str) -> None:
    """So many plies are played on board 1, and its game there has them."""
    hall.begun(live)
    for ply in ("e2e4", "e7e5")[begin:end]:
        hall.boards[0].play(ply)
    until(lambda: plain(movetext(str(name))) == wanted, wanted)
    same(stop(live), 0)


def exchanged(folder: pathlib.Path) -> None:
    """The folder is typed in front of the table, whether it is there or not: the answer is what to type."""
    hall = Hall(folder, 1)
    there = folder / "round3"
    for _ in range(2):
        refuses(Live(there, hall.file, program=ROUND), 2, f"{hall.file} is the table: type it first, as dgt_round {hall.file} {there}\n")
        there.mkdir(exist_ok=True)
    missing = folder / "round4.csv"
    refuses(Live(there, missing, program=ROUND), 2, f"{missing} is the table: type it first, as dgt_round {missing} {there}\n")
    same(list(there.iterdir()), [])


CASES = [without_a_folder, exchanged]
