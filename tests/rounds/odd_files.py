"""Pipes in the place of a round's files, and a table that is full of wrong lines."""

import os
import pathlib
import signal

from played.recorder import Live
from played.stage import refuses, same, stop, until, until_line
from rounds.hall import ROUND, Hall, quits

LARGEST = 256 * 1024  # bytes of a table
ODD = {  # names as a table has them, and what stands between the quotes of their tags
    "-": "-",
    "--": "--",
    "-1": "-1",
    "-bye-": "-bye-",
    "--white": "--white",
    "=x": "=x",
    " x ": "x",
    '"""Jim"""': '\\"Jim\\"',
    "C:\\": "C:\\\\",
    "x" * 101: "White 10",
}


def odd_names(folder: pathlib.Path) -> None:
    """Names that look like options, and other odd ones, in a table, as the event and as the folder: each board is recorded, and goes
    on when the round is started again. What publishes the round takes no path for an option."""
    hall = Hall(folder, len(ODD) + 1)
    names = [*ODD, "a\u2028b"]
    hall.file.write_text(
        "board,device,white,black\n" + "".join(f"{n},{folder}/board{n},{name},-\n" for n, name in enumerate(names, 1))
    )
    hall.games = folder / "-r3"
    publish = folder / "publish"
    publish.write_text(f"#!/bin/sh\ncat \"$@\" > {folder}/published\n")
    publish.chmod(0o755)
    options = ("--event=- Open -", "--site", "-1", f"--publish={publish}")
    live = Live("round.csv", "./-r3", *options, program=ROUND, cwd=folder)
    until_line(live, f"line {len(ODD) + 2} of round.csv")
    until_line(live, "white has a character that can't be seen: type it anew")
    numbers = list(range(len(ODD)))
    for number in numbers:
        until_line(live, f"{number + 1:>3}  agrees")
    hall.play(0, 1, numbers)
    for number, recorded in enumerate(ODD.values(), 1):
        lines = pathlib.Path(f"{hall.name(number)}.pgn").read_text().splitlines()
        same((lines[0], lines[1], lines[4]), ('[Event "- Open -"]', '[Site "-1"]', f'[White "{recorded}"]'))
    until(lambda: (folder / "published").exists() and b"- Open -" in (folder / "published").read_bytes(), "what is published")
    same(stop(live, signal.SIGTERM), 0)
    again = Live("round.csv", "./-r3", program=ROUND, cwd=folder)
    until_line(again, "the round goes on with '--event=- Open -' --place=-1; give others to change that")
    hall.play(1, 2, numbers)
    same(stop(again, signal.SIGTERM), 0)


def round_pgn_is_a_folder(folder: pathlib.Path) -> None:
    """A folder takes the place of round.pgn: the end says that, asks nobody about the disk, and says of nothing that it is in there."""
    hall = Hall(folder, 1)
    live = hall.record()
    hall.begun(live)
    hall.until_round()
    os.unlink(hall.games / "round.pgn")
    os.mkdir(hall.games / "round.pgn")
    hall.play(0, 1)
    until_line(live, f"NOT WRITTEN: {hall.games}/round.pgn can't be written (Is a directory)")
    live.send(signal.SIGINT)
    refuses(live, 3, f"dgt_round: {hall.games}/round.pgn can't be written (Is a directory): put that right\n")
    assert live.lines().endswith(f"dgt_round: what was written is in {hall.games}\n"), live.lines()


def pipes(folder: pathlib.Path) -> None:
    """A pipe stands in the place of the table, and of each file of a game: the table is refused, such a board isn't recorded and
    says why, the others play on, and TERM is heard."""
    hall = Hall(folder, 5)
    table = folder / "table"
    os.mkfifo(table)
    refuses(Live(table, hall.games, program=ROUND), 3, "table is no regular file")
    hall.games.mkdir()
    endings = ("dgt", "options", "end")
    for number, ending in enumerate(endings, 1):
        os.mkfifo(f"{hall.name(number)}.{ending}")
        if ending == "options":
            pathlib.Path(f"{hall.name(number)}.dgt").write_bytes(b"\x93\x00\x03")
    os.mkfifo(f"{hall.name(4)}.log")
    os.mkfifo(f"{hall.name(4)}.pgn")
    pathlib.Path(f"{hall.name(4)}.dgt").touch()
    live = hall.record()
    for number, ending in enumerate(endings, 1):
        until_line(live, f"  {number}  isn't recorded: ")
        until_line(live, f"{number:02}.{ending}")
    for number in (4, 5):
        until_line(live, f"  {number}  agrees")
    hall.play(0, 2, [3, 4])
    os.rename(hall.file, folder / "kept.csv")
    os.mkfifo(hall.file)
    live.send(signal.SIGHUP)
    until_line(live, "round.csv is no regular file): nothing is changed")
    hall.play(2, 4, [3, 4])
    for number in range(1, len(endings) + 1):
        for ending in endings:
            pathlib.Path(f"{hall.name(number)}.{ending}").unlink(missing_ok=True)
        pathlib.Path(f"{hall.name(number)}.pgn").unlink(missing_ok=True)
    hall.play(0, 4, [0, 1, 2])
    hall.until_round()
    same(stop(live, signal.SIGTERM), 0)


def bytes_read(live: Live) -> int:
    """How many bytes a call has read so far, of files and of all else."""
    words = pathlib.Path(f"/proc/{live.process.pid}/io").read_text().split()
    return int(words[words.index("rchar:") + 1])


def full_of_wrong_lines(folder: pathlib.Path) -> None:
    """As many wrong lines as a table may have, on a screen that is drawn again and again: the table is read once. One with 500,000
    more isn't read to its end and is refused, and the boards play on."""
    hall = Hall(folder, 1)
    hall.write(*("x,y,z " + "w" * 200 for _ in range(998)))
    live = hall.record(terminal=True)
    until(lambda: hall.boards[0].asked_for_updates, "a request for updates")
    before = bytes_read(live)
    hall.play(0, 4)
    once = bytes_read(live) - before
    hall.write(*("x,y,z" for _ in range(500_000)))
    live.send(signal.SIGHUP)
    hall.play(4, 8)
    until(lambda: "kB, and a table has a line for each board" in " ".join(live.lines().split()), "that the table is refused")
    again = bytes_read(live) - before - once
    print(f"   bytes read for four plies: {once}; and with a table of {hall.file.stat().st_size}: {again}", flush=True)
    assert once < LARGEST // 2, "the table is read for each move, or each time that it is shown"
    assert again < LARGEST * 3 // 2, "more of a table is read than one may have"
    quits(live)
    same(hall.text(1), "1. e4 e5 2. Nf3 Nc6 3. Bb5 a6 4. Ba4 Nf6 *")
