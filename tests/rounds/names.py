"""Names in any script, as the arbiter sees them."""

import csv
import json
import pathlib
from typing import List

from played import words
from played.ports import free_port
from played.recorder import Live
from played.stage import bytes_of, rest, same, stop, until, until_line
from rounds.delayed import stuck_program, words_of
from rounds.hall import ROUND, Hall
from rounds.witness import served

from live.game.tags import pairs_of
from live.show.terminal import width_of

PLAYERS = [("Иванов, Пётр", "王浩然"), ("Γεωργίου, Νίκος", "이세돌"), ("Jörg Müller", "Åse Lund")]
CORRECTED = [("Jorg Muller", "Ben Oto"), ("Jörg Müller", "Ben Ott")]  # one is recorded in other letters, the other as it is
ROW = "   1 Иванов, Пётр"
ROWS = ("   1 ", "   2 ", "   3 ")  # how the rows of the table begin


def names_as_written(folder: pathlib.Path) -> None:
    """A hall of Greek, Russian, Chinese and Korean names: the arbiter's page, the messages, the log and what is refused have them as
    they are written, and so has the table on a terminal, column by column. round.pgn has those that were recorded."""
    hall, port = Hall(folder, 3), free_port()

    def write(*players: "tuple[str, str]") -> None:
        lines = [f"{number};{folder}/board{number};{white};{black}" for number, (white, black) in enumerate(players, 1)]
        hall.file.write_text("\n".join(["board;device;white;black", *lines, ""]), encoding="utf-8")

    write(("Карпов", "王浩然"), *PLAYERS[1:])
    live = hall.record("--event", "Кубок", "--arbiter-page", str(port), typed=True)
    hall.begun(live)
    hall.play(0, 1)
    write(*PLAYERS)
    live.type("r")
    until_line(live, "  1  White is now Иванов, Пётр, and was Карпов\n")

    def shown() -> object:
        round_ = json.loads(served(port, "/state.json"))
        return round_["event"], [(board["white"], board["black"]) for board in round_["boards"]]

    until(lambda: shown() == ("Кубок", PLAYERS), "the names on the arbiter's page", 0.05)
    assert "White is now Иванов, Пётр, and was Карпов" in (hall.games / "01.log").read_text(encoding="utf-8")
    until(lambda: bytes_of(hall.games / "round.pgn").count(b"1. ") == 3, "all moves in round.pgn", 0.05)
    recorded = bytes_of(hall.games / "round.pgn")
    assert recorded.isascii() and b'[White "White 1"]\n[Black "Black 1"]' in recorded and b'[White "Joerg Mueller"]' in recorded, recorded
    same(stop(live), 0)

    write(*PLAYERS)
    live = hall.record(terminal=True, environment={"TERM": "xterm"})
    until(lambda: ROW in words.plain(live.told.read()), f"'{ROW}' on the terminal")

    def with_moves() -> "list[str]":
        """The rows in which a game's move stands: a game that is being opened has none yet."""
        return [line for line in words.plain(live.told.read()).splitlines() if line[:5] in ROWS and "1. " in line]

    until(lambda: {line[:5] for line in with_moves()} == set(ROWS), "a move in each row")
    head = next(line for line in words.plain(live.told.read()).splitlines() if "Last move" in line)
    for line in with_moves():
        before, _, _ = line.partition("1. ")
        same((line, width_of(before)), (line, head.index("Last move")))
    same(stop(live), 0)


def change_together(folder: pathlib.Path) -> None:
    """Both names of a pair are put right while spectators see the round late. Both pages and the published text have the old names
    until the program has given the text with the new ones, and then these: never one of each."""
    hall, stuck = Hall(folder, 1), folder / "stuck"
    ports = free_port(), free_port()

    def write(white: str, black: str) -> None:
        hall.file.write_text(f"board;device;white;black\n1;{folder}/board1;{white};{black}\n", encoding="utf-8")

    def shown() -> "set[tuple[str, str]]":
        """The pairs that somebody sees."""
        boards = [board for port in ports for board in json.loads(served(port, "/state.json"))["boards"]]
        pairs = {(board["white"], board["black"]) for board in boards}
        for text in texts():
            tags = pairs_of(text.decode("utf-8"))
            pairs.add((tags["White"], tags["Black"]))
        return pairs

    def texts() -> "list[bytes]":
        return list(filter(None, (served(ports[0], "/round.pgn"), bytes_of(hall.games / "broadcast.pgn"))))

    write(*CORRECTED[0])
    options = ("--delay", "15", "--page", str(ports[0]), "--arbiter-page", str(ports[1]))
    live = hall.record(*options, program=stuck_program(folder, stuck), typed=True)
    hall.begun(live)
    hall.play(0, 2)
    until(lambda: len(texts()) == 2, "the published text, in the file and on the page", 0.05)
    until(lambda: shown() == {CORRECTED[0]}, "the names of the table", 0.05)
    stuck.write_text("live")
    write(*CORRECTED[1])
    live.type("r")
    until_line(live, "is read again")
    until(lambda: "/bin/sh" in words_of(live), "the program that is to give the text", 0.05)
    rest(1)  # what is shown is never older
    same(shown(), {CORRECTED[0]})
    stuck.unlink()
    until(lambda: shown() == {CORRECTED[1]}, "the names that were put right", 0.05)
    same(stop(live), 0)


# A name as the table has it, and as a spreadsheet gets it.
IN_CELLS = [
    ('=HYPERLINK("http://x.example","Anna")', '\'=HYPERLINK("http://x.example","Anna")'), ("+1+cmd|' /C calc'!A0", "'+1+cmd|' /C calc'!A0"),
    ("-x", "'-x"), ("@x", "'@x"), ("＝1+1", "'＝1+1"), ("O'Neil, Ann=Marie", "O'Neil, Ann=Marie"),
]  # fmt: skip


def no_formulas(folder: pathlib.Path) -> None:
    """Names that a spreadsheet would take for formulas are text in the table of results; ordinary names and the scores stay as they are."""
    cup, names = folder / "cup", [name for name, _ in IN_CELLS]
    cup.mkdir()
    (cup / "boards.csv").write_text("board;device\n" + "".join(f"{number};{folder}/board{number}\n" for number in (1, 2, 3)))
    with open(cup / "round1.csv", "w", encoding="utf-8", newline="") as file:
        rows: List[List[object]] = [["board", "white", "black", "result"], [1, *names[:2], "+/-"], [2, *names[2:4], "-/-"], [3, *names[4:], ""]]
        csv.writer(file, delimiter=";").writerows(rows)
    live = Live(cup, "1", program=ROUND, typed=True)
    cells = [cell for _, cell in IN_CELLS]
    wanted = [["1", *cells[:2], "1-0", "forfeit"], ["2", *cells[2:4], "0-0", "forfeit"], ["3", *cells[4:], "", ""]]

    def results() -> List[List[str]]:
        text = bytes_of(cup / "round1" / "results.csv").decode("utf-8-sig")
        return list(csv.reader(text.splitlines(), delimiter=";"))[1:]

    until(lambda: len(results()) == 3 and results()[0][3:] == wanted[0][3:] and results()[1][3:] == wanted[1][3:], "the results", 0.05)
    same(results(), wanted)
    same(stop(live), 0)
