"""A tournament in a folder: three rounds one after the other, from tables as pairing programs write them and from a
report; what is published of them, read by other programs; and what is said where something is missing."""

import csv
import pathlib
import re
import subprocess
import sys
from typing import Dict, List, Sequence

import outside
from emulated.board import Board
from emulated.room import stopwatch
from play_board import INITIAL
from played import TOP
from played.recorder import Live
from played.stage import Skipped, Stage, bytes_of, check, refuses, same, stop, until, until_line
from rounds.hall import ROUND, games_of, quits
from rounds.large import said_by
from rounds.swapped import Seat

SETTINGS = """\
event = Кубок "Ц\\1"
place = Basel
date 1 = 30.05.2024
date 2 = 31.05.2024
time control = 90+30
"""
# Board 2 is named by its own number alone.
BOARDS = "board;device;serial;rotated\n1;{cables}/usb-1;;\n2;;2;\n3;{cables}/usb-3;;no\n"
ENGLISH = """\
Round 1 on 2024/05/30;;;;;;;
Bo.;;White;Rtg;Result;;Black;Rtg
1;GM;Ünal, Ben;2512;;IM;Иванов, Пётр;2431
2;;Γεωργίου, Νίκος;1987;;WFM;王浩;2102
3;;"Ott, ""Dora"" \\";;;;Kern, Anna;2O50
4;;Sand, Finn;2000;;;Tau, Gerd;1900
5;;Uhl, Hans;1800;1;;bye;
"""
GERMAN = """\
Brett\tWeiß\tElo\tSchwarz\tElo\tErgebnis
1\tИванов, Пётр\t2431\tΓεωργίου, Νίκος\t1987\t
2\t王浩\t2102\tÜnal, Ben\t2512\t
"""


def player(number: int, title: str, name: str, rating: str, *games: str) -> str:
    """A line of TRF16."""
    line = f"001 {number:>4} m{title:>3} {name:<33} {rating:>4} SUI {1500000 + number:>11} 1990/01/01  0.0 {number:>4}"
    return line + "".join(f"  {game}" for game in games)


# Before round 3 Ünal has 2 points and the others have 1.0, 0.5 and 0.5: board 1 is 4 - 1, board 2 is 3 - 2.
REPORT = "\n".join([
    "012 not this name", "132" + " " * 88 + "24/05/30  24/05/31  24/06/01",
    player(1, "GM", "Ünal, Ben", "2512", "   2 w 1", "   4 b 1", "   4 b  "),
    player(2, "IM", "Иванов, Пётр", "2431", "   1 b 0", "   3 w =", "   3 b  "),
    player(3, "", "Γεωργίου, Νίκος", "1987", "   4 w 0", "   2 b =", "   2 w  "),
    player(4, "WFM", "王浩", "2102", "   3 b 1", "   1 w 0", "   1 w  "),
])  # fmt: skip


class Cup:
    """A tournament's folder and its hall of three boards, each on a cable with a name."""

    def __init__(self, folder: pathlib.Path) -> None:
        self.folder = folder / "cup"
        self._serial = folder / "serial"
        cables = self._serial / "by-id"
        cables.mkdir(parents=True)
        self.seats: Dict[int, Seat] = {number: Seat(cables / f"usb-{number}", number, stopwatch()) for number in (1, 2, 3)}
        Stage.boards += self.seats.values()  # type: ignore[arg-type]
        self.folder.mkdir()
        (self.folder / "tournament.txt").write_text(SETTINGS, encoding="utf-8")
        (self.folder / "boards.csv").write_text(BOARDS.format(cables=cables), encoding="utf-8")

    def round(self, number: int, *options: str, start: Sequence[object] = ()) -> Live:
        """Plays a round: the pieces are set up."""
        for seat in self.seats.values():
            seat.cable.board = seat.board = Board(serial=seat.board.serial, seed=number)
            seat._codes, seat.plies = list(INITIAL), 0
        environment = {"DGT_LIVE_SERIAL": str(self._serial)}
        return Live(self.folder, str(number), *options, program=ROUND, typed=True, environment=environment, start=start)

    def play(self, live: Live, of: int, plies: int, results: Dict[int, str]) -> None:
        """So many plies on these boards, and a result for each; what was recorded and published of the round."""
        for board in results:
            until_line(live, f"{board:>3}  agrees")
        for ply in range(1, plies + 1):
            for board in results:
                self.seats[board].play()
            for board in results:
                until(lambda: (check(self.game(of, board)) or "").startswith(f"moves {ply},"), f"ply {ply} of board {board}")
        for board, result in results.items():
            live.type(f"{board} {result}")
            until(lambda: (check(self.game(of, board)) or "").endswith(result), f"the result of board {board}")
        until(lambda: len(games_of(self.published(of))) == len(results) and all(
            movetext_of(self.game(of, board)) in self.published(of) for board in results), "what is published")  # fmt: skip
        same(stop(live), 0)

    def game(self, of: int, board: int) -> bytes:
        return bytes_of(self.folder / f"round{of}" / f"{board:02}.pgn")

    def published(self, of: int) -> bytes:
        return bytes_of(self.folder / f"round{of}" / "broadcast.pgn")

    def results(self, of: int) -> List[List[str]]:
        """The table of results, as another program reads it."""
        with open(self.folder / f"round{of}" / "results.csv", encoding="utf-8-sig", newline="") as file:
            return list(csv.reader(file, delimiter=";"))


def movetext_of(game: bytes) -> bytes:
    """What stands behind the tags."""
    return game.partition(b"\n\n")[2].rstrip(b"\n")


def head_of(game: bytes) -> str:
    """The tags."""
    return game.partition(b"\n\n")[0].decode("utf-8")


HEADS = {
    1: """\
[Event "Кубок \\"Ц\\\\1\\""]
[Site "Basel"]
[Date "2024.05.30"]
[Round "1.1"]
[White "Ünal, Ben"]
[Black "Иванов, Пётр"]
[Result "1-0"]
[BlackElo "2431"]
[BlackTitle "IM"]
[Board "1"]
[TimeControl "5400+30"]
[WhiteElo "2512"]
[WhiteTitle "GM"]""",
    3: """\
[Event "Кубок \\"Ц\\\\1\\""]
[Site "Basel"]
[Date "2024.05.30"]
[Round "1.3"]
[White "Ott, \\"Dora\\" \\\\"]
[Black "Kern, Anna"]
[Result "1/2-1/2"]
[Board "3"]
[TimeControl "5400+30"]""",
}


def three_rounds(folder: pathlib.Path) -> None:
    """Rounds 1, 2 and 3 of a folder, from an English table, a German one and a report; nothing is typed twice. What
    isn't understood is named, a bye and boards without a device are told, all.pgn has all rounds, results go out;
    pgn-extract and Scid read all.pgn."""
    cup = Cup(folder)
    (cup.folder / "round1.csv").write_text(ENGLISH, encoding="utf-8-sig")
    live = cup.round(1)
    for part in (
        "round1.csv: line 1 is above the headings, and isn't used",
        "round1.csv: line 5, column BlackElo: '2O50' is no rating: type up to four digits, as 2050, or nothing; the board is recorded",
        "round1.csv: line 7: board 5: Uhl, Hans has no opponent (bye), and no game is recorded",
        "board 4 has no device in boards.csv, and isn't recorded",
    ):
        until_line(live, part)
    cup.play(live, 1, 4, {1: "1-0", 2: "0-1", 3: "1/2-1/2"})
    games = games_of(cup.published(1))
    same([head_of(games[board - 1]) for board in HEADS], list(HEADS.values()))
    same([movetext_of(game) for game in games], [movetext_of(cup.game(1, board)) for board in (1, 2, 3)])
    recorded = head_of(cup.game(1, 2))
    for tag in ('[Event "?"]', '[Round "1"]', '[White "White 2"]', '[Black "Black 2"]'):
        assert tag in recorded, recorded
    assert '[White "Uenal, Ben"]' in head_of(cup.game(1, 1)), cup.game(1, 1)
    same(cup.results(1), [
        ["Board", "White", "Black", "Result", "Note"], ["1", "Ünal, Ben", "Иванов, Пётр", "1-0", ""],
        ["2", "Γεωργίου, Νίκος", "王浩", "0-1", ""], ["3", 'Ott, "Dora" \\', "Kern, Anna", "1/2-1/2", ""],
    ])  # fmt: skip

    (cup.folder / "round1.csv").write_text(GERMAN, encoding="utf-8")
    refuses(cup.round(1), 1, "for another round save its table under its own number, in ")
    (cup.folder / "round1.csv").unlink()
    (cup.folder / "Runde 02.txt").write_text(GERMAN, encoding="utf-16")
    live = cup.round(2)
    until_line(live, "board 3 has no game in Runde 02.txt")
    cup.play(live, 2, 2, {1: "1/2-1/2", 2: "0-1"})
    same([re.findall(r'^\[(?:Date|Round) "(.*)"\]', head_of(game), re.MULTILINE) for game in games_of(cup.published(2))],
         [["2024.05.31", "2.1"], ["2024.05.31", "2.2"]])  # fmt: skip

    (cup.folder / "report.trf").write_text(REPORT, encoding="utf-8")
    live = cup.round(3, "--date", "2024.06.02")
    cup.play(live, 3, 3, {1: "1-0", 2: "1-0"})
    last = [head_of(game) for game in games_of(cup.published(3))]
    for head, tags in zip(last, (("White", "王浩", "Black", "Ünal, Ben"), ("White", "Γεωργίου, Νίκος", "Black", "Иванов, Пётр"))):
        for tag in (f'[{tags[0]} "{tags[1]}"]', f'[{tags[2]} "{tags[3]}"]', '[Date "2024.06.02"]', "[Event \"Кубок"):
            assert tag in head, head
    assert '[WhiteFideId "1500004"]' in last[0] and '[WhiteTitle "WFM"]' in last[0], last[0]
    whole = bytes_of(cup.folder / "all.pgn")
    same(whole, cup.published(1) + cup.published(2) + cup.published(3))
    refuses(cup.round(4), 1, "has no pairs of round 4: it has rounds 1 to 3")
    read_elsewhere(folder, whole)


def encoding_set_later(folder: pathlib.Path) -> None:
    """A table that is saved in another encoding is asked about over several lines when it is read again; then the setting is read
    again with it. An encoding that was typed stays."""
    cup = Cup(folder)
    table = cup.folder / "round1.csv"
    table.write_text("board;white;black\n1;Anna;Ben\n")
    live = cup.round(1)
    until_line(live, "  1  agrees")
    table.write_bytes("board;white;black\n1;Świercz;Dvořák\n".encode("cp1250"))
    live.type("r")
    for part in (
        "round1.csv: it isn't Unicode, and its names can be read in more than one way:\n", "  windows-1250 (Central Europe): Świercz, Dvořák\n",
        "  or save it as UTF-8\n", "  nothing is changed; tournament.txt is read again at r\n",
    ):  # fmt: skip
        until_line(live, part)
    (cup.folder / "tournament.txt").write_text(f"{SETTINGS}\nencoding = windows-1250\n", encoding="utf-8")
    live.type("r")
    until_line(live, "is read again: 1 board")
    until(lambda: '[White "Świercz"]'.encode() in cup.published(1), "the name as it is set to be read")
    same(stop(live), 0)

    live = cup.round(1, "--encoding", "cp1250")
    until_line(live, "  1  agrees")
    (cup.folder / "tournament.txt").write_text(f"{SETTINGS}\nencoding = windows-1251\n", encoding="utf-8")
    table.write_bytes("board;white;black\n1;Wałęsa;Dvořák\n".encode("cp1250"))
    live.type("r")
    until_line(live, "is read again: 1 board")
    until(lambda: '[White "Wałęsa"]'.encode() in cup.published(1), "the name as it is set to be read")
    same(stop(live), 0)


# Starts the recorder so that it looks at the tournament's files each so many seconds, and publishes quickly.
LOOKS_EACH = """
import runpy, sys
sys.dont_write_bytecode = True
seconds, sys.argv = float(sys.argv[1]), sys.argv[2:]
sys.path.insert(0, {top!r})
from live.out import publish
publish.LOOKS, publish.EACH = seconds, 0.1
runpy.run_path(sys.argv[0], run_name="__main__")
"""
CARRIES = """\
#!/bin/sh
for file in all.pgn round1/results.csv; do
  cp "{cup}/$file" '{carried}/new' && mv '{carried}/new' "{carried}/${{file##*/}}"
done
exit 0
"""


def all_carried_away(folder: pathlib.Path) -> None:
    """The command carries all.pgn and results.csv away too: it runs when they have changed, which is after broadcast.pgn has; and a
    last time when they have the last result."""
    cup, carried, script, start = Cup(folder), folder / "carried", folder / "carry", folder / "start.py"
    carried.mkdir()
    script.write_text(CARRIES.format(cup=cup.folder, carried=carried))
    script.chmod(0o755)
    start.write_text(LOOKS_EACH.format(top=str(TOP)))
    (cup.folder / "round1.csv").write_text("board;white;black\n1;Anna;Ben\n3;Carl;Dora\n")

    def round_1(seconds: str) -> Live:
        live = cup.round(1, "--publish", str(script), start=[sys.executable, start, seconds])
        until_line(live, "  3  agrees")
        return live

    def are_carried(*results: str) -> bool:
        """The results of boards 1 and 3 in what was carried away."""
        games = games_of(bytes_of(carried / "all.pgn"))
        rows = bytes_of(carried / "results.csv").decode("utf-8-sig").splitlines()
        wanted = [f"1;Anna;Ben;{results[0].strip('*')};", f"3;Carl;Dora;{results[1].strip('*')};"]
        return [game.split()[-1].decode() for game in games] == list(results) and rows[1:] == wanted

    live = round_1("3")
    until(lambda: are_carried("*", "*"), "both games without a result, carried away")
    live.type("1 1-0")
    live.type("1 1-0")  # it has no move yet, so it was asked about
    until(lambda: are_carried("1-0", "*"), "the result of board 1, carried away")
    same(stop(live), 0)

    live = round_1("1000")
    live.type("3 0-1")
    live.type("3 0-1")
    quits(live)
    assert are_carried("1-0", "0-1"), [bytes_of(carried / name) for name in ("all.pgn", "results.csv")]


def read_elsewhere(folder: pathlib.Path, whole: bytes) -> None:
    """pgn-extract writes all tags of all games again, and the same moves; Scid reads all games, with their players,
    and complains of nothing."""
    extract, scid = outside.path_of("pgn-extract"), outside.path_of("scid")
    if extract:
        (folder / "again.pgn").write_bytes(extracted(folder, extract, "-s", "cup/all.pgn"))
        same(said_by(folder, extract, "-s", "-oagain.pgn", "cup/all.pgn"), "")
        again = games_of(bytes_of(folder / "again.pgn"))
        same([sorted(head_of(game).splitlines()) for game in again], [sorted(head_of(game).splitlines()) for game in games_of(whole)])
        moves = [movetext_of(game).split() for game in (*again, *games_of(whole))]
        same(moves[: len(moves) // 2], moves[len(moves) // 2 :])
    if scid:
        (folder / "import.tcl").write_text(IMPORT)
        said = said_by(folder, scid, "import.tcl").splitlines()
        same(said[0], "7 {}")  # the number of games, and what it complains of
        same(said[1:], [line for game in games_of(whole) for line in scid_says(head_of(game))])
    if lacking := outside.lacks("pgn-extract", "scid"):
        raise Skipped(lacking)


IMPORT = """\
fconfigure stdout -encoding utf-8
sc_base create base
puts [sc_base import [sc_base current] cup/all.pgn]
for {set game 1} {$game <= 7} {incr game} {
  sc_game load $game
  puts [sc_game tags get White]
  puts [sc_game tags get Black]
  puts [sc_game tags get Event]
}
exit 0
"""


def scid_says(head: str) -> List[str]:
    """White, Black and the event of a game, as their values are."""
    values = dict(re.findall(r'^\[(\w+) "(.*)"\]$', head, re.MULTILINE))
    return [re.sub(r"\\(.)", r"\1", values[name]) for name in ("White", "Black", "Event")]


def extracted(folder: pathlib.Path, *words: str) -> bytes:
    """What another program prints."""
    return subprocess.run(words, cwd=folder, stdin=subprocess.DEVNULL, stdout=subprocess.PIPE, stderr=subprocess.DEVNULL).stdout


def what_is_missing(folder: pathlib.Path) -> None:
    """A first call says what to make, and makes the files to fill in; each thing that is missing is named, and what
    to do."""

    def call(*words: object) -> Live:
        return Live("", "", *map(str, words), program=ROUND, cwd=folder)

    refuses(call("cup", 1), 1, "there is no folder cup: dgt_round --new cup makes it, with the files to fill in")

    def make() -> None:
        new = call("--new", "cup")
        until(lambda: not new.runs, "the end of --new")
        assert "Then type: dgt_round cup 1\n" in new.lines(), new.lines()

    make()
    cup = folder / "cup"
    same(sorted(path.name for path in cup.iterdir()), ["boards.csv", "round1.csv", "tournament.txt"])
    same(bytes_of(cup / "boards.csv"), b"board;device;serial;rotated\n")
    (cup / "boards.csv").write_text("board;device\n1;/dev/nowhere1\n")
    make()
    same(bytes_of(cup / "boards.csv"), b"board;device\n1;/dev/nowhere1\n")  # what is there stays
    for round_name in ((), ("round1",), ("cup/round1.csv",)):
        refuses(call("cup", *round_name), 1, "cup is a folder: say which round of its tournament is played, as dgt_round cup 1")
    refuses(call("cup", 1), 1, "cup/round1.csv has no pairs yet: fill it in, save the pairing program's table over it,")
    refuses(call("cup", 2), 1, "cup has no table of round 2: save it there as round2.csv")
    (cup / "pairs2.csv").write_text("Board;White;Black\n1;Anna;Ben\n")
    (cup / "round2.csv").write_text("Board;White;Black\n1;Anna;Ben\n")
    refuses(call("cup", 2), 1, "cup has more than one table of round 2: pairs2.csv, round2.csv: leave one there")
    (cup / "pairs2.csv").unlink()
    for line, part in (
        ("dealy = 15", "cup/tournament.txt: line 1: there is no setting 'dealy'"),
        ("delay = soon", "cup/tournament.txt: --delay 'soon'"),
        ("date = 31.02.2024", "isn't in the calendar"),
        ("site = ./www", "cup/tournament.txt: line 1, site: './www' is a folder, not a place: for a site of files type web = FOLDER"),
    ):
        (cup / "tournament.txt").write_text(line + "\n")
        refuses(call("cup", 2), 1, part)
    (cup / "tournament.txt").unlink()
    (cup / "round2.csv").write_bytes("Board;White;Black\n1;Świercz;Dvořák\n".encode("cp1250"))
    refuses(call("cup", 2), 1, "windows-1250 (Central Europe): Świercz, Dvořák")
    for codec in ("cp437", "cp850", "cp852"):
        (cup / "round2.csv").write_bytes("Board;White;Black\n1;Jörg Müller;Anna\n".encode(codec))
        refuses(call("cup", 2), 1, "cp850 (DOS, Western Europe): Jörg Müller")
    refuses(call("cup", 2, "--encoding", "windows"), 2, "there is no encoding 'windows'")
    (cup / "report.trf").write_text(REPORT, encoding="utf-8")
    (cup / "round2.csv").write_text("Board;White;Black\n")  # no pair: the report has them
    (cup / "report.trf").write_bytes(player(1, "", "Dvořák, Jan", "", "   2 w 1").encode("cp1250"))
    refuses(call("cup", 2), 1, "cup/report.trf: it isn't Unicode, and its names can be read in more than one way:")
    unpaired = [player(1, "", "Anna", "", "   2 w 1", "0000 - H"), player(2, "", "Ben", "", "   1 b 0")]
    (cup / "report.trf").write_text("\n".join(unpaired))
    refuses(call("cup", 2), 1, "cup/report.trf: it has no pair of round 2: save it again when the round is paired")
    (cup / "report.trf").write_text(REPORT, encoding="utf-8")
    (cup / "boards.csv").write_text("board,device\n9,/dev/null\n")
    refuses(call("cup", 2), 1, "cup/report.trf: none of its boards has a device in cup/boards.csv")
    (cup / "boards.csv").unlink()
    refuses(call("cup", 2), 1, "cup/report.trf: it doesn't say where its boards are plugged in: write cup/boards.csv")
    for lines in ("013 SC Turm", "013 SC Turm                             1    9"):  # no player, and one that isn't there
        (cup / "report.trf").write_text(f"{REPORT}\n{lines}\n", encoding="utf-8")
        refuses(call("cup", 2), 1, "cup/report.trf: line 7 has a team, and a report doesn't say at which board of a match a pair plays:")
    refuses(call("cup", 2, "--matches", "no"), 1, "cup/report.trf: it doesn't say where its boards are plugged in")
    (cup / "tournament.txt").write_text("matches = no\n")
    refuses(call("cup", 2), 1, "cup/report.trf: it doesn't say where its boards are plugged in")
    (cup / "tournament.txt").write_text("matches = none\n")
    refuses(call("cup", 2), 1, "cup/tournament.txt: --matches 'none': type no if players are paired one by one, or yes if teams play matches")
    (cup / "tournament.txt").unlink()
    (cup / "report.trf").unlink()
    (cup / "round2.csv").write_text("Board;White;Black\n1;Anna;Ben\n")
    refuses(call("cup", 2), 1, "cup/round2.csv: it doesn't say where its boards are plugged in: write cup/boards.csv")
    same(sorted(path.name for path in cup.iterdir()), ["round1.csv", "round2.csv"])
