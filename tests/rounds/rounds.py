"""Rounds that are played."""

import json
import pathlib
import re
import shutil
import subprocess
import sys
import urllib.request
import zipfile
from typing import List

from paged.web import Told
from played import TOP, words
from played.ports import free_port
from played.recorder import Live, signal_to
from played.stage import bytes_of, ended, kill, program, refuses, same, stop, until, until_line
from rounds.hall import ROUND, Hall, Reader, games_of, moves, quits, text, told


# Waits in each sync of a file whose path has a part, as long as another file is there.
SLOW_DISK = """
import os, time
sync = os.fsync
def slow(number):
    while {part!r} in os.readlink(f"/proc/self/fd/{{number}}") and os.path.exists({stuck!r}):
        time.sleep(0.02)
    sync(number)
os.fsync = slow
"""
# A program whose `positions` wait as long as a file is there.
SLOW_POSITIONS = """#!/bin/sh
while [ "$1" = positions ] && [ -e '{stuck}' ]; do sleep 0.05; done
exec '{program}' "$@"
"""


def eight_boards(folder: pathlib.Path) -> None:
    """Eight boards, four with clocks: each game is right, and round.pgn is whole at each moment."""
    hall = Hall(folder, 8, clocks=(1, 3, 5, 7))
    live = hall.record("--event", "Club", "--date", "31.05.2024", "--round", "3")
    reader = Reader(hall.games / "round.pgn")
    hall.begun(live)
    same(live.lines().count("Ctrl-C"), 0)  # that would end all boards
    hall.play()
    for number in range(8):
        hall.until_text(number + 1, text(number))
    hall.until_round()
    same(stop(live), 0)
    hall.until_round()
    same(len(games_of(bytes_of(hall.games / "round.pgn"))), 8)
    reader.end(8)
    game = bytes_of(hall.name(3) + ".pgn").decode()
    for tag in ('[Event "Club"]', '[Date "2024.05.31"]', '[Round "3"]', '[White "White 3"]', '[Black "Black 3"]'):
        assert tag in game, game
    assert "what was played is in" in live.lines()


def troubles(folder: pathlib.Path) -> None:
    """Devices that aren't there or that two lines name, lines that can't be read: each is told, and other boards record."""
    hall = Hall(folder, 2)
    (folder / "file").write_text("no device")
    (folder / "other").symlink_to(folder / "board1")
    hall.write(
        f"3,{folder}/nowhere,A,B",
        f"4,{folder}/file,A,B",
        f"5,{folder}/board2,A,B",
        f"2,{folder}/nothing,A,B",
        "x,y,z",
        '6,"a,b,c',
        f"7,{folder}/seven,\u0416ukov,B",
        f"8,{folder}/other,A,B",
        ",,,",
        "",
    )
    live = hall.record()
    hall.begun(live)
    for part in (
        f"  3  {folder}/nowhere isn't there: plug it in. Is it another device? Write it in its column device, save the table,",
        "  3  UNPLUGGED",
        f"  4  isn't recorded: {folder}/file is no device",
        f"line 6 of round.csv is wrong: {folder}/board2 is the device of board 2, line 3: each has its own",
        "line 7 of round.csv is wrong: board 2 is in line 3 already: type another",
        "line 8 of round.csv is wrong: 'x' is no number of a board",
        "line 9 of round.csv is wrong: a quotation mark isn't closed",
        "  7  UNPLUGGED",
        f"line 11 of round.csv is wrong: {folder}/other is the device of board 1, line 2",
    ):
        until_line(live, part)
    hall.play(0, 4)
    hall.until_text(1, "1. e4 e5 2. Nf3 Nc6 *")
    until(lambda: b'[White "White 7"]' in bytes_of(hall.games / "07.pgn"), "the name of board 7")
    same(stop(live), 3)  # a board is not recorded, and it says so last
    assert "board 4" in live.complaint() and "board 7" not in live.complaint(), live.complaint()


def typed(folder: pathlib.Path) -> None:
    """Results and missed moves are typed; each is answered, once, and nonsense too. A result that was typed wrong is typed again."""
    hall = Hall(folder, 3)
    live = hall.record(typed=True)
    hall.begun(live)
    hall.play(0, 2)
    hall.boards[0].deaf = True
    live.type("1 Nf3 Nc6")
    hall.until_text(1, "1. e4 e5 2. Nf3 Nc6 *")
    until_line(live, "1: added to ")
    live.type("3 1-0")
    hall.until_text(3, "1. e4 c5 1-0")
    until_line(live, "3: added to ")
    same([live.lines().count(told) for told in ("result 1-0", "Nf3 Nc6")], [1, 1])
    assert "added by hand: the result 1-0" in bytes_of(f"{hall.name(3)}.log").decode()
    for line, answer in (
        ("2 Qh5", "2 refused"),
        ("9 1-0", "refused: there is no board 9: the boards are 1 to 3"),
        ("1-0", "refused: 1-0: of which board? Type its number first, as 3 1-0"),
        ("1 - 0", "refused: 1 - 0: of which board? Type its number first, as 3 1-0"),
        ("hello", "refused: hello: type 3 1-0, "),
        ("2", "2: agrees"),
        ("r", "is read again: 3 boards"),
    ):
        live.type(line)
        until_line(live, answer)
    hall.boards[1].play("c2c4")
    hall.until_text(2, "1. d4 d5 2. c4 *")
    # While the game is being ended nothing can be added. Then its result can be put right.
    hall.until_over(live, 3, "1-0")
    live.type("3 0-1")
    until_line(live, "added to ", 3)
    hall.until_text(3, "1. e4 c5 0-1")
    for wrong in ("3 2-0", "3 Nf3 1-0"):
        live.type(wrong)
    until_line(live, "3 refused", 2)
    hall.until_round()
    quits(live)
    same(hall.text(3), "1. e4 c5 0-1")


def packed(folder: pathlib.Path) -> None:
    """A board of a round is packed by the name of its files while the round goes on: its own game alone."""
    hall = Hall(folder, 2)
    live = hall.record()
    hall.begun(live)
    hall.play(0, 2)
    same(ended(Live("", "", "--pack", hall.name(2))), 0)
    endings = ("dgt", "times", "began", "pgn", "options", "log")
    same(zipfile.ZipFile(f"{hall.name(2)}.zip").namelist(), ["02/README.txt", *(f"02/02.{ending}" for ending in endings)])
    hall.play(2, 4)
    hall.until_round()
    same(stop(live), 0)


def all_over(folder: pathlib.Path) -> None:
    """When all games are over, a line says what to type: once, and again after one of them has gone on."""
    hall = Hall(folder, 2)
    live = hall.record(typed=True)
    hall.begun(live)
    hall.play(0, 2)
    said = "all games are over: type q to end"
    live.type("1 1-0")
    hall.until_over(live, 1, "1-0")
    same(live.says(said), False)
    live.type("2 1-0")
    until_line(live, said)
    live.type("2 *")
    until_line(live, "goes on, without the result")
    live.type("2 0-1")
    until_line(live, said, 2)
    live.type("q")
    same(ended(live), 0)
    same(live.says(said, 3), False)


def all_squares(folder: pathlib.Path) -> None:
    """Ten squares differ: the row counts them, and the number of the board alone names each of them."""
    hall = Hall(folder, 1)
    live = hall.record(typed=True)
    hall.begun(live)
    hall.play(0, 2)
    wrong = "a1 b1 c1 d1 e1 f1 g1 h1 a2 b2".split()
    for square in wrong:
        hall.boards[0].lift(square)
    until_line(live, ": 10 squares")
    live.type("1")
    until_line(live, "1: WRONG since ")
    until_line(live, "/01.dgt\n")
    line = next(line for line in live.lines().splitlines() if "1: WRONG since " in line)
    same(sorted(line.partition(" s: ")[2].partition(";")[0].split()), sorted(wrong))
    same(stop(live), 0)


def killed(folder: pathlib.Path) -> None:
    """All is killed in mid-game, twice, and started again: each game goes on, and dgt_live goes on with one of them."""
    hall = Hall(folder, 4, clocks=(0, 2))
    live = hall.record()
    reader = Reader(hall.games / "round.pgn")
    hall.begun(live)
    for ply in (0, 2):
        hall.play(ply, ply + 2)
        kill(live)
        live = hall.record()
        hall.begun(live)
        same(live.lines().count("in hand"), 0)  # of the moves before
    hall.play(4, 6)
    hall.until_text(2, text(1))
    hall.until_round()
    same(stop(live), 0)
    reader.end(4)
    alone = Live(hall.boards[0].device, hall.name(1))
    until_line(alone, words.AGREES)
    hall.boards[0].play(moves(0)[6])
    hall.until_text(1, "1. e4 e5 2. Nf3 Nc6 3. Bb5 a6 4. Ba4 *")
    same(stop(alone), 0)
    live = hall.record()
    hall.begun(live)
    hall.boards[0].play(moves(0)[7])
    hall.until_text(1, "1. e4 e5 2. Nf3 Nc6 3. Bb5 a6 4. Ba4 Nf6 *")
    hall.until_round()
    same(stop(live), 0)


def parts_killed(folder: pathlib.Path) -> None:
    """A child of one board is killed: it is started again, and no board loses a move."""
    hall = Hall(folder, 3)
    live = hall.record()
    hall.begun(live)
    hall.play(0, 2)
    live.was_killed = True
    for child in live.children()[:3]:
        signal_to(child)
    hall.play(2, 6)
    hall.until_round()
    same(stop(live), 0)


def hall_troubles(folder: pathlib.Path) -> None:
    """Cut updates on one board, another switched off and on, the cable of a third pulled: each game is right."""
    hall = Hall(folder, 4)
    hall.boards[0].spoiled_share = 0.1
    live = hall.record()
    hall.begun(live)
    hall.play(0, 2)
    hall.boards[1].switch_off()
    hall.boards[2].pull()
    until_line(live, "  3  UNPLUGGED")
    hall.boards[3].play(moves(3)[2])
    hall.until_text(4, "1. c4 e5 2. Nc3 *")
    until_line(live, f"  2  {words.SILENT}")
    hall.boards[1].switch_on()
    hall.boards[2].plug()
    until(lambda: all(board.asked_for_updates for board in hall.boards), "a request on each board")
    for number in range(3):
        hall.boards[number].play(moves(number)[2])
    for number, wanted in ((1, "1. e4 e5 2. Nf3 *"), (2, "1. d4 d5 2. c4 *"), (3, "1. e4 c5 2. Nf3 *")):
        hall.until_text(number, wanted)
    hall.until_round()
    same(stop(live), 0)


def full_disk(folder: pathlib.Path) -> None:
    """The disk is full for a while: the rows say so, and what was played meanwhile is written when there is room."""
    hall = Hall(folder, 2)
    live = hall.record()
    hall.begun(live)
    hall.play(0, 1)
    live.fill_disk(20)
    for number, board in enumerate(hall.boards):
        board.play(moves(number)[1])
    until_line(live, f"  1  {words.DISK_FULL}")
    until_line(live, f"  2  {words.DISK_FULL}")
    live.make_room()
    hall.until_text(1, "1. e4 e5 *")
    hall.until_text(2, "1. d4 d5 *")
    hall.play(2, 4)
    hall.until_round()
    same(stop(live), 0)


def slow_disk(folder: pathlib.Path) -> None:
    """The disk doesn't answer where one board's files are: its moves are told, and the others' games and round.pgn are written.
    When it answers again the game is written too."""
    hall = Hall(folder, 3)
    stuck = folder / "stuck"
    (folder / "sitecustomize.py").write_text(SLOW_DISK.format(stuck=str(stuck), part="/01."))
    live = hall.record(start=[sys.executable], environment={"PYTHONPATH": str(folder)})
    hall.begun(live)
    hall.play(0, 1)
    stuck.touch()
    for ply in range(1, 4):
        hall.make(ply, [0])
        until_line(live, f"  1  {told(0, ply)}")
        hall.play(ply, ply + 1, [1, 2])
    same(hall.text(1), "1. e4 *")
    hall.until_round()
    stuck.unlink()
    hall.until_plies(4)
    hall.until_round()
    same(stop(live), 0)


def slow_program(folder: pathlib.Path) -> None:
    """`positions` doesn't answer: moves are told, games and round.pgn are written, and the page has the positions all the same."""
    hall = Hall(folder, 2)
    stuck, place = folder / "stuck", folder / "place"
    place.mkdir()
    shutil.copy(ROUND, place)
    (place / "live").symlink_to(TOP / "live")
    (place / "dgt_replay").write_text(SLOW_POSITIONS.format(stuck=stuck, program=program()))
    (place / "dgt_replay").chmod(0o755)
    port = free_port()
    live = hall.record("--page", str(port), program=place / "dgt_round")
    hall.begun(live)
    stuck.touch()
    hall.play(0, 4)
    for number in (0, 1):
        until_line(live, f"{number + 1:>3}  {told(number, 3)}")
    hall.until_round()
    until(lambda: [len(board["positions"]) for board in boards_of(port)] == [5, 5], "five positions on each board", 0.05)
    moves_shown = [[ply["san"] for ply in board["moves"]] for board in boards_of(port)]
    same(moves_shown, [["e4", "e5", "Nf3", "Nc6"], ["d4", "d5", "c4", "e6"]])
    same(stop(live), 0)
    stuck.unlink()


def on_a_terminal(folder: pathlib.Path) -> None:
    """The table on a terminal of 80 columns: players, last moves, clocks, states, alarms; what is typed is answered."""
    hall = Hall(folder, 3, clocks=(0,))
    live = hall.record("--event", "Club", terminal=True, environment={"TERM": "xterm"})
    for part in ("Club", "White   Black   Last move", "agrees", "3 boards, no alarm", "type help to see what can be typed, and q to end"):
        until_line(live, part)
    hall.play(0, 3)
    until_line(live, "2. Nf3")
    until_line(live, "1:29:5")
    hall.boards[1].pull()
    until_line(live, "!  2 ")
    until_line(live, "UNPLUGGED")
    until_line(live, "1 alarm")
    live.type("3 1-0")
    until_line(live, "3: added to")
    until_line(live, "over 1-0")
    *lines, _ = re.split(r"\x1b\[\d+;1H|\x1b8|\r|\n", live.told.read().replace("\x1b[H\x1b[2J", "\n"))  # the last may be a part
    same([line for line in lines if len(words.plain(line)) > 79], [])
    quits(live)


def turned_round(folder: pathlib.Path) -> None:
    """A board the other way round: its row says so, and what to do in a round; `r` reads that it is, and the game is recorded."""
    hall = Hall(folder, 2)
    hall.boards[1].rotated = True
    live = hall.record(terminal=True, environment={"TERM": "xterm"})
    until_line(live, "turned round?")
    until_line(live, "2: is the board turned round? Write yes in its column rotated,")
    live.type("2")
    until_line(live, "2: is the board turned round? Write yes", 2)
    hall.extra[2] = ",yes"
    hall.write(header="board,device,white,black,rotated")
    live.type("r")
    until_line(live, "2 boards, no alarm")
    hall.boards[1].play("d2d4")
    hall.until_text(2, "1. d4 *")
    until_line(live, "1. d4")
    for never in ("over, no result", words.ROTATED):
        assert never not in live.lines(), live.lines()
    # The other way: the table says that a board is rotated, and it isn't.
    hall.extra[1] = ",yes"
    hall.write(header="board,device,white,black,rotated")
    live.type("r")
    until_line(live, "1: is the board turned round? Write no in its column rotated")
    quits(live)


def a_wrong_line(folder: pathlib.Path) -> None:
    """The line of a board that is recorded becomes wrong: it goes on, its alarms are shown as before, and the line is no board."""
    hall = Hall(folder, 2)
    live = hall.record(terminal=True, environment={"TERM": "xterm"})
    until_line(live, "2 boards, no alarm")
    hall.file.write_text(hall.file.read_text().replace("White 2", '"White 2') + "9,,nobody,nobody\n")
    live.type("r")
    until_line(live, "2 boards, no alarm, 2 lines are wrong")
    until_line(live, "!  2 line 3 is wrong: a quotation mark isn't closed")
    until_line(live, "board 2 goes on as it was begun")
    until_line(live, "!  9 line 4 is wrong: it names no device")
    hall.boards[1].play("d2d4")
    hall.until_text(2, "1. d4 *")
    hall.boards[1].pull()
    until_line(live, "UNPLUGGED")
    until_line(live, "2 boards, 1 alarm, 2 lines are wrong")
    hall.write()
    hall.boards[1].plug()
    seen = len(live.lines())
    live.type("r")
    until(lambda: re.search("2 boards, no alarm(?!,)", live.lines()[seen:]), "that no line is wrong any more")
    quits(live)
    log = bytes_of(hall.games / "round.log").decode()
    wrong, right = "; board 2 goes on as it was begun\n", "is read again: 2 boards\n"
    same(([log.count(part) for part in (wrong, right)], log), ([1, 1], log))


def fetch(port: int, path: str) -> bytes:
    """What the page serves there."""
    with urllib.request.urlopen(f"http://127.0.0.1:{port}{path}", timeout=300) as answer:
        return bytes(answer.read())


def boards_of(port: int) -> List[Told]:
    """The boards as the page has them."""
    boards: List[Told] = json.loads(fetch(port, "/state.json"))["boards"]
    return boards


def page(folder: pathlib.Path) -> None:
    """The arbiter's page has the round: its boards, their moves and positions, round.pgn, and the state."""
    hall = Hall(folder, 2, clocks=(0,))
    port = free_port()
    live = hall.record("--event", "Club", "--arbiter-page", str(port))
    hall.begun(live)
    hall.play(0, 3)

    until(lambda: [len(board["moves"]) for board in boards_of(port)] == [3, 3], "three plies on each board of the page", 0.05)
    first = boards_of(port)[0]
    same([ply["san"] for ply in first["moves"]], ["e4", "e5", "Nf3"])
    same(first["positions"][-1].split()[0], "rnbqkbnr/pppp1ppp/8/4p3/4P3/5N2/PPPP1PPP/RNBQKB1R")
    same((first["white"], first["black"]), ("White 1", "Black 1"))
    until(lambda: fetch(port, "/round.pgn") == bytes_of(hall.games / "round.pgn"), "round.pgn on the page", 0.05)
    same(stop(live), 0)


def page_again(folder: pathlib.Path) -> None:
    """A round that was shown is shown again where it was, and says so, without the option; `--page no` ends that. So is the game
    of a single board."""
    hall = Hall(folder, 1)
    port, another = free_port(), free_port()
    shown = [words.AGREES, f"is shown at http://127.0.0.1:{port}/", "it is shown as before; --page no ends that"]
    board, game = hall.boards[0].device, folder / "game"

    def told(*options: str, of_round: bool) -> "list[str]":
        """Which of these lines a call prints."""
        live = hall.record(*options) if of_round else Live(board, game, *options)
        until_line(live, words.AGREES)
        if live.says(shown[1]):
            assert fetch(port, "/state.json"), "nothing is served"
        same(stop(live), 0)
        return [part for part in shown if part in live.lines()]

    for of_round in (True, False):
        same(told("--page", str(port), "--arbiter-page", str(another), of_round=of_round), shown[:2])
        same([told(of_round=of_round) for _ in range(2)], [shown, shown])
        same([told("--page", "no", of_round=of_round), told(of_round=of_round)], [shown[:1], shown[:1]])
    same([path.name for path in (*hall.games.iterdir(), *folder.iterdir()) if path.name.endswith(".pages")], [])


def refused(folder: pathlib.Path) -> None:
    """No file, an empty one, one without a header, and a second call for the same folder, device or game: what to do, and a
    status."""
    hall = Hall(folder, 1)
    header = b"board,device,white,black\n"
    for content, part in (
        (b"", "is empty"),
        (b"1,/dev/null,A,B\n", "names no board and device"),
        (header, "each line after the first is one, as 1,/dev/ttyUSB0,Anna,Ben"),
    ):
        hall.file.write_bytes(content)
        refuses(hall.record(), 1, part)
    hall.file.unlink()
    refuses(hall.record(), 3, "save the table there as CSV")
    same(hall.games.exists(), False)
    refuses(hall.record("--what"), 2, "there is no option")
    hall.write()
    refuses(Live(folder, hall.games, program=ROUND), 3, "type the FILE of the table first")
    refuses(Live(hall.file, folder / "no" / "one", program=ROUND), 3, f"there is no folder {folder}/no to make one in: choose another FOLDER")
    for place in (hall.file, hall.file / "games"):
        refuses(Live(hall.file, place, program=ROUND), 3, f"{place} is a file, or is to be in one: choose another FOLDER")
    refuses(Live(hall.file, hall.games, "--event", "Club", "cup", program=ROUND), 2, "in quotes, as")
    live = hall.record()
    hall.begun(live)
    refuses(hall.record(), 1, "another dgt_round")
    answer = Live("", hall.name(1), "--first", "black")
    refuses(answer, 1, "is board 1 of a dgt_round, and Ctrl-C there would end all boards")
    assert "  write black in its column first; save the table, and type r there\n" in answer.complaint(), answer.complaint()
    refuses(Live(hall.boards[0].device, folder / "game"), 3, "take its line out of the table, and type r")
    same(stop(live), 0)


def help_on_a_screen(folder: pathlib.Path) -> None:
    """--help says all on 80 by 24."""
    answer = subprocess.run([ROUND, "--help"], stdout=subprocess.PIPE)
    same(answer.returncode, 0)
    shown = answer.stdout.decode()
    lines = shown.splitlines()
    assert len(lines) < 24 and all(len(line) < 80 for line in lines), (len(lines), max(map(len, lines)))
    for word in ["FOLDER", "round.pgn", "board,device,white,black", "rotated", "fen", "name", "recover", "3 1-0", "--devices"]:
        assert word in shown, word
    for option in ["--event", "--site", "--date", "--round", "--page", "--page-host", "--recover", "--strict"]:
        assert option in shown, option
