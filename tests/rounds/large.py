"""A large hall in which all goes wrong that may, and troubles that are one board's alone."""

import pathlib
import signal
import subprocess

import outside
from played import words
from played.recorder import Live, command, signal_to
from played.stage import Skipped, bytes_of, kill, movetext, rest, same, stop, until, until_line
from rounds.hall import Hall, Reader, games_of, moves, plain, text

# Boards of the large hall, counted from 0; the others have no trouble of their own.
CLOCKS = range(0, 10)
CUT = range(6, 12)
CABLED = SWAPPED_1, SWAPPED_2, RENAMED = 12, 13, 14
SWITCHED = (15, 16)
PULLED = 17
HIDDEN = (18, 19, 20, 22, 23)  # a move and its reply are made at once, by two hands
HURRIED = (*HIDDEN, 21)
BOARDS = 32


def slide(hall: Hall, number: int, move: str) -> None:
    """A move whose piece is set down on two empty squares first, and which no one waits for."""
    board = hall.boards[number]
    code = board.codes[play_field(move[:2])]
    board.lift(move[:2])
    for square in ("a5", "h4"):
        board.put(square, code)
        board.lift(square)
    board.put(move[:2], code)
    board.play(move)


def hide(hall: Hall, number: int, ply: int) -> None:
    """A move and its reply, whose piece is lifted before the move stands: no picture shows the move whole."""
    board = hall.boards[number]
    pair = moves(number)[ply : ply + 2]
    codes = [board.codes[play_field(move[:2])] for move in pair]
    for move in pair:
        board.lift(move[:2])
    for move, code in zip(pair, codes):
        board.put(move[2:], code)
    last = board.update(play_field(pair[1][2:]))
    until(lambda: last in bytes_of(hall.name(number + 1) + ".dgt"), f"the reply in the capture of board {number + 1}", 0.01)


def play_field(square: str) -> int:
    return "abcdefgh".index(square[0]) + 8 * (8 - int(square[1]))


def troubled(hall: Hall, live: Live) -> None:
    """Boards are switched off, cables are pulled, change places and names; the others play on meanwhile."""
    away = [*CABLED, *SWITCHED, PULLED]
    others = [number for number in range(BOARDS) if number not in away]
    for number in SWITCHED:
        hall.boards[number].switch_off()
    for number in (*CABLED, PULLED):
        hall.boards[number].pull()
    for number in (*CABLED, PULLED):
        until_line(live, f"{number + 1:>3}  {words.UNPLUGGED}")
    hall.play(2, 3, others)
    for number in SWITCHED:
        until_line(live, f"{number + 1:>3}  {words.SILENT}")
        hall.boards[number].switch_on()
    hall.cables.plug(hall.boards[SWAPPED_1], SWAPPED_2 + 1)
    hall.cables.plug(hall.boards[SWAPPED_2], SWAPPED_1 + 1)
    hall.cables.plug(hall.boards[RENAMED], 99)
    hall.boards[PULLED].plug()
    until(lambda: all(board.asked_for_updates for board in hall.boards), "a request on each board")
    hall.play(2, 3, away)
    assert words.OTHER_BOARD not in live.lines(), live.lines()


def full(hall: Hall, live: Live) -> None:
    """The disk is full while each board makes a move, and has room again."""
    live.fill_disk(20)
    hall.make(3)
    for number in range(BOARDS):
        until_line(live, f"{number + 1:>3}  {words.DISK_FULL}")
    live.make_room()
    hall.until_plies(4)


def thirty_two_boards(folder: pathlib.Path) -> None:
    """32 boards: clocks, cut updates, hands in a hurry, moves that two hands hid, boards off and on, cables swapped and renamed,
    a full disk, two kills."""
    hall = Hall(folder, BOARDS, clocks=CLOCKS, cabled=CABLED)
    for number in CUT:
        hall.boards[number].spoiled_share = 0.1
    hall.write("33,,nobody,nobody", "x,y,z")
    live = hall.record("--event", "Hall", "--recover")
    reader = Reader(hall.games / "round.pgn")
    hall.begun(live)
    until_line(live, "line 34 of round.csv is wrong")
    hall.play(0, 2)
    troubled(hall, live)
    full(hall, live)
    kill(live)
    live = hall.record("--event", "Hall")  # the games are kept with --recover
    hall.begun(live)
    for ply in (4, 5):
        for number in set(HURRIED) - set(HIDDEN):
            slide(hall, number, moves(number)[ply])
    for number in HIDDEN:
        hide(hall, number, 4)
    hall.until_plies(6, list(set(HURRIED) - set(HIDDEN)))
    hall.play(4, 6, [number for number in range(BOARDS) if number not in HURRIED])
    hall.write("1,again,A,B")
    live.send(signal.SIGHUP)
    until_line(live, "is read again: 32 boards, 1 line is wrong")
    hall.make(6, [number for number in range(BOARDS) if number not in HIDDEN])
    kill(live)
    hall.make(6, HIDDEN)  # which tells the pair: to the next call, and never to the one that is killed
    live = hall.record("--event", "Hall")
    hall.until_plies(7)
    for number in HIDDEN:
        until_line(live, f"{number + 1:>3}  recovered 3. ")
    hall.begun(live)
    hall.play(7)
    for number in range(BOARDS):
        hall.until_text(number + 1, text(number))
    hall.until_round()
    same(stop(live), 0)
    same(len(games_of(bytes_of(hall.games / "round.pgn"))), BOARDS)
    reader.end(BOARDS)
    for number in range(BOARDS):
        log = (hall.games / f"{number + 1:02}.log").read_text()
        same("look whether they were played: 3. " in log, number in HIDDEN)
    for number in CLOCKS:
        assert "[%clk 1:29:5" in movetext(hall.name(number + 1)), movetext(hall.name(number + 1))


def always_failing(folder: pathlib.Path) -> None:
    """A child of one board is killed again and again: its row says so, the others play on; it is recorded again later."""
    hall = Hall(folder, 3)
    hall.extra[2] = ",yes"
    hall.boards[1].rotated = True
    hall.write(header="board,device,white,black,rotated")
    live = hall.record()
    hall.begun(live)
    hall.play(0, 2)
    live.was_killed = True

    def fails() -> bool:
        for child in live.children():
            called = command(child)
            if "live" in called and "--rotated" in called:
                signal_to(child)
        return live.says("  2  isn't recorded: a part of the program failed again and again")

    until(fails, "that board 2 is given up")
    hall.play(2, 4, (0, 2))
    # Whether somebody must look depends on how long its board wasn't heard.
    until(lambda: sum("  2  " in it and it.endswith("agrees") for it in live.lines().splitlines()) > 1, "that board 2 agrees again")
    hall.play(2, 4, (1,))
    for number in range(3):
        same(plain(movetext(hall.name(number + 1))).count(" "), 6)
    hall.until_round()
    for number in (1, 3):
        assert f"  {number}  isn't recorded" not in live.lines(), live.lines()
    same(stop(live), 0)


def full_from_the_start(folder: pathlib.Path) -> None:
    """The disk is full as it begins: each row says so, nothing ends; when there is room all boards are recorded."""
    for limit in (0, 60):
        place = folder / str(limit)
        place.mkdir()
        hall = Hall(place, 2)
        live = hall.record(limit=limit)
        for number in (1, 2):
            until_line(live, f"{number:>3}  isn't recorded: ")
        rest(0.5)
        assert live.runs, live.complaint()
        live.make_room()
        hall.begun(live)
        hall.play(0, 2)
        hall.until_round()
        same(stop(live), 0)


def chess_programs(folder: pathlib.Path) -> None:
    """pgn-extract and Scid read round.pgn without a complaint: clocks, results, a game without moves, turned names."""
    extract, scid = outside.path_of("pgn-extract"), outside.path_of("scid")
    hall = Hall(folder, 5, clocks=(0, 2))
    hall.write(f'6,{folder}/nowhere,"Ødegård, Åse",Jörg')
    live = hall.record("--event", 'Club "cup" \\ 2', "--date", "31.05.2024", "--round", "3", typed=True)
    hall.begun(live)
    hall.play()
    for number, result in ((1, "1-0"), (2, "1/2-1/2"), (3, "0-1")):
        live.type(f"{number} {result}")
        until(lambda: result in movetext(hall.name(number)), f"the result of board {number}")
    until(lambda: len(games_of(bytes_of(hall.games / "round.pgn"))) == 6, "six games in round.pgn")
    same(stop(live), 0)
    assert b'[White "Oedegaard, Aase"]' in bytes_of(hall.games / "round.pgn"), bytes_of(hall.games / "round.pgn")
    if extract:
        same(said_by(folder, extract, "-s", "-o/dev/null", "games/round.pgn"), "")
    if scid:
        (folder / "import.tcl").write_text(
            "sc_base create base\nputs [sc_base import [sc_base current] games/round.pgn]\nexit 0\n"
        )
        same(said_by(folder, scid, "import.tcl"), "6 {}\n")  # the number of games, and what it complains of
    if lacking := outside.lacks("pgn-extract", "scid"):
        raise Skipped(lacking)


def said_by(folder: pathlib.Path, *words: str) -> str:
    """What another program says, on both streams."""
    heard = subprocess.run(words, cwd=folder, stdin=subprocess.DEVNULL, stdout=subprocess.PIPE, stderr=subprocess.STDOUT)
    return heard.stdout.decode(errors="replace")
