"""Games with a result when their round, or their board alone, is opened again."""

import pathlib
import subprocess

from played import words
from played.boards import Board
from played.recorder import LIVE, Live, has_open
from played.stage import bytes_of, kill, refuses, rest, same, stop, until, until_dumped, until_line
from rounds.alarms import says
from rounds.hall import Hall

DRAWN, PLAYED = "1. e4 e5 1/2-1/2", "1. e4 e5 2. Nf3 Nc6 *"
WENT_ON = "LOOK after 1... e5: 2 moves were made, and the game is over: "


def begun(hall: Hall, *options: str) -> Live:
    """Two plies on each board."""
    live = hall.record(*options, typed=True)
    hall.begun(live)
    for number, board in enumerate(hall.boards, 1):
        for move in ("e2e4", "e7e5"):
            board.play(move)
        hall.until_text(number, "1. e4 e5 *")
        until_dumped(board, hall.name(number))
    return live


def kings_in_the_centre(board: Board) -> None:
    board.kings_in_centre("d4", "d5")


def plays_on(hall: Hall, number: int) -> None:
    """The kings are put back, if they are in the centre, and two moves are made."""
    board = hall.boards[number - 1]
    for move in ("d4e1", "d5e8") if "1/2" in hall.text(number) else ():
        board.play(move)
    until_dumped(board, hall.name(number))
    for move in ("g1f3", "b8c6"):
        board.play(move)
        until_dumped(board, hall.name(number))


def killed_after_the_sign(folder: pathlib.Path) -> None:
    """The kings stand in the centre by mistake, and the round is killed before the ten seconds are over. When it is started again the
    players go on: the game is over, somebody must look, and it goes on with all moves. On another board nothing more happens: its game
    ends ten seconds later, and then its end is marked. Meanwhile a table that has other players is refused."""
    hall = Hall(folder, 2)
    live = begun(hall)
    for number, board in enumerate(hall.boards, 1):
        kings_in_the_centre(board)
        hall.until_text(number, DRAWN)
    kill(live)
    same([bytes_of(hall.name(number) + ".end") for number in (1, 2)], [b"", b""])
    table = hall.file.read_text()
    hall.file.write_text(table.replace("White 1", "Dora").replace("White 2", "Cara"))
    refuses(hall.record(), 1, f"{hall.name(1)} has the result 1/2-1/2, and was played by White 1 - Black 1: for another round take another")
    hall.file.write_text(table)
    again = hall.record(typed=True)
    for number in (1, 2):
        until_line(again, f"{number:>3}  {words.RESULT}1/2-1/2")
    same([bytes_of(hall.name(number) + ".end") for number in (1, 2)], [b"", b""])
    plays_on(hall, 1)
    until_line(again, f"  1  {hall.name(1)} is over: another move was made after its result")
    until_line(again, f"  1  {WENT_ON}1/2-1/2. Look at it, and type 1 ok")
    again.type("1 *")
    hall.until_text(1, PLAYED)
    until_line(again, f"  2  {hall.name(2)} is over: it has a result")
    hall.until_over(again, 2, "1/2-1/2")
    assert bytes_of(hall.name(2) + ".end"), "no mark of the end of board 2"
    same((hall.text(2), stop(again)), (DRAWN, 0))


def listened_to_again(folder: pathlib.Path) -> None:
    """The games of a round are over. A name is put right, and the round is ended and started again: two moves on a board are an alarm, as
    they were before. A board whose pieces are set up is left alone. So is one that isn't there, and one that another recorder has: no
    alarm tells of them, and their results can be put right."""
    hall = Hall(folder, 5)
    live = begun(hall)
    for board in hall.boards[1:]:
        kings_in_the_centre(board)
    live.type("1 1-0")
    for number in range(1, 6):
        hall.until_over(live, number, "1-0" if number == 1 else "1/2-1/2")
    hall.file.write_text(hall.file.read_text().replace("White 1", "Anna"))
    live.type("r")
    until(lambda: b'[White "Anna"]' in bytes_of(hall.name(1) + ".pgn"), "the name that was put right")
    until_line(live, "all games are over: type q to end")
    plays_on(hall, 1)
    until_line(live, f"  1  {WENT_ON}1-0. Look at it, and type 1 ok")
    for _ in hall.boards[2].homecoming():
        rest(0.05)
    until(lambda: not has_open(live.process.pid, hall.boards[2].device), "that the device of board 3 is free")
    same(stop(live), 0)
    hall.boards[3].pull()
    other = Live(hall.boards[4].device, folder / "other")
    until_line(other, words.SETTING_UP)

    again = hall.record(typed=True)
    until_line(again, "all games are over: type q to end")
    says(again, 1, "LOOK after 1... e5; over 1-0; ")
    plays_on(hall, 2)
    until_line(again, f"  2  {WENT_ON}1/2-1/2. Look at it, and type 2 ok")
    again.type("2 *")
    hall.until_text(2, PLAYED)
    until(lambda: not has_open(again.process.pid, hall.boards[2].device), "that the device of board 3 is free")
    for number in (3, 4, 5):
        says(again, number, "over 1/2-1/2; ")
        again.type(f"{number} 0-1")
        hall.until_text(number, "1. e4 e5 0-1")
    hall.until_round()
    same(stop(again), 0)
    same([again.says(part) for part in ("UNPLUGGED", "isn't there", "isn't recorded")], [False] * 3)
    same(stop(other), 0)


def end_is_not_kept(folder: pathlib.Path) -> None:
    """A game that ended by its result, of which no file says so, as where none could be written: ten seconds after its round is opened
    again it is over, with its board there or not, and that is kept."""
    hall = Hall(folder, 2)
    live = begun(hall)
    for board in hall.boards:
        kings_in_the_centre(board)
    for number in (1, 2):
        hall.until_over(live, number, "1/2-1/2")
    same(stop(live), 0)
    for number in (1, 2):
        for ending in ("end", "times"):
            pathlib.Path(f"{hall.name(number)}.{ending}").unlink()
    hall.boards[1].pull()
    again = hall.record(typed=True)
    until_line(again, "all games are over: type q to end")
    assert all(bytes_of(hall.name(number) + ".end") for number in (1, 2)), "no mark of an end"
    same(stop(again), 0)
    once_more = hall.record(typed=True)
    until_line(once_more, "all games are over: type q to end")
    same((stop(once_more), once_more.says("UNPLUGGED"), hall.text(1), hall.text(2)), (0, False, DRAWN, DRAWN))


def other_boards_afterwards(folder: pathlib.Path) -> None:
    """A round is over, and its boards have changed cables since, as at the next round: when it is opened again, that is no alarm. The game
    on another board, which goes on, gets its moves from the cable of one whose game is over, and that is said."""
    hall = Hall(folder, 3)
    for number, board in enumerate(hall.boards, 1):
        board.serial_number = b"%05d" % number
    live = begun(hall)
    for number in (1, 2):
        live.type(f"{number} 1-0")
    for number in (1, 2):
        hall.until_over(live, number, "1-0")
    same(stop(live), 0)
    first, second, third = hall.boards
    first.serial_number, second.serial_number, third.serial_number = b"00002", b"00003", b"00077"
    second.codes = third.codes[:]
    again = hall.record(typed=True)
    until_line(again, "  2  LOOK at the cable: it has the board of board 3, serial number 00003, and not 00002")
    second.play("g1f3")
    hall.until_text(3, "1. e4 e5 2. Nf3 *")
    until(lambda: first.asked.count(b"E") > 1, "that board 1 is asked for its number")
    rest(1.5)
    same([again.says(f"  {number}  LOOK") for number in (1, 2, 3)], [False, True, True])
    same(stop(again), 0)


def looked_at_after_the_end(folder: pathlib.Path) -> None:
    """A move is corrected late, and then the kings end the game by mistake. Somebody looks only then, while the board is listened to; at
    another board by a command, when nobody records it. The games go on with what was played, and nobody has to look again."""
    hall = Hall(folder, 2)
    live = begun(hall)
    rest(10.5)
    for number, board in enumerate(hall.boards, 1):
        board.play("e5e6")
        until_line(live, f"  {number}  LOOK at 1... e6")
    for number, board in enumerate(hall.boards, 1):
        kings_in_the_centre(board)
        hall.until_text(number, "1. e4 e6 1/2-1/2")
    for number, board in enumerate(hall.boards, 1):
        hall.until_over(live, number, "1/2-1/2")
        board.play("d4e1", "d5e8")
        until_dumped(board, hall.name(number))
        board.play("g1f3")
        until_dumped(board, hall.name(number))
    live.type("1 ok")
    until_line(live, "1: acknowledged: LOOK at 1... e6")
    same(stop(live), 0)
    same(subprocess.run([LIVE, "--add", "ok", hall.name(2)], stdout=subprocess.PIPE).returncode, 0)
    again = hall.record(typed=True)
    until_line(again, "all games are over: type q to end")
    for number in (1, 2):
        again.type(f"{number} *")
        until_line(again, f"{number}: {hall.name(number)} goes on, without the result; played since: 2. Nf3")
        says(again, number, "agrees; ")
    same(again.says("LOOK"), False)
    same([bytes_of(hall.name(number) + ".look") for number in (1, 2)], [b""] * 2)
    same(stop(again), 0)


CASES = [killed_after_the_sign, listened_to_again, end_is_not_kept, other_boards_afterwards, looked_at_after_the_end]
