"""A result that the kings gave is replaced by a typed one, at whatever moment."""

import pathlib
import subprocess

from played.boards import Board
from played.recorder import LIVE, has_open
from played.stage import rest, same, stop, until, until_dumped, until_line
from rounds.alarms import says
from rounds.hall import Hall, quits

STANDS = "the board still shows the result 1/2-1/2. Put the kings where they belong, and type it again"
DRAWN, WON = "1. e4 e5 1/2-1/2", "1. e4 e5 1-0"


def kings_back(board: Board) -> None:
    board.play("d4e1", "d5e8")


def result_of_the_kings_replaced(folder: pathlib.Path) -> None:
    """The kings gave a draw, and White has won. The result is typed while the kings stand there: it is refused. Then it is taken: in
    the ten seconds, once the game is over, with the pieces at the start, by a command after the end, and after a restart. What was
    played after the result is still there if the game goes on."""
    hall = Hall(folder, 5)
    live = hall.record(typed=True)
    hall.begun(live)
    for number, board in enumerate(hall.boards, 1):
        board.play("e2e4")
        board.play("e7e5")
        hall.until_text(number, "1. e4 e5 *")
        until_dumped(board, hall.name(number))
    first, second, third = hall.boards[:3]
    for board in hall.boards[1:]:
        board.kings_in_centre("d4", "d5")
    for number in (2, 3, 4, 5):
        hall.until_over(live, number, "1/2-1/2")
    first.kings_in_centre("d4", "d5")
    hall.until_text(1, DRAWN)
    live.type("1 1-0")
    until_line(live, f"1 refused: 1-0: {STANDS}")
    kings_back(first)
    until_dumped(first, hall.name(1))
    live.type("1 1-0")
    until_line(live, "the result 1-0 after 1... e5, 2 plies")
    hall.until_text(1, WON)
    live.type("2 1-0")
    until_line(live, f"2 refused: 1-0: {STANDS}")
    kings_back(second)
    for move in ("g1f3", "b8c6"):
        second.play(move)
        until_dumped(second, hall.name(2))
    says(live, 2, "LOOK after 1... e5; over 1/2-1/2; ")
    live.type("2 1-0")
    until_line(live, "2: added to")
    hall.until_text(2, WON)
    says(live, 2, "LOOK after 1... e5; over 1-0; ")
    for _ in third.homecoming():
        rest(0.05)
    until(lambda: not has_open(live.process.pid, third.device), "that the device is free")
    live.type("3 1-0")
    hall.until_text(3, WON)
    hall.until_over(live, 1, "1-0")
    live.type("2 *")
    hall.until_text(2, "1. e4 e5 2. Nf3 Nc6 *")
    live.type("2 ok")
    second.play("f1b5")
    hall.until_text(2, "1. e4 e5 2. Nf3 Nc6 3. Bb5 *")
    live.type("2 1-0")
    hall.until_over(live, 2, "1-0")
    quits(live)
    added = subprocess.run([LIVE, "--add", "1-0", hall.name(4)], stdout=subprocess.PIPE, stderr=subprocess.PIPE, text=True)
    same((added.returncode, added.stderr, hall.text(4)), (0, "", WON))
    assert "What the board had sent is kept in" in added.stdout, added.stdout
    assert added.stdout.endswith(f"dgt_live: {hall.games}/round.pgn has it once the round is started again\n"), added.stdout
    again = hall.record(typed=True)
    for number in (1, 2, 3, 4):
        hall.until_over(again, number, "1-0")
    hall.until_over(again, 5, "1/2-1/2")
    until_dumped(hall.boards[4], hall.name(5))
    again.type("5 1-0")
    until_line(again, f"5 refused: 1-0: {STANDS}")
    kings_back(hall.boards[4])
    until_dumped(hall.boards[4], hall.name(5))
    again.type("5 1-0")
    hall.until_text(5, WON)
    hall.until_round()
    same(([hall.text(number) for number in range(1, 6)], stop(again)), ([WON, "1. e4 e5 2. Nf3 Nc6 3. Bb5 1-0", *[WON] * 3], 0))


CASES = [result_of_the_kings_replaced]
