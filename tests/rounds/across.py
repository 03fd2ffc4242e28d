"""A round whose boards are partly behind serial servers."""

import pathlib
from typing import List

from played import words
from played.across import Served
from played.boards import Board
from played.recorder import Live
from played.stage import a_board, movetext, same, stop, until, until_game, until_line
from rounds.hall import ROUND, agrees


def across_the_hall(folder: pathlib.Path) -> None:
    """Two boards behind servers, and one that is plugged in here. A wrong address and one that is there twice are wrong lines. A
    server that goes away is one row's alarm, and the others play on. Lines that are exchanged at the servers are known by the
    boards' serial numbers: each move is in its own board's game."""
    table, games = folder / "round.csv", folder / "games"
    served = [Served(folder), Served(folder)]
    here = a_board(folder, device=folder / "board3")
    boards: List[Board] = [*served, here]
    for number, one in enumerate(served, 1):
        one.serial_number = f"{number:05}".encode()
    lines = [f"{number},{board.device},White {number},Black {number}" for number, board in enumerate(boards, 1)]
    lines += ["4,tcp://pi,A,B", f"5,{served[0].device.upper().replace('TCP', 'tcp')}/,C,D"]
    table.write_text("\n".join(["board,device,white,black", *lines, ""]))
    live = Live(table, games, program=ROUND, typed=True)
    until_line(live, "line 5 of round.csv is wrong: device is 'tcp://pi': type tcp://HOST:PORT, as tcp://192.168.1.20:2001")
    until_line(live, f"line 6 of round.csv is wrong: {served[0].device}/ is the device of board 1, line 2: each has its own")
    for number in (1, 2, 3):
        until(lambda: agrees(live, number), f"that board {number} agrees")
    for board in boards:
        board.play("e2e4")
    for number in (1, 2, 3):
        until_game(games / f"0{number}", "1. e4 *")
    served[0].pull()
    until_line(live, f"  1  {served[0].device} isn't there (it has hung up): look at the serial server, its power and its network")
    until_line(live, f"  1  {words.UNPLUGGED}")
    for number in (2, 3):
        boards[number - 1].play("e7e5")
        until_game(games / f"0{number}", "1. e4 e5 *")
    same(movetext(games / "01"), "1. e4 *")
    served[1].pull()
    until_line(live, f"  2  {words.UNPLUGGED}")
    served[0].port, served[1].port = served[1].port, served[0].port
    for one in served:
        one.plug()
    for number in (1, 2):
        until_line(live, f"  {number}  LOOK at the cable")
    served[0].play("c7c5")
    served[1].play("g1f3")
    until_game(games / "01", "1. e4 c5 *")
    until_game(games / "02", "1. e4 e5 2. Nf3 *")
    same(stop(live), 0)
