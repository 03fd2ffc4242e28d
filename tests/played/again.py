"""The same command on a game that was over before: it says so at once, and what can be done."""

import pathlib

from played import words
from played.boards import Board
from played.recorder import Live
from played.stage import a_board, begun, ended, movetext, same, until_game, until_line

CHOOSE = "for another game choose another name. "
ENDS = "ends in 10 seconds"


def played(folder: pathlib.Path, *moves: str) -> "tuple[Board, Live]":
    folder.mkdir()
    board = a_board(folder)
    live = Live(board.device, folder / "game", typed=True)
    begun(live)
    for number, move in enumerate(moves):
        board.play(move)
        until_line(live, f"{number // 2 + 1}{'...' if number % 2 else '.'} ")
    return board, live


def over_before(folder: pathlib.Path) -> None:
    """Kings in the centre ended one game, and mate another. Started again, neither is said to end in ten seconds: each is over, with
    what to type."""
    board, live = played(folder / "kings", "e2e4", "e7e5")
    board.kings_in_centre("e4", "d4")
    until_line(live, f"{ENDS}; if the game goes on, put the kings where they belong, and type *")
    until_line(live, f"{live.name} is over: it has a result")
    same(ended(live), 0)
    given = movetext(live.name)
    again = Live(board.device, live.name, typed=True)
    until_line(again, f'{CHOOSE}To go on with it all the same: dgt_live --add "*" {live.name}')
    same((ended(again), ENDS in again.lines(), movetext(live.name)), (0, False, given))
    board, live = played(folder / "mate", "f2f3", "e7e5", "g2g4", "d8h4")
    until_game(live.name, "1. f3 e5 2. g4 Qh4# 0-1")
    until_line(live, f"{ENDS}, unless the last move is corrected")
    same(ended(live), 0)
    again = Live(board.device, live.name, typed=True)
    until_line(again, f'{CHOOSE}If its last move was another one: dgt_live --back "2. g4" {live.name}')
    same((ended(again), ENDS in again.lines(), words.WRONG in again.lines()), (0, False, False))


CASES = [over_before]
