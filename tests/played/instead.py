"""A wrong record is put right while the board stands as it stands: other moves come in place of the last ones."""

import pathlib

from live.child.program import Program
from live.game.changing import add_by_name
from live.game.files import Paths
from live.run.refused import DONE
from played import words
from played.back import answered, is_whole, ruy, sans
from played.stage import begin_game, bytes_of, ended, go_on, movetext, program, rest, same, stop, until, until_dumped, until_game, until_line


def put_in_place(folder: pathlib.Path) -> None:
    """The last two plies of the record are wrong, and the board shows two others: one line puts them right, and nobody touches a piece. The
    plies before keep their clocks. The program refuses what the board would bring back, and what it shows no trace of."""
    board, live = ruy(folder)
    before, capture = movetext(live.name), bytes_of(live.name + ".dgt")
    answered(live, "instead Nf6", "the number of the first move says from where on: type it as instead 14. O-O Qd7")
    answered(live, "instead 7. Nc3", "the game has no move 7. to replace: 3... is next")
    answered(live, "instead 3. Bd6", "Bd6 is no legal move: White is to move, after 2... Nc6. Nothing was added")
    answered(live, "instead 3. Bc4", "what the board shows would change these moves. Wait for the next move, and type it again with that move")
    answered(live, "instead 2... Nf6 3. Bb5 a6", "the board shows 3. Bb5, as the record has it")
    answered(live, "a6 Ba4", "added by hand: a6 Ba4")
    board.play("g8f6")
    until_line(live, words.WRONG)
    answered(live, "instead 3... Nf6", "now 3... Nf6; taken off: 3... a6 4. Ba4. What the board had sent is kept in")
    until_game(live.name, before[:-1] + "3... Nf6 *")
    assert bytes_of(live.name + ".before-1.dgt").startswith(capture), "the old capture isn't kept whole"
    until_line(live, words.AGREES)
    board.play("e1g1")
    until(lambda: sans(live)[-1] == "O-O", "the next move")
    same(stop(live), 0)
    is_whole(live)


def one_move_on(folder: pathlib.Path) -> None:
    """The players play on while the line is typed: their next move is the game's too."""
    board, live = ruy(folder)
    answered(live, "d6 d4", "added by hand: d6 d4")
    board.play("g8f6")
    board.play("e1g1")
    until_dumped(board, live.name)
    answered(live, "instead 3... g8f6", "now 3... g8f6; taken off: 3... d6 4. d4")
    until(lambda: sans(live)[-2:] == ["Nf6", "O-O"], "the move behind it")
    answered(live, "instead 3... Nf6 4. 0-0", "now 3... Nf6 4. 0-0; taken off: 3... Nf6 4. O-O")
    same(sans(live)[-2:], ["Nf6", "O-O"])
    same(stop(live), 0)
    is_whole(live)


def of_a_closed_game(folder: pathlib.Path) -> None:
    """A game that nobody records is put right by a command; many plies go only if it is typed twice."""
    _, live = ruy(folder)
    answered(live, "a6 Ba4 Nf6 O-O Be7", "added by hand: a6 Ba4 Nf6 O-O Be7")
    rest(1)
    same(stop(live), 0)
    calls, paths = Program(program()), Paths(live.name)
    status, said = add_by_name(calls, paths, "instead 3... Nf6 4. O-O", 0)
    same((status == DONE, said), (False, "takes off 3 plies, from 4... Nf6: type it again"))
    status, said = add_by_name(calls, paths, "instead 3... Nf6 4. O-O", 0)
    assert status == DONE and "now 3... Nf6 4. O-O; taken off: 3... a6 4. Ba4 Nf6 5. O-O Be7" in said, said
    same(sans(live)[-3:], ["Bb5", "Nf6", "O-O"])
    is_whole(live)


def mate_put_in(folder: pathlib.Path) -> None:
    """The moves that come end with mate: that ends the game after ten seconds, and it is over when it is started again."""
    board, live = begin_game(folder, typed=True)
    answered(live, "Bc4 Nc6 Qh5 a6 h3", "added by hand: Bc4 Nc6 Qh5 a6 h3")
    answered(live, "instead 4. Qxf7#", "now 4. Qxf7#; taken off: 4. h3. What the board had sent is kept in")
    until_line(live, "ends in 10 seconds")
    same(ended(live), 0)
    same(movetext(live.name), "1. e4 e5 2. Bc4 Nc6 3. Qh5 a6 4. Qxf7# 1-0")
    again = go_on(board, live)
    same(ended(again), 0)
    same(movetext(live.name), "1. e4 e5 2. Bc4 Nc6 3. Qh5 a6 4. Qxf7# 1-0")


CASES = [put_in_place, one_move_on, of_a_closed_game, mate_put_in]
