"""One change of the game alone explains what the board shows: the recorder asks whether it was played so, and `y` puts it in."""

import pathlib

from played import words
from played.alarms import hide_two
from played.back import answered, is_whole, ruy, sans
from played.recorder import Live
from played.stage import a_board, begun, movetext, rest, same, stop, until, until_game, until_line

NOTHING_ASKED = "nothing is asked at this board"


def others_instead(folder: pathlib.Path) -> None:
    """Two plies were typed for another board, and one other was played: it comes in their place. Nothing is asked before, nor after."""
    board, live = ruy(folder)
    before = movetext(live.name)
    answered(live, "y", NOTHING_ASKED)
    answered(live, "a6 Ba4", "added by hand: a6 Ba4")
    board.play("g8f6")
    until_line(live, "was 3... Nf6 played instead? If so, type y")
    rest(1.5)
    answered(live, "y", "now 3... Nf6; taken off: 3... a6 4. Ba4. What the board had sent is kept in")
    until_game(live.name, before[:-1] + "3... Nf6 *")
    until_line(live, words.AGREES)
    answered(live, "Y", NOTHING_ASKED)
    board.play("e1g1")
    until(lambda: sans(live)[-1] == "O-O", "the next move")
    same(stop(live), 0)
    is_whole(live)


def moves_unseen(folder: pathlib.Path) -> None:
    """No picture showed a move whole before its reply: both are asked about, and put in."""
    board = a_board(folder)
    live = Live(board.device, folder / "game", typed=True)
    begun(live)
    board.play("e2e4")
    until_game(live.name, "1. e4 *")
    hide_two(board)
    until_line(live, "was 1... e5 2. Nf3 played? If so, type y")
    rest(1.5)
    answered(live, "y", "added by hand: 1... e5 2. Nf3")
    until_game(live.name, "1. e4 e5 2. Nf3 *")
    until_line(live, words.AGREES)
    board.play("b8c6")
    until_game(live.name, "1. e4 e5 2. Nf3 Nc6 *")
    same(stop(live), 0)
    is_whole(live)


def only_taken_back(folder: pathlib.Path) -> None:
    """Black's pawn went back: it can't have moved there, so it was taken back. Knights that stand as before two plies may have gone back
    or not: nothing is asked."""
    board = a_board(folder)
    live = Live(board.device, folder / "game", typed=True)
    begun(live)
    for move, text in (("e2e4", "1. e4 *"), ("e7e5", "1. e4 e5 *")):
        board.play(move)
        until_game(live.name, text)
    with board.at_once():
        board.lift("e5")
        board.put("e7", 7)
    until_line(live, "was all after 1. e4 taken back? If so, type y")
    rest(1.5)
    answered(live, "y", "back to 1. e4")
    until_game(live.name, "1. e4 *")
    until_line(live, words.AGREES)
    for move in ("e7e5", "g1f3", "b8c6"):
        board.play(move)
    until_game(live.name, "1. e4 e5 2. Nf3 Nc6 *")
    with board.at_once():
        for square in ("f3", "c6"):
            board.lift(square)
        board.put("g1", 3)
        board.put("b8", 9)
    until_line(live, words.WRONG, 2)
    answered(live, "y", NOTHING_ASKED)
    same(stop(live), 0)
    is_whole(live)


def gone_back_further(folder: pathlib.Path) -> None:
    """The players go back four plies: the board stands as after two knights that go home, which nobody has played. Nothing is asked."""
    board, live = ruy(folder)
    board.play("a7a6")
    until(lambda: sans(live)[-1] == "a6", "the last ply")
    text = movetext(live.name)
    for square in ("a6", "b5", "c6", "f3"):
        board.lift(square)
    for square, code in (("a7", 7), ("f1", 4), ("b8", 9), ("g1", 3)):
        board.put(square, code)
    until_line(live, words.WRONG)
    rest(3)
    assert "type y" not in live.lines(), live.lines()
    answered(live, "y", NOTHING_ASKED)
    same(movetext(live.name), text)
    same(stop(live), 0)
    is_whole(live)


def gone_by_then(folder: pathlib.Path) -> None:
    """The board shows something else by the time of the answer: nothing is put in."""
    board = a_board(folder)
    live = Live(board.device, folder / "game", typed=True)
    begun(live)
    board.play("e2e4")
    until_game(live.name, "1. e4 *")
    hide_two(board)
    until_line(live, "was 1... e5 2. Nf3 played? If so, type y")
    board.lift("e4")
    board.lift("b1")
    rest(1.5)
    answered(live, "y", "the board shows something else than when it was asked")
    same(movetext(live.name), "1. e4 *")
    same(stop(live), 0)
    is_whole(live)


def missed_pair(folder: pathlib.Path) -> None:
    """The reply began before the move stood, and the game went on: the pair is asked about once the next move has confirmed it. It comes before
    that, with nothing lost. So does the next such pair; `undo` takes that out again."""
    board = a_board(folder)
    live = Live(board.device, folder / "game", typed=True)
    begun(live)
    board.play("e2e4")
    until_game(live.name, "1. e4 *")
    answered(live, "recover 1... e5 2. Nf3", "the board has shown no moves that the record lacks")
    hide_two(board)
    board.play("b8c6")
    board.play("f1b5")
    until_line(live, "did the board miss 1... e5 2. Nf3? If so, type y")
    board.play("a7a6")
    rest(1.5)
    answered(live, "recover 1... e5 2. Nc3", "what the board has shown is 1... e5 2. Nf3: type recover 1... e5 2. Nf3")
    answered(live, "y", "put in, as the board has shown since: 1... e5 2. Nf3; 6 plies, the last one 3... a6. With --recover such moves are put in")
    until_game(live.name, "1. e4 e5 2. Nf3 Nc6 3. Bb5 a6 *")
    until_line(live, words.AGREES)
    for square in ("b5", "g8"):
        board.lift(square)
    board.put("a4", 4)
    board.put("f6", 9)
    board.play("e1g1")
    until_line(live, "did the board miss 4. Ba4 Nf6? If so, type y")
    rest(1.5)
    answered(live, "y", "put in, as the board has shown since: 4. Ba4 Nf6; 9 plies, the last one 5. O-O")
    until_game(live.name, "1. e4 e5 2. Nf3 Nc6 3. Bb5 a6 4. Ba4 Nf6 5. O-O *")
    is_whole(live)
    answered(live, "undo", 'undone: "recover 4. Ba4 Nf6"')
    until_game(live.name, "1. e4 e5 2. Nf3 Nc6 3. Bb5 a6 *")
    same(stop(live), 0)
    is_whole(live)


CASES = [missed_pair, others_instead, moves_unseen, only_taken_back, gone_back_further, gone_by_then]
