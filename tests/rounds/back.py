"""Games of a round that the start has ended go on; a round is killed on the way back of one of its boards."""

import pathlib

from played import words
from played.back_killed import OnTheWay
from played.failing import ENDED, failing
from played.recorder import Live, has_open
from played.stage import bytes_of, movetext, rest, same, stop, until, until_dumped, until_line
from rounds.alarms import says
from rounds.hall import Hall, quits


def killed_going_back(folder: pathlib.Path) -> None:
    """The round is killed before each third call that changes a file, after `1 back` was typed, from the second one on: started
    again the game of the board is the old one or the new one, and that of the other board is as it was."""
    hall = Hall(folder, 2, clocks=(0,))
    live = hall.record(typed=True)
    hall.begun(live)
    hall.play(0, 5)
    hall.boards[0].play("b5f1")
    until_dumped(hall.boards[0], hall.name(1))
    same(stop(live), 0)
    other = movetext(hall.name(2))
    way = OnTheWay(hall.name(1), "1 ", "3. Bb5")
    way.kill("dgt_round", 2, lambda start: hall.record(start=start, typed=True))
    same(movetext(hall.name(2)), other)


def set_up_and_back(folder: pathlib.Path) -> None:
    """The pieces of three boards were set up at the start, and that has ended their games. One game begins anew, as if it were the
    first; one goes on with all its plies, and one without the last, once their pieces stand so. It is so when it is started again."""
    hall = Hall(folder, 3)
    live = hall.record(typed=True)
    hall.begun(live)
    for board in hall.boards:
        for move in ("e2e4", "e7e5", "g1f3"):
            board.play(move)
    for number in (1, 2, 3):
        hall.until_text(number, "1. e4 e5 2. Nf3 *")
    for number, board in enumerate(hall.boards, 1):
        until_dumped(board, hall.name(number))
    for board in hall.boards:
        board.set_up([])
    for number in (1, 2, 3):
        until_line(live, f"{number:>3}  {hall.name(number)} is over: the pieces are at the start again. Type its result, as {number} 1-0; if the game goes on, type {number} *")
        says(live, number, "over, no result; ")
    live.type("1 back 0")
    until_line(live, "1: takes off 3 plies, from 1. e4: type it again")
    live.type("1 back 0")
    until_line(live, "back to the start; taken off: 1. e4 e5 2. Nf3. What the board had sent is kept in")
    says(live, 1, "agrees; ")
    hall.until_text(1, "*")
    live.type("2 *")
    until_line(live, f"{hall.name(2)} goes on: back to 2. Nf3; no ply is taken off")
    live.type("3 back")
    until_line(live, "back to 1... e5; taken off: 2. Nf3. What the board had sent is kept in")
    for number, board in enumerate(hall.boards, 1):
        until_dumped(board, hall.name(number))
    same([bytes_of(hall.name(number) + ".end") for number in (1, 2, 3)], [b"", b"", b""])
    hall.boards[0].play("d2d4")
    hall.until_text(1, "1. d4 *")
    hall.boards[2].play("e2e4", "e7e5")
    for move in ("e2e4", "e7e5", "g1f3"):  # by a slow hand, as each piece stands for a while
        hall.boards[1].play(move)
        rest(0.3)
    for number in (2, 3):
        says(live, number, "agrees; ")
    same(stop(live), 0)
    again = hall.record(typed=True)
    hall.begun(again)
    hall.boards[1].play("b8c6")
    hall.until_text(2, "1. e4 e5 2. Nf3 Nc6 *")
    hall.boards[2].play("f1c4")
    hall.until_text(3, "1. e4 e5 2. Bc4 *")
    hall.boards[0].play("d7d5")
    hall.until_text(1, "1. d4 d5 *")
    hall.until_round()
    same(stop(again), 0)
    assert words.WRONG not in again.lines(), again.lines()


def played_after_a_set_up(folder: pathlib.Path) -> None:
    """Somebody tries some moves before the game, and sets the pieces up: the board is over, and heard all the same. The real game
    begins there: after two moves somebody must look, and the game gets them. On another board nothing more is played: no alarm; but
    it is heard too when the round is started again, and its game begins then."""
    hall = Hall(folder, 2)
    live = hall.record(typed=True)
    hall.begun(live)
    for board in hall.boards:
        for move in ("e2e4", "e7e5", "g1f3"):
            board.play(move)
    for number, board in enumerate(hall.boards, 1):
        hall.until_text(number, "1. e4 e5 2. Nf3 *")
        until_dumped(board, hall.name(number))
        board.set_up([])
    for number in (1, 2):
        until_line(live, f"{number:>3}  {hall.name(number)} is over: the pieces are at the start again. Type its result, as {number} 1-0")
    for move in ("d2d4", "d7d5"):
        hall.boards[0].play(move)
        rest(0.3)
    until_line(live, "  1  LOOK after 2. Nf3: 2 moves were made from the start, and the game is over without a result. Look at it, and type 1 ok;")
    until_line(live, "if the game begins only now, type 1 back 0: it has these moves then")
    hall.boards[0].play("c2c4")
    rest(0.3)
    live.type("1 back 0")
    until_line(live, "1: takes off 3 plies, from 1. e4: type it again")
    live.type("1 back 0")
    until_line(live, "back to the start; taken off: 1. e4 e5 2. Nf3. Settled: LOOK after 2. Nf3. What the board had sent is kept in")
    until_line(live, "The game begins with the moves made since the start")
    hall.until_text(1, "1. d4 d5 2. c4 *")
    hall.boards[0].play("e7e6")
    hall.until_text(1, "1. d4 d5 2. c4 e6 *")
    says(live, 2, "over, no result; ")
    same(hall.text(2), "1. e4 e5 2. Nf3 *")
    same(stop(live), 0)
    again = hall.record(typed=True)
    until_line(again, f"records {hall.boards[0].device}")
    hall.boards[0].play("b1c3")
    hall.until_text(1, "1. d4 d5 2. c4 e6 3. Nc3 *")
    says(again, 2, "over, no result; ")
    until_dumped(hall.boards[1], hall.name(2))
    for move in ("d2d4", "d7d5"):
        hall.boards[1].play(move)
        rest(0.3)
    until_line(again, "  2  LOOK after 2. Nf3: 2 moves were made from the start, and the game is over without a result. Look at it, and type 2 ok;")
    for _ in range(2):
        again.type("2 back 0")
    hall.until_text(2, "1. d4 d5 *")
    hall.boards[1].play("c2c4")
    hall.until_text(2, "1. d4 d5 2. c4 *")
    same(stop(again), 0)


def back_after_set_up(folder: pathlib.Path) -> None:
    """A result was typed, the pieces have been set up, and only then a ply too many is found: exactly that one goes, whatever the
    board shows, though all plies were made in a moment. The result is typed again; it is all there after a restart."""
    hall = Hall(folder, 2)
    live = hall.record(typed=True)
    hall.begun(live)
    hall.play(0, 6)
    front = hall.text(1).rpartition(" ")[0].rpartition(" ")[0]
    live.type("1 1-0")
    until_line(live, "1: added to")
    hall.boards[0].set_up([])
    hall.until_over(live, 1, "1-0")
    until(lambda: not has_open(live.process.pid, hall.boards[0].device), "that the board isn't heard any more")
    live.type("1 back 3. Bb5")
    until_line(live, "back to 3. Bb5; taken off: 3... a6; the result 1-0 is gone. What the board had sent is kept in")
    until_line(live, f"{hall.name(1)} is over: the pieces are at the start again. Type its result, as 1 1-0")
    same(hall.text(1), f"{front} *")
    live.type("1 0-1")
    hall.until_text(1, f"{front} 0-1")
    same(stop(live), 0)
    again = hall.record(typed=True)
    hall.until_over(again, 1, "0-1")
    same(hall.text(1), f"{front} 0-1")
    same(stop(again), 0)


def text_not_made(folder: pathlib.Path) -> None:
    """One game that is over goes on, and a ply of another one is taken off, while their texts can't be made: both go on all the same, and
    it is said what can't be written."""
    hall = Hall(folder, 2)
    door, stuck = failing(folder, "record", "dgt_round")
    live = hall.record(typed=True, program=door)
    hall.begun(live)
    hall.play(0, 3)
    for number in (1, 2):
        live.type(f"{number} 1-0")
    for number in (1, 2):
        hall.until_over(live, number, "1-0")
    hall.boards[1].play("c4c2")
    until_dumped(hall.boards[1], hall.name(2))
    stuck.touch()
    for number, typed in ((1, "*"), (2, "back")):
        live.type(f"{number} {typed}")
        until_line(live, f"the game goes on. {hall.name(number)}.pgn can't be written (record {ENDED}): put that right")
        says(live, number, "agrees; ")
    live.type("1 *")
    until_line(live, "1 refused: *: the game has no result")
    hall.boards[0].play("b8c6")
    hall.until_text(1, "1. e4 e5 2. Nf3 Nc6 *")
    hall.boards[1].play("g1f3")
    hall.until_text(2, "1. d4 d5 2. Nf3 *")
    stuck.unlink()
    same(stop(live), 0)


def line_undone(folder: pathlib.Path) -> None:
    """Moves were typed for the wrong board, and a result ended the wrong game, in which two more moves were made: `undo` with the board's number
    takes each back, and only there. A game that was over, and goes on without its last plies, is over again. Once its board isn't heard any
    more, nothing is undone."""
    hall = Hall(folder, 2)
    live = hall.record(typed=True)
    hall.begun(live)
    hall.play(0, 2)
    live.type("1 Nf3 Nc6")
    until_line(live, f"1: added to {hall.name(1)}: Nf3 Nc6")
    hall.until_text(1, "1. e4 e5 2. Nf3 Nc6 *")
    live.type("undo")
    until_line(live, "of which board? Type its number first, as 2 undo")
    live.type("2 undo")
    until_line(live, "2 refused: nothing was typed since this recording began")
    live.type("1 undo")
    done = 'undone: "Nf3 Nc6"; taken off: 2. Nf3 Nc6; 2 plies again, the last one 1... e5. What the board had sent is kept in'
    until_line(live, f"1: {hall.name(1)}: {done} {hall.name(1)}.before-1.dgt")
    hall.until_text(1, "1. e4 e5 *")
    says(live, 1, "agrees; ")
    live.type("2 1-0")
    hall.until_over(live, 2, "1-0")
    for move in ("c2c4", "e7e6"):
        hall.boards[1].play(move)
        until_dumped(hall.boards[1], hall.name(2))
    until_line(live, "LOOK after 1... d5: 2 moves were made")
    live.type("2 undo")
    done = 'undone: "1-0"; 4 plies again, the last one 2... e6; the result 1-0 is gone. What the board had sent is kept in'
    until_line(live, f"2: {hall.name(2)}: {done} {hall.name(2)}.before-1.dgt")
    hall.until_text(2, "1. d4 d5 2. c4 e6 *")
    live.type("2 ok")
    says(live, 2, "agrees; ")
    live.type("1 0-1")
    hall.until_over(live, 1, "0-1")
    hall.boards[0].lift("e1")
    until_dumped(hall.boards[0], hall.name(1))
    live.type("1 back")
    until_line(live, "back to 1. e4; taken off: 1... e5; the result 0-1 is gone. What the board had sent is kept in")
    hall.until_text(1, "1. e4 *")
    live.type("1 undo")
    until_line(live, 'undone: "back"; 2 plies again, the last one 1... e5; the result 0-1 again. What the board had sent is kept in')
    says(live, 1, "over 0-1")
    hall.until_text(1, "1. e4 e5 0-1")
    hall.until_round()
    hall.boards[0].set_up([])
    until(lambda: not has_open(live.process.pid, hall.boards[0].device), "that the board isn't heard any more")
    live.type("1 undo")
    until_line(live, "1 refused: undo takes back what was typed while the game is recorded")
    same(stop(live), 0)
    again = hall.record(typed=True)
    hall.until_over(again, 1, "0-1")
    hall.boards[1].play("b1c3")
    hall.until_text(2, "1. d4 d5 2. c4 e6 3. Nc3 *")
    same(stop(again), 0)
    same((hall.text(1), bytes_of(hall.name(1) + ".end") != b""), ("1. e4 e5 0-1", True))


def last_screen(live: Live) -> str:
    """The table with the messages below it, as it was drawn whole last."""
    return " ".join(words.plain(live.told.read().rpartition("\x1b[H\x1b[2J")[2]).split())


def answered_once(folder: pathlib.Path) -> None:
    """What is typed for a board is answered once below the table, also if its cable is out."""
    hall = Hall(folder, 2)
    live = hall.record(terminal=True, environment={"TERM": "xterm"})
    until_line(live, "2 boards, no alarm")
    until(lambda: all(board.asked_for_updates for board in hall.boards), "a request for updates")
    hall.play(0, 3)
    hall.boards[1].pull()
    until_line(live, words.UNPLUGGED)
    for typed, answer in (("1-0", "is over: its result was given"), ("*", "goes on, without the result"), ("ok", "there is no LOOK here")):
        live.type(f"2 {typed}")
        until(lambda: answer in last_screen(live), f"{answer}, after 2 {typed}")
        live.type("help")
        until(lambda: "(the state of board" in last_screen(live), "the answer to help")
        same(last_screen(live).count(answer), 1)
    quits(live)
