"""Records of a round that somebody is to look at: in the row, on the page and in the files, until he has."""

import pathlib
import re
from typing import Sequence

from played import words
from played.ports import free_port
from played.recorder import Live, has_open
from played.stage import Stage, bytes_of, rest, same, stop, until, until_dumped, until_line
from rounds.hall import Hall
from rounds.rounds import boards_of

LOOK = "LOOK at 1... e6"
AWAY = "LOOK at the cable: it was away together with"


def says(live: Live, number: int, answer: str) -> None:
    """What is answered to a board's number comes to begin so."""
    seen = len(live.lines())

    def asked() -> bool:
        live.type(str(number))
        return f"{number}: {answer}" in live.lines()[seen:]

    until(asked, f"{number}: {answer}", 0.3)


def looked_at(folder: pathlib.Path) -> None:
    """The cable of a board is out while its last move is corrected. The board's row and the page say LOOK while the game goes
    on, after a restart and when the game is over, until somebody types ok; the other board has none."""
    hall = Hall(folder, 2)
    port = free_port()
    live = hall.record("--arbiter-page", str(port), typed=True)
    hall.begun(live)
    for board in hall.boards:
        board.play("e2e4")
        board.play("e7e5")
    for number in (1, 2):
        hall.until_text(number, "1. e4 e5 *")
    hall.boards[0].pull()
    until_line(live, f"  1  {words.UNPLUGGED}")
    hall.boards[0].play("e5e6")
    hall.boards[0].plug()
    until_line(live, f"  1  {LOOK}; agrees")
    until_line(live, "Look at it, and type 1 ok")
    says(live, 1, f"{LOOK}; agrees; ")
    says(live, 1, f"{LOOK}: the board wasn't heard")
    until(lambda: LOOK in str(boards_of(port)[0]), f"{LOOK} on the page", 0.05)
    same([board["alarm"] for board in boards_of(port)], [True, False])
    assert f"{LOOK}: " in bytes_of(hall.name(1) + ".log").decode()
    same(stop(live), 0)
    again = hall.record("--arbiter-page", str(port), typed=True)
    until_line(again, f"  1  {LOOK}; agrees")
    again.type("1 1-0")
    hall.until_text(1, "1. e4 e6 1-0")
    says(again, 1, f"{LOOK}; over 1-0; ")
    says(again, 1, f"{LOOK}: the board wasn't heard")
    until(lambda: [board["alarm"] for board in boards_of(port)] == [True, False], "an alarm on the page", 0.05)
    again.type("1 ok")
    until_line(again, f"1: acknowledged: {LOOK}")
    says(again, 1, "over 1-0; ")
    until(lambda: [board["alarm"] for board in boards_of(port)] == [False, False], "no alarm on the page", 0.05)
    same(bytes_of(hall.name(1) + ".look"), b"")
    same(stop(again), 0)


def clock_is_stopped(folder: pathlib.Path) -> None:
    """Both sides of a board stop its clock: its row, the answer to its number and the arbiter's page say so until it runs again. It is
    no alarm."""
    hall, port = Hall(folder, 2), free_port()
    live = hall.record("--arbiter-page", str(port), typed=True)
    hall.begun(live)
    board = hall.boards[0]

    def until_shown(state: str) -> None:
        wanted = [(state, False), ("agrees", False)]
        until(lambda: [(one["state"], one["alarm"]) for one in boards_of(port)] == wanted, f"{state} on the page", 0.05)

    board.clock(600, 600, runs=True)
    board.play("e2e4")
    hall.until_text(1, "1. e4 *")
    until_shown("agrees")
    board.clock(600, 590, runs=False)
    until_line(live, f"  1  agrees{words.CLOCK_STOPPED}")
    until_shown(f"agrees{words.CLOCK_STOPPED}")
    says(live, 1, f"agrees{words.CLOCK_STOPPED}")
    board.clock(600, 590, runs=True)
    until_shown("agrees")
    same(stop(live), 0)


def away_together(folder: pathlib.Path) -> None:
    """Two boards without a number are unplugged at the same time, and stand alike: their cables may be exchanged, and no square
    shows it. Somebody must look at both. A third one stands otherwise, a fourth is unplugged alone, before, and a fifth and a sixth have
    numbers: they have no such alarm. What is suspected is kept with the times, and is still open after a restart, until somebody has
    looked."""
    hall = Hall(folder, 6)
    for number in (5, 6):
        hall.boards[number - 1].serial_number = b"%05d" % number
    live = hall.record(typed=True)
    hall.begun(live)
    for board, reply in zip(hall.boards, ("e7e5", "e7e5", "c7c5", "e7e5", "e7e5", "e7e5")):
        board.play("e2e4")
        board.play(reply)
    for number, moves in ((1, "1. e4 e5 *"), (2, "1. e4 e5 *"), (3, "1. e4 c5 *"), (4, "1. e4 e5 *"), (5, "1. e4 e5 *"), (6, "1. e4 e5 *")):
        hall.until_text(number, moves)
    goes(hall, live, [4])
    for number in (4, 1, 2):  # so it isn't away at the same time as the others
        until_dumped(hall.boards[number - 1], hall.name(number))
    goes(hall, live, [1, 2, 3, 5, 6])
    for number, other in ((1, 2), (2, 1)):
        until_line(live, f"  {number}  {AWAY} board {other}, which stands alike, and no serial number tells them apart: see that each board")
    hall.boards[2].play("g1f3")
    hall.until_text(3, "1. e4 c5 2. Nf3 *")
    live.type("1 ok")
    until_line(live, "1: acknowledged: LOOK at the cable")
    same(stop(live), 0)
    for number in range(1, 7):
        log, times = (bytes_of(f"{hall.name(number)}.{ending}").decode() for ending in ("log", "times"))
        same((number, AWAY in log, re.findall(r" suspect (.*)", times)), (number, number < 3, {1: ["2"], 2: ["1"]}.get(number, [])))
    pathlib.Path(hall.name(2) + ".look").unlink()  # its times have it too
    again = hall.record(typed=True)
    hall.begun(again)
    until_line(again, f"  2  {AWAY} board 1, which stands alike")
    until_line(again, "  2  LOOK at the cable; agrees")
    again.type("2 ok")
    until_line(again, f"2: acknowledged: {AWAY} board 1")
    same((stop(again), again.lines().count(AWAY)), (0, 2))
    once_more = hall.record()
    hall.begun(once_more)
    same((stop(once_more), once_more.lines().count("LOOK at the cable")), (0, 0))


def exchanged_as_they_stand_alike(folder: pathlib.Path) -> None:
    """The cables of two boards without a number are exchanged, and no square shows it; a player has just made a move, or has a piece in
    his hand: they stand alike still. So they do before the first move. Without the alarm each game would get the moves of the other
    board, and nobody would know."""
    for name, first, reply in (("at_the_start", "", ""), ("alike", "e2e4", ""), ("a_move_more", "e2e4", "e7e5"), ("in_a_hand", "e2e4", "e7")):
        (folder / name).mkdir()
        hall = Hall(folder / name, 2)
        live = hall.record(typed=True)
        hall.begun(live)
        for number, board in enumerate(hall.boards, 1):
            if first:
                board.play(first)
                hall.until_text(number, "1. e4 *")
        one, other = hall.boards
        for board in hall.boards:
            board.pull()
        for number in (1, 2):
            until_line(live, f"{number:>3}  UNPLUGGED")
        if len(reply) == 4:
            one.play(reply)
        elif reply:
            one.lift(reply)
        one.codes, other.codes = other.codes, one.codes  # so each is at the other's cable
        for board in hall.boards:
            board.plug()
        for number, partner in ((1, 2), (2, 1)):
            until_line(live, f"  {number}  {AWAY} board {partner}, which stands alike")
        same(stop(live), 0)
        for board in hall.boards:
            board.end()
            Stage.boards.remove(board)


def one_number(folder: pathlib.Path) -> None:
    """Two boards have one serial number: each says so once both numbers are known, and a restart doesn't ask again. At that restart a third
    board gives that number: all three name each other, until somebody has looked. A board with another number, and one without, say nothing."""
    hall = Hall(folder, 5)
    for board, serial in zip(hall.boards, (b"00007", b"00007", b"00008", b"", b"")):
        board.serial_number = serial
    alike = "LOOK at the cable: board"
    live = hall.record(typed=True)
    hall.begun(live)
    for number, other in ((1, 2), (2, 1)):
        until_line(live, f"  {number}  {alike} {other} has the same serial number, and nothing shows it if their cables are exchanged: see that")
    live.type("1 ok")
    until_line(live, f"1: acknowledged: {alike} 2 has the same")
    same(stop(live), 0)
    hall.boards[4].serial_number = b"00007"
    again = hall.record(typed=True)
    hall.begun(again)
    for number, others in ((1, "2 and 5"), (2, "1 and 5"), (5, "1 and 2")):
        until_line(again, f"  {number}  {alike}s {others} have the same serial number")
        again.type(f"{number} ok")
        until_line(again, f"{number}: acknowledged: {alike}s {others} have")
    same((stop(again), again.lines().count("has the same")), (0, 0))
    once_more = hall.record()
    hall.begun(once_more)
    same((stop(once_more), once_more.lines().count("LOOK at the cable")), (0, 0))


def three_away_together(folder: pathlib.Path) -> None:
    """Three boards that stand alike, on one hub that fails: each alarm names the two others, and one `ok` for each is enough. The hub fails
    again: somebody must look again."""
    hall = Hall(folder, 3)
    live = hall.record(typed=True)
    hall.begun(live)
    for number, board in enumerate(hall.boards, 1):
        board.play("e2e4")
        hall.until_text(number, "1. e4 *")
    for times in (1, 2):
        goes(hall, live, [1, 2, 3], times)
        for number, others in ((1, "2 and 3"), (2, "1 and 3"), (3, "1 and 2")):
            until_line(live, f"  {number}  {AWAY} boards {others}, which stand alike, and no serial number tells them apart", times)
            live.type(f"{number} ok")
            until_line(live, f"{number}: acknowledged: {AWAY} boards {others}", times)
    same(stop(live), 0)


def goes(hall: Hall, live: Live, numbers: Sequence[int], times: int = 1) -> None:
    """The cables of these boards are pulled, and put in again."""
    for number in numbers:
        hall.boards[number - 1].pull()
    for number in numbers:
        until_line(live, f"{number:>3}  UNPLUGGED", times)
    for number in numbers:
        hall.boards[number - 1].plug()
    until(lambda: all(hall.boards[number - 1].asked_for_updates for number in numbers), "a request on each board")


def result_of_another_board(folder: pathlib.Path) -> None:
    """A result is typed for the wrong board: it is said that moves are made there, and the game goes on with them. The pieces
    of another board, whose game is over, are set up: nothing is said, and its device is free then."""
    hall = Hall(folder, 2)
    live = hall.record(typed=True)
    hall.begun(live)
    hall.play(0, 2)
    live.type("1 1-0")
    hall.until_over(live, 1, "1-0")
    until_dumped(hall.boards[0], hall.name(1))
    for move in ("g1f3", "b8c6"):
        hall.boards[0].play(move)
        rest(0.3)
    until_line(live, "  1  LOOK after 1... e5: 2 moves were made, and the game is over: 1-0. Look at it, and type 1 ok")
    says(live, 1, "LOOK after 1... e5; over 1-0; ")
    same(hall.text(1), "1. e4 e5 1-0")
    live.type("1 *")
    hall.until_text(1, "1. e4 e5 2. Nf3 Nc6 *")
    until_line(live, "1: ")
    live.type("1 ok")
    says(live, 1, "agrees; ")
    hall.boards[0].play("f1b5")
    hall.until_text(1, "1. e4 e5 2. Nf3 Nc6 3. Bb5 *")
    live.type("2 *")
    until_line(live, "2 refused: *: the game has no result")
    live.type("2 0-1")
    hall.until_over(live, 2, "0-1")
    until_dumped(hall.boards[1], hall.name(2))
    for _ in hall.boards[1].homecoming():
        rest(0.05)
    until(lambda: not has_open(live.process.pid, hall.boards[1].device), "that the device is free")
    other = Live(hall.boards[1].device, folder / "other")
    until_line(other, words.AGREES)
    says(live, 2, "over 0-1; ")
    same(stop(other), 0)
    live.type("2 *")
    hall.until_text(2, "1. d4 d5 *")
    same(stop(live), 0)


def result_gone_with_its_plies(folder: pathlib.Path) -> None:
    """Moves are made after a typed result, and then the pieces are set up. All plies are taken off, and the result with them: nobody
    need look at it any more, and the game begins anew."""
    hall = Hall(folder, 1)
    live = hall.record(typed=True)
    hall.begun(live)
    hall.play(0, 2)
    live.type("1 1-0")
    hall.until_over(live, 1, "1-0")
    until_dumped(hall.boards[0], hall.name(1))
    for move in ("g1f3", "b8c6"):
        hall.boards[0].play(move)
        rest(0.3)
    says(live, 1, "LOOK after 1... e5; over 1-0; ")
    for _ in hall.boards[0].homecoming():
        rest(0.05)
    until(lambda: not has_open(live.process.pid, hall.boards[0].device), "that the device is free")
    live.type("1 back 0")
    until_line(live, "back to the start; taken off: 1. e4 e5; the result 1-0 is gone. Settled: LOOK after 1... e5. ")
    says(live, 1, "agrees; ")
    same(bytes_of(hall.name(1) + ".look"), b"")
    hall.boards[0].play("e2e4")
    hall.until_text(1, "1. e4 *")
    same(stop(live), 0)


def kings_in_the_centre(folder: pathlib.Path) -> None:
    """The kings stood in the centre by mistake, and that ended a game; the players go on: LOOK says so until the game goes on
    with their moves. While the kings stand there, it can't. The pieces of another board are set up: nothing is said."""
    hall = Hall(folder, 2)
    live = hall.record(typed=True)
    hall.begun(live)
    one, other = hall.boards
    for board in hall.boards:
        board.play("e2e4")
        board.play("e7e5")
    for number in (1, 2):
        hall.until_text(number, "1. e4 e5 *")
    for number, board in enumerate(hall.boards, 1):
        until_dumped(board, hall.name(number))
    for board in hall.boards:
        board.kings_in_centre("d4", "d5")
    for number in (1, 2):
        hall.until_over(live, number, "1/2-1/2")
        hall.until_text(number, "1. e4 e5 1/2-1/2")
    until_dumped(one, hall.name(1))
    live.type("1 *")
    until_line(live, "1 refused: *: the board still shows the result 1/2-1/2. Put the kings where they belong")
    for origin, target in (("d4", "e1"), ("d5", "e8")):
        one.play(origin + target)
    for move in ("g1f3", "b8c6"):
        one.play(move)
        until_dumped(one, hall.name(1))
    until_line(live, "  1  LOOK after 1... e5: 2 moves were made, and the game is over: 1/2-1/2. Look at it, and type 1 ok")
    says(live, 1, "LOOK after 1... e5; over 1/2-1/2; ")
    same(hall.text(1), "1. e4 e5 1/2-1/2")
    live.type("1 *")
    until_line(live, "goes on, without the result; played since: 2. Nf3 Nc6")
    hall.until_text(1, "1. e4 e5 2. Nf3 Nc6 *")
    live.type("1 ok")
    says(live, 1, "agrees; ")
    one.play("f1b5")
    hall.until_text(1, "1. e4 e5 2. Nf3 Nc6 3. Bb5 *")
    for _ in other.homecoming():
        rest(0.05)
    says(live, 2, "over 1/2-1/2; ")
    same(hall.text(2), "1. e4 e5 1/2-1/2")
    same(stop(live), 0)


def wrong_records(folder: pathlib.Path) -> None:
    """Moves that were typed for another board are taken off; a game that was over by a typed result is put right, and goes on
    to its end."""
    hall = Hall(folder, 3)
    live = hall.record(typed=True)
    hall.begun(live)
    hall.play(0, 2)
    live.type("1 Nf3 Nc6 Bc4")
    hall.until_text(1, "1. e4 e5 2. Nf3 Nc6 3. Bc4 *")
    until_dumped(hall.boards[0], hall.name(1))
    live.type("1 help")
    until_line(live, "1: behind the number, type 1-0, 0-1, 1/2-1/2, moves (Nf3 Nc6), back")
    live.type("1 back 1... e5")
    until_line(live, "1: takes off 3 plies, from 2. Nf3: type it again")
    live.type("1 back 1... e5")
    hall.until_text(1, "1. e4 e5 *")
    until_line(live, "back to 1... e5; taken off: 2. Nf3 Nc6 3. Bc4. What the board had sent is kept in")
    hall.boards[0].play("g1f3")
    hall.until_text(1, "1. e4 e5 2. Nf3 *")
    hall.boards[2].play("g1f3")
    hall.until_text(3, "1. e4 c5 2. Nf3 *")
    live.type("3 1-0")
    hall.until_over(live, 3, "1-0")
    live.type("3 back")
    until_line(live, "3 refused: the board still shows 2. Nf3: it would come back at once. If another move was played, wait for the next one")
    hall.boards[2].play("f3g1")
    until_dumped(hall.boards[2], hall.name(3))
    live.type("3 back")
    hall.until_text(3, "1. e4 c5 *")
    until_line(live, "3: ", 2)
    hall.boards[2].play("c2c3")
    hall.until_text(3, "1. e4 c5 2. c3 *")
    live.type("3 1/2-1/2")
    hall.until_over(live, 3, "1/2-1/2")
    same(hall.text(3), "1. e4 c5 2. c3 1/2-1/2")
    hall.until_round()
    same(stop(live), 0)
