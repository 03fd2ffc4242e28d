"""What happens in a hall: updates that are cut or lost, boards that are switched off, cables that change places, noise, and
processes that are killed."""

import os
import pathlib
import signal
import sys
import time

from emulated import board as emulated
from emulated.board import Manner
from emulated.cable import Cable
from emulated.room import stopwatch
from play_board import EMPTY, field
from played import words
from played.boards import Board, Cables
from played.recorder import Live, command, signal_to
from played.stage import (
    RUY,
    RUY_TEXT,
    Stage,
    a_board,
    begin_game,
    begun,
    bytes_of,
    check,
    ended,
    go_on,
    kill,
    movetext,
    rest,
    same,
    stop,
    until,
    until_game,
    until_line,
)


def cut_updates(folder: pathlib.Path) -> None:
    """One update is cut off, at each of its bytes, and the reply comes two seconds later; without a clock, and with one."""
    rooms = []
    for cut in range(1, 5):
        for clock in (False, True):
            place = folder / f"{cut}{clock}"
            place.mkdir()
            board = a_board(place)
            rooms.append((board, Live(board.device, place / "game"), cut, clock))
    for _, live, _, _ in rooms:
        begun(live)
    for board, _, cut, clock in rooms:
        board.clock(600, 600) if clock else None
        board.spoiled = [None, cut]
        board.play("e2e4")
    for second in range(2):
        rest(1)
        for board, _, _, clock in rooms:
            board.clock(600, 599 - second) if clock else None
    for board, live, cut, clock in rooms:
        until(lambda: movetext(live.name).startswith("1. e4"), f"the move whose update was cut to {cut} bytes")
        board.play("e7e5")
    for _, live, cut, clock in rooms:
        until(lambda: check(bytes_of(live.name + ".pgn")) == "moves 2, result *", f"the reply, cut {cut}, clock {clock}")
        same(movetext(live.name).split()[:2], ["1.", "e4"])
        same(stop(live), 0)


def lost_updates(folder: pathlib.Path) -> None:
    """An update is lost whole, each of the two of a move in turn: the next dump shows it before the reply."""
    board = a_board(folder)
    live = Live(board.device, folder / "game")
    begun(live)
    text = ["1. e4", "e5", "2. Nf3", "Nc6", "3. Bb5"]
    for number, move in enumerate(RUY):
        board.spoiled = [0] if number % 2 else [None, 0]
        board.play(move)
        until_game(live.name, " ".join([*text[: number + 1], "*"]))
    same(stop(live), 0)


def lost_bytes(folder: pathlib.Path) -> None:
    """Bytes are lost in each place of an update while it records with a clock; the dump makes up for them."""
    board = a_board(folder)
    live = Live(board.device, folder / "game")
    begun(live)
    for number, move in enumerate(RUY):
        board.clock(600 - number, 600)
        origin, target = field(move[:2]), field(move[2:])
        code = board.codes[origin]
        board.show(origin, EMPTY)
        board.codes[target] = code
        whole = board.update(target)
        board.send(whole[:number] if number < 4 else whole[1:])
        board.clock(599 - number, 600)
        until(lambda: check(bytes_of(live.name + ".pgn")) == f"moves {number + 1}, result *", f"ply {number + 1}")
    same(stop(live), 0)
    text = " ".join(word for word in movetext(live.name).split() if "clk" not in word and "]" not in word)
    same(text, "1. e4 1... e5 2. Nf3 2... Nc6 3. Bb5 *")


def switched_off(folder: pathlib.Path) -> None:
    """A board is switched off and on: it is said, the board is asked for updates again, and what was missed is made up for."""
    board, live = begin_game(folder)
    rest(1)
    asked = board.asked.count(b"K")
    board.switch_off()
    board.play("g1f3")
    until_line(live, words.SILENT)
    board.switch_on()
    until(lambda: board.asked.count(b"K") > asked, "a request for updates")
    until_game(live.name, "1. e4 e5 2. Nf3 *")
    board.play("b8c6")
    until_game(live.name, "1. e4 e5 2. Nf3 Nc6 *")
    # Nothing is played meanwhile: it says that it agrees again.
    board.switch_off()
    until_line(live, words.SILENT, 2)
    board.switch_on()
    quiet = live.lines().rindex(words.SILENT)
    until(lambda: words.AGREES in live.lines()[quiet:], "that it agrees again")
    until(lambda: board.asked_for_updates, "a request for updates")
    # Shorter than it takes to be called silent: then updates are missing, and the dumps make up for them.
    board.switch_off()
    rest(0.3)
    board.switch_on()
    rest(0.3)
    board.play("f1b5")
    until_game(live.name, RUY_TEXT)
    same(stop(live), 0)


def slow_answers(folder: pathlib.Path) -> None:
    """A board at 9600 baud whose dumps come 0.8 s after they were asked for: a whole game, and one update in ten is cut."""
    board = a_board(folder, seed=7)
    board.rate = 960
    board.answers_after = 0.8
    board.spoiled_share = 0.1
    live = Live(board.device, folder / "game")
    begun(live)
    text = ["1. e4", "e5", "2. Nf3", "Nc6", "3. Bb5", "a6", "4. Ba4", "Nf6", "5. O-O", "Be7"]
    for number, move in enumerate(RUY + ["a7a6", "b5a4", "g8f6", "e1g1", "f8e7"]):
        board.play(move)
        until_game(live.name, " ".join([*text[: number + 1], "*"]))
    same(stop(live), 0)


def noise(folder: pathlib.Path) -> None:
    """Five seconds of noise at the full rate of the line: a few requests, and the game goes on."""
    board, live = begin_game(folder)
    rest(0.5)
    asked = len(board.asked)
    start = time.monotonic()
    board.make_noise(5)
    rest(5)
    board.play("g1f3")
    requests, most = len(board.asked) - asked, 10 + 5 * (time.monotonic() - start)
    assert requests < most, f"{requests} requests"
    until_game(live.name, "1. e4 e5 2. Nf3 *")
    until_line(live, "2. Nf3")
    board.play("b8c6")
    until_game(live.name, "1. e4 e5 2. Nf3 Nc6 *")
    same(stop(live), 0)


def part_killed(folder: pathlib.Path) -> None:
    """Each process but the main one is killed, alone, in mid-game; 200 kB of clock times follow. The recorder goes on, or ends
    with a complaint and goes on when it is started again; nothing that was played is lost, and a signal ends it."""
    number, count = 0, 1
    while number < count:
        place = folder / str(number)
        place.mkdir()
        board, live = begin_game(place)
        children = live.children()
        count = max(count, len(children))
        if number >= len(children):
            break
        killed = command(children[number])
        live.was_killed = True
        signal_to(children[number])
        board.play("g1f3")
        for second in range(20000):
            board.clock(3600 + second % 60, 3600)
            if second % 50 == 0:
                until(lambda: not board.outgoing or not live.runs, f"that bytes are read where {killed} is killed")
        if not live.runs:
            same(ended(live), 3)
            assert live.complaint(), "it has ended without a word"
            live = go_on(board, live)
        board.play("b8c6")
        until(lambda: "Nc6" in movetext(live.name) or not live.runs, f"2... Nc6 where {killed} is killed")
        board.play("f1b5")
        until(lambda: check(bytes_of(live.name + ".pgn")) == "moves 5, result *", f"3. Bb5 where {killed} is killed")
        live.send(signal.SIGINT)
        until(lambda: not live.runs, f"the end at INT where {killed} is killed")
        ended(live)
        number += 1


def kill_part(folder: pathlib.Path, number: int) -> int:
    """KILL of one of its processes alone, and INT at once. It answers how many processes there were."""
    folder.mkdir()
    board, live = begin_game(folder)
    parts = [live.process.pid, *live.children()]
    live.was_killed = True
    for part in parts[number : number + 1]:  # one that there was in the call before may have no like in this one
        signal_to(part)
    live.send(signal.SIGINT)
    assert ended(live) in (-signal.SIGKILL, 0, 3), live.complaint()
    same(movetext(live.name), "1. e4 e5 *")
    board.pull()
    board.plug()
    again = go_on(board, live)
    for move in RUY[2:]:
        board.play(move)
    until_game(live.name, RUY_TEXT)
    same(stop(again), 0)
    return len(parts)


def killed_and_stopped(folder: pathlib.Path) -> None:
    """KILL of each of its processes alone, and INT at once: what was played is kept, and it goes on when started again."""
    number, count = 0, 1
    while number < count:
        count = kill_part(folder / str(number), number)
        number += 1


def main_killed(folder: pathlib.Path) -> None:
    """KILL of the main process together with each other one, and with none: nothing stays that holds the game or the board,
    and it goes on when started again."""
    number, count = 0, 1
    while number < count:
        place = folder / str(number)
        place.mkdir()
        board, live = begin_game(place)
        children = live.children()
        count = 1 + len(children)
        live.was_killed = True
        for process in children[number - 1 : number] if number else []:
            signal_to(process)
        live.process.kill()
        live.process.wait()
        board.play("g1f3")
        again = Live(board.device, live.name)
        until(lambda: movetext(live.name) == "1. e4 e5 2. Nf3 *" or not again.runs, f"that it goes on, pair {number}")
        assert again.runs, f"pair {number}: {again.complaint()}"
        same(stop(again), 0)
        ended(live)
        number += 1


def other_name(folder: pathlib.Path) -> None:
    """A board comes back as another ttyUSB: it is found by the name of its cable."""
    cables = Cables(folder)
    board = cables.board("DGT_A", 0)
    Stage.boards.append(board)
    live = Live(board.device, folder / "game", environment=cables.environment())
    begun(live)
    board.play("e2e4")
    until_game(live.name, "1. e4 *")
    for number in (1, 7):
        board.pull()
        until_line(live, words.UNPLUGGED, 1 if number == 1 else 2)
        cables.plug(board, number)
        until(lambda: board.asked_for_updates, f"a request as ttyUSB{number}")
        board.play("e7e5" if number == 1 else "g1f3")
        until_game(live.name, "1. e4 e5 *" if number == 1 else "1. e4 e5 2. Nf3 *")
    same(stop(live), 0)
    # Started again on the new name, it goes on.
    again = Live(board.device, live.name, environment=cables.environment())
    board.play("b8c6")
    until_game(live.name, "1. e4 e5 2. Nf3 Nc6 *")
    same(stop(again), 0)


def swapped(folder: pathlib.Path) -> None:
    """Two cables change their places: each recorder keeps to its board."""
    cables = Cables(folder)
    boards = [cables.board(f"DGT_{number}", number) for number in range(2)]
    Stage.boards += boards
    lives = [Live(board.device, folder / f"game{at}", environment=cables.environment()) for at, board in enumerate(boards)]
    firsts, seconds = ["e2e4", "d2d4"], ["e7e5", "d7d5"]
    for live in lives:
        begun(live)
    for board, live, move in zip(boards, lives, firsts):
        board.play(move)
        until_game(live.name, f"1. {move[2:]} *")
    for board in boards:
        board.pull()
    for live in lives:
        until_line(live, words.UNPLUGGED)
    for number, board in enumerate(boards):
        cables.plug(board, 1 - number)
    for board in boards:
        until(lambda: board.asked_for_updates, "a request for updates")
    for board, live, first, move in zip(boards, lives, firsts, seconds):
        board.play(move)
        until_game(live.name, f"1. {first[2:]} {move[2:]} *")
        assert words.OTHER_BOARD not in live.lines(), live.lines()
        same(stop(live), 0)


def forgotten(folder: pathlib.Path) -> None:
    """A recorder that was forgotten waits for its own cable, and not for whatever is plugged in under its old name."""
    cables = Cables(folder)
    first = cables.board("DGT_A", 0)
    Stage.boards.append(first)
    old = Live(first.device, folder / "old", environment=cables.environment())
    begun(old)
    first.play("e2e4")
    until_game(old.name, "1. e4 *")
    first.pull()
    until_line(old, words.UNPLUGGED)
    second = cables.board("DGT_B", 0)
    Stage.boards.append(second)
    rest(3)
    new = Live(second.device, folder / "new", environment=cables.environment())
    begun(new)
    second.play("d2d4")
    until_game(new.name, "1. d4 *")
    same(movetext(old.name), "1. e4 *")
    same(stop(new), 0)
    same(stop(old), 0)


def another_board(folder: pathlib.Path) -> None:
    """Another board on the same cable: its first picture differs on more than four squares, and that is said."""
    board, live = begin_game(folder)
    assert words.OTHER_BOARD not in live.lines(), live.lines()
    board.pull()
    until_line(live, words.UNPLUGGED)
    for square in ("a2", "b2", "c2", "g1", "a7"):
        board.codes[field(square)] = EMPTY
    board.plug()
    until_line(live, words.OTHER_BOARD)
    same(movetext(live.name), "1. e4 e5 *")
    same(stop(live), 0)


def devices(folder: pathlib.Path) -> None:
    """--devices lists the cables by their own names, with the serial numbers of boards that give one; those of the case alone,
    whatever is plugged into this machine."""
    none = Live("", "", "--devices")
    same(ended(none), 0)
    assert "no board is plugged in" in none.lines(), none.lines()
    cables = Cables(folder)
    bluetooth = Board(folder, device=cables.folder / "rfcomm0")
    Stage.boards += [*(cables.board(f"DGT_{letter}", at) for at, letter in enumerate("AB")), bluetooth]

    def listed(*parts: str) -> None:
        """A list has all of these. Where this process was held up its boards have answered too late, and it is made again."""
        lines = ""
        while not all(part in lines for part in parts):
            assert time.monotonic() < Stage.ends, lines
            live = Live("", "", "--devices", environment=cables.environment())
            same(ended(live), 0)
            lines = live.lines()

    listed("usb-DGT_A", "usb-DGT_B", os.path.realpath(bluetooth.device))
    now = stopwatch()
    for letter, manner in (("C", Manner()), ("D", Manner(late=(0.4, 0.8)))):
        device = cables.folder / f"ttyUSB{letter}"
        Stage.boards.append(Cable(device, emulated.Board(serial=f"0000{letter}", manner=manner), now))  # type: ignore[arg-type]
        (cables.serial / "by-id" / f"usb-DGT_{letter}").symlink_to(device)
    recording = Live(Stage.boards[-1].device, folder / "game")
    begun(recording)
    listed("usb-DGT_C  0000C", "usb-DGT_D  in use")
    same(stop(recording), 0)
    listed("usb-DGT_D  0000D")


def killed_at_once(folder: pathlib.Path) -> None:
    """KILL of all as soon as a move's last byte is sent: the move is there when it is started again."""
    board, live = begin_game(folder)
    for move, text in (("g1f3", "2. Nf3"), ("b8c6", "2. Nf3 Nc6"), ("f1b5", "2. Nf3 Nc6 3. Bb5")):
        board.play(move)
        kill(live)
        live = go_on(board, live)
        until_game(live.name, f"1. e4 e5 {text} *")
    same(stop(live), 0)


# Raises an error that nobody reckons with in the next read of a line, where a file is there.
RAISING = """
import os
read = os.read
def fails(number, count):
    if os.path.exists({flag!r}) and os.isatty(number):
        os.unlink({flag!r})
        raise ValueError("nobody reckons with this")
    return read(number, count)
os.read = fails
"""


def begun_again(folder: pathlib.Path) -> None:
    """An error that nobody reckons with: it is said, the log has where it was, and the game goes on after some seconds."""
    flag = folder / "flag"
    (folder / "sitecustomize.py").write_text(RAISING.format(flag=str(flag)))
    board, live = begin_game(folder, start=[sys.executable], environment={"PYTHONPATH": str(folder)})
    for number in (1, 2):
        flag.touch()
        until_line(live, "isn't recorded: ValueError: nobody reckons with this", number)
        until_line(live, "  records ", number + 1)
        board.play(RUY[1 + number])
        until_game(live.name, "1. e4 e5 2. Nf3 *" if number == 1 else "1. e4 e5 2. Nf3 Nc6 *")
    assert "Traceback" in (folder / "game.log").read_text()
    same((stop(live), live.complaint()), (0, ""))
    same(movetext(live.name), "1. e4 e5 2. Nf3 Nc6 *")
