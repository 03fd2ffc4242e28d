"""What a recording has where it is stopped by signals and power cuts, and how it goes on."""

import contextlib
import os
import pathlib
import signal
import sys
import time
from typing import Tuple

from play_board import DUMP, INITIAL, field, frame
from played import words
from played.boards import Board
from played.recorder import Live, Terminal, children_now, signal_to
from played.stage import (
    RUY,
    RUY_TEXT,
    a_board,
    begin_game,
    begun,
    bytes_of,
    ended,
    go_on,
    kill,
    movetext,
    recorded,
    rest,
    same,
    stop,
    until,
    until_game,
    until_kept,
    until_line,
)

SIGNALS = (signal.SIGINT, signal.SIGTERM, signal.SIGHUP)


def signals(folder: pathlib.Path) -> None:
    """INT, TERM and HUP in mid-game: the game so far, status 0. TERM just as it begins: a game without moves, status 0."""
    for number in SIGNALS:
        place = folder / number.name
        place.mkdir()
        board = a_board(place)
        live = Live(board.device, place / "game")
        begun(live)
        for move in RUY:
            board.play(move)
        until_line(live, "3. Bb5")
        same(stop(live, number), 0)
        same(movetext(live.name), RUY_TEXT)
        same(live.complaint(), "")
    rooms = []
    for at in range(8):
        place = folder / str(at)
        place.mkdir()
        rooms.append(Live(a_board(place).device, place / "game"))
    begins = list(rooms)
    while begins:
        until(lambda: any(pathlib.Path(live.name + ".pgn").exists() for live in begins), "a first text", 0)
        for live in [live for live in begins if pathlib.Path(live.name + ".pgn").exists()]:
            live.send(signal.SIGTERM)
            begins.remove(live)
    for live in rooms:
        same(ended(live), 0)
        same(live.complaint(), "")


def group_signal(folder: pathlib.Path) -> None:
    """INT, TERM and HUP to all processes at once, as by a terminal or a service's end; many of them, and all three mixed."""
    for name, numbers in (*((number.name, [number] * 5) for number in SIGNALS), ("mixed", [*SIGNALS] * 10)):
        place = folder / name
        place.mkdir()
        board = a_board(place)
        live = Live(board.device, place / "game")
        begun(live)
        for move in RUY:
            board.play(move)
        until_kept(live.name, board.update(field("b5")))
        for number in numbers:
            live.send_all(number)
            time.sleep(0.02 if name != "mixed" else 0.002)
        same(ended(live), 0)
        same(bytes_of(live.name + ".pgn"), recorded(bytes_of(live.name + ".dgt"), live.name))
        same(movetext(live.name), RUY_TEXT)


def a_room(folder: pathlib.Path, *options: str) -> Tuple[Board, Live]:
    """A board and a recorder in a folder of their own."""
    place = folder / str(len(Live.all))
    place.mkdir()
    board = a_board(place)
    return board, Live(board.device, place / "game", *options)


def killed_in_frame(folder: pathlib.Path) -> None:
    """KILL of all processes after a part of a frame, of each length; its rest is lost, or comes to the next session."""
    rooms = [(*room, length, comes) for length in range(1, 5) for comes in (False, True) for room in [a_room(folder)]]
    for _, live, _, _ in rooms:
        begun(live)
    for board, live, length, comes in rooms:
        for move in RUY[:2]:
            board.play(move)
        until_game(live.name, "1. e4 e5 *")
        board.lift("g1")
        board.codes[field("f3")] = 3
        whole = board.update(field("f3"))
        lifted = board.update(field("g1"))
        board.send(whole[:length])
        until_kept(live.name, lifted + whole[:length])
        kill(live)
        if comes:
            board.send(whole[length:])
    again = [Live(board.device, live.name) for board, live, _, _ in rooms]
    for (board, live, length, comes), other in zip(rooms, again):
        until_game(live.name, "1. e4 e5 2. Nf3 *")
        until(lambda: board.asked.count(b"BK") > 1, "a request for updates")
        board.play("b8c6")
        board.play("f1b5")
        until_game(live.name, RUY_TEXT)
        same(stop(other), 0)


def killed_in_dump(folder: pathlib.Path) -> None:
    """KILL of all processes after a part of the first dump: no ply stands, and the options are kept."""
    rooms = [(*a_room(folder, "--white", "Anna"), length) for length in (1, 2, 3, 40, 66)]
    for board, _, _ in rooms:
        board.deaf = True
    for board, live, length in rooms:
        until(lambda: b"B" in board.asked, "a request for a dump")
        board.send(frame(DUMP, board.codes)[:length])
        until(lambda: len(bytes_of(live.name + ".dgt")) == length, "a part of a dump")
        kill(live)
        board.deaf = False
    again = [Live(board.device, live.name) for board, live, _ in rooms]
    for (board, live, length), other in zip(rooms, again):
        until(lambda: board.asked_for_updates, "a request for updates")
        for move in RUY:
            board.play(move)
        until_game(live.name, RUY_TEXT)
        assert b'[White "Anna"]' in bytes_of(live.name + ".pgn")
        same(stop(other), 0)


def killed_in_move(folder: pathlib.Path) -> None:
    """KILL of all processes within a move; the move is ended while nothing listens. Then the same with main alone killed."""
    for alone in (False, True):
        place = folder / str(alone)
        place.mkdir()
        board, live = begin_game(place)
        board.lift("g1")
        until_kept(live.name, board.update(field("g1")))
        if alone:
            live.was_killed = True
            live.process.kill()
            ended(live)
        else:
            kill(live)
        board.put("f3", 3)
        again = go_on(board, live)
        until_game(live.name, "1. e4 e5 2. Nf3 *")
        board.play("b8c6")
        board.play("f1b5")
        until_game(live.name, RUY_TEXT)
        same(stop(again), 0)


def power_cut(folder: pathlib.Path) -> None:
    """The end of NAME.dgt is cut off at each byte back to the end of the last ply but one."""
    board, live = begin_game(folder)
    # The capture of the last ply alone is of known bytes: whatever dumps were asked for are in front of it.
    rest(0.3)
    kill(live)
    whole = bytes_of(live.name + ".dgt")
    last = len(whole)
    board.asked_for_updates = False
    board.clock(600, 600)
    board.play("g1f3")
    whole += bytes([0x8D, 0, 10, 0, 0x10, 0, 0, 0x10, 0, 0])
    whole += bytes([0x8E, 0, 5, field("g1"), 0]) + bytes([0x8E, 0, 5, field("f3"), 3])
    codes = board.codes
    board.pull()
    cuts = list(range(last, len(whole)))
    same(len(cuts), 20)
    for front in range(0, len(cuts), 7):
        cases = []
        for cut in cuts[front : front + 7]:
            place = folder / str(cut)
            place.mkdir()
            (place / "game.dgt").write_bytes(whole[:cut])
            (place / "game.options").write_bytes(b"")
            here = a_board(place, codes)
            cases.append((cut, here, Live(here.device, place / "game")))
        for cut, here, one in cases:
            until(lambda: "2. Nf3" in movetext(one.name), f"the ply that was cut at byte {cut}")
        for cut, here, one in cases:
            here.play("b8c6")
            here.play("f1b5")
        for cut, here, one in cases:
            # The time is ten bytes long: where it is whole it is Nf3's, and no other has come since.
            clock = " {[%clk 0:10:00]}" if cut >= last + 10 else ""
            black = " 2... Nc6" if clock else " Nc6"
            until_game(one.name, f"1. e4 e5 2. Nf3{clock}{black}{clock} 3. Bb5{clock} *")
            same(stop(one), 0)


def cable(folder: pathlib.Path) -> None:
    """The cable is pulled in mid-move and plugged in again, twice; then pulled with --once: status 3."""
    board, live = begin_game(folder)
    board.lift("g1")
    board.pull()
    until_line(live, words.UNPLUGGED)
    board.put("f3", 3)
    board.plug()
    until_game(live.name, "1. e4 e5 2. Nf3 *")
    board.play("b8c6")
    until_game(live.name, "1. e4 e5 2. Nf3 Nc6 *")
    board.pull()
    until_line(live, words.UNPLUGGED, 2)
    board.plug()
    until_line(live, words.BACK, 2)
    board.play("f1b5")
    until_game(live.name, RUY_TEXT)
    board.pull()
    until_line(live, words.UNPLUGGED, 3)
    same(stop(live), 0)
    board.plug()
    once = go_on(board, live, "--once")
    board.play("a7a6")
    until_game(live.name, "1. e4 e5 2. Nf3 Nc6 3. Bb5 a6 *")
    board.pull()
    same(ended(once), 3)
    assert words.GONE_AWAY in once.complaint(), once.complaint()
    assert words.GOES_ON not in once.lines(), once.lines()
    same(movetext(live.name), "1. e4 e5 2. Nf3 Nc6 3. Bb5 a6 *")


def pulled_at_once(folder: pathlib.Path) -> None:
    """30 boards are pulled just as they are recorded again, and plugged in: each goes on."""
    rooms = []
    for number in range(30):
        place = folder / str(number)
        place.mkdir()
        board = a_board(place)
        rooms.append((board, Live(board.device, place / "game")))
    for board, live in rooms:
        begun(live)
        board.pull()
    for board, live in rooms:
        until_line(live, words.UNPLUGGED)
        board.plug()
    for board, live in rooms:
        until_line(live, words.BACK)
        board.pull()
        board.plug()
        board.play("e2e4")
    for _, live in rooms:
        until_game(live.name, "1. e4 *")
        live.send(signal.SIGINT)
    for _, live in rooms:
        same(ended(live), 0)


def held(folder: pathlib.Path) -> None:
    """STOP and CONT of each process while a game is played, and of all: nothing is lost. One that is stopped for ever holds up
    no end."""
    place = folder / "each"
    place.mkdir()
    board, live = begin_game(place)
    processes = 1 + len(live.children())
    moves, text = ["g1f3", "b8c6", "f1b5", "a7a6", "b5a4", "g8f6"], ["Nf3", "Nc6", "Bb5", "a6", "Ba4", "Nf6"]
    same(processes <= 3, True)
    game = "1. e4 e5"
    for number, (move, san) in enumerate(zip(moves, text)):
        chosen = [live.process.pid, *live.children()]
        chosen = [chosen[number % len(chosen)]] if number < 4 else chosen
        for process in chosen:
            signal_to(process, signal.SIGSTOP)
        board.play(move)
        rest(1.2)
        for process in chosen:
            signal_to(process, signal.SIGCONT)
        game += f" {2 + number // 2}. {san}" if number % 2 == 0 else f" {san}"
        until_game(live.name, f"{game} *")
    same(stop(live), 0)

    place = folder / "for_ever"
    place.mkdir()
    board, live = begin_game(place)
    for process in live.children():
        signal_to(process, signal.SIGSTOP)
    for move in RUY[2:]:
        board.play(move)
    until_kept(live.name, board.update(field("b5")))
    rest(0.5)
    live.send(signal.SIGINT)
    same(ended(live), 0)
    same(movetext(live.name), RUY_TEXT)


def silent(folder: pathlib.Path) -> None:
    """No board answers: it says so once, and what to look at, and asks again. The same where a game goes on, and --once."""
    board = a_board(folder)
    board.deaf = True
    live = Live(board.device, folder / "game", "--once")
    until_line(live, words.SILENT)
    same(bytes_of(live.name + ".dgt"), b"")
    rest(1)
    board.deaf = False
    begun(live)
    assert board.asked.count(b"BK") > 1, board.asked
    for part in words.SILENT_ADVICE:
        assert part in live.lines(), f"{part} in\n{live.lines()}"
    for move in RUY[:2]:
        board.play(move)
    until_game(live.name, "1. e4 e5 *")
    same(live.lines().count(words.SILENT), 1)
    same(stop(live), 0)

    board.deaf = True
    board.asked_for_updates = False
    again = Live(board.device, live.name)
    until_line(again, words.SILENT)
    assert again.lines().index("1... e5") < again.lines().index(words.SILENT), again.lines()
    board.pull()
    until_line(again, words.UNPLUGGED)
    board.deaf = False
    board.plug()
    until(lambda: board.asked_for_updates, "a request for updates")
    for move in RUY[2:]:
        board.play(move)
    until_game(live.name, RUY_TEXT)
    same(stop(again), 0)


def closed_terminal(folder: pathlib.Path) -> None:
    """Nobody reads what is said, or the terminal has gone: it records all the same. A terminal that goes away sends HUP."""
    for unread in (True, False):
        place = folder / str(unread)
        place.mkdir()
        board = a_board(place)
        live = Live(board.device, place / "game", unread=unread)
        if unread:
            live.told.hold(True)
        else:
            live.told.hang_up()
            live.wrong.hang_up()
        until(lambda: len(bytes_of(live.name + ".dgt")) >= 67, "a dump")
        for move in RUY:
            board.play(move)
        until_game(live.name, RUY_TEXT)
        if unread:
            live.told.hold(False)
            until_line(live, "3. Bb5")
        same(stop(live, signal.SIGTERM), 0)

    place = folder / "terminal"
    place.mkdir()
    board, live = begin_game(place, terminal=True)
    assert isinstance(live.told, Terminal)
    board.play("g1f3")
    until_kept(live.name, board.update(field("f3")))
    live.told.hang_up()
    assert ended(live) in (0, -signal.SIGHUP), live.process.returncode
    same(movetext(live.name), "1. e4 e5 2. Nf3 *")


def typed_signals(folder: pathlib.Path) -> None:
    """Ctrl-C, typed once and many times over, in a terminal: the game so far, status 0."""
    for times in (1, 20):
        place = folder / str(times)
        place.mkdir()
        board = a_board(place, INITIAL)
        live = Live(board.device, place / "game", terminal=True)
        begun(live)
        for move in RUY:
            board.play(move)
        until_game(live.name, RUY_TEXT)
        # Ctrl-Z doesn't stop it.
        os.write(live.told.end, b"\x1a")
        rest(0.3)
        board.play("a7a6")
        until_game(live.name, RUY_TEXT.replace("*", "a6 *"))
        for _ in range(times):
            with contextlib.suppress(OSError):
                os.write(live.told.end, b"\x03")
            rest(0.005)
        same(ended(live), 0)
        same(movetext(live.name), RUY_TEXT.replace("*", "a6 *"))


def under_nohup(folder: pathlib.Path) -> None:
    """Where the caller ignores HUP, as nohup does, it is no end; INT is one though it was ignored too."""
    board = a_board(folder)
    ignoring = ["sh", "-c", "trap '' INT; exec nohup \"$@\"", ""]
    live = Live(board.device, folder / "game", start=ignoring)
    begun(live)
    board.play("e2e4")
    until_game(live.name, "1. e4 *")
    live.send(signal.SIGHUP)
    rest(0.5)
    board.play("e7e5")
    until_game(live.name, "1. e4 e5 *")
    same(stop(live), 0)


BEHIND = """
import os, sys
child = os.fork()
if child == 0:
    os.setpgid(0, 0)
    os.execv(sys.argv[1], sys.argv[1:])
sys.exit(os.waitstatus_to_exitcode(os.waitpid(child, 0)[1]))
"""


def in_the_background(folder: pathlib.Path) -> None:
    """In the background of a terminal, as with &: what is typed for others doesn't stop it."""
    board = a_board(folder)
    live = Live(board.device, folder / "game", terminal=True, start=[sys.executable, "-c", BEHIND])
    begun(live)
    board.play("e2e4")
    until_game(live.name, "1. e4 *")
    live.type("ls")
    rest(1)
    board.play("e7e5")
    until_game(live.name, "1. e4 e5 *")
    live.type("1-0")
    rest(1)
    same(movetext(live.name), "1. e4 e5 *")
    for child in live.children():
        if child in children_now(live.process.pid):
            signal_to(child, signal.SIGTERM)
    same(ended(live), 0)


def spoiled_marks(folder: pathlib.Path) -> None:
    """After a power cut NAME.end, NAME.log or NAME.options may be empty, or hold anything: no traceback, and no byte is lost."""
    marks = [("end", b""), ("end", b"99999999999\n"), ("end", b"\xff\x00"), ("log", b"\x00" * 50)]
    rooms = [a_room(folder) for _ in marks]
    again = []
    for (board, live), (end, text) in zip(rooms, marks):
        begun(live)
        for move in RUY[:2]:
            board.play(move)
        until_game(live.name, "1. e4 e5 *")
        kill(live)
        kept = bytes_of(live.name + ".dgt")
        pathlib.Path(f"{live.name}.{end}").write_bytes(text)
        again.append((board, Live(board.device, live.name), board.asked.count(b"BK"), kept))
    for board, live, asked, kept in again:
        until(lambda: board.asked.count(b"BK") > asked or not live.runs, "that it goes on, or ends")
        if live.runs:
            board.play("g1f3")
            until_game(live.name, "1. e4 e5 2. Nf3 *")
            same(stop(live), 0)
        ended(live)
        assert "Traceback" not in live.complaint(), live.complaint()
        same(bytes_of(live.name + ".dgt")[: len(kept)], kept)
        assert movetext(live.name).startswith("1. e4 e5 "), movetext(live.name)
