"""Troubles that are one board's alone: what would have ended the call ends that board's recording, which is tried again, and
the other boards play on meanwhile."""

import os
import pathlib
import signal
import sys
from typing import List

from play_board import DUMP, INITIAL, UPDATE, frame
from played import words
from played.ports import free_port
from played.recorder import Live, command, processes, signal_to
from played.stage import bytes_of, movetext, refuses, rest, same, stop, until, until_line
from played.times import read
from rounds.delayed import stuck_program
from rounds.hall import Hall, agrees, moves, told

from live.game.opening import LARGE

# A program can't be started for one board as long as a file is there, nor a cable's folder be listed where another one is.
NOT_STARTED = """
import errno, os, subprocess
start = subprocess.Popen.__init__
def fails(self, words, *more, **named):
    if os.path.exists({no_fork!r}) and any("{mark}" in str(word) for word in words):
        raise BlockingIOError(errno.EAGAIN, "Resource temporarily unavailable")
    start(self, words, *more, **named)
subprocess.Popen.__init__ = fails
listed = os.listdir
def gone(path):
    if os.path.exists({no_folder!r}) and os.path.basename(path) == "by-id":
        raise FileNotFoundError(errno.ENOENT, "No such file or directory", path)
    return listed(path)
os.listdir = gone
"""
# Looks at a path as long as a file is there, and makes another one meanwhile.
SLOW_LOOK = """
import os, pathlib, time
look = os.stat
def slow(path, *more, **named):
    while path == {path!r} and os.path.exists({stuck!r}):
        pathlib.Path({looks!r}).touch()
        time.sleep(0.02)
    return look(path, *more, **named)
os.stat = slow
"""
FEN = "rnbqkbnr/pppppppp/8/8/8/8/PPPPPPPP/RNBQKBNR w KQkq - 0 7"  # the start, with a number that no other board has


def files_of_one(folder: pathlib.Path) -> None:
    """An end with 5,000 digits, options with a NUL, a folder in the place of a text: each row says what it is, where it is
    recorded no longer, and the other boards play on. What is put right is recorded."""
    hall = Hall(folder, 4)
    live = hall.record()
    hall.begun(live)
    hall.play(0, 2)
    same(stop(live), 0)
    pathlib.Path(hall.name(1) + ".end").write_bytes(b"9" * 5000 + b"\n")
    pathlib.Path(hall.name(2) + ".options").write_bytes(b"--white\nAn\0na\n")
    os.unlink(hall.name(3) + ".pgn")
    os.mkdir(hall.name(3) + ".pgn")
    live = hall.record()
    until_line(live, f"  2  isn't recorded: {hall.name(2)}.options can't be read")
    until_line(live, f"  3  isn't recorded: {hall.name(3)}.pgn can't be written (Is a directory)")
    for number in (1, 4):
        until_line(live, f"{number:>3}  agrees")
    hall.play(2, 4, (0, 3))
    assert words.FULL not in live.lines(), live.lines()
    os.unlink(hall.name(2) + ".options")
    os.rmdir(hall.name(3) + ".pgn")
    for number in (2, 3):
        until_line(live, f"{number:>3}  agrees")
    hall.play(2, 4, (1, 2))
    hall.until_round()
    same(stop(live), 0)


def ended_while_tried(folder: pathlib.Path) -> None:
    """The round ends just while a board is tried again that can't be recorded: why it isn't is said at the end all the same."""
    hall = Hall(folder, 1)
    wrong, stuck, looks = folder / "file", folder / "stuck", folder / "looks"
    wrong.write_text("no device")
    hall.write(f"2,{wrong},A,B")
    (folder / "sitecustomize.py").write_text(SLOW_LOOK.format(path=str(wrong), stuck=str(stuck), looks=str(looks)))
    live = hall.record(start=[sys.executable], environment={"PYTHONPATH": str(folder)})
    until_line(live, f"  2  isn't recorded: {wrong} is no device")
    hall.begun(live)
    stuck.touch()
    until(looks.exists, "that board 2 is tried again")
    live.send(signal.SIGINT)
    until_line(live, "dgt_round: what was played is in")
    stuck.unlink()
    refuses(live, 3, f"board 2: {wrong} is no device")


def program_of_one(folder: pathlib.Path) -> None:
    """The program can't be started for one board, as it begins and in mid-game, with a page, and the folder of cables is gone
    while a board is waited for: the others play on, and all is recorded when that is over."""
    hall = Hall(folder, 3, cabled=(2,))
    hall.extra[2] = f",{FEN}"
    hall.write(header="board,device,white,black,fen")
    table = hall.file.read_text().replace(str(hall.boards[2].cable), hall.boards[2].device)
    hall.file.write_text(table)
    no_fork, no_folder = folder / "no fork", folder / "no folder"
    text = NOT_STARTED.format(no_fork=str(no_fork), no_folder=str(no_folder), mark=FEN)
    (folder / "sitecustomize.py").write_text(text)
    no_fork.touch()
    hall.boards[2].pull()
    live = hall.record("--page", str(free_port()), start=[sys.executable], environment={"PYTHONPATH": str(folder)})
    until_line(live, "  2  isn't recorded: Resource temporarily unavailable")
    until_line(live, "  1  agrees")
    until_line(live, f"  3  {words.UNPLUGGED}")
    no_folder.touch()
    hall.play(0, 2, (0,))
    rest(1)
    no_folder.unlink()
    no_fork.unlink()
    hall.boards[2].plug()
    for number in (2, 3):
        until_line(live, f"{number:>3}  agrees")
    hall.boards[1].play("d2d4")
    until(lambda: movetext(hall.name(2)) == "7. d4 *", "a move of board 2")
    no_fork.touch()
    live.was_killed = True
    for child in processes(live.process.pid):
        if FEN in command(child):
            signal_to(child)
    hall.boards[1].play("d7d5")
    hall.play(2, 4, (0,))
    hall.play(0, 2, (2,))
    no_fork.unlink()
    until(lambda: movetext(hall.name(2)) == "7. d4 d5 *", "the reply of board 2")
    hall.play(2, 4, (2,))
    same(stop(live), 0)


def long_numbers_typed(folder: pathlib.Path) -> None:
    """A number of 5,000 digits is typed, through a pipe: it is refused as any other that no board has."""
    hall = Hall(folder, 1)
    live = hall.record(typed=True)
    hall.begun(live)
    live.type("9" * 4000)
    until_line(live, "refused: there is no board 9999")
    live.type("1" + "0" * 3500 + " 1-0")
    until_line(live, "refused: there is no board 1000")
    for part in ("9" * 3000, "9" * 3000 + " Nf3\n"):
        os.write(live.typing, part.encode())
    until_line(live, "refused: ", 3)
    hall.play(0, 2)
    same(stop(live), 0)


def capture_removed(folder: pathlib.Path) -> None:
    """A capture is removed while its board plays: it is written anew, whole, and nothing is called a full disk. A folder in the
    place of a text is told as what it is, and the text comes when it is gone."""
    hall = Hall(folder, 2)
    live = hall.record()
    hall.begun(live)
    hall.play(0, 2)
    before = bytes_of(hall.name(1) + ".dgt")
    os.unlink(hall.name(1) + ".dgt")
    hall.make(2)
    until_line(live, f"  1  {hall.name(1)}.dgt was removed: it is written anew, whole")
    hall.until_plies(3)
    same(bytes_of(hall.name(1) + ".dgt")[: len(before)], before)
    added = Live("", hall.name(1), "--add", "Nc6")
    until(lambda: not added.runs, "the end of --add")
    same(added.process.returncode, 0)
    hall.boards[0].play(moves(0)[3])
    os.unlink(hall.name(2) + ".pgn")
    os.mkdir(hall.name(2) + ".pgn")
    hall.boards[1].play(moves(1)[3])
    until_line(live, f"  2  {hall.name(2)}.pgn can't be written (Is a directory)")
    until_line(live, "  2  NOT WRITTEN, ")
    os.rmdir(hall.name(2) + ".pgn")
    hall.until_plies(4)
    until_line(live, "  2  all is written")
    assert words.DISK_FULL not in live.lines(), live.lines()
    hall.until_round()
    same(stop(live), 0)


def chattering(count: int) -> bytes:
    """A capture of a board that was set up, and one of whose squares chattered then: so many updates."""
    chatter = frame(UPDATE, [52, 0]) + frame(UPDATE, [52, 1])  # e2
    return frame(DUMP, INITIAL) + chatter * (count // 2)


def memory(process: int) -> int:
    """The most that a process has had in memory, KiB."""
    for line in pathlib.Path(f"/proc/{process}/status").read_text().splitlines():
        if line.startswith("VmHWM:"):
            return int(line.split()[1])
    return 0


def large_capture_opened(folder: pathlib.Path) -> None:
    """A capture of 14 MB, of a square that chattered, is opened again: another board's moves are told meanwhile, and it takes no
    more memory than its size several times."""
    hall = Hall(folder, 2)
    hall.games.mkdir()
    content = chattering(2_800_000)
    pathlib.Path(hall.name(1) + ".dgt").write_bytes(content)
    pathlib.Path(hall.name(1) + ".options").write_bytes(b"--white\nWhite 1\n--black\nBlack 1\n")
    live = hall.record()
    readers: List[int] = []

    def are_stopped() -> bool:
        readers[:] = [child for child in live.children() if "--white=White 1" in command(child)]
        for reader in readers:
            signal_to(reader, signal.SIGSTOP)  # and takes as long as the others need
        return bool(readers)

    until(are_stopped, "who reads the capture", 0)
    until_line(live, "  2  agrees")
    for ply in range(4):
        hall.boards[1].play(moves(1)[ply])
        until_line(live, f"  2  {told(1, ply)}")
    # The next move comes while it is read what the reader tells: it is there before the recorder goes on.
    live.send(signal.SIGSTOP)
    for reader in readers:
        signal_to(reader, signal.SIGCONT)
    hall.boards[1].play(moves(1)[4])
    live.send(signal.SIGCONT)
    until_line(live, f"  2  {told(1, 4)}")
    until_line(live, "  1  agrees")
    assert live.lines().index(f"  2  {told(1, 4)}") < live.lines().index("  1  agrees"), live.lines()
    hall.boards[0].play("e2e4")
    hall.until_text(1, "1. e4 *")
    same(stop_and_measure(live, len(content)), [])


def stop_and_measure(live: Live, size: int) -> "list[str]":
    """What was wrong with the memory that it took."""
    most = memory(live.process.pid)
    same(stop(live), 0)
    print(f"   {most // 1024} MiB in memory, for a capture of {size >> 20} MiB", flush=True)
    return [] if most < 120 * 1024 else [f"{most // 1024} MiB in memory"]


def square_that_chatters(folder: pathlib.Path) -> None:
    """A square chatters in a game, at a hundred times the pace of a line: what is kept of it in memory doesn't grow with it."""
    hall = Hall(folder, 1)
    live = hall.record()
    hall.begun(live)
    hall.play(0, 2)
    size = len(bytes_of(hall.name(1) + ".dgt"))

    def chatter(count: int) -> None:
        for number in range(count):
            hall.boards[0].send((frame(UPDATE, [62, 0]) + frame(UPDATE, [62, 3])) * 100)  # g1
            if number % 20 == 19:
                until(lambda: not hall.boards[0].outgoing, "that bytes are read")
        nonlocal size
        size += count * 1000
        until(lambda: len(bytes_of(hall.name(1) + ".dgt")) >= size, "that bytes are kept")

    chatter(100)
    rest(2)
    before = memory(live.process.pid)
    chatter(500)
    hall.boards[0].play(moves(0)[2])
    hall.until_text(1, "1. e4 e5 2. Nf3 *")
    more = (memory(live.process.pid) - before) * 1024 / 500_000
    print(f"   {more:.1f} bytes of memory for each byte", flush=True)
    assert more < 10, f"{more:.1f} bytes of memory for each byte"
    same(stop(live), 0)


def asked_first(folder: pathlib.Path) -> None:
    """A game that goes on is read, and that takes long, since its capture is large: its board is asked before, and no ply of two is lost
    that are played meanwhile. A capture of 48 MiB is said to be large, and its times go on."""
    hall, stuck = Hall(folder, 1), folder / "stuck"
    live = hall.record()
    hall.begun(live)
    hall.play(0, 2)
    same(stop(live), 0)
    time_message = bytes([0x8D, 0, 10, 0, 0x10, 0, 0, 0x10, 0, 0])

    def grow(size: int) -> None:
        with open(hall.name(1) + ".dgt", "ab") as capture:
            capture.write(time_message * ((size - capture.tell()) // len(time_message)))

    grow(LARGE + len(time_message))
    stuck.write_text("live --")  # who reads the capture has options, and who asks the board has none
    before = hall.boards[0].asked.count(b"BK")
    live = hall.record(program=stuck_program(folder, stuck))
    until(lambda: hall.boards[0].asked.count(b"BK") > before, "that the board is asked")
    for move in moves(0)[2:4]:
        hall.boards[0].play(move)
    same(agrees(live, 1), False)
    stuck.unlink()
    hall.until_text(1, "1. e4 e5 2. Nf3 Nc6 *")
    same(stop(live), 0)
    grow((48 << 20) - 200 * len(time_message))
    live = hall.record()

    def is_said() -> bool:
        hall.boards[0].clock(600, 600)
        return live.says("01.dgt has 48 MiB, and none may have more than 64")

    until(is_said, "that it is large", 0.05)
    same(stop(live), 0)
    times = read(hall.name(1))
    same((times.torn, times.total()), (False, len(bytes_of(f"{hall.name(1)}.dgt"))))
