"""A disk that is full, before a game and in its midst, and has room again; a capture that is as long as it may be."""

import contextlib
import os
import pathlib
import signal
import subprocess

from play_board import INITIAL, frame
from played import words
from played.boards import Board
from played.recorder import Live
from played.stage import (
    RUY,
    RUY_TEXT,
    Skipped,
    a_board,
    begun,
    bytes_of,
    check,
    ended,
    go_on,
    movetext,
    refuses,
    rest,
    same,
    stop,
    until,
    until_game,
    until_line,
)

LONGEST = 67_108_864  # bytes of a capture


def fill(board: Board, live: Live, text: object) -> None:
    """Plays five plies, and sends times until it says that the disk is full."""
    begun(live)
    for number, move in enumerate(RUY):
        board.play(move)
        until(lambda: check(bytes_of(text)) == f"moves {number + 1}, result *", move)

    def is_full() -> bool:
        board.clock(600, 600)
        return live.says(words.DISK_FULL)

    until(is_full, "that the disk is full")


def full_disk(folder: pathlib.Path) -> None:
    """No more bytes can be written, from some byte on: it says so, goes on, and writes all when there is room."""
    board = a_board(folder)
    live = Live(board.device, folder / "game", limit=2000)
    fill(board, live, live.name + ".pgn")
    assert len(bytes_of(live.name + ".dgt")) <= 2000
    game = movetext(live.name)
    board.play("a7a6")
    board.play("b5a4")
    rest(3)
    assert live.runs, live.complaint()
    same(movetext(live.name), game)
    live.make_room()
    until(lambda: check(bytes_of(live.name + ".pgn")) == "moves 7, result *", "the plies of a full disk")
    board.play("g8f6")
    until(lambda: check(bytes_of(live.name + ".pgn")) == "moves 8, result *", "the ply after")
    same(stop(live), 0)
    again = Live(board.device, live.name)
    until_line(again, "4... Nf6")
    same(stop(again), 0)


def full_disk_long(folder: pathlib.Path) -> None:
    """The disk is full for more bytes than are kept in memory: what is played first is kept, a dump makes up for the rest."""
    board = a_board(folder)
    live = Live(board.device, folder / "game", limit=2000)
    fill(board, live, live.name + ".pgn")
    board.play("a7a6")
    board.play("b5a4")
    for number in range(1200):
        board.send(bytes([0x93, 7, 0x68]) + bytes(1000 - 3))
        if number % 8 == 0:
            until(lambda: not board.outgoing, "that bytes are read")
    board.play("g8f6")
    rest(1)
    assert live.runs, live.complaint()
    live.make_room()
    until(lambda: check(bytes_of(live.name + ".pgn")) == "moves 8, result *", "the plies of a full disk")
    board.play("e1g1")
    until(lambda: check(bytes_of(live.name + ".pgn")) == "moves 9, result *", "the ply after")
    same(stop(live), 0)


def full_disk_ended(folder: pathlib.Path) -> None:
    """A signal while the disk is full ends it with status 3 and a complaint; what was kept is kept, and it goes on from it."""
    board = a_board(folder)
    live = Live(board.device, folder / "game", limit=2000)
    fill(board, live, live.name + ".pgn")
    rest(1.5)
    live.send(signal.SIGINT)
    refuses(live, 3, words.TOO_LARGE)
    kept = bytes_of(live.name + ".dgt")
    assert b"Bb5" in bytes_of(live.name + ".pgn")
    board.pull()
    board.plug()
    again = go_on(board, live)
    board.play("a7a6")
    until(lambda: check(bytes_of(live.name + ".pgn")) == "moves 6, result *", "the ply after")
    same(stop(again), 0)
    same(bytes_of(live.name + ".dgt")[: len(kept)], kept)


def full_from_the_start(folder: pathlib.Path) -> None:
    """Not even a game without moves can be written, and then not even the options: nothing is begun."""
    for limit in (50, 0):
        place = folder / str(limit)
        place.mkdir()
        board = a_board(place)
        options = ["--white", "Anna"] if limit == 0 else []
        live = Live(board.device, place / "game", *options, limit=limit)
        refuses(live, 3, words.TOO_LARGE)
        same(board.asked, b"")
        same(bytes_of(live.name + ".pgn"), b"")


def killed_by_limit(folder: pathlib.Path) -> None:
    """The system kills whoever writes past a limit: what was kept is kept, and it goes on when there is room."""
    board = a_board(folder)
    live = Live(board.device, folder / "game", limit=2000, killed_by_limit=True)
    begun(live)
    live.was_killed = True
    for move in RUY:
        board.play(move)
    until_game(live.name, RUY_TEXT)

    def has_ended() -> bool:
        board.clock(600, 600)
        return not live.runs or live.says(words.DISK_FULL)

    until(has_ended, "its end where a limit kills")
    if live.runs:
        live.make_room()
        same(stop(live), 0)
    ended(live)
    kept = bytes_of(live.name + ".dgt")
    board.pull()
    board.plug()
    again = go_on(board, live)
    board.play("a7a6")
    until(lambda: check(bytes_of(live.name + ".pgn")) == "moves 6, result *", "the ply after")
    same(stop(again), 0)
    same(bytes_of(live.name + ".dgt")[: len(kept)], kept)


def full_file_system(folder: pathlib.Path) -> None:
    """A file system that is full: before the first game, and in its midst; then room is made, and nothing was lost."""
    place = folder / "disk"
    place.mkdir()
    user = ["--map-root-user"] if os.getuid() else []
    script = 'mount -t tmpfs -o size=64k none "$1" && echo there && cat'
    with subprocess.Popen(
        ["unshare", *user, "--mount", "sh", "-c", script, "", place],
        stdin=subprocess.PIPE,
        stdout=subprocess.PIPE,
        stderr=subprocess.DEVNULL,
    ) as holder:
        assert holder.stdin is not None and holder.stdout is not None
        if holder.stdout.readline() != b"there\n":
            raise Skipped("no file system may be mounted here")
        user = ["--user", "--preserve-credentials"] if os.getuid() else []
        start = ["nsenter", f"--target={holder.pid}", "--mount", *user]
        inside = pathlib.Path(f"/proc/{holder.pid}/root{place}")
        board = a_board(folder)

        def take(room: int) -> None:
            with open(inside / "other", "wb", buffering=0) as file, contextlib.suppress(OSError):
                while True:
                    file.write(bytes(4096))
            os.truncate(inside / "other", (inside / "other").stat().st_size - room)

        take(0)
        refuses(Live(board.device, place / "game", "--white", "Anna", start=start), 3, words.FULL)
        same(board.asked, b"")
        os.unlink(inside / "other")
        take(28672)
        live = Live(board.device, place / "game", "--white", "Anna", start=start)
        fill(board, live, inside / "game.pgn")
        board.play("a7a6")
        board.play("b5a4")
        rest(2)
        assert live.runs, live.complaint()
        os.unlink(inside / "other")
        until(lambda: check(bytes_of(inside / "game.pgn")) == "moves 7, result *", "the plies of a full disk")
        same(stop(live), 0)
        board.pull()
        board.plug()
        again = Live(board.device, place / "game", start=start)
        until(lambda: board.asked_for_updates, "a request for updates")
        board.play("g8f6")
        until(lambda: check(bytes_of(inside / "game.pgn")) == "moves 8, result *", "the ply after")
        same(stop(again), 0)
        holder.stdin.close()


def longest_capture(folder: pathlib.Path) -> None:
    """The capture reaches 64 MiB: the game ends with all that it has, and it is said why. Started again, it is said again."""
    time_message = bytes([0x8D, 0, 10, 0, 0x10, 0, 0, 0x10, 0, 0])
    front = frame(0x86, INITIAL)
    middle = time_message * ((LONGEST - len(front) - 600) // len(time_message))
    (folder / "game.dgt").write_bytes(front + middle)
    (folder / "game.options").write_bytes(b"")
    board = a_board(folder)
    live = Live(board.device, folder / "game")
    until(lambda: board.asked_for_updates, "a request for updates")
    for move in RUY[:2]:
        board.play(move)
    until(lambda: check(bytes_of(live.name + ".pgn")) == "moves 2, result *", "two plies")

    def has_ended() -> bool:
        board.clock(600, 600)
        return not live.runs

    until(has_ended, "its end")
    ended(live)
    assert words.LIMIT in live.lines() + live.complaint(), live.lines() + live.complaint()
    assert len(bytes_of(live.name + ".dgt")) <= LONGEST
    same(check(bytes_of(live.name + ".pgn")), "moves 2, result *")
    again = Live(board.device, live.name)
    until(lambda: not again.runs, "its end")
    assert words.LIMIT in again.lines() + again.complaint(), again.lines() + again.complaint()
    same(check(bytes_of(live.name + ".pgn")), "moves 2, result *")
