"""What others do beside a recorder: calls that add at the same time, links and pipes in the place of its files, another user's
process in the place of its socket, and the terminal in the place of a board."""

import fcntl
import os
import pathlib
import signal
import subprocess
import sys

from played import TOP, words
from played.added import add
from played.recorder import LIVE, Live, has_open
from played.stage import (
    RUY,
    RUY_TEXT,
    Skipped,
    a_board,
    begin_game,
    begun,
    bytes_of,
    check,
    ended,
    movetext,
    recorded,
    refuses,
    same,
    stop,
    until,
    until_game,
    until_line,
)

NOBODY = 65534
# Takes the socket of a capture as the user UID, says so, and gives every call the same answer.
IMPOSTOR = """
import os, socket, sys
sys.path.insert(0, {top!r})
from live.board.calls import address
name = address(os.open({capture!r}, os.O_RDONLY))
os.setuid({user})
listens = socket.socket(socket.AF_UNIX, socket.SOCK_SEQPACKET)
listens.bind(name)
listens.listen(8)
print("there", flush=True)
while True:
    call, _ = listens.accept()
    call.recv(4096)
    try:
        call.send({answer!r})
    except OSError:
        pass
    call.close()
"""


def over(folder: pathlib.Path) -> str:
    """The name of a game of two plies that nobody records any more."""
    _, live = begin_game(folder)
    same(stop(live), 0)
    return live.name


def added_side_by_side(folder: pathlib.Path) -> None:
    """Six calls add two plies each at the same time: none of them is lost."""
    name = over(folder)
    pairs = [f"{side}3 {side}6" for side in "abcdgh"]  # legal in any order
    calls = [subprocess.Popen([LIVE, "--add", pair, name], stderr=subprocess.PIPE) for pair in pairs]
    until(lambda: all(call.poll() is not None for call in calls), "the end of six calls of --add")
    same([(call.returncode, call.stderr.read() if call.stderr else b"") for call in calls], [(0, b"")] * 6)
    same(check(bytes_of(f"{name}.pgn")), "moves 14, result *")
    same(recorded(bytes_of(f"{name}.dgt"), name), bytes_of(f"{name}.pgn"))
    same((folder / "game.log").read_text().count("added by hand"), 6)


def replaced_while_locked(folder: pathlib.Path) -> None:
    """A recorder waits for the lock of a capture, and a new one takes its place meanwhile: it records into the new one."""
    name = over(folder)
    capture = pathlib.Path(f"{name}.dgt")
    before = bytes_of(capture)
    with open(capture, "rb") as old:
        fcntl.flock(old, fcntl.LOCK_EX)
        board = a_board(folder, device=folder / "another")
        for move in RUY[:2]:
            board.play(move)
        live = Live(board.device, name)
        until(lambda: has_open(live.process.pid, capture), "that it waits for the lock")
        (folder / "new").write_bytes(before + bytes([0x93, 0, 3]))
        (folder / "new").replace(capture)
    until(lambda: board.asked_for_updates, "a request for updates")
    board.play("g1f3")
    until_game(name, "1. e4 e5 2. Nf3 *")
    same(stop(live), 0)
    kept = bytes_of(capture)
    assert kept.startswith(before) and len(kept) > len(before) + 3, "the new capture has what came"
    same(recorded(kept, name), bytes_of(f"{name}.pgn"))


def text_is_a_folder(folder: pathlib.Path) -> None:
    """A folder takes the place of NAME.pgn: the end says that, and asks nobody about the disk."""
    board, live = begin_game(folder)
    os.unlink(f"{live.name}.pgn")
    os.mkdir(f"{live.name}.pgn")
    board.play("g1f3")
    until_line(live, f"{live.name}.pgn can't be written (Is a directory)")
    live.send(signal.SIGINT)
    refuses(live, 3, f"dgt_live: {live.name}.pgn can't be written (Is a directory): put that right\n")


def removed_while_locked(folder: pathlib.Path) -> None:
    """The capture whose lock a recorder waits for is moved away: it begins another one, and none that has no name."""
    name = over(folder)
    capture = pathlib.Path(f"{name}.dgt")
    with open(capture, "rb") as old:
        fcntl.flock(old, fcntl.LOCK_EX)
        board = a_board(folder, device=folder / "another")
        live = Live(board.device, name)
        until(lambda: has_open(live.process.pid, capture), "that it waits for the lock")
        for ending in ("dgt", "pgn", "log", "options"):
            os.rename(f"{name}.{ending}", folder / f"away.{ending}")
    begun(live)
    board.play("e2e4")
    until_game(name, "1. e4 *")
    same(stop(live), 0)
    same(recorded(bytes_of(capture), name), bytes_of(f"{name}.pgn"))


def links_beside(folder: pathlib.Path) -> None:
    """Links stand where the new text, the new options and the new capture are made: what they lead to stays as it was. What a
    call that was killed has left there is made anew."""
    kept = folder / "kept"
    kept.write_text("precious")
    board = a_board(folder)
    for ending in ("pgn.new", "options.new", "dgt.new"):  # the last one is for what is added
        (folder / f"game.{ending}").symlink_to(kept)
    live = Live(board.device, folder / "game", "--white", "Anna")
    begun(live)
    for number, move in enumerate(RUY):
        if number % 2:
            (folder / "game.pgn.new").write_text("left by a call that was killed, and longer than a game\n" * 40)
        else:
            (folder / "game.pgn.new").symlink_to(kept)
        board.play(move)
        until(lambda: check(bytes_of(f"{live.name}.pgn")) == f"moves {number + 1}, result *", move)
    same(movetext(live.name), RUY_TEXT)
    same(stop(live), 0)
    (folder / "game.end.new").symlink_to(kept)
    same(add(folder, "1-0", live.name).returncode, 0)
    same(movetext(live.name), RUY_TEXT.replace("*", "1-0"))
    same(kept.read_text(), "precious")
    same([path.name for path in folder.glob("*.new")], [])


def pipes_beside(folder: pathlib.Path) -> None:
    """A pipe stands in the place of a file of the game: each call ends with a word, and none waits for the pipe. Where it stands
    for the log or the text a game is recorded all the same."""
    for ending in ("dgt", "options", "end"):
        place = folder / ending
        place.mkdir()
        name = over(place)
        pathlib.Path(f"{name}.{ending}").unlink(missing_ok=True)
        os.mkfifo(f"{name}.{ending}")
        device = a_board(place, device=place / "another").device
        calls = [Live(device, name), Live("", name, "--recover"), Live("", "", "--add", "1-0", name)]
        for call in calls:
            assert ended(call) in (1, 3), (ending, call.lines())
            assert "Traceback" not in call.complaint() and f"game.{ending}" in call.complaint(), call.complaint()
    board = a_board(folder)
    for ending in ("log", "pgn"):
        os.mkfifo(folder / f"game.{ending}")
    (folder / "game.dgt").touch()
    live = Live(board.device, folder / "game")
    begun(live)
    board.play("e2e4")
    until_game(live.name, "1. e4 *")
    same(stop(live), 0)


def impostor(name: str, answer: bytes, user: int) -> "subprocess.Popen[bytes]":
    """A process of this user that has the socket of a game."""
    script = IMPOSTOR.format(top=str(TOP), capture=f"{name}.dgt", user=user, answer=answer)
    process = subprocess.Popen([sys.executable, "-c", script], stdout=subprocess.PIPE)
    assert process.stdout is not None
    same(process.stdout.readline(), b"there\n")
    return process


def answers_of_others(folder: pathlib.Path) -> None:
    """Another user's process answers in the place of a recorder: nobody believes it. What a recorder answers is printed without
    control characters."""
    name = over(folder)
    lies = b"\0added to game: \x1b[2J1-0"
    process = impostor(name, lies, os.getuid())
    answer = add(folder, "1-0", name)
    process.terminate()
    process.wait()
    same((answer.returncode, answer.stdout), (0, b"dgt_live: added to game: ?[2J1-0\n"))
    if os.getuid():
        raise Skipped("only an administrator can play another user")
    process = impostor(name, lies, NOBODY)
    answer = add(folder, "0-1", name)
    same((answer.returncode, movetext(name)), (0, "1. e4 e5 0-1"))
    process.terminate()
    process.wait()
    # The recorder finds the name taken: it records, and a call that adds is told that the game is in use.
    folder = folder / "second"
    folder.mkdir()
    name = over(folder)
    process = impostor(name, lies, NOBODY)
    board = a_board(folder, device=folder / "another")
    for move in RUY[:2]:
        board.play(move)
    live = Live(board.device, name)
    begun(live)
    answer = add(folder, "1-0", name)
    same(answer.returncode, 1)
    assert words.ANOTHER_RECORDER.encode() in answer.stderr, answer.stderr.decode()
    process.terminate()
    process.wait()
    same(stop(live), 0)


def own_terminal(folder: pathlib.Path) -> None:
    """The terminal in which it is typed is no board: it is refused, by each of its names, and Ctrl-C is still heard."""
    (folder / "board").symlink_to("/dev/tty")
    live = Live("/dev/tty", folder / "game")  # without a terminal
    refuses(live, 3, "/dev/tty is this terminal, and no board")
    for device in ("/dev/tty", folder / "board", "/proc/self/fd/0"):
        live = Live(device, folder / "game", terminal=True)
        until(lambda: not live.runs, "its end")
        same((live.process.returncode, "is this terminal, and no board" in live.lines()), (3, True))
    same([path.name for path in folder.glob("game*")], [])
