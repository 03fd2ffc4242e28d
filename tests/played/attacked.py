"""What somebody may try who means no good, and what an unlucky hand does: with a page, the files beside a game, typed lines, a part of
the recorder."""

import base64
import contextlib
import pathlib
import re
import socket
import sys
from typing import List

from played import TOP, words
from played.ports import free_port
from played.recorder import Live, command, signal_to
from played.stage import a_board, begin_game, begun, bytes_of, ended, movetext, refuses, rest, same, stop, until, until_game, until_line
from rounds.hall import ROUND, Hall

ADDRESSES, EACH, LOGINS = 8, 40, 10
# Starts the recorder; on its pages no time is over, however slow the machine is.
PATIENT = """
import runpy, sys
sys.dont_write_bytecode, sys.argv = True, sys.argv[1:]
sys.path.insert(0, {top!r})
from live.show import serving
serving.WHOLE = serving.TAKEN = serving.IDLE = 1e6
runpy.run_path(sys.argv[0], run_name="__main__")
"""


def password_of(live: Live) -> str:
    until(lambda: "\n" in live.lines().partition("with any name and the password ")[2], "the password")
    return live.lines().partition("with any name and the password ")[2].split()[0]


def password_in_no_file(folder: pathlib.Path) -> None:
    """The password of the arbiter's page is printed, and is in no file."""
    board = a_board(folder)
    live = Live(board.device, folder / "game", "--arbiter-page", f"0.0.0.0:{free_port()}")
    begun(live)
    password = password_of(live)
    same(re.fullmatch(r"([a-z2-9]{4}-){3}[a-z2-9]{4}", password) is not None, True)
    same(stop(live), 0)
    same([path.name for path in folder.iterdir() if path.is_file() and password.encode() in bytes_of(path)], [])


def half_sent_requests(folder: pathlib.Path) -> None:
    """Eight machines take all places of the arbiter's page with requests that they don't finish, or whose answers they don't read: who
    has the password is served each time, and keeps his place."""
    board, port, script = a_board(folder), free_port(), folder / "patient.py"
    script.write_text(PATIENT.format(top=str(TOP)))
    live = Live(board.device, folder / "game", "--arbiter-page", f"0.0.0.0:{port}", start=[sys.executable, script])
    begun(live)
    word = base64.b64encode(f"arbiter:{password_of(live)}".encode()).decode()
    head = f"GET /state.json HTTP/1.1\r\nHost: 127.0.0.1\r\nAuthorization: Basic {word}\r\n"

    def connected(address: str) -> socket.socket:
        line = socket.create_connection(("127.0.0.1", port), 60, source_address=(address, 0))
        line.setblocking(False)
        return line

    def answer(line: socket.socket) -> bytes:
        came = b""

        def whole() -> bool:
            nonlocal came
            try:
                came += line.recv(65536) or b"\0"
            except BlockingIOError:
                pass
            except ConnectionResetError:
                came += b"\0"
            return b"\0" in came or b"\r\n\r\n" in came

        until(whole, "an answer", 0.0)
        return came[:12]

    stays = connected("127.0.0.20")
    stays.sendall(f"{head.replace('/state.json', '/events')}\r\n".encode())
    same(answer(stays), b"HTTP/1.1 200")
    for part in ("GET / HTTP/1.1\r\nHost: x", "GET / HTTP/1.1\r\nHost: 127.0.0.1\r\n\r\n" * 2000):
        held: List[socket.socket] = []

        def attacks(times: int) -> None:
            for number in range(times):
                held.append(connected(f"127.0.0.{2 + number % ADDRESSES}"))
                with contextlib.suppress(OSError):
                    held[-1].send(part.encode())
            rest(0.3)  # in which they are heard

        attacks(ADDRESSES * EACH)
        served = []
        for _ in range(LOGINS):
            attacks(ADDRESSES)
            line = connected("127.0.0.30")
            line.sendall(f"{head}Connection: close\r\n\r\n".encode())
            served.append(answer(line))
            line.close()
        same(served, [b"HTTP/1.1 200"] * LOGINS)
        with contextlib.suppress(BlockingIOError):
            while True:
                same(stays.recv(65536) != b"", True)
        for line in held:
            line.close()
    same(stop(live), 0)


def names_of_the_pages(folder: pathlib.Path) -> None:
    """The arbiter's page on this computer alone has no password, and answers to no name that others can lead here. No page of somebody
    else may have what is served in it."""
    board, port, arbiters = a_board(folder), free_port(), free_port()
    hosts = ["--page-host", "chess.example.org", "--page", f"127.0.0.1:{port}"]
    for where in (str(arbiters), f"127.0.0.1:{arbiters}", ""):
        live = Live(board.device, folder / "game", *hosts, *(["--arbiter-page", where] if where else []))
        begun(live)
        own = int(live.lines().partition("the arbiter's page is at http://127.0.0.1:")[2].partition("/")[0])
        for at, host, status in (
            (port, "chess.example.org", 200), (port, "localhost", 200), (own, "chess.example.org", 421),
            (own, socket.gethostname().partition(".")[0] + ".local", 421), (own, f"localhost:{own}", 200), (own, f"127.0.0.1:{own}", 200),
        ):  # fmt: skip
            with socket.create_connection(("127.0.0.1", at), 60) as line:
                line.sendall(f"GET /state.json HTTP/1.1\r\nHost: {host}\r\nConnection: close\r\n\r\n".encode())
                came = b""
                while part := line.recv(65536):
                    came += part
            same((at == own, host, came[9:12], b"\r\nCross-Origin-Resource-Policy: same-origin\r\n" in came), (at == own, host, b"%d" % status, True))
        same(stop(live), 0)


def child_killed_often(folder: pathlib.Path) -> None:
    """The process that reports the game is killed as often as the recorder starts it: an alarm says so, and the recording begins again by
    itself; what was played meanwhile is there."""
    board, live = begin_game(folder)
    live.was_killed = True

    def kills() -> bool:
        for child in live.children():
            if "live" in command(child):
                signal_to(child)
        return live.says("NOT RECORDED")

    until(kills, "that it isn't recorded")
    board.play("g1f3")
    until_line(live, words.RECORDS, 2)
    until_game(live.name, "1. e4 e5 2. Nf3 *")
    board.play("b8c6")
    until_game(live.name, "1. e4 e5 2. Nf3 Nc6 *")
    same(stop(live), 0)


def long_line_typed(folder: pathlib.Path) -> None:
    """Of a line of more than 4,096 bytes nothing is done, wherever its words are; the next line counts."""
    board = a_board(folder)
    live = Live(board.device, folder / "game", typed=True)
    begun(live)
    board.play("e2e4")
    until_game(live.name, "1. e4 *")
    for number, line in enumerate((" " * 4096 + "1-0", "1-0" + " " * 4096, " " * 9000 + "q", "1-0 " * 3000), 1):
        live.type(line)
        until_line(live, "a line has at most 4,096 bytes. Nothing of it counts", number)
    refuses(Live("", live.name, "--add", " " * 5000 + "1-0"), 1, "Nothing of it counts")
    refuses(Live("", live.name, "--add", "1-0" + " " * 5000), 1, "Nothing of it counts")
    same(movetext(live.name), "1. e4 *")
    live.type(" " * 4000 + "1-0")
    same(ended(live), 0)
    same(movetext(live.name), "1. e4 1-0")


def links_not_followed(folder: pathlib.Path) -> None:
    """Each file beside a game is a link to one that is precious, or to nothing: nothing is written there, by one board or a round."""
    precious, nowhere = folder / "precious", folder / "nowhere"
    precious.write_bytes(b"mine\n")
    kinds = ("dgt", "pgn", "log", "options", "look", "back", "serial", "end", "times", "began", "delay", "broadcast.pgn", "before.dgt")
    endings = (*kinds, *(f"{kind}.new" for kind in kinds))
    hall = Hall(folder, 2)
    hall.games.mkdir()
    for number, target in ((1, precious), (2, nowhere)):
        for ending in endings:
            pathlib.Path(f"{hall.name(number)}.{ending}").symlink_to(target)
    for name in ("round.pgn", "round.log", "broadcast.pgn", "round.pgn.new", "broadcast.pgn.new", "round.options.new", "round.delay.new"):
        (hall.games / name).symlink_to(precious)
    output = hall.games / "output-late"
    output.mkdir()
    for name in ("broadcast.pgn", "broadcast.pgn.new"):
        (output / name).symlink_to(precious)
    live = hall.record("--delay", "1", typed=True)
    for number in (1, 2):
        until_line(live, f"{number:02}.dgt is a link")
    live.type("q")
    until(lambda: not live.runs, "the end")
    for number in (1, 2):
        pathlib.Path(f"{hall.name(number)}.delay").unlink(missing_ok=True)
        refuses(Live(hall.boards[number - 1].device, hall.name(number)), 3, f"{number:02}.dgt is a link")
        for ending in ("dgt", "end", "options"):
            pathlib.Path(f"{hall.name(number)}.{ending}").unlink()
        pathlib.Path(f"{hall.name(number)}.pgn").unlink()
    live = hall.record("--delay", "0", "--output", "late=1", typed=True)
    hall.begun(live)
    hall.play(0, 3)
    live.type("1 1-0")
    hall.until_text(1, "1. e4 e5 2. Nf3 1-0")
    until(lambda: (output / "broadcast.pgn").is_file() and not (output / "broadcast.pgn").is_symlink(), "the text of the output", 0.05)
    live.type("q")
    until_line(live, "1 game is still being played, and spectators see the last moves at ")
    live.type("q")
    ended(live)
    same(sorted(path.name for path in output.iterdir() if path.is_symlink()), [])
    same((precious.read_bytes(), nowhere.exists()), (b"mine\n", False))


def escapes_in_tables(folder: pathlib.Path) -> None:
    """What a table has is printed without what a terminal would obey: in a pipe, on a dumb terminal, in the log, and where it is refused."""
    escape = "\x1b]0;owned\x07\x1b[2J\x9b31m"
    hall = Hall(folder, 1)
    unplayed = [f"{number},{white},{black},{result}" for number, (white, black, result) in enumerate(
        ((f"Anna{escape}", "bye", ""), (f"Ben{escape}", f"Carl{escape}", "+--"), (f"Dora{escape}", "", "")), 2)]  # fmt: skip
    (folder / "boards.csv").write_text(f"board,device\n1,{hall.boards[0].device}\n{escape},x\n")
    hall.file.write_text("\n".join([f"Club{escape}", "board,white,black,result", "1,Emil,Finn,", *unplayed]) + "\n")
    for is_terminal in (False, True):
        live = hall.record(typed=not is_terminal, terminal=is_terminal, environment={"TERM": "dumb"})
        until_line(live, "agrees")
        until(lambda: live.told.read().count("no game is recorded") >= 2, "the lines without a game")
        if not is_terminal:  # which shows what is typed
            live.type(f"1 {escape}")
            until_line(live, "refused")
        live.type("q")
        same(ended(live), 0)
        said = live.told.read()
        same([letter for letter in said if letter not in "\r\n" and not letter.isprintable()], [])
    odd = folder / f"x{escape}.csv"
    refused = Live(odd, hall.games, program=ROUND)
    until(lambda: not refused.runs, "the end")
    same([letter for letter in refused.complaint() if letter != "\n" and not letter.isprintable()], [])


CASES = [
    password_in_no_file, half_sent_requests, names_of_the_pages, child_killed_often, long_line_typed, links_not_followed, escapes_in_tables,
]  # fmt: skip
