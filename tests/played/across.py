"""Boards across the hall, behind serial servers: ser2net, socat, and servers that a case plays itself."""

import contextlib
import ctypes
import fcntl
import os
import pathlib
import random
import socket
import struct
import subprocess
import time
from typing import Callable, Dict, List, Sequence

import outside
from play_board import EMPTY, field
from played import words
from played.boards import Board
from played.ports import free_port
from played.recorder import Live
from played.stage import (
    RUY,
    RUY_TEXT,
    Skipped,
    Stage,
    a_board,
    begun,
    bytes_of,
    ended,
    movetext,
    refuses,
    rest,
    same,
    stop,
    turn,
    until,
    until_game,
    until_line,
)

NEW_USER, NEW_NETWORK = 0x10000000, 0x40000000  # CLONE_NEWUSER and CLONE_NEWNET of Linux
SET_FLAGS, UP = 0x8914, 1  # SIOCSIFFLAGS and IFF_UP of Linux
KEEPS_ALIVE = {socket.TCP_KEEPIDLE: 5, socket.TCP_KEEPINTVL: 2, socket.TCP_KEEPCNT: 3, 18: 10_000}
NOT_THERE = "isn't there ("


def needs(package: str) -> str:
    """The command of a package that this case needs."""
    if missing := outside.lacks(package):
        raise Skipped(missing)
    return str(outside.path_of(package))


class Server:
    """A serial server of its own for a board, which may be started again on the same port."""

    def __init__(self, command: Callable[[int], Sequence[str]]) -> None:
        self.port = free_port()
        self._command = command
        self.start()

    @property
    def address(self) -> str:
        return f"tcp://127.0.0.1:{self.port}"

    def start(self) -> None:
        self._process = subprocess.Popen(self._command(self.port), stderr=subprocess.DEVNULL)
        until(self._listens, f"a server that listens on port {self.port}")

    def _listens(self) -> bool:
        """Whether it does, without a call that it would notice."""
        wanted = f":{self.port:04X} 00000000:0000 0A"
        return any(wanted in line for line in pathlib.Path("/proc/net/tcp").read_text().splitlines())

    def end(self) -> None:
        self._process.kill()
        self._process.wait()

    def __enter__(self) -> "Server":
        return self

    def __exit__(self, *_: object) -> None:
        self.end()


def ser2net(folder: pathlib.Path, device: str, *options: str) -> Server:
    """As the recipe in the documentation has it."""
    program = needs("ser2net")

    def command(port: int) -> Sequence[str]:
        lines = ["connection: &board", f"  accepter: tcp,127.0.0.1,{port}", f"  connector: serialdev,{device},9600n81,local"]
        lines += ["  options:", *(f"    {option}" for option in options)] if options else []
        (folder / "ser2net.yaml").write_text("\n".join(lines) + "\n")
        return [program, "-n", "-c", str(folder / "ser2net.yaml")]

    return Server(command)


def socat(device: str) -> Server:
    program = needs("socat")
    return Server(lambda port: [program, f"TCP-LISTEN:{port},bind=127.0.0.1,reuseaddr,fork", f"FILE:{device},b9600,raw,echo=0"])


class Served(Board):
    """A board behind a serial server that a case plays. Whoever connects last has the line. `greeting` is sent to each, who is
    hung up on at once where it `hangs_up`. A line that `is_stuck` brings nothing until the next call."""

    def __init__(self, folder: pathlib.Path) -> None:
        self.port = free_port()
        self._listener = None
        self._call = None
        self.greeting = b""
        self.hangs_up = self.is_stuck = False
        self.calls = 0
        super().__init__(folder)
        self.device = f"tcp://127.0.0.1:{self.port}"
        Stage.boards.append(self)

    _listener: "socket.socket | None"
    _call: "socket.socket | None"

    def plug(self) -> None:
        """The server begins to listen."""
        self._listener = listener = socket.socket()
        listener.setsockopt(socket.SOL_SOCKET, socket.SO_REUSEADDR, 1)
        listener.bind(("127.0.0.1", self.port))
        listener.listen(4)
        listener.setblocking(False)

    def hang_up(self) -> None:
        if self._call:
            self._call.close()
        self._call, self.line = None, -1
        self.outgoing.clear()

    def pull(self) -> None:
        """The server goes away; the board keeps its power."""
        if self._listener:
            self._listener.close()
        self._listener = None
        self.hang_up()

    def end(self) -> None:
        self.pull()

    def turn(self) -> None:
        self._accept()
        with contextlib.suppress(BlockingIOError, ConnectionError):
            if self._call and self._call.recv(1, socket.MSG_PEEK | socket.MSG_DONTWAIT) == b"":
                self.hang_up()
        if self.is_stuck:
            return
        try:
            super().turn()
        except ConnectionError:
            self.hang_up()

    def _accept(self) -> None:
        with contextlib.suppress(BlockingIOError):
            while self._listener:
                call, _ = self._listener.accept()
                self.hang_up()
                self.is_stuck = False
                self.calls += 1
                call.setblocking(False)
                self._call, self.line = call, call.fileno()
                with contextlib.suppress(OSError):
                    call.send(self.greeting)
                if self.hangs_up:
                    self.hang_up()

    def flood(self, sent: bytes) -> None:
        """Sends as much as the other end takes."""
        with contextlib.suppress(OSError):
            while self._call:
                self._call.send(sent)


def says_why(live: Live, times: int, why: str) -> None:
    """It has said so often that the board isn't there, the last time with this reason. Where a server has hung up before it has read
    all, the system calls that a reset."""
    until_line(live, NOT_THERE, times)
    last = [line for line in live.lines().splitlines() if NOT_THERE in line][times - 1]
    assert any(f"({one})" in last for one in (why, why.replace("it has hung up", "connection reset by peer"))), last


def behind_ser2net(folder: pathlib.Path) -> None:
    """A board behind ser2net: its game, a server that is killed and comes back, and --devices, which knows nothing of it."""
    board = a_board(folder)
    with ser2net(folder, board.device, "kickolduser: true") as server:
        live = Live(server.address, folder / "game")
        begun(live)
        for number, move in enumerate(RUY[:3]):
            board.clock(600 - number, 600)
            board.play(move)
        until(lambda: "2. Nf3" in movetext(live.name), "three plies")
        server.end()
        says_why(live, 1, "it has hung up")
        assert "look at the serial server, its power and its network; it is tried again and again" in live.lines()
        until_line(live, words.UNPLUGGED)
        board.play(RUY[3])
        server.start()
        until_line(live, words.BACK)
        until(lambda: "Nc6" in movetext(live.name), "the ply that was played meanwhile")
        board.play(RUY[4])
        until(lambda: "Bb5" in movetext(live.name), "the last ply")
        listed = Live("", "", "--devices")
        same(ended(listed), 0)
        assert "no board is plugged in" in listed.lines() and "tcp" not in listed.lines(), listed.lines()
        same(stop(live), 0)
    same(" ".join(word for word in movetext(live.name).split() if "clk" not in word and "]" not in word),
         "1. e4 1... e5 2. Nf3 2... Nc6 3. Bb5 *")  # fmt: skip


def line_in_use(folder: pathlib.Path) -> None:
    """ser2net gives a line to one caller: what it says to the next one is no board's, and is shown as the reason. Once the first
    has hung up, the board is recorded."""
    board = a_board(folder)
    with ser2net(folder, board.device) as server:
        with socket.create_connection(("127.0.0.1", server.port)) as other:
            other.sendall(b"E")
            until(lambda: b"E" in board.asked, "the first caller's request")
            live = Live(server.address, folder / "game")
            says_why(live, 1, "it has hung up, and said 'Port already in use'")
            rest(5)
            same(live.lines().count(NOT_THERE), 1)
        begun(live)
        assert b"Port" not in bytes_of(folder / "game.dgt")
        board.play("e2e4")
        until_game(live.name, "1. e4 *")
        same(stop(live), 0)


def behind_socat(folder: pathlib.Path) -> None:
    """A board behind socat, whose host has a name. A second call with the same address in other letters is refused while the first
    one records, and may record afterwards."""
    board = a_board(folder)
    with socat(board.device) as server:
        address = f"localhost:{server.port}"
        live = Live(f"tcp://{address}", folder / "game")
        begun(live)
        refuses(Live(f"TCP://{address.upper()}/", folder / "other"), 3, words.ANOTHER_RECORDER)
        for number, move in enumerate(RUY):
            board.play(move)
            until(lambda: len(movetext(live.name).split()) > number, f"ply {number + 1}")
        until_game(live.name, RUY_TEXT)
        same(stop(live), 0)
        again = Live(f"tcp://{address}", live.name)
        begun(again)
        until_game(live.name, RUY_TEXT)
        same(stop(again), 0)


def slow_line(folder: pathlib.Path) -> None:
    """A line that takes 300 bytes a second, and a board whose dumps come 0.6 s late: the game is whole."""
    board = Served(folder)
    board.rate, board.answers_after = 300, 0.6
    live = Live(board.device, folder / "game")
    begun(live)
    text = ["1. e4", "e5", "2. Nf3", "Nc6", "3. Bb5"]
    for number, move in enumerate(RUY):
        board.play(move)
        until_game(live.name, " ".join([*text[: number + 1], "*"]))
    same(stop(live), 0)


def server_goes_away(folder: pathlib.Path) -> None:
    """A server that isn't there yet, then is; goes away with and without a board's last word; and takes calls that it hangs up
    at once, again and again: that is said once."""
    board = Served(folder)
    board.pull()
    live = Live(board.device, folder / "game")
    says_why(live, 1, "connection refused")
    assert "Is it another address? Ctrl-C, and type that one" in live.lines(), live.lines()
    board.plug()
    begun(live)
    board.play("e2e4")
    until_game(live.name, "1. e4 *")
    board.hangs_up = True
    board.hang_up()
    says_why(live, 2, "it has hung up")
    calls = board.calls
    until(lambda: board.calls > calls + 3, "four more calls")
    same(live.lines().count(NOT_THERE), 2)
    same(live.lines().count(words.BACK), 1)
    board.hangs_up = False
    until_line(live, words.BACK, 2)
    board.play("e7e5")
    until_game(live.name, "1. e4 e5 *")
    same(stop(live), 0)


def not_waited_for(folder: pathlib.Path) -> None:
    """With --once a server that was never reached isn't said to have gone away, nor is a device that isn't plugged in: the line says
    why, and what to look at. One that was there has gone away, and the line says why."""
    board = Served(folder)
    board.pull()
    live = Live(board.device, folder / "game", "--once")
    refuses(live, 3, f"{board.device} isn't there (connection refused): look at the serial server, its power, its network and its address\n")
    assert words.GONE_AWAY not in live.complaint() + live.lines(), live.complaint()
    board.plug()
    live = Live(board.device, folder / "game", "--once")
    begun(live)
    board.play("e2e4")
    until_game(live.name, "1. e4 *")
    board.pull()
    refuses(live, 3, f"{board.device} {words.GONE_AWAY} (it has hung up); what was played is in {live.name}.pgn\n")
    live = Live(folder / "nowhere", folder / "game", "--once")
    refuses(live, 3, f"{folder}/nowhere isn't there: plug it in; dgt_live --devices lists what is there\n")
    same(movetext(live.name), "1. e4 *")


def garbage(folder: pathlib.Path) -> None:
    """A server that sends text, or bytes by the megabyte: nothing of it is in the capture before a board has answered, and little
    afterwards. A server without a board is SILENT, and its text is no board's. The game goes on."""
    board = Served(folder)
    noise = random.Random(1).randbytes(4096)
    board.on, board.greeting = False, b"\r\nDebian GNU/Linux 12 raspberrypi tty1\r\n\r\nraspberrypi login: "
    live = Live(board.device, folder / "game")
    until_line(live, words.SILENT)
    same(bytes_of(folder / "game.dgt"), b"")
    board.flood(noise)
    says_why(live, 1, "it sends faster than a board can")
    same(bytes_of(folder / "game.dgt"), b"")
    board.on, board.greeting = True, b""
    begun(live)
    board.play("e2e4")
    until_game(live.name, "1. e4 *")
    size, begun_at = len(bytes_of(folder / "game.dgt")), time.monotonic()
    calls = board.calls
    while board.calls == calls:
        board.flood(noise)
        turn()
    until_line(live, words.BACK, 2)
    board.play("e7e5")
    until_game(live.name, "1. e4 e5 *")
    most = 70_000 + 2_100 * (time.monotonic() - begun_at)  # what may come together, and what a line may carry meanwhile
    assert len(bytes_of(folder / "game.dgt")) < size + most
    same(stop(live), 0)


def own_network() -> bool:
    """Gives this case a network of its own, in which nothing is up. Whether the system allows that."""
    user, group = os.getuid(), os.getgid()
    library = ctypes.CDLL(None, use_errno=True)
    if library.unshare(NEW_NETWORK) == 0:
        return True
    if library.unshare(NEW_USER | NEW_NETWORK):
        return False
    with contextlib.suppress(OSError):
        pathlib.Path("/proc/self/setgroups").write_text("deny")
        pathlib.Path("/proc/self/uid_map").write_text(f"{user} {user} 1")
        pathlib.Path("/proc/self/gid_map").write_text(f"{group} {group} 1")
    return True


def switch_network(on: bool) -> None:
    """The own computer's network is up, or takes and brings nothing any more, without a word to either end."""
    with socket.socket() as line:
        fcntl.ioctl(line, SET_FLAGS, struct.pack("16sH14x", b"lo", UP if on else 0))


def half_open(folder: pathlib.Path) -> None:
    """The network between the two ends is gone, and neither is told: within a quarter of a minute the board is UNPLUGGED, and it
    is recorded again when the network is back. Without a network of its own to switch off, the case asks the system what it
    was told to do."""
    if not own_network():
        asks_what_was_told(folder)
        return
    switch_network(True)
    board = Served(folder)
    live = Live(board.device, folder / "game")
    begun(live)
    board.play("e2e4")
    until_game(live.name, "1. e4 *")
    switch_network(False)
    until_line(live, words.UNPLUGGED)
    switch_network(True)
    until_line(live, words.BACK)
    board.play("e7e5")
    until_game(live.name, "1. e4 e5 *")
    same(stop(live), 0)


def asks_what_was_told(folder: pathlib.Path) -> None:
    """The options of an open connection."""
    from live.line.line import NetworkLine
    from live.run.loop import Guard, Loop

    board = Served(folder)
    loop = Loop()
    seen: Dict[int, int] = {}
    line = NetworkLine(board.device)

    def opened(there: bool) -> None:
        with socket.socket(fileno=os.dup(line.number or -1)) as call:
            seen.update({option: call.getsockopt(socket.IPPROTO_TCP, option) for option in KEEPS_ALIVE})
            same((there, call.getsockopt(socket.SOL_SOCKET, socket.SO_KEEPALIVE)), (True, 1))
        loop.stop()

    troubles: List[Exception] = []
    line.connect(Guard(loop, troubles.append, troubles.append), opened)
    loop.run()
    line.close()
    same((seen, troubles), (KEEPS_ALIVE, []))


def server_stops(folder: pathlib.Path) -> None:
    """A server that is there and brings nothing any more: the board is SILENT, until it brings its answers again."""
    board = Served(folder)
    live = Live(board.device, folder / "game")
    begun(live)
    board.deaf = True
    until_line(live, words.SILENT)
    board.deaf = False
    until_line(live, "answers again")
    board.codes[field("e2")], board.codes[field("e4")] = EMPTY, board.codes[field("e2")]
    until_game(live.name, "1. e4 *")
    same(stop(live), 0)


def stuck_line(folder: pathlib.Path) -> None:
    """A line that brings nothing more until somebody calls again, as socat's may: the board is SILENT, the recorder calls again, and
    no other recorder gets the line. That isn't said to be a server that went away."""
    board = Served(folder)
    live = Live(board.device, folder / "game")
    begun(live)
    board.is_stuck = True
    until_line(live, words.SILENT)
    refuses(Live(board.device, folder / "other"), 3, words.ANOTHER_RECORDER)
    until_line(live, "answers again")
    same(board.calls, 2)
    board.play("e2e4")
    until_game(live.name, "1. e4 *")
    assert NOT_THERE not in live.lines(), live.lines()
    board.on = False
    until_line(live, words.SILENT, 2)
    calls = board.calls
    until(lambda: board.calls > calls + 1, "two more calls of a server whose board is off")
    board.on = True
    until_line(live, "answers again", 2)
    board.play("e7e5")
    until_game(live.name, "1. e4 e5 *")
    assert NOT_THERE not in live.lines(), live.lines()
    same(stop(live), 0)


def odd_addresses(folder: pathlib.Path) -> None:
    """What is no address is refused, and a host that isn't known is tried again and again."""
    for address in ("tcp://", "tcp://host", "tcp://host:0", "tcp://host:65536", "tcp://a b:1", "tcp:///dev/ttyUSB0:1"):
        refuses(Live(address, folder / "game"), 3, f"{address} is no address of a serial server: type tcp://HOST:PORT")
    live = Live("tcp://no-such-host.invalid:2001", folder / "game")
    until_line(live, f"{NOT_THERE}the host no-such-host.invalid isn't known (")
    same(stop(live), 0)


CASES = [
    half_open,
    stuck_line,
    garbage,
    server_stops,
    server_goes_away,
    not_waited_for,
    line_in_use,
    behind_ser2net,
    behind_socat,
    slow_line,
    odd_addresses,
]
