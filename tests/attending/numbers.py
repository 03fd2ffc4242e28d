"""Devices that are asked for their boards' numbers, by `ask` of live/board/connection.py: what a far end sends to each request, and which
numbers are found. It asks in a thread, and the case plays the far ends."""

import concurrent.futures
import contextlib
import fcntl
import os
import pathlib
import struct
import sys
import tempfile
import termios
import time
import tty
from typing import Dict, Iterator, List, Sequence, Set

from live.board.connection import NOBODY, Asked, ask
from live.child.program import Program

from attending.pictures import INITIAL, dump, picture
from decided.table import same
from given.case import program

DUMP = dump(picture(INITIAL))
LONG = 120.0  # seconds that no case takes
SHORT = 1.5  # where nothing is found
SOME = 10.0  # where some are found, also on a machine that has much else to do
UPDATE = b"\x8e\x00\x05\x34\x00"
DEADLY = b"\x9f\x00\x05\x7d\x7e"  # a message at which a program ends
PAUSE = 0.002

# A program that ends when a board has sent DEADLY: each time, or once.
DYING = """#!{python}
import os, subprocess, sys
child = subprocess.Popen([{program!r}, *sys.argv[1:]], stdin=subprocess.PIPE, bufsize=0)
while True:
    part = os.read(0, 65536)
    if not part:
        break
    if {deadly!r} in part and not ({once!r} and os.path.exists({died!r})):
        if {once!r}:
            open({died!r}, "w").close()
        os._exit(9)
    child.stdin.write(part)
child.stdin.close()
os._exit(child.wait())
"""


def dying(folder: str, once: bool) -> str:
    """The path of such a program."""
    path = pathlib.Path(folder, f"dying once: {once}")
    died = os.path.join(folder, "died")
    path.write_text(DYING.format(python=sys.executable, program=program(), deadly=DEADLY, died=died, once=once))
    path.chmod(0o755)
    return str(path)


def numbered(text: str) -> bytes:
    """The message with a number."""
    return b"\x91\x00\x08" + text.encode()


class Far:
    """The far end of a device. To each request it sends the next of these answers, in parts: each when the one before was read. Without
    a request it sends what comes `first`."""

    def __init__(self, *answers: Sequence[bytes], first: bytes = b"") -> None:
        self._far, self._near = os.openpty()
        tty.setraw(self._near)
        os.set_blocking(self._far, False)
        self.device = os.ttyname(self._near)
        self.requests: List[str] = []
        self._answers = list(answers)
        self._parts: List[bytes] = [first] if first else []

    def turn(self, answers: bool) -> None:
        """Takes what came. If it answers, it sends the next part."""
        with contextlib.suppress(BlockingIOError):
            self.requests.append(os.read(self._far, 4096).decode())
            self._parts += self._answers.pop(0) if self._answers else ()
        unread = struct.unpack("i", fcntl.ioctl(self._near, termios.FIONREAD, bytes(4)))[0]
        if answers and self._parts and not unread:
            os.write(self._far, self._parts.pop(0))

    def end(self) -> None:
        """It is pulled."""
        os.close(self._far)
        os.close(self._near)


def children() -> Set[str]:
    """The processes that this one has started, and that still run or weren't waited for."""
    found = set()
    for name in filter(str.isdigit, os.listdir("/proc")):
        with contextlib.suppress(OSError):
            if pathlib.Path("/proc", name, "stat").read_text().rpartition(")")[2].split()[1] == str(os.getpid()):
                found.add(name)
    return found


def asked(name: str, fars: Sequence[Far], seconds: float = LONG, path: str = "") -> Asked:
    """What comes of asking these. None of them answers before each was asked."""
    opened, started = os.listdir("/proc/self/fd"), children()
    with concurrent.futures.ThreadPoolExecutor(1) as pool:
        asking = pool.submit(ask, Program(path or program()), [far.device for far in fars], seconds)
        while not asking.done():
            for far in fars:
                far.turn(answers=all(one.requests for one in fars))
            time.sleep(PAUSE)
        found = asking.result()
    same(f"{name}: nothing stays open", len(os.listdir("/proc/self/fd")), len(opened))
    same(f"{name}: no child is left", children() - started, set())
    return found


@contextlib.contextmanager
def plugged(*fars: Far) -> Iterator[Sequence[Far]]:
    """These, as long as they are needed."""
    try:
        yield fars
    finally:
        for far in fars:
            far.end()


def answers() -> None:
    """What a board sends, and its number."""
    whole = DUMP + numbered("01234")
    cases: Dict[str, Sequence[bytes]] = {
        "the number alone": [numbered("01234")],
        "behind the dump": [whole],
        "byte by byte": [whole[at : at + 1] for at in range(len(whole))],
        "in pieces": [whole[:40], whole[40:69], whole[69:72], whole[72:]],
        "before the dump": [numbered("01234") + DUMP],
        "behind noise": [b"login: \r\n\x00\x7f", b"\xff\x80\x91", numbered("01234")],
        "behind one that was cut": [numbered("01235")[:7] + numbered("01234")],
        "behind messages of other sizes": [b"\x91\x00\x07\x30\x31\x32\x33" + b"\x91\x00\x09012345" + numbered("01234")],
        "behind one that can't be read": [numbered("0 234") + numbered("\x7f0123") + numbered("01234")],
        "behind many dumps": [DUMP * 9, numbered("01234")],
        "with letters": [numbered("A!~z9")],
    }
    for name, parts in cases.items():
        with plugged(Far(parts)) as (far,):
            number = "A!~z9" if name == "with letters" else "01234"
            same(name, asked(name, [far]), Asked({far.device: number}))
            same(f"{name}: it was asked", far.requests[0], "EBK")


def lost_answers() -> None:
    """The number doesn't come, or is spoiled on its way: it is asked for again, and no oftener than the board would be in a game."""
    cases: Dict[str, Sequence[Sequence[bytes]]] = {
        "the answer is lost": [[], [DUMP + numbered("01234")]],
        "the number is lost": [[DUMP], [DUMP + numbered("01234")]],
        "a byte of it is lost": [[DUMP, b"\x91\x00\x080123"], [numbered("01234") + DUMP]],
    }
    for name, parts in cases.items():
        with plugged(Far(*parts)) as (far,):
            same(name, asked(name, [far]).numbers, {far.device: "01234"})
            same(f"{name}: it was asked twice", [len(far.requests), "E" in far.requests[1]], [2, True])


def without_number() -> None:
    """Boards without a number, and what is no board: nothing is found, and the time is over."""
    cases: Dict[str, Sequence[Sequence[bytes]]] = {
        "nothing": [],
        "dumps alone": [[DUMP]] * 9,
        "many dumps": [[DUMP * 9]] * 9,
        "noise": [[b"login: "]] * 9,
        "a message with another beginning": [[DUMP + b"\x90\x00\x0801234"]] * 9,
        "the number that stands for nobody": [[DUMP + numbered(NOBODY.decode())]] * 9,
    }
    for name, parts in cases.items():
        with plugged(Far(*parts)) as (far,):
            begun = time.monotonic()
            same(name, asked(name, [far], SHORT), Asked())
            same(f"{name}: as long as it may take", time.monotonic() - begun >= SHORT, True)


def side_by_side() -> None:
    """Several devices are asked at once: each has its number, and one that is gone or gives none holds up no other."""
    numbers = [f"{number:05}" for number in range(1, 6)]
    with plugged(*(Far([DUMP[:30], DUMP[30:] + numbered(number)]) for number in numbers)) as fars:
        same("each has its own", asked("five", fars).numbers, {far.device: number for far, number in zip(fars, numbers)})
    with plugged(Far([DUMP + numbered("00001")]), Far([DUMP]), Far([UPDATE + numbered("00003")])) as fars:
        expected = {fars[0].device: "00001", fars[2].device: "00003"}
        same("one gives none", asked("one gives none", fars, SOME).numbers, expected)
    with plugged(Far([DUMP + numbered("00001")])) as (far,):
        missing = ask(Program(program()), ["/dev/no-such-device"], SHORT)
        same("a device that isn't there", missing, Asked())
        line = os.open(far.device, os.O_RDWR | os.O_NOCTTY)
        fcntl.flock(line, fcntl.LOCK_EX)
        same("one that another call has", ask(Program(program()), [far.device], SHORT), Asked(in_use={far.device}))
        same("that isn't asked", far.requests, [])
        os.close(line)


def children_that_die() -> None:
    """A child that ends is started again, and told what it was told. One that ends again and again costs its own device."""
    with tempfile.TemporaryDirectory() as folder:
        for once in (True, False):
            with plugged(Far([DUMP, numbered("00001")[:5], numbered("00001")[5:] + DEADLY]), Far([DUMP + numbered("00002")])) as fars:
                first = {fars[0].device: "00001"} if once else {}
                found = asked(f"dies once: {once}", fars, path=dying(folder, once))
                same(f"dies once: {once}", found.numbers, {**first, fars[1].device: "00002"})
                same(f"why, {once}", found.failed, {} if once else {fars[0].device: "live ended with status 9"})
        with plugged(Far(), Far()) as fars:
            found = ask(Program(os.path.join(folder, "nothing")), [far.device for far in fars], LONG)
            why = "live can't be started (No such file or directory)"
            same("no program", found, Asked(failed={far.device: why for far in fars}))
        with plugged(Far()) as (far,):  # it is given up only after that time
            found = ask(Program(os.path.join(folder, "nothing")), [far.device])
            same("no program, in the time that a list takes", found, Asked(failed={far.device: why}))


TABLES = [answers, lost_answers, without_number, side_by_side, children_that_die]
