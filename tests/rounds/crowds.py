"""Readers of a round's page who take what boards need: descriptors, and time."""

import pathlib
import resource
import signal
import socket
import subprocess
import sys
import time
import urllib.parse
from typing import List, Tuple

from played import TOP
from played.ports import free_port
from played.recorder import Live, signal_to
from played.stage import same, stop, turn, until, until_line
from rounds.hall import Hall, moves, told

FEW = 256  # descriptors
READERS = 320
PIPELINING = 100
PATIENCE = 300  # seconds
REQUEST = b"GET /state.json HTTP/1.1\r\nHost: localhost\r\n\r\n"
LIMITED = """
import os, resource, sys
resource.setrlimit(resource.RLIMIT_NOFILE, ({soft}, {hard}))
os.execv(sys.argv[1], sys.argv[1:])
"""
# Runs a recorder, and writes how many requests of one reader it has answered in a turn of its loop, each time that there were more.
COUNTING = """
import collections, runpy, sys
sys.path.insert(0, {top!r})
from live.run import loop
from live.show import serving
counts, most = collections.Counter(), 0
counted = open({counted!r}, "w", buffering=1)
answer, ready = serving.Reader._answer, loop.Loop._ready
def answers(reader, request):
    counts[reader] += 1
    answer(reader, request)
def turns(one):
    global most
    if max(counts.values(), default=0) > most:
        most = max(counts.values())
        print(most, file=counted)
    counts.clear()
    return ready(one)
serving.Reader._answer, loop.Loop._ready = answers, turns
sys.argv = sys.argv[1:]
runpy.run_path(sys.argv[0], run_name="__main__")
"""
# Sends requests over many connections as fast as they are taken, and reads the answers of every other one.
PIPELINES = """
import select, socket, sys
address = (sys.argv[1], int(sys.argv[2]))
lines = [socket.create_connection(address) for _ in range({count})]
waiting = dict.fromkeys(lines, {request!r} * 500)
for line in lines:
    line.setblocking(False)
print("there", flush=True)
while lines:
    readable, writable, _ = select.select(lines[1::2], lines, [])
    for line in readable + writable:
        try:
            if line in readable:
                line.recv(65536)
            if line in writable:
                waiting[line] = waiting[line][line.send(waiting[line]):] or {request!r} * 500
        except BlockingIOError:
            pass
        except OSError:
            lines = [one for one in lines if one is not line]
"""


def page_of(live: Live) -> Tuple[str, int]:
    """Where the page is served."""
    until(lambda: "\n" in live.lines().partition("the round is shown at ")[2], "where the page is")
    parts = urllib.parse.urlsplit(live.lines().partition("the round is shown at ")[2].split()[0])
    return str(parts.hostname), int(parts.port or 80)


def limited(folder: pathlib.Path, hall: Hall, soft: int, hard: int, *options: str) -> Live:
    """The round with so many descriptors, and so many at most."""
    script = folder / "limited.py"
    script.write_text(LIMITED.format(soft=soft, hard=hard))
    return hall.record("--page", str(free_port()), *options, start=[sys.executable, script])


def connected(address: Tuple[str, int], count: int) -> List[socket.socket]:
    """So many readers, each of whom asks for the events, and takes what comes."""
    lines = []
    for _ in range(count):
        line = socket.create_connection(address, PATIENCE)
        line.sendall(b"GET /events HTTP/1.1\r\nHost: localhost\r\n\r\n")
        lines.append(line)
        turn(0)
    return lines


def statuses(lines: List[socket.socket]) -> List[bytes]:
    """What each is answered first: 200, 503 or nothing."""
    answers = []
    for line in lines:
        line.settimeout(PATIENCE)
        try:
            answers.append(line.recv(12)[9:])
        except OSError:
            answers.append(b"")
        turn(0)
    return answers


def many_readers(folder: pathlib.Path) -> None:
    """320 readers come, and there are 256 descriptors: as many are shown the page as leave the boards what these may need, the
    others are told to come later. All boards play on, their parts are started again, and more boards begin."""
    hall = Hall(folder, 8)
    lines = hall.file.read_text().splitlines()
    hall.file.write_text("\n".join(lines[:5]) + "\n")  # four boards at first
    live = limited(folder, hall, FEW, FEW)
    for number in range(1, 5):
        until_line(live, f"{number:>3}  agrees")
    readers = connected(page_of(live), READERS)
    hall.play(0, 2, [0, 1, 2, 3])
    answers = statuses(readers)
    print(f"   {answers.count(b'200')} readers were shown the page, {answers.count(b'503')} told to come later", flush=True)
    assert answers.count(b"200") >= 16, answers
    live.was_killed = True
    for child in live.children():
        signal_to(child)
    hall.play(2, 4, [0, 1, 2, 3])
    hall.file.write_text("\n".join(lines) + "\n")
    live.send(signal.SIGHUP)
    hall.begun(live)
    hall.play(0, 4, [4, 5, 6, 7])
    hall.play(4, 6)
    hall.until_round()
    for board in hall.boards:
        board.pull()
    for board in hall.boards:
        board.plug()
    until(lambda: all(board.asked_for_updates for board in hall.boards), "a request on each board")
    hall.play(6, 8)
    assert "isn't recorded" not in live.lines(), live.lines()
    same(stop(live), 0)
    for reader in readers:
        reader.close()


def limit_raised(folder: pathlib.Path) -> None:
    """A shell gives 48 descriptors and would give more: eight boards and their readers have enough."""
    hall = Hall(folder, 8)
    live = limited(folder, hall, 48, resource.getrlimit(resource.RLIMIT_NOFILE)[1])
    hall.begun(live)
    readers = connected(page_of(live), 40)
    hall.play(0, 2)
    same(statuses(readers), [b"200"] * 40)
    for reader in readers:
        reader.close()
    hall.until_round()
    same(stop(live), 0)


def pipelining_readers(folder: pathlib.Path) -> None:
    """100 readers send requests as fast as they can, and half of them take no answer: in a turn of the loop none has more than two
    answers, so that each board has its turn, and each move is told."""
    hall = Hall(folder, 4)
    script, counted = folder / "counting.py", folder / "counted"
    script.write_text(COUNTING.format(top=str(TOP), counted=str(counted)))
    live = hall.record("--page", str(free_port()), start=[sys.executable, script])
    hall.begun(live)
    host, port = page_of(live)
    pipelines = PIPELINES.format(count=PIPELINING, request=REQUEST)
    hostile = subprocess.Popen([sys.executable, "-c", pipelines, host, str(port)], stdout=subprocess.PIPE)
    try:
        assert hostile.stdout is not None
        same(hostile.stdout.readline(), b"there\n")
        waits = []
        for ply in range(8):
            for number in range(4):
                if ply < len(moves(number)):
                    begun = time.monotonic()
                    hall.make(ply, [number])
                    until_line(live, f"{number + 1:>3}  {told(number, ply)}")
                    waits.append(time.monotonic() - begun)
        waits.sort()
        print(f"   from a hand to its line: {waits[len(waits) // 2]:.2f} s (median), {waits[-1]:.2f} s at most", flush=True)
        same(hostile.poll(), None)
    finally:
        hostile.kill()
        hostile.wait()
    hall.until_round()
    same(stop(live), 0)
    most = int(counted.read_text().split()[-1])
    assert most <= 2, f"{most} answers to one reader in a turn of the loop"
