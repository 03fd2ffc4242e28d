"""Runs a publishing command once, as a process of its own: `publish.py` starts this file. A run begins when the one before is
over with all that it started, also if that was begun by a recorder that was killed since. After its time everything that is left of
it is ended.

Usage: one_at_a_time.py SECONDS FILE COMMAND [WORD..]. Standard output gets one word and what belongs to it: `ended STATUS`,
`unstarted WHY`, `late`, or `beside` if the run before goes on.
"""

from __future__ import annotations

import ctypes
import hashlib
import os
import signal
import socket
import struct
import subprocess
import sys
import time
from typing import List, Optional, Sequence, Tuple

LOOK = 0.05  # seconds
OF_AN_OUTPUT = "output-"  # as in live/game/game.py: this file is run alone
SUBREAPER = 36  # PR_SET_CHILD_SUBREAPER of Linux: who loses his parent becomes a child of this process


def name_of(path: str) -> bytes:
    """A socket's name for a file. It has no file itself, and is free again however its owner ends. The folder of an output may be
    removed and made anew meanwhile, so the one above it counts."""
    place, last = os.path.split(path)
    if os.path.basename(place).startswith(OF_AN_OUTPUT):
        place, last = os.path.dirname(place), f"{os.path.basename(place)}/{last}"
    folder = os.stat(place or ".")
    digest = hashlib.blake2b(os.fsencode(last), digest_size=8).hexdigest()
    return f"\0dgt_publish-{folder.st_dev:x}-{folder.st_ino:x}-{digest}".encode()


def owner_of(name: bytes) -> int:
    """The user whose process has this name. Raises OSError if there is none any more."""
    with socket.socket(socket.AF_UNIX) as call:
        call.setblocking(False)  # nobody answers: many calls would wait
        call.connect(name)
        _, user, _ = struct.unpack("3i", call.getsockopt(socket.SOL_SOCKET, socket.SO_PEERCRED, 12))
        return int(user)


def take(name: bytes, ends: float) -> Optional[socket.socket]:
    """Takes the name, when the run before is over; None if it isn't by then. A name that another user has counts for nothing."""
    own = socket.socket(socket.AF_UNIX)
    while True:
        try:
            own.bind(name)
            own.listen()
            return own
        except OSError:
            try:
                if owner_of(name) != os.getuid():
                    return own
            except OSError:
                pass  # it has just ended, or many ask
        if time.monotonic() >= ends:
            return None
        time.sleep(LOOK)


def descendants(top: int) -> List[int]:
    """All processes that a process has started, and those that they have started."""
    parents: List[Tuple[int, int]] = []
    for name in filter(str.isdigit, os.listdir("/proc")):
        try:
            with open(f"/proc/{name}/stat", "rb") as file:
                parents.append((int(name), int(file.read().rpartition(b")")[2].split()[1])))
        except OSError:
            pass  # it has ended
    found = [top]
    for process in found:
        found += [child for child, parent in parents if parent == process]
    return found[1:]


def end_all() -> None:
    """Ends all that this process has started."""
    while True:
        for process in descendants(os.getpid()):
            try:
                os.kill(process, signal.SIGKILL)
            except OSError:
                pass  # it has ended, or isn't this user's
        if not reap(None)[1]:
            return
        time.sleep(LOOK)


def reap(child: Optional[int]) -> Tuple[Optional[int], bool]:
    """The exit status of this child if it has just ended, and whether any process is left."""
    status: Optional[int] = None
    try:
        while True:
            ended, how = os.waitpid(-1, os.WNOHANG)
            if ended == 0:
                return status, True
            if ended == child:
                status = os.waitstatus_to_exitcode(how)
    except ChildProcessError:
        return status, False


def tell(text: str) -> None:
    """Answers, unless nobody hears it any more."""
    try:
        os.write(1, f"{text}\n".encode())
    except OSError:
        pass


def main(arguments: Sequence[str]) -> int:
    seconds, path, *words = arguments
    own = take(name_of(path), time.monotonic() + float(seconds))
    if own is None:
        tell("beside")
        return 1
    for number in (signal.SIGINT, signal.SIGTERM, signal.SIGHUP):
        signal.signal(number, lambda *_: sys.exit(1))
    ctypes.CDLL(None).prctl(SUBREAPER, 1, 0, 0, 0)
    ends = time.monotonic() + float(seconds)
    try:
        child = subprocess.Popen([*words, path], stdin=subprocess.DEVNULL, stdout=subprocess.DEVNULL, start_new_session=True)
    except OSError as error:
        tell(f"unstarted {error.strerror}")
        return 1
    os.dup2(0, 2)  # its standard error ends with the command
    is_told, goes_on = False, True
    try:
        while goes_on and time.monotonic() < ends:
            status, goes_on = reap(child.pid)
            if status is not None:
                tell(f"ended {status}")
                is_told = True
            if goes_on:
                time.sleep(LOOK)
    finally:
        end_all()
    if not is_told:
        tell("late")
    return 0


if __name__ == "__main__":
    sys.exit(main(sys.argv[1:]))
