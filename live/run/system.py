"""What the system has to give: descriptors, of which boards get theirs before readers of a page; locks, which a kill or a power cut releases;
and the bytecode of a clone, beside its sources. It has the digests of these, so Python uses none that is stale."""

from __future__ import annotations

import contextlib
import fcntl
import os
import resource
import sys
import time
from dataclasses import dataclass
from typing import Iterator

OWN = "/proc/self/fd"
SET_ASIDE = 64  # descriptors that are kept free for boards that begin
MOST_TURNED_AWAY = 64


@dataclass(frozen=True)
class Room:
    """How many readers are allowed, and how many more get an answer that there are too many."""

    readers: int
    turned_away: int


def raise_limit() -> None:
    """Raises the limit to the most that the system allows: a shell sets a lower one."""
    _, most = resource.getrlimit(resource.RLIMIT_NOFILE)
    try:
        resource.setrlimit(resource.RLIMIT_NOFILE, (most, most))
    except (OSError, ValueError):
        pass  # the limit stays


def room_now(readers: int) -> Room:
    """The room for readers, while this many are connected."""
    most, _ = resource.getrlimit(resource.RLIMIT_NOFILE)
    if most == resource.RLIM_INFINITY:
        return room(1 << 30, 0)
    try:
        used = len(os.listdir(OWN)) - 1  # without the one that lists them
    except OSError:
        used = most  # as if none were left for the list
    return room(most, max(0, used - readers))


def room(most: int, others: int) -> Room:
    """The room for readers if `most` descriptors are allowed and boards and everything else use `others`. As many again stay free,
    since all boards may start their programs and write their files at the same moment."""
    free = max(0, most - others)
    turned_away = min(MOST_TURNED_AWAY, free // 8)
    return Room(max(0, free - others - SET_ASIDE - turned_away), turned_away)


def locked(number: int, patience: float) -> bool:
    """Takes the lock of this open file. Returns whether that succeeded within this many seconds."""
    ends = time.monotonic() + patience
    while True:
        try:
            fcntl.flock(number, fcntl.LOCK_EX | fcntl.LOCK_NB)
            return True
        except BlockingIOError:
            if time.monotonic() >= ends:
                return False
        time.sleep(0.05)


HEAD = 16  # bytes before the code
MAKE = ("-S", "-X", "no_debug_ranges", "-m", "compileall", "-qq", "--invalidation-mode", "checked-hash")


def keep_bytecode(top: str) -> None:
    """Makes it anew if some of it lacks, is older than its source or damaged. Another user than the clone's does without, and so does
    whoever wants no bytecode, or may only write small files."""
    is_damaged = sys.pycache_prefix == os.devnull
    is_limited = resource.getrlimit(resource.RLIMIT_FSIZE)[0] != resource.RLIM_INFINITY
    if sys.flags.dont_write_bytecode or is_limited or (sys.pycache_prefix and not is_damaged):
        return
    with contextlib.suppress(OSError):
        if os.stat(top).st_uid != os.getuid() or not os.access(top, os.W_OK):
            return
        if is_damaged or any(True for _ in outdated(top)):
            os.spawnv(os.P_WAIT, sys.executable, [sys.executable, *MAKE, top])


def outdated(top: str) -> Iterator[str]:
    """The sources that have none, or an older one."""
    for folder, _, names in os.walk(top):
        for name in names:
            if name.endswith(".py"):
                kept = f"{folder}/__pycache__/{name[:-3]}.{sys.implementation.cache_tag}.pyc"
                source, found = os.stat(f"{folder}/{name}"), os.stat(kept) if os.path.exists(kept) else None
                if found is None or found.st_size <= HEAD or found.st_mtime_ns < source.st_mtime_ns:
                    yield f"{folder}/{name}"
