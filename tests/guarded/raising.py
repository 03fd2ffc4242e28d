"""Starts a recorder, and raises an error at each call that its first board, its page and typed lines make to the system and to
the program, one at a time: `raising.py JOURNAL TURN PROGRAM ARGUMENT..`. A call with which the loop waits for something else
than for what it hears is noted too: it would hold up all boards.

The calls are found while it runs: Python tells of each call that a function of `live/` makes into its library, and whose call
it is is seen on the stack, by the guard under which it happens. OSError, ValueError and OverflowError are raised in turn: with
TURN 0, 1 and 2 each call meets each of them. What is raised says its number, and stands in JOURNAL, a line of JSON for each.
Nothing is raised any more once there is a file JOURNAL.stop.
"""

import errno
import json
import math
import os
import pathlib
import queue
import runpy
import select
import sys
import threading
import time
import types
import zlib
from typing import Any, Dict, Iterator, Optional, Set, Tuple

sys.dont_write_bytecode = sys.pycache_prefix is None
TOP = pathlib.Path(__file__).resolve().parents[2]
LIVE = str(TOP / "live") + os.sep
PAGES = {f"live.show.{name}" for name in ("address", "http", "page", "serving", "view")}
PAUSE = 0.1  # seconds between two errors
TURNS = 2  # of the loop between two errors: what was raised has been told by then, however slow the machine is
FIRST = "board 1"
WAITS = ("time.sleep", "select.select", "select.poll", "threading.join", "threading.wait", "fcntl.lockf")
# What reckons with what it is given, and asks the system for nothing.
RECKONS = set(
    "abc array ast bisect binascii builtins calendar codecs collections contextlib copy csv dataclasses datetime email encodings "
    "enum errno functools gc hashlib heapq html importlib inspect ipaddress itertools json keyword linecache locale math numbers "
    "operator queue random re reprlib shlex sre_compile sre_parse stat string struct sys textwrap time token tokenize traceback "
    "types typing urllib warnings weakref zlib _thread __main__ live "
    "_abc _bisect _blake2 _collections _collections_abc _contextvars _csv _functools _hashlib _heapq _json _operator _queue "
    "_random _sre _stat _struct _weakref _weakrefset unicodedata".split()
)
Site = Tuple[str, int, str, str]  # a file, a line, the function, and what is called there


def raised(kind: int, text: str) -> Exception:
    """One of the three errors."""
    return (OSError(errno.EMFILE, text), ValueError(text), OverflowError(text))[kind % 3]


def reckons(module: str, name: str) -> bool:
    """Whether a call asks the system for nothing, as that of a path's name doesn't."""
    if name in ("__del__", "__repr__"):  # called by nobody, where something is forgotten
        return True
    if module == "pathlib":
        return hasattr(pathlib.PurePath, name)
    if module in ("posixpath", "genericpath"):
        return name not in ("realpath", "lexists", "exists", "isfile", "isdir", "getsize", "getmtime")
    return module.partition(".")[0] in RECKONS or module.startswith("namedtuple_")


class Raising:
    """Sees each call, and raises an error at each that wasn't tried yet."""

    def __init__(self, journal: str, turn: int) -> None:
        self._journal = os.open(journal, os.O_WRONLY | os.O_APPEND | os.O_CREAT, 0o666)
        self._stop, self._turn = journal + ".stop", turn
        self._tried: Set[Site] = set()
        self._others: Set[Site] = set()  # calls of nobody that is tried
        self._due = math.inf  # up to the first turn of its loop
        self._turns = self._due_turn = 0  # of its loop
        self._lock = threading.Lock()
        self._is_live: Dict[types.CodeType, bool] = {}
        self._owners: Dict[int, str] = {}  # of guards

    # Which calls there are.

    def sees(self, frame: types.FrameType, event: str, what: Any) -> None:
        """Called by Python at each call and return."""
        if event == "c_call":
            caller: Optional[types.FrameType] = frame
        elif event == "call":
            caller = frame.f_back
        else:
            return
        if caller is None or not self._of_live(caller.f_code) or (event == "call" and self._of_live(frame.f_code)):
            return
        if event == "c_call":
            module = getattr(what, "__module__", None) or type(what.__self__).__module__
            name = f"{module}.{getattr(what, '__qualname__', what)}"
        else:
            module = frame.f_globals.get("__name__", "")
            name = f"{module}.{frame.f_code.co_name}"
        site = (caller.f_code.co_filename[len(LIVE) :], caller.f_lineno, caller.f_code.co_name, name)
        if name in WAITS and self._waits_for_it():
            self._note(waits=True, site=site)
        if not reckons(str(module), name.rpartition(".")[2]):
            self._called(caller, site)

    def _of_live(self, code: types.CodeType) -> bool:
        known = self._is_live.get(code)
        if known is None:
            known = self._is_live[code] = code.co_filename.startswith(LIVE)
        return known

    def _called(self, caller: types.FrameType, site: Site) -> None:
        if site in self._tried or not self._is_due:
            return
        owner = self.owner(caller)
        with self._lock:
            if site in self._tried or not self._is_due or os.path.exists(self._stop):
                return
            if owner not in (FIRST, "page", "typed"):
                if site not in self._others:
                    self._others.add(site)
                    self._note(owner=owner, site=site)
                return
            self._tried.add(site)
            self._due, self._due_turn = time.monotonic() + PAUSE, self._turns + TURNS
            number = len(self._tried)
            kind = zlib.crc32(repr(site).encode()) + self._turn
            error = raised(kind, f"error {self._turn}.{number}.")
            self._note(number=number, error=type(error).__name__, text=f"error {self._turn}.{number}.", owner=owner, site=site)
        raise error

    def _waits_for_it(self) -> bool:
        """Whether the loop does, and not a thread beside it, nor who ends the recorder."""
        in_loop = threading.current_thread() is threading.main_thread() and self._turns > 0
        return in_loop and not os.path.exists(self._stop)

    @property
    def _is_due(self) -> bool:
        return self._turns >= self._due_turn and time.monotonic() >= self._due

    def _note(self, **values: object) -> None:
        os.write(self._journal, json.dumps({"at": round(time.monotonic(), 3), **values}).encode() + b"\n")

    # Whose they are.

    def owner(self, frame: Optional[types.FrameType]) -> str:
        """For whom this is called: the innermost part that says so."""
        for one in selves(frame):
            owner = self._owners.get(id(one)) or self._owners.get(id(getattr(one, "_loop", None))) or named(one)
            if owner:
                return owner
        return ""

    def guard_made(self, guard: object, loop: object) -> None:
        """A guard belongs to the part that makes it, or to that of the guard on which it stands."""
        owner = self._owners.get(id(loop)) or self.owner(sys._getframe(2))
        if owner:
            self._owners[id(guard)] = owner
            KEPT.append(guard)

    def turned(self) -> None:
        """The loop has turned: from the first time on errors are raised."""
        self._turns += 1
        if self._due == math.inf:
            self._due = time.monotonic() + PAUSE

    def install(self) -> None:
        """In this thread and in those that begin from here on."""
        threading.setprofile(self.sees)
        sys.setprofile(self.sees)


KEPT: "list[object]" = []  # guards, whose places in memory no other may get


def selves(frame: Optional[types.FrameType]) -> Iterator[object]:
    """The objects whose methods are under way, the innermost first."""
    while frame is not None:
        if frame.f_code.co_filename.startswith(LIVE):
            one = frame.f_locals.get("self")
            if one is not None:
                yield one
        frame = frame.f_back


def named(one: object) -> str:
    """The part that an object is, or that it is of."""
    kind = type(one)
    for part in (one, getattr(getattr(one, "_tells", None), "__self__", None)):
        board = getattr(getattr(part, "pairing", None), "board", None)
        if board is not None:
            return f"board {board}"
    begins = type(getattr(getattr(one, "_begins", None), "__self__", None))  # what is begun again
    if PAGES & {kind.__module__, begins.__module__}:
        return "page"
    return "typed" if (kind.__module__, kind.__name__) == ("live.show.terminal", "Typed") else ""


def put_back_at_each_turn(raising: Raising) -> None:
    """Python forgets who is to see the calls of a thread where an error comes of it."""
    epoll = select.epoll

    class Epoll:
        """What the loop waits with: each wait is a turn."""

        def __init__(self) -> None:
            self._epoll = epoll()

        def poll(self, *words: Any) -> Any:
            sys.setprofile(None)
            raising.turned()
            ready = self._epoll.poll(*words)
            sys.setprofile(raising.sees)
            return ready

        def __getattr__(self, name: str) -> Any:
            return getattr(self._epoll, name)

    class Queue(queue.SimpleQueue):  # type: ignore[type-arg]
        def get(self, *words: Any, **more: Any) -> Any:
            sys.setprofile(None)
            job = super().get(*words, **more)
            sys.setprofile(raising.sees)
            return job

    setattr(select, "epoll", Epoll)
    setattr(queue, "SimpleQueue", Queue)


def prepare_recorder(raising: Raising) -> None:
    """Hears of each guard. A board that isn't recorded is tried again soon: there are many errors."""
    sys.path.insert(0, str(TOP))
    from live.board import board
    from live.run import loop

    setattr(board, "PAUSES", (0.1,))
    begin = loop.Guard.__init__

    def begins(one: Any, loop: Any, *words: Any, **more: Any) -> None:
        begin(one, loop, *words, **more)
        raising.guard_made(one, loop)

    setattr(loop.Guard, "__init__", begins)


def main() -> None:
    journal, turn, program = sys.argv[1:4]
    raising = Raising(journal, int(turn))
    put_back_at_each_turn(raising)
    prepare_recorder(raising)
    sys.argv = sys.argv[3:]
    raising.install()
    runpy.run_path(program, run_name="__main__")


if __name__ == "__main__":
    main()
