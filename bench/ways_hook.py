"""Runs a recorder, and writes down which functions of its folder `live` are called: `ways_hook.py LOG RECORDER ARGUMENT..`.
bench/ways.py reads that.

Each line of the log is what, in which thread, a file and a name: `call` for a function; `read`, `write` and `placed` for bytes that are
read, bytes that are written, and a file that is put in place; `on` for each function that is under way when something is read, but not
for those that were under way when the thread waited; `waited` where a thread has waited for what it does next. Calls while a module is
loaded are left out, and so are comprehensions, for which later Pythons have no calls.

While there is a file LOG.still, chance has less to say: the recorder's clocks stand still, and are put forward to the next timer when
nothing has come for a while; whoever reads waits until all is there that is about to come; and no thread works while another one does.
"""

import collections
import os
import runpy
import select
import sys
import threading
import time
from types import CodeType, FrameType
from typing import Any, Deque, Dict, List, Optional, Tuple

sys.dont_write_bytecode = True
OPTIMIZED = 1  # CO_OPTIMIZED: the code of a function, and not of a module or a class
COMPREHENSIONS = ("<listcomp>", "<setcomp>", "<dictcomp>", "<genexpr>")
COMES = 0.03  # seconds in which the rest comes
NOTHING = 0.5  # seconds without anything after which a timer is due
PATIENCE = 5.0  # seconds for which one thread waits for another
real_monotonic, real_gettime, real_time, real_epoll = time.monotonic, time.clock_gettime, time.time, select.epoll
real_read, real_write, real_replace, real_rename = os.read, os.write, os.replace, os.rename


class Clocks:
    """The clocks of a recorder, which stand still at times."""

    def __init__(self, path: str) -> None:
        self._path = path
        self._since: Optional[float] = None  # when they began to stand
        self._stood = self._forward = 0.0  # seconds for which they have stood, and by which they were put forward
        self._day = real_time() - real_monotonic()
        self._ahead: Dict[int, float] = {}  # the seconds by which other clocks are ahead

    @property
    def stand(self) -> bool:
        return os.path.exists(self._path)

    def put_forward(self, seconds: float) -> None:
        self._forward += seconds

    def _now(self) -> float:
        """The same time as long as they stand, and then they go on."""
        now = real_monotonic()
        if self.stand:
            if self._since is None:
                self._since = now
                self._day += 1.0  # what is printed then is in a second of its own
            return self._since - self._stood
        if self._since is not None:
            self._stood += now - self._since
            self._since = None
        return now - self._stood

    def monotonic(self) -> float:
        return self._now() + self._forward

    def gettime(self, clock: int) -> float:
        if clock not in self._ahead:
            self._ahead[clock] = real_gettime(clock) - real_monotonic()
        return self.monotonic() + self._ahead[clock]

    def time(self) -> float:
        """The time of day, which `put_forward` leaves as it is: all lines that are printed meanwhile are in the same second."""
        return self._now() + self._day


class Log:
    """What happens, line by line."""

    def __init__(self, path: str, folder: str, clocks: Clocks) -> None:
        self._number = os.open(path, os.O_WRONLY | os.O_CREAT | os.O_APPEND, 0o600)
        self._folder, self._clocks = folder, clocks
        self._lock = threading.Lock()
        self._lines: Deque[str] = collections.deque()  # aren't written yet
        self._main = threading.get_ident()
        self._names: Dict[CodeType, Optional[str]] = {}  # the file and the name of each code; None if it isn't of that folder
        self._loads: Dict[int, int] = {}  # modules and classes that are being loaded, by thread
        self._depth: Dict[int, int] = {}  # functions of that folder that are under way, by thread
        self._waited: List[CodeType] = []  # what was under way when the loop waited last
        self._waits = False  # whether the loop waits

    def called(self, frame: FrameType, event: str, _: Any) -> None:
        """The hook of `sys.setprofile`."""
        if event in ("call", "return"):
            name = self._name(frame.f_code)
            if name is not None:
                self._steps(frame.f_code, name, event == "call")

    def _steps(self, code: CodeType, name: str, is_call: bool) -> None:
        thread, step = threading.get_ident(), 1 if is_call else -1
        if not code.co_flags & OPTIMIZED:
            self._loads[thread] = self._loads.get(thread, 0) + step
            return
        depth = self._depth.get(thread, 0)
        if is_call and depth <= 1 and thread != self._main:  # the first function of a thread waits for its next job
            self._awaits(lambda: self._waits)
            self._writes("waited", "- -")
        self._depth[thread] = depth + step
        if is_call and not self._loads.get(thread) and code.co_name not in COMPREHENSIONS:
            self._writes("call", name)

    def _name(self, code: CodeType) -> Optional[str]:
        if code not in self._names:
            path = code.co_filename
            name = getattr(code, "co_qualname", code.co_name)  # from Python 3.11 on
            is_of_folder = path.startswith(self._folder)
            self._names[code] = f"{path[len(self._folder):]} {name}:{code.co_firstlineno}" if is_of_folder else None
        return self._names[code]

    def _awaits(self, holds: Any) -> None:
        """Waits until this holds, if the clocks stand still."""
        over = real_monotonic() + PATIENCE
        while self._clocks.stand and not holds() and real_monotonic() < over:
            time.sleep(0.001)

    def are_idle(self) -> bool:
        """Whether no thread works but the loop's."""
        return all(depth <= 1 for thread, depth in list(self._depth.items()) if thread != self._main)

    def waits(self, waiting: bool) -> None:
        """The loop begins or ends to wait."""
        self._waits = waiting
        if not waiting:
            self._waited = under_way(sys._getframe(2))
            self._writes("waited", "- -")

    def rest_comes(self) -> None:
        """Something has come: waits for what comes with it."""
        if self._clocks.stand:
            time.sleep(COMES)
            if threading.get_ident() == self._main:
                self._awaits(self.are_idle)

    def _writes(self, what: str, words: str) -> None:
        self._lines.append(f"{what} {threading.get_ident()} {words}\n")

    def read(self, number: int, content: bytes) -> None:
        """This was read."""
        if threading.get_ident() == self._main:
            now, same = under_way(sys._getframe(2)), 0
            while same < min(len(now), len(self._waited)) and now[same] is self._waited[same]:
                same += 1
            for name in filter(None, map(self._name, now[same:])):
                self._writes("on", name)
        self.marks("read", place(number), content)

    def marks(self, what: str, where: str, content: bytes = b"") -> None:
        """This was read, written or put in place there."""
        self._writes(what, f"{where} {content!r}")
        with self._lock:
            lines = b"".join(self._lines.popleft().encode() for _ in range(len(self._lines)))
            while lines:
                lines = lines[real_write(self._number, lines) :]


def under_way(frame: Optional[FrameType]) -> List[CodeType]:
    """The functions that are under way, the first one first."""
    found = []
    while frame:
        found.append(frame.f_code)
        frame = frame.f_back
    return found[::-1]


def place(number: int) -> str:
    """What is open as this: a standard stream, or else the name that the system has for it."""
    file = os.fstat(number)
    for name, stream in (("typed", 0), ("said", 1)):
        if os.path.samestat(file, os.fstat(stream)):
            return name
    return os.readlink(f"/proc/self/fd/{number}").replace(" ", "_")


def main(path: str, recorder: str, *arguments: str) -> None:
    top = os.path.dirname(os.path.dirname(os.path.realpath(recorder)))
    clocks = Clocks(f"{path}.still")
    log = Log(path, os.path.join(top, "live") + os.sep, clocks)

    class Epoll:
        """`select.epoll`, in order of the descriptors."""

        def __init__(self) -> None:
            self._epoll = real_epoll()
            self.register, self.modify, self.unregister = self._epoll.register, self._epoll.modify, self._epoll.unregister
            self.close, self.fileno = self._epoll.close, self._epoll.fileno

        def poll(self, timeout: float = -1, most: int = -1) -> List[Tuple[int, int]]:
            log.waits(True)
            until, begun = clocks.monotonic() + timeout, real_monotonic()
            ready = self._epoll.poll(0, most)
            while not ready and clocks.monotonic() < until:
                if clocks.stand and real_monotonic() - begun > NOTHING and log.are_idle():
                    clocks.put_forward(until - clocks.monotonic() + 0.000001)
                ready = self._epoll.poll(max(0.0, min(until - clocks.monotonic(), COMES)), most)
            if ready:
                log.rest_comes()
                ready = self._epoll.poll(0, most)
            log.waits(False)
            return sorted(ready)

    def reads(number: int, size: int) -> bytes:
        if threading.current_thread() is not threading.main_thread():
            log.rest_comes()
        content = real_read(number, size)
        log.read(number, content)
        return content

    def writes(number: int, content: bytes) -> int:
        size = real_write(number, content)
        log.marks("write", place(number), bytes(content[:size]))
        return size

    def replaces(old: str, new: str) -> None:
        real_replace(old, new)
        log.marks("placed", os.fspath(new).replace(" ", "_"))

    def renames(old: str, new: str) -> None:
        real_rename(old, new)
        log.marks("placed", os.fspath(new).replace(" ", "_"))

    for name, function in (("read", reads), ("write", writes), ("replace", replaces), ("rename", renames)):
        setattr(os, name, function)
    setattr(select, "epoll", Epoll)
    setattr(time, "monotonic", clocks.monotonic)
    setattr(time, "clock_gettime", clocks.gettime)
    setattr(time, "time", clocks.time)
    sys.argv = [recorder, *arguments]
    threading.setprofile(log.called)
    sys.setprofile(log.called)
    runpy.run_path(recorder, run_name="__main__")


if __name__ == "__main__":
    main(*sys.argv[1:])
