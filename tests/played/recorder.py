"""A call of the recorder: its processes, what it says, what may be typed, and how it is ended."""

import contextlib
import ctypes
import fcntl
import os
import pathlib
import pty
import resource
import signal
import struct
import subprocess
import tempfile
import termios
import time
from typing import Dict, List, Optional, Sequence

from played import TOP, words

# Another recorder may be put to the test: RECORDER is its path.
LIVE = pathlib.Path(os.environ.get("RECORDER") or TOP / "bin" / "dgt_live").resolve()
os.environ["PATH"] = f"{LIVE.parent}:{os.environ['PATH']}"  # so messages have the commands' names alone
XON, XOFF = b"\x11", b"\x13"
SET_PIPE_SIZE = 1031  # F_SETPIPE_SZ of Linux
SIGNAL_AT_PARENTS_DEATH = 1  # PR_SET_PDEATHSIG of Linux
LIBRARY = ctypes.CDLL(None)


class Pipe:
    """What a process writes, as far as it has come."""

    def __init__(self) -> None:
        self.end, self.start = os.pipe()
        os.set_blocking(self.end, False)
        self.came = b""
        self.held = False

    def fill(self) -> None:
        """What is written from here on waits until it is read."""
        os.set_blocking(self.start, False)
        with contextlib.suppress(BlockingIOError):
            while True:
                os.write(self.start, b"\n" * 4096)
        os.set_blocking(self.start, True)

    def hold(self, held: bool) -> None:
        """Whether it is left unread."""
        self.held = held

    def make_small(self) -> None:
        """It takes 4 kB that nobody has read, and not 64."""
        fcntl.fcntl(self.end, SET_PIPE_SIZE, 4096)

    def read(self) -> str:
        with contextlib.suppress(BlockingIOError, OSError):
            while self.end >= 0 and not self.held:
                more = os.read(self.end, 65536)
                if not more:
                    break
                self.came += more
        return self.came.decode(errors="replace")

    def give_away(self) -> None:
        """The end that the process has is the process's alone."""
        if self.start >= 0:
            os.close(self.start)
        self.start = -1

    def hang_up(self) -> None:
        if self.end >= 0:
            os.close(self.end)
        self.end = -1

    def __del__(self) -> None:
        self.hang_up()
        self.give_away()


class Terminal(Pipe):
    """A terminal of 24 lines of 80, which shows what is typed, and stops and goes on at Ctrl-S and Ctrl-Q."""

    def __init__(self) -> None:
        self.end, self.start = pty.openpty()
        fcntl.ioctl(self.end, termios.TIOCSWINSZ, struct.pack("HHHH", 24, 80, 0, 0))
        os.set_blocking(self.end, False)
        self.came = b""
        self.held = False

    def type(self, text: str) -> None:
        os.write(self.end, text.encode())

    def hold(self, held: bool) -> None:
        os.write(self.end, XOFF if held else XON)


class Live:
    """A call of the recorder in a session of its own, as a service would be started.

    Files may have `limit` bytes, as where the disk is full, until `make_room`; `killed_by_limit` has the system kill what
    writes more. `start` are words that start the call. On a `terminal` all three streams are its, else what is typed comes
    through a pipe, where `typed`. What is `unread` waits.
    """

    scratch_folder: Optional[pathlib.Path] = None  # takes what the calls of a case make in TMPDIR
    all: "List[Live]" = []

    def __init__(
        self,
        device: object,
        name: object,
        *options: str,
        limit: Optional[int] = None,
        killed_by_limit: bool = False,
        program: pathlib.Path = LIVE,
        start: Sequence[object] = (),
        cwd: Optional[pathlib.Path] = None,
        unread: bool = False,
        terminal: bool = False,
        typed: bool = False,
        environment: Optional[Dict[str, str]] = None,
    ) -> None:
        self.name = str(name)
        self.terminal = terminal
        self.told: Pipe = Terminal() if terminal else Pipe()
        self.wrong = self.told if terminal else Pipe()
        if unread:
            self.told.fill()
        self.scratch = pathlib.Path(tempfile.mkdtemp(dir=self.scratch_folder))
        self.was_killed = False
        self.typing = -1
        keys = subprocess.DEVNULL
        if terminal:
            keys = self.told.start
        elif typed:
            keys, self.typing = os.pipe()

        def prepare() -> None:
            # One that is left over would take another board, where the system gives its device's name anew.
            LIBRARY.prctl(SIGNAL_AT_PARENTS_DEATH, signal.SIGKILL)
            # One that was ignored can't be caught by a shell, and a call in the background ignores INT.
            for number in (signal.SIGINT, signal.SIGTERM, signal.SIGHUP):
                signal.signal(number, signal.SIG_DFL)
            if terminal:
                fcntl.ioctl(0, termios.TIOCSCTTY, 0)
            if limit is not None:
                resource.setrlimit(resource.RLIMIT_CORE, (0, 0))
                resource.setrlimit(resource.RLIMIT_FSIZE, (limit, resource.RLIM_INFINITY))
                signal.signal(signal.SIGXFSZ, signal.SIG_DFL if killed_by_limit else signal.SIG_IGN)

        places = [str(device)] if device else []
        self.process = subprocess.Popen(
            [*map(str, start), str(program), *places, *([self.name] if name else []), *options],
            stdin=keys,
            stdout=self.told.start,
            stderr=self.wrong.start,
            start_new_session=True,
            preexec_fn=prepare,
            cwd=cwd,
            env={**os.environ, "PATH": f"{program.parent}:{os.environ['PATH']}", "TMPDIR": str(self.scratch), **({"TERM": "xterm"} if terminal else {}), **(environment or {})},
        )
        self.told.give_away()
        self.wrong.give_away()
        if self.typing >= 0:
            os.close(keys)
        Live.all.append(self)

    # ---- What it says, and what it is told ----

    def lines(self) -> str:
        return words.plain(self.told.read()) if self.terminal else self.told.read()

    def complaint(self) -> str:
        return self.wrong.read()

    def says(self, part: str, times: int = 1) -> bool:
        return self.lines().count(part) >= times

    def type(self, text: str) -> None:
        if isinstance(self.told, Terminal):
            self.told.type(text + "\n")
        else:
            os.write(self.typing, (text + "\n").encode())

    def make_room(self) -> None:
        """The disk is full no longer."""
        for process in processes(self.process.pid):
            with contextlib.suppress(ProcessLookupError):
                _, most = resource.prlimit(process, resource.RLIMIT_FSIZE)
                resource.prlimit(process, resource.RLIMIT_FSIZE, (most, most))

    def fill_disk(self, limit: int) -> None:
        """No file may have more bytes from here on."""
        for process in processes(self.process.pid):
            with contextlib.suppress(ProcessLookupError):
                resource.prlimit(process, resource.RLIMIT_FSIZE, (limit, resource.RLIM_INFINITY))

    # ---- Its processes ----

    @property
    def runs(self) -> bool:
        return self.process.poll() is None

    def send(self, number: int) -> None:
        with contextlib.suppress(ProcessLookupError):
            self.process.send_signal(number)

    def send_all(self, number: int) -> None:
        """To its group at once, and then to those that are in another one."""
        with contextlib.suppress(ProcessLookupError):
            os.killpg(self.process.pid, number)
        for process in processes(self.process.pid):
            with contextlib.suppress(ProcessLookupError):
                if os.getpgid(process) != self.process.pid:
                    os.kill(process, number)

    def children(self) -> List[int]:
        return [process for process in processes(self.process.pid) if process != self.process.pid]

    def end(self) -> None:
        """All of it, at once."""
        for _ in range(1000):  # so long as one of them may still write into the case's folder
            if not self.runs and not processes(self.process.pid):
                break
            self.send_all(signal.SIGKILL)
            time.sleep(0.01)
        self.end_typing()

    def end_typing(self) -> None:
        """Nothing more can be typed."""
        if self.typing >= 0:
            os.close(self.typing)
            self.typing = -1


def processes(session: int) -> List[int]:
    """Those of the session that run; one that has ended may wait long to be reaped."""
    found = []
    for name in filter(str.isdigit, os.listdir("/proc")):  # one may end between any two steps
        with contextlib.suppress(OSError):
            state, _, _, number = pathlib.Path("/proc", name, "stat").read_text().rpartition(")")[2].split()[:4]
            if int(number) == session and state not in "ZX":
                found.append(int(name))
    return sorted(found)


def has_open(process: int, path: object) -> bool:
    """Whether a process has this file or device open now."""
    wanted = os.path.realpath(str(path))
    with contextlib.suppress(OSError):  # it may end, and close files, meanwhile
        for number in os.listdir(f"/proc/{process}/fd"):
            with contextlib.suppress(OSError):
                if os.readlink(f"/proc/{process}/fd/{number}") == wanted:
                    return True
    return False


def signal_to(process: int, number: int = signal.SIGKILL) -> None:
    """Sends a signal to one that may have ended since it was listed."""
    with contextlib.suppress(ProcessLookupError):
        os.kill(process, number)


def children_now(process: int) -> List[int]:
    """Those that the process has started, as the system lists them: faster, for what runs a few milliseconds."""
    with contextlib.suppress(OSError):
        return [int(word) for word in pathlib.Path(f"/proc/{process}/task/{process}/children").read_text().split()]
    return []


def command(process: int) -> List[str]:
    """The words that started a process."""
    with contextlib.suppress(OSError):
        return pathlib.Path(f"/proc/{process}/cmdline").read_bytes().decode(errors="replace").split("\0")[:-1]
    return []
