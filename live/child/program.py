"""Calls of `dgt_replay`: at once, or as children. No child gets INT, TERM or HUP, and each child's input ends
when this process ends, however it ends."""

from __future__ import annotations

import contextlib
import os
import signal
import subprocess
import threading
from dataclasses import dataclass
from typing import List, Optional, Sequence

from live.run.loop import ENDING
from live.run.refused import NO_PROGRAM, Refused
from live.words.message import Message

CHUNK = 65536  # bytes that are read or written at once
BINARY = b"\x7fELF"  # how a program begins that isn't a script


class _DeafChildren:
    """A child that is started inside keeps these signals blocked; a signal that comes meanwhile waits for this process. In a worker
    they are blocked anyway."""

    def __enter__(self) -> None:
        is_worker = threading.current_thread() is not threading.main_thread()
        self._before = None if is_worker else signal.pthread_sigmask(signal.SIG_BLOCK, ENDING)

    def __exit__(self, *_: object) -> None:
        if self._before is not None:
            signal.pthread_sigmask(signal.SIG_SETMASK, self._before)


def _runs(path: str, held: str) -> bool:
    """Whether the program runs, started by this name of its file."""
    try:
        with _DeafChildren():
            words = [path, "--help"]
            return subprocess.run(words, executable=held, stdin=subprocess.DEVNULL, stdout=subprocess.DEVNULL).returncode == 0
    except OSError:
        return False


def _held(path: str) -> str:
    """A name by which the file stays open; empty if there is none, or if it is a script, which looks for what is beside it."""
    try:
        number = os.open(path, os.O_RDONLY)
        if os.pread(number, len(BINARY), 0) == BINARY:
            return f"/proc/{os.getpid()}/fd/{number}"
        os.close(number)
    except OSError:
        pass
    return ""


@dataclass(frozen=True)
class Program:
    """The proved program. What is started is what was found, whatever takes the place of its file meanwhile."""

    path: str
    held: str = ""  # another name of the file, which stays its own

    @staticmethod
    def find(beside: str) -> Program:
        """The program in the folder of dgt_live, or in `lib` there, as in an archive. In the repository a script finds the one that
        belongs to the sources; if it must build it, that is done here and not in the middle of a game."""
        finder, path = os.path.join(beside, "program"), os.path.join(beside, "lib", "dgt_replay")
        if not os.path.exists(path):
            path = os.path.join(beside, "dgt_replay")
        if os.path.exists(finder):
            with _DeafChildren():
                found = subprocess.run([finder], stdin=subprocess.DEVNULL, stdout=subprocess.PIPE)
            if found.returncode != 0:
                raise Refused(NO_PROGRAM, Message("program.not_built", finder=finder))
            path = os.fsdecode(found.stdout.rstrip(b"\n"))
        if not os.access(path, os.X_OK):
            raise Refused(NO_PROGRAM, Message("program.missing", folder=beside))
        held = _held(path)
        if held and _runs(path, held):
            return Program(path, held)
        if not _runs(path, path):
            needed = Message("program.needs", machine=os.uname().machine)
            raise Refused(NO_PROGRAM, Message("program.does_not_run", path=path, needed=needed))
        return Program(path)

    def version(self) -> str:
        """Its version."""
        return self.run("--version").stdout.decode("ascii", "replace").split()[-1]

    def run(self, *words: str, given: bytes = b"", patience: Optional[float] = None) -> subprocess.CompletedProcess[bytes]:
        """Calls it and waits: for calls of a few milliseconds. After so many seconds it is killed."""
        with _DeafChildren():
            child = subprocess.Popen(
                [self.path, *words],
                executable=self.held or None,
                stdin=subprocess.PIPE,
                stdout=subprocess.PIPE,
                stderr=subprocess.PIPE,
            )
        try:
            output, error = child.communicate(given, patience)
        except subprocess.TimeoutExpired:
            child.kill()
            output, error = child.communicate()
        return subprocess.CompletedProcess(list(words), child.returncode, output, error)

    def lines(self, *words: str, given: bytes = b"") -> List[str]:
        """The lines that it writes after it has read everything. Raises OSError if it fails."""
        answer = self.run(*words, given=given)
        if answer.returncode != 0:
            raise OSError(told_of_ending(words[0], answer.returncode))
        return lines_of(answer.stdout)

    def start(self, words: Sequence[str], stdin: int, stdout: int, stderr: int) -> subprocess.Popen[bytes]:
        """Starts it without waiting."""
        with _DeafChildren():
            named = self.held or None
            return subprocess.Popen([self.path, *words], executable=named, stdin=stdin, stdout=stdout, stderr=stderr, bufsize=0)


def end_child(child: subprocess.Popen[bytes]) -> None:
    """Ends it at once."""
    child.kill()
    let_go(child)


def let_go(child: subprocess.Popen[bytes]) -> None:
    """Closes its pipes, and waits for its end."""
    for stream in (child.stdin, child.stdout, child.stderr):
        if stream:
            with contextlib.suppress(OSError):
                stream.close()
    if child.poll() is None:
        try:
            child.wait(1)
        except subprocess.TimeoutExpired:
            child.kill()
            child.wait()


def ending_of(status: int) -> str:
    """How a child ended that should have gone on."""
    return Message("program.killed") if status < 0 else Message("program.ended", status=status)


def told_of_ending(command: str, status: int) -> str:
    """The same, with the name of its command."""
    return Message("program.how", command=command, how=ending_of(status))


def wake(child: subprocess.Popen[bytes]) -> None:
    """Lets a stopped child go on."""
    with contextlib.suppress(OSError):
        if child.returncode is None and os.waitid(os.P_PID, child.pid, os.WSTOPPED | os.WNOHANG | os.WNOWAIT):
            child.send_signal(signal.SIGCONT)


def lines_of(output: bytes) -> List[str]:
    """The lines that the program has written."""
    return output.decode("ascii", "replace").splitlines()
