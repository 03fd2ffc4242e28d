"""A host in miniature: it runs a recorder as its child, tells it entries, and reads each answer up to `done`."""

import dataclasses
import os
import subprocess
from types import TracebackType
from typing import Iterable, List, Optional, Sequence, Tuple, Type

from attending.answers import Answer, Entry, all_answers, next_answer
from given.case import program

MOST = 1 << 20  # bytes of a read


class Ended(OSError):
    """The recorder has ended, and not said `done`."""


class Host:
    """Tells one recorder what happens. Each entry is written when the one before is answered."""

    def __init__(self, *options: str) -> None:
        self._child = subprocess.Popen([program(), "live", *options], stdin=subprocess.PIPE, stdout=subprocess.PIPE)
        assert self._child.stdin and self._child.stdout
        self._told, self._said = self._child.stdin.fileno(), self._child.stdout.fileno()
        self._come = b""
        self.first_line = self._line()

    def __enter__(self) -> "Host":
        return self

    def __exit__(self, kind: Optional[Type[BaseException]], error: Optional[BaseException], trace: Optional[TracebackType]) -> None:
        self.end()

    def tell(self, entry: Entry) -> Answer:
        """What the recorder answers to this."""
        rest = memoryview(entry.text)
        while rest:
            rest = rest[os.write(self._told, rest) :]
        while (found := next_answer(self._come)) is None:
            self._read()
        answer, end = found
        self._come = self._come[end:]
        return answer

    def end(self) -> int:
        """The child's status, once it has nothing more to read."""
        return self.left().wait()

    def left(self) -> "subprocess.Popen[bytes]":
        """The child, which has nothing more to read and ends; nobody has waited for it."""
        assert self._child.stdin and self._child.stdout
        with self._child.stdout, self._child.stdin:
            self._child.stdin.close()
            while os.read(self._said, MOST):
                pass
        return self._child

    def _line(self) -> str:
        while b"\n" not in self._come:
            self._read()
        line, _, self._come = self._come.partition(b"\n")
        return line.decode()

    def _read(self) -> None:
        come = os.read(self._said, MOST)
        if not come:
            raise Ended("the recorder has ended")
        self._come += come


def answers(entries: Iterable[Entry], options: Sequence[str] = ()) -> List[Answer]:
    """What a recorder answers to entries that are told one behind the other, without a look at the answers."""
    sent = b"".join(entry.text for entry in entries)
    done = subprocess.run([program(), "live", *options], input=sent, stdout=subprocess.PIPE, stderr=subprocess.PIPE, check=True)
    return all_answers(done.stdout)[1]


@dataclasses.dataclass
class Call:
    """A call as a host lives it: it passes the time, wakes its recorder when that has asked for it, and keeps what was said. Times
    are milliseconds since the call began."""

    host: Host
    now: int = 0
    due: Optional[int] = None  # when the recorder is to be woken
    told: List[Tuple[Entry, Answer]] = dataclasses.field(default_factory=list)

    def tell(self, entry: Entry) -> Answer:
        """What this is answered; from then on the recorder is woken when it says."""
        answer = self.host.tell(entry)
        self.now = max(self.now, entry.at)
        self.due = None if answer.due is None else self.now + answer.due
        self.told.append((entry, answer))
        return answer

    def wake(self, at: int) -> Answer:
        return self.tell(Entry(at, "wake"))

    def wakes_by(self, until: int) -> List[Answer]:
        """Each answer when it is woken up to this time, this time included."""
        found = []
        while self.due is not None and self.due <= until:
            found.append(self.wake(self.due))
        return found

    @property
    def asked(self) -> List[Tuple[int, str]]:
        """What the board was sent when."""
        return [(entry.at, answer.asked) for entry, answer in self.told if answer.asked]
