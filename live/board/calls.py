"""Lines from another call: how one call of dgt_live talks to the call that records a game, by a socket named after the capture's place on
the disk.

That has no file, so a power cut leaves nothing behind. Anybody on the machine may take such a name first, so each end checks
whose process the other one is. The recorder accepts only the same user and the administrator; an answer counts only if it comes
from one of them or from the owner of the capture."""

from __future__ import annotations

import contextlib
import functools
import os
import socket
import struct
from typing import Callable, Dict, Optional, Set

from live.game.files import open_regular
from live.run.loop import Turns
from live.run.refused import DONE, NO_TEXT, REFUSED, Answer, printable
from live.words.message import Message


LONGEST = 4096  # bytes of a request, and of an answer
WHO = "\0"  # asks who records the game: no argument has such a byte
PATIENCE = 10.0  # seconds that a request may take
LONGEST_ANSWER = 120.0  # seconds that its answer may take: lines before it are answered first
MOST_CALLS = 8  # at once

CREDENTIALS = struct.Struct("3i")  # of a process: its number, its user, its group
ADMINISTRATOR = 0

Asked = Callable[[str, Callable[[Answer], None]], None]  # obeys a line, and passes on its answer


def address(capture: int) -> bytes:
    """The name of the socket for an open capture."""
    at = os.fstat(capture)
    return f"\0dgt_live-{at.st_dev:x}-{at.st_ino:x}".encode()


def user_of(call: socket.socket) -> int:
    """The user of the process at the other end, as the system knows it."""
    _, user, _ = CREDENTIALS.unpack(call.getsockopt(socket.SOL_SOCKET, socket.SO_PEERCRED, CREDENTIALS.size))
    return int(user)


class Control:
    """Waits for additions to a game that is being recorded, on this `board` of a round, or on none."""

    def __init__(self, loop: Turns, capture: int, asked: Asked, board: str) -> None:
        self._loop, self._asked, self._board = loop, asked, board
        self._calls: Dict[int, socket.socket] = {}
        self._answering: Set[socket.socket] = set()  # the calls that wait for an answer, also once this is closed
        self._socket: Optional[socket.socket] = socket.socket(socket.AF_UNIX, socket.SOCK_SEQPACKET)
        self._socket.setblocking(False)
        try:
            self._socket.bind(address(capture))
            self._socket.listen(MOST_CALLS)
        except OSError:
            # No such sockets here: lines that are typed in the terminal still work.
            self._socket.close()
            self._socket = None
            return
        loop.watch(self._socket.fileno(), self._called)

    def _called(self) -> None:
        assert self._socket
        try:
            call, _ = self._socket.accept()
        except OSError:
            return
        if user_of(call) not in (ADMINISTRATOR, os.getuid()) or len(self._calls) >= MOST_CALLS:
            call.close()
            return
        call.setblocking(False)
        number = call.fileno()
        self._calls[number] = call
        self._loop.watch(number, lambda: self._hear(number))
        self._loop.after(PATIENCE, lambda: self._hang_up(number, call))

    def _hear(self, number: int) -> None:
        call = self._calls[number]
        try:
            asked = call.recv(LONGEST)
        except BlockingIOError:
            return
        except OSError:
            asked = b""
        self._loop.forget(number)  # one request a call
        self._answering.add(call)
        answered = functools.partial(self._answer, number, call)
        if not asked:
            answered(None)
            return
        try:
            words = asked.decode("utf-8")
        except UnicodeDecodeError:
            answered((REFUSED, Message("refused.why", why=NO_TEXT)))
            return
        if words == WHO:
            answered((DONE, self._board))
        else:
            self._asked(words, answered)

    def _answer(self, number: int, call: socket.socket, answer: Optional[Answer]) -> None:
        """Answers a call, if there is an answer, and hangs up."""
        self._answering.discard(call)
        if answer:
            status, text = answer
            with contextlib.suppress(OSError):
                call.send(bytes([status]) + text.encode("utf-8", "replace")[:LONGEST])
        if self._calls.get(number) is call:
            del self._calls[number]
        call.close()

    def _hang_up(self, number: int, call: socket.socket) -> None:
        """Hangs up, unless the call waits for an answer."""
        if self._calls.get(number) is call and call not in self._answering:
            self._loop.forget(number)
            del self._calls[number]
            call.close()

    def close(self) -> None:
        for number, call in list(self._calls.items()):
            self._hang_up(number, call)
        if self._socket:
            self._loop.forget(self._socket.fileno())
            self._socket.close()
            self._socket = None


def ask(capture: str, words: str) -> Optional[Answer]:
    """The answer of the call that records this game; None if there is none, or if it is another user's process."""
    with contextlib.suppress(OSError), open(open_regular(capture, os.O_RDONLY), "rb") as file:
        believed = (ADMINISTRATOR, os.getuid(), os.fstat(file.fileno()).st_uid)
        with socket.socket(socket.AF_UNIX, socket.SOCK_SEQPACKET) as call:
            call.settimeout(PATIENCE)
            call.connect(address(file.fileno()))
            if user_of(call) not in believed:
                return None
            asked = words.encode("utf-8", "surrogateescape")
            if len(asked) > LONGEST:
                return REFUSED, Message("refused.too_long", line=printable(words[:60]), most=format(LONGEST, ","))
            call.send(asked)
            call.settimeout(LONGEST_ANSWER)
            answer = call.recv(LONGEST + 1)
            if answer:
                return answer[0], printable(answer[1:].decode("utf-8", "replace"))
    return None


def board_of(capture: str) -> Optional[str]:
    """The board of a round that records this game; empty if a dgt_live records it, None if nobody answers."""
    answer = ask(capture, WHO)
    return answer[1] if answer and answer[0] == DONE else None
