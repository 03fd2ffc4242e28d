"""A board on a pseudo-terminal, as on a USB line: it may be pulled, and come back under the same name with another board."""

from __future__ import annotations

import contextlib
import os
import pathlib
import termios
import tty
from typing import Callable

from emulated.board import Board

AS_IT_COMES = 0.008  # seconds in which bytes are gathered, as a USB line does


class Cable:
    """A device under a name of its own. A board has its power over the cable, and loses it when that is pulled.

    What a board sends while nobody has the device open is lost, as with a serial line.
    """

    def __init__(self, device: pathlib.Path, board: Board, now: Callable[[], float]) -> None:
        self.device, self.board = device, board
        self.line = -1  # the board's end, while it is plugged in
        self._now = now
        self._terminal = ""
        self._heard = False
        self.plug()

    @property
    def plugged(self) -> bool:
        return self.line >= 0

    @property
    def heard(self) -> bool:
        """Whether somebody has the device open."""
        return self._heard

    def plug(self) -> None:
        """Into the computer."""
        self.line, terminal = os.openpty()
        os.set_blocking(self.line, False)
        tty.setraw(terminal)
        self._terminal = os.ttyname(terminal)
        os.close(terminal)
        os.symlink(self._terminal, self.device)
        self.board.power(self._now(), True)

    def pull(self) -> None:
        """Out of the computer."""
        self.board.power(self._now(), False)
        os.unlink(self.device)
        os.close(self.line)
        self.line, self._heard = -1, False

    def end(self) -> None:
        if self.plugged:
            self.pull()

    def turn(self) -> None:
        """Takes what the board is sent, and gives what it sends."""
        if not self.plugged:
            return
        now = self._now()
        try:
            self.board.command(now, os.read(self.line, 4096))
            self._heard = True
        except BlockingIOError:
            self._heard = True
        except OSError:  # nobody has it open
            if self._heard:
                self._drop_unread()
            self._heard = False
        sent = self.board.take(now)
        if sent and self._heard:
            with contextlib.suppress(OSError):  # where the reader stands still and the buffer is full, it is lost
                os.write(self.line, sent)

    def _drop_unread(self) -> None:
        """What nobody has read is gone when the device is closed."""
        number = os.open(self._terminal, os.O_RDWR | os.O_NOCTTY)
        termios.tcflush(number, termios.TCIFLUSH)
        os.close(number)


def swap(one: Cable, other: Cable) -> None:
    """Each board hangs on the other's cable. Both are to be pulled first."""
    one.board, other.board = other.board, one.board
