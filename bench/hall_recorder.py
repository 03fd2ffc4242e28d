"""The recorder of an emulated hall: bin/dgt_round, killed and started again; and what its page says of each board."""

from __future__ import annotations

import contextlib
import json
import os
import pathlib
import random
import signal
import socket
import time
from typing import Any, Dict, List, Optional

from live_boards import processor_time
from played.recorder import Live, processes
from rounds.hall import ROUND

LOOKS = 2.0  # seconds between two looks at the page
LONGEST = 20.0  # seconds for an answer of the page
ENDS = 60.0  # seconds in which it ends


class Page:
    """The boards as the page of a recorder has them: asked now and then, and never waited for."""

    def __init__(self, port: int) -> None:
        self.port = port
        self._asked_at = 0.0
        self._line: Optional[socket.socket] = None
        self._came = b""

    @property
    def files(self) -> List[int]:
        """What to wait for."""
        return [self._line.fileno()] if self._line else []

    def turn(self, now: float) -> List[Dict[str, Any]]:
        """The boards, where an answer is whole just now; else none."""
        if self._line is None:
            if now >= self._asked_at + LOOKS:
                self._asked_at = now
                self._ask()
            return []
        try:
            while more := self._line.recv(1 << 20):
                self._came += more
        except BlockingIOError:
            if now < self._asked_at + LONGEST:
                return []
        except OSError:
            pass
        self._line.close()
        self._line = None
        with contextlib.suppress(ValueError):
            boards: List[Dict[str, Any]] = json.loads(self._came.partition(b"\r\n\r\n")[2])["boards"]
            return boards
        return []

    def _ask(self) -> None:
        with contextlib.suppress(OSError):
            line = socket.create_connection(("127.0.0.1", self.port), timeout=0.1)
            line.sendall(f"GET /state.json HTTP/1.1\r\nHost: 127.0.0.1:{self.port}\r\nConnection: close\r\n\r\n".encode())
            line.setblocking(False)
            self._line, self._came = line, b""


class Recorder:
    """A call of dgt_round, and those that take its place."""

    def __init__(self, folder: pathlib.Path, options: List[str]) -> None:
        self._folder, self._options = folder, options
        self._spent = 0.0  # seconds of the processor, of those that were killed
        self.starts = 0
        self.start()

    def start(self) -> None:
        self.live = Live(self._folder / "round.csv", self._folder / "games", *self._options, program=ROUND)
        self.starts += 1

    @property
    def runs(self) -> bool:
        return self.live.runs

    @property
    def files(self) -> List[int]:
        """What to wait for."""
        return [self.live.told.end, self.live.wrong.end] if self.live.runs else []

    def drain(self) -> None:
        """Keeps what it has said."""
        for pipe, name in ((self.live.told, "said"), (self.live.wrong, "complained")):
            pipe.read()
            if pipe.came:
                with open(self._folder / name, "ab") as file:
                    file.write(pipe.came)
                pipe.came = b""

    def kill(self) -> None:
        """All of it, at once."""
        self._spent = self.spent()
        self.live.send_all(signal.SIGKILL)
        self.live.process.wait()
        self.drain()

    def kill_part(self, chance: random.Random) -> None:
        """One of the processes that it started."""
        children = self.live.children()
        if children:
            with contextlib.suppress(ProcessLookupError):
                os.kill(chance.choice(children), signal.SIGKILL)

    def spent(self) -> float:
        """Seconds of the processor so far."""
        return self._spent + sum(map(processor_time, processes(self.live.process.pid)))

    def end(self) -> int:
        """Its status; -1 where it hasn't ended in time."""
        self.live.send(signal.SIGINT)
        over = time.monotonic() + ENDS
        while self.live.runs and time.monotonic() < over:
            self.drain()
            time.sleep(0.02)
        self.drain()
        status = self.live.process.poll()
        self.live.end()
        return -1 if status is None else status
