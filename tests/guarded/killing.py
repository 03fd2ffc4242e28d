"""Starts a recorder, and kills it right before the call of the system that is the COUNT-th after somebody has typed `back` or `undo`:
`killing.py COUNT CALLS PROGRAM ARGUMENT..`. CALLS says which are counted: `changes` those that change a file or its name, `all`
each one.
"""

import os
import pathlib
import runpy
import signal
import sys
import threading
import types
from typing import Any

sys.dont_write_bytecode = sys.pycache_prefix is None
TOP = pathlib.Path(__file__).resolve().parents[2]
CHANGES = frozenset("write fsync link rename replace unlink remove ftruncate".split())


class Killing:
    """Counts the calls of all threads, from `begin` on."""

    def __init__(self, count: int, calls: str) -> None:
        self._left, self._all = count, calls == "all"
        self._begun = False

    def begin(self) -> None:
        self._begun = True

    def sees(self, frame: types.FrameType, event: str, what: Any) -> None:
        """Python tells of each call."""
        if not self._begun or event != "c_call" or getattr(what, "__module__", "") != "posix":
            return
        if self._all or what.__name__ in CHANGES:
            self._left -= 1
            if self._left <= 0:
                os.kill(os.getpid(), signal.SIGKILL)


def main() -> None:
    killing = Killing(int(sys.argv[1]), sys.argv[2])
    sys.path.insert(0, str(TOP))
    from live.board.arbiter import Arbiter

    def counted(real: Any) -> Any:
        def counts(*words: Any) -> Any:
            killing.begin()
            return real(*words)

        return counts

    for name in ("go_back", "undo"):
        setattr(Arbiter, name, counted(getattr(Arbiter, name)))
    threading.setprofile(killing.sees)
    sys.setprofile(killing.sees)
    sys.argv = sys.argv[3:]
    runpy.run_path(sys.argv[0], run_name="__main__")


if __name__ == "__main__":
    main()
