"""Runs a program once for each of its allocations, which fails in that run: failing.c is loaded in front of the C library."""

import dataclasses
import pathlib
import re
import subprocess
import tempfile
from typing import List, Sequence

import outside

SOURCE = pathlib.Path(__file__).with_name("failing.c")
SECONDS = 600  # for all runs of a program
END = re.compile(rb"case=(\d+) status=(\d+)\n")


class Unbuilt(OSError):
    """The library can't be compiled."""


@dataclasses.dataclass(frozen=True)
class Run:
    """What a run left: its status, or 128 and the signal that ended it, its output and its standard error."""

    status: int
    out: bytes
    err: bytes


def parts(written: bytes) -> List[bytes]:
    """What each run has written, in their order. Behind each stands the line that ends it."""
    found, at = [], 0
    for end in END.finditer(written):
        found.append(written[at : end.start()])
        at = end.end()
    return found


def runs(command: Sequence[str], sent: bytes) -> List[Run]:
    """The runs of a command over an input. In the nth its nth allocation fails; in the last none does, since it makes fewer than that.
    None: failing.c didn't come to its end."""
    with tempfile.TemporaryDirectory() as folder, tempfile.TemporaryFile() as source:
        library = pathlib.Path(folder) / "failing.so"
        compiler = outside.path_of("gcc")
        made = subprocess.run([str(compiler), "-O2", "-shared", "-fPIC", "-o", library, SOURCE], stderr=subprocess.PIPE)
        if made.returncode:
            raise Unbuilt(made.stderr.decode(errors="replace"))
        source.write(sent)
        source.seek(0)
        done = subprocess.run(
            command, env={"LD_PRELOAD": str(library)}, stdin=source, stdout=subprocess.PIPE, stderr=subprocess.PIPE, timeout=SECONDS
        )
        statuses = [int(end[2]) for end in END.finditer(done.stdout)]
        return [Run(*it) for it in zip(statuses, parts(done.stdout), parts(done.stderr))] if done.returncode == 0 else []
