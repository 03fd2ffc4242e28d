"""What the program was really told that attends a game, and what it has answered: a recorder that writes both down."""

import pathlib
import sys
from typing import List, Tuple

from attending.answers import Answer, Entry, all_answers
from attending.filed import entries_of
from played import TOP

# Starts the recorder so that each child that is told a game's times leaves two files: what is written to it, and what it has written. One
# that has read the game before leaves them once it attends the board.
TAP = """
import os, pathlib, runpy, sys, threading
sys.dont_write_bytecode = True
folder, sys.argv = pathlib.Path(sys.argv[1]), sys.argv[2:]
sys.path.insert(0, {top!r})
from live.child import program
from live.game import attending
logs, begins, told, said, reader = {{}}, [], {{}}, {{}}, threading.local()

class Tapped:
    def __getattr__(self, name):
        return getattr(os, name)

    def write(self, number, content):
        count = os.write(number, content)
        if logs.get(number):
            with open(f"{{logs[number]}}.told", "ab") as log:
                log.write(bytes(content)[:count])
        elif number in told:
            told[number] += bytes(content)[:count]
        return count

    def read(self, number, count):
        part = os.read(number, count)
        if number in said:
            said[number] += part
        return part

starts, opens, takes = attending.Attending.start, program.Program.start, attending.Attending._takes
reads, passes = attending.Reader.__init__, attending.Attending._tell_past

def start(self):
    begins[:] = [pathlib.Path(self._past.capture.path).stem if self.notes else ""]
    starts(self)

def opened(self, words, *streams):
    child = opens(self, words, *streams)
    if words[0] == "live":
        logs[child.stdin.fileno()], told[child.stdin.fileno()], said[child.stdout.fileno()] = None, b"", b""
        if not getattr(reader, "is_one", False):
            attends(child)
    return child

def attends(child):
    number = len(list(folder.glob("*.told")))
    logs[child.stdin.fileno()] = log = folder / f"{{begins[0]}}.{{number:03}}" if begins[0] else None
    for ending, content in (("told", told[child.stdin.fileno()]), ("said", said[child.stdout.fileno()])) if log else ():
        if content or ending == "told":
            pathlib.Path(f"{{log}}.{{ending}}").write_bytes(content)

def read(self, *given):
    reader.is_one = True
    reads(self, *given)
    reader.is_one = False

def passed_on(self):
    child = passes(self)
    if child:
        attends(child)
    return child

def take(self, part):
    log = logs.get(self._child.stdin.fileno()) if self._child else None
    if log:
        with open(f"{{log}}.said", "ab") as file:
            file.write(part)
    takes(self, part)

attending.os, attending.Attending.start, program.Program.start, attending.Attending._takes = Tapped(), start, opened, take
attending.Reader.__init__, attending.Attending._tell_past = read, passed_on
runpy.run_path(sys.argv[0], run_name="__main__")
"""


class Tap:
    """Recorders that are started with `start` write down what their programs are told, one behind the other."""

    def __init__(self, folder: pathlib.Path) -> None:
        self._folder, script = folder / "told", folder / "tap.py"
        self._folder.mkdir()
        script.write_text(TAP.format(top=str(TOP)))
        self.start: List[object] = [sys.executable, script, self._folder]

    @property
    def calls(self) -> List[Tuple[List[Entry], List[Answer]]]:
        """What each was told and has answered."""
        return self.calls_of("*")

    def calls_of(self, game: str) -> List[Tuple[List[Entry], List[Answer]]]:
        """The same of those that attend this game."""
        found = []
        for told in sorted(self._folder.glob(f"{game}.*.told")):
            said = told.with_suffix(".said")
            found.append(([*entries_of(told.read_bytes())], all_answers(said.read_bytes())[1] if said.exists() else []))
        return found
