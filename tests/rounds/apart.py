"""Trouble of one output of a round leaves the others alone: a command that fails or hangs, a full disk, a folder that can't be made, an
error."""

import os
import pathlib
import signal
import sys

from played import TOP
from played.stage import bytes_of, kill, same, stop, until, until_line
from rounds.hall import quits
from rounds.outputs import UNPLAYED, Outputs
from rounds.witness import texts_of


# Notes its number and that of a child in a session of its own, and whether one of an earlier run is still there; then hangs.
HANGS = """\
import os, pathlib, subprocess, sys, time
notes = pathlib.Path(sys.argv[1])
def is_there(number):
    try:
        return open(f"/proc/{number}/stat").read().rpartition(")")[2].split()[0] != "Z"
    except OSError:
        return False
before = notes.read_text().split() if notes.exists() else []
beside = [number for number in before if is_there(number)]
child = subprocess.Popen(["sleep", "600"], start_new_session=True)
with open(notes, "a") as file:
    file.write(f"{os.getpid()} {child.pid} " + ("beside " if beside else ""))
time.sleep(600)
"""


def commands_of_one(folder: pathlib.Path) -> None:
    """The command of one output fails and that of another one hangs: the third goes on without a word. A run that hangs is ended with its
    children when its time is over, and no other begins before, also if the recorder is killed, and the output's folder made anew."""
    round_ = Outputs(folder, {"": 0.0, "fails": 0.0, "hangs": 0.0})
    hall, notes = round_.hall, folder / "notes"
    (folder / "hangs.py").write_text(HANGS)
    options = [*round_.options(""), "--output", "fails = 0, sh -c 'echo no way >&2; exit 3'"]
    hangs = ["--output", f"hangs = 0, {sys.executable} {folder}/hangs.py {notes}"]
    live = round_.record(*options, *hangs)
    hall.begun(live)
    until_line(live, "NOT PUBLISHED: output fails: no way; it is tried again")
    until(lambda: len(bytes_of(notes).split()) == 2, "the run that hangs")
    round_.play(2)
    round_.until_out("", 2)
    same(len(bytes_of(notes).split()), 2)
    same(("first" in live.lines(), f"NOT PUBLISHED: {hall.games}" in live.lines()), (False, False))
    kill(live)
    live = round_.record(*options, "--output", "hangs = no")
    until_line(live, "output hangs is removed")
    same((round_.place("hangs").exists(), round_.place("fails").exists()), (False, True))
    hall.begun(live)
    same(stop(live), 3)
    assert "output-fails/broadcast.pgn isn't published: no way" in live.complaint(), live.complaint()
    round_.clock.may_take(4)
    live = round_.record(*options, *hangs)
    hall.begun(live)
    round_.play(3)
    round_.until_out("", 3)
    until_line(live, "NOT PUBLISHED: output hangs: an earlier run of the command goes on")
    same(bytes_of(notes).split()[2:], [])
    for number in bytes_of(notes).split():
        os.kill(int(number), signal.SIGKILL)
    until_line(live, "NOT PUBLISHED: output hangs: the command took more than 4 s, and was ended")
    until(lambda: len(bytes_of(notes).split()) >= 6, "a third run", 0.05)
    round_.play(4)
    round_.until_out("", 4)
    same(b"beside" in bytes_of(notes), False)
    quits(live, 3)
    same((f"{hall.games}/broadcast.pgn isn't" in live.complaint(), live.complaint().count("isn't published")), (False, 2))


# No file in a folder has room for more than twenty bytes, as long as another file is there.
FULL = """
import errno, os
real = os.write
def write(number, content):
    if not (os.path.exists({full!r}) and os.readlink(f"/proc/self/fd/{{number}}").startswith({place!r})):
        return real(number, content)
    real(number, content[:20])
    raise OSError(errno.ENOSPC, os.strerror(errno.ENOSPC))
os.write = write
"""


def disk_of_one(folder: pathlib.Path) -> None:
    """The disk is full for one output, and another one's folder can't be made, since a file has its name: a line says so, and the first
    goes on. After a kill nothing is too young. When there is room, each has what it is to have by then."""
    round_ = Outputs(folder)
    hall, full = round_.hall, folder / "full"
    (folder / "sitecustomize.py").write_text(FULL.format(full=str(full), place=str(round_.place("agency"))))
    hall.games.mkdir()
    round_.place("public").write_bytes(b"mine\n")
    round_.watch()
    options, environment = round_.options("", "agency", "public"), {"PYTHONPATH": str(folder)}
    live = round_.record(*options, environment=environment)
    hall.begun(live)
    until_line(live, f"{round_.text('public')} can't be written (Not a directory)")
    round_.until_out("agency", 0)
    round_.play(1)
    round_.until_hidden("agency", 1)
    full.touch()
    round_.play(2)
    round_.until_out("", 2)
    round_.clock.be(200)
    until_line(live, f"DISK FULL: {round_.text('agency')} can't be written (No space left on device)")
    same(texts_of(bytes_of(round_.text("agency"))), UNPLAYED)
    kill(live)
    live = round_.record(*options, environment=environment)
    hall.begun(live)
    round_.play(3)
    round_.until_out("", 3)
    full.unlink()
    round_.place("public").unlink()
    until(lambda: texts_of(bytes_of(round_.text("public"))) == UNPLAYED, "the first text of the last output", 0.05)
    round_.clock.be(500)
    round_.until_out("agency", 3)
    round_.clock.be(1500)
    round_.until_out("public", 3)
    quits(live)
    same([name for name in map(str, hall.games.rglob("*")) if name.endswith(".new")], [])
    round_.end()


# Starts the recorder with a clock that is ahead, as Clock does, and raises an error in one output as long as a file is there.
RAISES = """
import os, runpy, sys
sys.dont_write_bytecode = True
sys.path.insert(0, {top!r})
from live.out import broadcast, delay
def raising(whose, name, of):
    real = getattr(whose, name)
    def called(self, *words):
        with open({raises!r}) as file:
            wanted = file.read()
        if wanted == name and "output-agency" in of(self):
            raise ValueError("an error in one output")
        return real(self, *words)
    setattr(whose, name, called)
for whose, name in ((broadcast.Broadcast, "_wait"), (broadcast.Broadcast, "text"), (broadcast.Carrier, "make_folder")):
    raising(whose, name, lambda one: str(one._place))
for name in ("take", "show"):
    raising(delay.OneGame, name, lambda one: one.name)
sys.argv = sys.argv[1:]
runpy.run_path(sys.argv[0], run_name="__main__")
"""


def errors_of_one(folder: pathlib.Path) -> None:
    """An error is raised in one output, in each place in turn: the other two have each ply, and when the error is gone it has them too."""
    round_ = Outputs(folder, {"": 0.0, "agency": 0.0, "public": 0.0})
    hall, raises, script = round_.hall, folder / "raises", folder / "raises.py"
    raises.write_text("")
    script.write_text(RAISES.format(top=str(TOP), raises=str(raises)))
    live = hall.record(*round_.options("", "agency", "public"), typed=True, start=[sys.executable, script, *round_.clock.start[1:]])
    hall.begun(live)
    for ply, place in enumerate(("_wait", "text", "take", "show"), 1):
        for name in ("", "agency", "public"):
            round_.until_out(name, ply - 1)
        raises.write_text(place)
        round_.play(ply)
        for name in ("", "public"):
            round_.until_out(name, ply)
        same((place, live.runs), (place, True))
        raises.write_text("")
        round_.until_out("agency", ply)
    assert "an error in one output" in bytes_of(hall.games / "round.log").decode()
    quits(live)


CASES = [commands_of_one, disk_of_one, errors_of_one]
