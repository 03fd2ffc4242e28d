"""Devices that come and go while they are looked up: each name is looked up once, and one that has gone is an absent board."""

import contextlib
import os
import pathlib
import subprocess
import tempfile
from typing import Dict, Iterator
from unittest import mock

from live.line.line import devices
from live.run.refused import in_front
from live.table.hall import without_twice
from live.table.pairings import Pairing, Pairings

from decided.table import same


TOP = pathlib.Path(__file__).resolve().parents[2]


@contextlib.contextmanager
def gone_once_seen(folder: pathlib.Path) -> Iterator[Dict[str, int]]:
    """Each link in the folder goes as soon as it was looked up. Gives how often each name was."""
    looked: Dict[str, int] = {}
    look = os.path.realpath

    def then_goes(path: str) -> str:
        place = look(path)
        looked[path] = looked.get(path, 0) + 1
        if os.path.dirname(path).startswith(str(folder)):
            with contextlib.suppress(OSError):
                os.unlink(path)
        return place

    with mock.patch("os.path.realpath", then_goes):
        yield looked


def linked(folder: pathlib.Path, *names: str) -> None:
    """Links of these names, each to a device of its own."""
    folder.mkdir(parents=True, exist_ok=True)
    for number, name in enumerate(names, 1):
        (folder.parent / f"pts{number}").touch()
        (folder / name).symlink_to(folder.parent / f"pts{number}")


def of_a_table() -> None:
    """Two lines with one device under two names, one of which goes meanwhile: the later line is wrong, and no other."""
    with tempfile.TemporaryDirectory() as made:
        folder = pathlib.Path(made, "by-id")
        linked(folder, "one", "two")
        lines = [Pairing(2, 1, f"{folder}/one"), Pairing(3, 2, f"{made}/pts1"), Pairing(4, 3, f"{folder}/two"), Pairing(5, 4, "")]
        with gone_once_seen(folder) as looked:
            boards, wrong = without_twice(Pairings(tuple(lines), ()))
        same("the boards", [one.board for one in boards], [1, 3, 4])
        same("the wrong lines", [(one.line, one.why) for one in wrong],
             [(3, f"{made}/pts1 is the device of board 1, line 2: each has its own")])  # fmt: skip
        same("how often each was looked up", looked, {f"{folder}/one": 1, f"{folder}/two": 1, f"{made}/pts1": 1})


def of_all() -> None:
    """A cable that goes once it was looked up, one whose device is gone, and a folder that goes: the devices that are left are listed."""
    with tempfile.TemporaryDirectory() as made:
        serial = pathlib.Path(made, "serial")
        linked(serial / "by-id", "one", "two")
        (serial / "pts2").unlink()
        with mock.patch.dict(os.environ, {"DGT_LIVE_SERIAL": str(serial)}):
            with gone_once_seen(serial / "by-id"):
                same("a cable that goes", devices(), [(f"{serial}/pts1", f"{serial}/by-id/one")])
            listed = os.listdir

            def goes(path: str) -> "list[str]":
                if os.path.isdir(f"{serial}/by-id"):
                    os.rename(f"{serial}/by-id", f"{serial}/gone")
                return listed(path)

            with mock.patch("os.listdir", goes):
                same("a folder that goes", devices(), [])


def how_commands_are_called() -> None:
    """Messages name a command as it was called, so that what they say can be typed; a command that the shell finds, by its name."""
    for path, expected in (
        ("bin/dgt_live", "bin/"), ("./dgt_round", "./"), ("dgt_live", "./"), ("/usr/bin/dgt_live", ""), ("/opt/dgt/dgt_round", "/opt/dgt/"),
        ("tests/live_decisions", ""),
    ):  # fmt: skip
        same(path, in_front(path, "/usr/local/bin:/usr/bin"), expected)
    for command, said in (("bin/dgt_live", "see bin/dgt_live --help"), (str(TOP / "bin" / "dgt_live"), f"see {TOP}/bin/dgt_live --help")):
        answer = subprocess.run([command, "--add", "1-0"], cwd=TOP, capture_output=True).stderr.decode()
        same(command, said in " ".join(answer.split()), True)


TABLES = [of_a_table, of_all, how_commands_are_called]
