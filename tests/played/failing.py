"""A recorder whose program fails at some calls, as long as a file is there; and one that writes down each start of its program."""

import pathlib
import shutil
from typing import Callable, List, Tuple

from played import TOP
from played.stage import bytes_of, program

FAILS = """#!/bin/sh
if [ "$1" = {call} ] && [ -e '{stuck}' ]; then exit 4; fi
exec '{program}' "$@"
"""
ENDED = "ended with status 4"
COUNTED = """#!/bin/sh
echo "$1" >> '{log}'
exec '{program}' "$@"
"""


def failing(folder: pathlib.Path, call: str, door: str = "dgt_live") -> Tuple[pathlib.Path, pathlib.Path]:
    """The path of such a recorder, and of the file."""
    stuck = folder / "stuck"
    return _with_program(folder, door, FAILS.format(call=call, stuck=stuck, program=program())), stuck


def counted(folder: pathlib.Path, door: str = "dgt_live") -> Tuple[pathlib.Path, Callable[[], List[str]]]:
    """The path of such a recorder, and what gives the first word of each start since it was asked before."""
    log, told = folder / "starts", 0

    def started() -> List[str]:
        nonlocal told
        words = bytes_of(log).decode().splitlines()
        before, told = told, len(words)
        return words[before:]

    return _with_program(folder, door, COUNTED.format(log=log, program=program())), started


def _with_program(folder: pathlib.Path, door: str, script: str) -> pathlib.Path:
    """The path of a recorder with this in place of the program."""
    place = folder / "place"
    place.mkdir()
    shutil.copy(TOP / "bin" / door, place)
    (place / "live").symlink_to(TOP / "live")
    (place / "dgt_replay").write_text(script)
    (place / "dgt_replay").chmod(0o755)
    return place / door
