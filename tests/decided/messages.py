"""What is told where options or a NAME are refused, a device or a program can't be had, where a disk has room again, and
where a round has no such board."""

import ast
import errno
import os
import pathlib
import pwd
import subprocess
import sys
import tempfile
from typing import Callable, Dict, List, Tuple, cast

from live.board.connection import Asked, listing, told_of_shut
from live.board.playing import Disk
from live.board.state import DISK_FULL, NOT_WRITTEN, Standing
from live.child.program import Program
from live.doors import dgt_round
from live.game import kept, log as log_file
from live.game.files import not_written, open_regular, plain
from live.game.game import check_name
from live.game.kept import Capture
from live.game.log import Log, Screen
from live.game.making_pgn import Made
from live.game.opening import is_recorded, reason
from live.game.options import Options
from live.game.typed import Said
from live.line.line import login_name, may_not_open
from live.round.commands import ways
from live.round.tournament import another_folder
from live.run.refused import Refused
from live.show.table import boards_are

from decided.table import accepted, refused, same

# What the program prints, and what is told. The reasons are the conditions in CHESS, 'Positions' and 'FEN'.
REASONS = {
    "fen: form\n": "six fields",
    "fen: counters\n": "9999",
    "fen: placement\n": "eight ranks",
    "fen: kings\n": "one king",
    "fen: pawns\n": "rank 1 or 8",
    "fen: rights\n": "KQkq",
    "fen: en passant\n": "pawn",
    "fen: check\n": "in check",
    "fen: another\n": "dgt_live --help",
    "error: the side after '--first' is white or black\n\nUsage: dgt_replay <COMMAND>\n": "'--first' is white or black. See",
    "tag White: long\n": "tag White: long. See",
    "": "the program gave no reason",
}
NAMES = {
    "game.dgt": "game",
    "game.pgn": "game",
    "club/blitz-2.before.dgt": "club/blitz-2",
    "game.": "game",
    "a.b.end": "a.b",
    "game.pages": "game",
    "game.cable": "game",
}
BOARDS: List[Tuple[List[int], str]] = [
    ([], "no line of the table is right"),
    ([4], "the only board is 4"),
    ([1, 2], "the boards are 1 and 2"),
    ([1, 2, 3], "the boards are 1 to 3"),
    ([2, 4, 5], "the boards are 2, 4 and 5"),
    ([1, 2, 3, 4, 7, 9, 10, 11], "the boards are 1 to 4, 7 and 9 to 11"),
    (list(range(1, 20, 2)), "the boards are 1, 3, 5, 7, 9, 11, .. and 19"),
]
# What is typed in a round of these boards without a number, and what is told; what the program says of the lines that are no commands.
NO_BOARD = [
    ("1-0", [1, 2], "of which board? Type its number first, as 2 1-0"),
    ("1 - 0", [1, 2, 3, 4], "of which board? Type its number first, as 3 1-0"),
    ("½", [7], "of which board? Type its number first, as 7 1/2-1/2"),
    ("12. Nf3 Nc6", [1, 2], "of which board? Type its number first, as 2 Nf3"),
    ("17. Qxf7", [1, 2], "of which board? Type its number first, as 2 Qxf7"),
    ("sf3", [1, 2], "of which board? Type its number first, as 2 sf3"),
    ("+-", [1, 2], "of which board? Type its number first, as 2 +-"),
    ("back", [1, 2], "of which board? Type its number first, as 2 back"),
    ("back  2... Nc6", [1, 2], "of which board? Type its number first, as 2 back 2... Nc6"),
    ("*", [1, 2], "of which board? Type its number first, as 2 *"),
    ("name White=Anna", [1, 2], "of which board? Type its number first, as 2 name White=Anna"),
    ("ok 1", [1, 2], "type the board's number first, as 1 ok"),
    ("hello", [1, 2], "type 2 1-0, 2 +-, 2 *, 2 Nf3 Nc6, 2 back, 2 name White=Anna, 2 ok, 2 moves, 2 help, 2 (the state of board 2), messages (of before), r (read the table again) or q (end)"),
    ("Nf3 1-0", [1, 2, 3], "type 3 1-0, 3 +-, 3 *, 3 Nf3 Nc6, 3 back, 3 name White=Anna, 3 ok, 3 moves, 3 help, 3 (the state of board 3), messages (of before), r (read the table again) or q (end)"),
]
SAID = {
    "1-0": Said("result", ("1-0",)),
    "1 - 0": Said("result", ("1-0",)),
    "½": Said("result", ("1/2-1/2",)),
    "12. Nf3 Nc6": Said("moves", ("2",)),
    "17. Qxf7": Said("illegal", ("0", "Qxf7")),
    "sf3": Said("meant", ("0", "sf3", "Nf3")),
    "Nf3 1-0": Said("mixed"),
}
FOLDERS = {
    "round3": "round4",
    "club/round09": "club/round10",
    "games": "games-2",
    "games-2": "games-3",
    "/": "round2",
    ".": "round2",
    "..": "round2",
    "2024": "2025",
}
PLAIN = ["game", "/dev/shm/game", "blitz-1", "1.1", "game.pgn.old", ".", "..", ".pgn", "./.dgt", "a\0b"]


def reasons() -> None:
    for printed, part in REASONS.items():
        told = reason(printed)
        same(f"{part} in {told!r}", part in told and "\n" not in told and "Usage" not in told, True)


def no_names() -> None:
    for name, game in NAMES.items():
        said = refused(name, Refused, check_name, name)
        same(name, said.endswith(f"type its NAME alone, {game}"), True)
    for name in PLAIN:
        accepted(name, check_name, name)
    for device in ("/dev/null", "/dev/ttyUSB99", "/dev/serial/by-id/usb-1", "/dev/rfcomm9", "tcp://192.168.1.20:2001"):
        same(device, refused(device, Refused, check_name, device), f"{device} is a device: type the DEVICE first, and then the NAME")
    with tempfile.TemporaryDirectory() as folder:
        old = pathlib.Path(folder) / "game.pgn.dgt"
        old.write_bytes(b"")
        refused("an empty file", Refused, check_name, str(old.with_suffix("")))
        old.write_bytes(b"\x86")
        accepted("a game that was begun so", check_name, str(old.with_suffix("")))


def no_right() -> None:
    """Files and folders that this user may not write."""
    with tempfile.TemporaryDirectory() as folder:
        path, real = f"{folder}/game.dgt", open_regular

        def denied(*_: object) -> int:
            raise PermissionError(errno.EACCES, os.strerror(errno.EACCES))

        setattr(kept, "open_regular", denied)
        try:
            said = refused("a capture", Refused, Capture.open, path)
        finally:
            setattr(kept, "open_regular", real)
        same("a capture", said, f"{path} can't be written (Permission denied): get the right to, or choose another name")
        for number, why in (
            (errno.EACCES, "(Permission denied): put that right"), (errno.EFBIG, "(File too large): put that right"),
            (errno.EIO, "(Input/output error): put that right"), (errno.ENOSPC, "(No space left on device): is the disk full?"),
            (errno.EDQUOT, "(Disk quota exceeded): is the disk full?"),
        ):  # fmt: skip
            error = OSError(number, os.strerror(number))
            same("another file", not_written(path, error), f"{path} can't be written {why}")
            same("a text that is made", Made.of_error(error).told(path), f"{path} can't be written {why}")
        access = os.access
        setattr(os, "access", lambda *_: False)
        try:
            said = refused("a round's folder", Refused, dgt_round.folder_of, dgt_round.Asked(f"{folder}/round.csv", folder))
        finally:
            setattr(os, "access", access)
        same("a round's folder", said, f"you may not write in the folder {folder}: get the right to, or choose another FOLDER")


def not_had() -> None:
    """What to do is told with the name and the path that are this user's."""
    told = may_not_open("/dev/ttyUSB0", "anna")
    same("a device", "type 'sudo adduser anna dialout'" in told and told.startswith("/dev/ttyUSB0 "), True)
    same("whose name", login_name(), pwd.getpwuid(os.getuid()).pw_name)
    with tempfile.TemporaryDirectory() as folder:
        finder = pathlib.Path(folder) / "program"
        finder.write_text("#!/bin/sh\nexit 70\n")
        finder.chmod(0o755)
        told = refused("a program", Refused, Program.find, pathlib.Path(folder))
        same("a program", told.endswith(f"Type {finder}: it says what to do"), True)
    for content in ("#!/bin/sh\nexit 1\n", "\x7fELF of another processor"):
        with tempfile.TemporaryDirectory() as folder:
            program = pathlib.Path(folder) / "dgt_replay"
            program.write_text(content)
            program.chmod(0o755)
            told = refused("a program that doesn't run", Refused, Program.find, pathlib.Path(folder))
            needed = f"Linux with glibc 2.34 or later, and the archive for this processor, which is {os.uname().machine}"
            same("what it needs", told, f"{program} doesn't run: it needs {needed}")


def devices_listed() -> None:
    """Each with the name of its cable, where it has one; and what to do where no board is plugged in."""
    two = [("/dev/ttyACM0", ""), ("/dev/ttyUSB0", "/dev/serial/by-id/board")]
    same("with their numbers", listing(two, Asked({"/dev/ttyACM0": "01234"}, in_use={"/dev/ttyUSB0"})),
         ["/dev/ttyACM0  01234", "/dev/ttyUSB0  /dev/serial/by-id/board  in use"])  # fmt: skip
    shut = Asked({"/dev/ttyACM0": "01234"}, shut={"/dev/ttyUSB0"})
    same("one may not be opened", listing(two, shut),
         ["/dev/ttyACM0  01234", "/dev/ttyUSB0  /dev/serial/by-id/board  may not be opened"])  # fmt: skip
    same("and what to do", told_of_shut(shut, "anna"), [may_not_open("/dev/ttyUSB0", "anna")])
    failed = Asked({"/dev/ttyACM0": "01234"}, failed={"/dev/ttyUSB0": "live was killed"})
    same("one can't be asked", listing(two, failed)[1], "/dev/ttyUSB0  /dev/serial/by-id/board  can't be asked (live was killed)")
    same("all may be opened", told_of_shut(Asked(), "anna"), [])
    same("two", listing(two, Asked()),
         ["/dev/ttyACM0", "/dev/ttyUSB0  /dev/serial/by-id/board"])  # fmt: skip
    none = "dgt_live: no board is plugged in: there is no /dev/ttyUSB*, /dev/ttyACM* or /dev/rfcomm*. Plug it in, and try again"
    same("none", listing([], Asked()), [none])


class Told:
    """A screen and a state of the board, as far as a disk asks for them."""

    def __init__(self) -> None:
        self.trouble = ""
        self.said: List[str] = []

    def say(self, *lines: str) -> None:
        self.said.append(" ".join(lines))

    def disk(self, trouble: str) -> None:
        self.trouble = trouble


def texts_alone() -> None:
    """The text couldn't be written, and is."""
    for text, room in ((DISK_FULL, "there is room again, and all"), (NOT_WRITTEN, "all")):
        told = Told()
        with open(os.devnull, "r+b") as nothing:
            capture = Capture("no folder/game.dgt", nothing.fileno())
            disk = Disk(cast(Screen, told), cast(Standing, told), capture)  # it asks for no more
            disk.text = text
            disk.look()
            same("it can't be written", (told.trouble, told.said), (text, []))
            disk.text = ""
            disk.try_again()
        same("what is told names no file", (told.trouble, told.said), ("", [f"{room} is written"]))


def full_device() -> int:
    return os.open("/dev/full", os.O_RDWR)


def closed_device() -> int:
    """A file that may only be read."""
    return os.open(os.devnull, os.O_RDONLY)


def gone_device() -> int:
    """A terminal that is gone."""
    master, slave = os.openpty()
    os.close(master)
    return slave


def captures_alone() -> None:
    """A capture that can't be written: the state and the line say DISK FULL where the disk is full, and else what the system says.
    Another error is told too, and then all is written."""
    wait = "what comes is kept in memory, and is tried again each second"
    full = f"DISK FULL: no folder/game.dgt can't be written (No space left on device). Make room: {wait}"
    gone = f"NOT WRITTEN: no folder/game.dgt can't be written (Input/output error). Put that right: {wait}"
    closed = f"NOT WRITTEN: no folder/game.dgt can't be written (Bad file descriptor). Put that right: {wait}"
    room, no_room = "there is room again, and all is written", "all is written"
    kinds: Dict[str, Callable[[], int]] = {full: full_device, gone: gone_device, closed: closed_device}
    for lines in ((full, room), (gone, no_room), (full, gone, no_room), (gone, full, room), (gone, closed, no_room)):
        told, number = Told(), closed_device()
        capture = Capture("no folder/game.dgt", number)
        disk = Disk(cast(Screen, told), cast(Standing, told), capture)
        for turn, line in enumerate(lines):
            device = kinds[line]() if line in kinds else os.open(os.devnull, os.O_WRONLY)
            os.dup2(device, number)
            os.close(device)
            for _ in range(2):  # it is told once
                disk.append(b"e4") if turn == 0 else disk.try_again()
            same(f"what is told of {line}", (told.said, told.trouble), (list(lines[: turn + 1]), line.partition(":")[0] if line in kinds else ""))
        os.close(number)


def lost() -> None:
    """More than is kept in memory: that is said once, whatever keeps it from being written."""
    told, number = Told(), gone_device()
    disk = Disk(cast(Screen, told), cast(Standing, told), Capture("no folder/game.dgt", number))
    for _ in range(3):
        disk.append(bytes(700_000))
    os.close(number)
    expected = ["no folder/game.dgt couldn't be written for too long: what comes now is lost, up to a dump after it can be"]
    same("what is told of lost bytes", told.said[1:], expected)


def logs() -> None:
    """A log that can't be opened at first is, once that succeeds, and says what is missing."""
    with tempfile.TemporaryDirectory() as folder:
        path = pathlib.Path(folder) / "later" / "game.log"
        log = Log(path)
        log.write("10:00:00", "agrees")
        log.write("10:00:01", "1. e4")
        path.parent.mkdir()
        log.write("10:00:02", "1... e5")
        log.write("10:00:03", "agrees")
        log.close()
        missing = "10:00:02  (2 lines are missing here: the log couldn't be written: No such file or directory)"
        same("a log", path.read_text().splitlines(), [missing, "10:00:02  1... e5", "10:00:03  agrees"])


def errors_of_logs() -> None:
    """What keeps a log from being written stands in it before the next line; nobody reckons with a ValueError, which is raised
    where the log can't tell of it."""
    real = open_regular
    with tempfile.TemporaryDirectory() as folder:
        path = pathlib.Path(folder) / "game.log"
        errors: List[Exception] = []

        def opens(path: pathlib.Path, flags: int) -> int:
            if errors:
                raise errors.pop(0)
            return real(path, flags)

        setattr(log_file, "open_regular", opens)
        try:
            errors = [ValueError("first")]
            log = Log(path)
            log.write("10:00:00", "agrees")
            log.close()
            errors = [ValueError("second"), OSError(24, "Too many open files")]
            log = Log(path)
            log.write("10:00:01", "1. e4")
            log.close()
            errors = [ValueError("third"), ValueError("fourth")]
            log = Log(path)
            same("what nobody is told of is raised", refused("fourth", ValueError, log.close), "fourth")
            errors = [OSError(24, "Too many open files")] * 2
            Log(path).close()
        finally:
            setattr(log_file, "open_regular", real)
        same(
            "a log and its errors",
            path.read_text().splitlines(),
            [
                "10:00:00  (the log couldn't be opened at first: ValueError: first)",
                "10:00:00  agrees",
                "(1 line is missing here: the log couldn't be written: ValueError: second; Too many open files)",
            ],
        )


def rounds() -> None:
    """No such board, no number of one, and the folder of another round."""
    for numbers, said in BOARDS:
        same(said, boards_are(numbers), said)
    for text, numbers, said in NO_BOARD:
        same(f"{text} of {numbers}", ways(text, numbers, SAID.get(text, Said("unknown"))), said)
    for folder, other in FOLDERS.items():
        same(folder, another_folder(folder), other)


# What is asked of a game that is recorded, on which board of a round, and what is told.
RECORDED = [
    ("--first black", "", ["g3 is being recorded: Ctrl-C there, and then this again"]),
    (
        "--first black",
        "3",
        [
            "g3 is board 3 of a dgt_round, and Ctrl-C there would end all boards. In the table",
            "write black in its column first; save the table, and type r there",
        ],
    ),
    (
        "--strict",
        "12",
        [
            "g3 is board 12 of a dgt_round, and Ctrl-C there would end all boards. In the table",
            "write no in its column recover; save the table, and type r there",
        ],
    ),
    (
        "--recover --first white",
        None,
        [
            "g3 is in use. If a dgt_live records it, Ctrl-C there, and then this again. If a dgt_round does, in its table",
            "write white in its column first, and yes in its column recover; save the table, and type r there",
        ],
    ),
]


def recorded() -> None:
    """Ctrl-C is told only where it ends one game."""
    for words, board, told in RECORDED:
        same(f"{words} on board {board}", list(is_recorded("g3", board, Options.of_words(words.split()))), told)


def plain_paths() -> None:
    """Parts of a path that mean nothing are left out; `..` may lead through a link, and stays."""
    for path, expected in [("./a//b.dgt", "a/b.dgt"), ("/a/./b", "/a/b"), ("../a", "../a"), ("a", "a"), ("/", "/")]:
        same(f"plain {path}", plain(path), expected)


TOP = pathlib.Path(__file__).resolve().parents[2]
# The modules of live/ that each recorder of one board has from its start. What waits for a rare event isn't among them.
LOADS = """
import sys; sys.path.insert(0, sys.argv[1])
import live.doors.dgt_live
print(*sys.modules)
"""
OF_OTHER_CALLS = {"live.doors.audience", "live.doors.kept_game", "live.out.broadcast", "live.show.page", "live.round", "live.game.packing"}
HEAVY = {"pathlib", "urllib", "hashlib", "email", "traceback", "datetime", "zipfile"}
OF_INSPECT = {"inspect", "ast", "dis", "tokenize"}  # which dataclasses imports


def loaded() -> None:
    """A recorder of one board that nobody else sees loads neither pages nor broadcasts, nor what takes long."""
    names = set(said_by(LOADS).split())
    same("what is loaded of other calls", names & OF_OTHER_CALLS, set())
    heavy = HEAVY | (OF_INSPECT if sys.version_info < (3, 12) else set())
    same("what is loaded of Python's library", names & heavy, set())


def at_the_top() -> None:
    """Each module imports what it needs at its top, so nothing is loaded while a board is recorded."""
    inner = []
    for path in sorted((TOP / "live").rglob("*.py")):
        tree = ast.parse(path.read_text())
        for function in (node for node in ast.walk(tree) if isinstance(node, (ast.FunctionDef, ast.If))):
            inner += [f"{path.relative_to(TOP)}, line {node.lineno}" for node in ast.walk(function)
                      if isinstance(node, (ast.Import, ast.ImportFrom)) and path != TOP / "live" / "__init__.py"]  # fmt: skip
    same("imports that aren't at the top", inner, [])


def said_by(code: str) -> str:
    """What this prints, given where `live` is."""
    words = [sys.executable, "-S", "-c", code, str(TOP)]
    return subprocess.run(words, stdout=subprocess.PIPE, check=True).stdout.decode()


TABLES = [
    *(reasons, no_names, no_right, not_had, devices_listed, texts_alone, captures_alone, lost, logs, errors_of_logs, rounds, recorded),
    *(plain_paths, loaded, at_the_top),
]
