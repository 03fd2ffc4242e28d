"""What a call says and leaves behind, whatever it records: its version, its list of devices, the terminal."""

import json
import os
import pathlib
import re
import socket
import subprocess
import sys
import urllib.request
from typing import Any

from live.game.typed import ONE_BOARD, WAYS, with_more
from played import TOP, words
from played.boards import Cables
from played.ports import free_port
from played.recorder import LIVE, Live
from played.stage import (
    PROGRAM,
    Stage,
    a_board,
    begin_game,
    begun,
    bytes_of,
    ended,
    refuses,
    same,
    stop,
    until,
    until_game,
    until_line,
)

# The system lets this user open no device of these, whoever he is.
SHUT = """
import os
opens, access = os.open, os.access
def open_but(path, *more, **named):
    if str(path).startswith({shut!r}):
        raise PermissionError(13, "Permission denied", path)
    return opens(path, *more, **named)
os.open = open_but
os.access = lambda path, mode, **named: not str(path).startswith({shut!r}) and access(path, mode, **named)
"""


def shut(folder: pathlib.Path, what: str, also: str = "") -> "dict[str, str]":
    """What has a call of Python run under this rule."""
    (folder / "sitecustomize.py").write_text(SHUT.format(shut=what) + also)
    return {"PYTHONPATH": str(folder)}


def version(folder: pathlib.Path) -> None:
    """Each command prints its name and the version of the program that is beside it."""
    answer = subprocess.run([PROGRAM, "--version"], stdout=subprocess.PIPE, check=True)
    program, number = answer.stdout.decode().split()
    same(program, "dgt_replay")
    for command in (LIVE, TOP / "bin" / "dgt_round"):
        for option in ("--version", "-V"):
            answer = subprocess.run([command, option], stdout=subprocess.PIPE, stderr=subprocess.STDOUT)
            same((answer.returncode, answer.stdout.decode()), (0, f"{command.name} {number}\n"))


# Prints what the completion offers for the last of some words.
COMPLETES = """
. {script}
COMP_WORDS=("$@") COMP_CWORD=$(($# - 1))
_dgt "$1" "${{COMP_WORDS[COMP_CWORD]}}" "${{COMP_WORDS[COMP_CWORD - 1]}}"
[ ${{#COMPREPLY[@]}} -eq 0 ] || printf '%s\\n' "${{COMPREPLY[@]}}"
"""


def as_the_readme_says(folder: pathlib.Path) -> None:
    """README's first commands, typed in their order, with a board: the sample is there, the list, and a game that is recorded."""
    page = (TOP / "README.md").read_text().replace(" samples/", f" {TOP}/samples/")
    lines = [line.partition("#")[0].split() for line in page.splitlines() if line.startswith("    bin/")]
    sample, listed, (_, _, name, *options) = lines[:3]
    for command, *others in (sample, listed):
        line = " ".join([str(TOP / command), *others])
        subprocess.run(["sh", "-c", line], cwd=folder, check=True, stdout=subprocess.DEVNULL, stderr=subprocess.DEVNULL)
    same(bytes_of(folder / sample[-1]).endswith(b" *\n\n"), True)
    board = a_board(folder)
    live = Live(board.device, name, *options, cwd=folder)
    begun(live)
    board.play("e2e4")
    until_game(folder / name, "1. e4 *")
    same(stop(live), 0)


def part_of_python(folder: pathlib.Path) -> None:
    """Where only a part of Python is installed, a line says so."""
    (folder / "queue.py").write_text('raise ModuleNotFoundError("No module named queue", name="queue")')
    for command in ("dgt_live", "dgt_round"):
        environment = {**os.environ, "PYTHONPATH": str(folder)}
        answer = subprocess.run([TOP / "bin" / command, "--help"], env=environment, stdout=subprocess.PIPE, stderr=subprocess.PIPE, text=True)
        lacks = "this Python lacks queue: install all of Python 3, on Debian and Ubuntu by 'sudo apt install python3'"
        same((answer.returncode, answer.stdout, answer.stderr), (1, "", f"{command}: {lacks}\n"))


def offered(*words: str) -> "set[str]":
    """What bash offers behind these words."""
    script = COMPLETES.format(script=TOP / "bin" / "completion.bash")
    answer = subprocess.run(["bash", "-uc", script, "bash", *words], stdout=subprocess.PIPE, stderr=subprocess.PIPE)
    same((answer.returncode, answer.stderr), (0, b""))
    return set(answer.stdout.decode().split())


def completion(folder: pathlib.Path) -> None:
    """bash offers each option that a help names, each subcommand, and the sides; nothing where somebody writes a value."""

    def options(*words: object) -> "set[str]":
        told = subprocess.run([*map(str, words), "--help"], stdout=subprocess.PIPE, check=True).stdout.decode()
        return set(re.findall(r"(?<![\w-])--[a-z]+(?:-[a-z]+)*", told))

    for command, others in ((LIVE, {"--help"}), (TOP / "bin" / "dgt_round", {"--help"})):
        of_others = {"--devices"} if command.name == "dgt_round" else set()  # a help may name the other's
        same(offered(command.name, "-"), (options(command) | others) - of_others)
    told = subprocess.run([PROGRAM, "--help"], stdout=subprocess.PIPE, check=True).stdout.decode()
    subcommands = set(re.findall(r"(?m)^  ([a-z]+) ", told.partition("Commands:")[2].partition("Options:")[0]))
    same(offered("dgt_replay", ""), subcommands | {"--help", "--version"})
    for subcommand in subcommands - {"help"}:
        same((subcommand, offered("dgt_replay", subcommand, "--")), (subcommand, options(PROGRAM, subcommand)))
    same(offered("dgt_live", "--first", ""), {"white", "black"})
    same([offered("dgt_live", "--white", ""), offered("dgt_live", "/dev/tty"), offered("dgt_round", "--de")], [set(), set(), {"--delay"}])


def devices_that_are_shut(folder: pathlib.Path) -> None:
    """--devices says which devices this user may not open, and what to do about it."""
    cables = Cables(folder)
    board = cables.board("DGT_A", 0)
    Stage.boards.append(board)
    rule = shut(folder, os.ttyname(board.slave))
    live = Live("", "", "--devices", start=[sys.executable], environment={**cables.environment(), **rule})
    refuses(live, 3, "may not be opened: let an administrator type 'sudo adduser ")
    (line,) = [line for line in live.lines().splitlines() if "usb-DGT_A" in line]
    same(line.endswith("usb-DGT_A  may not be opened"), True)


def streams_stay_as_they_were(folder: pathlib.Path) -> None:
    """What reads and writes after the recorder, on the same terminal or socket, waits as before. The terminal may be another
    user's, as after `su`."""
    mine, its = socket.socketpair()
    device = a_board(folder).device
    answer = subprocess.Popen([str(LIVE), device, str(folder / "game")], stdin=its.fileno(), stdout=its.fileno(), stderr=its.fileno())
    said = b""
    mine.setblocking(False)

    def begins() -> bool:
        nonlocal said
        try:
            said += mine.recv(4096)
        except BlockingIOError:
            pass
        return words.AGREES.encode() in said

    until(begins, "that the board agrees")
    answer.terminate()
    until(lambda: answer.poll() is not None, "its end")
    same((answer.returncode, its.getblocking(), os.get_blocking(its.fileno())), (0, True, True))
    place = folder / "another"
    place.mkdir()
    rule = shut(place, "/proc/self/fd/")
    start = ["/bin/sh", "-c", f'"$@"; exec {sys.executable} -c "import os; print(os.get_blocking(0))"', "sh", sys.executable]
    live = Live(a_board(place).device, place / "game", terminal=True, start=start, environment=rule)
    begun(live)
    live.type("q")
    same((ended(live), live.lines().splitlines()[-1]), (0, "True"))


def refusals_fit_the_terminal(folder: pathlib.Path) -> None:
    """On a terminal of 80 columns no line of a refusal is longer, and none ends within a word; elsewhere each is one line."""
    arguments = ["/dev/null/none", "game"]
    plain = Live(*arguments)
    same(ended(plain), 3)
    (line,) = plain.complaint().splitlines()
    assert len(line) > 80, line
    live = Live(*arguments, terminal=True)
    same(ended(live), 3)
    shown = live.lines().splitlines()
    assert max(map(len, shown)) < 80, shown
    same((len(shown) > 1, " ".join(part.strip() for part in shown)), (True, line))
    folded_when_typed(folder)


def folded_when_typed(folder: pathlib.Path) -> None:
    """So is what answers a typed line."""
    live = Live(a_board(folder).device, folder / "game", terminal=True)
    begun(live)
    live.type("Nh3 and more")
    until_line(live, "recording")
    lines = live.lines().splitlines()
    (at,) = [at for at, line in enumerate(lines) if "refused: Nh3 and more" in line]
    told = [lines[at], *(line for line in lines[at + 1 : at + 6] if line.startswith(" " * 10))]
    assert max(map(len, told)) < 80, told
    same(" ".join(part.strip() for part in told)[10:], "refused: Nh3 and more: and: neither a move nor a result. " + with_more(WAYS, *ONE_BOARD))
    same(stop(live), 0)


def play_board(*words: object) -> "subprocess.Popen[str]":
    """A program that plays a board, as in the README."""
    return subprocess.Popen([TOP / "tools" / "play_board.py", *map(str, words)], stderr=subprocess.PIPE, text=True)


def board_of_a_program(folder: pathlib.Path) -> None:
    """It makes its device, and removes it however it is ended. A device that a killed one has left is made anew; nothing else is
    touched. What is typed wrongly is said in a line."""
    device = folder / "board"
    killed = play_board("--make", device)
    assert killed.stderr
    same(killed.stderr.readline(), f"board: {device} is there\n")
    killed.kill()
    killed.wait()
    same(device.is_symlink(), True)
    again = play_board("--make", "--stay", "600", device, "e2e4")
    assert again.stderr
    same(again.stderr.readline(), f"board: {device} is there\n")
    live = Live(device, folder / "game")
    until_game(live.name, "1. e4 *")
    same(stop(live), 0)
    again.terminate()
    again.wait()
    same(device.is_symlink(), False)
    (folder / "file").write_text("")
    for name, more, said in (
        ("file", "--make", f"play_board: {folder / 'file'} is there already: give another name, or remove it\n"),
        ("none", "e2e4", f"play_board: there is no {folder / 'none'}: add --make, which makes it\n"),
        ("none/board", "--make", f"play_board: {folder / 'none/board'}: No such file or directory\n"),
        ("board", "Nf3", "Nf3 is no move: write both squares, as e2e4, e1g1 or e7e8q\n"),
    ):
        complaint = play_board(folder / name, more).communicate()[1]
        assert complaint.endswith(said) and "Traceback" not in complaint, complaint
    same((folder / "file").read_text(), "")


def boards_at(port: int) -> "list[dict[str, Any]]":
    """What a page shows."""
    with urllib.request.urlopen(f"http://127.0.0.1:{port}/state.json", timeout=60) as answer:
        boards: "list[dict[str, Any]]" = json.load(answer)["boards"]
        return boards


def shown_again(folder: pathlib.Path) -> None:
    """A game that nobody records is shown on a page until the call is ended, and nothing of it changes. One that is recorded isn't."""
    board, live = begin_game(folder, "--white", "Anna")
    refuses(Live("", live.name, "--page", str(free_port())), 1, "is being recorded by another dgt_live")
    same(stop(live), 0)
    kept = bytes_of(f"{live.name}.dgt"), bytes_of(f"{live.name}.pgn")
    board.pull()
    for is_over in (False, True):
        if is_over:
            same(ended(Live("", live.name, "--add", "1-0")), 0)
            kept = bytes_of(f"{live.name}.dgt"), bytes_of(f"{live.name}.pgn")
        port = free_port()
        shown = Live("", live.name, "--page", str(port))
        until_line(shown, f"the game is shown at http://127.0.0.1:{port}/")
        until(lambda: boards_at(port), "the game on the page", 0.05)
        (only,) = boards_at(port)
        same((only["white"], [ply["san"] for ply in only["moves"]], only["result"]), ("Anna", ["e4", "e5"], "1-0" if is_over else "*"))
        same(stop(shown), 0)
        same((bytes_of(f"{live.name}.dgt"), bytes_of(f"{live.name}.pgn")), kept)
