"""A game in one file, to be sent in: what is in it, what isn't, and what it never does."""

import fcntl
import os
import pathlib
import zipfile
from typing import Dict, List

from played import words
from played.recorder import Live
from played.stage import (
    a_board,
    begin_game,
    begun,
    bytes_of,
    ended,
    go_on,
    refuses,
    same,
    stop,
    until_dumped,
    until_game,
    until_line,
)

# Beside the game, and not its own; each has this content.
OTHERS = ["game-2.dgt", "game2.dgt", "agame.dgt", "game", "game.zipped", "game.dgt.txt", "game.before-x.dgt", "round.log", "game.new"]
OF_ANOTHER = ["game.other.dgt", "game.other.times", "game.other.pgn"]  # a game whose name is game.other
OF_SPECTATORS = ["game.pages", "game.delay", "game.broadcast.pgn"]
SECRET = b"not to be sent"


def pack(name: object, **more: object) -> Live:
    return Live("", "", "--pack", str(name), **more)  # type: ignore[arg-type]  # what Live takes by name


def packed(name: object) -> Dict[str, bytes]:
    """What is in the file, by the names in its folder, which is called as the game."""
    archive = zipfile.ZipFile(f"{name}.zip")
    same(archive.testzip(), None)
    folder = os.path.basename(str(name))
    parts = {path.partition("/")[2]: archive.read(path) for path in archive.namelist()}
    same([path.partition("/")[0] for path in archive.namelist()], [folder] * len(parts))
    return parts


def left(folder: pathlib.Path) -> List[str]:
    """The files that a call has made."""
    return sorted(path.name for path in folder.iterdir() if ".zip" in path.name and path.name != "game.zipped")


def packed_in_one_file(folder: pathlib.Path) -> None:
    """A game whose plies were taken off and whose text was edited is packed while it is recorded, and goes on: its own files are
    in it, byte by byte, and a text that says what each of them is. Nothing else of the folder is."""
    board, live = begin_game(folder, "--white", "Anna", "--event", "Club cup", typed=True)
    for name in (*OTHERS, *OF_ANOTHER, *OF_SPECTATORS):
        (folder / name).write_bytes(SECRET)
    board.play("e5e7")
    until_dumped(board, live.name)
    live.type("back")
    until_line(live, "taken off: 1... e5")
    board.play("c7c5")
    until_game(live.name, "1. e4 c5 *")
    (folder / "game.pgn").write_bytes(bytes_of(folder / "game.pgn") + b"; mine\n")
    board.play("g1f3")
    until_game(live.name, "1. e4 c5 2. Nf3 *")
    before = bytes_of(folder / "game.dgt")
    with open(folder / "game.dgt", "rb") as capture:
        called = pack(live.name)
        same(ended(called), 0)
        try:
            fcntl.flock(capture, fcntl.LOCK_EX | fcntl.LOCK_NB)
        except BlockingIOError:
            pass
        else:
            raise AssertionError("the recorder has its capture no more")
    board.play("b8c6")
    until_game(live.name, "1. e4 c5 2. Nf3 Nc6 *")
    parts = packed(live.name)
    of_the_game = ["dgt", "times", "began", "pgn", "options", "log", "front", "before-1.dgt", "before-1.times", "edited.pgn"]
    same(list(parts), ["README.txt", *(f"game.{ending}" for ending in of_the_game)])
    after = bytes_of(folder / "game.dgt")
    assert parts["game.dgt"].startswith(before) and after.startswith(parts["game.dgt"]), "it isn't what the board had sent by then"
    for name in ("options", "front", "before-1.dgt", "before-1.times", "edited.pgn"):
        same((name, parts[f"game.{name}"]), (name, bytes_of(folder / f"game.{name}")))
    for name in ("times", "log"):
        assert bytes_of(folder / f"game.{name}").startswith(parts[f"game.{name}"]), name
    assert b"Nf3" in parts["game.pgn"] and b"Nc6" not in parts["game.pgn"]
    same([name for name, content in parts.items() if SECRET in content], [])
    (line,) = called.lines().splitlines()
    listed = ", ".join(f"game.{ending}" for ending in of_the_game)
    same(line, f"dgt_live: {live.name}.zip is made. It has {listed}, and the names of the players")
    text = parts["README.txt"].decode()
    assert "It has the names of the players" in text and "Python 3." in text and f" {os.uname().release} " in text, text
    assert os.uname().nodename not in text.split(), text
    for name, content in parts.items():
        if name != "README.txt":
            assert f"{name} " in text and f"{len(content)} bytes" in text, f"{name} in {text}"
    same(stop(live), 0)
    same(left(folder), ["game.zip"])


def pack_refused(folder: pathlib.Path) -> None:
    """What is there stays as it is; a call that makes no sense says so, and what can't be read is named."""
    board = a_board(folder)
    live = Live(board.device, folder / "game")
    begun(live)
    same(stop(live), 0)
    wrong: List[List[str]] = [[], [""], ["game", "more"], ["game", "--add", "1-0"], ["--white", "Anna", "game"], ["--pack"]]
    for arguments in wrong:
        refuses(Live("", "", "--pack", *arguments, cwd=folder), 2, "--pack takes the NAME of a game, and nothing else")
    refuses(pack(folder / "nothing"), 1, f"there is no {folder}/nothing.dgt: type the NAME of a game, with its folder")
    refuses(pack(folder / "game.dgt"), 1, f"type its NAME alone, {folder}/game")
    there = folder / "game.zip"
    there.write_bytes(SECRET)
    refuses(pack(live.name), 1, f"{there} is there already: move it away, or give it another name")
    same(bytes_of(there), SECRET)
    there.unlink()
    there.symlink_to(folder / "elsewhere")
    refuses(pack(live.name), 1, f"{there} is there already")
    same((os.readlink(there), (folder / "elsewhere").exists()), (str(folder / "elsewhere"), False))
    there.unlink()
    capture = folder / "real"
    (folder / "game.dgt").rename(capture)
    (folder / "game.dgt").symlink_to(capture)
    refuses(pack(live.name), 3, "game.dgt can't be read (game.dgt is a link)")
    (folder / "game.dgt").unlink()
    capture.rename(folder / "game.dgt")
    same(left(folder), [])
    with open(folder / "game.zip.new", "wb") as other:
        fcntl.flock(other, fcntl.LOCK_EX)
        refuses(pack(live.name), 1, f"another call is just writing {folder}/game.zip.new")
    same(left(folder), ["game.zip.new"])
    same(ended(pack(live.name)), 0)  # of the other call, which was killed
    same(left(folder), ["game.zip"])


def links_not_packed(folder: pathlib.Path) -> None:
    """No link is followed, and a pipe holds nothing up: each is named, and the rest is packed."""
    board = a_board(folder)
    live = Live(board.device, folder / "game")
    begun(live)
    same(stop(live), 0)
    (folder / "secret").write_bytes(SECRET)
    (folder / "game.look").symlink_to(folder / "secret")
    os.mkfifo(folder / "game.serial")
    called = pack(live.name)
    refuses(called, 3, "game.look isn't in it (game.look is a link)")
    assert "game.serial isn't in it (game.serial is no regular file)" in called.complaint(), called.complaint()
    parts = packed(live.name)
    same([name for name, content in parts.items() if SECRET in content or name in ("game.look", "game.serial")], [])
    assert "game.look isn't in it" in parts["README.txt"].decode()
    assert "game.dgt" in parts, parts


def packed_without_room(folder: pathlib.Path) -> None:
    """The disk is full: it says so, and leaves no half file. The game can be recorded on, and packed when there is room."""
    board, live = begin_game(folder)
    same(stop(live), 0)
    with open(folder / "game.before-1.dgt", "wb") as file:
        file.write(os.urandom(100_000))
    refuses(pack(live.name, limit=20_000), 3, f"{folder}/game.zip can't be written {words.TOO_LARGE}")
    same(left(folder), [])
    again = go_on(board, live)
    board.play("g1f3")
    until_game(live.name, "1. e4 e5 2. Nf3 *")
    same(stop(again), 0)
    same(ended(pack(live.name)), 0)
    same(len(packed(live.name)["game.before-1.dgt"]), 100_000)


def packed_under_odd_names(folder: pathlib.Path) -> None:
    """A name that no other system takes, and one that is no text: both are packed, under names that each system takes."""
    for name, inside in (('a"b: *', "a_b_ _"), ("a\udcffb", "a_b")):
        board = a_board(folder, device=folder / "odd")
        live = Live(board.device, f"{folder}/{name}")
        begun(live)
        same(stop(live), 0)
        board.pull()
        same(ended(pack(live.name)), 0)
        with open(os.fsencode(f"{live.name}.zip"), "rb") as file:
            same(zipfile.ZipFile(file).namelist()[:2], [f"{inside}/README.txt", f"{inside}/{inside}.dgt"])


CASES = [packed_in_one_file, pack_refused, links_not_packed, packed_without_room, packed_under_odd_names]
