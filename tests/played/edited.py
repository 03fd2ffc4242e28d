"""Texts that somebody edits by hand while a game is played, between two calls, and when it is over."""

import pathlib
import subprocess
import sys
from typing import List

from played.recorder import LIVE
from played.stage import begin_game, bytes_of, go_on, kill, same, stop, until, until_game, until_line

SAYS = "was edited by hand: that text is kept in"
# Starts the recorder; its first argument is NAME.pgn. What is in NAME.mine takes its place while a new text is forced to the disk.
SAVED_MEANWHILE = """
import contextlib, os, runpy, sys
sys.dont_write_bytecode = True
pgn, sys.argv = sys.argv[1], sys.argv[2:]
real = os.fsync

def fsync(number):
    real(number)
    if os.readlink(f"/proc/self/fd/{number}") == f"{pgn}.new":
        with contextlib.suppress(FileNotFoundError):
            os.rename(f"{pgn[:-4]}.mine", pgn)

os.fsync = fsync
runpy.run_path(sys.argv[0], run_name="__main__")
"""


def edited_by_hand(folder: pathlib.Path) -> None:
    """A name is put right in NAME.pgn, twice while the game is recorded, again between two calls, before a result is added and
    before a ply is taken off: each text is kept, and a line says so. What the recorder itself wrote is no edit: not with other
    options, not a text that a kill left behind."""
    board, live = begin_game(folder, "--white", "Ana")
    pgn = folder / "game.pgn"
    kept: List[bytes] = []

    def edit(name: str) -> None:
        text = pgn.read_bytes().replace(b'[White "Ana"]', f'[White "{name}"]'.encode())
        assert name.encode() in text, text
        pgn.write_bytes(text)
        kept.append(text)

    def texts() -> List[bytes]:
        names = ["game.edited.pgn", *(f"game.edited-{number}.pgn" for number in range(2, 9))]
        return [bytes_of(folder / name) for name in names if (folder / name).exists()]

    edit("Anna")
    board.play("g1f3")
    until_game(live.name, "1. e4 e5 2. Nf3 *")
    until_line(live, f"{pgn} {SAYS} {folder}/game.edited.pgn, and a new one takes its place\n")
    same(texts(), kept)
    edit("Anna Kern")
    board.play("b8c6")
    until_game(live.name, "1. e4 e5 2. Nf3 Nc6 *")
    until_line(live, f"{pgn} {SAYS} {folder}/game.edited-2.pgn")
    before = pgn.read_bytes()
    board.play("f1b5")
    until_game(live.name, "1. e4 e5 2. Nf3 Nc6 3. Bb5 *")
    same((texts(), live.lines().count(SAYS)), (kept, 2))
    kill(live)
    # The kill has left the text of the move before, and then the game is read with the other side's times.
    pgn.write_bytes(before)
    again = go_on(board, live)
    until_game(live.name, "1. e4 e5 2. Nf3 Nc6 3. Bb5 *")
    same(stop(again), 0)
    again = go_on(board, live, "--first", "black")
    until_line(again, "3. Bb5")
    same(stop(again), 0)
    same((texts(), SAYS in again.lines()), (kept, False))
    edit("Anne")
    again = go_on(board, live)
    until_line(again, f"{pgn} {SAYS} {folder}/game.edited-3.pgn")
    until(lambda: b'[White "Ana"]' in pgn.read_bytes(), "a new text")
    same(stop(again), 0)
    edit("Annie")
    pgn.write_bytes(kept[-1])
    answer = subprocess.run([LIVE, "--add", "1-0", live.name], stdout=subprocess.PIPE)
    same((answer.returncode, SAYS.encode() in answer.stdout), (0, True))
    until_game(live.name, "1. e4 e5 2. Nf3 Nc6 3. Bb5 1-0")
    answer = subprocess.run([LIVE, "--add", "0-1", live.name], stdout=subprocess.PIPE)
    same((answer.returncode, SAYS.encode() in answer.stdout), (0, False))
    same(texts(), kept)
    edit("Anna")
    answer = subprocess.run([LIVE, "--back", "2... Nc6", live.name], stdout=subprocess.PIPE)
    same((answer.returncode, SAYS.encode() in answer.stdout), (0, True))
    until_game(live.name, "1. e4 e5 2. Nf3 Nc6 *")
    # A kill while a ply is taken off leaves the text of before.
    same(subprocess.run([LIVE, "--add", "Bc4", live.name], stdout=subprocess.PIPE).returncode, 0)
    before = pgn.read_bytes()
    same(subprocess.run([LIVE, "--back", "2... Nc6", live.name], stdout=subprocess.PIPE).returncode, 0)
    pgn.write_bytes(before)
    answer = subprocess.run([LIVE, "--add", "1-0", live.name], stdout=subprocess.PIPE)
    same((answer.returncode, SAYS.encode() in answer.stdout), (0, False))
    until_game(live.name, "1. e4 e5 2. Nf3 Nc6 1-0")
    same(texts(), kept)
    same((folder / "game.log").read_text().count(SAYS), 5)


def edited_meanwhile(folder: pathlib.Path) -> None:
    """A text that is saved by hand while the new one goes to a slow disk is kept too."""
    script, pgn = folder / "meanwhile.py", folder / "game.pgn"
    script.write_text(SAVED_MEANWHILE)
    board, live = begin_game(folder, start=[sys.executable, script, pgn])
    (folder / "game.mine.new").write_bytes(b"; mine\n")
    (folder / "game.mine.new").rename(folder / "game.mine")
    board.play("g1f3")
    until_game(live.name, "1. e4 e5 2. Nf3 *")
    until_line(live, f"{pgn} {SAYS} {folder}/game.edited.pgn")
    same(bytes_of(folder / "game.edited.pgn"), b"; mine\n")
    same(stop(live), 0)
