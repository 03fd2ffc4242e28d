"""A recorder stops before and after each write, sync and rename, by a kill or as the power fails. The calls are found as they are made,
and what is on the disk then is kept: all of it, and what a power cut would leave. The next start from each has all that was shown or
answered by then, and refuses nothing. Its times are those of its capture."""

import pathlib
import pickle
import sys
from typing import Dict, List, Sequence, Tuple

from play_board import field
from played import TOP, times, words
from played.boards import Board
from played.recorder import Live
from played.stage import Stage, a_board, begun, bytes_of, ended, kill, movetext, same, until, until_line

AT_ONCE = 6
# Starts the recorder; its first argument is a folder, its second a file that gets what was on the disk, its third says what is played.
TRACED = """
import os, pathlib, pickle, runpy, sys, threading
sys.dont_write_bytecode = True
folder, out, stage, sys.argv = sys.argv[1], sys.argv[2], sys.argv[3], sys.argv[4:]
sys.path.insert(0, {top!r})
kept = os.open(out, os.O_WRONLY | os.O_CREAT | os.O_APPEND)
lock, screen = threading.RLock(), os.fstat(1)
files, known, shown = {{}}, set(), bytearray()  # files by inode, as [now, as synced]
at = os.stat(folder)

def there():
    found, inodes = {{}}, set()
    for entry in os.scandir(folder):
        if entry.is_file(follow_symlinks=False) and not entry.name.endswith(".log"):
            try:
                with open(entry.path, "rb") as file:
                    inode, now = os.fstat(file.fileno()).st_ino, file.read()
            except OSError:
                continue
            one = files.setdefault(inode, [b"", b""])
            one[0] = now
            found[entry.name] = one
            inodes.add(inode)
    for inode in set(files) - inodes:
        del files[inode]
    return found

names = [there()]  # the folder as it was synced, and after each change since

def keep():
    now = there()
    states = [[(name, one[0]) for name, one in now.items()]]
    for found in (*names, now):  # of the changes since it was synced, the first so many; of contents, the newest or the synced ones
        states += [[(name, one[which]) for name, one in found.items()] for which in (0, 1)]
    for lost in now:  # one file alone is older than the others
        states.append([(name, one[name == lost]) for name, one in now.items()])
    text = open(stage).read()
    for state in states:
        key = hash(tuple(sorted(state)))
        real_write(kept, pickle.dumps((key, len(shown), text, None if key in known else dict(state))))
        known.add(key)

def patched(name):
    real = getattr(os, name)
    def call(*words, **more):
        with lock:
            result = real(*words, **more)
            try:
                look(name, words, result)
            except FileNotFoundError:
                pass  # the folder is gone: the case has ended
        return result
    setattr(os, name, call)
    return real

def look(name, words, result):
    if name in ("write", "fsync", "fdatasync", "ftruncate"):
        one = os.fstat(words[0])
        if name == "write" and (one.st_dev, one.st_ino) == (screen.st_dev, screen.st_ino):
            shown.extend(bytes(words[1])[:result])
        elif one.st_ino == at.st_ino:
            names[:] = [there()]
        elif one.st_ino in files:
            there()
            if name in ("fsync", "fdatasync"):
                files[one.st_ino][1] = files[one.st_ino][0]
        else:
            return
    elif name == "open":
        if not words[1] & os.O_CREAT:
            return
        names.append(there())
    else:
        names.append(there())
    keep()

real_write = patched("write")
for name in ("fsync", "fdatasync", "ftruncate", "open", "replace", "rename", "link", "unlink", "remove"):
    patched(name)
keep()
runpy.run_path(sys.argv[0], run_name="__main__")
"""
Stop = Tuple[int, int, Dict[str, bytes]]  # how much was shown, at which step of the play, and the files


class Played:
    """A game, or games in a row, step by step. `texts` are those of all games after each step; `shown` is what says that a step is
    done."""

    def __init__(self, folder: pathlib.Path, games: Sequence[str], *options: str) -> None:
        self.folder, self.games, self.options = folder, games, options
        self.place, self._out, self._stage = folder / "here", folder / "stops", folder / "step"
        self.place.mkdir()
        self._stage.write_text("0")
        self.board: Board = a_board(folder)
        self.knight = self.board.codes[field("b8")]
        self.texts: List[Tuple[str, ...]] = []
        self._shown: List[str] = []
        self._codes: List[List[int]] = []
        script = folder / "traced.py"
        script.write_text(TRACED.format(top=str(TOP)))
        start = [sys.executable, script, self.place, self._out, self._stage]
        self.live = Live(self.board.device, self.place / "game", *options, start=start, typed=True)

    def now(self, place: pathlib.Path) -> Tuple[str, ...]:
        """The texts of the games."""
        return tuple(movetext(place / name) for name in self.games)

    def step(self, shown: str, *texts: str) -> None:
        """What was played or typed just now is shown so, and gives these texts."""
        self.texts.append((*texts, *[""] * (len(self.games) - len(texts))))
        self._shown.append(shown)
        until_line(self.live, shown)
        until(lambda: self.now(self.place) == self.texts[-1], f"{texts}, there is {self.now(self.place)}")
        self._codes.append(list(self.board.codes))

    def begin(self) -> None:
        """What is played or typed from here on belongs to the next step."""
        new = self._stage.with_suffix(".new")
        new.write_text(str(len(self.texts)))
        new.replace(self._stage)

    def type(self, text: str, shown: str, *texts: str) -> None:
        """A step that is typed."""
        self.begin()
        self.live.type(text)
        self.step(shown, *texts)

    def move(self, move: str, shown: str, *texts: str) -> None:
        """A step that is made on the board."""
        self.begin()
        self.board.play(move)
        self.step(shown, *texts)

    def stops(self) -> List[Stop]:
        """Each state of the files in which it could stop, with the most that was shown and played by then."""
        content, states, last = self._out.read_bytes(), {}, {}  # type: bytes, Dict[int, Dict[str, bytes]], Dict[int, Tuple[int, int]]
        at = 0
        while at < len(content):
            try:
                key, shown, stage, files = pickle.loads(content[at:])
            except (EOFError, pickle.UnpicklingError):
                break  # it was killed there
            at += len(pickle.dumps((key, shown, stage, files)))
            if files is not None:
                states[key] = files
            last[key] = shown, int(stage)
        return [(*last[key], files) for key, files in states.items()]

    def check(self) -> None:
        """The next start from each of them has what was shown, and nothing that wasn't played."""
        said = self.live.lines().encode()
        stops = self.stops()
        assert len(stops) > 10, "no call was found"
        for at in range(0, len(stops), AT_ONCE):
            self._check([Again(self, self.folder / f"again{at + more}", stop, said) for more, stop in enumerate(stops[at : at + AT_ONCE])])
        print(f"   {len(stops)} states of the files")

    @staticmethod
    def _check(starts: "List[Again]") -> None:
        for start in starts:
            until(start.is_well, f"one of {start.wanted}, there is {start.text}, after {sorted(start.files)}")
            until(start.is_timed, f"times of this start, after {sorted(start.files)}")
        for start in starts:
            start.end()

    def least(self, said: bytes) -> int:
        """The last step that was shown."""
        text = said.decode(errors="replace")
        return max((number for number, shown in enumerate(self._shown) if shown in text), default=0)

    def board_at(self, folder: pathlib.Path, step: int) -> Board:
        return a_board(folder, self._codes[step])


class Again:
    """The same command, from files that a stop has left."""

    def __init__(self, played: Played, folder: pathlib.Path, stop: Stop, said: bytes) -> None:
        shown, step, self.files = stop
        self._played, self._folder = played, folder
        folder.mkdir()
        for name, content in self.files.items():
            (folder / name).write_bytes(content)
        self.wanted = played.texts[played.least(said[:shown]) : step + 1]
        self._board = played.board_at(folder, min(step, len(played.texts) - 1))
        self._live = Live(self._board.device, folder / "game", *played.options)

    @property
    def text(self) -> Tuple[str, ...]:
        return self._played.now(self._folder)

    def is_well(self) -> bool:
        """It has one of the wanted texts; what has ended was over."""
        if not self._live.runs:
            said = self._live.complaint()
            assert "is over: choose another name" in said and self.text in self.wanted, f"{said}{self.text} {self.wanted} {sorted(self.files)}"
        return self.text in self.wanted

    def _timed(self) -> List[pathlib.Path]:
        """The times that this start has written. A file that was just begun may be empty."""
        return [path for path in self._folder.glob("game*.times") if bytes_of(path) not in (b"", self.files.get(path.name))]

    def is_timed(self) -> bool:
        """Times are written, unless the game was over."""
        return not self._live.runs or bool([path for path in self._timed() if b" opened\n" in bytes_of(path)])

    def end(self) -> None:
        has_ended = not self._live.runs
        kill(self._live)
        names = [path.name[: -len(".times")] for path in self._timed()]
        for name in names if not has_ended else []:
            if name in self._played.games:
                found, size = times.read(self._folder / name), len(bytes_of(self._folder / f"{name}.dgt"))
                assert not found.torn and found.total() <= size, f"{found.calls[-1]} of {size} bytes"
        self._board.end()
        Stage.boards.remove(self._board)


def stopped_in_a_game(folder: pathlib.Path) -> None:
    """Moves on the board, typed moves, a ply that is taken off, a result."""
    played = Played(folder, ["game"])
    begun(played.live)
    played.step(words.AGREES, "*")
    played.move("e2e4", "  1. e4", "1. e4 *")
    played.move("e7e5", "  1... e5", "1. e4 e5 *")
    played.begin()
    played.board.spoiled = [0] * 4  # the board is two plies ahead
    played.board.play("g1f3")
    played.board.play("b8c6")
    until_line(played.live, "g1")
    played.type("Nf3 Nc6", "added by hand: Nf3 Nc6", "1. e4 e5 2. Nf3 Nc6 *")
    until_line(played.live, "  2... Nc6")
    until(lambda: words.AGREES in played.live.lines().rpartition("2... Nc6")[2], "that it agrees")
    played.begin()
    played.board.lift("c6")
    played.board.put("b8", played.knight)
    until(lambda: "b8" in played.live.lines().rpartition(words.AGREES)[2], "that the board is seen")
    played.type("back 2. Nf3", "is kept in", "1. e4 e5 2. Nf3 *")
    played.type("1-0", "added by hand: the result 1-0", "1. e4 e5 2. Nf3 1-0")
    same(ended(played.live), 0)
    played.check()


def stopped_undoing(folder: pathlib.Path) -> None:
    """Typed moves are undone; plies are taken off, and that is undone."""
    played = Played(folder, ["game"])
    begun(played.live)
    played.step(words.AGREES, "*")
    played.move("e2e4", "  1. e4", "1. e4 *")
    played.move("e7e5", "  1... e5", "1. e4 e5 *")
    played.type("d4 d5", "added by hand: d4 d5", "1. e4 e5 2. d4 d5 *")
    played.type("undo", 'undone: "d4 d5"', "1. e4 e5 *")
    played.begin()
    played.board.lift("e1")  # so the board shows no ply that could come back
    until(lambda: "in hand e1" in played.live.lines(), "that the board is seen")
    played.type("back 1. e4", "before-2.dgt", "1. e4 *")
    played.type("undo", 'undone: "back 1. e4"', "1. e4 e5 *")
    kill(played.live)
    played.check()


def stopped_in_a_series(folder: pathlib.Path) -> None:
    """A game that ends by a typed result, the pieces set up again, and the next game's first move."""
    played = Played(folder, ["game-1", "game-2"], "--series")
    begun(played.live)
    played.step(words.AGREES, "*")
    played.move("e2e4", "  1. e4", "1. e4 *")
    played.move("e7e5", "  1... e5", "1. e4 e5 *")
    played.type("0-1", "added by hand: the result 0-1", "1. e4 e5 0-1")
    until_line(played.live, "game-2 begins when the pieces are at the start")
    played.begin()
    played.board.play("e5e7")
    played.board.play("e4e2")
    played.step("game-2.dgt", "1. e4 e5 0-1", "*")
    played.move("d2d4", "  1. d4", "1. e4 e5 0-1", "1. d4 *")
    played.begin()
    played.board.play("d4d2")
    kill(played.live)
    played.check()
