"""Whoever gets what is published: notes when each ply was played, by the recorder's clock, and finds the first one that is shown too
early."""

import json
import pathlib
import threading
import time
import urllib.request
from typing import Callable, Dict, List, Set, Tuple

from played.stage import bytes_of, same
from rounds.hall import games_of, plain


FORFEIT = " forfeit"


def texts_of(content: bytes) -> List[str]:
    """The movetexts of the games, without clocks; of one that is told to be forfeited with that word behind."""
    return [
        plain(" ".join(game.split(b"\n\n")[1].decode().split())) + (FORFEIT if b"[Termination " in game else "")
        for game in games_of(content)
    ]


def parts_of(text: str) -> Tuple[str, str]:
    """The moves of a movetext, without their numbers, and its result; of a game that isn't played the score."""
    if text.endswith(FORFEIT):
        return "", text.replace("*", "0-0")
    *words, result = text.split()
    return " ".join(word for word in words if not word[0].isdigit()), result


def served(port: int, path: str) -> bytes:
    with urllib.request.urlopen(f"http://127.0.0.1:{port}{path}", timeout=60) as answer:
        return bytes(answer.read())


class Witness:
    """Reads some files all the time, and a page when asked. `now` is the recorder's clock."""

    def __init__(self, now: Callable[[], float], delay: float, *files: pathlib.Path) -> None:
        self._now, self._delay, self._files, self._states = now, delay, files, ()
        self._came: Dict[str, float] = {}
        self.seen: Set[str] = set()
        self._young: List[str] = []
        self._ends = False
        self._thread = threading.Thread(target=self._read, daemon=True)

    _files: Tuple[pathlib.Path, ...]
    _states: Tuple[pathlib.Path, ...]

    def watch(self, *files: pathlib.Path) -> None:
        """Reads these files too."""
        self._files += files

    def watch_state(self, *files: pathlib.Path) -> None:
        """And these, which are in JSON."""
        self._states += files

    def begin(self) -> None:
        """From now on nothing may be too young."""
        self._thread.start()

    def plays(self, text: str) -> None:
        """A game has this movetext from now on."""
        self._came.setdefault(text, self._now())

    def was_old(self, text: str, at: float) -> bool:
        """Whether it could be shown then."""
        return not self._is_young(text, at)

    def _is_young(self, text: str, now: float) -> bool:
        return text != "*" and not self._came.get(text, now) <= now - self._delay

    def see(self, content: bytes, where: str) -> None:
        """This is published now."""
        now = self._now()
        texts = texts_of(content)
        self.seen.update(texts)
        self._young += [f"{where} has {text}" for text in texts if self._is_young(text, now)]

    def look_at(self, port: int) -> None:
        """All that a page serves now."""
        self.see(served(port, "/round.pgn"), "the page's text")
        self._look_at_state(served(port, "/state.json"), "the page")

    def _look_at_state(self, content: bytes, where: str) -> None:
        boards = json.loads(content)["boards"]
        now = self._now()
        old = {parts_of(text) for text in ("*", *self._came) if not self._is_young(text, now)}
        shown = [
            (" ".join(ply["san"] for ply in board["moves"]), board["forfeit"] + FORFEIT if board["forfeit"] else board["result"])
            for board in boards
        ]
        self._young += [f"{where} has {moves} {result}" for moves, result in shown if (moves, result) not in old]

    def _read(self) -> None:
        while not self._ends:
            self._read_files()
            time.sleep(0.005)

    def _read_files(self) -> None:
        for file in self._files:
            self.see(bytes_of(file), str(file))
        for file in self._states:
            content = bytes_of(file)
            if content:
                self._look_at_state(content, str(file))

    def end(self) -> None:
        """Nothing that was seen was too young."""
        self._ends = True
        self._thread.join()
        self._read_files()
        same(self._young[:1], [])
