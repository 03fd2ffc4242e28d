"""A hall: a file of pairings, its boards, the call that records them, and a reader that reads round.pgn all the time."""

import pathlib
import re
import threading
import time
from typing import Dict, List, Optional, Sequence, Set

from played import TOP
from played.boards import Board, Cables
from played.recorder import Live
from played.stage import Stage, a_board, bytes_of, check, ended, movetext, same, until

ROUND = TOP / "bin" / "dgt_round"
GAMES = [
    ("e2e4 e7e5 g1f3 b8c6 f1b5 a7a6 b5a4 g8f6 e1g1 f8e7", "1. e4 e5 2. Nf3 Nc6 3. Bb5 a6 4. Ba4 Nf6 5. O-O Be7 *"),
    ("d2d4 d7d5 c2c4 e7e6 b1c3 g8f6", "1. d4 d5 2. c4 e6 3. Nc3 Nf6 *"),
    ("e2e4 c7c5 g1f3 d7d6 d2d4 c5d4 f3d4 g8f6", "1. e4 c5 2. Nf3 d6 3. d4 cxd4 4. Nxd4 Nf6 *"),
    ("c2c4 e7e5 b1c3 g8f6 g2g3 d7d5 c4d5 f6d5", "1. c4 e5 2. Nc3 Nf6 3. g3 d5 4. cxd5 Nxd5 *"),
]


def moves(number: int) -> List[str]:
    """What is played on a board."""
    return GAMES[number % len(GAMES)][0].split()


def text(number: int) -> str:
    """The movetext of that, without clocks."""
    return GAMES[number % len(GAMES)][1]


def told(number: int, ply: int) -> str:
    """How the line begins that tells a ply of a board, counted from 0."""
    sans = [word for word in text(number).split() if not word[0].isdigit()]
    return f"{ply // 2 + 1}{'.' if ply % 2 == 0 else '...'} {sans[ply]}"


def plain(movetext_of_game: str) -> str:
    """Without clocks, and without the number that stands before a black move after one."""
    return " ".join(re.sub(r"\d+\.\.\. ", "", re.sub(r"\{[^}]*\} ?", "", movetext_of_game)).split())


class Reader:
    """Reads round.pgn again and again, and keeps each text that it was."""

    def __init__(self, path: pathlib.Path) -> None:
        self.path = path
        self.texts: Set[bytes] = set()
        self._ends = False
        self._thread = threading.Thread(target=self._read, daemon=True)
        self._thread.start()

    def _read(self) -> None:
        while not self._ends:
            try:
                self.texts.add(self.path.read_bytes())
            except FileNotFoundError:
                pass
            time.sleep(0.003)

    def end(self, boards: int) -> None:
        """Each text was whole: so many games, each of which `check` passes."""
        self._ends = True
        self._thread.join()
        assert self.texts, f"nobody saw {self.path}"
        games: Set[bytes] = set()
        for text_seen in self.texts:
            assert len(games_of(text_seen)) <= boards and text_seen.endswith(b"\n"), text_seen
            games.update(games_of(text_seen))
        for game in games:
            assert check(game) is not None, game


def games_of(round_text: bytes) -> List[bytes]:
    """The games of a round.pgn."""
    parts = re.split(rb"\n\n(?=\[Event )", round_text)
    return [part.rstrip(b"\n") + b"\n\n" for part in parts if part.strip()]


def agrees(live: Live, number: int) -> bool:
    """Whether it was said of a board that it agrees, whatever somebody is to look at there."""
    lines = [line[10:] for line in live.lines().splitlines()]
    return any(line.startswith(f"{number:>3}  ") and "agrees" in line[5:].split("; ") for line in lines)


def quits(live: Live, status: int = 0) -> None:
    """Ends it by `q`, and once more if that is asked about."""
    def asked() -> int:
        return " ".join(live.lines().split()).count("type q again")

    before = asked()
    live.type("q")
    until(lambda: not live.runs or asked() > before, "the end, or a question")
    if live.runs:
        live.type("q")
    same(ended(live), status)


class Hall:
    """So many boards and the round that records them. Those in `clocks` and `cabled`, counted from 0, have a clock, and a
    cable with a name of its own, under which the file names them."""

    def __init__(self, folder: pathlib.Path, count: int, clocks: Sequence[int] = (), cabled: Sequence[int] = ()) -> None:
        self.folder = folder
        self.file = folder / "round.csv"
        self.games = folder / "games"
        self.boards: List[Board] = []
        self.clocks = clocks
        self.extra: Dict[int, str] = {}  # what stands behind a line
        self.cables = Cables(folder)
        for number in range(1, count + 1):
            if number - 1 in cabled:
                self.boards.append(self.cables.board(f"DGT_{number}", number))
                Stage.boards.append(self.boards[-1])
            else:
                self.boards.append(a_board(folder, device=folder / f"board{number}", seed=number))
        self.write()

    def line(self, number: int) -> str:
        device = self.boards[number - 1].cable or self.folder / f"board{number}"
        return f"{number},{device},White {number},Black {number}{self.extra.get(number, '')}"

    def write(self, *more: str, header: str = "board,device,white,black") -> None:
        lines = [header, *[self.line(number) for number in range(1, len(self.boards) + 1)], *more]
        self.file.write_text("\n".join(lines) + "\n", encoding="utf-8")

    def record(
        self, *options: str, environment: Optional[Dict[str, str]] = None, program: pathlib.Path = ROUND, **more: object
    ) -> Live:
        serial = {**self.cables.environment(), **(environment or {})}
        return Live(self.file, self.games, *options, program=program, environment=serial, **more)  # type: ignore[arg-type]  # what Live takes by name

    def name(self, number: int) -> str:
        return str(self.games / f"{number:02}")

    def begun(self, live: Live) -> None:
        for number in range(1, len(self.boards) + 1):
            until(lambda: agrees(live, number), f"that board {number} agrees")

    def until_over(self, live: Live, number: int, result: str) -> None:
        """The board's game is over, and its row says so when it is asked, whatever somebody is to look at there."""
        asked_at = 0.0

        def over() -> bool:
            nonlocal asked_at
            if time.monotonic() - asked_at > 0.5:
                asked_at = time.monotonic()
                live.type(str(number))
            return re.search(rf" {number}: (LOOK [^;]*; )?over {result}", live.lines()) is not None

        until(over, f"the end of the game of board {number}")

    def text(self, number: int) -> str:
        return plain(movetext(self.name(number)))

    def until_text(self, number: int, wanted: str) -> None:
        until(lambda: self.text(number) == wanted, f"{wanted} on board {number}, which has {self.text(number)}", 0.01)

    def make(self, ply: int, numbers: Optional[Sequence[int]] = None) -> None:
        """A ply on these boards, counted from 0, else on all; on none whose game is over before."""
        for number in range(len(self.boards)) if numbers is None else numbers:
            if ply < len(moves(number)):
                if number in self.clocks:
                    self.boards[number].clock(5400 - ply, 5400 - ply)
                self.boards[number].play(moves(number)[ply])

    def until_plies(self, plies: int, numbers: Optional[Sequence[int]] = None) -> None:
        """The games of these boards have so many plies, or all that there are."""
        for number in range(len(self.boards)) if numbers is None else numbers:
            wanted = min(plies, len(moves(number)))
            until(
                lambda: check(bytes_of(self.name(number + 1) + ".pgn")) == f"moves {wanted}, result *",
                f"{wanted} plies on board {number + 1}, which has {self.text(number + 1)}",
                0.01,
            )

    def play(self, begin: int = 0, end: Optional[int] = None, numbers: Optional[Sequence[int]] = None) -> None:
        """On these boards in turn, a ply each."""
        longest = max(len(moves(number)) for number in range(len(self.boards)))
        for ply in range(begin, longest if end is None else end):
            self.make(ply, numbers)
            self.until_plies(ply + 1, numbers)

    def until_round(self) -> None:
        """round.pgn has what the games have."""

        def holds() -> bool:
            games = [bytes_of(self.name(number) + ".pgn") for number in range(1, len(self.boards) + 1)]
            return games_of(bytes_of(self.games / "round.pgn")) == games

        until(holds, "all games in round.pgn", 0.02)
