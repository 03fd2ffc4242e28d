"""A hall of boards as the emulator plays them: at the pace of their lines, with honest hands."""

import pathlib
from typing import Callable, Optional

from emulated.board import Board
from emulated.cable import Cable
from emulated.clock import Clock
from emulated.hands import PACES
from emulated.room import stopwatch
from emulated.table import Table, games
from played.recorder import Live
from played.stage import Stage, movetext, same, stop, until, until_line
from rounds.hall import ROUND, plain

BOARDS = 16
PLAY = 50.0  # seconds in which moves are made


class Seat:
    """A board, its cable and its table, on the stage."""

    def __init__(self, device: pathlib.Path, number: int, now: Callable[[], float]) -> None:
        clock = Clock(5400, increment=30) if number % 4 else None
        board = Board(clock=clock, serial=f"{number:05}", rotated=number % 5 == 0, second_at=number / BOARDS, seed=number)
        self.cable = Cable(device, board, now)
        self.table: Optional[Table] = None
        self._number, self._now = number, now

    def play(self) -> Table:
        """From now on its players move."""
        habits = list(PACES.values())[self._number % len(PACES)]
        begins = self._now()
        self.table = Table(self.cable.board, games()[self._number], habits, self._number, begins, begins + PLAY)
        return self.table

    @property
    def line(self) -> int:
        return self.cable.line

    @property
    def plugged(self) -> bool:
        """Whether a request may come."""
        return self.cable.plugged and self.cable.heard

    def turn(self) -> None:
        if self.table:
            self.table.turn(self._now())
        self.cable.turn()

    def end(self) -> None:
        self.cable.end()


def emulated_boards(folder: pathlib.Path) -> None:
    """16 emulated boards, some turned round, some without a clock, each with hands at another pace: each game is whole."""
    now = stopwatch()
    seats = {number: Seat(folder / f"board{number}", number, now) for number in range(1, BOARDS + 1)}
    Stage.boards += seats.values()  # type: ignore[arg-type]
    lines = [f"{number},{seat.cable.device},{'yes' if seat.cable.board.rotated else ''}" for number, seat in seats.items()]
    (folder / "round.csv").write_text("\n".join(["board,device,rotated", *lines, ""]))
    live = Live(folder / "round.csv", folder / "games", program=ROUND)
    for number in seats:
        until_line(live, f"{number:>3}  agrees")
    tables = {number: seat.play() for number, seat in seats.items()}
    until(lambda: all(table.over for table in tables.values()), "the last moves")
    plies = sum(len(table.sans) for table in tables.values())
    assert plies > 100, f"{plies} plies are no test"
    for number, table in tables.items():
        name = folder / "games" / f"{number:02}"

        def whole() -> bool:
            return tuple(word for word in plain(movetext(name)).split() if word[0].isalpha()) == table.sans

        until(whole, f"the game of board {number}: {' '.join(table.sans)}\nand not {movetext(name)}")
        same("[%clk" in movetext(name), table.board.clock is not None)
    same(stop(live), 0)
