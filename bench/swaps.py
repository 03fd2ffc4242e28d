#!/usr/bin/env python3
"""Every pair of cables in a hall of eight is swapped: at the start, after one ply and after six, at the USB plug and at the
board's plug. Each is named, the games go on, the arbiter puts the cables back, and each game is whole.

Four pairs without a common board are swapped at once, so that seven rounds have all 28 pairs. Prints a line for each, and last
'N passed, M failed'. The words `6 3` begin with the third round after six plies.
"""

import pathlib
import sys
from typing import Callable, Dict, List, Tuple

TOP = pathlib.Path(__file__).resolve().parent.parent
sys.dont_write_bytecode = True
sys.path[:0] = [str(TOP), str(TOP / "tests"), str(TOP / "tools")]
from played import runner  # noqa: E402
from rounds.swapped import AT_BOARD, AT_USB, BOARDS, swapped  # noqa: E402

PLIES = (0, 1, 6)


def pairings(boards: int) -> List[List[Tuple[int, int]]]:
    """Each pair of boards once, in rounds: the last board stays in its place, and the others go round."""
    rounds = []
    for turn in range(boards - 1):
        ring = [(turn + place) % (boards - 1) + 1 for place in range(boards - 1)]
        pairs = [(ring[0], boards), *((ring[place], ring[-place]) for place in range(1, boards // 2))]
        rounds.append([(min(pair), max(pair)) for pair in pairs])
    return rounds


def case(pairs: List[Tuple[int, int]], plies: int, where: str) -> Callable[[pathlib.Path], None]:
    """One of the cases, as a runner plays it."""

    def swaps(folder: pathlib.Path) -> None:
        swapped(folder, pairs, plies, where, puts_back=True)

    swaps.__name__ = f"after_{plies}_plies"
    swaps.__doc__ = f"{where}, {' '.join(f'{one}-{other}' for one, other in pairs)}"
    return swaps


def main() -> int:
    begins = tuple(int(word) for word in sys.argv[1:]) or (0, 1)
    counts: Dict[int, int] = {}
    for plies in PLIES:
        for number, pairs in enumerate(pairings(BOARDS), 1):
            for where in (AT_USB, AT_BOARD):
                if (plies, number) >= begins:
                    status = runner.play(case(pairs, plies, where))
                    counts[status] = counts.get(status, 0) + 1
    print(f"{counts.get(runner.PASSED, 0)} passed, {counts.get(runner.FAILED, 0)} failed")
    return 1 if counts.get(runner.FAILED) else 0


if __name__ == "__main__":
    sys.exit(main())
