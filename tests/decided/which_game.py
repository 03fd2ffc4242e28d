"""Which of two games a typed result is for."""

from live.game.typed import which_game

from decided.cases import cases
from decided.table import same


def results() -> None:
    for name, plies, is_before_unended, expected in cases("which_game", "results"):
        same(name, which_game(plies, is_before_unended), expected)


TABLES = [results]
