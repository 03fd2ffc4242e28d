"""A DGT board at the pace of a real one, for tests and simulations.

`protocol`, `line`, `clock`, `board` and `hands` are pure: the time is passed in, and what is left to chance is drawn from a
seed. `cable` puts a board on a pseudo-terminal, `table` has two players play on it, and `room` runs many tables in one loop.
"""

from played import TOP  # which puts tools/ on the path, where play_board is

__all__ = ["TOP"]
