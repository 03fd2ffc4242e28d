"""Boards played against the recorder, by subject; tests/live plays them. A board's own rules stand in tools/play_board.py."""

import pathlib
import sys

TOP = pathlib.Path(__file__).resolve().parents[2]
sys.path[:0] = [str(TOP / "tools"), str(TOP)]
