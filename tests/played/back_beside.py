"""Plies are taken off by several calls at once, while others add: each is done whole, one after the other, or is refused."""

import pathlib
import re
import subprocess
from typing import List, Sequence, Tuple

from played.recorder import LIVE
from played.stage import begin_game, bytes_of, movetext, recorded, rest, same, stop, until, until_dumped

# As often as a ply is taken off in between, White's moves are Black's turn: then they are refused.
CALLS = [("--add", "a3 a6"), ("--back", ""), ("--add", "b3 b6"), ("--back", ""), ("--add", "g3 g6"), ("--add", "h3 h6")]
DONE = re.compile(r"(?m)^\S+ \S+  (?:added by hand: (.*)|back to .*; taken off: \S+ (\S+)\. What .*)$")


def begin(name: str) -> "List[subprocess.Popen[str]]":
    pipes = {"stdout": subprocess.PIPE, "stderr": subprocess.PIPE, "text": True}
    return [subprocess.Popen([LIVE, option, words, name], **pipes) for option, words in CALLS]  # type: ignore[call-overload]  # as above


def told_of(calls: "Sequence[subprocess.Popen[str]]") -> List[Tuple[int, str]]:
    """The status of each call, and what it says."""
    until(lambda: all(call.poll() is not None for call in calls), "the end of the calls")
    return [(call.returncode, "".join(call.communicate())) for call in calls]


def as_the_log_says(name: str, played: Sequence[str]) -> Tuple[List[str], int]:
    """The moves of a game in which so many were played before, by what was done to it; and how often that was."""
    moves, done = list(played), DONE.findall(bytes_of(f"{name}.log").decode())
    for more, gone in done:
        if gone:
            same(gone, moves.pop())
        else:
            moves += more.split()
    return moves, len(done)


def are_whole(name: str, answers: Sequence[Tuple[int, str]], typed: int = 0) -> None:
    """What was answered is what was done, and the game has it; beside it, up to so many typed lines were done."""
    moves, done = as_the_log_says(name, ["e4", "e5"])
    same([word for word in movetext(name)[:-1].split() if word[0].isalpha()], moves)
    same(recorded(bytes_of(f"{name}.dgt"), name), bytes_of(f"{name}.pgn"))
    for status, text in answers:
        assert status == (0 if "added to" in text or "taken off: " in text else 1) and text, (status, text)
    count = sum(status == 0 for status, _ in answers)
    assert 0 < count <= done <= count + typed, f"{done} lines in the log, and {answers}"


def back_beside_calls(folder: pathlib.Path) -> None:
    """On a game that nobody records: four calls add two plies each, and two take one off, all at once."""
    _, live = begin_game(folder)
    same(stop(live), 0)
    are_whole(live.name, told_of(begin(live.name)))


def back_beside_recorder(folder: pathlib.Path) -> None:
    """While it is recorded, and somebody types the same in its terminal."""
    board, live = begin_game(folder, typed=True)
    board.lift("e1")  # with a king in a hand the board shows no ply that could come back
    until_dumped(board, live.name)
    calls = begin(live.name)
    for line in ("c3 c6", "back", "back", "d3 d6"):
        live.type(line)
        rest(0.1)
    answers = told_of(calls)
    rest(1.5)
    same(stop(live), 0)
    are_whole(live.name, answers, typed=4)
