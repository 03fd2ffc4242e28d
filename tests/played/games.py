"""Whole games, as they are played and as they are seen: the expected moves are written by hand."""

import ast
import pathlib
import signal
import subprocess
import sys
import time
from typing import List, Tuple

from play_board import EMPTY, INITIAL, field
from played import words
from played.recorder import Live
from played.stage import (
    RUY,
    a_board,
    begun,
    bytes_of,
    check,
    ended,
    movetext,
    same,
    stop,
    until,
    until_dumped,
    until_game,
    until_line,
)


def whole_game(folder: pathlib.Path) -> None:
    """A whole game with a clock, ended by the kings: the recorder ends by itself."""
    board = a_board(folder)
    live = Live(board.device, folder / "game", "--white", "Anna", "--date", "2024.05.31")
    begun(live)
    for number, move in enumerate(["e2e4", "e7e5", "g1f3", "b8c6", "f1b5", "a7a6", "e1g1"]):
        board.clock(5395 - 7 * number, 5393 - 7 * number)
        board.play(move)
    until_game(
        live.name,
        "1. e4 {[%clk 1:29:55]} 1... e5 {[%clk 1:29:46]} 2. Nf3 {[%clk 1:29:41]} 2... Nc6 {[%clk 1:29:32]} "
        "3. Bb5 {[%clk 1:29:27]} 3... a6 {[%clk 1:29:18]} 4. O-O {[%clk 1:29:13]} *",
    )
    board.kings_in_centre("e4", "d5")
    same(ended(live), 0)
    same(
        bytes_of(live.name + ".pgn").decode(),
        """[Event "?"]
[Site "?"]
[Date "2024.05.31"]
[Round "?"]
[White "Anna"]
[Black "?"]
[Result "1-0"]

1. e4 {[%clk 1:29:55]} 1... e5 {[%clk 1:29:46]} 2. Nf3 {[%clk 1:29:41]} 2...
Nc6 {[%clk 1:29:32]} 3. Bb5 {[%clk 1:29:27]} 3... a6 {[%clk 1:29:18]} 4. O-O
{[%clk 1:29:13]} 1-0

""",
    )
    same(board.asked[:3], b"EBK")
    same(set(board.asked[3:]) - set(b"EBK"), set())
    same(live.lines().splitlines()[-1], f"dgt_live: {words.PLAYED} {live.name}.pgn")
    for part in ("1. e4", "4. O-O", "1:29:13", f"{words.RESULT}1-0"):
        assert part in live.lines(), f"{part} in\n{live.lines()}"


def mate(folder: pathlib.Path) -> None:
    """Mate ends it after ten seconds; the pieces that are put away meanwhile change nothing."""
    board = a_board(folder)
    live = Live(board.device, folder / "game")
    begun(live)
    for move in ["f2f3", "e7e5", "g2g4"]:
        board.play(move)
    until_game(live.name, "1. f3 e5 2. g4 *")
    start = time.monotonic()
    board.play("d8h4")
    until_line(live, f"{words.RESULT}0-1")
    for number in range(64):
        board.show(number, EMPTY)
    same(ended(live), 0)
    assert time.monotonic() - start >= 10, "it ended too soon"
    assert words.SETTING_UP not in live.lines(), live.lines()
    same(movetext(live.name), "1. f3 e5 2. g4 Qh4# 0-1")


def result_withdrawn(folder: pathlib.Path) -> None:
    """A result that doesn't stand doesn't end it: a mating move is corrected. What comes next is of the game."""
    for number in range(3):  # the correction may come too late on a busy machine
        place = folder / str(number)
        place.mkdir()
        board = a_board(place)
        live = Live(board.device, place / "game")
        begun(live)
        for move in ["f2f3", "e7e5", "g2g4", "d8h4", "h4f6"]:
            board.play(move)
        until(lambda: movetext(live.name) == "1. f3 e5 2. g4 Qf6 *" or not live.runs, "the correction")
        over = time.monotonic() + 11
        until(lambda: time.monotonic() > over or not live.runs, "the end of the wait")
        if live.runs:
            break
        print("   ten seconds were over before the correction was seen", flush=True)
    assert live.runs, "it has ended"
    board.play("e2e4")
    until_game(live.name, "1. f3 e5 2. g4 Qf6 3. e4 *")
    board.kings_in_centre("d4", "d5")
    until_line(live, f"{words.RESULT}1/2-1/2")
    same(ended(live), 0)
    same(movetext(live.name), "1. f3 e5 2. g4 Qf6 3. e4 1/2-1/2")


WATCHER = """
import sys, time
seen = None
while True:
    try:
        with open(sys.argv[1]) as file:
            text = file.read()
    except FileNotFoundError:
        continue
    if text != seen:
        seen = text
        print(repr((time.monotonic(), text)), flush=True)
    time.sleep(0.0005)
"""
# Morphy against Duke Karl and Count Isouard, Paris 1858: captures, castling on the queen's side, a mate.
PARIS = (
    "e2e4 e7e5 g1f3 d7d6 d2d4 c8g4 d4e5 g4f3 d1f3 d6e5 f1c4 g8f6 f3b3 d8e7 b1c3 c7c6 c1g5 b7b5 c3b5 c6b5 c4b5 b8d7 e1c1 "
    "a8d8 d1d7 d8d7 h1d1 e7e6 b5d7 f6d7 b3b8 d7b8 d1d8"
).split()
PARIS_TEXT = (
    "1. e4 e5 2. Nf3 d6 3. d4 Bg4 4. dxe5 Bxf3 5. Qxf3 dxe5 6. Bc4 Nf6 7. Qb3 Qe7 8. Nc3 c6 9. Bg5 b5 10. Nxb5 cxb5 "
    "11. Bxb5+ Nbd7 12. O-O-O Rd8 13. Rxd7 Rxd7 14. Rd1 Qe6 15. Bxd7+ Nxd7 16. Qb8+ Nxb8 17. Rd8# 1-0"
)


def watched(folder: pathlib.Path) -> None:
    """Another process, which reads NAME.pgn as fast as it can, sees whole texts alone, and each ply before the next is made."""
    board = a_board(folder)
    with open(folder / "seen", "wb") as kept:
        watcher = subprocess.Popen([sys.executable, "-c", WATCHER, folder / "game.pgn"], stdout=kept)

    def seen() -> List[Tuple[float, str]]:
        lines = bytes_of(folder / "seen").decode().splitlines(True)
        return [ast.literal_eval(line) for line in lines if line.endswith("\n")]

    try:
        live = Live(board.device, folder / "game")
        begun(live)
        until(lambda: bytes_of(folder / "seen").count(b"\n") == 1, "the first text")
        sent = []
        for number, move in enumerate(PARIS):
            board.clock(5400 - number, 5400)
            board.play(move)
            sent.append(time.monotonic())
            until(lambda: bytes_of(folder / "seen").count(b"\n") == number + 2, f"ply {number + 1}", 0.002)
        same(ended(live), 0)
    finally:
        watcher.kill()
        watcher.wait()
    wanted = [f"moves {n}, result {'1-0' if n == len(PARIS) else '*'}" for n in range(len(PARIS) + 1)]
    same([check(text.encode()) for _, text in seen()], wanted)
    moves = [word for word in movetext(live.name).split() if "clk" not in word and "]" not in word and "..." not in word]
    same(" ".join(moves), PARIS_TEXT)
    waits = sorted(at - sent[n] for n, (at, _) in enumerate(seen()[1:]))
    print(f"   each ply stood after {waits[0]:.2f} to {waits[-1]:.2f} s", flush=True)


def set_up_wrongly(folder: pathlib.Path) -> None:
    """A piece too few, set down later; a board the wrong way round: what is said names the square, and the option."""
    codes = list(INITIAL)
    codes[field("d1")] = EMPTY
    board = a_board(folder, codes)
    live = Live(board.device, folder / "game")
    until(lambda: any(line.split()[-1:] == ["d1"] for line in live.lines().splitlines()), "a line of d1")
    assert words.AGREES not in live.lines(), live.lines()
    board.put("d1", 6)
    begun(live)
    board.play("e2e4")
    until_game(live.name, "1. e4 *")
    same(stop(live), 0)

    place = folder / "round"
    place.mkdir()
    board = a_board(place, rotated=True)
    wrong = Live(board.device, place / "wrong")
    until_line(wrong, words.ROTATED)
    same(stop(wrong), 0)
    same(movetext(wrong.name), "*")
    right = Live(board.device, place / "right", "--rotated")
    begun(right)
    assert words.ROTATED not in right.lines(), right.lines()
    board.play("e2e4")
    until_game(right.name, "1. e4 *")
    same(stop(right), 0)


def set_up_and_played_at_once(folder: pathlib.Path) -> None:
    """The pieces are set up, and the first moves are made, and all of it is reported at once, as after a stalled recorder: the start
    doesn't end its own game."""
    for name, is_series, passed_over in (("game", False, ""), ("blitz", True, ""), ("set up by e4", False, "e4")):
        board = a_board(folder, [EMPTY] * 64, device=folder / f"board of {name}")
        live = Live(board.device, folder / name, *(["--series"] if is_series else []))
        path = folder / (f"{name}-1" if is_series else name)
        until(lambda: board.asked_for_updates and board.dump() in bytes_of(f"{path}.dgt"), "the empty board")
        with board.at_once():
            for number, code in enumerate(INITIAL):
                if code and number != field("e2"):
                    board.show(number, code)
            if passed_over:  # which looks like a move
                board.put(passed_over, 1)
                board.lift(passed_over)
            board.put("e2", 1)
            board.play("d2d4", "d7d5")
        until_game(path, "1. d4 d5 *")
        until_dumped(board, path)
        board.play("c2c4")
        until_game(path, "1. d4 d5 2. c4 *")
        until_line(live, "2. c4")
        same(live.lines().count("1. d4"), 1)
        assert "is over" not in live.lines(), live.lines()
        same(stop(live), 0)


def black_first(folder: pathlib.Path) -> None:
    """A game from a position with Black to move, whose time comes first."""
    board = a_board(folder)
    board.codes = [EMPTY] * 64
    for square, code in (("e1", 5), ("h2", 2), ("e8", 11), ("a7", 7)):
        board.codes[field(square)] = code
    live = Live(board.device, folder / "game", "--fen", "4k3/p7/8/8/8/8/7R/4K3 b - - 0 1", "--first", "black")
    begun(live)
    board.clock(3000, 2000)
    board.play("a7a5")
    board.play("h2h8")
    until_game(live.name, "1... a5 {[%clk 0:50:00]} 2. Rh8+ {[%clk 0:33:20]} *")
    same(stop(live), 0)
    assert b'[FEN "4k3/p7/8/8/8/8/7R/4K3 b - - 0 1"]' in bytes_of(live.name + ".pgn")


def many(folder: pathlib.Path) -> None:
    """32 boards at once."""
    rooms = []
    for number in range(32):
        place = folder / str(number)
        place.mkdir()
        board = a_board(place)
        rooms.append((board, Live(board.device, place / "game", "--round", str(number))))
    for _, live in rooms:
        begun(live)
    for move in RUY:
        for board, _ in rooms:
            board.clock(600, 600)
            board.play(move)
    text = " ".join(move + " {[%clk 0:10:00]}" for move in ["1. e4", "1... e5", "2. Nf3", "2... Nc6", "3. Bb5"])
    for _, live in rooms:
        until_game(live.name, text + " *")
    for _, live in rooms:
        live.send(signal.SIGTERM)
    for number, (_, live) in enumerate(rooms):
        same(ended(live), 0)
        assert f'[Round "{number}"]' in bytes_of(live.name + ".pgn").decode()
