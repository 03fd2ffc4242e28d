"""What an arbiter reads: lines with the time of day, one state at a time, alarms; and a terminal that is stopped."""

import datetime
import pathlib
import time
from typing import List

from play_board import EMPTY, INITIAL, field
from played import words
from played.recorder import Live, signal_to
from played.stage import (
    a_board,
    begin_game,
    begun,
    ended,
    go_on,
    movetext,
    rest,
    same,
    stop,
    until,
    until_dumped,
    until_game,
    until_line,
)


def game_lines(live: Live) -> List[str]:
    """The lines that are of the game and not of the recorder: its own begin with its name, and go on with blanks."""
    return [line for line in live.lines().splitlines() if not line.startswith(("dgt_live:", "  "))]


def times_of_day(folder: pathlib.Path) -> None:
    """Each line of a game begins with the time of day; a move has its number, its SAN and its clock; no byte offsets."""
    board = a_board(folder)
    before = datetime.datetime.now().replace(microsecond=0)
    live = Live(board.device, folder / "game")
    begun(live)
    board.clock(5395, 5393)
    board.play("e2e4")
    board.play("e7e5")
    until_line(live, "1... e5")
    board.play("e5e6")
    until_line(live, words.CORRECTION)
    same(stop(live), 0)
    after = datetime.datetime.now()
    lines = game_lines(live)
    for line in lines:
        timed = words.TIMED.match(line)
        assert timed, f"no time of day: {line!r}"
        clock = datetime.datetime.strptime(line[:8], "%H:%M:%S").time()
        at = datetime.datetime.combine(before.date() if clock >= before.time() else after.date(), clock)
        assert before <= at <= after, f"{line!r} between {before} and {after}"
    told = [words.untimed(line).split() for line in lines]
    assert ["1.", "e4", "1:29:55"] in told, told
    assert ["1...", "e5", "1:29:53"] in told, told
    assert any("e6" in line and words.CORRECTION in line for line in told), told
    assert [words.AGREES] in told, told


def in_hand_and_wrong(folder: pathlib.Path) -> None:
    """A piece in a hand is told at once, and is an alarm after ten seconds; setting it back ends that."""
    board, live = begin_game(folder)
    lifted = time.monotonic()
    board.lift("g1")
    until_line(live, words.WRONG)
    assert 9 < time.monotonic() - lifted, "the alarm comes too soon"
    of_g1 = [line for line in live.lines().splitlines() if "g1" in line.split()]
    same([(words.IN_HAND in line, words.WRONG in line) for line in of_g1], [(True, False), (False, True)])
    there = live.lines().count(words.AGREES)
    board.put("g1", 3)
    until_line(live, words.AGREES, there + 1)
    board.play("g1f3")
    until_game(live.name, "1. e4 e5 2. Nf3 *")
    same(stop(live), 0)


def wrong_over_a_restart(folder: pathlib.Path) -> None:
    """A piece is off for ten seconds, and the recorder is started again, or its child is killed: the board is wrong at once, since
    before."""
    board, live = begin_game(folder)
    lifted = time.monotonic()
    board.lift("g1")
    until_line(live, words.WRONG)
    same(stop(live), 0)
    live = Live(board.device, live.name)
    until_line(live, words.WRONG)
    last = live.lines().splitlines()[-1]
    since = int(last.split(" since ")[1].split()[0])
    same((words.IN_HAND in live.lines(), abs(since - (time.monotonic() - lifted)) < 3), (False, True))
    for child in live.children():
        signal_to(child)
    until_line(live, "live was killed; it is started again")
    rest(1)
    assert words.IN_HAND not in live.lines(), live.lines()
    board.put("g1", 3)
    until_line(live, words.AGREES)
    board.play("g1f3")
    until_game(live.name, "1. e4 e5 2. Nf3 *")
    same(stop(live), 0)


def clock_is_stopped(folder: pathlib.Path) -> None:
    """Both sides stop the clock: the state says so, and with a piece in a hand too, until the clock runs again. It still says so when a
    child is killed, without another line, and after a restart."""
    board = a_board(folder)
    live = Live(board.device, folder / "game")
    begun(live)
    stopped = f"  {words.AGREES}{words.CLOCK_STOPPED}\n"
    board.clock(600, 600, runs=True)
    board.play("e2e4")
    until_game(live.name, "1. e4 {[%clk 0:10:00]} *")
    assert words.CLOCK_STOPPED not in live.lines(), live.lines()
    board.clock(600, 590, runs=False)
    until(lambda: live.lines().endswith(stopped), "that the clock is stopped")
    board.lift("g8")
    until_line(live, f"{words.IN_HAND} g8{words.CLOCK_STOPPED}\n")
    board.put("g8", INITIAL[field("g8")])
    until(lambda: live.lines().endswith(stopped), "that it is stopped still")
    board.clock(600, 590, runs=True)
    until(lambda: live.lines().endswith(f"  {words.AGREES}\n"), "that it runs again")
    board.play("g8f6")
    until_line(live, "1... Nf6")
    board.clock(600, 580, runs=False)
    until(lambda: live.lines().endswith(stopped), "that it is stopped again")
    said = live.lines().count(words.AGREES)
    for child in live.children():
        signal_to(child)
    until_line(live, "live was killed; it is started again")
    until_dumped(board, live.name)
    same(live.lines().count(words.AGREES), said)
    board.clock(600, 580, runs=True)
    until(lambda: live.lines().endswith(f"  {words.AGREES}\n"), "that it runs once more")
    board.clock(600, 570, runs=False)
    until(lambda: live.lines().endswith(stopped), "that it is stopped once more")
    same(stop(live), 0)
    again = go_on(board, live)
    until(lambda: again.lines().endswith(stopped), "that it is stopped, after a restart")
    same(stop(again), 0)


def setting_up(folder: pathlib.Path) -> None:
    """Setting up the pieces before a game, and between two, is not a line for each piece."""
    board = a_board(folder, [EMPTY] * 64, seed=5)
    live = Live(board.device, folder / "game", "--series")
    until(lambda: len(game_lines(live)) > 0, "the first line")
    for _ in board.homecoming():
        rest(0.03)
    begun(live)
    assert len(game_lines(live)) <= 6, live.lines()
    board.play("e2e4")
    board.kings_in_centre("e4", "d5")
    until_line(live, f"game-2 {words.BEGINS}")
    lines = len(game_lines(live))
    for _ in board.homecoming(kings_first=True):
        rest(0.03)
    begins = live.lines().rindex(f"game-2 {words.BEGINS}")
    until(lambda: words.AGREES in live.lines()[begins:], "that it agrees")
    assert len(game_lines(live)) <= lines + 6, live.lines()
    same(stop(live), 0)


def on_a_terminal(folder: pathlib.Path) -> None:
    """On a terminal of 80 columns the state is one line that is rewritten, and no line is longer than the terminal."""
    board, live = begin_game(folder, terminal=True)
    for move in ("g1f3", "b8c6"):
        board.lift(move[:2])
        until_line(live, words.IN_HAND)
        rest(0.3)
        board.codes[field(move[:2])] = 3 if move == "g1f3" else 9
        board.play(move)
    until_game(live.name, "1. e4 e5 2. Nf3 Nc6 *")
    until_line(live, "2... Nc6")
    same(stop(live), 0)
    raw = live.told.came.decode()
    for line in live.lines().splitlines():
        assert len(line) <= 80 or str(folder) in line, f"{len(line)} columns: {line!r}"
    # What is written over is not followed by the end of a line.
    assert "\r" in raw.replace("\r\n", ""), repr(raw)
    kept = [line for line in words.CONTROLS.sub("", raw).replace("\r\n", "\n").split("\n")]
    assert all("Nf3" not in line.split("\r")[-1] or words.TIMED.match(line.split("\r")[-1]) for line in kept), kept


def stopped_terminal(folder: pathlib.Path) -> None:
    """A terminal that is stopped (Ctrl-S), or a pipe that nobody reads, while far more than 64 kB of lines are told: the PGN
    goes on, and the end is no later."""
    for terminal in (True, False):
        place = folder / str(terminal)
        place.mkdir()
        board, live = begin_game(place, terminal=terminal)
        if not terminal:
            live.told.make_small()
        live.told.hold(True)
        for number in range(2600):
            # The square is lifted and set back, so that the state changes each time.
            board.lift("g1")
            board.put("g1", 3)
            if number % 20 == 0:
                until(lambda: not board.outgoing, "that bytes are read")
        board.play("g1f3")
        until_game(live.name, "1. e4 e5 2. Nf3 *")
        board.play("b8c6")
        until_game(live.name, "1. e4 e5 2. Nf3 Nc6 *")
        live.told.hold(False)
        until(lambda: live.says("2... Nc6") or live.says(words.DROPPED), "what was told, or that it was dropped")
        board.play("f1b5")
        until_line(live, "3. Bb5")
        same(stop(live), 0)

    # The end comes though it is still stopped.
    place = folder / "end"
    place.mkdir()
    board, live = begin_game(place, terminal=True)
    live.told.hold(True)
    board.play("g1f3")
    until_game(live.name, "1. e4 e5 2. Nf3 *")
    live.send(2)
    until(lambda: not live.runs, "its end, which waits for no terminal")
    ended(live)
    same(movetext(live.name), "1. e4 e5 2. Nf3 *")


def long_lines_dropped(folder: pathlib.Path) -> None:
    """A thousand corrections while nobody reads: what can't be told is dropped, and that is said."""
    board = a_board(folder)
    live = Live(board.device, folder / "game")
    begun(live)
    live.told.make_small()
    live.told.hold(True)
    board.play("e2e4")
    for number in range(3000):
        board.play("e4e3" if number % 2 == 0 else "e3e4")
        if number % 20 == 0:
            until(lambda: not board.outgoing, "that bytes are read")
    until_game(live.name, "1. e4 *")
    board.play("e7e5")
    until_game(live.name, "1. e4 e5 *")
    until(lambda: "1... e5" in (folder / "game.log").read_text(), "that all corrections are told")
    live.told.hold(False)
    until_line(live, words.DROPPED)
    board.play("g1f3")
    until_line(live, "2. Nf3")
    same(stop(live), 0)


def logged(folder: pathlib.Path) -> None:
    """NAME.log has what was told, with the date and the time of day, from one recording to the next, and nothing twice."""
    board, live = begin_game(folder)
    log = folder / "game.log"
    board.send(b"\x0a")
    until(lambda: "fault stray" in log.read_text(), "a fault in the log")
    same(stop(live), 0)
    before = log.read_text()
    again = Live(board.device, live.name)
    begun(again)
    for line in ("records ", "waits for the board", "agrees"):
        same((line, log.read_text()[len(before) :].count(line)), (line, 1))
    same((len(log.read_text()[len(before) :].splitlines()), again.lines().count("in hand")), (3, 0))
    board.play("g1f3")
    until_game(live.name, "1. e4 e5 2. Nf3 *")
    same(stop(again), 0)
    lines = (folder / "game.log").read_text().splitlines()
    for line in lines:
        datetime.datetime.strptime(line[:19], "%Y-%m-%d %H:%M:%S")
    for san in ("1. e4", "1... e5", "2. Nf3"):
        same(sum(f" {san}" in line for line in lines), 1)
