"""`--recover`: moves that two hands hid."""

import pathlib
import subprocess
from typing import List, Tuple

from play_board import BLACK, PROMOTED
from played import words
from played.boards import Board
from played.recorder import LIVE, Live, command, processes, signal_to
from played.stage import (
    a_board,
    begun,
    bytes_of,
    ended,
    go_on,
    kill,
    movetext,
    rest,
    run,
    same,
    stop,
    until,
    until_game,
    until_line,
)

KNIGHT = PROMOTED["n"]
DUMP = 67  # bytes
STRICT_TEXT = "1. e4 e5 *"
WHOLE_TEXT = "1. e4 e5 2. Nf3 Nc6 3. Bb5 *"
PAIR = "recovered 2. Nf3 2... Nc6"


def hurried(board: Board, first: str = "g1f3", reply: str = "b8c6") -> None:
    """The reply's piece is lifted while the move's is in the air: two knights."""
    board.lift(first[:2])
    board.lift(reply[:2])
    board.put(first[2:], KNIGHT)
    board.put(reply[2:], BLACK + KNIGHT)


def begin(folder: pathlib.Path, *options: str, **more: object) -> Tuple[Board, Live]:
    """Two plies, recorded with --recover."""
    board = a_board(folder)
    live = Live(board.device, folder / "game", "--recover", *options, **more)  # type: ignore[arg-type]  # what Live takes by name
    begun(live)
    for move in ("e2e4", "e7e5"):
        board.play(move)
    until_game(live.name, STRICT_TEXT)
    return board, live


def pair_recovered(folder: pathlib.Path) -> None:
    """A hidden pair is put in with the next move, told and kept in the log; the capture has what the board sent alone. Started
    again the game is told again; with --strict it is what `record` makes of the capture, and with --recover whole again."""
    board, live = begin(folder)
    hurried(board)
    rest(1.5)
    same(movetext(live.name), STRICT_TEXT)
    board.play("f1b5")
    until_game(live.name, WHOLE_TEXT)
    until_line(live, "3. Bb5")
    lines = [words.untimed(line) for line in live.lines().splitlines() if words.AGREES not in line]
    at = lines.index(PAIR)
    same(lines[at + 1 : at + 4], ["2. Nf3", "2... Nc6", "3. Bb5"])
    board.play("a7a6")
    until_game(live.name, WHOLE_TEXT.replace("*", "a6 *"))
    same(stop(live), 0)
    log = (folder / "game.log").read_text()
    same(log.count(PAIR), 1)
    assert "look whether they were played: 2. Nf3 2... Nc6" in log, log
    capture = bytes_of(live.name + ".dgt")
    same(b" ".join(run("record", given=capture).stdout.split(b"\n\n")[1].split()), STRICT_TEXT.encode())

    live = go_on(board, live)
    until_line(live, "3... a6")
    assert f"--:--:--  {PAIR}" in live.lines(), live.lines()
    same(stop(live), 0)
    same(movetext(live.name), WHOLE_TEXT.replace("*", "a6 *"))
    same(bytes_of(live.name + ".dgt")[: len(capture)], capture)

    live = go_on(board, live, "--strict")
    until_game(live.name, STRICT_TEXT)
    same(stop(live), 0)
    live = go_on(board, live, "--recover")
    until_game(live.name, WHOLE_TEXT.replace("*", "a6 *"))
    same(stop(live), 0)


def recovered_and_killed(folder: pathlib.Path) -> None:
    """KILL of the child that recovers, before and after a pair, and of all: the game goes on, and each line is told once."""
    board, live = begin(folder)

    def recovering() -> int:
        found = [process for process in processes(live.process.pid) if "live" in command(process)]
        return found[0] if len(found) == 1 else 0

    ended_ones = [0]

    def is_another() -> bool:
        child = recovering()
        if child in ended_ones:
            return False
        ended_ones.append(child)
        return True

    for part in range(2):
        until(is_another, "a child that recovers")
        signal_to(ended_ones[-1])
        if part == 0:
            hurried(board)
            rest(0.5)
        else:
            board.play("f1b5")
    until_game(live.name, WHOLE_TEXT)
    until_line(live, "3. Bb5")
    same((live.lines().count(PAIR), live.lines().count("3. Bb5")), (1, 1))
    kill(live)
    live = go_on(board, live)
    board.play("a7a6")
    until_game(live.name, WHOLE_TEXT.replace("*", "a6 *"))
    same(stop(live), 0)


def recovered_and_added(folder: pathlib.Path) -> None:
    """What is typed, or added by command, comes behind the recovered moves; a typed result ends the whole game. Afterwards a
    command makes the strict one of it, and the whole one again."""
    board, live = begin(folder, typed=True)
    hurried(board)
    board.play("f1b5")
    until_game(live.name, WHOLE_TEXT)
    board.lift("a7")
    live.type("a6")
    until_line(live, "added by hand: a6")
    until_game(live.name, WHOLE_TEXT.replace("*", "a6 *"))
    live.type("1-0")
    same(ended(live), 0)
    same(movetext(live.name), WHOLE_TEXT.replace("*", "a6 1-0"))
    size = int((folder / "game.end").read_text())
    same((len(bytes_of(live.name + ".dgt")) - size) % DUMP, 0)  # dumps that were on their way as the result was typed
    calls: List[Tuple[List[str], str, List[str]]] = [
        (["--add", "0-1"], "0-1", []),
        (["--strict"], "", ["nothing recovered", words.RESULT_GONE.format("0-1")]),
        (["--strict"], "", ["nothing recovered"]),
        (["--recover"], "0-1", [PAIR, "the result is 0-1"]),
        (["--recover"], "0-1", [PAIR]),
    ]
    for given, text, told in calls:
        answer = subprocess.run([LIVE, *given, live.name], stdout=subprocess.PIPE, stderr=subprocess.PIPE)
        if told:
            same(answer.stdout.decode(), f"dgt_live: {live.name}.pgn is made anew: {'; '.join(told)}\n")
        whole = WHOLE_TEXT.replace("*", f"a6 {text}")
        same((answer.returncode, movetext(live.name)), (0, whole if text else STRICT_TEXT))
        same(PAIR.encode() in answer.stdout, given == ["--recover"])
    same(bytes_of(folder / "game.options").splitlines()[0], b"--recover")
    for name, status in ((str(folder / "other"), 1), ("/dev/null", 2)):
        same(subprocess.run([LIVE, "--strict", name], stderr=subprocess.DEVNULL).returncode, status)


def recovered_series(folder: pathlib.Path) -> None:
    """Two games in a row, each with a hidden pair: the first ends by a mate, and its end is marked in the capture's bytes."""
    board = a_board(folder)
    live = Live(board.device, folder / "blitz", "--recover", "--series")
    begun(live)
    for move in ("e2e4", "e7e5"):
        board.play(move)
    until_game(f"{live.name}-1", STRICT_TEXT)
    hurried(board)
    for move in ("f3g5", "a7a6", "d1h5", "a6a5", "h5f7"):
        board.play(move)
    until_line(live, "blitz-2 begins")
    same(movetext(f"{live.name}-1"), "1. e4 e5 2. Nf3 Nc6 3. Ng5 a6 4. Qh5 a5 5. Qxf7# 1-0")
    end = int((folder / "blitz-1.end").read_text())
    same(end, len(bytes_of(f"{live.name}-1.dgt")[:end]))
    for _ in board.homecoming():
        rest(0.01)
    until_line(live, "blitz-2.dgt")
    begun(live)
    for move in ("d2d4", "d7d5"):
        board.play(move)
    until_game(f"{live.name}-2", "1. d4 d5 *")
    hurried(board)
    board.play("c2c4")
    until_game(f"{live.name}-2", "1. d4 d5 2. Nf3 Nc6 3. c4 *")
    same(stop(live), 0)
    same(movetext(f"{live.name}-1"), "1. e4 e5 2. Nf3 Nc6 3. Ng5 a6 4. Qh5 a5 5. Qxf7# 1-0")


def result_gone(folder: pathlib.Path) -> None:
    """A result was typed where a pair was hidden, and then the pair is recovered: the result belongs to another position, and
    that it is gone is told and kept in the log; by the call alone, and where the game is recorded again."""
    board = a_board(folder)
    live = Live(board.device, folder / "game", typed=True)
    begun(live)
    for move in ("e2e4", "e7e5"):
        board.play(move)
    until_game(live.name, STRICT_TEXT)
    hurried(board)
    board.play("f1b5")
    until(lambda: PAIR.encode() in run("recover", given=bytes_of(live.name + ".dgt")).stderr, "the pair in the capture", 0.05)
    live.type("1-0")
    same(ended(live), 0)
    same(movetext(live.name), STRICT_TEXT.replace("*", "1-0"))
    gone = words.RESULT_GONE.format("1-0")
    for given, text, told in (
        (["--recover"], WHOLE_TEXT, f"{PAIR}; {gone}"),
        (["--first", "black"], WHOLE_TEXT, f"Black's time comes first; {PAIR}"),
        (["--strict"], STRICT_TEXT.replace("*", "1-0"), "nothing recovered; the result is 1-0"),
        (["--tag", "Section=A"], STRICT_TEXT.replace("*", "1-0"), f"{live.name}.broadcast.pgn has its tags"),
        (["--strict"], STRICT_TEXT.replace("*", "1-0"), f"nothing recovered; {live.name}.broadcast.pgn has its tags"),
    ):
        answer = subprocess.run([LIVE, *given, live.name], stdout=subprocess.PIPE)
        same(answer.stdout.decode(), f"dgt_live: {live.name}.pgn is made anew: {told}\n")
        same(movetext(live.name), text)
    assert f"  made anew: {PAIR}; {gone}\n" in (folder / "game.log").read_text(), (folder / "game.log").read_text()
    (folder / "game.end").unlink()
    again = go_on(board, live, "--recover", "--first", "white")
    until_game(live.name, WHOLE_TEXT)
    told = f"game.pgn is made anew: White's time comes first; {PAIR}; {gone}"
    until_line(again, told)
    same((folder / "game.log").read_text().count(told), 1)
    same(stop(again), 0)
    again = go_on(board, live)
    begun(again)
    same(stop(again), 0)
    assert "made anew" not in again.lines(), again.lines()
