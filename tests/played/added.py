"""What an arbiter adds: results and moves, typed while it records, or by a command."""

import pathlib
import subprocess

from play_board import DUMP, UPDATE, field, frame
from played import words
from played.recorder import LIVE, Live
from played.stage import (
    RUY,
    RUY_TEXT,
    a_board,
    begin_game,
    begun,
    bytes_of,
    check,
    ended,
    go_on,
    kill,
    movetext,
    recorded,
    rest,
    run,
    same,
    stop,
    until,
    until_game,
    until_line,
)


def typed_results(folder: pathlib.Path) -> None:
    """Each result, typed through a pipe and in a terminal, with a hand in the air and a frame that is unfinished."""
    for number, (result, rotated) in enumerate([("1-0", False), ("0-1", True), ("1/2-1/2", False), ("1/2-1/2", True)]):
        place = folder / str(number)
        place.mkdir()
        board = a_board(place, rotated=rotated)
        terminal = number % 2 == 0
        options = ["--rotated"] if rotated else []
        live = Live(board.device, place / "game", *options, terminal=terminal, typed=not terminal)
        begun(live)
        for move in RUY:
            board.play(move)
        until_game(live.name, RUY_TEXT)
        board.lift("a7")
        if number >= 2:
            board.send(bytes([UPDATE, 0, 5, 3]))
            rest(0.05)
        live.type(result)
        until_game(live.name, RUY_TEXT.replace("*", result))
        until_line(live, f"{words.RESULT}{result}")
        same(ended(live), 0)
        same(movetext(live.name), RUY_TEXT.replace("*", result))
        text = recorded(bytes_of(live.name + ".dgt"), live.name, *options)
        same(text, bytes_of(live.name + ".pgn"))
        assert result in (place / "game.log").read_text()
        assert words.SETTING_UP not in live.lines(), live.lines()


def typed_moves(folder: pathlib.Path) -> None:
    """Two moves were played that no picture showed: typed, they stand, and the game goes on from the board as it is."""
    board = a_board(folder)
    live = Live(board.device, folder / "game", typed=True)
    begun(live)
    board.play("e2e4")
    board.play("e7e5")
    until_game(live.name, "1. e4 e5 *")
    board.pull()
    until_line(live, words.UNPLUGGED)
    for move in ("g1f3", "b8c6"):
        board.play(move)
    board.plug()
    until(lambda: board.asked_for_updates, "a request for updates")
    rest(1)
    same(movetext(live.name), "1. e4 e5 *")
    live.type("Nf3 Nc6")
    until_game(live.name, "1. e4 e5 2. Nf3 Nc6 *")
    board.play("f1b5")
    until_game(live.name, RUY_TEXT)
    same(stop(live), 0)
    same(recorded(bytes_of(live.name + ".dgt"), live.name), bytes_of(live.name + ".pgn"))
    assert "Nc6" in (folder / "game.log").read_text()


def typed_nonsense(folder: pathlib.Path) -> None:
    """What isn't understood, and moves that aren't legal or have a wrong number, are refused with what was typed, and change nothing."""
    board, live = begin_game(folder, typed=True)
    refused = {
        "hello": "hello",
        "Nf6": "Nf6 is no legal move: White is to move, after 1... e5",
        "Nf3 Qxf7": "Qxf7 is no legal move: Black is to move, after 2. Nf3",
        "17. Nc3": "refused: 17. Nc3: 17. isn't the number of the next move: 2. is next, after 1... e5. Nothing was added",
        "2. Nf3 2. Nc6": "2. isn't the number of the next move: 2... is next, after 2. Nf3. Nothing was added",
        "2-0": "2-0",
        "0-0": "refused: 0-0: do both lose?",
        "K" * 300: "K",
    }
    for text, part in refused.items():
        said = len(live.lines())
        live.type(text)
        until(lambda: part in live.lines()[said:], f"a word on {text}")
    kept = check(bytes_of(live.name + ".pgn"))
    same(kept, "moves 2, result *")
    for text in ("", "   ", "\x00\x01", "é", "王 1-0 王"):
        live.type(text)
    rest(1)
    board.play("g1f3")
    until_game(live.name, "1. e4 e5 2. Nf3 *")
    assert "Traceback" not in live.lines() + live.complaint(), live.lines() + live.complaint()
    live.type("q")
    same(ended(live), 0)


def typed_in_other_letters(folder: pathlib.Path) -> None:
    """Moves in small letters, in those of another language, or with the piece and both squares: the answer says how they are written. Both
    squares alone are a move."""
    board, live = begin_game(folder, typed=True)
    board.play("g1f3")
    until_game(live.name, "1. e4 e5 2. Nf3 *")
    asked = {
        "nf6": "refused: nf6: write Nf6",
        "Sf6": "refused: Sf6: write Nf6",
        "Ng8f6": "refused: Ng8f6: write Nf6",
        "Nf6 Dxe5": "Dxe5 is no legal move: White is to move, after 2... Nf6",
        "Nf6 Nf3e5": "refused: Nf6 Nf3e5: Nf3e5: write Nxe5, the piece's letter and where it goes. Nothing was added",
        "f7f8": "refused: f7f8 is no legal move",
        "Nf6 bb5": "bb5: write Bb5",
        "e5e4": "refused: e5e4 is no legal move",
        "Ng8-f6": "refused: Ng8-f6: write Nf6, the piece's letter and where it goes",
    }
    for text, part in asked.items():
        said = len(live.lines())
        live.type(text)
        until(lambda: live.lines()[said:].count("\n"), f"an answer to {text}")
        assert part in live.lines()[said:], live.lines()[said:]
    live.type("g8f6")
    until_game(live.name, "1. e4 e5 2. Nf3 Nf6 *")
    same(stop(live), 0)


def begun_late(folder: pathlib.Path) -> None:
    """A recorder that is started after the first moves: they are typed, and the game goes on."""
    board = a_board(folder)
    for move in RUY[:3]:
        board.play(move)
    live = Live(board.device, folder / "game", typed=True)
    until_line(live, words.IN_HAND)
    board.play("b8c6")
    board.play("f1b5")
    until_line(live, words.NO_START)
    live.type("e4 e5 Nf3 Nc6 Bb5")
    until_game(live.name, RUY_TEXT)
    until_line(live, words.AGREES)
    board.play("a7a6")
    until_game(live.name, RUY_TEXT.replace(" *", " a6 *"))
    same(stop(live), 0)


def typed_after_mate(folder: pathlib.Path) -> None:
    """After mate a typed result is refused with a word, since it would change nothing."""
    board = a_board(folder)
    live = Live(board.device, folder / "game", typed=True)
    begun(live)
    for move in ["f2f3", "e7e5", "g2g4", "d8h4"]:
        board.play(move)
    until_line(live, f"{words.RESULT}0-1")
    said = len(live.lines())
    live.type("1-0")
    until(lambda: len(live.lines()) > said, "a word on it")
    same(ended(live), 0)
    same(movetext(live.name), "1. f3 e5 2. g4 Qh4# 0-1")


def add(folder: pathlib.Path, text: str, name: object) -> "subprocess.CompletedProcess[bytes]":
    return subprocess.run([LIVE, "--add", text, str(name)], cwd=folder, stdout=subprocess.PIPE, stderr=subprocess.PIPE)


def added_by_command(folder: pathlib.Path) -> None:
    """--add on a game that is over: moves, then a result; what is refused leaves every byte as it was."""
    board, live = begin_game(folder)
    same(stop(live), 0)
    capture = bytes_of(live.name + ".dgt")
    for text in ("Nf6", "Nf3 Qxf7", "2-0", "", "hello"):
        answer = add(folder, text, live.name)
        assert answer.returncode in (1, 2) and answer.stderr, (text, answer)
        assert b"Traceback" not in answer.stderr, answer.stderr.decode()
        same(bytes_of(live.name + ".dgt"), capture)
    answer = add(folder, "Nf3 Nc6", live.name)
    same((answer.returncode, movetext(live.name)), (0, "1. e4 e5 2. Nf3 Nc6 *"))
    answer = add(folder, "0-1", live.name)
    same((answer.returncode, movetext(live.name)), (0, "1. e4 e5 2. Nf3 Nc6 0-1"))
    answer = add(folder, "Bb5", live.name)
    same((answer.returncode, movetext(live.name)), (0, "1. e4 e5 2. Nf3 Nc6 3. Bb5 *"))
    assert b"the result 0-1 is gone: add it again" in answer.stdout, answer.stdout.decode()
    answer = add(folder, "0-1", live.name)
    same((answer.returncode, movetext(live.name)), (0, "1. e4 e5 2. Nf3 Nc6 3. Bb5 0-1"))
    assert b"gone" not in answer.stdout, answer.stdout.decode()
    same(bytes_of(live.name + ".dgt")[: len(capture)], capture)
    same(recorded(bytes_of(live.name + ".dgt"), live.name), bytes_of(live.name + ".pgn"))
    log = (folder / "game.log").read_text()
    assert "Nf3 Nc6" in log and "0-1" in log, log
    answer = add(folder, "1-0", folder / "none")
    assert answer.returncode in (1, 2, 3) and not (folder / "none.dgt").exists(), answer
    answer = add(folder, "hello", live.name)
    assert b"or q" not in answer.stderr, answer.stderr.decode()
    (folder / "club-1.dgt").write_bytes(capture)
    answer = add(folder, "1-0", folder / "club")
    same((answer.returncode, answer.stderr.endswith(f"The last one is {folder}/club-1\n".encode())), (1, True))


def added_while_recorded(folder: pathlib.Path) -> None:
    """--add on a game that is being recorded: it is taken up, and the game goes on with it."""
    board, live = begin_game(folder)
    board.pull()
    until_line(live, words.UNPLUGGED)
    for move in ("g1f3", "b8c6"):
        board.play(move)
    board.plug()
    until(lambda: board.asked_for_updates, "a request for updates")
    process = subprocess.Popen([LIVE, "--add", "Nf3 Nc6", live.name], stdout=subprocess.PIPE, stderr=subprocess.STDOUT)
    until(lambda: process.poll() is not None, "the end of --add")
    assert process.stdout is not None
    same((process.returncode, process.stdout.read().count(b"Traceback")), (0, 0))
    until_game(live.name, "1. e4 e5 2. Nf3 Nc6 *")
    board.play("f1b5")
    until_game(live.name, RUY_TEXT)
    same(stop(live), 0)


def added_and_killed(folder: pathlib.Path) -> None:
    """KILL of all just as a result or a move is typed: the game has it, or hasn't, and goes on when it is started again."""
    for number, text in enumerate(["Nf3 Nc6", "1-0"] * 4):
        place = folder / str(number)
        place.mkdir()
        board, live = begin_game(place, typed=True)
        live.type(text)
        rest(0.01 * number)
        kill(live)
        game = run("record", given=bytes_of(live.name + ".dgt")).stdout
        assert check(game) in ("moves 2, result *", "moves 3, result *", "moves 4, result *", "moves 2, result 1-0"), game
        if b"*" in game and text == "1-0":
            again = go_on(board, live)
            board.play("g1f3")
            until(lambda: "2. Nf3" in movetext(live.name), "the move after")
            same(stop(again), 0)
    same(frame(DUMP, [0] * 64)[:3], b"\x86\x00\x43")
    same(field("h1"), 63)
