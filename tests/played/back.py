"""A wrong record is put right: plies and results that an arbiter takes off, typed while it records, and by a command."""

import os
import pathlib
import random
import shutil
import signal
import subprocess
import time
from typing import List, Tuple

from live.child.program import Program
from live.game.changing import add_by_name
from live.game.files import Paths
from live.line.protocol import picture_of_placement
from live.run.refused import DONE
from play_board import field
from played import recovered, words
from played.boards import Board
from played.recorder import LIVE, Live
from played.stage import (
    RUY,
    RUY_TEXT,
    a_board,
    begin_game,
    begun,
    bytes_of,
    ended,
    go_on,
    movetext,
    program,
    recorded,
    rest,
    run,
    same,
    stop,
    until,
    until_dumped,
    until_game,
    until_kept,
    until_line,
)

# How many calls are killed.
KILLS = int(os.environ.get("KILLS", "50"))


def call(*arguments: object) -> "subprocess.CompletedProcess[str]":
    return subprocess.run([LIVE, *map(str, arguments)], stdout=subprocess.PIPE, stderr=subprocess.PIPE, text=True)


def ruy(folder: pathlib.Path, *options: str, rotated: bool = False) -> Tuple[Board, Live]:
    """Five plies with a clock, recorded."""
    folder.mkdir(exist_ok=True)
    board = a_board(folder, rotated=rotated)
    live = Live(board.device, folder / "game", *options, typed=True)
    begun(live)
    for number, move in enumerate(RUY):
        board.clock(5400 - 10 * number, 5300 - 10 * number)
        board.play(move)
        until(lambda: f"{number // 2 + 1}." in movetext(live.name) and len(sans(live)) == number + 1, move)
    return board, live


def sans(live: Live) -> List[str]:
    return [word for word in movetext(live.name)[:-1].split() if word[0].isalpha()]


def answered(live: Live, text: str, part: str) -> None:
    """What is typed is answered so."""
    said = len(live.lines())
    live.type(text)
    until(lambda: part in live.lines()[said:], f"'{part}' after {text}, and not {live.lines()[said:]}")


def is_whole(live: Live, *options: str) -> None:
    """The text is what the capture gives."""
    same(recorded(bytes_of(live.name + ".dgt"), live.name, *options), bytes_of(live.name + ".pgn"))


def taken_back(folder: pathlib.Path) -> None:
    """An illegal move is found plies later: the pieces are set as they stood before it, and the game goes on from there with
    its clocks; on a board either way round, with Black's time first."""
    both: List[List[str]] = [[], ["--rotated", "--first", "black"]]
    for number, options in enumerate(both):
        place = folder / str(number)
        board, live = ruy(place, *options, rotated=bool(options))
        before, capture = movetext(live.name), bytes_of(live.name + ".dgt")
        answered(live, "back 2. Nf6", "2. Nf6 is no ply of the game. The nearest is 2. Nf3: type back 2. Nf3")
        answered(live, "back", "If the players go back, set the pieces as after 2... Nc6, and type it again")
        board.play("b5f1")
        board.play("c6b8")
        board.play("f3g1")
        until_dumped(board, live.name)
        answered(live, "back 1... e5", "takes off 3 plies, from 2. Nf3: type it again")
        answered(live, "back 1... e5", "back to 1... e5; taken off: 2. Nf3 Nc6 3. Bb5. What the board had sent is kept in")
        front = before.split(" 2. Nf3")[0]
        until_game(live.name, f"{front} *")
        assert bytes_of(live.name + ".before-1.dgt").startswith(capture), "the old capture isn't kept whole"
        board.clock(5000, 4900)
        board.play("g1f3")
        clock = "1:21:40" if options else "1:23:20"
        until_game(live.name, f"{front} 2. Nf3 {{[%clk {clock}]}} *")
        until_line(live, words.AGREES)
        same(stop(live), 0)
        is_whole(live, *options)


def typed_for_another(folder: pathlib.Path) -> None:
    """Two moves were typed for another board: they go at once, and the game goes on; twice in a row, with a piece in hand; by
    a command too, while it records."""
    board, live = begin_game(folder, typed=True)
    answered(live, "Nf3 Nc6", "added by hand: Nf3 Nc6")
    until_game(live.name, "1. e4 e5 2. Nf3 Nc6 *")
    until_line(live, f"{words.IN_HAND} b8 c6 f3 g1")
    answered(live, "back", "back to 2. Nf3; taken off: 2... Nc6")
    answered(live, "back", "back to 1... e5; taken off: 2. Nf3")
    until_game(live.name, "1. e4 e5 *")
    answered(live, "back", "refused: the board still shows 1... e5: it would come back at once. ")
    board.lift("f1")
    until_line(live, words.IN_HAND)
    answered(live, "d4 d5", "added by hand: d4 d5")
    until_game(live.name, "1. e4 e5 2. d4 d5 *")
    until_dumped(board, live.name)
    answer = call("--back", "1... e5", live.name)
    same((answer.returncode, answer.stderr), (0, ""))
    assert "back to 1... e5; taken off: 2. d4 d5" in answer.stdout, answer
    until_game(live.name, "1. e4 e5 *")
    answered(live, "help", "Type 1-0, 0-1, 1/2-1/2, moves (Nf3 Nc6), back, back 14. Bxf6, instead 14. O-O, undo, * (no result), ok, +- (")
    answered(live, "help", "), name White=Anna (a name put right), moves (of the game so far), messages (of before), or q to end the recording")
    board.put("c4", 4)
    until_game(live.name, "1. e4 e5 2. Bc4 *")
    same(stop(live), 0)
    is_whole(live)
    same(len(list(folder.glob("game.before-*.dgt"))), 3)


def all_taken_off(folder: pathlib.Path) -> None:
    """No ply is left: the pieces are set up, and a game begins as if it were the first."""
    board, live = ruy(folder)
    answered(live, "back 0", "takes off 5 plies, from 1. e4: type it again")
    answered(live, "back 0", "back to the start; taken off: 1. e4 e5 2. Nf3 Nc6 3. Bb5")
    until_game(live.name, "*")
    board.set_up([])
    until_dumped(board, live.name)
    board.play("d2d4")
    until(lambda: sans(live) == ["d4"], "1. d4")
    same(stop(live), 0)
    is_whole(live)


def question_forgotten(folder: pathlib.Path) -> None:
    """A question is open until the game changes, or ends: then it is asked anew, and its file is gone."""
    _, live = ruy(folder)
    question = folder / "game.back"
    answered(live, "back 0", "takes off 5 plies, from 1. e4: type it again")
    same(question.exists(), True)
    answered(live, "a6", "added by hand: a6")
    same(question.exists(), False)
    answered(live, "back 0", "takes off 6 plies, from 1. e4: type it again")
    same(stop(live), 0)
    same(question.exists(), False)


def result_taken_off(folder: pathlib.Path) -> None:
    """The kings were set into the centre by mistake: they are put back, and the result goes; a mate stays."""
    board, live = begin_game(folder, typed=True)
    answered(live, "*", "refused: *: the game has no result")
    board.lift("e1")
    board.lift("e8")
    board.put("d4", 5)
    board.put("d5", 11)
    until_line(live, words.RESULT)
    until(lambda: not movetext(live.name).endswith("*"), "a result in the text")
    result = movetext(live.name).split()[-1]
    answered(live, "*", f"the board still shows the result {result}")
    board.lift("d4")
    until_dumped(board, live.name)
    answered(live, "*", f"back to 1... e5; no ply is taken off; the result {result} is gone")
    until_game(live.name, "1. e4 e5 *")
    board.lift("d5")
    board.put("e8", 11)
    board.put("e1", 5)
    board.play("g1f3")
    until_game(live.name, "1. e4 e5 2. Nf3 *")
    same(stop(live), 0)
    is_whole(live)


def over_and_back(folder: pathlib.Path) -> None:
    """By a command, on a game that nobody records: with the right clocks, in one call with what is added then."""
    board, live = ruy(folder)
    same(stop(live), 0)
    before = movetext(live.name)
    answer = call("--add", "1-0", live.name)
    same((answer.returncode, movetext(live.name)), (0, before[:-1] + "1-0"))
    capture = bytes_of(live.name + ".dgt")
    for wrong in ("3. Bc4", "14", "hello"):
        answer = call("--back", wrong, live.name)
        same((answer.returncode, bytes_of(live.name + ".dgt")), (1, capture))
        assert "ype " in answer.stderr, answer
    answer = call("--back", "1... e5", live.name)
    same((answer.returncode, answer.stderr), (1, "dgt_live: takes off 3 plies, from 2. Nf3: type it again\n"))
    answer = call("--back", "1... e5", "--add", "Nc3 Nf6", "--add", "1/2-1/2", live.name)
    same((answer.returncode, answer.stderr), (0, ""))
    text = movetext(live.name)
    same(text, before.split(" 2. Nf3")[0] + " 2. Nc3 Nf6 1/2-1/2")
    same(bytes_of(live.name + ".before-1.dgt"), capture)
    is_whole(live)
    answer = call("--add", "*", live.name)
    same((answer.returncode, movetext(live.name)), (0, text.replace("1/2-1/2", "*")))
    again = go_on(board, live)
    same(stop(again), 0)


def taken_off_behind_hidden_plies(folder: pathlib.Path) -> None:
    """From a position of its own: Black has castled with the rook first, while White was in a hurry; and four plies that a
    pulled cable hid have settled as one wrong move. Each time the wrong ply goes, and what was played is typed."""
    fen = "4k2r/8/8/8/8/8/8/R3K1N1 b k - 0 10"
    board = a_board(folder, list(picture_of_placement(fen)))
    live = Live(board.device, folder / "game", "--fen", fen, typed=True)
    begun(live)
    board.play("h8f8")
    until(lambda: sans(live) == ["Rf8"], "the rook")
    board.play("a1a2")
    until(lambda: sans(live) == ["Rf8", "Ra2"], "the reply")
    board.lift("e8")
    board.put("g8", 11)
    until_dumped(board, live.name)
    answered(live, "back 10... Rf8", "taken off: 11. Ra2")
    answered(live, "back 0", "back to the start; taken off: 10... Rf8")
    answered(live, "O-O Ra2", "added by hand: O-O Ra2")
    until(lambda: sans(live) == ["O-O", "Ra2"], "what was typed")
    until_dumped(board, live.name)
    board.pull()
    until_line(live, words.UNPLUGGED)
    for move in ("g8h8", "g1f3", "h8g8", "f3g1", "g8h8"):
        board.play(move)
    board.plug()
    until(lambda: sans(live) == ["O-O", "Ra2", "Kh8"], "one move for five")
    answered(live, "back", "If another move was played, wait for the next one, and type both with instead")
    board.lift("h8")
    until_dumped(board, live.name)
    answered(live, "back", "back to 11. Ra2; taken off: 11... Kh8")
    answered(live, "Kh8 Nf3 Kg8 Ng1 Kh8", "added by hand: Kh8 Nf3 Kg8 Ng1 Kh8")
    board.put("h8", 11)
    until(lambda: sans(live) == ["O-O", "Ra2", "Kh8", "Nf3", "Kg8", "Ng1", "Kh8"], "all that was played")
    same(stop(live), 0)
    is_whole(live, "--fen", fen)


def disk_is_full(folder: pathlib.Path) -> None:
    """Nothing can be written: it is refused, and the game is as it was; with room again it is done."""
    board = a_board(folder)
    live = Live(board.device, folder / "game", limit=2000, typed=True)
    begun(live)
    for number, move in enumerate(RUY):
        board.play(move)
        until(lambda: len(sans(live)) == number + 1, move)

    def is_full() -> bool:
        board.clock(600, 600)
        return live.says(words.DISK_FULL)

    until(is_full, "that the disk is full")
    game = movetext(live.name)
    board.lift("e1")
    rest(1.5)
    answered(live, "back", "the disk is full, and nothing can be taken off. Make room, and type it again")
    same((movetext(live.name), list(folder.glob("*.before-*"))), (game, []))
    live.make_room()
    until_line(live, "is written")
    until_kept(live.name, board.update(field("e1")))
    answered(live, "back", "back to 2... Nc6; taken off: 3. Bb5")
    until_game(live.name, "1. e4 e5 2. Nf3 Nc6 *")
    same(stop(live), 0)


def in_a_series(folder: pathlib.Path) -> None:
    """Between two games the one that is over is put right and stays over; and the game before, by its name, while the next one
    is played."""
    board = a_board(folder)
    live = Live(board.device, folder / "round", "--series", typed=True)
    begun(live)
    for move in RUY:
        board.play(move)
    until_game(folder / "round-1", RUY_TEXT)
    live.type("1-0")
    until_line(live, f"round-2 {words.BEGINS}")
    answered(live, "back 2... Nc6", "back to 2... Nc6; taken off: 3. Bb5; the result 1-0 is gone")
    until_game(folder / "round-1", "1. e4 e5 2. Nf3 Nc6 *")
    answered(live, "0-1", "added by hand to")
    until_game(folder / "round-1", "1. e4 e5 2. Nf3 Nc6 0-1")
    board.set_up([])
    until(lambda: len(bytes_of(folder / "round-2.dgt")) >= 67, "the second game")
    board.play("d2d4")
    until_game(folder / "round-2", "1. d4 *")
    answered(live, f"back 2. Nf3 {folder}/round-1", "back to 2. Nf3; taken off: 2... Nc6; the result 0-1 is gone")
    answered(live, f"1/2-1/2 {folder}/round-1", "added by hand to")
    until_game(folder / "round-1", "1. e4 e5 2. Nf3 1/2-1/2")
    nobody = f"Nobody records it now: to go on with it, Ctrl-C, and then dgt_live {board.device} {folder}/round-1"
    answered(live, f"* {folder}/round-1", f"{nobody}. If {folder}/round-2 has moves of {folder}/round-1, take them off: dgt_live --back 0 {folder}/round-2")
    until_game(folder / "round-1", "1. e4 e5 2. Nf3 *")
    answered(live, f"1/2-1/2 {folder}/round-1", "added by hand to")
    board.play("d7d5")
    until_game(folder / "round-2", "1. d4 d5 *")
    same(stop(live), 0)


def recovered_stays(folder: pathlib.Path) -> None:
    """What was recovered before stays as plies."""
    board, live = recovered.begin(folder, typed=True)
    recovered.hurried(board)
    rest(1.5)
    board.play("f1b5")
    until_game(live.name, RUY_TEXT)
    board.play("a7a6")
    until_game(live.name, RUY_TEXT.replace("*", "a6 *"))
    board.play("a6a7")
    until_dumped(board, live.name)
    answered(live, "back", "back to 3. Bb5; taken off: 3... a6")
    until_game(live.name, RUY_TEXT)
    board.play("g8f6")
    until_game(live.name, RUY_TEXT.replace("*", "Nf6 *"))
    same(stop(live), 0)
    assert "3... Nf6" in live.lines(), live.lines()


def killed_on_the_way(folder: pathlib.Path) -> None:
    """KILL, at many moments while plies are taken off a game that is over, and that had more bytes behind its end: it is the
    old game or the new one, and the next call makes it the new one."""
    board, live = ruy(folder / "first")
    same(stop(live), 0)
    same(call("--add", "1-0", live.name).returncode, 0)
    with open(live.name + ".dgt", "ab") as file:  # a set-up that was begun behind the end
        file.write(bytes([0x8E, 0, 5, 0, 0]))
    place = folder / "killed"

    def begin() -> str:
        shutil.rmtree(place, ignore_errors=True)
        shutil.copytree(folder / "first", place, ignore=shutil.ignore_patterns("board"))
        return game_of(place)

    old = begin()
    new = old.split(" 3. Bb5")[0] + " *"
    begun_at = time.monotonic()
    same(go_back(place), DONE)
    takes = time.monotonic() - begun_at
    chance, seen = random.Random(1), [0, 0]
    for number in range(KILLS):
        begin()
        child = os.fork()
        if child == 0:
            go_back(place)
            os._exit(0)
        time.sleep(chance.random() * takes)
        os.kill(child, signal.SIGKILL)
        os.waitpid(child, 0)
        game = game_of(place)
        assert game in (old, new), (number, game)
        seen[game == new] += 1
        go_back(place)
        same(game_of(place), new)
        kept = [path for path in sorted(place.glob("game.before-*.dgt")) if path.read_bytes() == bytes_of(live.name + ".dgt")]
        assert kept, f"the old capture isn't kept, {number}"
    print(f"killed while plies are taken off: {seen[0]} times it was the old game, {seen[1]} times the new one")


def go_back(place: pathlib.Path) -> int:
    """Takes the last ply off the game there: the status."""
    return add_by_name(Program(program()), Paths(str(place / "game")), "back 2... Nc6", 5)[0]


def game_of(place: pathlib.Path) -> str:
    """What the capture of a game gives, up to its mark."""
    sent, mark = bytes_of(place / "game.dgt"), bytes_of(place / "game.end")
    text = run("record", given=sent[: int(mark)] if mark else sent).stdout.decode()
    return " ".join(text.split("\n\n")[1].split())


def analysis_taken_off(folder: pathlib.Path) -> None:
    """The players stop the clock and try ten plies: LOOK says so. They go, and the LOOK with them; the board is left as it is, and
    the result is typed."""
    board = a_board(folder)
    live = Live(board.device, folder / "game", typed=True)
    begun(live)
    for number, move in enumerate(RUY):
        board.clock(5400 - 10 * number, 5300 - 10 * number, runs=True)
        board.play(move)
        until(lambda: len(sans(live)) == number + 1, move)
    front = movetext(live.name)[:-1]
    board.clock(5300, 5200, runs=False)
    until_dumped(board, live.name)  # the time from which it has stood is known
    rest(3.5)
    for number, move in enumerate("a7a6 b5c6 d7c6 e1g1 c8g4 h2h3 g4f3 d1f3 d8f6 f3f6".split()):
        board.play(move)
        until(lambda: len(sans(live)) == 6 + number, move)
    until_line(live, "LOOK since 3. Bb5: 10 moves were made while the clock was stopped")
    until_dumped(board, live.name)
    answered(live, "back 3. Bb5", "takes off 10 plies, from 3... a6: type it again")
    gone = "3... a6 4. Bxc6 dxc6 5. O-O Bg4 6. h3 Bxf3 7. Qxf3 Qf6 8. Qxf6"
    answered(live, "back 3. Bb5", f"back to 3. Bb5; taken off: {gone}. Settled: LOOK since 3. Bb5. What the board had sent is kept in")
    until_game(live.name, front + "*")
    same(bytes_of(live.name + ".look"), b"")
    live.type("1/2-1/2")
    same(ended(live), 0)
    same(movetext(live.name), front + "1/2-1/2")
    is_whole(live)


def found_late(folder: pathlib.Path) -> None:
    """From a position of its own, on a board that lies the other way round, with Black's time first: ten plies after an illegal
    one the players bring the pieces back, which is recorded as two more. All go; the game goes on from there with its clocks."""
    fen, options = "4k2r/8/8/8/8/8/8/R3K1N1 b k - 0 10", ["--rotated", "--first", "black"]
    board = a_board(folder, list(picture_of_placement(fen)), rotated=True)
    live = Live(board.device, folder / "game", "--fen", fen, *options, typed=True)
    begun(live)
    played = "h8h7 a1a2 h7h6 a2a3 h6h5 a3a4 h5h4 a4a5 h4h3 a5a6 h3h7 a6a1".split()
    for number, move in enumerate(played):
        board.clock(600 - number, 700 - number)  # Black's, and White's
        board.play(move)
        until(lambda: len(sans(live)) == number + 1, move)
    until_dumped(board, live.name)
    answered(live, "back 10... Rh7", "takes off 11 plies, from 11. Ra2: type it again")
    answered(live, "back 10... Rh7", "back to 10... Rh7; taken off: 11. Ra2 Rh6 12. Ra3 Rh5 13. Ra4 Rh4 14. Ra5 Rh3 15. Ra6 Rh7")
    until_game(live.name, "10... Rh7 {[%clk 0:10:00]} *")
    board.clock(580, 680)
    board.play("a1b1")
    until_game(live.name, "10... Rh7 {[%clk 0:10:00]} 11. Rb1 {[%clk 0:11:20]} *")
    until_line(live, words.AGREES)
    same(stop(live), 0)
    is_whole(live, "--fen", fen, *options)


def four_hidden_plies(folder: pathlib.Path) -> None:
    """Four plies that a pulled cable hid have settled as one wrong move, and the game goes on. It goes, and what was played is
    typed; the plies before it and those after it have the clocks' times."""
    board = a_board(folder)
    live = Live(board.device, folder / "game", typed=True)
    begun(live)
    for number, move in enumerate(RUY[:4]):
        board.clock(5400 - 10 * number, 5300 - 10 * number)
        board.play(move)
        until(lambda: len(sans(live)) == number + 1, move)
    front = movetext(live.name)[:-1]
    board.pull()
    until_line(live, words.UNPLUGGED)
    for move in ("f1e2", "c6b8", "e2b5", "b8c6"):
        board.play(move)
    board.plug()
    until(lambda: sans(live)[4:] == ["Bb5"], "one move for four")
    until_dumped(board, live.name)
    board.play("e1g1")
    until_dumped(board, live.name)
    answered(live, "back 2... Nc6", "back to 2... Nc6; taken off: 3. Bb5. ")
    answered(live, "Be2 Nb8 Bb5 Nc6 O-O", "added by hand: Be2 Nb8 Bb5 Nc6 O-O")
    until_game(live.name, front + "3. Be2 Nb8 4. Bb5 Nc6 5. O-O *")
    board.clock(5000, 4900)
    board.play("a7a6")
    until_game(live.name, front + "3. Be2 Nb8 4. Bb5 Nc6 5. O-O a6 {[%clk 1:21:40]} *")
    same(stop(live), 0)
    is_whole(live)
