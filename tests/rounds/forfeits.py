"""Games that aren't played, because a player doesn't come."""

import csv
import json
import pathlib
import re
import signal
import subprocess
from typing import Dict, List

import outside
from played import words
from played.ports import free_port
from played.recorder import Live
from played.stage import Skipped, bytes_of, check, movetext, same, stop, until, until_dumped, until_line
from played.hidden import QUEUED, hidden_shots
from rounds.alarms import says
from rounds.delayed import DELAY, Delayed
from rounds.hall import ROUND, Hall, agrees
from rounds.hall import told as told_of
from rounds.witness import served, texts_of

from live.out.publish import Result, results_text
from live.table.pairings import read_pairings

KNIGHT = 3  # White's, as the board tells it
WHITE, BLACK, BOTH = "1-0 forfeit", "0-1 forfeit", "* forfeit"


def shown(port: int) -> Dict[int, str]:
    """What spectators see of each board: the score of a forfeit, or the result."""
    boards = json.loads(served(port, "/state.json"))["boards"]
    return {board["number"]: board["forfeit"] and f"{board['forfeit']} forfeit" or board["result"] for board in boards}


def not_played(folder: pathlib.Path) -> None:
    """A table says that one game isn't played, and somebody types it of two more. It is on the page, in the published text with a
    tag and in the games' own texts, and no move is misread; all of it is there again after a restart. A forfeit that is taken off
    is a game as any other, and so is one with a move on the board. What has moves isn't forfeited."""
    hall, port = Hall(folder, 5), free_port()
    hall.extra = {2: ",+:-"}
    hall.write(header="board,device,white,black,result")
    live = hall.record("--page", str(port), typed=True)
    for number in (1, 3, 4, 5):
        until(lambda: agrees(live, number), f"that board {number} agrees")
    goes_out = hall.games / "broadcast.pgn"
    until_line(live, f"2: {hall.games}/02: forfeit 1-0: it isn't played")
    live.type("3 - +")
    until_line(live, f"3: {hall.games}/03: forfeit 0-1: it isn't played")
    live.type("4 --")
    until_line(live, f"4: {hall.games}/04: forfeit 0-0: it isn't played")
    for text, answer in (
        ("4 *", f"4: {hall.games}/04: the game isn't forfeited any more"),
        ("4 *", "4 refused: *: the game has no result"),
        ("4 --", f"4: {hall.games}/04: forfeit 0-0: it isn't played"),
        ("4 0-0", "4 refused: 0-0: do both lose? PGN has no such result: leave the game without one, and note it. Castling is O-O"),
        ("4 0-0", "If neither player has come, type --"),
        ("4 help", "* (no result), name White=Anna, ok, or +- (Black has not come; -+ White, -- both)"),
    ):
        live.type(text)
        until_line(live, answer)
    wanted = ["*", WHITE, BLACK, BOTH, "*"]
    until(lambda: texts_of(bytes_of(goes_out)) == wanted, f"{wanted} in what is published", 0.05)
    until(lambda: shown(port) == {1: "*", 2: WHITE, 3: BLACK, 4: "0-0 forfeit", 5: "*"}, "the same on the page", 0.05)
    same([movetext(hall.name(number)) for number in (2, 3, 4)], ["1-0", "0-1", "*"])
    same([check(bytes_of(f"{hall.name(number)}.pgn")) for number in (2, 3)], ["moves 0, result 1-0", "moves 0, result 0-1"])
    same(bytes_of(goes_out).count(b'[Termination "rules infraction"]'), 3)

    hall.play(0, 2, [0, 4])
    for text, why in (("1 +-", "the game has moves, so it isn't a forfeit: type 1-0"), ("5 0-0 FF", "PGN has no result for two players who lose"),
                      ("1 +", "neither a move nor a result"), ("2 --", "the game has the result 1-0: take that off first, with *")):  # fmt: skip
        live.type(text)
        until_line(live, why)
    live.type("+-")
    until_line(live, "refused: +-: of which board? Type its number first, as 3 +-")
    hall.play(0, 2, [3])  # both have come
    until(lambda: shown(port)[4] == "*", "that board 4 is played", 0.05)
    live.type("4")
    until_line(live, " 4: agrees")
    live.type("2")
    until_line(live, " 2: forfeit 1-0;")

    same(stop(live), 0)
    live = hall.record("--page", str(port), typed=True)
    live.type("3")
    until_line(live, " 3: forfeit 0-1;")
    until(lambda: shown(port) == {1: "*", 2: WHITE, 3: BLACK, 4: "*", 5: "*"}, "the same after a restart", 0.05)
    hall.extra = {}
    hall.write(header="board,device,white,black,result")
    live.type("r")
    until_line(live, "2: its line has no forfeit any more: if it is played, type 2 *")
    live.type("2 *")
    until(lambda: shown(port)[2] == "*", "that board 2 is played after all", 0.05)
    hall.play(0, 2, [1])
    live.type("2 1-0")
    hall.until_over(live, 2, "1-0")
    until(lambda: shown(port)[2] == "1-0", "its result", 0.05)
    same(stop(live), 0)
    same(texts_of(bytes_of(goes_out))[1:3], ["1. d4 d5 1-0", BLACK])
    if missing := outside.lacks("pgn-extract"):
        raise Skipped(missing)
    read = subprocess.run([str(outside.path_of("pgn-extract")), "-s", str(goes_out)], stdout=subprocess.PIPE, check=True).stdout.decode()
    same(re.findall(r'(?m)^\[(?:Result|Termination) "(.*)"\]$', read), ["*", "1-0", "0-1", "rules infraction", "*", "*"])


def late_forfeits(folder: pathlib.Path) -> None:
    """With a delay nobody outside hears of a forfeit before its time: neither of its result, nor of its tag, nor that both players
    are absent; nor after a kill."""
    round_ = Delayed(folder)
    hall, witness, port = round_.hall, round_.witness, free_port()
    live = round_.record("--delay", "15", "--page", str(port), typed=True)
    hall.begun(live)
    witness.begin()
    for number, typed, text, words_told in ((1, "+-", WHITE, "1-0"), (2, "--", BOTH, "0-0")):
        witness.plays(text)
        live.type(f"{number} {typed}")
        until_line(live, f"{hall.name(number)}: forfeit {words_told}: it isn't played")
    until(lambda: [shot.forfeit for number in (1, 2) for shot in hidden_shots(hall.name(number))[-1:]] == ["+-", "--"], "both, hidden", 0.02)
    witness.look_at(port)
    live.was_killed = True
    live.send_all(signal.SIGKILL)
    until(lambda: not live.runs, "its end")
    for noted in (folder / QUEUED).iterdir():
        noted.unlink()
    live = round_.record("--page", str(port))
    until_line(live, "spectators see the round 15 minutes late as before")
    witness.look_at(port)
    until(lambda: texts_of(served(port, "/round.pgn")) == ["*", "*"], "both games, unplayed", 0.05)
    until(lambda: [shot.forfeit for number in (1, 2) for shot in hidden_shots(hall.name(number))[-1:]] == ["+-", "--"], "both, hidden again", 0.02)
    round_.clock.be(DELAY - 60)
    witness.look_at(port)
    round_.clock.be(DELAY + 60)
    until(lambda: texts_of(bytes_of(hall.games / "broadcast.pgn")) == [WHITE, BOTH], "both, after their time", 0.05)
    until(lambda: shown(port) == {1: WHITE, 2: "0-0 forfeit"}, "the same on the page", 0.05)
    witness.look_at(port)
    same(stop(live), 0)
    live = round_.record("--page", str(port))
    until_line(live, "the round is shown at")
    until(lambda: shown(port) == {1: WHITE, 2: "0-0 forfeit"}, "the same after another start", 0.05)
    same(stop(live), 0)
    witness.end()


def by_command(folder: pathlib.Path) -> None:
    """A game that nobody records is forfeited by a command, that is taken off by another, and its published text follows."""
    hall = Hall(folder, 1)
    live = hall.record()
    hall.begun(live)
    same(stop(live), 0)
    name = hall.name(1)
    for words_typed, expected, told in ((["--add", "-:+"], "0-1", "forfeit 0-1: it isn't played"), (["--add", "1-0 FF"], "1-0", "forfeit 1-0: it isn't played"),
                                        (["--add", "*"], "*", "goes on, without the result"), (["--add", "0-0 FF"], "*", "forfeit 0-0: it isn't played"),
                                        (["--add", "e4"], "1. e4 *", "added to")):  # fmt: skip
        status, said = add(name, *words_typed)
        same((status, movetext(name)), (0, expected))
        assert told in said, said
        forfeited = "forfeit" in told
        same(pathlib.Path(f"{name}.forfeit").exists() and "e4" not in words_typed, forfeited)
    status, said = add(name, "--add", "+-")
    same(status, 1)
    assert "the game has moves, so it isn't a forfeit: type 1-0" in said, said


def add(name: str, *arguments: str) -> "tuple[int, str]":
    live = Live("", name, *arguments)
    until(lambda: not live.runs, "its end")
    return live.process.returncode, live.lines() + live.complaint()


def results_in_a_table(_: pathlib.Path) -> None:
    """The table of results: a forfeit has the points as any result, and a note."""
    text = results_text([Result(1, "A", "B", "1-0"), Result(2, "C", "D", "0-1", "forfeit"), Result(3, "E", "F", "0-0", "forfeit"), Result(4, "G", "H", "")])
    rows: List[List[str]] = list(csv.reader(text.decode("utf-8-sig").splitlines(), delimiter=";"))
    same(rows, [["Board", "White", "Black", "Result", "Note"], ["1", "A", "B", "1-0", ""], ["2", "C", "D", "0-1", "forfeit"],
                ["3", "E", "F", "0-0", "forfeit"], ["4", "G", "H", "", ""]])  # fmt: skip


def results_of(cup: pathlib.Path) -> List[List[str]]:
    """The results that round 1 has in its file, as another program reads them."""
    text = bytes_of(cup / "round1" / "results.csv").decode("utf-8-sig")
    return [row[:1] + row[3:] for row in csv.reader(text.splitlines(), delimiter=";")][1:]


def without_a_board(folder: pathlib.Path) -> None:
    """A table has forfeits of a pair whose board has a number that no board has, and of one without a device; somebody types those
    of two more such pairs, and of one whose board is there. All are in the file of results, on the page and in the published text,
    also after a restart. One that is taken off is a game without a result."""
    hall, port, cup = Hall(folder, 2), free_port(), folder / "cup"
    cup.mkdir()
    (cup / "boards.csv").write_text(f"board;device;serial\n1;{folder}/board1;\n2;;54321\n4;;54322\n6;{folder}/board2;\n")
    (cup / "round1.csv").write_text("board;white;black;result\n1;A;B;\n2;C;D;+:-\n3;E;F;0-0 FF\n4;G;H;\n5;I;J;\n6;K;L;\n")

    def begin() -> Live:
        return Live(cup, "1", "--page", str(port), program=ROUND, typed=True, environment=hall.cables.environment())

    def are(live: Live, **forfeits: str) -> None:
        """Each board's forfeit is in all three places; the others have no result. A board that isn't named isn't there."""
        wanted = {int(board[1:]): forfeit for board, forfeit in forfeits.items()}
        rows = [[str(board), "0-0" if kind == BOTH else kind.split()[0].strip("*"), "forfeit" if " " in kind else ""] for board, kind in wanted.items()]
        until(lambda: results_of(cup) == rows, f"{rows} in the file of results", 0.05)
        until(lambda: texts_of(bytes_of(cup / "round1" / "broadcast.pgn")) == list(wanted.values()), "the same in what is published", 0.05)
        page = {board: "0-0 forfeit" if kind == BOTH else kind for board, kind in wanted.items()}
        until(lambda: shown(port) == page, "the same on the page", 0.05)

    live = begin()
    until_line(live, "02: forfeit 1-0: it isn't played")
    until_line(live, "board 5 has no device in boards.csv, and isn't recorded")
    until_line(live, "the board with the number 54322 isn't plugged in, or is switched off: put that right, and type r")
    are(live, b1="*", b2=WHITE, b3=BOTH, b6="*")
    for board, other in ((4, "e4"), (5, "1-0"), (7, "+-")):
        live.type(f"{board} {other}")
        until_line(live, f"refused: there is no board {board}")
    for number, typed, told in ((4, "-+", "0-1"), (5, "--", "0-0"), (6, "--", "0-0")):
        live.type(f"{number} {typed}")
        until_line(live, f"{number:02}: forfeit {told}: it isn't played")
    for _ in range(2):
        are(live, b1="*", b2=WHITE, b3=BOTH, b4=BLACK, b5=BOTH, b6=BOTH)
        live.type("r")
        until_line(live, "round1.csv is read again: 6 boards")
        same(stop(live), 0)
        live = begin()
        live.type("4")
        until_line(live, " 4: forfeit 0-1;")
    are(live, b1="*", b2=WHITE, b3=BOTH, b4=BLACK, b5=BOTH, b6=BOTH)
    for number in (4, 5):
        live.type(f"{number} *")
    are(live, b1="*", b2=WHITE, b3=BOTH, b4="*", b5="*", b6=BOTH)
    same((live.says("plug it in"), live.says("typed by mistake")), (False, False))
    same(stop(live), 0)


def boards_put_away(folder: pathlib.Path) -> None:
    """Nobody is told to plug in the board of a pair that isn't played, or to switch it on: neither if the table says so, nor if that was
    typed and the board is put away. Of a pair that plays it is said, also if its line has a forfeit that doesn't count."""
    hall = Hall(folder, 6)
    for number in (1, 2, 4):
        hall.boards[number - 1].pull()
    hall.boards[2].switch_off()
    hall.extra = {1: ",+-", 2: ",--", 3: ",0-0 FF"}
    hall.write(header="board,device,white,black,result")
    live = hall.record(typed=True)

    def says(number: int, part: str) -> bool:
        """Whether it was said of this board."""
        return any(line[10:].startswith(f"{number:>3}  ") and part in line for line in live.lines().splitlines())

    for number, told in ((1, "1-0"), (2, "0-0"), (3, "0-0")):
        until_line(live, f"{number}: {hall.name(number)}: forfeit {told}: it isn't played")
    until(lambda: says(4, "isn't there: plug it in"), "that board 4 isn't there")
    until(lambda: agrees(live, 5), "that board 5 agrees")
    live.type("5 --")
    until_line(live, f"5: {hall.name(5)}: forfeit 0-0: it isn't played")
    hall.play(0, 2, [5])
    until(lambda: says(6, told_of(5, 1)), "what is played on board 6")
    hall.extra = {1: ",+-", 2: ",--", 3: ",0-0 FF", 6: ",--"}
    hall.write(header="board,device,white,black,result")
    live.type("r")
    until_line(live, "6: refused: --: the game has moves, so it isn't a forfeit")
    for number in (5, 6):
        hall.boards[number - 1].pull()
        until(lambda: says(number, words.UNPLUGGED), f"that board {number} is gone")
    until(lambda: says(6, "isn't there: plug it in again"), "that board 6 isn't there")
    until(lambda: says(3, words.SILENT), "that board 3 is silent")
    same([number for number in range(1, 7) if says(number, "plug it in")], [4, 6])
    same([number for number in range(1, 7) if says(number, "no board answers")], [])
    assert b"plug it in" in bytes_of(f"{hall.name(2)}.log"), "the log has it"
    live.type("2 *")
    until_line(live, f"2: {hall.name(2)}: the game isn't forfeited any more")
    live.type("2")
    until_line(live, " 2: UNPLUGGED")
    hall.boards[1].plug()
    until(lambda: agrees(live, 2), "that board 2 agrees")
    hall.boards[1].pull()
    until(lambda: says(2, "isn't there: plug it in again"), "that board 2 isn't there, and is played")
    same(stop(live), 0)


def lines_without_a_device(_: pathlib.Path) -> None:
    """In a table that names devices, a forfeited pair needs none; a pair that has another result, or none yet, does."""
    read = read_pairings(b"board,device,white,black,result\n1,,A,B,+-\n2,,C,D,- +\n3,,E,F,0-0 FF\n4,,G,H,1-0\n5,,I,J,--\n6,,K,L,\n")
    same([(pairing.board, pairing.result) for pairing in read.boards], [(1, "+-"), (2, "-+"), (3, "--"), (5, "--")])
    same([wrong.board for wrong in read.wrong], [4, 6])


def comes_late(folder: pathlib.Path) -> None:
    """A player has not come, and a result was typed for the wrong board: both games are over without a move. Then a piece is set straight
    on each board, which stands at the start as before. It is heard on, also after a restart: after two moves somebody must look, and `*`
    gives them to the game. So it is where a first move was made before the result had ended the game, and is taken back."""
    hall = Hall(folder, 3)
    live = hall.record(typed=True)
    hall.begun(live)
    for number, typed, answer in ((1, "+-", f"{hall.name(1)}: forfeit 1-0: it isn't played"), (2, "0-1", "added to"), (3, "1-0", "added to")):
        live.type(f"{number} {typed}")
        if answer == "added to":  # before a move it is asked about
            until_line(live, f"{number}: no move was made yet")
            live.type(f"{number} {typed}")
        until_line(live, f"{number}: {answer}")
    hall.boards[2].play("e2e4")
    until_line(live, f"  3  {hall.name(3)} is over: another move was made after its result")
    for number in (1, 2):
        until_line(live, f"  {number}  {hall.name(number)} is over: its result was given")
    for board in hall.boards[:2]:
        board.lift("g1")
    hall.boards[2].play("e4e2")
    for number, board in enumerate(hall.boards, 1):
        until_dumped(board, hall.name(number))
    for board in hall.boards[:2]:
        board.put("g1", KNIGHT)
    for _ in range(2):
        for number, board in enumerate(hall.boards, 1):
            until_dumped(board, hall.name(number))

    def plays(number: int, result: str, row: str) -> None:
        """Two moves, which the game gets, and a third one."""
        board, name = hall.boards[number - 1], hall.name(number)
        for move in ("d2d4", "d7d5"):
            board.play(move)
            until_dumped(board, name)
        until_line(live, f"  {number}  LOOK after the start: 2 moves were made from the start, and the game is over: {result}. Look at it, and type {number} ok;")
        until_line(live, f"if the game isn't over, type {number} *: it goes on with these moves")
        says(live, number, f"LOOK after the start; {row}; ")
        live.type(f"{number} *")
        until_line(live, f"{name} goes on, without the result; played since: 1. d4 d5")
        hall.until_text(number, "1. d4 d5 *")
        board.play("c2c4")
        hall.until_text(number, "1. d4 d5 2. c4 *")

    plays(2, "0-1", "over 0-1")
    plays(3, "1-0", "over 1-0")
    same(stop(live), 0)
    live = hall.record(typed=True)
    until_dumped(hall.boards[0], hall.name(1))
    says(live, 1, "forfeit 1-0; ")
    same(live.says("  1  LOOK"), False)
    plays(1, "1-0", "forfeit 1-0")
    same(stop(live), 0)


CASES = [not_played, late_forfeits, by_command, results_in_a_table, without_a_board, boards_put_away, lines_without_a_device, comes_late]
