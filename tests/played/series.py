"""Games in a row on one board: how one ends and the next begins."""

import pathlib
import subprocess
from typing import Sequence, Tuple

from play_board import BLACK, KING, field
from played import times, words
from played.boards import Board
from played.recorder import LIVE, Live
from played.stage import (
    a_board,
    begun,
    bytes_of,
    ended,
    kill,
    movetext,
    recorded,
    rest,
    same,
    stop,
    until,
    until_dumped,
    until_game,
    until_line,
)


def play(board: Board, moves: Sequence[str], pause: float = 0.0) -> None:
    for move in moves:
        board.play(move)
        rest(pause)


def played_on_after_the_sign(folder: pathlib.Path) -> None:
    """The kings are in the centre by mistake, and the players go on: the game is over, and the second move is an alarm. The result is taken
    off, and the game has all moves. It ends by a result that stands, and the next game begins with the start."""
    board = a_board(folder)
    live = Live(board.device, folder / "round", "--series", typed=True)
    begun(live)
    play(board, ["e2e4", "e7e5"])
    until_game(folder / "round-1", "1. e4 e5 *")
    board.kings_in_centre("d4", "d5")
    until_line(live, f"{words.RESULT}1/2-1/2")
    play(board, ["d4e1", "d5e8", "g1f3"])
    until_line(live, "round-1 is over: another move was made after its result")
    board.play("b8c6")
    until_line(live, "LOOK after 1... e5: 2 moves were made, and the game is over: 1/2-1/2. Look at it, and type ok")
    until_game(folder / "round-1", "1. e4 e5 1/2-1/2")
    live.type("*")
    until_game(folder / "round-1", "1. e4 e5 2. Nf3 Nc6 *")
    live.type("ok")
    board.play("f1b5")
    until_game(folder / "round-1", "1. e4 e5 2. Nf3 Nc6 3. Bb5 *")
    live.type("1-0")
    until_line(live, f"round-2 {words.BEGINS}", 2)
    board.set_up([])
    until(lambda: len(bytes_of(folder / "round-2.dgt")) >= 67, "the second game")
    board.play("d2d4")
    until_game(folder / "round-2", "1. d4 *")
    same(stop(live), 0)
    same(movetext(folder / "round-1"), "1. e4 e5 2. Nf3 Nc6 3. Bb5 1-0")


def pieces_home_after_the_result(folder: pathlib.Path) -> None:
    """Two knights go home after the result, and the game goes on with that, as `*` says. So the set-up that follows at once takes these
    plies off no more."""
    board = a_board(folder)
    live = Live(board.device, folder / "round", "--series", typed=True)
    begun(live)
    play(board, ["e2e4", "e7e5", "g1f3", "b8c6"])
    until_game(folder / "round-1", "1. e4 e5 2. Nf3 Nc6 *")
    live.type("1-0")
    until_game(folder / "round-1", "1. e4 e5 2. Nf3 Nc6 1-0")
    rest(1.5)
    board.play("f3g1")
    until_line(live, "round-1 is over: another move was made after its result")
    board.play("c6b8")
    until_dumped(board, folder / "round-1")
    live.type("*")
    until_line(live, "goes on, without the result; played since: 3. Ng1 Nb8")
    board.set_up([])
    until(lambda: len(bytes_of(folder / "round-2.dgt")) >= 67, "the second game")
    same(movetext(folder / "round-1"), "1. e4 e5 2. Nf3 Nc6 3. Ng1 Nb8 *")
    same(stop(live), 0)
    told = times.read(folder / "round-1").words()
    same(told[told.index("reopened") :][:2], ["reopened", "back"])


def start_stands_already(folder: pathlib.Path) -> None:
    """A move is taken back, and a result is typed while the start stands there: the next game begins with the board's next dump. A game
    that was forfeited is over too while the start stands there; that is its own, so it stays. Who comes late plays, and it goes on."""
    board = a_board(folder)
    live = Live(board.device, folder / "round", "--series", typed=True)
    begun(live)
    play(board, ["e2e4"])
    until_game(folder / "round-1", "1. e4 *")
    board.play("e4e2")
    until_dumped(board, folder / "round-1")
    live.type("0-1")
    until_game(folder / "round-1", "1. e4 0-1")
    until(lambda: len(bytes_of(folder / "round-2.dgt")) >= 67, "the second game")
    play(board, ["d2d4", "d7d5"])
    until_game(folder / "round-2", "1. d4 d5 *")
    live.type(f"1-0 {folder}/round-2")
    until_line(live, f"round-3 {words.BEGINS}")
    board.set_up([])
    until(lambda: len(bytes_of(folder / "round-3.dgt")) >= 67, "the third game")
    live.type("+-")
    until_line(live, f"round-4 {words.BEGINS}")
    for _ in range(3):
        until_dumped(board, folder / "round-3")
        rest(1)
    for move in ("e2e4", "e7e5"):
        board.play(move)
        until_dumped(board, folder / "round-3")
    until_line(live, "LOOK after the start: 2 moves were made, and the game is over: 1-0")
    live.type("*")
    until_line(live, "round-3 goes on, without the result; played since: 1. e4 e5")
    until_game(folder / "round-3", "1. e4 e5 *")
    same(stop(live), 0)
    assert not (folder / "round-4.dgt").exists()
    same([movetext(folder / f"round-{number}") for number in (1, 2)], ["1. e4 0-1", "1. d4 d5 1-0"])


def kings_on_a_board_that_is_away(folder: pathlib.Path) -> None:
    """The kings were in the centre when the cable was pulled out: while it is in, no other result is taken, and none is taken off. Once
    it is out nobody can put the kings back: then both can be."""
    board = a_board(folder)
    live = Live(board.device, folder / "round", "--series", typed=True)
    begun(live)
    play(board, ["e2e4", "e7e5"])
    until_game(folder / "round-1", "1. e4 e5 *")
    board.kings_in_centre("d4", "d5")
    until_line(live, f"round-2 {words.BEGINS}")
    until_dumped(board, folder / "round-1")
    for text in ("1-0", "*"):
        live.type(text)
        until_line(live, f"refused: {text}: the board still shows the result 1/2-1/2. Put the kings where they belong")
    board.pull()
    until_line(live, words.UNPLUGGED)
    live.type("1-0")
    until_game(folder / "round-1", "1. e4 e5 1-0")
    live.type("*")
    until_line(live, "round-1 goes on: back to 1... e5; no ply is taken off; the result 1-0 is gone. What the board had sent is kept in")
    until_game(folder / "round-1", "1. e4 e5 *")
    play(board, ["d4e1", "d5e8"])
    board.plug()
    until(lambda: board.asked_for_updates, "a request for updates")
    board.play("g1f3")
    until_game(folder / "round-1", "1. e4 e5 2. Nf3 *")
    same(stop(live), 0)


def opened_after_the_sign(folder: pathlib.Path) -> None:
    """The kings are in the centre by mistake, and the recorder is killed: at once, when the game isn't over yet, and then once it is. Each
    time it is started again, and the players go on: the second move is an alarm, and the game goes on with all moves. What somebody has
    looked at between two games is no alarm again."""
    board = a_board(folder)

    def record() -> Live:
        return Live(board.device, folder / "round", "--series", typed=True)

    def plays_on(live: Live, text: str, *moves: str) -> None:
        """The kings are put back, and two moves are made."""
        play(board, ["d4e1", "d5e8"])
        until_dumped(board, folder / "round-1")
        for move in moves:
            board.play(move)
            until_dumped(board, folder / "round-1")
        until_line(live, "2 moves were made, and the game is over: 1/2-1/2. Look at it, and type ok")
        until_game(folder / "round-1", f"{text} 1/2-1/2")
        live.type("ok")
        until_line(live, "acknowledged: LOOK ")
        live.type("*")
        until_line(live, "goes on, without the result; played since: ")

    live = record()
    begun(live)
    play(board, ["e2e4", "e7e5"])
    until_game(folder / "round-1", "1. e4 e5 *")
    rest(10.5)
    board.play("e5e6")
    until_line(live, "LOOK at 1... e6")
    board.kings_in_centre("d4", "d5")
    until_line(live, f"{words.RESULT}1/2-1/2")
    kill(live)
    same(bytes_of(folder / "round-1.end"), b"")
    live = record()
    until_line(live, f"{words.RESULT}1/2-1/2")
    plays_on(live, "1. e4 e6", "g1f3", "b8c6")
    board.kings_in_centre("d4", "d5")
    until_line(live, f"round-2 {words.BEGINS}", 2)
    kill(live)
    live = record()
    until_line(live, f"round-2 {words.BEGINS}")
    plays_on(live, "1. e4 e6 2. Nf3 Nc6", "f1b5", "a7a6")
    until_game(folder / "round-1", "1. e4 e6 2. Nf3 Nc6 3. Bb5 a6 *")
    same((live.says("LOOK at 1... e6"), bytes_of(folder / "round-1.look")), (False, b""))
    same(stop(live), 0)


def looked_at_by_name(folder: pathlib.Path) -> None:
    """A move of the game before was corrected late, and somebody looks only when the next game has begun: that is kept with the times of
    the game that is meant."""
    board = a_board(folder)
    live = Live(board.device, folder / "round", "--series", typed=True)
    begun(live)
    play(board, ["e2e4", "e7e5"])
    until_game(folder / "round-1", "1. e4 e5 *")
    rest(10.5)
    board.play("e5e6")
    until_line(live, "LOOK at 1... e6")
    board.kings_in_centre("d4", "d5")
    until_line(live, f"round-2 {words.BEGINS}")
    board.set_up([])
    until_line(live, "LOOK at round-1")
    live.type(f"ok {folder / 'round-1'}")
    until_line(live, "acknowledged: LOOK at 1... e6")
    same(bytes_of(folder / "round-1.look"), b"")
    same([bytes_of(folder / f"round-{number}.times").count(b" ok\n") for number in (1, 2)], [1, 0])
    live.type("ok")
    until_line(live, "acknowledged: LOOK at round-1")
    same(stop(live), 0)
    same([bytes_of(folder / f"round-{number}.times").count(b" ok\n") for number in (1, 2)], [1, 1])


def come_home(board: Board, pause: float = 0.02, kings_first: bool = False) -> None:
    """The pieces are set up again in random order."""
    for _ in board.homecoming(kings_first):
        rest(pause)


def series(folder: pathlib.Path) -> None:
    """Three games in a row; the pieces are set up with the kings first, or last; killed between two and within one."""
    board = a_board(folder)
    live = Live(board.device, folder / "round", "--series")
    begun(live)
    board.play("e2e4")
    board.kings_in_centre("e4", "d5")
    until_line(live, f"round-2 {words.BEGINS}")
    until_game(folder / "round-1", "1. e4 1-0")
    board.set_up(last=(KING, BLACK + KING))
    until(lambda: (folder / "round-2.pgn").exists(), "the second game")
    until(lambda: len(bytes_of(folder / "round-2.dgt")) >= 67, "a dump")
    board.play("d2d4")
    until_game(folder / "round-2", "1. d4 *")
    kill(live)
    live = Live(board.device, folder / "round", "--series")
    board.play("d7d5")
    until_game(folder / "round-2", "1. d4 d5 *")
    board.kings_in_centre("d4", "e5")
    until_line(live, f"round-3 {words.BEGINS}")
    kill(live)
    live = Live(board.device, folder / "round", "--series")
    until_line(live, f"round-3 {words.BEGINS}")
    board.set_up(last=[code for code in range(13) if code not in (KING, BLACK + KING)])
    until(lambda: len(bytes_of(folder / "round-3.dgt")) >= 67, "a dump")
    for move in ["f2f3", "e7e5", "g2g4", "d8h4"]:
        board.play(move)
    until_line(live, f"round-4 {words.BEGINS}")
    same(stop(live), 0)
    same(movetext(folder / "round-1"), "1. e4 1-0")
    same(movetext(folder / "round-2"), "1. d4 d5 0-1")
    same(movetext(folder / "round-3"), "1. f3 e5 2. g4 Qh4# 0-1")
    assert not (folder / "round-4.dgt").exists()


def first_move_squares(folder: pathlib.Path) -> None:
    """The last piece that is put home is White's, from a square of a first move: Nf3, e4, a4. The next game is recorded, with
    a first move that is made at once."""
    board = a_board(folder)
    live = Live(board.device, folder / "round", "--series")
    begun(live)
    for number, (move, san) in enumerate([("g1f3", "Nf3"), ("e2e4", "e4"), ("a2a4", "a4")], 1):
        until(lambda: len(bytes_of(folder / f"round-{number}.dgt")) >= 67, f"game {number}")
        play(board, [move, "g8f6"])
        until_game(folder / f"round-{number}", f"1. {san} Nf6 *")
        board.kings_in_centre("d4", "e5")
        until_line(live, f"round-{number + 1} {words.BEGINS}")
        # The kings and the knight of f6 go home, and then the piece of the first move.
        for square in ("d4", "e5", "f6"):
            board.lift(square)
        for square, code in (("e1", KING), ("e8", BLACK + KING), ("g8", BLACK + 3)):
            board.put(square, code)
        rest(1.5)
        code = board.codes[field(move[2:])]
        board.lift(move[2:])
        rest(0.1)
        board.put(move[:2], code)
    board.play("c2c4")
    until_game(folder / "round-4", "1. c4 *")
    same(stop(live), 0)
    for number, san in enumerate(["Nf3", "e4", "a4"], 1):
        same(movetext(folder / f"round-{number}"), f"1. {san} Nf6 0-1")


def random_set_ups(folder: pathlib.Path) -> None:
    """Six games, the pieces set up in random order in between, the kings first or not: each game is recorded."""
    board = a_board(folder, seed=27)
    live = Live(board.device, folder / "round", "--series")
    begun(live)
    openings = [["e2e4", "c7c5"], ["d2d4", "g8f6"], ["g1f3", "d7d5"], ["c2c4", "e7e5"], ["b1c3", "d7d5"], ["e2e4", "e7e6"]]
    texts = ["1. e4 c5", "1. d4 Nf6", "1. Nf3 d5", "1. c4 e5", "1. Nc3 d5", "1. e4 e6"]
    for number, (moves, text) in enumerate(zip(openings, texts), 1):
        until(lambda: (folder / f"round-{number}.pgn").exists(), f"game {number}")
        until(lambda: len(bytes_of(folder / f"round-{number}.dgt")) >= 67, "a dump")
        play(board, moves)
        until_game(folder / f"round-{number}", f"{text} *")
        board.kings_in_centre("e4", "e5")
        until_line(live, f"round-{number + 1} {words.BEGINS}")
        come_home(board, kings_first=number % 2 == 0)
    until(lambda: (folder / "round-7.pgn").exists(), "the game after the last")
    same(stop(live), 0)
    for number, text in enumerate(texts, 1):
        same(movetext(folder / f"round-{number}"), f"{text} 1/2-1/2")


def resigned(folder: pathlib.Path) -> None:
    """A game is resigned without the kings, and the pieces are set up again: it ends where the set-up began, and the next game
    is recorded. A first move that is taken back is no set-up."""
    board = a_board(folder, seed=3)
    live = Live(board.device, folder / "round", "--series", "--white", "Anna")
    begun(live)
    board.play("e2e4")
    rest(1.5)
    play(board, ["e4e2"])
    rest(1.5)
    assert not (folder / "round-2.dgt").exists(), "1. e4 taken back is no set-up"
    moves = ["e2e4", "e7e5", "g1f3", "b8c6", "f1b5", "a7a6", "b5a4", "g8f6"]
    text = "1. e4 e5 2. Nf3 Nc6 3. Bb5 a6 4. Ba4 Nf6 *"
    play(board, moves, 0.1)
    until_game(folder / "round-1", text)
    rest(4)
    come_home(board, 0.1)
    until(lambda: (folder / "round-2.dgt").exists(), "the second game")
    until(lambda: len(bytes_of(folder / "round-2.dgt")) >= 67, "a dump")
    play(board, ["d2d4", "d7d5", "c2c4"])
    until_game(folder / "round-2", "1. d4 d5 2. c4 *")
    same(movetext(folder / "round-1"), text)
    ends = int(bytes_of(folder / "round-1.end").split()[0])
    capture = bytes_of(folder / "round-1.dgt")
    assert 0 < ends <= len(capture), (ends, len(capture))
    game = recorded(capture[:ends], folder / "round-1", "--white", "Anna")
    same(game, bytes_of(folder / "round-1.pgn"))
    same(stop(live), 0)
    same(movetext(folder / "round-1"), text)
    # Started again it goes on with the second game, and the first stays as it is.
    again = Live(board.device, folder / "round", "--series")
    until(lambda: again.says("2. c4"), "the lines of the second game")
    board.play("e7e6")
    until_game(folder / "round-2", "1. d4 d5 2. c4 e6 *")
    same(movetext(folder / "round-1"), text)
    same(stop(again), 0)


def three_games(folder: pathlib.Path) -> None:
    """A series as a club plays it: a game with a cut cable and a typed result; one that is resigned; one by the kings."""
    board = a_board(folder, seed=11)
    live = Live(board.device, folder / "blitz", "--series", typed=True)
    begun(live)
    play(board, ["e2e4", "e7e5"])
    until_game(folder / "blitz-1", "1. e4 e5 *")
    board.pull()
    until_line(live, words.UNPLUGGED)
    board.play("g1f3")
    board.plug()
    until_game(folder / "blitz-1", "1. e4 e5 2. Nf3 *")
    until(lambda: board.asked_for_updates, "a request for updates")
    play(board, ["b8c6"])
    until_game(folder / "blitz-1", "1. e4 e5 2. Nf3 Nc6 *")
    live.type("1-0")
    until_game(folder / "blitz-1", "1. e4 e5 2. Nf3 Nc6 1-0")
    until_line(live, f"blitz-2 {words.BEGINS}")
    come_home(board)
    until(lambda: len(bytes_of(folder / "blitz-2.dgt")) >= 67, "the second game")
    moves = ["d2d4", "d7d5", "c2c4", "e7e6", "b1c3", "g8f6"]
    play(board, moves, 0.05)
    until_game(folder / "blitz-2", "1. d4 d5 2. c4 e6 3. Nc3 Nf6 *")
    rest(4)
    come_home(board, 0.1)
    until(lambda: len(bytes_of(folder / "blitz-3.dgt")) >= 67, "the third game")
    play(board, ["f2f3", "e7e5"])
    until_game(folder / "blitz-3", "1. f3 e5 *")
    board.kings_in_centre("d4", "e5")
    until_line(live, f"blitz-4 {words.BEGINS}")
    same(stop(live), 0)
    texts = ["1. e4 e5 2. Nf3 Nc6 1-0", "1. d4 d5 2. c4 e6 3. Nc3 Nf6 *", "1. f3 e5 0-1"]
    same([movetext(folder / f"blitz-{number}") for number in (1, 2, 3)], texts)


def set_up_by_mistake(folder: pathlib.Path) -> None:
    """The pieces are set up by mistake, and the players make their moves again from the start: the next game has them. The first one is
    opened again, and what to do then is said. It goes on to its end, and the next one begins without a move. Where that has none,
    nothing is said of its moves."""
    board = a_board(folder)
    live = Live(board.device, folder / "blitz", "--series")
    begun(live)
    one, two = f"{folder}/blitz-1", f"{folder}/blitz-2"
    moves, text = ["e2e4", "e7e5", "g1f3", "b8c6"], "1. e4 e5 2. Nf3 Nc6"
    play(board, moves)
    until_game(one, f"{text} *")
    rest(1.5)
    board.set_up([])
    until_line(live, f'if the game goes on, Ctrl-C, and then dgt_live --add "*" {one}')
    until(lambda: len(bytes_of(f"{two}.dgt")) >= 67, "the second game")
    play(board, moves)
    until_game(two, f"{text} *")
    same(stop(live), 0)
    goes_on, then = f"dgt_live: in a series, go on with it by dgt_live DEVICE {one}, until it is over. ", "Then start the series again\n"
    takes_off = f"If {two} has moves of {one}, take them off: dgt_live --back 0 {two}. "
    assert changed("--add", "*", one)[1].endswith(goes_on + takes_off + then), "what to do with both games"
    same(changed("--back", "0", two)[0], 1)
    same((changed("--back", "0", two)[0], movetext(two)), (0, "*"))
    live = Live(board.device, one, typed=True)
    until_line(live, words.AGREES)
    board.play("f1b5")
    until_game(one, f"{text} 3. Bb5 *")
    live.type("1-0")
    same(ended(live), 0)
    live = Live(board.device, folder / "blitz", "--series")
    until_line(live, words.RECORDS)
    board.set_up([])
    until_line(live, words.AGREES)
    board.play("d2d4")
    until_game(two, "1. d4 *")
    same(stop(live), 0)
    same(changed("--add", "0-1", one)[1], f"dgt_live: added to {one}: the result 0-1 after 3. Bb5, 5 plies\n")
    same((changed("--back", "0", two)[0], movetext(one)), (0, f"{text} 3. Bb5 0-1"))
    assert changed("--add", "*", one)[1].endswith(goes_on + then), "nothing of moves"


def changed(*words_typed: str) -> Tuple[int, str]:
    """What a call that changes a game says, and its status."""
    call = subprocess.run([LIVE, *words_typed], stdout=subprocess.PIPE, stderr=subprocess.DEVNULL, text=True)
    return call.returncode, call.stdout


def killed_between_games(folder: pathlib.Path) -> None:
    """KILL of all while the pieces are set up, and just as the first move of the next game is made at once: it is recorded when
    it is started again. The game ended by the kings."""
    between_games(folder, range(0, 8, 2))


def killed_after_resigning(folder: pathlib.Path) -> None:
    """The same where the game was resigned."""
    between_games(folder, range(1, 8, 2))


def between_games(folder: pathlib.Path, numbers: Sequence[int]) -> None:
    """KILL between two games for each of these seeds; those that are even have a result."""
    for number in numbers:
        place = folder / str(number)
        place.mkdir()
        board = a_board(place, seed=number)
        live = Live(board.device, place / "round", "--series")
        begun(live)
        play(board, ["e2e4", "c7c5", "g1f3", "d7d6", "d2d4", "c5d4", "f3d4", "g8f6"])
        text = "1. e4 c5 2. Nf3 d6 3. d4 cxd4 4. Nxd4 Nf6"
        until_game(place / "round-1", f"{text} *")
        if number % 2 == 0:
            board.kings_in_centre("e5", "d5")
            until_line(live, f"round-2 {words.BEGINS}")
            text += " 1/2-1/2"
        else:
            rest(3.5)
            text += " *"
        steps = list(range(100))
        for step, _ in zip(steps, board.homecoming()):
            rest(0.03)
            if number >= 6 and step == 12:
                kill(live)
                live = Live(board.device, place / "round", "--series")
        if number < 6:
            rest(0.4)
            board.play("d2d4")
            rest(0.02 * number)
            kill(live)
            live = Live(board.device, place / "round", "--series")
        else:
            until(lambda: len(bytes_of(place / "round-2.dgt")) >= 67, "the second game")
            board.play("d2d4")
        until_game(place / "round-2", "1. d4 *")
        board.play("d7d5")
        until_game(place / "round-2", "1. d4 d5 *")
        same(stop(live), 0)
        same(movetext(place / "round-1"), text)
