"""How a round ends: what `q` asks first, what is said when spectators have seen all, and what answers say of a result."""

import json
import pathlib
import time
from typing import List, Tuple

from played import words
from played.ports import free_port
from played.recorder import Live
from played.stage import bytes_of, ended, refuses, same, stop, until, until_line
from rounds.delayed import hidden_texts
from rounds.going_out import Clock
from rounds.hall import Hall, quits
from rounds.rounds import boards_of
from rounds.witness import served

ASKS = ". To end the round all the same, type q again within a minute"
PLAYING = "1 game is still being played" + ASKS
SEEN = "spectators have seen all moves: type q to end"


def asked_before_the_end(folder: pathlib.Path) -> None:
    """While games are being played `q` is asked about once, and no board is touched; a second one ends the round. A game without a
    move, one with a result and one that isn't played don't count. A signal ends it at once, and so does the end of the input."""
    hall = Hall(folder, 4)
    live = hall.record(typed=True)
    hall.begun(live)
    hall.play(0, 2, [0, 1])
    live.type("q")
    until_line(live, "2 games are still being played" + ASKS)
    live.type("1 1-0")
    hall.until_over(live, 1, "1-0")
    live.type("3 +-")
    until_line(live, "it isn't played")
    hall.play(2, 3, [1])
    live.type("q")
    same(ended(live), 0)
    same((live.says(ASKS, 2), hall.text(1), hall.text(2)), (False, "1. e4 e5 1-0", "1. d4 d5 2. c4 *"))
    live = hall.record(typed=True)
    until_line(live, "  2  agrees")
    live.type("q")
    until_line(live, PLAYING)
    same(stop(live), 0)
    live = hall.record(typed=True)
    until_line(live, "  2  agrees")
    live.type("q")
    live.end_typing()
    same((ended(live), live.says(PLAYING)), (0, True))
    live = hall.record(typed=True)
    until_line(live, "  2  agrees")
    live.end_typing()  # that alone ends nothing
    hall.play(3, 4, [1])
    same((hall.text(2), stop(live)), ("1. d4 d5 2. c4 e6 *", 0))


def unfinished_slide(folder: pathlib.Path) -> None:
    """A pawn is set down on c3 and slides on to c4 a second later: the screen has both, spectators never see c3. With --hold 0 they
    see it. A reply shows the move before it at once."""
    given: List[Tuple[Tuple[str, ...], List[str]]] = [((), []), (("--hold", "0"), ["c3"])]
    for option, seen in given:
        place = folder / ("at_once" if seen else "held")
        place.mkdir()
        hall = Hall(place, 1)
        port = free_port()
        live = hall.record("--page", str(port), *option, typed=True)
        hall.begun(live)
        shown: List[str] = []

        def shows(sans: str) -> bool:
            boards = json.loads(served(port, "/state.json"))["boards"]
            text = " ".join(move["san"] for board in boards for move in board["moves"])
            shown.extend([text] if [text] != shown[-1:] else [])
            return bool(boards) and text == sans

        until(lambda: shows(""), "the board on the page", 0.02)
        hall.boards[0].play("c2c3")
        hall.until_text(1, "1. c3 *")
        began = time.monotonic()
        until(lambda: shows("c3") or time.monotonic() - began > 1.0, "a second", 0.02)
        hall.boards[0].play("c3c4")
        hall.until_text(1, "1. c4 *")
        until(lambda: shows("c4"), "c4 on the page", 0.02)
        hall.boards[0].play("e7e5")
        began = time.monotonic()
        until(lambda: shows("c4 e5"), "e5 on the page", 0.02)
        same((option, time.monotonic() - began > 1.5), (option, not option))
        same([text for text in shown if text not in ("", "c4", "c4 e5")], seen)
        same(stop(live), 0)


def seen_by_spectators(folder: pathlib.Path) -> None:
    """A round that is fifteen minutes late has ended: `q` says until when it goes out. When spectators have all of it, a line says so,
    once, and `q` ends it. While a game is played, one question is about both."""
    hall, clock, port = Hall(folder, 2), Clock(folder), free_port()
    goes_out = hall.games / "broadcast.pgn"
    live = hall.record("--delay", "15", "--page", str(port), typed=True, start=clock.start)
    hall.begun(live)
    hall.play(0, 2)
    live.type("q")
    until_line(live, "2 games are still being played, and spectators see the last moves at ")
    for number in (1, 2):
        live.type(f"{number} 1-0")
        hall.until_over(live, number, "1-0")
    until_line(live, "all games are over: type q to end")
    live.type("2 *")
    until_line(live, "goes on, without the result")
    live.type("2 0-1")
    until_line(live, "all games are over: type q to end", 2)
    ended_so = ["1. e4 e5 1-0", "1. d4 d5 0-1"]
    until(lambda: [hidden_texts(hall, number)[-1:] for number in (1, 2)] == [[text] for text in ended_so], "both results, hidden", 0.02)
    same((live.says(SEEN), [board["result"] for board in boards_of(port)]), (False, ["*", "*"]))
    clock.be(2000)
    until_line(live, SEEN)
    same([board["result"] for board in boards_of(port)], ["1-0", "0-1"])
    same([game in bytes_of(goes_out) for game in (b"e5 1-0", b"d5 0-1")], [True, True])
    live.type("q")
    same((ended(live), live.says(SEEN, 2)), (0, False))


def of_another_board(folder: pathlib.Path) -> None:
    """The answer to a result says how it is taken off if it was meant for another board, and that is right. A result of the table and
    typed moves say nothing of it."""
    hall = Hall(folder, 2)
    hall.extra = {2: ",1/2-1/2"}
    hall.write(header="board,device,white,black,result")
    live = hall.record(typed=True)
    until_line(live, "2: added to ")
    until_line(live, "  1  agrees")
    hall.play(0, 2, [0])
    live.type("1 Nf3 Nc6")
    until_line(live, "1: added to ")
    live.type("1 0-1")
    until_line(live, "the result 0-1 after 2... Nc6, 4 plies. If another board was meant, type 1 *")
    hall.until_text(1, "1. e4 e5 2. Nf3 Nc6 0-1")
    live.type("1 *")
    until_line(live, "the result 0-1 is gone")
    hall.until_text(1, "1. e4 e5 2. Nf3 Nc6 *")
    same((live.says("If another board was meant", 2), live.says("If another board was meant, type 2")), (False, False))
    quits(live)


def way_out_is_kept(folder: pathlib.Path) -> None:
    """How long a last move must stand is kept, and that a command carried the games away: without it a line says that it doesn't."""
    hall = Hall(folder, 1)
    live = hall.record("--hold", "20", "--publish", "true token", typed=True)
    hall.begun(live)
    quits(live)
    same(bytes_of(hall.games / "round.out"), b"--hold 20\n--publish\n")
    live = hall.record(typed=True)
    until_line(live, "a last move goes out once it has stood for 20 seconds, as before; --hold 2 ends that")
    until_line(live, "nothing is published: the command isn't kept, as a password may be in it. To publish, end this, and start again")
    hall.begun(live)
    hall.play(0, 1)
    same(b"1. e4" in bytes_of(hall.games / "broadcast.pgn"), False)
    quits(live)
    live = hall.record("--hold", "0", "--publish", "true token", typed=True)
    hall.begun(live)
    hall.play(1, 2)
    until(lambda: b"1. e4 e5" in bytes_of(hall.games / "broadcast.pgn"), "what goes out at once", 0.02)
    same((live.says("as before"), live.says("nothing is published")), (False, False))
    quits(live)
    board = Live(hall.boards[0].device, hall.games / "01", "--page", str(free_port()), typed=True)
    until_line(board, "each move goes out at once, as before; --hold 2 ends that")
    until_line(board, words.AGREES)
    same(stop(board), 0)
    (hall.games / "round.out").write_text("--hold much\n")
    refuses(hall.record(), 1, "has no number of seconds: remove it, and give --hold and --publish again")


CASES = [way_out_is_kept, asked_before_the_end, seen_by_spectators, unfinished_slide, of_another_board]
