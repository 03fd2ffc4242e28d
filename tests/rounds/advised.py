"""What the arbiter's page and the terminal advise, followed word for word on played boards: afterwards each game has exactly the moves that
were played."""

import pathlib
import re
from typing import List

from play_board import field
from played import words
from played.doubtful import BACK, KNIGHTS, SPANISH, TIME
from played.ports import free_port
from played.stage import rest, same, stop, until, until_dumped, until_line
from rounds.hall import Hall
from rounds.rounds import boards_of

from live.show.view import IN_THE_TERMINAL


class Desk:
    """A hall, and an arbiter who does what he is advised."""

    def __init__(self, folder: pathlib.Path, boards: int) -> None:
        self.hall, self.port = Hall(folder, boards), free_port()

    def begin(self, *numbers: int) -> None:
        self.live = self.hall.record("--arbiter-page", str(self.port), typed=True)
        for number in numbers:
            until(lambda: self.agrees(number), f"that board {number} agrees", 0.05)

    def state(self, number: int) -> str:
        try:
            return str(boards_of(self.port)[number - 1]["state"])
        except OSError:
            return ""

    def agrees(self, number: int) -> bool:
        """Whatever somebody is to look at there, and whether the clock runs."""
        return "agrees" in self.state(number).split("; ")

    def advice(self, number: int, begins: str) -> str:
        """What the page advises about a board whose state begins so; the terminal says the same when the board's number is typed."""
        until(lambda: self.state(number).startswith(begins), f"that board {number} is {begins}, and not {self.state(number)}", 0.05)
        until(lambda: bool(boards_of(self.port)[number - 1]["mend"]), "what to do", 0.05)
        told = str(boards_of(self.port)[number - 1]["mend"]).replace(f". {IN_THE_TERMINAL}", "")
        self.live.type(str(number))
        until(lambda: f"{number}: {told}" in " ".join(self.live.lines().split()), f"'{number}: {told}' in the terminal", 0.05)
        return told

    def types(self, line: str, asks: bool = False) -> None:
        """A line, which is typed again if it is asked about."""
        self.live.type(line)
        if asks:
            until_line(self.live, "type it again")
            self.live.type(line)

    def plays(self, number: int, *moves: str) -> None:
        for move in moves:
            self.hall.boards[number - 1].play(move)
            until_dumped(self.hall.boards[number - 1], self.hall.name(number))

    def has(self, number: int, text: str) -> None:
        """The game has exactly what was played, and the board shows it."""
        self.hall.until_text(number, text)
        until(lambda: self.agrees(number), f"that board {number} agrees, and not {self.state(number)}", 0.05)
        same((number, self.hall.text(number)), (number, text))


def as_typed(advice: str, before: str, example: str) -> str:
    """What comes before an example in the line that is to be typed: the board's number."""
    found = re.search(rf"{re.escape(before)}(\d+ ){re.escape(example)}", advice)
    assert found, f"'{before}N {example}' in\n{advice}"
    return found[1]


def advice_about_states(folder: pathlib.Path) -> None:
    """Missed moves, a piece on a wrong square, moves that weren't played, no start, a silent board, one that is unplugged, and a cable that
    may have another board."""
    desk = Desk(folder, 7)
    boards = desk.hall.boards
    boards[3].play("e2e4", "e7e5")
    desk.begin(1, 2, 3, 5, 6, 7)
    for number in (1, 2, 3, 5, 6, 7):
        desk.plays(number, "e2e4", "e7e5", "g1f3")
    boards[0].pull()
    boards[0].play("b8c6")
    boards[0].play("f1b5")
    boards[0].plug()
    boards[1].lift("a1")
    boards[1].put("a1", 0)
    boards[1].put("h5", boards[1].codes[field("h1")])
    desk.types("3 Nc6 Bb5")
    boards[4].switch_off()
    boards[5].pull()
    boards[6].pull()
    for move in ("b8c6", "f1b5", "a7a6", "b5a4", "g8f6"):
        boards[6].play(move)
    boards[6].plug()
    advice = desk.advice(1, "WRONG")
    desk.types(as_typed(advice, "Did the board miss moves? Then leave the pieces, and type these moves, as ", "Nf3 Nc6") + "Nc6 Bb5")
    desk.has(1, "1. e4 e5 2. Nf3 Nc6 3. Bb5 *")
    advice = desk.advice(2, "WRONG")
    assert "Is a piece on a wrong square? Put it right." in advice, advice
    boards[1].lift("h5")
    boards[1].put("a1", boards[1].codes[field("h1")])
    desk.has(2, "1. e4 e5 2. Nf3 *")
    advice = desk.advice(3, "WRONG")
    front = as_typed(advice, "Then leave the pieces, type ", "back and the last move that is right, as ")
    desk.types(f"{front}back 2. Nf3")
    desk.has(3, "1. e4 e5 2. Nf3 *")
    for move in ("g1f3", "b8c6", "f1b5"):
        boards[3].play(move)
        rest(0.3)
    advice = desk.advice(4, "NO START")
    front = as_typed(advice, "Is a game being played already? Then leave the pieces, and type all its moves so far, as ", "e4 e5 Nf3 Nc6")
    desk.types(f"{front}e4 e5 Nf3 Nc6 Bb5")
    desk.has(4, "1. e4 e5 2. Nf3 Nc6 3. Bb5 *")
    advice = desk.advice(5, "SILENT")
    assert advice.startswith("Look at the cable, the board's power, "), advice
    boards[4].switch_on()
    until(lambda: desk.agrees(5), "that board 5 is heard", 0.05)
    desk.plays(5, "b8c6")
    desk.has(5, "1. e4 e5 2. Nf3 Nc6 *")
    same(desk.advice(6, "UNPLUGGED"), "Plug it in again; the recording then goes on")
    boards[5].plug()
    until(lambda: desk.agrees(6), "that board 6 is there", 0.05)
    desk.plays(6, "b8c6")
    desk.has(6, "1. e4 e5 2. Nf3 Nc6 *")
    until(lambda: "another board may be on this cable" in desk.state(7), f"a hint at board 7, and not {desk.state(7)}", 0.05)
    advice = desk.advice(7, "")
    front = as_typed(advice, "Is it the game's board? Then leave the pieces, and type these moves, as ", "Nf3 Nc6")
    desk.types(f"{front}Nc6 Bb5 a6 Ba4 Nf6")
    desk.has(7, "1. e4 e5 2. Nf3 Nc6 3. Bb5 a6 4. Ba4 Nf6 *")
    same(stop(desk.live), 0)


def advice_about_doubts(folder: pathlib.Path) -> None:
    """Moves that may be missing, before the last one and after it; moves that were taken back or changed, that nobody pressed the clock for, and that
    were tried while it stood. Each is put right as the alarm says, and nobody touches a piece; only one that was pushed before a result is
    put back."""
    desk = Desk(folder, 7)
    boards, lever, left = desk.hall.boards, [False] * 7, [[TIME, TIME] for _ in range(7)]  # while the lever is up, Black's time runs
    desk.begin(1, 2, 3, 4, 5, 6, 7)

    def thinks(number: int, moves: List[str], presses: bool = True, pace: float = 2.0, runs: bool = True) -> None:
        board, at = boards[number - 1], number - 1
        for move in moves:
            rest(pace)
            left[at][lever[at]] -= int(pace) if runs else 0
            board.clock(left[at][0], left[at][1], runs=runs, lever=lever[at])
            board.play(move)
            if presses:
                lever[at] = not lever[at]
                board.clock(left[at][0], left[at][1], runs=runs, lever=lever[at])
        until_dumped(board, desk.hall.name(number))

    def waits(number: int) -> None:
        """A second passes, and the clock says so."""
        rest(1.0)
        boards[number - 1].clock(left[number - 1][0], left[number - 1][1], runs=True, lever=lever[number - 1])

    desk.plays(1, "e2e4", "g8f6")
    desk.plays(2, "e2e4", "e7e5")
    desk.plays(6, "d2d4", "d7d5")
    for number in (1, 2, 6):
        boards[number - 1].pull()
        until_line(desk.live, f"  {number}  {words.UNPLUGGED}")
    for move in ("b1c3", "f6g8", "c3b1", "g8h6"):
        boards[0].play(move)
    for move in ("g1f3", "b8c6", "f3g1", "c6b8"):
        boards[1].play(move)
        boards[5].play(move)
    rest(7)
    for number in (1, 2, 6):
        boards[number - 1].plug()
    advice = desk.advice(1, "LOOK at 1... Nh6")
    front = as_typed(advice, "if moves are missing, type ", "instead 1... and all that was played from there on")
    desk.types(f"{front}instead 1... Nf6 Nc3 Ng8 Nb1 Nh6")
    desk.has(1, "1. e4 Nf6 2. Nc3 Ng8 3. Nb1 Nh6 *")
    advice = desk.advice(2, "LOOK after 1... e5")
    front = as_typed(advice, "if moves are missing, type all of them in one line, as ", "Nf3 Nc6")
    desk.types(f"{front}Nf3 Nc6 Ng1 Nb8")
    desk.hall.until_text(2, "1. e4 e5 2. Nf3 Nc6 3. Ng1 Nb8 *")
    desk.types("2 ok")
    desk.has(2, "1. e4 e5 2. Nf3 Nc6 3. Ng1 Nb8 *")
    desk.advice(6, "LOOK after 1... d5")
    desk.plays(6, "g1f3")
    until(lambda: "instead 2." in desk.advice(6, "LOOK after 1... d5"), "other advice, since a move was made", 0.05)
    advice = desk.advice(6, "LOOK after 1... d5")
    front = as_typed(advice, "if moves are missing, type ", "instead 2. and all that was played from there on")
    desk.types(f"{front}instead 2. Nf3 Nc6 Ng1 Nb8 Nf3")
    desk.hall.until_text(6, "1. d4 d5 2. Nf3 Nc6 3. Ng1 Nb8 4. Nf3 *")
    desk.types("6 ok")
    desk.has(6, "1. d4 d5 2. Nf3 Nc6 3. Ng1 Nb8 4. Nf3 *")
    thinks(3, KNIGHTS)
    rest(2.5)
    thinks(3, BACK, presses=False, pace=0)
    waits(3)
    advice = desk.advice(3, "LOOK at 3... Nb8")
    front = as_typed(advice, "to take them off, type ", "back 1... e5")
    desk.types(f"{front}back 1... e5", asks=True)
    desk.has(3, "1. e4 e5 *")
    thinks(7, [*KNIGHTS, "f1c4", "f8c5"], pace=1.0)
    rest(3.0)
    thinks(7, ["c4b5", "c5b4"], presses=False, pace=0.3)
    waits(7)
    advice = desk.advice(7, "LOOK at 4... Bb4")
    front = as_typed(advice, "to change them, type ", "instead 3. and all that was played from there on")
    desk.types(f"{front}instead 3. Bb5 Bb4")
    desk.has(7, "1. e4 e5 2. Nf3 Nc6 3. Bb5 Bb4 *")
    thinks(4, SPANISH[:2])
    thinks(4, SPANISH[2:], presses=False, pace=1.5)
    advice = desk.advice(4, "LOOK at 4... Nf6")
    front = as_typed(advice, "to take them off, type ", "back 2. Nf3")
    desk.types(f"{front}back 2. Nf3")
    desk.types(f"{front}back 2. Nf3")
    desk.hall.until_text(4, "1. e4 e5 2. Nf3 *")
    thinks(5, KNIGHTS)
    thinks(5, ["f1b5", "a7a6"], presses=False, pace=4.0, runs=False)
    until(lambda: "LOOK since " in desk.state(5), f"LOOK since, and not {desk.state(5)}", 0.05)
    since = desk.state(5).partition("LOOK since ")[2].partition(";")[0]
    advice = desk.advice(5, "LOOK since")
    desk.types(as_typed(advice, "to take them off, type ", f"back {since}") + f"back {since}")
    desk.hall.until_text(5, "1. e4 e5 2. Nf3 Nc6 *" if since == "2... Nc6" else "1. e4 e5 2. Nf3 Nc6 3. Bb5 *")
    thinks(3, KNIGHTS[2:4])
    thinks(3, ["f1b5"], presses=False, pace=4.0, runs=False)
    desk.types("3 1-0")
    desk.hall.until_over(desk.live, 3, "1-0")
    advice = desk.advice(3, "LOOK since 2... Nc6; over 1-0")
    front = as_typed(advice, "to take it off, put its piece back, and type ", "back 2... Nc6; then the result again")
    desk.types(f"{front}back 2... Nc6")
    until_line(desk.live, "3 refused: back 2... Nc6: the board still shows 3. Bb5: it would come back at once")
    boards[2].play("b5f1")
    until_dumped(boards[2], desk.hall.name(3))
    desk.types(f"{front}back 2... Nc6")
    desk.has(3, "1. e4 e5 2. Nf3 Nc6 *")
    desk.types("3 1-0")
    desk.hall.until_text(3, "1. e4 e5 2. Nf3 Nc6 1-0")
    stop(desk.live)


def advice_about_ends(folder: pathlib.Path) -> None:
    """Moves after a result, a corrected last move after it, and a game that was set up again without a result."""
    desk = Desk(folder, 3)
    desk.begin(1, 2, 3)
    for number in (1, 2, 3):
        desk.plays(number, "e2e4", "e7e5")
    for number in (1, 2):
        desk.types(f"{number} 1-0")
        desk.hall.until_text(number, "1. e4 e5 1-0")
    desk.plays(1, "g1f3", "b8c6")
    advice = desk.advice(1, "LOOK after 1... e5")
    desk.types(as_typed(advice, "if the game isn't over, type ", "*") + "*")
    desk.hall.until_text(1, "1. e4 e5 2. Nf3 Nc6 *")
    desk.types("1 ok")
    desk.has(1, "1. e4 e5 2. Nf3 Nc6 *")
    desk.plays(2, "e5e6")
    advice = desk.advice(2, "LOOK at 1... e6")
    number_ = as_typed(advice, "if this one is right, type ", "*, and then the result")
    desk.types(f"{number_}*")
    desk.hall.until_text(2, "1. e4 e6 *")
    desk.types(f"{number_}1-0")
    desk.hall.until_text(2, "1. e4 e6 1-0")
    desk.hall.boards[2].set_up([])
    advice = desk.advice(3, "over, no result")
    desk.types(as_typed(advice, "Type its result, as ", "1-0") + "0-1")
    desk.hall.until_text(3, "1. e4 e5 0-1")
    same(stop(desk.live), 0)


def advice_about_cables(folder: pathlib.Path) -> None:
    """Before the first move two boards with numbers change cables, and so do two without; another board comes to a cable. The cables are put
    right first, and then ok is typed, as the alarms say: each move stands in the game of its board."""
    desk = Desk(folder, 5)
    boards = desk.hall.boards
    for number in (1, 2, 5):
        boards[number - 1].serial_number = b"%05d" % number
    desk.begin(1, 2, 3, 4, 5)

    def exchange(one: int, other: int) -> None:
        first, second = boards[one - 1], boards[other - 1]
        for board in (first, second):
            board.pull()
        until_line(desk.live, f"  {one}  {words.UNPLUGGED}")
        until_line(desk.live, f"  {other}  {words.UNPLUGGED}")
        first.device, second.device = second.device, first.device
        for board in (first, second):
            board.plug()

    for one, other in ((1, 2), (3, 4)):
        exchange(one, other)
        for number in (one, other):
            advice = desk.advice(number, "LOOK at the cable")
            assert f"Once the cables are right, type {number} ok" in advice, advice
        said = desk.live.lines().count(words.UNPLUGGED)
        exchange(one, other)
        until(lambda: desk.live.lines().count(words.UNPLUGGED) >= said + 2, "that both were unplugged", 0.05)
        for number in (one, other):
            until(lambda: desk.state(number).startswith("LOOK at the cable; agrees"), f"that board {number} is back", 0.05)
    boards[4].pull()
    until_line(desk.live, f"  5  {words.UNPLUGGED}")
    boards[4].serial_number = b"00099"
    boards[4].plug()
    until(lambda: "00099" in desk.advice(5, "LOOK at the cable"), "the stray board", 0.05)
    boards[4].play("d2d4")
    boards[4].play("d4d2")
    boards[4].pull()
    until_line(desk.live, f"  5  {words.UNPLUGGED}", 2)
    boards[4].serial_number = b"00005"
    boards[4].plug()
    until(lambda: "its own, 00005, is back" in desk.advice(5, "LOOK at the cable"), "its own board", 0.05)
    for number in range(1, 6):
        desk.types(f"{number} ok")
        until(lambda: desk.state(number) == "agrees", f"that board {number} agrees", 0.05)
    texts = ["1. e4 *", "1. d4 *", "1. c4 *", "1. Nf3 *", "1. g3 *"]
    for number, move in enumerate(("e2e4", "d2d4", "c2c4", "g1f3", "g2g3"), 1):
        desk.plays(number, move)
    for number, text in enumerate(texts, 1):
        desk.has(number, text)
    same(stop(desk.live), 0)


CASES = [advice_about_states, advice_about_doubts, advice_about_ends, advice_about_cables]
