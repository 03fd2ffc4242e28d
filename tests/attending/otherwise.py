"""Where `live` says something else than the rules in Python beside it, which the recorders had before. Each has what `live` says, worked
by hand from the pages of the crates, and what the rules say.

- The first picture after a line was opened is the one before it, and then many squares change in one dump. It is no other board, as in
  the table `hints`. The rules look at pictures that are reported, and one that comes again isn't.
- A serial server is there again, and its board hasn't answered yet. The line is open; the rules, and the recorders, say
  UNPLUGGED until the board has answered, or is silent: live/ shows that itself.
- Other squares are in a hand: that is no news. A host has them from the report's `differs`.
- A piece is off, then another one, and the first is put back. When the board has come no nearer for 15 s, the state is `WRONG` since the
  first was off; but kind and squares are the same, and so that is no news. The rules say since when all the same.
- With the request that asks for the number it is said what is done until then; what comes behind it is held.
- What was held comes to the game when the time for a number is over; the rules wait for the next bytes.
"""

from typing import List, Tuple

from attending.answers import Answer, Entry, State, brings
from attending.beside import Stands
from attending.evenings import number_message, played
from attending.host import answers
from attending.pictures import INITIAL, differing, dump, picture, updates
from attending.reading import Read
from attending.state_rules import BoardState
from decided.table import same

START = picture(INITIAL)
FIVE_OFF = picture("rnbqkbnr/pppppppp/8/8/8/8/PPPPPPPP/5BNR")
KNIGHT = differing(START, ["g1"])
KNIGHT_AND_F3 = differing(START, ["g1", "f3"])
BEGUN = [Entry(0, "begin", 0), Entry(0, "opened")]
SHOWN = [*BEGUN, brings(50, "heard", dump(START))]
NUMBERED = [Entry(0, "begin", 0), brings(0, "number", b"01234"), Entry(0, "opened")]


def last(told: List[Entry]) -> Answer:
    return answers(told)[-1]


def read_there(told: List[Entry]) -> Tuple[str, str]:
    """What is read at the end, and what is read by the decisions in Python."""
    read, stands, there = Read(), Stands(BoardState(tuple(played()[0]))), ""
    for entry, answer in zip(told, answers(told)):
        read = read.after(entry.at, answer)
        there = stands.after(entry.at / 1000, entry, answer)
    return read.text(told[-1].at), there


def same_picture_first() -> None:
    told = [*SHOWN, Entry(300, "gone"), Entry(500, "opened"), brings(560, "heard", dump(START)), brings(1560, "heard", dump(FIVE_OFF))]
    hand = "in hand a1 b1 c1 d1 e1"
    same("five squares in the second picture", read_there(told), (hand, f"{hand}; another board may be on this cable"))


def server_without_board() -> None:
    told = [*SHOWN, Entry(300, "gone"), Entry(2300, "opened")]
    same("the server is there", last(told).state, State("AGREES", 2250))
    silent = [*told, *(Entry(at, "wake") for at in range(3300, 7400, 1000))]
    same("and its board is silent", last(silent).state, State("SILENT", 0))


def other_squares_in_hand() -> None:
    lifted = [*SHOWN, brings(5000, "heard", updates(START, KNIGHT))]
    same("one", last(lifted).state, State("IN-HAND", 0, ("g1",)))
    again = last([*lifted, brings(6000, "heard", updates(KNIGHT, KNIGHT_AND_F3))])
    same("and another one", (again.state, again.report[-1]), (None, "76 differs f3 g1"))


def wrong_for_longer() -> None:
    """f7 is off at 0 s, d2 at 3 s, f7 is back at 14 s, and the time is 15 s."""
    both, one = differing(START, ["f7", "d2"]), differing(START, ["d2"])
    shown = [(0, differing(START, ["f7"])), (3000, both), (14000, one)]
    board = [brings(at, "added", dump(after)) for at, after in shown]
    told = [Entry(0, "begin", 0), brings(0, "added", dump(START)), *board[:2], Entry(10000, "wake"), Entry(13000, "wake"), board[2]]
    same("one is back", last(told).state, State("WRONG", 11000, ("d2",)))
    late = [*told, Entry(15000, "wake")]
    same("15 s after the first was off", last(late).state, None)
    same("and what is read", read_there(late), ("WRONG since 12 s: d2", "WRONG since 15 s: d2"))


def number_asked_for() -> None:
    """The board gives its number and its pieces once, and then nothing: at 2 s updates are asked for again."""
    told = [*NUMBERED, brings(50, "heard", number_message(b"01234") + dump(START)), Entry(1000, "wake"), Entry(2000, "wake")]
    asked = last(told)
    same("with the request", (asked.asked, asked.handling), ("EBK", "keep"))
    same("behind it", last([*told, brings(2050, "heard", dump(START))]).handling, "hold")


def held_until_then() -> None:
    told = [*NUMBERED, brings(50, "heard", dump(START)), Entry(4999, "wake")]
    same("held", (last(told).handling, last(told).kept), ("hold", b""))
    over = last([*told, Entry(5000, "wake")])
    same("5 s after the line was opened", (over.handling, over.kept), ("keep", dump(START)))


TABLES = [same_picture_first, server_without_board, other_squares_in_hand, wrong_for_longer, number_asked_for, held_until_then]
