"""The computer sleeps while a round is recorded."""

import pathlib

from played.asleep import SLEPT, THERE_AND_BACK, Clock, unheard
from played.stage import rest, same, stop, until_dumped, until_line
from rounds.hall import Hall


def asleep(folder: pathlib.Path) -> None:
    """The computer is held up for less than five seconds, and then it sleeps: on one board four plies lead back, on the other one
    nothing happens, and somebody must look at both. A third game has no move yet."""
    clock = Clock(folder)
    hall = Hall(folder, 3)
    live = hall.record(start=clock.start)
    hall.begun(live)
    hall.play(0, 2, [0, 1])
    clock.go_on(4.9)
    rest(1.5)  # the loop turns each second
    for number, board in enumerate(hall.boards, 1):
        until_dumped(board, hall.name(number))
    rest(1.2)  # what a dump says is sure a second later
    same("LOOK" in live.lines(), False)
    unheard(hall.boards[0], THERE_AND_BACK)
    clock.go_on(35)
    for number, last in ((1, "1... e5"), (2, "1... d5")):
        until_line(live, f"  {number}  {SLEPT} 35 s")
        until_line(live, f"  {number}  LOOK after {last}")
    until_line(live, f"  3  {SLEPT} 35 s")
    hall.play(2, 3, [0, 1])
    hall.play(0, 1, [2])
    same((stop(live), "  3  LOOK" in live.lines()), (0, False))
