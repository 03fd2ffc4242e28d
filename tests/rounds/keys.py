"""What is typed on the terminal of a round, key by key."""

import pathlib
import re
import termios

from played.stage import ended, same, until, until_line
from rounds.hall import Hall


def last_line(text: str) -> str:
    """What stands behind the prompt, by what was written last at its place."""
    return re.split(r"\x1b\[\d+;1H> ", text)[-1].partition("\x1b[K")[0]


def keys_in_a_round(folder: pathlib.Path) -> None:
    """A half-typed line stays while the table is drawn anew, and Ctrl-C clears it. The moves of a game and the messages are listed, and
    Enter shows the table again; a list says how many alarms there are. On an empty line Ctrl-C asks as q does, and the second one ends the round."""
    hall = Hall(folder, 2)
    live = hall.record(terminal=True, environment={"TERM": "xterm"})
    before = termios.tcgetattr(live.told.end)
    type_keys = live.told.type  # type: ignore[attr-defined]  # it is a terminal
    until_line(live, "2 boards, no alarm")
    type_keys("1 1-")
    until(lambda: last_line(live.told.read()) == "1 1-", "the half-typed line")
    hall.play(0, 3)
    until_line(live, "2. c4")
    same(last_line(live.told.read()), "1 1-")
    type_keys("\x03")
    until(lambda: last_line(live.told.read()) == "", "that it is cleared")
    type_keys("2 moves\r")
    until_line(live, "2: 1. d4 d5 2. c4 *")
    until_line(live, "Enter shows the boards again")
    drawn = live.told.read().count("State and since")
    type_keys("\r")
    until(lambda: live.told.read().count("State and since") > drawn, "the table")
    type_keys("messages\r")
    until_line(live, "Enter shows the boards again", 2)
    hall.boards[1].pull()
    until_line(live, "2 boards, 1 alarm")
    hall.boards[1].plug()
    until(lambda: live.told.read().rpartition("2 boards, ")[2].startswith("no alarm"), "that the alarm is gone")
    type_keys("\x03")
    until_line(live, "2 games are still being played")
    type_keys("\x03")
    same((ended(live), termios.tcgetattr(live.told.end)), (0, before))


CASES = [keys_in_a_round]
