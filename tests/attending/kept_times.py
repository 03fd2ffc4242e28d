"""What a recorder takes of a file of times: the tables `files`, `unreadable` and `newer` of tests/decisions/times.json, played over it.
What stands behind the heading and the events of a file changes nothing. What can't be read, or is of a newer program, is as no file.

How many bytes of the capture a file tells of, digests, what is written, and what is said of a file are for those who write it.
"""

from typing import List, Optional, Sequence

from attending.answers import Answer, Entry, brings
from attending.host import answers
from attending.pictures import INITIAL, dump, picture
from decided.cases import cases
from decided.table import same
from decided.times import whole

CAPTURE = b"a" + dump(picture(INITIAL)) + bytes(40)  # the file in the tables is of a capture that begins so


def begun_with(text: str) -> Sequence[Answer]:
    """What a recorder says in a call that begins with this file."""
    shown = brings(60, "heard", dump(picture(INITIAL)))
    call: List[Entry] = [Entry(0, "begin", len(CAPTURE)), Entry(0, "away", 35000), Entry(10, "opened"), shown, Entry(1010, "wake")]
    return answers([brings(0, "kept", text.encode()), brings(0, "capture", CAPTURE), *call])


def agreed_for(found: Sequence[Answer]) -> List[Optional[int]]:
    """For how long the board is said to agree, each time that it is said."""
    return [answer.state.lasted for answer in found if answer.state and answer.state.kind == "AGREES"]


def files() -> None:
    for name, front, behind, _ in cases("times", "files"):
        same(name, begun_with(whole(front) + behind), begun_with(whole(front)))
    for text in cases("times", "unreadable"):
        same(text, begun_with(text), begun_with(""))
    for text, _ in cases("times", "newer"):
        same(text, begun_with(text), begun_with(""))


def lasted() -> None:
    """For how long the board agrees, 60 ms after the call began, 35 s after the one before. By the file its dump came at 12 ms, and the
    last event at 9 s; without it, when the call before ended."""
    with_times, without = (begun_with(text) for text in (whole(cases("times", "files")[1][1]), ""))
    same("since the dump came", agreed_for(with_times), [35000 + 60 + 9000 - 12])
    same("since the call before ended", agreed_for(without), [35000 + 60])


TABLES = [files, lasted]
