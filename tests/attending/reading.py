"""What a host reads of a board at a time, by what its recorder has said: since when, by the host's own clock; and of a board in a hand the
squares that the last `differs` has, since other squares in a hand are no news.
"""

import dataclasses
import re
from typing import Optional, Tuple

from attending.answers import Answer, State
from attending.host import Call
from attending.pictures import field
from live.board.state import OTHER_BOARD, TURNED_ROUND, Kind, State as HostState

KINDS = {kind.name.replace("_", "-"): kind for kind in Kind}
HINTS = {"": "", "TURNED-ROUND": TURNED_ROUND, "OTHER-BOARD": OTHER_BOARD}


@dataclasses.dataclass(frozen=True)
class Read:
    """What a host knows of a board: the state that was said last, and when; the squares that differed last, and the result."""

    state: State = State("WAITS")
    at: int = 0
    differs: Tuple[str, ...] = ()
    result: str = ""

    def after(self, at: int, answer: Answer) -> "Read":
        """With one more answer."""
        differs, result = self.differs, self.result
        for line in answer.report:
            _, word, *rest = line.split(" ")
            differs = tuple(rest) if word == "differs" else differs
            result = rest[0] if word == "result" else result
        state, since = (answer.state, at) if answer.state else (self.state, self.at)
        return Read(state, since, differs, result)

    @property
    def since(self) -> Optional[int]:
        return None if self.state.lasted is None else self.at - self.state.lasted

    def text(self, now: float) -> str:
        """What an arbiter reads at this time, in milliseconds."""
        squares = self.differs if self.state.kind == "IN-HAND" else self.state.squares
        since = self.at if self.since is None else self.since
        return HostState(KINDS[self.state.kind], since / 1000, squares, self.result, HINTS[self.state.hint]).text(now / 1000)


def read_of(call: Call) -> Read:
    """What a host knows after a call so far."""
    read = Read()
    for entry, answer in call.told:
        read = read.after(entry.at, answer)
    return read


def in_order(text: str) -> str:
    """The text with its squares from a8 to h1."""
    return re.sub(r"[a-h][1-8](?: [a-h][1-8])+", lambda found: " ".join(sorted(found[0].split(), key=field)), text)
