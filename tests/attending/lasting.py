"""Until when a state stays, over the recorder itself: the table `times` of tests/decisions/state.json, and `agreements` of
tests/decisions/alarms.json.

No line is open here: pictures are added by hand. So what `done` names is when the state may change, and nothing else. That a full disk
is an alarm is the hosts' to say. The other tables of alarms are about clocks and about what comes after the end, which `live` doesn't
decide yet.
"""

import dataclasses
from typing import Any, Dict, List, Optional, Sequence, Tuple

from attending.answers import brings
from attending.asked import begun, milliseconds
from attending.host import Host
from attending.pictures import Game, Picture, dump, fewer
from attending.pictures import begun as game_of
from attending.reading import Read
from attending.stood import OTHERS
from decided.cases import cases
from decided.table import same

PATIENCE = 15000  # milliseconds that a board may come no nearer to its game
OVERDUE = ("WRONG", "NO-START")
Coming = Tuple[int, Picture]


@dataclasses.dataclass(frozen=True)
class Seen:
    """What is known at a time: what is read then, when the recorder wants to be woken, and each time at which it wanted to be."""

    now: int
    read: Read
    due: Optional[int]
    wakes: Tuple[int, ...]
    states: int  # so many were said


def seen_at(now: int, comings: Sequence[Coming]) -> Seen:
    """If the board shows these pictures up to then, and the recorder is woken when it has asked for it."""
    with Host() as host:
        call = begun(host)
        wakes: List[int] = []
        for at, shown in [*(coming for coming in comings if coming[0] <= now), (now, None)]:
            while call.due is not None and call.due <= at:
                wakes.append(call.due)
                call.wake(call.due)
            if shown is not None:
                call.tell(brings(at, "added", dump(shown)))
        call.wake(now)
        due = call.due
        while call.due is not None:
            wakes.append(call.due)
            call.wake(call.due)
        before = [answer for entry, answer in call.told if entry.at <= now]
        read = Read()
        for entry, answer in call.told:
            read = read.after(entry.at, answer) if entry.at <= now else read
        return Seen(now, read, due, tuple(wakes), sum(answer.state is not None for answer in before))


def comings_of(steps: Sequence[Dict[str, Any]]) -> List[Coming]:
    """The pictures of which the program reports what a case says."""
    game: Game = game_of()
    found = []
    for step in steps:
        if step.get("do", "full") not in OTHERS:
            game = game.told(step["do"].split()[1:])
            found.append((milliseconds(step["at"]), game.shown))
    return found


def looked(step: Dict[str, Any], comings: Sequence[Coming]) -> object:
    """What a step of a case looks at."""
    what, at = step["see"], step["at"]
    if what == "same news":
        said = [seen_at(milliseconds(when), comings).states for when in at]
        return [one == other for one, other in zip(said, said[1:])]
    seen = seen_at(milliseconds(at), comings)
    if what == "due":
        return None if seen.due is None else seen.due / 1000
    if what == "alarm":
        return seen.read.state.is_alarm
    since = seen.read.since
    return None if since is None else since / 1000


def times() -> None:
    """When the state becomes another one by the time alone, and what is news."""
    for steps in cases("state", "times"):
        for at, step in enumerate(steps):
            is_disk = any(one.get("do") == "full" for one in steps[:at])
            if "see" in step and not is_disk:
                same(step["name"], looked(step, comings_of(steps[:at])), step["is"])


def overdue_since(seen: Seen) -> Optional[int]:
    """Since when the board comes no nearer, if that is too long."""
    return seen.read.since if seen.read.state.kind in OVERDUE else None


def agreements() -> None:
    """From when on it is an alarm that the board comes no nearer, as known at a time: the recorder wants to be woken then, and names that
    time from then on."""
    for name, rows, expected in cases("alarms", "agreements"):
        start = game_of().position
        comings = [(milliseconds(at), fewer(start, count)) for at, count in rows]
        for at, due in expected:
            now = milliseconds(at)
            known = [coming for coming in comings if coming[0] < now]
            seen = seen_at(now, known)
            if due is None:
                ends = {when + PATIENCE for when, _ in known if when + PATIENCE > now}
                same(f"{name}, known at {at}", sorted(ends.intersection(seen.wakes)), [])
                continue
            wanted = milliseconds(due)
            same(f"{name}, known at {at}", wanted in seen.wakes, True)
            later = seen_at(max(now, wanted), known)
            same(f"{name}, at {later.now}", overdue_since(later), wanted - PATIENCE)


TABLES = [times, agreements]
