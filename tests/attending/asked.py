"""When a board is asked, over the recorder itself: the tables of tests/decisions/asking.json.

A host wakes its recorder when that has asked for it, and before anything that comes at that time.

`frames` names bytes. How bytes are cut, and what a frame is, are tables about bytes; the recorder's own frames are in tests/given/.
"""

import random
from typing import Any, Dict, Iterator, List, Optional, Sequence, Tuple

from attending.answers import Entry, brings
from attending.host import Call, Host
from decided.asking import FRAMES, RATE, choices
from decided.cases import bytes_of, cases
from decided.table import same

OWN, ELSEWHERE = b"01234", b"ZZZZZ"
EMPTY = bytes_of("EMPTY", FRAMES)
APART = 200  # milliseconds between two requests
GATHERED = 8  # bytes of noise that come at once
Coming = Tuple[int, bytes]
Sent = List[List[object]]


def milliseconds(seconds: float) -> int:
    return round(seconds * 1000)


def in_seconds(asked: Sequence[Tuple[int, str]]) -> Sent:
    """The requests as the tables have them."""
    return [[at / 1000, request] for at, request in asked]


def coming(given: Sequence[Sequence[Any]]) -> List[Coming]:
    return [(milliseconds(when), bytes_of(words, FRAMES)) for when, words in given]


def begun(host: Host, number: bytes = b"") -> Call:
    """A call over an empty capture, of a game whose board may have a number."""
    call = Call(host)
    call.tell(Entry(0, "begin", 0))
    if number:
        call.tell(brings(0, "number", number))
    return call


def goes_on(call: Call, comings: Sequence[Coming], until: int) -> None:
    """All of this comes, and the recorder is woken meanwhile."""
    for at, sent in comings:
        call.wakes_by(at)
        call.tell(brings(at, "heard", sent))
    call.wakes_by(until)


def requests(name: str, number: bytes = b"") -> None:
    """What is sent when in the cases of a table."""
    for case, comings, until, expected in cases("asking", name):
        with Host() as host:
            call = begun(host, number)
            call.tell(Entry(0, "opened"))
            goes_on(call, coming(comings), milliseconds(until))
            same(case, in_seconds(call.asked), expected)


def rules() -> None:
    requests("rules")


def numbered() -> None:
    requests("numbered", OWN)


class Steps:
    """A case of steps: each happens at its time, or at the time of the one before it. The recorder is woken only where a step says so."""

    def __init__(self, host: Host, added: str = "added") -> None:
        self.call = begun(host)
        self._added = added  # the word of bytes that are added
        self._at = 0
        self._looked = 0  # at so many answers
        self._is_silent = False

    def does(self, step: Dict[str, Any]) -> object:
        """One step; what is seen then, as JSON has it."""
        what = step.get("do") or step["see"]
        self._at = milliseconds(step["at"]) if "at" in step else self._at
        sent = bytes_of(step.get("bytes", ""), FRAMES)
        if what == "connected" and self._at < self.call.now:
            self.call, self._looked = begun(self.call.host), 0  # the times begin anew
        if what in ("connected", "disconnected"):
            self._tell(Entry(self._at, "opened" if what == "connected" else "gone"))
        elif what in ("came", "added"):
            self._tell(brings(self._at, "heard" if what == "came" else self._added, sent))
        elif what == "request":
            return self._request()
        elif what == "sent":
            goes_on(self.call, coming(step["comings"]), milliseconds(step["until"]))
            return in_seconds(self._asked_since())
        elif what == "silent":
            return self._is_silent
        elif what == "due":
            return self._asked_next()
        else:
            raise LookupError(what)
        return None

    def _tell(self, entry: Entry) -> None:
        state = self.call.tell(entry).state
        self._is_silent = state.kind == "SILENT" if state else self._is_silent

    def _asked_since(self) -> List[Tuple[int, str]]:
        """What was sent when, in the answers that weren't looked at."""
        found = [(entry.at, answer.asked) for entry, answer in self.call.told[self._looked :] if answer.asked]
        self._looked = len(self.call.told)
        return found

    def _request(self) -> str:
        """What is sent at this time: with what has just happened, or when the recorder is woken."""
        asked = dict(self._asked_since())
        if self._at not in asked:
            self._tell(Entry(self._at, "wake"))
            asked = dict(self._asked_since())
        return asked.get(self._at, "")

    def _asked_next(self) -> Optional[float]:
        """When it is asked if nothing more comes: another recorder is told the same, and woken until it asks."""
        with Host() as host:
            call = Call(host)
            for entry, _ in self.call.told:
                call.tell(entry)
            before = len(call.asked)
            while call.due is not None and len(call.asked) == before:
                call.wake(call.due)
            return call.now / 1000 if len(call.asked) > before else None


def follows(table: str, added: str = "added") -> None:
    """The steps of each case of a table."""
    for steps in cases("asking", table):
        with Host() as host:
            case = Steps(host, added)
            for step in steps:
                seen = case.does(step)
                if "see" in step:
                    same(step["name"], seen, step["is"])


def silent_boards() -> None:
    follows("silent")


def additions() -> None:
    """A board is asked alike behind bytes that were added and behind those that came over another game's cable."""
    for word in ("added", "brought"):
        follows("additions", word)


def serials() -> None:
    """The last number that has come is that of the board on the cable: the game's board has another one."""
    for steps in cases("asking", "serials"):
        with Host() as host:
            call = begun(host, ELSEWHERE)
            last = ""
            for step in steps:
                if step.get("do") == "connected":
                    call.tell(Entry(0, "opened"))
                elif step.get("see") == "serial":
                    answer = call.tell(brings(milliseconds(step["at"]), "heard", bytes_of(step["bytes"], FRAMES)))
                    last = step["is"] or last
                    same(step["name"], (answer.handling, answer.other), ("other", last) if last else ("hold", ""))


def own_number() -> None:
    """The first number that has come is that of the game's board, if the host has told none: it is said once."""
    for steps in cases("asking", "serials"):
        with Host() as host:
            call = begun(host)
            said: List[str] = []
            for step in steps:
                if step.get("do") == "connected":
                    call.tell(Entry(0, "opened"))
                elif step.get("see") == "serial":
                    said.append(call.tell(brings(milliseconds(step["at"]), "heard", bytes_of(step["bytes"], FRAMES))).number)
                elif step.get("see") == "has number":
                    first = next(given["is"] for given in steps if given.get("see") == "serial" and given["is"])
                    same(step["name"], ([number for number in said if number] == [first]), step["is"])


def numbers_in_bytes() -> None:
    """Bytes of a board whose number isn't known; the number that is said, and that of another board behind it, if there is one."""
    for sent, expected in [
        (b"\0", ("", "")),
        (b"\x91\x00\x0801234", ("01234", "")),
        (b"\x8e\x00\x05\x91\x00\x0801234\x8e", ("01234", "")),
        (b"\x91\x00\x0801234\x91\x00\x0801235", ("01234", "01235")),
        (b"\x91\x00\x080123", ("", "")),
        (b"\x91\x00\x080123\x7f", ("", "")),
        (b"\x91\x00\x080123 ", ("", "")),
        (b"\x91\x00\x09012345", ("", "")),
    ]:
        for size in (len(sent), 1):
            with Host() as host:
                call = begun(host)
                call.tell(Entry(0, "opened"))
                answers = [call.tell(brings(100, "heard", sent[at : at + size])) for at in range(0, len(sent), size)]
                seen = ["".join(answer.number for answer in answers), answers[-1].other]
                same(f"{sent!r}, {size} at once", tuple(seen), expected)


def flooded(name: str, comings: Iterator[Coming], until: int, most: int) -> None:
    """The requests that what comes brings, and the bound."""
    with Host() as host:
        call = begun(host)
        call.tell(Entry(0, "opened"))
        goes_on(call, list(comings), until)
        times = [at for at, _ in call.asked]
        same(name, (0 < len(times) <= most, all(b - a >= APART for a, b in zip(times, times[1:]))), (True, True))


def noise() -> None:
    """Noise for 30 s: at most one request a second; with a dump for each request, at most five."""
    chance = random.Random(7)
    for name, words in cases("asking", "noise"):
        drawn = choices(words)
        comings = ((at * 1000 // RATE, bytes(chance.choices(drawn, k=GATHERED))) for at in range(0, 30 * RATE, GATHERED))
        flooded(name, comings, 30000, 31)
    worst = ((at * 10, EMPTY + b"\0") for at in range(3000))
    flooded("a dump and a fault, 100 times a second", worst, 30000, 151)


TABLES = [rules, numbered, silent_boards, additions, serials, own_number, numbers_in_bytes, noise]
