"""When the board is asked, by the rules in Python that `live` is compared with: what comes at which time, and what is sent then. The loop
calls `request` whenever it is due."""

import math
import random
from typing import Any, Dict, List, Sequence, Tuple

from attending.asking_rules import Asking
from attending.frames import FrameKind, Frames
from decided.cases import bytes_of, cases
from decided.table import same

FRAMES: Dict[str, str] = cases("asking", "frames")
EMPTY = bytes_of("EMPTY", FRAMES)
RATE = 960  # bytes a second of the line
Coming = Tuple[float, bytes]  # when it comes, and what
Sent = List[List[object]]  # when, and the request


def sent(asking: Asking, comings: Sequence[Coming], until: float) -> Sent:
    """What is sent when, if the loop wakes up when a request is due and when something comes."""
    requests: List[Tuple[float, bytes]] = []
    for when, came in [*comings, (until, b"")]:
        while asking.due() <= when:
            now = max(asking.due(), requests[-1][0] if requests else 0)
            request = asking.request(now)
            if request:
                requests.append((now, request))
        if came:
            asking.came(when, came)
            request = asking.request(when)
            if request:
                requests.append((when, request))
    return [[round(when, 3), request.decode()] for when, request in requests]


def coming(given: Sequence[Sequence[Any]]) -> List[Coming]:
    return [(when, bytes_of(words, FRAMES)) for when, words in given]


def rules() -> None:
    """Each of the rules, at its moment."""
    for name, comings, until, expected in cases("asking", "rules"):
        asking = Asking()
        asking.connected(0)
        same(name, sent(asking, coming(comings), until), expected)


def does(asking: Asking, step: Dict[str, Any]) -> object:
    """One step of a case; what is seen then, as JSON has it."""
    what, now, given = step.get("do") or step["see"], step.get("at", 0), bytes_of(step.get("bytes", ""), FRAMES)
    if what == "connected":
        asking.connected(now)
    elif what == "disconnected":
        asking.disconnected()
    elif what == "came":
        asking.came(now, given)
    elif what == "added":
        asking.added(given)
    elif what == "request":
        return asking.request(now).decode()
    elif what == "sent":
        return sent(asking, coming(step["comings"]), step["until"])
    elif what == "serial":
        return asking.came(now, given).serial
    elif what == "silent":
        return asking.silent
    elif what == "has number":
        return asking.has_number
    elif what == "due":
        return None if asking.due() == math.inf else round(asking.due(), 3)
    else:
        raise LookupError(what)
    return None


def follows(table: str) -> None:
    """The steps of each case of a table, one after the other."""
    for steps in cases("asking", table):
        asking = Asking()
        for step in steps:
            seen = does(asking, step)
            if "see" in step:
                same(step["name"], seen, step["is"])


def silent_boards() -> None:
    """Silent after 5 s, until a dump; `42 4B` meanwhile."""
    follows("silent")


def additions() -> None:
    """What is added by hand is no answer, and a dump is asked for after it."""
    follows("additions")


def floods(name: str, comings: Sequence[Coming], seconds: float, most: int) -> None:
    """The requests that what comes brings, and the bound."""
    asking = Asking()
    asking.connected(0)
    requests = sent(asking, comings, seconds)
    same(name, (len(requests) <= most, len(requests) > 0), (True, True))
    times = [float(str(when)) for when, _ in requests]
    same(name + ", apart", all(b - a >= 0.199 for a, b in zip(times, times[1:])), True)


def choices(words: str) -> bytes:
    """The bytes of which one is drawn: `80-ff`, or those that stand there."""
    first, _, last = words.partition("-")
    return bytes(range(int(first, 16), int(last, 16) + 1)) if last else bytes_of(words)


def noise() -> None:
    """Noise for 30 s: at most one request a second; with a dump for each request, at most five."""
    random.seed(7)
    for name, words in cases("asking", "noise"):
        comings = [(at / RATE, bytes((random.choice(choices(words)),))) for at in range(30 * RATE)]
        floods(name, comings, 30, 31)
        frames = Frames()
        kinds = [frames.take(came[0]) for _, came in comings]
        same(name + ": no dump in it", FrameKind.DUMP in kinds, False)
    worst = [(at / 100, EMPTY + b"\x00") for at in range(3000)]
    floods("a dump and a fault, 100 times a second", worst, 30, 151)


def numbers() -> None:
    """When the board's number is asked for, and which number has come."""
    for name, comings, until, expected in cases("asking", "numbered"):
        asking = Asking(has_number=True)
        asking.connected(0)
        same(name, sent(asking, coming(comings), until), expected)
    follows("serials")


def chunks() -> None:
    """What has ended in some bytes doesn't depend on how they are cut: all at once, in parts, and byte by byte."""
    hand = random.Random(11)
    frames = [EMPTY, bytes_of("8d 00 0a 01 30 00 01 29 59 00"), bytes_of("8e 00 05 34 00"), EMPTY[:40], EMPTY[:20] + b"\x10", b"\x05"]
    for number in range(50):
        stream = b"".join(hand.choice(frames) for _ in range(12))
        ways = []
        for longest in (len(stream), 64, 5, 1):
            asking, at, ended = Asking(), 0, []
            asking.connected(0)
            while at < len(stream):
                part = stream[at : at + hand.randrange(1, longest + 1)]
                at += len(part)
                came = asking.came(1, part)
                ended.append((came.dumped, came.time, came.serial))
            times = [time for _, time, _ in ended if time]
            ways.append((any(dumped for dumped, _, _ in ended), times[-1:], asking.dump, asking.request(1.6)))
        same(f"stream {number}", [way == ways[0] for way in ways], [True] * len(ways))


TABLES = [numbers, rules, silent_boards, additions, noise, chunks]
