"""When the bytes of a capture came, by its file of times and by when its calls began; and how many bytes are a game's."""

import itertools
import os
import pathlib
import random
import re
import tempfile
from typing import Dict, List, Optional, Tuple

from live.game import times
from live.game.files import Opened, Paths, existing
from live.game.kept import Capture, Times, milliseconds
from live.game.times import Began, BeganFile, Begin, as_written, began_line, part_line, read_began, sum_of, summed, this_start
from live.out.again import Came, Kept, calls_of, came, games_before, over_at, within

from decided.table import same


def ages_of_bytes() -> None:
    """Calls of a file of times; when they began, by which start of the computer; the size of the capture at the end, at 10,000: by when its
    bytes had come."""
    first = times.Call(50, 0, [(10, "heard", 67), (500, "asked", 3), (1000, "heard", 10), (900, "added", 5)])
    second = times.Call(200, 82, [(0, "away", 99999), (20, "heard", 8)])
    third = times.Call(300, 90, [(5, "opened", None)])
    lent = times.Call(50, 0, [(10, "heard", 67), (1000, "brought", 15)])
    here, there = "this", "another"
    b1, b2, b3 = (0, 50), (0, 200), (0, 300)
    cases: List[Tuple[str, List[times.Call], int, Dict[Begin, Began], List[Tuple[int, int]]]] = [
        ("nothing is known", [], 90, {}, [(90, 10000)]),
        ("one call", [first], 82, {b1: Began(2000, here)}, [(67, 2010), (77, 3000), (82, 3000)]),
        ("bytes over the cable of another game", [lent], 82, {b1: Began(2000, here)}, [(67, 2010), (82, 3000)]),
        ("bytes without a time", [first], 90, {b1: Began(2000, here)}, [(67, 2010), (77, 3000), (82, 3000), (90, 10000)]),
        ("it has fewer", [first], 70, {b1: Began(2000, here)}, [(67, 2010), (70, 3000)]),
        ("two calls, and `away` counts for nothing", [first, second], 90, {b1: Began(2000, here), b2: Began(7000, here)},
         [(67, 2010), (77, 3000), (82, 3000), (90, 7020)]),
        ("a call under another start of the computer ended as the next began", [first, second], 90,
         {b1: Began(5, there), b2: Began(7000, here)}, [(67, 6010), (77, 7000), (82, 7000), (90, 7020)]),
        ("all under another start: the last event was just now", [first, second], 90, {b1: Began(5, there), b2: Began(9, there)},
         [(67, 8990), (77, 9980), (82, 9980), (90, 10000)]),
        ("nobody kept when the first one began", [first, second], 90, {b2: Began(7000, here)}, [(67, 7000), (77, 7000), (82, 7000), (90, 7020)]),
        ("nor the last one", [first, second], 90, {b1: Began(2000, here)}, [(67, 2010), (77, 3000), (82, 3000), (90, 10000)]),
        ("it began later than now", [first], 82, {b1: Began(10001, here)}, [(67, 10000), (77, 10000), (82, 10000)]),
        ("it goes on in the next call", [first, second], 90, {b1: Began(6500, here), b2: Began(7000, here)},
         [(67, 6510), (77, 7000), (82, 7000), (90, 7020)]),
        ("a later one began later than now", [times.Call(300, 120, [])], 120, {b3: Began(10001, here)}, [(120, 10000)]),
        ("of another generation", [first], 82, {(1, 50): Began(2000, here)}, [(67, 10000), (77, 10000), (82, 10000)]),
        ("bytes that came as a call began", [first, times.Call(300, 120, [])], 120, {b1: Began(2000, here), b3: Began(4000, here)},
         [(67, 2010), (77, 3000), (82, 3000), (120, 4000)]),
        ("bytes that a power cut took", [first, times.Call(300, 70, [(5, "heard", 9)])], 79, {b1: Began(2000, here), b3: Began(4000, here)},
         [(67, 2010), (70, 4000), (79, 4005)]),
        ("three", [first, second, third], 90, {b1: Began(5, there), b2: Began(6, there), b3: Began(8000, here)},
         [(67, 6990), (77, 7980), (82, 7980), (90, 8000)]),
    ]  # fmt: skip
    for name, calls, size, began, wanted in cases:
        same(name, within(came(calls, 0, began, here, 10000), size, 10000), [Came(*one) for one in wanted])
    same("the file is of another generation", came([first], 1, {b1: Began(2000, here)}, here, 10000)[-1], Came(82, 10000))
    same("no byte", within([], 0, 10000), [])
    over_twice = times.Call(1, 0, [(1, "over", 70), (2, "heard", 1), (3, "over", 80)])
    lists: List[List[times.Call]] = [[], [first], [first, over_twice, third]]
    same("over", [over_at(calls) for calls in lists], [None, None, 80])
    capture = b"\x86\x00\x43" + bytes(64) + b"more"
    heading = times.heading(3, capture[:67])
    content = heading + b"0 begin 67\n0 away 12\n5 heard 4\n7 over 71\n0 begin 71\n9 o"
    at = len(heading)
    found = [times.Call(at, 67, [(0, "away", 12), (5, "heard", 4), (7, "over", 71)]), times.Call(content.index(b"0 begin 71"), 71, [])]
    whole = {3: {(0, len(content), sum_of(content))}}
    same("calls of a file", calls_of(content, capture, whole), (found, 3))
    over = content.index(b"7 over")
    parts = {3: {(0, over, sum_of(content[:over])), (over, over + 4, 1), (over + 5, len(content), sum_of(content[over + 5 :]))}}
    same("its third line has changed", calls_of(content, capture, parts), ([times.Call(at, 67, found[0].events[:2]), found[1]], 3))
    same("nobody knows what was written", calls_of(content, capture, {2: whole[3]}), ([], 3))
    same("parts that touch, and one that doesn't", as_written(b"abcdef", {(0, 2, sum_of(b"ab")), (2, 3, sum_of(b"c")), (4, 6, sum_of(b"ef"))}), [(0, 3), (4, 6)])
    for name, text, first_bytes in (
        ("another capture's", content, b"\x86\x00\x43" + bytes(63) + b"x"), ("a longer one's", content, capture[:66]), ("none", b"", capture),
        ("a newer program's", content.replace(b"1 times", b"2 times"), capture), ("torn", content[:20], capture),
    ):  # fmt: skip
        same(name, calls_of(text, first_bytes, whole), ([], 0))


def no_byte_is_older() -> None:
    """Random calls under several starts of the computer, of which some lines are lost: no byte is taken for older than it is; and if all is
    known and the computer wasn't started again, each has its own time."""
    draw = random.Random(5)
    faults, inexact = 0, 0
    for _ in range(3000):
        loses = draw.random() < 0.7
        now = started = 0  # milliseconds of the world, and when the computer was started last
        truth: List[int] = []  # when each byte came
        calls: List[times.Call] = []
        began: Dict[Begin, Began] = {}
        starts = 1
        for number in range(draw.randint(1, 5)):
            now += draw.randint(0, 2000)
            if draw.random() < 0.3:
                starts, started = starts + 1, now
                now += draw.randint(0, 50)
            if loses and truth and draw.random() < 0.2:
                del truth[draw.randint(0, len(truth)) :]  # a power cut takes bytes, but not what speaks of them
            call, begins = times.Call(100 * number, len(truth), []), now
            if not (loses and draw.random() < 0.2):
                began[0, call.offset] = Began(now - started, f"{starts:x}")
            for _ in range(draw.randint(0, 6)):
                now += draw.randint(0, 500)
                size, what = draw.randint(0, 3), draw.choice(["heard", "brought", "added", "asked"])
                call.events.append((now - begins, what, size))
                truth += [now] * (0 if what == "asked" else size)
            if loses and draw.random() < 0.4:
                del call.events[draw.randint(0, len(call.events)) :]
            calls.append(call)
        now += draw.randint(0, 2000)
        until = now - started
        found = within(came(calls, 0, began, f"{starts:x}", until), len(truth), until)
        ages = [next(one.at for one in found if one.size > byte) for byte in range(len(truth))]
        faults += sum(at < was - started for at, was in zip(ages, truth)) + (ages != sorted(ages)) + any(at > until for at in ages)
        inexact += not loses and starts == 1 and ages != [was - started for was in truth]
    same("bytes that are taken for older, and games with other times", (faults, inexact), (0, 0))


def calls_are_kept() -> None:
    """A game is recorded in three calls, and goes back: for each `begin` in its times there is when it began, and nothing is torn."""
    with tempfile.TemporaryDirectory() as folder:
        paths, before = Paths(f"{folder}/01"), milliseconds()
        for call in range(3):
            capture = Capture.open(paths.capture)
            kept = Times(paths, capture)
            kept.look()
            kept.begin()
            capture.append(bytes([0x86, 0, 67]) + bytes(64))
            kept.note("heard", 67)
            kept.write()
            if call == 1:
                with open(paths.began, "ab") as file:
                    file.write(b"0 123 4")  # the power failed
            kept.close()
            capture.close()
        content, first = pathlib.Path(f"{paths.name}.times").read_bytes(), pathlib.Path(paths.capture).read_bytes()
        began = read_began(pathlib.Path(paths.began).read_bytes())
        calls, generation = calls_of(content, first, began.parts)
        same("each call", (sorted(began.calls), generation, len(calls)), ([(0, call.offset) for call in calls], 0, 3))
        same("by this clock", all(before <= one.at <= milliseconds() + 1000 and one.start == this_start() for one in began.calls.values()), True)
        same("all has a time", came(calls, 0, began.calls, this_start(), milliseconds())[-1].size, 201)
    with tempfile.TemporaryDirectory() as folder:
        path = f"{folder}/01.began"
        for begin, one in (((0, 50), Began(5, "a-1")), ((0, 50), Began(7, "a-2")), ((1, 50), Began(9, "b"))):
            BeganFile(path).keep([began_line(begin, one)])
        found = read_began(pathlib.Path(path).read_bytes())
        same("the last line about a begin counts", (found.calls, found.parts), ({(0, 50): Began(7, "a-2"), (1, 50): Began(9, "b")}, {}))
    dump = bytes([0x86, 0, 67]) + bytes(64)
    first = times.heading(0, dump) + b"0 begin 0\n1 heard 67\n"
    cuts = ((b"", 67, True), (b"", 100, True), (b"", 50, False), (b"2 over 67\n", 67, False), (b"2 over 67\n", 100, False))
    for (middle, size, stays), is_right in itertools.product(cuts, (True, False)):
        with tempfile.TemporaryDirectory() as folder:
            paths = Paths(f"{folder}/01")
            pathlib.Path(paths.capture).write_bytes(3 * dump)
            content = first + middle + b"0 begin 67\n1 heard 67\n1 heard 67\n"
            pathlib.Path(f"{folder}/01.times").write_bytes(content)
            written = content if is_right else content.replace(b"\n1 heard", b"\n9 heard", 1)
            BeganFile(paths.began).keep([began_line((0, 1), Began(1, "a")), part_line(0, 0, written)])
            capture = Capture.open(paths.capture)
            kept = Times(paths, capture)
            kept.look()
            kept.cut(size)
            kept.close()
            capture.close()
            left = read_began(existing(paths.began))
            same(f"cut to {size}, {middle!r}, {is_right}: calls have their places still", bool(left.calls), stays)
            known = calls_of(pathlib.Path(f"{folder}/01.times").read_bytes(), 3 * dump, left.parts)[0]
            same(f"cut to {size}, {middle!r}: what was changed before counts for nothing after it either", bool(known), is_right)
    for torn in (b"", b"\n", b"0 50 7 a", b"x 50 7 a\n", b"0 50 -7 a\n", b"0 50 7\n", b"\xff\n", b"0 50 7 a b\n"):
        found = read_began(torn)
        same(f"no line: {torn!r}", (found.calls, found.parts), ({}, {}))


# Lines as they may be damaged, by hand or by a disk: what becomes of the one at a place.
def changed(lines: List[bytes], at: int) -> List[bytes]:
    number, rest = re.match(rb"(\d*)(.*)", lines[at], re.S).groups()  # type: ignore[union-attr]
    return [*lines[:at], b"%d%s" % (int(number or 0) + 60000, rest), *lines[at + 1 :]]


def fewer(lines: List[bytes], at: int) -> List[bytes]:
    """A call that is said to have begun earlier, by a minute."""
    words = lines[at].split(b" ")
    words[2:3] = [b"%d" % max(0, int(words[2]) - 60000)] if len(words) > 3 and words[2].isdigit() else words[2:3]
    return [*lines[:at], b" ".join(words), *lines[at + 1 :]]


def lost(lines: List[bytes], at: int) -> List[bytes]:
    return [*lines[:at], *lines[at + 1 :]]


def twice(lines: List[bytes], at: int) -> List[bytes]:
    return [*lines[: at + 1], *lines[at:]]


def exchanged(lines: List[bytes], at: int) -> List[bytes]:
    return [*lines[:at], *lines[at : at + 2][::-1], *lines[at + 2 :]]


def damaged_lines_count_for_nothing() -> None:
    """A game of three calls, each under another start of the computer or the same. Whatever line of its times, or of NAME.began, is
    changed, lost, there twice or exchanged with the next one: no byte is taken for older than by the files as they were written, also
    after another call has gone on with them; and what came before that line keeps its time."""
    for starts in ("aaa", "abb", "abc"):
        dump, now, text, began, truth = bytes([0x86, 0, 67]) + bytes(64), 100_000, b"", b"", []  # type: bytes, int, bytes, bytes, List[int]
        for number, start in enumerate(starts):
            content = times.heading(0, dump) if not text else b""
            began += summed([began_line((0, len(text + content)), Began(now, start))], sum_of(began))
            content += b"0 begin %d\n" % len(truth)
            for event in range(4):
                content += b"%d heard 67\n" % (1000 * (event + 1))
                truth += [now + 1000 * (event + 1)] * 67
                began += summed([part_line(0, len(text), content)], sum_of(began))
                text, content = text + content, b""
            now += 10_000 + 1000 * number
        until, capture = now, dump + bytes(len(truth) - 67)

        def ages(text: bytes, began: bytes) -> List[int]:
            kept = read_began(began)
            calls, generation = calls_of(text, capture, kept.parts)
            found = within(came(calls, generation, kept.calls, starts[-1], until), len(capture), until)
            return [next(one.at for one in found if one.size > byte) for byte in range(len(capture))]

        right = ages(text, began)
        same(f"{starts}: as it was", [at >= was for at, was in zip(right, truth)].count(False), 0)
        lines, of_began = text.splitlines(keepends=True), began.splitlines(keepends=True)
        cases = [(b"".join(how(lines, at)), began, how, at) for how in (changed, lost, twice, exchanged) for at in range(2, len(lines))]
        cases += [(text, b"".join(how(of_began, at)), how, at) for how in (changed, fewer, lost, twice, exchanged) for at in range(len(of_began))]
        older = []
        for one, other, how, at in cases:
            seen = [ages(one, other)]
            more = b"9000 asked 1\n"
            goes_on = other + summed([began_line((0, len(one)), Began(until, starts[-1])), part_line(0, len(one), more)], sum_of(other))
            seen.append(ages(one + more, goes_on))  # a call that goes on with them takes nothing for right that wasn't
            older += [(how.__name__, at) for of_one in seen if any(got < was for got, was in zip(of_one, right))]
        same(f"{starts}: none is older", older, [])
        at = next(place for place, line in enumerate(lines) if line.startswith(b"4000 heard"))
        same(f"{starts}: what came before stays", ages(b"".join(changed(lines, at)), began)[: 3 * 67] == right[: 3 * 67] or starts != "aaa", True)


def what_is_kept() -> None:
    """A capture grows, ends, and another one takes its place: how many of its bytes are the game's."""
    with tempfile.TemporaryDirectory() as folder:
        paths = Paths(f"{folder}/01")
        capture, end = pathlib.Path(paths.capture), pathlib.Path(paths.end)

        def size_of(path: str) -> Optional[int]:
            with Opened() as opened:
                kept = Kept.of(paths, path, opened)
                return kept.size if kept else None

        same("none", size_of(paths.capture), None)
        for content, mark in ((b"", b""), (b"abc", b""), (b"abcdef", b""), (b"abcdefghi", b"4\n"), (b"abcdefghi", b""), (b"xyz", b""), (b"xyz", b"99\n")):
            capture.write_bytes(content)
            end.write_bytes(mark)
            same(f"{content!r}, ends at {mark!r}", size_of(paths.capture), min(int(mark or 99), len(content)))
        end.write_bytes(b"1\n")
        capture.rename(paths.before_back(1))
        same("an earlier one has no end", size_of(paths.before_back(1)), 3)
        os.mkfifo(paths.capture)
        same("a pipe", size_of(paths.capture), None)
    for name, last, wanted in (("01", "01", ["01"]), ("blitz", "blitz-3", ["blitz-3", "blitz-2", "blitz-1"]), ("blitz", "blitz", ["blitz"]),
                               ("a", "b-2", ["b-2"]), ("blitz", "blitz-x", ["blitz-x"])):  # fmt: skip
        same(f"games of {name} up to {last}", games_before(name, last), wanted)


TABLES = [ages_of_bytes, no_byte_is_older, calls_are_kept, damaged_lines_count_for_nothing, what_is_kept]
