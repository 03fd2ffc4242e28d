"""The lines of NAME.times: what is read of a file, what is written, and what is said."""

from live.game import times
from live.game.times import Kept, Newer, told_of

from decided.cases import cases
from decided.table import same

OF_A = "1 times 0\n1 digest 12638187200555641996\n"  # the capture began with the letter a


def whole(text: str) -> str:
    """A file, in which @ stands for its heading."""
    return text.replace("@", OF_A)


def found_in(text: str) -> Kept:
    """What stands in a file with a heading."""
    found = times.kept(text.encode())
    assert isinstance(found, Kept), text
    return found


def digests() -> None:
    """The list of the authors."""
    for text, value in cases("times", "digests"):
        same(text, f"{times.digest(text.encode()):x}", value)
    for generation, first, expected in cases("times", "headings"):
        same(expected, times.heading(generation, first.encode()).decode(), expected)


def files() -> None:
    """What of a file is its heading and events, and of how many bytes of the capture they tell."""
    for name, front, rest, covered in cases("times", "files"):
        expected = Kept(0, 1, 0xAF63DC4C8601EC8C, len(OF_A), len(whole(front)), covered)
        same(name, found_in(whole(front) + rest), expected)
    for text in cases("times", "unreadable"):
        same(text, times.kept(text.encode()), None)
    for text, version in cases("times", "newer"):
        same(text, times.kept(text.encode()), Newer(version))


def written() -> None:
    """Each event has a line, and its time counts from the beginning of its call."""
    for began, events, expected in cases("times", "written"):
        same(expected, times.lines([(at, what, count) for at, what, count in events], began).decode(), expected)


def cuts() -> None:
    """A game that was over gets other bytes behind so many, or goes on."""
    text = f"{OF_A}0 begin 1\n12 heard 67\n20 asked 1\n30 heard 10\n40 over 78\n50 heard 5\n60 ok\n"
    for size, left in cases("times", "cuts"):
        same(f"{size} bytes", times.cut(text.encode(), found_in(text), size, b"a"[:size]).decode(), whole(left))


def begun_with() -> None:
    """A new capture goes on from the one before a line that is undone: so do its times."""
    text = f"{OF_A}0 begin 1\n12 heard 67\n20 asked 1\n30 heard 10\n40 over 78\n50 heard 5\n60 ok\n".encode()
    for generation, size, begins in cases("times", "begun with"):
        same(f"{size} bytes", times.begun_with(text, generation, size, b"a"[:size]).decode(), begins)
        same(f"{size} bytes, longer than the heading's", times.begun_with(text, generation, size, b"ab"[:size]).decode(), begins)
    for unreadable in cases("times", "unreadable"):
        same(repr(unreadable), times.begun_with(unreadable.encode(), 1, 1, b"a"), b"")


def added() -> None:
    """Which bytes were added last: a call says anew how many there are, and what stands behind the events doesn't count."""
    front = f"{OF_A}0 begin 1\n12 heard 67\n"
    for rest, begins, ends in (
        ("", 0, 0), ("20 added 30\n", 68, 98), ("20 added 30\n21 heard 5\n30 added 7\n31 heard 9\n", 103, 110),
        ("20 added 30\n21 brought 5\n", 68, 98), ("20 brought 5\n21 added 30\n", 73, 103), ("20 added 30\n0 begin 200\n5 added 4\n", 200, 204), ("20 added 30\n0 begin 98\n", 68, 98), ("20 added 30\n21 added", 68, 98),
    ):  # fmt: skip
        same(rest, times.added_last((front + rest).encode()), range(begins, ends))
    same("no file", len(times.added_last(b"")), 0)


def told() -> None:
    """A file that is torn, or tells of more bytes or fewer."""
    for text, have, expected in cases("times", "told"):
        file = whole(text)
        seen = told_of(found_in(file), "g.times", len(file), "g.dgt", have)
        same(text, seen, [f"{one} Nothing is to be done" for one in expected])


TABLES = [digests, files, written, cuts, begun_with, added, told]
