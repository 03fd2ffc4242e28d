"""Frames, dumps, placements: worked by hand from FORMATS, 'What the board sends'."""

from live.line.protocol import differing, picture_of_placement

from attending.asking_rules import DUMP_REQUEST, START_REQUEST
from attending.frames import FrameKind, Frames, serial_of
from decided.cases import bytes_of, cases
from decided.table import refused, same


def serials() -> None:
    """The serial number in a frame."""
    for text, expected in cases("protocol", "serials"):
        frames = Frames()
        ends = [frames.take(byte) for byte in bytes_of(text)]
        same(text + ": a whole frame", ends, [None] * (len(ends) - 1) + [FrameKind.OTHER])
        same(text, serial_of(frames.whole), expected)


def streams() -> None:
    """What ends at each byte, and what is left."""
    for text, expected, unfinished in cases("protocol", "streams"):
        frames = Frames()
        seen = [(at, frames.take(byte)) for at, byte in enumerate(bytes_of(text))]
        same(text, [[at, kind.value] for at, kind in seen if kind], expected)
        same(text + ", unfinished", bool(frames.under_way), unfinished)


def pictures() -> None:
    """The codes of a placement."""
    for name, text, first, codes in cases("protocol", "placements"):
        same(name, list(picture_of_placement(text)[first : first + len(codes)]), codes)
    for one, other, squares in cases("protocol", "differing"):
        same("differing", differing(picture_of_placement(one), picture_of_placement(other)), squares)
    for text in cases("protocol", "no placements"):
        refused("placement " + text, ValueError, picture_of_placement, text)
    same("requests", [DUMP_REQUEST.decode(), START_REQUEST.decode()], cases("protocol", "requests"))


TABLES = [serials, streams, pictures]
