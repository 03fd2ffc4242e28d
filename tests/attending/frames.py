"""A board's frames, read by rules in Python: what the program says is compared with them. Worked from FORMATS, section 1."""

from __future__ import annotations

import enum
from typing import Dict, Optional

from live.line.protocol import SERIAL_LENGTH, Picture

SERIAL_REQUEST = b"E"  # 45: the board's serial number
DUMP_ID, UPDATE_ID, TIME_ID, SERIAL_ID = 0x86, 0x8E, 0x8D, 0x91
SIZES = {DUMP_ID: 67, UPDATE_ID: 5, TIME_ID: 10}
HEADER = 3  # bytes of a frame before its data
HIGHEST_CODE, HIGHEST_FIELD = 15, 63


class FrameKind(enum.Enum):
    """What has ended at a byte: a whole frame of some kind, or a fault."""

    DUMP = "dump"
    UPDATE = "update"
    TIME = "time"
    OTHER = "other"
    FAULT = "fault"


KINDS: Dict[int, FrameKind] = {
    DUMP_ID: FrameKind.DUMP,
    UPDATE_ID: FrameKind.UPDATE,
    TIME_ID: FrameKind.TIME,
}


class Frames:
    """The frames of a stream, byte by byte.

    A frame is an identifier with its top bit set, two bytes with its size, and data; each byte after the first has its top
    bit clear. A fault is at the first byte with which the bytes since the frame's first can't be a frame. A byte with its top
    bit set begins the next frame. Any other byte is dropped with those of its kind that follow: together they are one fault.
    """

    def __init__(self) -> None:
        self.whole = b""  # the last whole frame
        self.under_way = bytearray()  # the bytes of a frame that isn't whole yet
        self._dropping = False

    def take(self, byte: int) -> Optional[FrameKind]:
        """What ends with this byte, if anything does."""
        frame = self.under_way
        if byte >= 0x80:
            cut = bool(frame)
            self.under_way = bytearray((byte,))
            self._dropping = False
            return FrameKind.FAULT if cut else None
        if not frame:
            first, self._dropping = not self._dropping, True
            return FrameKind.FAULT if first else None
        frame.append(byte)
        if not _begins(frame):
            frame.clear()
            self._dropping = True
            return FrameKind.FAULT
        if len(frame) < HEADER or len(frame) < _size(frame):
            return None
        self.whole = bytes(frame)
        frame.clear()
        return KINDS.get(self.whole[0], FrameKind.OTHER)


def _size(frame: bytearray) -> int:
    """The size in a header."""
    return frame[1] * 128 + frame[2]


def _begins(frame: bytearray) -> bool:
    """Whether the bytes are a frame or begin one. All but the last are known to begin one."""
    identifier, last, length = frame[0], frame[-1], len(frame)
    if length < HEADER:
        return last == 0 or identifier not in SIZES
    if length == HEADER:
        return _size(frame) == SIZES[identifier] if identifier in SIZES else _size(frame) >= HEADER
    if identifier == DUMP_ID or (identifier == UPDATE_ID and length == SIZES[UPDATE_ID]):
        return last <= HIGHEST_CODE
    return identifier != UPDATE_ID or last <= HIGHEST_FIELD


def picture_of_dump(frame: bytes, rotated: bool) -> Picture:
    """The picture that a whole dump shows. It goes by field; field n of a rotated board is square 63 - n."""
    return tuple(reversed(frame[HEADER:]) if rotated else frame[HEADER:])


def serial_of(frame: bytes) -> str:
    """The serial number in a whole frame: five visible characters of ASCII. Empty if it has none."""
    number = frame[HEADER:]
    is_one = frame[:1] == bytes((SERIAL_ID,)) and len(number) == SERIAL_LENGTH and all(0x21 <= byte <= 0x7E for byte in number)
    return number.decode("ascii") if is_one else ""
