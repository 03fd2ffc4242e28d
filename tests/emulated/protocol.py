"""The board's side of the protocol: the commands that it knows, and the frames that it answers with."""

from __future__ import annotations

import enum
from typing import Iterable, Sequence, Tuple

from play_board import frame

BUS_ADDRESS = 1
VERSION = (1, 8)
BATTERY = (100, 0x7F, 0x7F, 0, 0, 0, 0, 0, 0)  # full; the two 7F: the time that is left isn't known
TRADEMARK = b"Digital Game Technology"
MOST_STORED = 1000  # bytes of stored moves that are sent
STORED_START, STORED_END, POWERED_UP, STORED_PIECE = 0x7B, 0x6B, 0x6A, 0x40


class Command(enum.IntEnum):
    """What a board may be sent, a byte each. It takes no notice of other bytes."""

    RESET = 0x40  # send nothing unasked
    CLOCK = 0x41
    DUMP = 0x42
    UPDATES = 0x43  # send each change of a square, and the clock each second
    SQUARES_ONLY = 0x44  # send each change of a square
    SERIAL = 0x45
    BUS_ADDRESS = 0x46
    TRADEMARK = 0x47
    STORED_MOVES = 0x49
    UPDATES_NICE = 0x4B  # send each change of a square, and the clock where it has changed
    BATTERY = 0x4C
    VERSION = 0x4D
    LONG_SERIAL = 0x55


class Message(enum.IntEnum):
    """What a board sends: the first byte of each frame."""

    DUMP = 0x86
    TIME = 0x8D
    UPDATE = 0x8E
    STORED_MOVES = 0x8F
    BUS_ADDRESS = 0x90
    SERIAL = 0x91
    TRADEMARK = 0x92
    VERSION = 0x93
    BATTERY = 0xA0
    LONG_SERIAL = 0xA2


MODES = (Command.RESET, Command.UPDATES, Command.SQUARES_ONLY, Command.UPDATES_NICE)


def dump(codes: Sequence[int]) -> bytes:
    """64 piece codes by field."""
    return frame(Message.DUMP, codes)


def update(field: int, code: int) -> bytes:
    """What is now on one field."""
    return frame(Message.UPDATE, (field, code))


def time_message(data: Iterable[int]) -> bytes:
    """The seven bytes of a clock."""
    return frame(Message.TIME, data)


def stored_moves(changes: Sequence[Tuple[int, int]]) -> bytes:
    """The last changes since the power came, as (field, code)."""
    kept = changes[-MOST_STORED // 2 :]
    data = [STORED_START, POWERED_UP]
    for field, code in kept:
        data += [STORED_PIECE + code, field]
    return frame(Message.STORED_MOVES, [*data, STORED_END])


def about(command: Command, serial: str) -> bytes:
    """The answer to a question about the board itself, which never changes; none to another command. `serial`: five digits."""
    if command is Command.SERIAL:
        return frame(Message.SERIAL, serial.encode("ascii"))
    if command is Command.LONG_SERIAL:
        return frame(Message.LONG_SERIAL, serial.rjust(10, "0").encode("ascii"))
    if command is Command.BUS_ADDRESS:
        return frame(Message.BUS_ADDRESS, (BUS_ADDRESS // 128, BUS_ADDRESS % 128))
    if command is Command.TRADEMARK:
        return frame(Message.TRADEMARK, TRADEMARK)
    if command is Command.BATTERY:
        return frame(Message.BATTERY, BATTERY)
    if command is Command.VERSION:
        return frame(Message.VERSION, VERSION)
    return b""
