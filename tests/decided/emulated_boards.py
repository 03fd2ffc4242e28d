"""The emulated line, clock and board: bytes and times, worked by hand from 960 bytes a second, a scan of 64 squares in 0.2 s
and the protocol's frames."""

import random

from emulated.board import Board, Manner, next_look
from emulated.clock import Clock
from emulated.line import Line, Noise

from decided.table import same

UPDATE = bytes.fromhex("8E 00 05 34 00")
INITIAL = bytes.fromhex("08 09 0a 0c 0b 0a 09 08" + " 07" * 8 + " 00" * 32 + " 01" * 8 + " 02 03 04 06 05 04 03 02")
DUMP = bytes.fromhex("86 00 43") + INITIAL
E2, E4, A8, H1 = 52, 36, 0, 63
WHITE_PAWN = 1
# field, from when on, when it is looked at next
LOOKS = ((0, 0.0, 0.0), (0, 0.01, 0.2), (32, 0.0, 0.1), (52, 0.0, 0.1625), (52, 0.17, 0.3625), (63, 1.0, 1.196875))


def line(noise: Noise = Noise()) -> Line:
    return Line(random.Random(1), noise)


def paces() -> None:
    """Byte n of what is put on a quiet line has passed after n / 960 s, whole bytes alone."""
    # 1/960 = 0.00104, 4/960 = 0.00417, 5/960 = 0.00521, 66/960 = 0.06875, 67/960 = 0.06979, 72/960 = 0.075
    for frame, when, passed in (
        (UPDATE, 0.0010, 0),
        (UPDATE, 0.0011, 1),
        (UPDATE, 0.0052, 4),
        (UPDATE, 0.0053, 5),
        (DUMP, 0.0687, 65),
        (DUMP, 0.0697, 66),
        (DUMP, 0.0698, 67),
        (DUMP, 9.0, 67),
    ):
        one = line()
        one.put(0.0, frame)
        same(f"{len(frame)} bytes, after {when} s", one.take(when), frame[:passed])
    one = line()
    same("nothing is put", one.due(), float("inf"))
    one.put(0.0, DUMP)
    one.put(0.01, UPDATE)
    same("the first byte", round(one.due(), 5), 0.00104)
    same("a dump, and 4 bytes of what was put behind it", one.take(0.0745), DUMP + UPDATE[:4])
    same("the rest", one.take(0.0751), UPDATE[4:])
    one.put(1.0, UPDATE)
    same("after a pause", (one.take(1.001), round(one.due(), 5)), (b"", 1.00104))
    one.clear(1.002)
    same("cleared", (one.take(9.0), one.due()), (b"", float("inf")))


def spoiled_bytes() -> None:
    """A byte that is lost, a bit that is flipped, a burst."""
    one = line()
    one.lose(2)
    one.put(0.0, UPDATE)
    same("the third byte is lost, and takes its time", (one.take(0.0052), one.take(0.0053)), (b"\x8e\x00\x34", b"\x00"))
    one.flip(0, 3)
    one.put(1.0, UPDATE)
    same("34 with bit 0 flipped", one.take(2.0), bytes.fromhex("8E 00 05 35 00"))
    one.flip(7)
    one.put(3.0, UPDATE)
    same("8E with bit 7 flipped", one.take(4.0), bytes.fromhex("0E 00 05 34 00"))
    one.put(5.0, UPDATE)
    same("and whole again", one.take(6.0), UPDATE)
    one.put(7.0, UPDATE)
    one.hold(8.0)
    one.put(7.5, UPDATE)
    same("held", (one.take(7.9), one.due()), (b"", 8.0))
    same("in a burst", one.take(8.0), UPDATE * 2)
    one.lose(1)
    one.lose(3)
    one.put(9.0, UPDATE)
    same("two that were said beforehand", one.take(10.0), bytes.fromhex("8E 05 00"))
    one.put(11.0, DUMP)
    one.clear(11.01)
    one.put(11.01, UPDATE)
    same("after what was cleared nothing waits", (one.take(11.0152), one.take(11.0153)), (UPDATE[:4], UPDATE[4:]))
    lost = line(Noise(lost=1.0))
    lost.put(0.0, DUMP)
    same("all are lost", lost.take(1.0), b"")
    flipped = line(Noise(flipped=1.0))
    flipped.put(0.0, DUMP)
    came = flipped.take(1.0)
    same("one bit in each byte", {bin(one ^ other).count("1") for one, other in zip(came, DUMP)}, {1})
    some = line(Noise(lost=0.1, flipped=0.1))
    some.put(0.0, bytes(10000))
    came = some.take(100.0)
    same("a tenth is lost", 8900 < len(came) < 9100, True)
    same("a tenth of all comes flipped", 900 < len(came) - came.count(0) < 1100, True)


def clocks() -> None:
    """Both times as tens and units, and the status: 01 it runs, 02 the lever, 08 White is to move, 10 Black, 20 no clock."""
    clock = Clock(5400)
    same("at the start", bytes(clock.data(3.0)), bytes.fromhex("01 30 00 01 30 00 0A"))
    clock.press(4.0)
    same("a press while it stands", bytes(clock.data(5.0)), bytes.fromhex("01 30 00 01 30 00 0A"))
    clock.start(10.0)
    same("White's 5 s", bytes(clock.data(15.0)), bytes.fromhex("01 29 55 01 30 00 0B"))
    clock.press(15.0)
    same("Black's 3.5 s", bytes(clock.data(18.5)), bytes.fromhex("01 29 55 01 29 57 11"))
    clock.stop(18.5)
    same("stopped", bytes(clock.data(99.0)), bytes.fromhex("01 29 55 01 29 57 10"))
    clock.battery_low = True
    same("its battery is low", clock.data(99.0)[6], 0x14)
    short = Clock(2, increment=3)
    short.start(0.0)
    short.press(1.0)
    same("3 s more after a press", short.seconds(1.0), (4.0, 2.0))
    same("the flag has fallen", bytes(short.data(9.0)), bytes.fromhex("00 00 04 00 00 00 11"))


def scans() -> None:
    """Field n is looked at n / 64 of 0.2 s after a scan begins: 52 at 0.1625, 36 at 0.1125."""
    for field, now, expected in LOOKS:
        same(f"field {field} from {now} on", round(next_look(field, now), 6), expected)
    board = Board(second_at=99.0)
    board.command(0.0, b"\x4b")
    board.show(0.0, E2, 0)
    board.show(0.05, E4, WHITE_PAWN)
    same("e4 is looked at before e2", board.take(0.1625), bytes.fromhex("8E 00 05 24 01"))
    same("and then e2: whole after 5 bytes more", (board.take(0.1677), board.take(0.1678)), (UPDATE[:4], UPDATE[4:]))
    board.show(0.21, E4, 0)
    board.show(0.22, E4, WHITE_PAWN)
    same("what is back before the scan comes isn't seen", board.take(1.0), b"")
    board.show(1.0, E4, 0)
    same("1.1125 and 5/960", (board.take(1.1176), board.take(1.118)), (bytes.fromhex("8E 00 05 24"), b"\x00"))
    dumped = Board(second_at=99.0)
    dumped.show(0.0, E2, 0)
    dumped.command(0.1, b"\x42")
    same("a dump has what the scan has seen", dumped.take(0.2), DUMP)
    dumped.command(0.2, b"\x42")
    same("and the next one what it has seen since", dumped.take(0.3), DUMP[: 3 + E2] + b"\x00" + DUMP[4 + E2 :])
    turned = Board(rotated=True, second_at=99.0)
    turned.command(0.0, b"\x42\x4b")
    same("a turned board has h1 first", turned.take(0.07)[:7], bytes.fromhex("86 00 43 02 03 04 05"))
    turned.show(0.2, E2, 0)
    same("and e2 is its field 11", turned.take(0.4), bytes.fromhex("8E 00 05 0B 00"))


# The command, and what a board that is idle sends after it; 41 without a clock.
ANSWERS = [
    ("40", ""),
    ("41", "8D 00 0A 00 00 00 00 00 00 20"),
    ("42", DUMP.hex()),
    ("43", ""),
    ("44", ""),
    ("45", "91 00 08 31 32 33 34 35"),
    ("46", "90 00 05 00 01"),
    ("47", "92 00 1A" + b"Digital Game Technology".hex()),
    ("48", ""),
    ("49", "8F 00 06 7B 6A 6B"),
    ("4A", ""),
    ("4B", ""),
    ("4C", "A0 00 0C 64 7F 7F 00 00 00 00 00 00"),
    ("4D", "93 00 05 01 08"),
    ("55", "A2 00 0D 30 30 30 30 30 31 32 33 34 35"),
    ("00", ""),
    ("FF", ""),
    ("45 4D", "91 00 08 31 32 33 34 35 93 00 05 01 08"),
]


def commands() -> None:
    """What each command gives."""
    for sent, expected in ANSWERS:
        board = Board(serial="12345", second_at=99.0)
        board.command(0.0, bytes.fromhex(sent))
        same(f"after {sent}", board.take(1.0).hex(), bytes.fromhex(expected).hex())
    board = Board(second_at=99.0)
    board.show(0.0, E2, 0)
    board.command(1.0, b"\x49")
    same("what was stored", board.take(2.0), bytes.fromhex("8F 00 08 7B 6A 40 34 6B"))


def modes() -> None:
    """What is sent unasked: the squares after 43, 44 and 4B, the clock each second after 43, and where it changes after 4B."""
    stands = bytes.fromhex("8D 00 0A 00 05 00 00 05 00 0A")
    for sent, expected in (
        ("", b""),
        ("43", UPDATE + stands * 3),
        ("44", UPDATE),
        ("4B", UPDATE + stands),
        ("4B 40", b""),
        ("4B 42", DUMP + UPDATE + stands),
    ):
        board = Board(clock=Clock(300))
        board.command(0.0, bytes.fromhex(sent))
        board.show(0.0, E2, 0)
        same(f"after {sent or 'nothing'}", board.take(3.5), expected)
    board = Board(clock=Clock(300))
    board.command(0.0, b"\x4b")
    board.take(1.5)
    assert board.clock
    board.clock.start(1.5)
    running = "8D 00 0A 00 04 {} 00 05 00 0B"  # at 2 s and 3 s it has run for 0.5 s and 1.5 s: 4:60 is shown as 5:00
    same("it runs", board.take(3.5), bytes.fromhex("8D 00 0A 00 05 00 00 05 00 0B" + running.format("59")))
    board.clock.stop(3.5)
    stopped = bytes.fromhex("8D 00 0A 00 04 58 00 05 00 0A")
    same("stopped", board.take(5.5), stopped)
    board.command(5.5, b"\x4b")
    same("asked again it says once more how the clock stands", board.take(9.0), stopped)
    board.fall_idle(9.0)
    board.show(9.0, E2, 0)
    same("a board that falls idle", board.take(19.0), b"")
    board.command(19.0, b"\x42")
    same("answers still", board.take(19.5)[:3], DUMP[:3])
    alone = Board()
    alone.command(0.0, b"\x4b")
    same("no clock, which is said once", alone.take(5.0), bytes.fromhex("8D 00 0A 00 00 00 00 00 00 20"))


def troubles() -> None:
    """A late dump, commands that are missed, power that fails, a line that is held."""
    late = Board(manner=Manner(late=(0.5, 0.5)), second_at=99.0)
    late.command(0.0, b"\x42\x4b")
    late.show(0.1, E2, 0)
    same("an update overtakes it", late.take(0.5), UPDATE)
    same("it has what was seen as it was asked", (late.take(0.569), late.take(0.57)), (DUMP[:66], DUMP[66:]))
    deaf = Board(manner=Manner(missed=1.0), second_at=99.0)
    deaf.command(0.0, b"\x42\x4b")
    deaf.show(0.1, E2, 0)
    same("it misses what it is sent", deaf.take(1.0), b"")
    off = Board(second_at=99.0)
    off.command(0.0, b"\x42\x4b")
    same("half of a dump", len(off.take(0.035)), 33)
    off.power(0.035, False)
    off.show(0.1, E2, 0)
    off.command(0.2, b"\x42")
    same("without power", (off.take(1.0), off.due()), (b"", 99.0))
    off.power(1.0, True)
    off.show(1.1, H1, 0)
    same("with it again it has forgotten that updates were wanted", off.take(2.0), b"")
    off.command(2.0, b"\x42")
    same("and knows all squares", off.take(3.0), DUMP[: 3 + E2] + b"\x00" + DUMP[4 + E2 : 66] + b"\x00")
    slow = Board(manner=Manner(late=(1.0, 1.0)), second_at=99.0)
    slow.command(0.0, b"\x42")
    slow.power(0.5, False)
    slow.power(0.6, True)
    same("an answer from before is never sent", slow.take(5.0), b"")
    held = Board(second_at=99.0)
    held.command(0.0, b"\x4b")
    held.line.hold(3.0)
    for number in range(3):
        held.show(0.2 * number, E2, 0 if number % 2 == 0 else WHITE_PAWN)
    pieces = UPDATE + bytes.fromhex("8E 00 05 34 01") + UPDATE
    same("a burst", (held.take(2.99), held.take(3.0)), (b"", pieces))
    noisy = Board(manner=Manner(noise=Noise(lost=1.0)), second_at=99.0)
    noisy.command(0.0, b"\x42")
    same("a line that loses all", noisy.take(1.0), b"")


TABLES = [paces, spoiled_bytes, clocks, scans, commands, modes, troubles]
