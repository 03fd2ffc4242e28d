"""Boards behind serial servers: their addresses, and what waits until a board has answered."""

from typing import List, Optional, Tuple

from live.line.line import Address, Trial, is_network, read_address, same_line

from decided.table import same


def addresses() -> None:
    """What is an address, and of what."""
    cases: List[Tuple[str, Optional[Address]]] = [
        ("tcp://192.168.1.20:2001", Address("192.168.1.20", 2001)),
        ("tcp://Pi.local:1", Address("pi.local", 1)),
        ("TCP://pi:65535/", Address("pi", 65535)),
        ("tcp://[FE80::1%eth0]:2001", Address("fe80::1%eth0", 2001)),
        ("tcp://[::1]:2001", Address("::1", 2001)),
        ("tcp://pi:0", None),
        ("tcp://pi:65536", None),
        ("tcp://pi", None),
        ("tcp://pi:", None),
        ("tcp://:2001", None),
        ("tcp://::1:2001", None),
        ("tcp://a@pi:2001", None),
        ("tcp://pi:2001/x", None),
        ("tcp://p i:2001", None),
        ("tcp://pi:２００１", None),
        ("tcp://" + "a" * 253 + ":1", Address("a" * 253, 1)),
        ("tcp://" + "a" * 254 + ":1", None),
        ("/dev/ttyUSB0", None),
    ]
    for text, expected in cases:
        same(text, read_address(text), expected)
        same(f"{text} is in the network", is_network(text), text.lower().startswith("tcp:"))
        if expected:
            same(f"{text} written again", read_address(str(expected)), expected)
    for text in "192.168.1.20:2001", "pi.local:2001", "[::1]:2001", "localhost:2001", "tcp:/192.168.1.20:2001":
        same(f"{text} is meant for one", (is_network(text), read_address(text)), (True, None))
    same("cables", [is_network(text) for text in ("usb-1", "pci-0000:00:14.0-usb-0:1:1.0-port0", "/dev/a.b:1", "d", "")], [False] * 5)
    same("one name", same_line("TCP://PI:2001/"), "tcp://pi:2001")
    same("a malformed one", same_line("tcp://PI"), "tcp://PI")
    same("a device", same_line("/dev/../dev/null"), "/dev/null")


def waits_for_a_dump() -> None:
    """What is passed on after each thing that was tried."""
    first, second, third = b"\x8e\x00", b"\x05\x0c", b"dump"
    trial = Trial(0.0)
    same("nothing yet", [tried(trial, first), tried(trial, second), trial.has_answered], [b"", b"", False])
    same("all in order", (tried(trial, third, True), trial.has_answered), (first + second + third, True))
    trial = Trial(0.0)
    for number in range(100):
        same(f"waits {number}", tried(trial, bytes([number]) * 1024), b"")
    passed = tried(trial, third, True)
    same("the last four kilobytes", passed, b"".join(bytes([number]) * 1024 for number in (96, 97, 98, 99)) + third)


def tried(trial: Trial, sent: bytes, dumped: bool = False) -> bytes:
    """This has come, and is tried at once."""
    trial.came(sent)
    return trial.passes(len(sent), dumped)


def tried_later() -> None:
    """More comes before the program has said what ended in it."""
    trial = Trial(0.0)
    same("nothing waits", trial.is_tried, True)
    for number in range(20):
        trial.came(bytes([number]) * 1000)
    same("what wasn't tried stays", (trial.is_tried, trial.passes(1000, False), len(trial.said)), (False, b"", 0))
    whole = b"".join(bytes([number]) * 1000 for number in range(20))
    same("the oldest go once five thousand were tried", [trial.passes(1000, False) for _ in range(4)], [b""] * 4)
    same("with all that has come behind the dump", trial.passes(1000, True), whole[1000:])
    trial = Trial(0.0)
    for _ in range(3):
        trial.came(b"abc")
    seen = [(trial.passes(size, False), trial.is_tried) for size in (3, 6)]
    same("some of it tried together", seen, [(b"", False), (b"", True)])
    same("it said", trial.said, "abcabcabc")


def what_it_said() -> None:
    """The text of a server, if it is text."""
    for sent, expected in (
        (b"Port already in use\r\n", "Port already in use"),
        (b"a\r\n\tb", "a b"),
        (b"x" * 100, "x" * 60),
        (b"\x1b[2Jlogin:", ""),
        (b"\x86\x00\x43", ""),
        (b"", ""),
    ):
        trial = Trial(0.0)
        tried(trial, sent)
        same(f"{sent!r}", trial.said, expected)


def floods() -> None:
    """How many bytes came at which second after the connection, and whether a board may have sent them: 1,920 a second, and 65,536
    together."""
    cases: List[List[Tuple[float, int, bool]]] = [
        [(0.0, 65536, False), (0.0, 1, True)],
        [(0.0, 65536, False), (1.0, 1920, False), (1.0, 1, True)],
        [(0.0, 65536, False), (100.0, 65536, False), (100.0, 1, True)],  # what was not sent isn't saved up
        [(float(second), 960, False) for second in range(200)],
        [(float(second), 1920, False) for second in range(200)],
        [(float(second), 3840, second * 1920 + 3840 > 65536) for second in range(40)],
    ]
    for number, came in enumerate(cases):
        trial = Trial(50.0)
        for second, size, expected in came:
            same(f"{number}: {size} at {second}", trial.is_flood(50.0 + second, size), expected)


TABLES = [addresses, waits_for_a_dump, tried_later, what_it_said, floods]
