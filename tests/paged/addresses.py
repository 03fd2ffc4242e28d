"""Where the page is served, and the names by which it is asked for: what may be typed, and what is refused with which word."""

from decided.table import refused, same

from live.doors import dgt_live, dgt_round
from live.run.refused import Refused
from live.show.address import Pages, names_of, read_address, read_names, read_pages

TAKEN = [
    ("8000", ("127.0.0.1", 8000), "127.0.0.1:8000"),
    ("1", ("127.0.0.1", 1), "127.0.0.1:1"),
    ("65535", ("127.0.0.1", 65535), "127.0.0.1:65535"),
    ("0.0.0.0:80", ("0.0.0.0", 80), "0.0.0.0:80"),
    ("192.168.1.5:8000", ("192.168.1.5", 8000), "192.168.1.5:8000"),
    ("localhost:8000", ("127.0.0.1", 8000), "127.0.0.1:8000"),
    ("[::1]:8000", ("::1", 8000), "[::1]:8000"),
    ("[::]:8000", ("::", 8000), "[::]:8000"),
    ("[0:0:0:0:0:0:0:1]:8000", ("::1", 8000), "[::1]:8000"),
]
REFUSED = [
    ("", "from 1 to 65535"),
    ("0", "from 1 to 65535"),
    ("65536", "from 1 to 65535"),
    ("123456", "from 1 to 65535"),
    ("-1", "from 1 to 65535"),
    ("+80", "from 1 to 65535"),
    ("8 0", "from 1 to 65535"),
    ("٨٠", "from 1 to 65535"),
    ("http", "from 1 to 65535"),
    ("192.168.1.5:", "from 1 to 65535"),
    ("192.168.1.5", "from 1 to 65535"),
    ("::1:8000", "brackets"),
    ("::1", "brackets"),
    (":8000", "four numbers"),
    ("192.168.1:8000", "four numbers"),
    ("192.168.1.256:8000", "four numbers"),
    ("hall.example:8000", "four numbers"),
    ("[::1]", "[ADDRESS:]PORT"),
    ("[::1]8000", "[ADDRESS:]PORT"),
    ("[::1:8000", "[ADDRESS:]PORT"),
    ("[192.168.1.5]:8000", "IPv6"),
    ("[]:8000", "IPv6"),
    ("[::g]:8000", "IPv6"),
    ("http://127.0.0.1:8000", "brackets"),
]


def typed() -> None:
    for text, address, shown in TAKEN:
        read = read_address(text)
        same(f"--page {text}", (tuple(read), read.text), (address, shown))
    same("no page", read_pages("no", None, []), Pages(names=read_names([]), ends=True))
    pages = read_pages("0.0.0.0:8000", "8001", ["chess.example.org"])
    same("to be kept", pages.words, ("--page 0.0.0.0:8000", "--arbiter-page 127.0.0.1:8001", "--page-host chess.example.org"))
    for text, word in REFUSED:
        said = refused(f"--page {text}", Refused, read_address, text)
        same(f"--page {text} says what to type", word in said, True)


# The recorder's computer calls itself Hall.club.example, and --page-host has given chess.example.org.
OWN_HOSTS = [
    None, "localhost", "localhost:8000", "LOCALHOST", "localhost.", "127.0.0.1", "127.0.0.1:8000", "192.168.1.5:80",
    "203.0.113.9", "[::1]", "[::1]:8000", "[2001:db8::7]:8000", "hall", "hall:8000", "Hall.Club.Example", "hall.club.example.",
    "hall.local", "chess.example.org", "Chess.example.org:8000",
]  # fmt: skip
OTHER_HOSTS = [
    "", ":8000", ".", "x", "evil.example", "evil.example:8000", "127.0.0.1.evil.example", "localhost.evil.example",
    "evil.localhost", "xlocalhost", "localhost..", "org", "example.org", "www.chess.example.org", "club.example", "::1",
    "[::1", "::1]", "[]", "[127.0.0.1]", "[localhost]", "127.0.0.1:x", "127.0.0.256", "127.1", "2130706433", "0x7f000001", "localhost@evil.example",
    "evil.example@localhost", "localhost, evil.example", "localhost evil.example", "localhost/", "localh\u00f6st",
]  # fmt: skip
NO_NAMES = ["", "a b", "http://hall.example", "hall.example:8000", "hall.example/", "-hall", "hall-", "hall..example",
            "h\u00f6lle", "192.168.1.5", "a" * 254, "hall.example,", "*", "*.example"]  # fmt: skip


def named() -> None:
    names = names_of("Hall.club.example", ["chess.example.org"])
    for host in OWN_HOSTS:
        same(f"Host: {host}", names.allow(host), True)
    for host in OTHER_HOSTS:
        same(f"Host: {host}", names.allow(host), False)
    given = read_names(["hall.example,Chess.Example.org.", " third.example"])
    for host in ("hall.example", "chess.example.org", "third.example", "localhost"):
        same(f"--page-host: {host}", given.allow(host), True)
    for text in NO_NAMES:
        said = refused(f"--page-host {text[:20]}", Refused, read_names, [text])
        same(f"--page-host {text[:20]} says what to type", "as chess.example.org" in said, True)
    same("a computer without a name", names_of("", []).allow(""), False)


def options() -> None:
    live = ["--page-host", "a.example", "/dev/null", "game"]
    for what, call, words in [
        ("dgt_live", dgt_live.parse, live),
        ("dgt_round", dgt_round.parse, ["round.csv", "--page-host=a.example"]),
    ]:
        said = refused(f"{what} --page-host without --page", Refused, call, words)
        same(f"{what} says what lacks", "--page PORT" in said, True)
    served = dgt_live.parse([*live, "--page=8000", "--page-host=b.example,c.example"]).pages
    same("dgt_live: no page", dgt_live.parse(["/dev/null", "game"]).pages, None)
    assert served
    same("dgt_live: more than one", [served.names.allow(f"{name}.example") for name in "abcd"], [True, True, True, False])
    pages = dgt_round.parse(["round.csv", "--page", "8000", "--page-host", "a.example", "--page-host=b.example,c.example"]).pages
    same("dgt_round: more than one", [pages.names.allow(f"{name}.example") for name in "abcd"], [True, True, True, False])


TABLES = [typed, named, options]
