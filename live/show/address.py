"""Where a page is served, `--page [ADDRESS:]PORT`, and the names by which it may be asked for, `--page-host NAME`.

Where a game or a round was shown last is kept beside it: it is shown there again until another place, or none, is given. A place is kept
only once something is shown there."""

from __future__ import annotations

import contextlib
import ipaddress
import os
import re
import socket
from dataclasses import dataclass
from typing import Callable, Dict, FrozenSet, Iterable, List, NamedTuple, Optional, Sequence, Tuple

from live.game.files import NO_SUCH_FILE, Paths, beginning, not_written, put_in_place, text_of
from live.run.refused import ARGUMENTS, FAILED, REFUSED, Refused
from live.words.message import Message, linked

HERE = "127.0.0.1"
SHAPE = re.compile(r"(?:(?:\[(?P<bracketed>[^\[\]]*)\]|(?P<plain>[^\[\]]*)):)?(?P<port>[^:\[\]]*)")
HIGHEST_PORT = 65535
NO_PAGE = "no"
LONGEST_NAME = 253  # letters of a host name, as DNS has it
NAME = re.compile(r"(?=.*[a-z])[0-9a-z_](?:[0-9a-z_-]*[0-9a-z_])?(?:\.[0-9a-z_](?:[0-9a-z_-]*[0-9a-z_])?)*")
SITE = re.compile(r"https?://(?P<name>[0-9a-z._-]+)(?::[0-9]{1,5})?")
HOST = re.compile(r"(?:\[(?P<bracketed>[^\[\]]*)\]|(?P<plain>[^\[\]:]*))(?::[0-9]*)?")
LONGEST_KEPT = 65536  # bytes of the file that keeps it
GIVE_ONE = Message("page.give_one")


class Address(NamedTuple):
    """An address in numbers, and a port."""

    host: str
    port: int

    @property
    def text(self) -> str:
        """The address as in a URL."""
        return f"[{self.host}]:{self.port}" if ":" in self.host else f"{self.host}:{self.port}"


@dataclass(frozen=True)
class Names:
    """The names of this computer, in lower case. No other name is answered: somebody else's page may have its own name lead
    here, and could then read what is served."""

    names: FrozenSet[str]

    def allow(self, host: Optional[str]) -> bool:
        """Whether a request may name this host, perhaps with a port: an address in numbers, or one of the names. None is allowed
        too, since browsers always name one."""
        if host is None:
            return True
        match = HOST.fullmatch(host)
        if not match:
            return False
        bracketed, plain = match.group("bracketed", "plain")
        if bracketed is not None:
            return _is_address(ipaddress.IPv6Address, bracketed)
        name = plain.lower()
        return (name[:-1] if name.endswith(".") else name) in self.names or _is_address(ipaddress.IPv4Address, plain)


@dataclass(frozen=True)
class Door:
    """Where a page is served, the names by which it may be asked for, and the password that readers must give, if any."""

    address: Address
    names: Names
    password: str = ""
    embed: str = ""  # the site that may show the page in a frame


def names_of(own: str, given: Iterable[str]) -> Names:
    """The names of a computer that calls itself `own`, and those that were given."""
    own = own.lower().rstrip(".")
    short = own.partition(".")[0]
    found = {"localhost", own, short, f"{short}.local", *given}
    return Names(frozenset(name for name in found if NAME.fullmatch(name)))


def read_names(texts: Iterable[str]) -> Names:
    """The names of this computer, and those of each `--page-host NAME[,NAME..]`. Refused if one isn't a name."""
    given = [name.strip().lower().rstrip(".") for text in texts for name in text.split(",")]
    for name in given:
        if len(name) > LONGEST_NAME or not NAME.fullmatch(name):
            reason = Message("page.host_how")
            raise Refused(ARGUMENTS, Message("page.host", name=repr(name), why=reason))
    return names_of(socket.gethostname(), given)


def _is_address(kind: Callable[[str], object], text: str) -> bool:
    try:
        kind(text)
        return True
    except ValueError:
        return False


def read_address(text: str, option: str = "--page") -> Address:
    """`8000` is port 8000 of this computer alone; `0.0.0.0:8000` is for all that can reach it; `[::1]:8000` has an IPv6
    address. Refused, with what to type, if it is none of them."""
    match = SHAPE.fullmatch(text)
    if not match:
        raise _refused(option, text, Message("page.address_how"))
    bracketed, plain, port = match.group("bracketed", "plain", "port")
    if bracketed is None and plain and ":" in plain:
        raise _refused(option, text, Message("page.brackets"))
    if not (port.isascii() and port.isdigit() and len(port) <= 5 and 1 <= int(port) <= HIGHEST_PORT):
        raise _refused(option, text, Message("page.port", most=HIGHEST_PORT))
    return Address(HERE if bracketed is None and plain is None else _host(option, text, (bracketed, plain)), int(port))


def _host(option: str, text: str, host: Tuple[str, str]) -> str:
    bracketed, plain = host
    if plain == "localhost":
        return HERE
    try:
        return str(ipaddress.IPv4Address(plain) if bracketed is None else ipaddress.IPv6Address(bracketed))
    except ValueError:
        kind = Message("page.four_numbers") if bracketed is None else Message("page.in_brackets")
        raise _refused(option, text, Message("page.before_the_port", kind=kind)) from None


def _refused(option: str, text: str, reason: str) -> Refused:
    return Refused(ARGUMENTS, linked("colon", (f"{option} {text!r}", reason)))


@dataclass(frozen=True)
class Pages:
    """Where the pages are served. Without a page for spectators the arbiter has one only if he asks for it. `words` are the options
    that say so; `ends` if there is to be none."""

    spectators: Optional[Address] = None
    arbiter: Optional[Address] = None
    names: Names = Names(frozenset())
    words: Tuple[str, ...] = ()
    ends: bool = False
    embed: str = ""  # the site that may show the spectators' page in a frame

    @property
    def any(self) -> bool:
        return bool(self.spectators or self.arbiter)


def read_site(text: str) -> str:
    """The origin of a site, as `https://chess.example.org`. Refused if it is something else."""
    site = text.strip().lower().rstrip("/")
    found = SITE.fullmatch(site)
    if not found or not (NAME.fullmatch(found["name"]) or _is_address(ipaddress.IPv4Address, found["name"])):
        raise Refused(ARGUMENTS, Message("option.embed_site", site=repr(text)))
    return site


def read_pages(page: Optional[str], arbiter_page: Optional[str], hosts: Sequence[str], embed: Optional[str] = None) -> Pages:
    """The pages that the options ask for; `--page no` asks for none. Refused if an option makes no sense."""
    spectators = None if page in (None, NO_PAGE) else read_address(page or "")
    arbiter = None if arbiter_page is None else read_address(arbiter_page, "--arbiter-page")
    words = [f"--page {spectators.text}"] if spectators else []
    words += [f"--arbiter-page {arbiter.text}"] if arbiter else []
    words += [f"--page-host {names}" for names in hosts]
    site = read_site(embed) if embed else ""
    words += [f"--embed {site}"] if site else []
    return Pages(spectators, arbiter, read_names(hosts), tuple(words), page == NO_PAGE, site)


def pages_of(paths: Paths, given: Optional[Pages]) -> Tuple[Pages, bool]:
    """Where it is shown from now on: the given pages, or else those that were kept; and whether they were kept. Refused if they
    can't be read."""
    if given is not None and (given.any or given.ends):
        return given, False
    kept = _kept(paths)
    return (kept, True) if kept else (Pages(), False)


def _kept(paths: Paths) -> Optional[Pages]:
    try:
        text = beginning(paths.pages, LONGEST_KEPT).decode("utf-8", "replace")
    except OSError as error:
        if error.errno in NO_SUCH_FILE:
            return None
        raise Refused(FAILED, Message("page.unreadable", path=paths.pages, why=text_of(error), give_one=GIVE_ONE)) from None
    values: Dict[str, str] = {}
    hosts: List[str] = []
    for line in text.splitlines():
        option, _, value = line.partition(" ")
        if option == "--page-host":
            hosts.append(value)
        else:
            values[option] = value
    try:
        return read_pages(values.get("--page"), values.get("--arbiter-page"), hosts, values.get("--embed"))
    except Refused as refused:
        raise Refused(REFUSED, Message("page.unreadable", path=paths.pages, why=refused.lines[0], give_one=GIVE_ONE)) from None


def keep_pages(paths: Paths, pages: Pages) -> None:
    """Keeps where it is shown, or that it is shown nowhere. Refused if that can't be written."""
    try:
        if pages.any:
            put_in_place(paths.pages, "".join(f"{line}\n" for line in pages.words).encode("utf-8"))
        else:
            with contextlib.suppress(FileNotFoundError):
                os.unlink(paths.pages)
    except OSError as error:
        raise Refused(FAILED, not_written(paths.pages, error)) from None
