"""The options of both commands, in one table: a command line is read by it, and `--help`, man pages and completion are compared with it.
How a call begins, and how it ends: its standard streams, its complaints, its status.

A command line is read here, and not by argparse: that costs a twentieth of a start, and takes `-1` and `--`, which may be names, for
options.
"""

from __future__ import annotations

import importlib
import os
import sys
from typing import Callable, List, NamedTuple, Optional, Sequence, Tuple

from live.game.options import PLACE, PLAIN, RECOVER, ROTATED, STRICT, TAG, VALUED, assigned, meant, value_of, with_help
from live.game.tags import Malformed, pair_of
from live.run.loop import Signals
from live.run.refused import ARGUMENTS, COMMANDS, DGT_LIVE, DGT_ROUND, DONE, FAILED, Refused, printable
from live.run.system import raise_limit
from live.show.address import Pages, read_pages
from live.show.terminal import folded_for, leave_as_found, open_standard_streams
from live.words.message import Message

LIVE, ROUNDS = COMMANDS
ADDRESS = "[ADDRESS:]PORT"
SEE_HELP = {LIVE: Message("help.live", dgt_live=DGT_LIVE), ROUNDS: Message("help.round", dgt_round=DGT_ROUND)}
Outcome = Tuple[int, Sequence[str]]  # a status, and complaints


class Option(NamedTuple):
    """An option: the commands that have it, what its value is called, if it has one, and another name for it."""

    name: str
    of: Tuple[str, ...] = COMMANDS
    value: str = ""
    also: str = ""
    is_of_rounds: bool = False  # it is told so to who gives it to dgt_live


OPTIONS = (
    # The game: how its board lies, how it begins, what its tags say.
    Option(ROTATED, (LIVE,)),
    Option("--first", (LIVE,), "SIDE"),
    Option("--fen", (LIVE,), "TEXT"),
    Option("--event", value="TEXT"),
    Option(PLACE, value="TEXT", also="--site"),
    Option("--date", value="TEXT"),
    Option("--round", value="TEXT"),
    Option("--white", (LIVE,), "TEXT"),
    Option("--black", (LIVE,), "TEXT"),
    Option(TAG, value="NAME=VALUE"),
    Option(RECOVER),
    Option(STRICT),
    # How it is recorded.
    Option("--series", (LIVE,)),
    Option("--once", (LIVE,)),
    Option("--encoding", (ROUNDS,), "NAME"),
    Option("--matches", (ROUNDS,), "no"),
    # What others see of it, and when.
    Option("--page", value=ADDRESS),
    Option("--page-host", value="NAME"),
    Option("--arbiter-page", value=ADDRESS),
    Option("--embed", (ROUNDS,), "https://SITE", is_of_rounds=True),
    Option("--web", (ROUNDS,), "FOLDER", is_of_rounds=True),
    Option("--delay", value="MINUTES"),
    Option("--hold", value="SECONDS"),
    Option("--publish", value="COMMAND"),
    Option("--output", (ROUNDS,), "'NAME = MINUTES, [web FOLDER, ][COMMAND]'", is_of_rounds=True),
    # What records nothing.
    Option("--add", (LIVE,), "TEXT"),
    Option("--back", (LIVE,), "PLY"),
    Option("--pack", (LIVE,)),
    Option("--devices", (LIVE,)),
    Option("--new", (ROUNDS,)),
    Option("--help", also="-h"),
    Option("--version", also="-V"),
)
BY_NAME = {name: option for option in OPTIONS for name in (option.name, option.also) if name}


def with_values(command: str) -> Tuple[str, ...]:
    """The options of a command that have a value, as they are kept."""
    return tuple(meant(option.name) for option in OPTIONS if option.value and command in option.of)


class Given(NamedTuple):
    """The command line of a command: its words that are no options, and its options with their values, in their order."""

    command: str
    plain: Tuple[str, ...]
    options: Tuple[Tuple[str, str], ...]

    def refused(self, why: str) -> Refused:
        """It makes no sense, for this reason."""
        return Refused(ARGUMENTS, with_help(why, SEE_HELP[self.command]))

    def all(self, *names: str) -> List[str]:
        """The values of options with these names."""
        return [value for name, value in self.options if name in names]

    def last(self, name: str) -> Optional[str]:
        """The value that counts; None if the option isn't given."""
        return self.all(name)[-1] if self.has(name) else None

    def has(self, name: str) -> bool:
        """Whether an option is given."""
        return any(name == one for one, _ in self.options)

    def of_game(self) -> List[str]:
        """The words that say how the board lies, how the game begins, and what its tags say."""
        words = [name if name in PLAIN else assigned(name, value) for name, value in self.options if name in (*PLAIN, *VALUED, TAG)]
        if RECOVER in words and STRICT in words:
            raise self.refused(Message("option.recover_or_strict", recover=RECOVER, strict=STRICT))
        return words


def read(command: str, arguments: Sequence[str]) -> Given:
    """What the arguments of a command are, up to --help and --version. Refused with status 2 if one is unknown, or lacks its value."""
    left, plain, options = list(arguments), [], []  # type: List[str], List[str], List[Tuple[str, str]]
    while left:
        word = left.pop(0)
        name, equals, value = word.partition("=")
        option = BY_NAME.get(name)
        if option and option.is_of_rounds and command == LIVE:
            raise Refused(ARGUMENTS, Message("option.of_rounds", option=name))
        is_known = option is not None and command in option.of and (bool(option.value) or not equals or word in PLAIN)
        if option is None or not is_known:
            if word.startswith("-") and len(word) > 1:  # it may also be a name
                raise Refused(ARGUMENTS, with_help(Message("option.unknown_or_name", word=word), SEE_HELP[command]))
            plain.append(word)
        elif not option.value:
            options.append((word if word in PLAIN else option.name, ""))
            if option.name in ("--help", "--version"):
                break
        else:
            value = value if equals else typed_value(name, left, SEE_HELP[command])
            options.append((meant(option.name), typed_tag(value, SEE_HELP[command]) if name == TAG else value))
    return Given(command, tuple(plain), tuple(options))


def pages_given(given: Given) -> Optional[Pages]:
    """Where pages are served; None if nothing is said of that."""
    page, arbiter_page, embed, hosts = given.last("--page"), given.last("--arbiter-page"), given.last("--embed"), given.all("--page-host")
    if hosts and not (page or arbiter_page):
        raise given.refused(Message("option.page_host_without_page"))
    return None if page is None and arbiter_page is None else read_pages(page, arbiter_page, hosts, embed)


class Outgoing(NamedTuple):
    """How late a game goes out, in seconds, and by which command; None leaves it as it was. For how many seconds a last ply must stand."""

    delay: Optional[float] = None
    publish: Tuple[str, ...] = ()
    hold: Optional[float] = None


def out_given(given: Given) -> Outgoing:
    """How the game goes out. What reads that is loaded only if it is needed."""
    delay, publish, hold = map(given.last, ("--delay", "--publish", "--hold"))
    if delay is publish is hold is None:
        return Outgoing()
    reads = importlib.import_module("live.out.delay")
    return Outgoing(
        None if delay is None else reads.read_delay(delay),
        () if publish is None else reads.read_command(publish),
        None if hold is None else reads.read_hold(hold),
    )


def typed_value(option: str, left: List[str], see_help: str) -> str:
    """The next word as somebody typed it. One that looks like an option is refused: a value may have been forgotten."""
    value = value_of(option, left, see_help)
    if value[:2] == "--" and value[2:3].isalpha():
        what = Message("option.wants_value_not", option=option, value=value)
        raise Refused(ARGUMENTS, Message("option.as_a_text", what=what, typed=assigned(option, value)))
    return value


def typed_tag(text: str, see_help: str) -> str:
    """`NAME=VALUE` as it was typed, with the name and the value as PGN has them."""
    try:
        return "=".join(pair_of(text))
    except Malformed as error:
        raise Refused(ARGUMENTS, with_help(Message("option.malformed_tag", tag=TAG, why=error.message), see_help)) from None


def through(command: str, call: Callable[[Signals], Outcome]) -> int:
    """Makes the call, prints its complaints, and returns its status."""
    open_standard_streams()
    raise_limit()
    signals = Signals()
    status, complaint = DONE, ""
    try:
        status, complaints = call(signals)
        complaint = "".join(f"{command}: {printable(line)}\n" for line in complaints)
    except Refused as refused:
        status, complaint = refused.status, refused.text(command)
    except OSError as error:
        status, complaint = FAILED, f"{command}: {printable(str(error))}\n"
    finally:
        leave_as_found()
    try:
        if sys.stdout:
            sys.stdout.flush()
        os.write(2, folded_for(2, complaint, "  ").encode("utf-8", "backslashreplace"))
    except OSError:
        pass  # nobody reads it any more
    return status
