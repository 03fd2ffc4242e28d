"""Options: the words of a call of the program, what is typed for a tag, and a command line whose values look like options; the table of the
options, with which `--help`, man pages and completion agree."""

import pathlib
import re
from typing import Dict, Set, Tuple

from live.doors import dgt_live, dgt_round
from live.doors.options import LIVE, OPTIONS as TABLE, ROUNDS, Option
from live.game.opening import recordable, turned
from live.game.options import PUBLISHED, Options, as_typed, assigned
from live.game.tags import Malformed, value_of
from live.out.publish import argument
from live.run.refused import ARGUMENTS, Refused
from live.table.pairings import Pairing

from decided.cases import cases
from decided.table import refused, same

OPTIONS = {name: option for option, name in PUBLISHED.items()}


def expanded(text: str) -> str:
    """`x*101` is so many letters."""
    letter, star, times = text.partition("*")
    return letter * int(times) if star else text


def words() -> None:
    """An option and its value are one word in each call of the program, whatever the value begins with."""
    for given, of_recording, of_reading in cases("options", "options"):
        options = Options(**given)
        same(f"record {given}", list(options.of_record()), of_recording)
        same(f"watch {given}", list(options.of_board()), of_reading)
        same(f"live {given}", sorted(options.of_live()), sorted(of_recording + ["--recover"] * bool(options.recover)))
        same(f"{given} is kept", Options.of_text(options.text()), options)
        same(f"{given} as it is typed", Options.of_words(as_typed(options.words())), options.begun(None))


def typed() -> None:
    """A text for a tag is recorded and published, or refused with what to type."""
    for tag, text, recorded, publishes in cases("options", "typed"):
        given = Options.of_words([assigned(OPTIONS[tag], value_of(tag, expanded(text)))])
        options = turned(recordable(given, lambda option: "White 7"))
        seen = (options.value(OPTIONS[tag]), options.written(OPTIONS[tag]))
        same(f"{tag} {text}", seen, (expanded(recorded), expanded(publishes)))
    for text in cases("options", "refused"):
        told = refused(repr(text), Malformed, value_of, "White", expanded(text))
        same(f"{text!r} says what to type", "type" in told, True)


ODD = ["-", "--", "-1", "-bye-", "- Open -", "=x", " x ", "'", '"', "\\", "-h", "--5", "--", "---"]
LIKE_OPTIONS = ["--white", "--rotated", "--help", "--Open"]


def command_lines() -> None:
    """A value is taken as it is typed, in one word with its option or in the next one; one that looks like an option only in one."""
    for value in ODD:
        for given in ((f"--white={value}",), ("--white", value)):
            same(f"dgt_live {given}", dgt_live.parse(["/dev/x", "game", *given]).options, Options(white=value))
        for given in ((f"--event={value}",), ("--event", value)):
            same(f"dgt_round {given}", dgt_round.parse(["table.csv", *given]).options, Options(event=value))
    for word in ("--place", "--site"):  # ours, and PGN's
        for given in ((f"{word}=Basel",), (word, "Basel")):
            same(f"dgt_live {given}", dgt_live.parse(["/dev/x", "game", *given]).options, Options(site="Basel"))
            same(f"dgt_round {given}", dgt_round.parse(["t.csv", *given]).options, Options(site="Basel"))
        told = refused(word, Refused, dgt_live.parse, ["/dev/x", "game", word])
        same(f"{word} alone", told, f"{word} wants a value: see dgt_live --help")
    for word in ("--output", "--web", "--embed"):
        for given in ((f"{word}=x",), (word, "x")):
            told = refused(f"dgt_live {given}", Refused, dgt_live.parse, ["/dev/x", "game", *given])
            same(f"dgt_live {given}", told, f"{word} is an option of dgt_round, which records one board too: write a table of one line for it")
    same("a place as it is said", as_typed(Options(site="Basel").words()), ["--place", "Basel"])
    same("and as it is kept", Options(site="Basel").text(), "--site=Basel\n")
    for value in LIKE_OPTIONS:
        same(f"dgt_live --white={value}", dgt_live.parse(["/dev/x", "game", f"--white={value}"]).options, Options(white=value))
        same(f"dgt_round --event={value}", dgt_round.parse(["t.csv", f"--event={value}"]).options, Options(event=value))
        told = refused(value, Refused, dgt_live.parse, ["/dev/x", "game", "--white", value])
        same(f"dgt_live --white {value}", told, f"--white wants a value, and {value} looks like an option. As a text it is typed --white={value}")
        told = refused(value, Refused, dgt_round.parse, ["t.csv", "--event", value])
        same(f"dgt_round --event {value}", told, f"--event wants a value, and {value} looks like an option. As a text it is typed --event={value}")


def names() -> None:
    """A name that begins with `-` is refused with what to type; typed so, it is taken for no option, nor by the command that publishes."""
    for name in ("-game", "--", "--colour", "-1"):
        for parse in (dgt_live.parse, dgt_round.parse):
            told = refused(name, Refused, parse, [name, "game"])
            same(f"{parse.__module__} {name}", (f"there is no option {name}" in told, f"./{name}" in told), (True, True))
    same("a name with a dot before it", dgt_live.parse(["/dev/x", "./-game"]).name, "./-game")
    paths: Tuple[Tuple[str, str], ...] = (("-r3/broadcast.pgn", "./-r3/broadcast.pgn"), ("r3/-.pgn", "r3/-.pgn"), ("/-x", "/-x"))
    for path, expected in paths:
        same(f"published {path}", argument(path), expected)


def tables() -> None:
    """The names in a round's table are taken as they are, with the options of all games."""
    for value in (*ODD, *LIKE_OPTIONS):
        pairing = Pairing(2, 1, "/dev/x", value, value, tags=(("Annotator", value),))
        same(f"white and black {value!r}", Options.of_words(pairing.words(Options(event=value, round=value).words())),
             Options(event=value, round=value, white=value, black=value, tags=(("Annotator", value),)))  # fmt: skip


def refused_breaks() -> None:
    """A value with a line break can't be kept: it is refused, with what to type."""
    told = refused("a line break", Refused, Options(white="a\nb").refuse_breaks)
    same("a line break", told, "--white has a line break in it: type 'a\\nb' in one line")
    same("status", ARGUMENTS, 2)


TOP = pathlib.Path(__file__).resolve().parents[2]
OPTION = re.compile(r"(?<![\w-])--[a-z]+(?:-[a-z]+)*")
OTHER_NAMES = {option.also for option in TABLE}
NONE: Set[str] = set()
HELPS = ((LIVE, dgt_live.HELP, NONE), (ROUNDS, dgt_round.HELP, {"--devices"}))  # the last one names an option of the other command too


def of(command: str) -> Dict[str, Option]:
    """The options that a command has."""
    return {option.name: option for option in TABLE if command in option.of}


def on_the_man_page(page: str) -> Dict[str, str]:
    """The options to which a man page has an entry, each with what its value is called."""
    section = page.partition(".SH OPTIONS\n")[2].partition("\n.SH ")[0]
    entries = [re.sub(r"\\f[A-Z]|\"", "", entry.replace("\\-", "-")) for entry in re.findall(r"(?m)^\.TP\n\.[A-Z]+ (.*)$", section)]
    found: Dict[str, str] = {}
    for entry in entries:
        for part in re.split(r", +(?=-)", entry):
            name, _, value = part.partition(" ")
            found.setdefault(name, value.strip())
    return found


def completed(script: str, command: str) -> Set[str]:
    """The options that bash offers for a command."""
    variables = dict(re.findall(r"(\w+)='([^']*)'", script))
    found = re.search(rf'(?m)^ +{command},\*\) words="(.*)"', script)
    assert found
    return set(re.sub(r"\$(\w+)", lambda name: variables[name[1]], found[1]).split())


def one_table() -> None:
    """The help, the man page and the completion of each command have the options of the table, and no other."""
    script = (TOP / "bin" / "completion.bash").read_text()
    for command, told, others in HELPS:
        has = of(command)
        same(f"{command} --help", sorted({*OPTION.findall(told), "--help"} - others - OTHER_NAMES), sorted(has))
        page = on_the_man_page((TOP / "docs" / f"{command}.1").read_text())
        same(f"the man page of {command}", sorted(set(page) - OTHER_NAMES), sorted(has))
        values = {name: option.value for name, option in has.items() if option.value}
        same("the names of the values there", {name: page[name] for name in values}, values)
        same(f"the completion of {command}", sorted(completed(script, command) - OTHER_NAMES), sorted(has))
        free = set(re.findall(r"\*,(--[a-z-]+)", script))
        same("nothing is offered where a value is written", sorted(set(values) - free - {"--web"}), [])


TABLES = [words, typed, command_lines, names, tables, refused_breaks, one_table]
