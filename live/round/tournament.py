"""A tournament in a folder: its settings, its hall's boards, the tables of its rounds as they come, and a folder for each round; where
the games of a round without a tournament are kept. The settings are lines of `NAME = VALUE`, each an option of dgt_round or a tag of what
is published."""

from __future__ import annotations

import contextlib
import os
import pathlib
import re
import shlex
from dataclasses import dataclass
from typing import Callable, Dict, List, Optional, Sequence, Tuple

from live.board.connection import ask
from live.child.program import Program
from live.game import files
from live.game.options import RECOVER, STRICT, TAG
from live.game.tags import known_name
from live.line.line import devices
from live.out.outputs import OUTPUT as OPTION, read_name, read_output
from live.run.refused import ARGUMENTS, DGT_ROUND, FAILED, REFUSED, Refused
from live.table.encoding import encoding_in, known_encoding, loose_text, text_of
from live.table.hall import BOARDS
from live.table.pairings import NO, YES, shown
from live.table.sheet import LARGEST, normal
from live.table.trf import head_of, is_report
from live.words.message import Message, linked

SETTINGS = "tournament.txt"
TABLES = (".csv", ".txt", ".tsv")
REPORTS = (".trf", ".trfx", ".trf16", ".txt")
NUMBER = re.compile("[0-9]{1,3}")
BOARDS_HEADER = "board;device;serial;rotated"
ROUND_HEADER = "board;white;white title;white elo;white fide id;black;black title;black elo;black fide id;result"
MOST_LISTED = 5  # files
PLACE = {"site": "place"}  # as the template has it: a site is also a folder of files
ALSO = {"place": "site", "tournament": "event", "dates": "date"}  # other names that arbiters use for some
FOR_A_ROUND = re.compile(r"(.*\D)\s+(\d{1,3})")  # `date 3`
PATH = re.compile(r"~|\.{0,2}/")  # how a folder begins
NAMED = re.compile(r"output(?:\s+(\S.*?))??(?:\s+(\d{1,3}))?", re.IGNORECASE)  # `output agency`, `output agency 3`
TEMPLATE = """\
# The settings of the tournament, for all its rounds. A line is NAME = VALUE; one that begins with # isn't read.
# With the number of a round behind the name a line is for that round alone: date 2 = 01.06.2024
event =
place =
date 1 =
date 2 =
date 3 =
# 90+30 is 90 minutes and 30 seconds a move; 40/90+30:30+30 are 40 moves in the first 90 minutes
time control =
# If a table isn't Unicode and its names look wrong: windows-1250 for Central Europe, windows-1251 for Cyrillic
encoding =
# Show the games to browsers: 8000 on this computer, 0.0.0.0:8000 in the whole network
page =
# The folder of a site of files, which any web host can serve
web =
# Minutes by which what goes out is late, and the command that takes it there
delay =
publish =
# More of these, each with a name, minutes and a command of its own: output agency = 3, /home/anna/agency.sh
"""


@dataclass(frozen=True)
class Tournament:
    """A round of a tournament in its folder."""

    folder: pathlib.Path
    number: int

    @property
    def games(self) -> str:
        """The folder of the round."""
        return str(self.folder / f"round{self.number}")

    @property
    def all_games(self) -> pathlib.Path:
        """The published texts of all rounds."""
        return self.folder / "all.pgn"

    @property
    def settings(self) -> pathlib.Path:
        """What is said once for all rounds."""
        return self.folder / SETTINGS

    def words(self, table: pathlib.Path, options: Tuple[str, ...], encoding: str = "") -> List[str]:
        """What the report and the settings say about the round, as words of a command line that has these options with a value. The
        encoding that is typed is that of all files that aren't Unicode; if none is, the settings may have it."""
        words = self._set(options, encoding)
        return [*self._reported(table, encoding or encoding_in(words)), *words]

    def encoding(self) -> str:
        """The encoding that the settings have now; empty if they have none."""
        try:
            return encoding_set(files.beginning(self.settings, LARGEST + 1), self.number)
        except OSError:
            return ""
        except Refused as refused:
            raise Refused(REFUSED, linked("colon", (str(self.settings), refused.lines[0]))) from None

    def _reported(self, table: pathlib.Path, encoding: str) -> List[str]:
        """What the tournament's report says about the round, if the pairs are read from one."""
        try:
            content = files.beginning(table, LARGEST + 1)
        except OSError:
            return []  # that is said when the pairs are read
        if not is_report(content):
            return []
        try:
            head = head_of(content, self.number, encoding)
        except Refused as refused:
            raise Refused(REFUSED, linked("colon", (str(table), refused.lines[0])), *refused.lines[1:]) from None
        said = (("--event", head.event), ("--site", head.site), ("--date", head.date))
        words = [f"{option}={value}" for option, value in said if value]
        return [*words, f"{TAG}=TimeControl={head.time_control}"] if head.time_control else words

    def _set(self, options: Tuple[str, ...], encoding: str) -> List[str]:
        path = self.settings
        try:
            return words_of(files.beginning(path, LARGEST + 1), self.number, options, encoding)
        except FileNotFoundError:
            return []
        except OSError as error:
            raise Refused(FAILED, Message("file.unreadable", path=path, why=files.text_of(error))) from None
        except Refused as refused:
            raise Refused(REFUSED, linked("colon", (str(path), refused.lines[0])), *refused.lines[1:]) from None

    def table(self) -> pathlib.Path:
        """The table of the round, or the report that has it. Refused if there is none, or more than one."""
        try:
            names = sorted(path for path in self.folder.iterdir() if path.is_file())
        except OSError as error:
            raise Refused(FAILED, Message("file.unreadable", path=self.folder, why=files.text_of(error))) from None
        tables = [path for path in names if path.suffix.lower() in TABLES and self._is_named(path) and not _is_report(path)]
        reports = [path for path in names if path.suffix.lower() in REPORTS and _is_report(path)]
        pairs = [path for path in tables if not _is_empty(path)]
        found = pairs or [path for path in reports if self._is_named(path)] or reports
        if len(found) == 1:
            return found[0]
        if found:
            listed = ", ".join(path.name for path in found[:MOST_LISTED])
            raise Refused(REFUSED, Message("tournament.two_tables", folder=self.folder, round=self.number, files=listed))
        if tables:
            raise Refused(
                REFUSED,
                Message("tournament.no_pairs", file=tables[0]),
                Message("tournament.or_report"),
            )
        raise Refused(
            REFUSED,
            Message("tournament.no_table", folder=self.folder, round=self.number),
            Message("tournament.as_program"),
        )

    def _is_named(self, path: pathlib.Path) -> bool:
        """Whether a file's name ends in the number of the round, as `round3.csv` and `Runde 03.txt` do."""
        number = re.search("[0-9]+$", path.stem)
        return bool(number) and len(number.group()) <= 3 and int(number.group()) == self.number if number else False

    def other_rounds(self) -> List[Tuple[int, bytes]]:
        """The published texts of the other rounds, with the rounds' numbers."""
        texts = []
        for path in self.folder.glob("round*/broadcast.pgn"):
            number = path.parent.name[len("round") :]
            if NUMBER.fullmatch(number) and int(number) != self.number:
                with contextlib.suppress(OSError):
                    texts.append((int(number), files.existing(path)))
        return sorted(texts)


def _is_empty(path: pathlib.Path) -> bool:
    """Whether a table has no line but its headings, as the one that --new makes."""
    try:
        text = loose_text(files.beginning(path, LARGEST + 1))
    except OSError:
        return False  # that is said when the pairs are read
    return sum(bool(line.strip(' \t,;"')) for line in text.splitlines()) <= 1


def _is_report(path: pathlib.Path) -> bool:
    try:
        return is_report(files.beginning(path, LARGEST + 1))
    except OSError:
        return False


def tournament_of(file: str, folder: str) -> Optional[Tournament]:
    """The tournament in `dgt_round cup 3`; None if a table is named. Refused if there is none yet."""
    path = pathlib.Path(file)
    if path.is_dir() and (not folder or not NUMBER.fullmatch(folder) and (path / SETTINGS).exists()):
        raise Refused(REFUSED, Message("tournament.which_round", file=file, dgt_round=DGT_ROUND))
    if not NUMBER.fullmatch(folder) or path.is_file() or path.suffix.lower() in TABLES:
        return None
    if not path.is_dir():
        raise Refused(REFUSED, Message("tournament.no_folder", folder=file, dgt_round=DGT_ROUND))
    if int(folder) == 0:
        raise Refused(REFUSED, Message("tournament.first_round"))
    return Tournament(path, int(folder))


def made(folder: pathlib.Path, find: Callable[[], Program]) -> List[str]:
    """Makes the missing files of a tournament. Returns what to do with them. `find` finds the program, if boards are plugged in."""
    try:
        folder.mkdir(exist_ok=True)
        contents = {SETTINGS: TEMPLATE, BOARDS: boards_text(find), "round1.csv": ROUND_HEADER + "\n"}
        new = [name for name in contents if not os.path.lexists(folder / name)]
        for name in new:
            files.put_in_place(folder / name, contents[name].encode("utf-8"))
    except OSError as error:
        raise Refused(FAILED, Message("tournament.not_made", folder=folder, why=files.text_of(error))) from None
    boards = Message("tournament.has_boards_plugged") if contents[BOARDS].count("\n") > 1 else Message("tournament.has_boards")
    has = (
        (SETTINGS, Message("tournament.has_settings")),
        (BOARDS, boards),
        ("round1.csv", Message("tournament.has_pairs")),
        ("", Message("tournament.has_report")),
    )
    return [
        Message("tournament.now_has", folder=folder) if new else Message("tournament.has", folder=folder),
        *(f"  {name:<15} {what}" for name, what in has),
        Message("tournament.then_type", dgt_round=DGT_ROUND, folder=folder),
    ]


def boards_text(find: Callable[[], Program]) -> str:
    """A table of the plugged-in boards, in order of their serial numbers."""
    found = devices()
    numbers = ask(find(), [device for device, _ in found]).numbers if found else {}
    lines = [BOARDS_HEADER]
    places = [(numbers.get(device, ""), name or device) for device, name in found]
    for board, (number, name) in enumerate(sorted(places, key=lambda place: (not place[0], place)), 1):
        lines.append(f"{board};{name};{number};")
    return "\n".join(lines) + "\n"


def words_of(content: bytes, round_number: int, options: Sequence[str], encoding: str = "") -> List[str]:
    """The settings of a round as words of a command line that has these options with a value. Refused if a line isn't a setting: a
    delay that isn't understood must not be ignored. If they aren't Unicode, they are in this encoding, or in the one that they set."""
    if len(content) > LARGEST:
        raise Refused(REFUSED, Message("file.too_large", largest=LARGEST // 1024))
    known = {normal(option): option for option in options if option != TAG}
    for_all: Dict[str, str] = {}
    for_this: Dict[str, str] = {}
    outputs: Dict[Tuple[str, str], int] = {}  # the lines of outputs, by name and round
    text = text_of(content, encoding or encoding_set(content, round_number))
    for number, line in enumerate(re.split("\r\n|\r|\n", text), 1):
        if not line.strip() or line.lstrip().startswith("#"):
            continue
        name, equals, value = (part.strip() for part in line.partition("="))
        if not equals:
            raise Refused(REFUSED, Message("settings.no_equals", line=number, text=shown(line.strip())))
        named = NAMED.fullmatch(name) if normal(OPTION) in known else None
        of_round = named or FOR_A_ROUND.fullmatch(name)
        word = normal(of_round.group(1) or "" if of_round else name)
        word = ALSO.get(word, word)
        tag = known_name(word)
        its_round = of_round.group(2) or "" if of_round else ""
        if named:
            word, typed = _output(number, named.group(1) or "", value)
            other = outputs.setdefault((word, its_round), number)
            if other != number:
                raise Refused(REFUSED, Message("settings.output_twice", line=number, output=word, other=other))
        elif word == normal(RECOVER):
            if value.lower() not in YES + NO:
                raise Refused(REFUSED, Message("settings.yes_or_no", line=number, name=name, value=shown(value)))
            typed, value = (RECOVER if value.lower() in YES else STRICT), value and "yes"
        elif word == "site" and PATH.match(value):
            raise Refused(REFUSED, Message("settings.folder", line=number, name=name, value=shown(value)))
        elif word in known and known[word] != "--round":
            typed = f"{known[word]}={value}"
        elif tag and normal(tag) not in ("round", "board", "white", "black"):
            typed = f"{TAG}={tag}={value}"
        else:
            names = [option[2:].replace("-", " ") for option in known.values() if option != "--round"]
            there = Message("settings.there_are", names=", ".join(sorted(PLACE.get(name, name) for name in names)))
            raise Refused(REFUSED, Message("settings.unknown", line=number, name=shown(name), there=there))
        if value and its_round and int(its_round) == round_number:
            for_this[word] = typed
        elif value and not its_round:
            for_all[word] = typed
    return list({**for_all, **for_this}.values())


def encoding_set(content: bytes, round_number: int) -> str:
    """The encoding that the settings set for a round; empty if they set none. Refused if there is none of that name."""
    for behind in (rf"[^\S\r\n]+0*{round_number}", ""):
        own = re.search(rf"(?im)^[^\S\r\n]*encoding{behind}[^\S\r\n]*=[^\S\r\n]*(\S+)", loose_text(content))
        if own:
            return known_encoding(own.group(1))
    return ""


def _output(line: int, name: str, value: str) -> Tuple[str, str]:
    """The setting's name of an output, and what would be typed for it. Refused if it isn't understood, for whatever round it is."""
    try:
        name = read_name(name)
        if value:
            read_output(f"{name}={value}")
    except Refused as refused:
        raise Refused(REFUSED, Message("pairs.of_line", line=line, why=refused.lines[0])) from None
    return f"output {name}", f"{OPTION}={name}={value}"


def refuse_exchanged(file: str, folder: str) -> None:
    """Refuses the folder in front of the table."""
    table = pathlib.Path(folder)
    if folder and not pathlib.Path(file).is_file() and (table.is_file() or table.suffix.lower() in TABLES):
        raise Refused(ARGUMENTS, Message("place.exchanged", folder=folder, dgt_round=DGT_ROUND, words=shlex.join([folder, file])))


def folder_of_table(table: pathlib.Path) -> pathlib.Path:
    """The folder of a round's games: it is named after their table."""
    return table.with_suffix("") if table.suffix else table.with_name(f"{table.name}-games")


def another_folder(folder: str) -> str:
    """A folder for another round: `round4` beside `round3`, `club-2` beside `club`."""
    if not os.path.basename(folder).strip("."):
        return "round2"  # beside what is here, or above
    stem = folder.rstrip("0123456789")
    number = folder[len(stem) :]
    return stem + str(int(number) + 1).zfill(len(number)) if number else f"{stem}-2"
