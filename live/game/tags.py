"""The tags of a game: which there are, what values they may have, typed names and dates changed to what PGN allows, and the text with them.
Pure.

`record` writes seven tags in ASCII, and that text stays as it is. The published text has its movetext, byte for byte, after tag
pairs that are written anew, in UTF-8."""

from __future__ import annotations

import re
import unicodedata
from dataclasses import dataclass, replace
from typing import Callable, Dict, List, Mapping, Match, Optional, Sequence, Tuple

from live.run.refused import JOINERS
from live.words.message import Complaint, Message, linked

Tags = Mapping[str, str]

ROSTER = ("Event", "Site", "Date", "Round", "White", "Black", "Result")  # the first tags of a PGN text, in order
OF_PLAYER = ("Title", "Elo", "FideId", "Team", "Fed", "USCF", "NA", "Type")  # after White and Black
SIDES = ("White", "Black")
# The other tags of the PGN standard and those that broadcasts have added; but not those that come from the game itself.
OTHERS = (
    *(side + name for side in SIDES for name in OF_PLAYER),
    *("Board", "TimeControl", "EventDate", "EventSponsor", "EventType", "EventRounds", "EventCountry", "Section", "Stage"),
    *("Time", "UTCTime", "UTCDate", "Mode", "Annotator", "Source", "ECO", "NIC", "Opening", "Variation", "SubVariation"),
    *("GameId", "BroadcastName", "BroadcastURL", "StudyName", "ChapterName", "WhiteClub", "BlackClub"),
)
BY_NAME = {name.lower(): name for name in (*ROSTER[:-1], *OTHERS)}
GAME_SAYS = ("Result", "FEN", "SetUp", "PlyCount", "Termination", "Variant")
LONGEST = 255  # characters of a value, as PGN has it
TITLES = ("GM", "IM", "FM", "CM", "WGM", "WIM", "WFM", "WCM", "AGM", "AIM", "AFM", "ACM", "NM", "WNM", "LM")
NONE = ("", "-", "0")  # what pairing programs write if a player has no rating, title or FIDE id
HIGHEST_RATING = 3999
PAIR = re.compile(r'\[(\w+) "((?:[^"\\]|\\.)*)"\]')
TIME_CONTROL = re.compile(r"\*\d+|[?-]|", re.ASCII)  # what PGN has beside periods
PERIOD = re.compile(  # as an arbiter or PGN writes it: 40 moves in 90 minutes, with 30 seconds for each move
    r"(?:(?P<moves>\d{1,3}) ?/ ?)?(?P<base>\d{1,6}) ?(?:(?P<minutes>['’′]|m|min|minutes|Min\.?)|(?P<seconds>''|’’|′′|[\"”″]|s|sec|seconds|Sek\.?))?"
    r"(?: ?\+ ?(?P<increment>\d{1,3}) ?(?:''|’’|′′|[\"”″]|s|sec|seconds|Sek\.?)?(?: ?/ ?(?:move|Zug))?)?",
    re.ASCII,
)
MOST_MINUTES, MOST_MINUTES_FOR_MOVES = 100, 150  # base times without a unit are in minutes up to these
LEAST_SECONDS = 300  # and in seconds from this


class Malformed(Complaint):
    """A value that its tag can't have. The text says what to type; the name of the value goes before it."""


def cleaned(text: str) -> str:
    """The visible text: each kind of blank as a blank, and no invisible marks."""
    letters = []
    for letter in text:
        kind = unicodedata.category(letter)
        if kind == "Zs":
            letters.append(" ")
        elif kind != "Cf" or letter in JOINERS:
            letters.append(letter)
    return "".join(letters).strip()


def is_seen(text: str) -> bool:
    """Whether each character can be printed, except those that join letters."""
    return all(letter.isprintable() or letter in JOINERS for letter in text)


def known_name(text: str) -> Optional[str]:
    """The tag with this name, in any case; None if no such tag may be given."""
    return BY_NAME.get(text.strip().lower())


def value_of(name: str, text: str) -> str:
    """The published value of a tag; empty if there is none. Raises Malformed."""
    value = cleaned(text)
    if not is_seen(value):
        raise Malformed(Message("tag.unseen_character"))
    if len(value) > LONGEST:
        raise Malformed(Message("tag.long", count=len(value), most=LONGEST))
    checks = [check for ending, check in CHECKS.items() if name.endswith(ending)]
    return checks[0](value) if checks else value


def _rating(text: str) -> str:
    if text in NONE:
        return ""
    if not re.fullmatch("[0-9]{1,4}", text) or not 0 < int(text) <= HIGHEST_RATING:
        raise Malformed(Message("tag.no_rating", text=repr(text)))
    return str(int(text))


def _title(text: str) -> str:
    if text in NONE:
        return ""
    if text.upper() not in TITLES:
        raise Malformed(Message("tag.no_title", text=repr(text), titles=", ".join(TITLES[:8])))
    return text.upper()


def _fide_id(text: str) -> str:
    if text.strip("0-") == "":
        return ""
    if not re.fullmatch("[0-9]{3,10}", text):
        raise Malformed(Message("tag.no_fide_id", text=repr(text)))
    return text


def _time_control(text: str) -> str:
    """In seconds, as PGN has it; `40/90+30` is 40 moves in 90 minutes, and 30 seconds for each move."""
    if TIME_CONTROL.fullmatch(text):
        return text
    periods = [Period.of(part) for part in re.split("[:,]", text)]
    found = [period for period in periods if period]
    if len(found) < len(periods) or not all(period.moves for period in found[:-1]):
        how = Message("tag.time_control_how")
        raise Malformed(Message("tag.no_time_control", text=repr(text), how=how))
    known = _with_units(found)
    if not all(period.unit for period in known):
        ways = [":".join(period.typed(unit) for period in known) for unit in UNITS]
        raise Malformed(Message("tag.minutes_or_seconds", text=repr(text), minutes=ways[0], seconds=ways[1]))
    for given, period in zip(found, known):
        if period.moves > period.base and not given.unit:
            turned = replace(period, moves=period.base, base=period.moves, unit="").typed("")
            base, typed = f"{period.base}{period.unit}", period.typed(period.unit)
            raise Malformed(Message("tag.moves_and_minutes", text=repr(text), moves=period.moves, base=base, turned=turned, typed=typed))
    return ":".join(period.in_seconds for period in known)


UNITS = MINUTES, SECONDS = "min", "s"


@dataclass(frozen=True)
class Period:
    """A period of a time control; no moves are 0, and an unknown unit is empty."""

    moves: int
    base: int
    increment: str
    unit: str = ""

    @staticmethod
    def of(text: str) -> Optional[Period]:
        """As it is written; None if it is something else."""
        found = PERIOD.fullmatch(text.strip())
        if not found or (found["minutes"] and not int(found["base"])):
            return None
        unit = MINUTES if found["minutes"] else SECONDS if found["seconds"] else ""
        increment = f"+{int(found['increment'])}" if found["increment"] else ""
        return Period(int(found["moves"] or 0), int(found["base"]), increment, unit)

    @property
    def in_seconds(self) -> str:
        """As PGN has it."""
        return replace(self, base=self.base * (60 if self.unit == MINUTES else 1), unit="").typed("")

    def typed(self, unit: str) -> str:
        """As it may be typed, in this unit if its own isn't known."""
        shown = "" if self.is_long and self.unit != MINUTES else self.unit or unit
        return (f"{self.moves}/" if self.moves else "") + f"{self.base}{shown}{self.increment}"

    @property
    def is_long(self) -> bool:
        """Whether a base time without a unit is in seconds."""
        return self.base == 0 or self.base >= LEAST_SECONDS


def _with_units(periods: Sequence[Period]) -> List[Period]:
    """The periods with their units. A number alone has none, nor has a small one beside large ones."""
    most = MOST_MINUTES_FOR_MOVES if periods[0].moves else MOST_MINUTES
    are_short = all(period.unit or (0 < period.base <= most) for period in periods)
    is_meant = any(period.moves or period.increment or period.unit == MINUTES for period in periods)
    rest = MINUTES if are_short and is_meant and not any(period.unit == SECONDS for period in periods) else ""
    return [replace(one, unit=one.unit or (SECONDS if one.is_long else rest)) for one in periods]


CHECKS: Dict[str, Callable[[str], str]] = {
    "Elo": _rating, "USCF": _rating, "Title": _title, "FideId": _fide_id, "TimeControl": _time_control,
}  # fmt: skip


def escaped(value: str) -> str:
    """The text between the quotes of a tag pair."""
    return value.replace("\\", "\\\\").replace('"', '\\"')


def pairs_of(head: str) -> Dict[str, str]:
    """The tags of a text that `record` made."""
    return {name: re.sub(r"\\(.)", r"\1", value) for name, value in PAIR.findall(head)}


def published(recorded: bytes, tags: Tags, says: Tags = {}) -> bytes:
    """The text of a game with these tags, as it is published: the roster first, the others in order of their names. What the game
    itself `says`, also its result, comes from the recorded text or is said beside it."""
    if not recorded:
        return b""
    head, gap, movetext = recorded.partition(b"\n\n")
    values = pairs_of(head.decode("utf-8", "replace"))
    values.update({name: value for name, value in tags.items() if value and name not in GAME_SAYS})
    values.update(says)
    others = sorted(name for name in values if name not in ROSTER)
    lines = [f'[{name} "{escaped(values.get(name, "?"))}"]' for name in (*ROSTER, *others)]
    return "\n".join(lines).encode("utf-8", "replace") + gap + movetext


def pair_of(text: str) -> Tuple[str, str]:
    """The name and the value of `NAME=VALUE`, as somebody types a tag. Raises Malformed."""
    name, equals, value = text.partition("=")
    if not equals:
        raise Malformed(Message("tag.no_equals", text=repr(text)))
    known = known_name(name)
    if known is None:
        if name.strip().lower() in [other.lower() for other in GAME_SAYS]:
            raise Malformed(Message("tag.of_the_game", name=name.strip()))
        which = Message("tag.which")
        raise Malformed(Message("tag.unknown", name=repr(name.strip()), which=which))
    try:
        return known, value_of(known, value)
    except Malformed as error:
        raise Malformed(linked("colon", (known, error.message))) from None


def in_order(tags: Tags) -> List[Tuple[str, str]]:
    """In the order in which they are published."""
    return sorted(tags.items(), key=lambda one: (ROSTER.index(one[0]) if one[0] in ROSTER else len(ROSTER), one[0]))


LONGEST_RECORDED = 100  # characters of a tag's value

# What passports write for the letters that aren't a basic letter with a mark (the tables for Latin letters of ICAO Doc 9303),
# and for those marked ones that they write as two letters.
LETTERS: Dict[str, str] = {
    "ä": "ae", "å": "aa", "æ": "ae", "ð": "d", "đ": "d", "ħ": "h", "ı": "i", "ĳ": "ij", "ĸ": "q", "ł": "l", "ŀ": "l",
    "ŉ": "n", "ŋ": "n", "ö": "oe", "ø": "oe", "œ": "oe", "ß": "ss", "þ": "th", "ŧ": "t", "ü": "ue",
}  # fmt: skip
SIGNS: Dict[str, str] = {
    "‘": "'", "’": "'", "‚": "'", "ʼ": "'", "′": "'", "´": "'", "“": '"', "”": '"', "„": '"', "«": '"', "»": '"', "″": '"',
    "‐": "-", "‑": "-", "‒": "-", "–": "-", "—": "-", "−": "-", "×": "x", "·": ".",
}  # fmt: skip

PARTS = {
    "year first": re.compile(r"(?P<year>[\d?]{4})[.\-/](?P<month>[\d?]{1,2})[.\-/](?P<day>[\d?]{1,2})", re.ASCII),
    "day first": re.compile(r"(?P<day>[\d?]{1,2})\. ?(?P<month>[\d?]{1,2})\. ?(?P<year>[\d?]{4})", re.ASCII),
    "no day": re.compile(r"(?P<year>[\d?]{4})[.\-/](?P<month>[\d?]{1,2})", re.ASCII),
    "month first": re.compile(r"(?P<month>[\d?]{1,2})\.(?P<year>[\d?]{4})", re.ASCII),
    "no month": re.compile(r"(?P<year>[\d?]{4})", re.ASCII),
}


class Unreadable(Complaint):
    """What was typed can't be changed to PGN. The text says why, and what to write; the name of the value goes before it."""


def ascii_name(text: str) -> str:
    """A name in printable ASCII: `Jörg Müller` becomes `Joerg Mueller`, `José` becomes `Jose`; an ASCII name stays as it is."""
    composed = unicodedata.normalize("NFC", text)
    turned: List[str] = []
    for at, letter in enumerate(composed):
        written = _written(letter, composed[at - 1 : at], composed[at + 1 : at + 2])
        if written is None:
            raise Unreadable(Message("name.letters"))
        turned.append(written)
    name = "".join(turned)
    if len(name) > LONGEST_RECORDED:
        raise Unreadable(Message("name.long", count=len(name), most=LONGEST_RECORDED))
    return name


def _written(letter: str, before: str, after: str) -> Optional[str]:
    """What is written for one character, or None if nothing is known for it."""
    if " " <= letter <= "~":
        return letter
    if letter == "\t" or unicodedata.category(letter) == "Zs":
        return " "
    if unicodedata.category(letter) == "Cf":  # it can't be seen: a soft hyphen, a mark of the direction
        return ""
    if letter in SIGNS:
        return SIGNS[letter]
    if letter.lower() in LETTERS:
        pair = LETTERS[letter.lower()]
        if not letter.isupper():
            return pair
        return pair.upper() if (after if after.isalpha() else before).isupper() else pair.capitalize()
    parts = [part for part in unicodedata.normalize("NFKD", letter) if unicodedata.category(part) != "Mn"]
    written = "".join(LETTERS.get(part, part) for part in parts)
    return written if written.isascii() and written.isprintable() else None


def _shown(text: str) -> str:
    """The text, with only what can be printed."""
    return "".join(letter if letter.isprintable() else "?" for letter in text)


def pgn_date(text: str) -> str:
    """A date as PGN has it. `31.05.2024`, `2024-05-31`, `2024/5/31` are `2024.05.31`; `2024` is `2024.??.??`."""
    for pattern in PARTS.values():
        match = pattern.fullmatch(text.strip())
        if match:
            return _date(text, match)
    raise Unreadable(Message("date.unreadable", text=repr(_shown(text))))


def _date(text: str, match: Match[str]) -> str:
    """The date with these parts, if there is such a day."""
    given = match.groupdict()
    year, month, day = given["year"], _padded(given.get("month")), _padded(given.get("day"))
    # A leap year and a long month replace unknown ones.
    numbers = [int(part) if part.isdigit() else known for part, known in ((year, 2000), (month, 1), (day, 1))]
    if not is_a_day(*numbers):
        raise Unreadable(Message("date.not_in_calendar", text=repr(_shown(text))))
    return f"{year}.{month}.{day}"


def is_a_day(year: int, month: int, day: int) -> bool:
    """Whether there is such a day."""
    is_leap = year % 4 == 0 and (year % 100 != 0 or year % 400 == 0)
    days = 0 if not 1 <= month <= 12 else 28 + is_leap if month == 2 else 30 if month in (4, 6, 9, 11) else 31
    return year >= 1 and 1 <= day <= days


def _padded(part: Optional[str]) -> str:
    """A month or a day, as two characters."""
    if part is None or part == "?":
        return "??"
    return part.zfill(2)
