"""Names and dates: what is typed, and what a PGN tag has then."""

from live.game.opening import CALLED, TURNS, turned
from live.game.options import TAGS, Options
from live.game.tags import Unreadable, ascii_name, pgn_date
from live.run.refused import Refused

from decided.cases import cases
from decided.table import refused, same

LETTERS = "has letters that PGN can't take: write it with the letters A to Z"


def names() -> None:
    """Names that are turned, and the words that say what can't be."""
    for text, expected in cases("names", "names").items():
        same(text, ascii_name(text), expected)
        same(text + ", twice", ascii_name(expected), expected)
    for text, expected in cases("names", "no names").items():
        same(repr(text), refused(text, Unreadable, ascii_name, text), expected)


def dates() -> None:
    """Dates that are turned, and those that could be read in two ways."""
    for text, expected in cases("names", "dates").items():
        same(text, pgn_date(text), expected)
    for text in cases("names", "no dates"):
        told = refused(text, Unreadable, pgn_date, text)
        same(repr(text), ("write it as 2024.05.31" in told, told.isprintable()), (True, True))


def tags() -> None:
    """Each tag is turned, and what can't be is called what an arbiter calls it, who has a table and never typed an option."""
    same("each tag is turned", sorted(TURNS), sorted(TAGS))
    same("each tag has a name", sorted(CALLED), sorted(TAGS))
    for tag in TAGS:
        told = refused(tag, Refused, turned, Options.of_words((tag, "王")))
        same(f"{tag} is called something else", (tag in told, CALLED[tag] in told), (False, True))
    same("a player", refused("王", Refused, turned, Options.of_words(("--black", "王"))), f"the black player's name {LETTERS}")
    told = refused("no such day", Refused, turned, Options.of_words(("--date=30.02.2024",)))
    same("a date", told, "the date '30.02.2024' isn't in the calendar: write it as 2024.05.31, year, month and day")


MONDAY, TUESDAY = "2024.05.27", "2024.05.28"
# What was kept with a game, whether it has moves, and its date on Tuesday.
BEGAN = [
    (("--began", MONDAY), True, MONDAY),
    (("--began", MONDAY), False, TUESDAY),
    (("--began", TUESDAY), False, TUESDAY),
    (("--date", MONDAY, "--began", MONDAY), False, MONDAY),
    (("--date", "????.??.??", "--began", MONDAY), True, "????.??.??"),
    ((), True, "?"),
    ((), False, "?"),
]


def days() -> None:
    """The date of a game for which none was typed is the day on which it began."""
    for words, has_moves, date in BEGAN:
        kept = Options.of_words(words)
        same(f"{words}, moves: {has_moves}", kept.begun(kept.day(TUESDAY, lambda: has_moves)).tag("--date"), date)
    kept = Options.of_words(("--white", "Anna")).begun(MONDAY)
    same("it is kept", Options.of_text(kept.text()), kept)
    same("`record` has it", kept.of_record(), (f"--date={MONDAY}", "--white=Anna"))
    same("a typed one counts", Options.of_words(("--date", TUESDAY)).begun(MONDAY).of_record(), (f"--date={TUESDAY}",))
    for given, says in (((), True), (("--white", "Anna"), True), (("--date", MONDAY, "--white", "Anna"), True),
                        (("--date", TUESDAY, "--white", "Anna"), False)):  # fmt: skip
        same(f"the same: {given}", kept.is_said_by(Options.of_words(given)), says)
    same("it isn't said", kept.said, "--white Anna")


TABLES = [names, dates, tags, days]
