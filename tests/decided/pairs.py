"""Pairs of moves that two hands hid: when they are recovered, and what is told of them; and which other options a game goes on with,
and what is told of that."""

from live.child.lines import Line, Recovered, line_of
from live.doors.dgt_live import parse
from live.game.making_pgn import told_of_reading, told_of_result
from live.game.options import Options
from live.run.refused import Refused

from decided.table import refused, same

YES, NO = ("--recover",), ("--strict",)
# What was kept, what is given, and whether pairs are recovered then.
KEPT = {
    ((), ()): False,
    ((), YES): True,
    ((), NO): False,
    (YES, ()): True,
    (YES, YES): True,
    (YES, NO): False,
    (YES, ("--white", "--strict")): True,  # a player's name
    ((), (*YES, *NO)): False,  # of a round and of its line: the last one counts
    ((), (*NO, *YES)): True,
}
ANNA, BEN, TURNED = ("--white", "Anna"), ("--white", "Ben"), ("--rotated",)
WHITE, BLACK = ("--first", "white"), ("--first", "black")
# What was kept and what is given, in a game with a move, and with what it goes on; None where that is refused.
GOES_ON = {
    ((), ()): (),
    (ANNA, ()): ANNA,
    (ANNA, ANNA): ANNA,
    (ANNA, BEN): None,
    (ANNA, TURNED): None,
    (ANNA, BLACK): BLACK + ANNA,
    (ANNA, ("--first=black",)): BLACK + ANNA,
    (ANNA, WHITE): ANNA,  # White's time comes first where nothing is said
    (ANNA, ANNA + BLACK): BLACK + ANNA,
    (ANNA, BEN + BLACK): None,
    (BLACK + ANNA, ()): BLACK + ANNA,
    (BLACK + ANNA, ANNA): BLACK + ANNA,  # the command with which it was begun, before that was put right
    (BLACK + ANNA, ANNA + BLACK): BLACK + ANNA,
    (BLACK + ANNA, WHITE): WHITE + ANNA,
    (ANNA + BLACK + YES, WHITE + YES): WHITE + ANNA + YES,
    (TURNED + ANNA, ANNA + BLACK): None,
}
TWO, OTHERS = ANNA + ("--black", "Ben"), ("--white", "Cleo", "--black", "Dan")
# The players of before and of now, and whether they are others.
PLAYERS = [
    (TWO, TWO, False),
    (TWO, OTHERS, True),
    (TWO, ("--black", "Anna", "--white", "Ben"), True),  # the next game of a match
    (TWO, (), True),  # both names would be gone
    (TWO, ANNA, False),
    (TWO, ("--white", "Cleo", "--black", "Ben"), False),
    ((), OTHERS, False),
    (("--white", "?", "--black", "?"), OTHERS, False),  # they weren't known
    (("--white", "", "--black", "Ben"), OTHERS, False),
    (ANNA, OTHERS, False),
]
# The tags of before and of now, and what is told of that.
TAGS = [
    (TWO, TWO, ""),
    (TWO, ("--black", "Ben", "--white=Anna"), ""),
    (TWO, TWO + TURNED + BLACK + YES, ""),  # they are no tags
    (("--white", "Anne", "--black", "Ben"), TWO, "White is now Anna, and was Anne"),
    (ANNA, TWO, "Black is now Ben"),
    (TWO + ("--round", "3"), TWO + ("--round", "4"), "its round is now 4, and was 3"),
    (TWO, ("--event", "Club"), "White is unknown now, and was Anna; Black is unknown now, and was Ben; its event is now Club"),
]
# The options of before and of now, of a game without a move, and what is told of that.
ALL = [
    (TWO, TWO, ""),
    (TWO, ("--black=Ben", *ANNA), ""),
    (TWO, TWO + BLACK + YES, ""),  # these are told otherwise
    (TWO, ("--black", "Jim"), "its options are now --black Jim, and were --white Anna --black Ben"),
    ((), TURNED, "its options are now --rotated, and were none"),
]
# The options of before and of now, and what is told where the game is made anew.
READING = [
    (TWO, OTHERS, []),
    (WHITE, (), []),
    ((), BLACK, ["Black's time comes first"]),
    (BLACK + YES, WHITE + YES, ["White's time comes first"]),
    ((), YES, ["recovered 3. Bc4 3... Nc6"]),
    (BLACK, YES, ["White's time comes first", "recovered 3. Bc4 3... Nc6"]),
    (YES, (), ["nothing recovered"]),
]
RESULTS = {
    ("*", "*"): [],
    ("1-0", "1-0"): [],
    ("1-0", "*"): ["the result 1-0 is gone: add it again"],
    ("*", "0-1"): ["the result is 0-1"],
    ("1-0", "1/2-1/2"): ["the result is 1/2-1/2, and was 1-0"],
}
LINES = {
    "350 recovered 3. Bc4 3... Nc6": Line(350, Recovered("recovered 3. Bc4 3... Nc6")),
    "0 recovered 12... Qxd5 13. O-O-O+": Line(0, Recovered("recovered 12... Qxd5 13. O-O-O+")),
    "input: too long": None,
    "350 move 3. Bc4": None,
    "recovered 3. Bc4 3... Nc6": None,
    "": None,
}


def kept() -> None:
    for (before, given), recovers in KEPT.items():
        same(f"{before}, {given}", Options.of_words(before).recovers_with(Options.of_words(given)), recovers)
    options = Options.of_words(("--rotated", "--recover", "--white", "Anna"))
    same("of record", options.of_record(), ("--rotated", "--white=Anna"))
    same("of the board", options.of_board(), ("--rotated",))
    same("of live", options.of_live(), ("--rotated", "--recover", "--white=Anna"))
    same("of live, strict", Options.of_words(("--strict", "--white", "Anna")).of_live(), ("--white=Anna",))
    same("no longer", options.recovering(False).words(), ("--rotated", "--white=Anna"))


def goes_on() -> None:
    for (before, given), words in GOES_ON.items():
        options = Options.of_words(before).going_on(Options.of_words(given), True)
        same(f"{before}, {given}", options, None if words is None else Options.of_words(words))
    for given, words in (((), ANNA), (BEN, BEN), (TURNED, TURNED), (BLACK, BLACK + ANNA), (BEN + BLACK, BEN + BLACK)):
        options = Options.of_words(ANNA).going_on(Options.of_words(given), False)
        same(f"{given}, and no move", options, None if words is None else Options.of_words(words))
    for given, says in ((), True), (ANNA, True), (("--white=Anna",), True), (BLACK, False), (BEN, False), (YES, True):
        same(f"the same: {given}", Options.of_words(ANNA).is_said_by(Options.of_words(given)), says)
    firsts = [Options.of_words(words).side for words in ((), WHITE, BLACK, ("--first=black",))]
    same("whose time", firsts, ["white", "white", "black", "black"])


def calls() -> None:
    """With a device a game is recorded so; without one its text is made anew."""
    for words in (YES, NO, BLACK, (*YES, *BLACK), ANNA, (*BLACK, *ANNA)):
        call = parse(["/dev/ttyUSB0", "game", *words])
        options = Options.of_words(words)
        same(f"{words} with a device", (call.device, call.name, call.options), ("/dev/ttyUSB0", "game", options))
        call = parse([*words, "game"])
        same(f"{words} without", (call.device, call.name, call.options), ("", "game", options))
    wrong = [[*YES], [*YES, *NO, "game"], [*YES, "--rotated", "game"], [*YES, "--series", "game"], ["--rotated=no", "game"]]
    for given in (*wrong, ["game"]):
        refused(" ".join(given), Refused, parse, given)


def told_of_options() -> None:
    """What is told of other players, other tags, and of a game that is made anew."""
    for before, now, are_others in PLAYERS:
        same(f"{before}, {now}", Options.of_words(now).has_other_players_than(Options.of_words(before)), are_others)
    for before, now, line in TAGS:
        same(f"tags {before}, {now}", Options.of_words(now).told_of_tags(Options.of_words(before)), line)
    for before, now, line in ALL:
        same(f"all {before}, {now}", Options.of_words(now).told_of_all(Options.of_words(before)), line)
    for before, now, lines in READING:
        pairs = ["recovered 3. Bc4 3... Nc6"] if Options.of_words(now).recover else []
        same(f"read {before}, {now}", told_of_reading(Options.of_words(before), Options.of_words(now), pairs), lines)
    for (was, is_now), lines in RESULTS.items():
        same(f"{was}, {is_now}", told_of_result(was, is_now), lines)
    for words, reading in ((BLACK + ANNA + YES, BLACK + YES), (ANNA + TURNED, ()), (NO, NO), (("--first=black",), BLACK)):
        same(f"of {words}", Options.of_words(words).reading(), Options.of_words(reading))


def told() -> None:
    for text, expected in LINES.items():
        line = line_of(text)
        same(text, line if line and isinstance(line.event, Recovered) else None, expected)


TABLES = [kept, goes_on, calls, told_of_options, told]
