"""Tags: which values they may have, and the text of a game as it is published. With the options that keep them,
and lines of a table that change nothing else."""

from dataclasses import replace

from live.game.opening import added_to_kept, read_otherwise, recordable, strictly
from live.game.options import Options, is_naming, line_of, read_names, told_of_names
from live.game.tags import Malformed, pair_of, published, value_of
from live.run.refused import NotDone, Refused
from live.table.pairings import Pairing, same_but_for_names, same_but_for_result

from decided.cases import cases
from decided.table import refused, same


def texts() -> None:
    """The tags are written anew, and the movetext is taken over."""
    for recorded, tags, expected in cases("tags", "published"):
        same(expected, published(recorded.encode(), tags), expected.encode())


def values() -> None:
    """Ratings, titles, FIDE ids and time controls, and those that are malformed."""
    for name, typed, expected in cases("tags", "values"):
        same(f"{name} {typed}", value_of(name, typed), expected)
    for name, typed, expected in cases("tags", "malformed"):
        same(f"{name} {typed!r}", refused(typed, Malformed, value_of, name, typed), expected)
    for typed, name, value in cases("tags", "typed pairs"):
        same(typed, pair_of(typed), (name, value))
    for typed, expected in cases("tags", "no pairs"):
        same(typed, refused(typed, Malformed, pair_of, typed), expected)
    long = "x" * 256
    same("256", refused("256", Malformed, value_of, "WhiteTeam", long), "has 256 characters: type at most 255")
    same("255", value_of("WhiteTeam", long[1:]), long[1:])


WRITTEN = [
    # the words that are typed; the name under which White is recorded; the tags of what is published
    (("--white", "Anna"), "Anna", ()),
    (("--white", "Ünal"), "Ünal", (("White", "Ünal"),)),
    (("--white", "王浩"), "White 7", (("White", "王浩"),)),
    (("--white", "Иванов", "--tag", "WhiteElo=2050"), "White 7", (("White", "Иванов"), ("WhiteElo", "2050"))),
    (("--white", "Anna", "--tag", "White=Anna K."), "Anna", (("White", "Anna K."),)),
    (("--white", "x" * 101), "White 7", (("White", "x" * 101),)),
    (("--white", "a\nb"), "a\nb", ()),  # that is refused, as before
    (("--white", "J\udcf6rg"), "J\udcf6rg", ()),
]


def names_in_any_script() -> None:
    """A name is recorded under a transliteration, or under the number of its board, and is published as it is
    written."""
    for words, recorded, tags in WRITTEN:
        options = recordable(Options.of_words(words), lambda option: f"{option[2:].capitalize()} 7")
        same(repr(words), (options.white, options.tags), (recorded, tags))
    single = recordable(Options.of_words(("--black", "王浩", "--white", "Ünal")))
    same("of a single board, where it is refused", (single.black, single.tags), ("王浩", (("White", "Ünal"),)))


KEPT = [
    # what was kept; what is given; whether the game has moves; the tags that it goes on with
    ((), ("--tag", "WhiteElo=2050"), True, {"WhiteElo": "2050"}),
    (("--tag", "WhiteElo=2050"), (), True, {"WhiteElo": "2050"}),
    (("--tag", "WhiteElo=2050"), ("--tag", "BlackElo=1900"), True, {"WhiteElo": "2050", "BlackElo": "1900"}),
    (("--tag", "WhiteElo=2050"), ("--tag", "WhiteElo="), True, {}),
    (("--white", "Uenal", "--tag", "White=Ünal"), ("--white", "Uenal"), True, {}),
    (("--white", "Uenal", "--tag", "White=Ünal"), ("--first", "black"), True, {"White": "Ünal"}),
    (("--white", "Uenal", "--tag", "White=Ünal"), ("--white", "Anna", "--tag", "WhiteElo=1"), False, {"WhiteElo": "1"}),
]


def kept() -> None:
    """Tags of what is published may be given at any time, and stay where nothing is said."""
    for before, given, has_moves, expected in KEPT:
        options = Options.of_words(before)
        same(f"text of {before}", Options.of_text(options.text()), options)
        chosen = strictly(Options.of_words(given), "game")(options, lambda: has_moves)
        same(f"{before} {given}", dict(chosen.options.tags), expected)
    tagged = Options.of_words(("--white", "A", "--tag", "WhiteElo=2050"))
    same("record is given none", tagged.of_record(), ("--white=A",))


def others_of_one_name() -> None:
    """Two players whose names are recorded as one are told apart by their names as they are published."""
    first = Options.of_words(("--white", "White 1", "--black", "Black 1", "--tag", "White=王浩", "--tag", "Black=丁立人"))
    other = Options.of_words(("--white", "White 1", "--black", "Black 1", "--tag", "White=侯逸凡", "--tag", "Black=居文君"))
    same("others", other.has_other_players_than(first), True)
    same("the same", first.has_other_players_than(first), False)
    old = Options.of_words(("--white", "Uenal", "--black", "Ben"))
    now = Options.of_words(("--white", "Uenal", "--black", "Ben", "--tag", "White=Ünal"))
    same("a name that was kept without its letters", now.has_other_players_than(old), False)


TWO = ("--white", "Anna", "--black", "Ben")
JOERG = ("--white", "Joerg", "--tag", "White=Jörg")
ADDED = [
    # what was kept; what is given; whether the game has moves; what it goes on with; what is said
    (TWO, ("--rotated",), False, ("--rotated", *TWO), "its options are now --rotated --white Anna --black Ben, and were " + " ".join(TWO)),
    (("--rotated", *TWO), (), False, ("--rotated", *TWO), ""),
    (("--rotated", *TWO), ("--rotated=no",), False, TWO, "its options are now --white Anna --black Ben, and were --rotated " + " ".join(TWO)),
    (("--rotated", *TWO), ("--rotated=no", "--black", "Cara"), False, ("--white", "Anna", "--black", "Cara"),
     "its options are now --white Anna --black Cara, and were --rotated --white Anna --black Ben"),
    (("--recover", *TWO), ("--date", "2024.05.31"), False, (*TWO, "--date", "2024.05.31", "--recover"),
     "its options are now --recover --date 2024.05.31 --white Anna --black Ben, and were --recover --white Anna --black Ben"),
    (TWO, ("--white", "Anne"), True, ("--white", "Anne", "--black", "Ben"), "White is now Anne, and was Anna"),
    (TWO, ("--black", "Ben", "--round", "3"), True, (*TWO, "--round", "3"), "its round is now 3"),
    (("--white", "Anna"), TWO, True, TWO, "Black is now Ben"),
    ((), TWO, True, TWO, "White is now Anna; Black is now Ben"),
    (JOERG, ("--white", "Anna"), True, ("--white", "Anna"), "White is now Anna, and was Jörg"),
    (TWO, ("--black", "?"), True, ("--white", "Anna", "--black", "?"), "Black is unknown now, and was Ben"),
    (JOERG, ("--event", "Club"), True, ("--event", "Club", *JOERG), "its event is now Club"),
    ((*TWO, "--site", "Bern"), ("--place", "Basel"), True, (*TWO, "--site", "Basel"), "its place is now Basel, and was Bern"),
    (TWO, ("--first", "black"), True, ("--first", "black", *TWO), ""),
    (("--rotated", *TWO), ("--rotated",), True, ("--rotated", *TWO), ""),
]
NOT_ADDED = [
    # the same, of games with moves, and what is refused
    (TWO, ("--rotated",), "was begun with other options"),
    ((), ("--rotated",), "game has moves, and was begun without options: give none to go on, or choose another name"),
    (("--rotated",), ("--rotated=no",), "was begun with other options"),
    (TWO, ("--fen", "8/8/4k3/8/8/4K3/4P3/8 w - - 0 1"), "was begun with other options"),
    (TWO, ("--white", "Cara", "--black", "Dan"), "game has moves of Anna - Ben: choose another name for another game"),
]


def added_to_what_is_kept() -> None:
    """What is given is added to what was kept, and names may be put right at any time."""
    for before, given, has_moves, expected, told in ADDED:
        chosen = added_to_kept(Options.of_words(given), "game")(Options.of_words(before), lambda: has_moves)
        same(f"{before} {given}", (chosen.options, "; ".join(chosen.told)), (Options.of_words(expected), told))
    for before, given, told in NOT_ADDED:
        chooses, kept = added_to_kept(Options.of_words(given), "game"), Options.of_words(before)
        same(f"{before} {given}", told in refused(str(given), Refused, chooses, kept, lambda: True), True)
    new = added_to_kept(Options.of_words(("--rotated=no", *TWO)), "game")(None, lambda: False)
    same("a new game", new.options, Options.of_words(TWO))
    over = added_to_kept(Options.of_words(("--white", "Anne")), "blitz-3", is_over=True)
    refused("the last game of a series, which is over", Refused, over, Options.of_words(TWO), lambda: True)
    both = read_otherwise(Options.of_words(("--white", "Cara", "--black", "Dan")))(Options.of_words(TWO), lambda: True)
    same("a game that is over", both.told, ("White is now Cara, and was Anna; Black is now Dan, and was Ben",))


NAMED = [
    ("name White=Anna", ("--white", "Anna")),
    ("name white = Anna Kern  ", ("--white", "Anna Kern")),
    ("NAME White=Anna", ("--white", "Anna")),
    ("name White=Kern, Anna, Black=Ott, Ben", ("--white", "Kern, Anna", "--black", "Ott, Ben")),
    ("name White=Anna Kern Black=Ben  Ott", ("--white", "Anna Kern", "--black", "Ben  Ott")),
    ("name Event=Club cup Round=3 Date=31.05.2024 Site=Basel",
     ("--event", "Club cup", "--round", "3", "--date", "31.05.2024", "--site", "Basel")),
    ("""name White="Anna Kern" Black='Ben Ott' Event='64""", ("--white", "Anna Kern", "--black", "Ben Ott", "--event", "'64")),
    ("name Place=Basel", ("--place", "Basel")),
    ("name place = Bad Ragaz White=Anna", ("--site", "Bad Ragaz", "--white", "Anna")),
    ("name Black=", ("--black", "?")),
    ("name WhiteElo=2050 Black=Ben", ("--tag", "WhiteElo=2050", "--black", "Ben")),
    ("name TimeControl=90+30", ("--tag", "TimeControl=5400+30")),
]
NOT_NAMED = {
    "name": "type name White=Anna",
    "name Anna": "'Anna' has no =",
    "name Result=1-0": "Result is what the game says",
    "name Colour=red": "there is no tag 'Colour'",
    "name Whtie=Anna": ". Type name White=Anna, name Black=Ben, and so on: Event, Place, Date and Round can be put right too",
    "name WhiteElo=20x0": "WhiteElo: '20x0' is no rating",
}


def named() -> None:
    """`name White=Anna`, as it is typed while a game is recorded."""
    for text, expected in NAMED:
        same(text, (is_naming(text), read_names(text)), (True, Options.of_words(expected)))
    for text, told in NOT_NAMED.items():
        same(text, told in refused(text, NotDone, read_names, text), True)
    same("no names", [is_naming(text) for text in ("", "Nf3", "names", "back", "1-0")], [False] * 5)
    given = Options.of_words(("--white", "Anna", "--tag", "WhiteElo=2050"))
    same("as a line", line_of(given), "name White=Anna WhiteElo=2050")
    same("more than names", [line_of(Options.of_words(more)) for more in ((), ("--first", "black"), ("--strict", *TWO))], [None] * 3)
    before = Options.of_words((*TWO, "--tag", "WhiteElo=2050"))
    now = Options.of_words(("--white", "Anne", "--black", "Ben", "--tag", "BlackElo=1900"))
    same("what has changed", told_of_names(now, before),
         "White is now Anne, and was Anna; its BlackElo is now 1900; it has no WhiteElo any more")  # fmt: skip
    same("nothing", told_of_names(before, before), "nothing has changed")


def changed_lines() -> None:
    """What a changed line of a round's table changes: nothing but its place and its result, names and tags too, or more."""
    line = Pairing(2, 1, "/dev/a", "Anne", "Ben", tags=(("WhiteElo", "2050"),), serial="00007")
    for now, same_game, same_board in (
        (line, True, True),
        (replace(line, line=5, result="1-0", remarks=("said",)), True, True),
        (replace(line, white="Anna"), False, True),
        (replace(line, white="Anna", black="", tags=(), result="1-0"), False, True),
        (replace(line, device="/dev/b"), False, False),
        (replace(line, white="Anna", serial="00008"), False, False),
        (replace(line, rotated=True), False, False),
        (replace(line, first="black"), False, False),
        (replace(line, fen="4k3/8/8/8/8/8/4P3/4K3 w - - 0 1"), False, False),
        (replace(line, name="again", white="Anna"), False, False),
        (replace(line, recover=True), False, False),
    ):
        same(f"{now}", (same_but_for_result(line, now), same_but_for_names(line, now)), (same_game, same_board))


TABLES = [changed_lines, added_to_what_is_kept, named, texts, values, names_in_any_script, kept, others_of_one_name]
