"""Names that are typed for a board of a round: what is kept of them, when they count, and what is told of that."""

import pathlib
import tempfile
from dataclasses import replace
from typing import List, Tuple

from live.game.options import PLAYERS, Options
from live.round.names import Named, Names, TypedName, keep_names, kept_names, named, named_options, path_of, read_name, read_with_names, told_of_typed, typed_names, with_names
from live.round.row import typed_options
from live.run.refused import NotDone, Refused
from live.table.pairings import Pairing, Pairings, Wrong

from decided.table import refused, same

ALL = Options.of_words(("--event", "Cup", "--round", "3", "--recover"))
LINE = Pairing(2, 5, "/dev/e", "Carlson", "Ben", tags=(("WhiteElo", "2850"), ("WhiteTeam", "Oslo")))
OTHER = Pairing(3, 6, "/dev/f", "Eva", "Finn")


def of_five(tag: str, own: str, value: str, pair: Tuple[str, str] = ("Carlson", "Ben")) -> TypedName:
    """What was typed for board 5."""
    return TypedName(5, *pair, tag, own, value)


WHITE, ELO, EVENT = of_five("White", "Carlson", "Carlsen"), of_five("WhiteElo", "2850", "2839"), of_five("Event", "Cup", "Open")
OF_SIX = TypedName(6, "Eva", "Finn", "White", "Eva", "Ewa")
# What was kept, what is typed for board 5, and what is kept then.
TYPED: List[Tuple[Names, str, Names]] = [
    ((), "name White=Carlsen", (WHITE,)),
    ((OF_SIX,), "name white = Carlsen", (OF_SIX, WHITE)),
    ((WHITE,), "name White=Carlsen", (WHITE,)),
    ((WHITE,), "name White=Karlsen", (replace(WHITE, value="Karlsen"),)),
    ((WHITE, OF_SIX), "name White=Carlson", (OF_SIX,)),  # as the table has it
    ((), "name White=Carlson", ()),
    ((), "name White=Carlson?", (of_five("White", "Carlson", "Carlson?"),)),
    ((WHITE,), "name WhiteElo=2839 Event=Open", (WHITE, EVENT, ELO)),
    ((replace(ELO, white="Eva"),), "name White=Carlsen", (WHITE,)),  # of another pair
    ((EVENT,), "name Event=Cup", ()),
    ((), "name Place=Basel", (of_five("Site", "", "Basel"),)),
    ((), "name Place=", ()),  # nobody knows it anyway
    ((), "name Black=", (of_five("Black", "Ben", "?"),)),
    ((), "name WhiteElo=", (of_five("WhiteElo", "2850", ""),)),
    ((), "name BlackElo=", ()),
    ((), "name Round=3", ()),
    ((), "name Date=31.05.2024", (of_five("Date", "", "2024.05.31"),)),
    ((), "name TimeControl=90+30", (of_five("TimeControl", "", "5400+30"),)),
]
REFUSED = {
    "name": "type 5 name White=Anna, 5 name Black=Ben, and so on",
    "name Whtie=Anna": "there is no tag 'Whtie'",
    "name White=An\x07na": "White: has a character that can't be seen: type it anew. Type 5 name White=Anna, ",
    "name White=" + "x" * 256: "White: has 256 characters: type at most 255. Type 5 name White=Anna, ",
    "name Result=1-0": "Result is what the game says, and can't be given",
    "name WhiteElo=x": "WhiteElo: 'x' is no rating",
    "name Date=31.02.2024": "isn't in the calendar",
}
# The line that the table has now, what was kept for it, what it gets, what is left, and what is told.
COUNTS: List[Tuple[Pairing, Names, Tuple[Tuple[str, str], ...], Names, Tuple[str, ...]]] = [
    (LINE, (), (), (), ()),
    (LINE, (WHITE, ELO), (("White", "Carlsen"), ("WhiteElo", "2839")), (WHITE, ELO), ()),
    (replace(LINE, line=9, device="/dev/x", result="1-0", name="five"), (WHITE,), (("White", "Carlsen"),), (WHITE,), ()),
    (LINE, (OF_SIX,), (), (OF_SIX,), ()),
    (replace(LINE, tags=()), (WHITE, ELO), (("White", "Carlsen"),), (WHITE,),
     ("5: the table has another WhiteElo there now, so the typed one, 2839, is gone",)),
    (replace(LINE, white="Karlson"), (WHITE, ELO), (), (),
     ("5: the table has another pair there now, so what was typed is gone: White=Carlsen, WhiteElo=2839",)),
    (replace(LINE, black="Dora"), (WHITE,), (), (), ("5: the table has another pair there now, so what was typed is gone: White=Carlsen",)),
    # The table gets the name that was typed: the pair is the same.
    (replace(LINE, white="Carlsen"), (WHITE, ELO), (("WhiteElo", "2839"),), (replace(ELO, white="Carlsen"),),
     ()),  # the table has what was typed
    (LINE, (replace(EVENT, own="Old cup"),), (), (), ("5: the round has another Event now, so the typed one, Open, is gone",)),
]  # fmt: skip
NO_NAMES = [
    "", "x", "[]", "{}", "5", "null", "[5]", '["5", "a", "b", "White", "a", "c"]', '[true, "a", "b", "White", "a", "c"]',
    '[5, "a", "b", "White", "a", 7]', '[5, "a", "b", "Colour", "a", "c"]', '[5, "a", "b", "white", "a", "c"]',
    '[5, "a", "b", "Result", "*", "1-0"]', '[5, "a", "b", "White", "a", ""]', '[5, "a", "b", "White", "a", "c\\u0007"]',
    '[5, "a", "b", "White", "a", "' + "c" * 256 + '"]', '[5, "a", "b", "WhiteElo", "", "x"]', '[5, "a", "b", "Date", "", "2024.02.31"]',
    '[5, "a", "b", "White", "a", "c", "d"]', "[" * 100_000,
]  # fmt: skip


def typed() -> None:
    """What is kept after a line, and which lines are refused."""
    for kept, text, expected in TYPED:
        same(f"{kept} {text}", typed_names(LINE, text, kept, ALL), expected)
    for text, told in REFUSED.items():
        same(text[:40], told in refused(text[:40], Refused if "Date" in text else NotDone, typed_names, LINE, text, (), ALL), True)


def counts() -> None:
    """What counts beside a table that is read again."""
    for line, kept, gets, left, told in COUNTS:
        same(f"{line} {kept}", named(Pairings((line,)), kept, ALL), Named(Pairings((replace(line, typed=gets),)), left, told))
    gone = named(Pairings((OTHER,)), (WHITE,), ALL)
    same("its line is gone, and may come back", gone, Named(Pairings((OTHER,)), (WHITE,)))
    apart = Pairings((), (Wrong(2, 5, "why", pairing=LINE), Wrong(3, None, "why")), absent=(OTHER,))
    found = named(apart, (WHITE, OF_SIX), ALL).lines
    same("a line that is wrong for its device", [line.pairing and line.pairing.typed for line in found.wrong], [(("White", "Carlsen"),), None])
    same("a pair whose board isn't found", found.absent[0].typed, (("White", "Ewa"),))
    twice = named(Pairings((LINE,), (Wrong(9, 5, "no device", unplaced=replace(LINE, line=9, white="Dora")),)), (WHITE,), ALL)
    same("a board that has a second line", (twice.left, twice.told, twice.lines.boards[0].typed), ((WHITE,), (), (("White", "Carlsen"),)))


def gets() -> None:
    """The options of a line with what was typed for it, and the answer."""
    line = with_names(LINE, (WHITE, ELO, OF_SIX, EVENT, of_five("Date", "", "2024.05.31"), of_five("WhiteTeam", "Oslo", "")))
    options = named_options(ALL, line)
    same("in its options", list(map(options.tag, (*PLAYERS, "--event", "--date", "--round"))), ["Carlsen", "Ben", "Open", "2024.05.31", "3"])
    same("published alone", (options.tags, options.recover), ((("WhiteElo", "2839"),), True))
    same("as the games of all", named_options(ALL, LINE).recover, True)
    same("without it", named_options(Options(), replace(LINE, recover=False)).recover, False)
    same("its team", with_names(LINE, (of_five("WhiteTeam", "Oslo", "Bergen"),)).teams, ("Bergen", ""))
    same("in any letters", typed_options(ALL, with_names(LINE, (replace(WHITE, value="王"),))).written("--white"), "王")
    same("recorded so", typed_options(ALL, with_names(LINE, (replace(WHITE, value="王"),))).white, "White 5")
    for names, text, told in (
        ((WHITE,), "name White=Carlsen", "so. It stays so for this pair until you change it in the table"),
        ((WHITE, EVENT), "name Event=Open", "so. This holds for this pair until the round gets another value"),
        ((WHITE, EVENT), "name White=Carlsen Event=Open", "so. It stays so for this pair until you change it in the table"),
        ((WHITE,), "name WhiteElo=2850", "so. That is what the table has, so nothing typed is kept"),
    ):
        same(text, told_of_typed("so", text, with_names(LINE, names)), told)


def kept() -> None:
    """The file: what it has is read as it was written. What isn't understood costs nothing else."""
    for text in NO_NAMES:
        same(text[:60], read_name(text), None)
    odd = of_five("Black", "a\tb\n\u2028\"\\", "Ünal, Ben", ("王浩", "\x85"))
    with tempfile.TemporaryDirectory() as folder:
        same("no file", kept_names(folder), ((), ()))
        keep_names(folder, (OF_SIX, WHITE, odd))
        same("as it was written", kept_names(folder), ((WHITE, odd, OF_SIX), ()))
        path = pathlib.Path(path_of(folder))
        same("its lines", path.read_text(encoding="utf-8").splitlines()[0], '[5, "Carlson", "Ben", "White", "Carlson", "Carlsen"]')
        path.write_bytes(b"\xff\n" + path.read_bytes()[:-9])
        told = f"{path} has lines that are no typed names: they are left out. Type those names again"
        same("a torn one", kept_names(folder), ((WHITE, odd), (told,)))
        read = read_with_names(Pairings((LINE,)), folder, ALL)
        same("the rest counts", (read.lines.boards[0].typed, read.told[0]), ((("White", "Carlsen"),), told))
        path.unlink()
        path.mkdir()
        read = read_with_names(Pairings((LINE,)), folder, ALL)
        same("none can be read", (read.lines, len(read.told), str(path) in read.told[0]), (Pairings((LINE,)), 1, True))


TABLES = (typed, counts, gets, kept)
