"""Names that somebody types for a board of a round, as `5 name White=Anna`. They are kept beside the table, and count as long as it has the
same pair there, and the same value as when they were typed."""

from __future__ import annotations

import json
from dataclasses import astuple, dataclass, replace
from typing import Dict, List, Optional, Sequence, Tuple

from live.game.files import Paths, existing, not_written, put_in_place, text_of
from live.game.game import ROUND
from live.game.opening import turned
from live.game.options import OPTION_OF, PLAYERS, TAG, UNKNOWN, Options, assigned, read_names
from live.game.tags import known_name, value_of
from live.run.refused import Refused
from live.table.pairings import Pairing, Pairings
from live.words.message import Complaint, Message, linked

IN_NO_COLUMN = tuple(tag for tag, option in OPTION_OF.items() if option not in PLAYERS)


@dataclass(frozen=True)
class TypedName:
    """A tag that was typed for the pair of a board, and its own value then: that of the table, or of the round."""

    board: int
    white: str
    black: str
    tag: str
    own: str
    value: str

    @property
    def called(self) -> str:
        """The tag as it is typed."""
        return "Place" if self.tag == "Site" else self.tag


Names = Tuple[TypedName, ...]


@dataclass(frozen=True)
class Named:
    """The lines of a table with what was typed for their pairs; what of that is left, and messages about the rest."""

    lines: Pairings
    left: Names
    told: Tuple[str, ...] = ()


def own_options(of_all: Options, pairing: Pairing) -> Options:
    """The options of a line, with those of all games."""
    return Options.of_words(pairing.words(of_all.words()))


def named_options(of_all: Options, pairing: Pairing) -> Options:
    """The same, with what was typed in place of its own."""
    own = own_options(of_all, pairing)
    if not pairing.typed:
        return own
    given = [assigned(OPTION_OF[tag], value) if tag in OPTION_OF else assigned(TAG, f"{tag}={value}") for tag, value in pairing.typed]
    return replace(own.with_given(Options.of_words(given)), recover=own.recover)


def value_in(options: Options, tag: str) -> str:
    """The value of a tag, as it is published; empty if it is unknown."""
    value = dict(options.tags).get(tag) or (options.value(OPTION_OF[tag]) if tag in OPTION_OF else None)
    return "" if value in (None, UNKNOWN) else str(value)


def with_names(pairing: Pairing, names: Sequence[TypedName]) -> Pairing:
    """A line with what was typed for its pair."""
    return replace(pairing, typed=tuple((name.tag, name.value) for name in names if name.board == pairing.board))


def typed_names(pairing: Pairing, text: str, kept: Names, of_all: Options) -> Names:
    """What is typed for boards, with this text for one of them. Its own value takes the typed one away. Refused if one can't be given."""
    kept = named(Pairings((pairing,)), kept, of_all).left
    own, names = own_options(of_all, pairing), {name.tag: name for name in kept if name.board == pairing.board}
    for tag, value in given_in(text, pairing.board).items():
        names.pop(tag, None)
        if ("" if value == UNKNOWN else value) != value_in(own, tag):
            names[tag] = TypedName(pairing.board, pairing.white, pairing.black, tag, value_in(own, tag), value)
    return (*(name for name in kept if name.board != pairing.board), *names.values())


def given_in(text: str, board: int) -> Dict[str, str]:
    """The tags that a line gives for a board. Refused if one isn't a tag, or can't have its value."""
    given = read_names(text, board)
    given = replace(given, date=turned(Options(date=given.date)).date if given.date not in (None, UNKNOWN) else given.date)
    values = {tag: given.value(option) for tag, option in OPTION_OF.items()}
    return {**{tag: value for tag, value in values.items() if value is not None}, **dict(given.tags)}


def named(read: Pairings, kept: Names, of_all: Options) -> Named:
    """A table with what was typed for its pairs. What was typed for a board without a line stays."""
    lines: Dict[int, Pairing] = {}
    for pairing in (*read.boards, *read.absent, *(one for wrong in read.wrong for one in (wrong.pairing, wrong.unplaced) if one)):
        lines.setdefault(pairing.board, pairing)
    found = [counted(pairing, kept, of_all) for pairing in lines.values()]
    left = (*(name for name in kept if name.board not in lines), *(name for names, _ in found for name in names))

    def typed(pairing: Pairing) -> Pairing:
        return with_names(pairing, left) if pairing is lines[pairing.board] else pairing

    wrong = (replace(one, pairing=one.pairing and typed(one.pairing), unplaced=one.unplaced and typed(one.unplaced)) for one in read.wrong)
    read = replace(read, boards=tuple(map(typed, read.boards)), absent=tuple(map(typed, read.absent)), wrong=tuple(wrong))
    return Named(read, left, tuple(line for _, told in found for line in told))


def counted(pairing: Pairing, kept: Names, of_all: Options) -> Tuple[Names, List[str]]:
    """What was typed for a line and still counts, now of its pair; and the messages about the rest."""
    names = [name for name in kept if name.board == pairing.board]
    own, is_same = own_options(of_all, pairing), bool(names) and is_pair_of(names, pairing)
    stay = [name for name in names if is_same and value_in(own, name.tag) == name.own]
    told = told_of_gone([name for name in names if name not in stay and not (is_same and value_in(own, name.tag) == name.value)], is_same)
    return tuple(replace(name, white=pairing.white, black=pairing.black) for name in stay), told


def is_pair_of(names: Sequence[TypedName], pairing: Pairing) -> bool:
    """Whether a line has the pair for which these names of its board were typed. A player whose name was put right is the same one."""
    typed = {name.tag: name.value for name in names}
    return pairing.white in (names[0].white, typed.get("White")) and pairing.black in (names[0].black, typed.get("Black"))


def told_of_gone(names: Sequence[TypedName], is_same_pair: bool) -> List[str]:
    """The messages that what was typed for a board doesn't count any more."""
    if names and not is_same_pair:
        typed = linked("comma", [f"{name.called}={name.value or UNKNOWN}" for name in names])
        return [Message("naming.gone_with_pair", number=names[0].board, typed=typed)]
    return [told_of_own(name) for name in names]


def told_of_own(name: TypedName) -> str:
    """The message that its own value counts again."""
    value = name.value or UNKNOWN
    if name.tag in IN_NO_COLUMN:
        return Message("naming.gone_with_round", number=name.board, tag=name.called, value=value)
    return Message("naming.gone_with_table", number=name.board, tag=name.called, value=value)


def told_of_typed(told: str, text: str, pairing: Pairing) -> str:
    """The answer to a line that gives names: what has changed, and until when that holds."""
    tags = [tag for tag in given_in(text, pairing.board) if tag in dict(pairing.typed)]
    if not tags:
        return Message("naming.as_the_table", told=told)
    if all(tag in IN_NO_COLUMN for tag in tags):
        return Message("naming.holds_in_round", told=told)
    return Message("naming.holds_in_table", told=told)


# The file.


def path_of(folder: str) -> str:
    """Where a round's typed names are."""
    return Paths(f"{folder}/{ROUND}").names


def kept_names(folder: str) -> Tuple[Names, Tuple[str, ...]]:
    """The typed names that are kept, and the message about lines that aren't understood. Raises OSError if they can't be read."""
    lines = existing(path_of(folder)).decode("utf-8", "replace").split("\n")
    found = [read_name(line) for line in lines if line]
    names = {(name.board, name.tag): name for name in found if name}
    return tuple(names.values()), () if all(found) else (Message("naming.not_understood", path=path_of(folder)),)


def read_name(line: str) -> Optional[TypedName]:
    """A kept line; None if it isn't one."""
    try:
        board, *texts = json.loads(line)
        name = TypedName(board, *texts)
        is_sound = type(board) is int and all(type(text) is str for text in texts) and known_name(name.tag) == name.tag
        is_fit = is_sound and value_of(name.tag, name.value) == name.value and bool(name.value or name.tag not in OPTION_OF)
        if is_fit and name.tag == "Date" and name.value != UNKNOWN:
            turned(Options(date=name.value))
        return name if is_fit else None
    except (Complaint, Refused, RecursionError, TypeError, ValueError):
        return None


def keep_names(folder: str, names: Names) -> None:
    """Keeps them, in order of their boards. Raises OSError if they can't be written."""
    lines = [json.dumps(astuple(name), ensure_ascii=False) for name in sorted(names, key=lambda name: name.board)]
    put_in_place(path_of(folder), "".join(f"{line}\n" for line in lines).encode("utf-8", "replace"))


def read_with_names(read: Pairings, folder: str, of_all: Options, keeps: bool = False) -> Named:
    """A table with the names that are kept for its pairs. If they can't be read, it is as it is. `keeps` keeps what is left of them."""
    try:
        kept, told = kept_names(folder)
    except OSError as error:
        return Named(read, (), (Message("naming.unreadable", path=path_of(folder), why=text_of(error)),))
    found = named(read, kept, of_all)
    told = (*told, *found.told)
    try:
        if keeps and set(found.left) != set(kept):
            keep_names(folder, found.left)
    except OSError as error:
        told = (*told, not_written(path_of(folder), error))
    return replace(found, told=told)
