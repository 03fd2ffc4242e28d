"""The options of a game: how its board lies, its start position, its tags. They are read and written here, also those of
`name White=Anna`, by which somebody puts names right. Pure."""

from __future__ import annotations

import dataclasses
import re
import time
from dataclasses import dataclass
from typing import Callable, Dict, List, Mapping, Optional, Sequence, Tuple

from live.game.tags import Malformed, pair_of
from live.run.refused import ARGUMENTS, DGT_LIVE, REFUSED, NotDone, Refused
from live.words.message import Message, linked

FIRST, FEN = "--first", "--fen"
DATE = "--date"
PLAYERS = ("--white", "--black")
TAGS = ("--event", "--site", DATE, "--round", *PLAYERS)
TAG = "--tag"  # NAME=VALUE: a tag that is published
SITE, PLACE = "--site", "--place"  # PGN's word for where a game is played, and ours: a site is also a folder of files
PUBLISHED = {"--event": "Event", "--site": "Site", "--round": "Round", "--white": "White", "--black": "Black"}
TYPED = ("--event", "--site", *PLAYERS)  # those that are shown as they were typed
UNKNOWN = "?"  # PGN's value for an unknown tag
BEGAN = "--began"  # the day on which a game began; kept beside the game, never typed
VALUED = (FIRST, FEN, *TAGS)
ROTATED, RECOVER, STRICT = "--rotated", "--recover", "--strict"
NOT_ROTATED = f"{ROTATED}=no"  # takes ROTATED back
PLAIN = (ROTATED, NOT_ROTATED, RECOVER, STRICT)
SEE_HELP = Message("help.live", dgt_live=DGT_LIVE)
INITIAL = "rnbqkbnr/pppppppp/8/8/8/8/PPPPPPPP/RNBQKBNR"


@dataclass(frozen=True)
class Options:
    """The options of a game; None for one that isn't given. `recover` says whether moves that two hands hid are added. The day on
    which the game began is its date, unless another one is given. `tags` are those that are only published, or published in
    other letters than recorded; a tag without a value is removed. `unrotated` is given, and never kept."""

    rotated: bool = False
    first: Optional[str] = None
    fen: Optional[str] = None
    event: Optional[str] = None
    site: Optional[str] = None
    date: Optional[str] = None
    round: Optional[str] = None
    white: Optional[str] = None
    black: Optional[str] = None
    recover: Optional[bool] = None
    began: Optional[str] = None
    unrotated: bool = False
    tags: Tuple[Tuple[str, str], ...] = ()  # in order of their names

    # Words and text.

    @staticmethod
    def of_words(words: Sequence[str]) -> Options:
        """The options as they are typed: `--fen TEXT` or `--fen=TEXT`. Refused if a word isn't one, or is there twice."""
        values: Dict[str, object] = {}
        tags: Dict[str, str] = {}
        left = list(words)
        while left:
            word = left.pop(0)
            option, equals, value = word.partition("=")
            option = meant(option)
            if word in (RECOVER, STRICT):
                values["recover"] = word == RECOVER
                continue
            if option == TAG:
                name, _, tags_value = (value if equals else value_of(word, left)).partition("=")
                tags[name] = tags_value
                continue
            if option[2:] in values:
                raise Refused(ARGUMENTS, with_help(Message("option.twice", option=option)))
            if word in (ROTATED, NOT_ROTATED):
                values["rotated"], values["unrotated"] = word == ROTATED, word == NOT_ROTATED
            elif option in (*VALUED, BEGAN):
                values[option[2:]] = value if equals else value_of(word, left)
            else:
                raise Refused(ARGUMENTS, with_help(Message("option.unknown", word=word)))
        return Options(**values, tags=sorted_pairs(tags))  # type: ignore[arg-type]

    def words(self) -> Tuple[str, ...]:
        """The words as they may be typed, in a fixed order."""
        words = [ROTATED] if self.rotated else [NOT_ROTATED] if self.unrotated else []
        if self.recover is not None:
            words.append(RECOVER if self.recover else STRICT)
        for option in VALUED:
            value = self.value(option)
            words += [assigned(option, value)] if value is not None else []
        words += [assigned(TAG, f"{name}={value}") for name, value in self.tags]
        return tuple(words)

    @staticmethod
    def of_text(text: str) -> Options:
        """From the kept text, one word a line."""
        if "\0" in text:
            raise Refused(REFUSED, Message("option.character"))
        return Options.of_words(text.split("\n")[:-1])

    def text(self) -> str:
        """The text to keep."""
        began = [assigned(BEGAN, self.began)] if self.began else []
        return "".join(word + "\n" for word in (*self.words(), *began))

    def value(self, option: str) -> Optional[str]:
        """The value of an option that has one."""
        value: Optional[str] = getattr(self, option[2:])
        return value

    def refuse_breaks(self) -> None:
        """Refuses a value with a line break: it couldn't be read again."""
        for word in self.words():
            if "\n" in word:
                option, _, value = word.partition("=")
                raise Refused(REFUSED, Message("option.line_break", option=option, value=repr(value)))

    # Which calls of the program get which options.

    def of_board(self) -> Tuple[str, ...]:
        """The options that `watch` has."""
        return Options(self.rotated, self.first, self.fen).words()

    def of_live(self) -> Tuple[str, ...]:
        """The options that `live` has."""
        return self._recorded(self.recover or None).words()

    def of_record(self) -> Tuple[str, ...]:
        """The options that `record` has."""
        return self._recorded(None).words()

    def _recorded(self, recover: Optional[bool]) -> Options:
        return self._with(recover=recover, date=self.date or self.began, unrotated=False, tags=())

    def of_pictures(self) -> Tuple[str, ...]:
        """The options that `pictures` has."""
        return Options(self.rotated).words()

    # What they say.

    @property
    def start(self) -> str:
        """The start position's placement."""
        return (self.fen or INITIAL).split(" ")[0]

    @property
    def side(self) -> str:
        """Whose time comes first."""
        return self.first or "white"

    def tag(self, option: str) -> str:
        """The value of a tag."""
        value = self.value(option)
        return (value or self.began if option == DATE else value) or UNKNOWN

    def written(self, option: str) -> str:
        """What is published for an option, in the letters in which it was typed; empty if it isn't given."""
        return dict(self.tags).get(PUBLISHED[option]) or self.value(option) or ""

    def shown(self, option: str) -> str:
        """The value of a tag as it was typed: the letters that are recorded may be others."""
        return (self.written(option) if option in TYPED else "") or self.tag(option)

    @property
    def players(self) -> str:
        """White's name and Black's."""
        return " - ".join(map(self.shown, PLAYERS))

    @property
    def said(self) -> str:
        """All of them in one line."""
        return " ".join(as_typed(self.words())) or Message("options.none")

    # What a game goes on with.

    def _with(self, **changes: object) -> Options:
        return dataclasses.replace(self, **changes)

    def fixed(self) -> Options:
        """The options that stay once the game has a move: not those that only say how its capture is read, and not the published
        tags."""
        return self._with(first=None, recover=None, began=None, tags=())

    def reading(self) -> Options:
        """Only the options that say how a capture is read."""
        return Options(first=self.first, recover=self.recover)

    def is_said_by(self, given: Options) -> bool:
        """Whether a game with these options goes on unchanged if those are given: none, or the same. The day on which it began may
        be given or left out."""
        if given.unrotated and self.rotated:
            return False
        return given.of_record() in ((), self._with(began=None).of_record(), self.of_record())

    def going_on(self, given: Options, has_moves: bool) -> Optional[Options]:
        """The options with which a game goes on if those are given. Which side's time comes first may change at any time, and
        stays if nothing is said. All others are taken while the game has no move; None if it has one."""
        if given.fixed() == Options() or (has_moves and given.fixed() == self.fixed()):
            return self.with_first(given.first)
        return None if has_moves else given

    def with_given(self, given: Options) -> Options:
        """These options, and those that are given in addition or in their place."""
        values = {option[2:]: given.value(option) for option in (FEN, *TAGS) if given.value(option) is not None}
        rotated = given.rotated or (self.rotated and not given.unrotated)
        tags = dict(given.tagged_over(self).tags)
        return self._with(rotated=rotated, **values).with_first(given.first).tagged(tags).recovering(self.recovers_with(given))

    def lies_as(self, other: Options) -> bool:
        """Whether both have the same start position and the same side of the board: neither changes once there is a move."""
        return (self.rotated, self.fen) == (other.rotated, other.fen)

    def has_tags_of(self, other: Options) -> bool:
        """Whether all tags are the same, as far as they are given."""
        return self.tags == other.tags and all(self.tag(option) == other.tag(option) for option in TAGS)

    def with_first(self, side: Optional[str]) -> Options:
        """The same, with this side's time first, if said."""
        return self if side in (None, self.side) else self._with(first=side)

    def with_tags_of(self, other: Options) -> Options:
        """These options with the tags of another game."""
        return self._with(tags=other.tags, **{option[2:]: other.value(option) for option in TAGS}).recovering(self.recover)

    def filled(self, kept: Options, tags: Sequence[str]) -> Options:
        """With the kept tags, also the published ones, for those that aren't given."""
        values = {option[2:]: kept.value(option) for option in tags if self.value(option) is None}
        return self.tagged_over(kept)._with(**values)

    def tagged(self, tags: Mapping[str, str]) -> Options:
        """With exactly these published tags."""
        return self._with(tags=sorted_pairs(tags))

    def tagged_over(self, kept: Options) -> Options:
        """With the kept published tags, if neither they nor the option for them are given."""
        given = {name for option, name in PUBLISHED.items() if self.value(option) is not None}
        tags = {**{name: value for name, value in kept.tags if name not in given}, **dict(self.tags)}
        return self.tagged({name: value for name, value in tags.items() if value})

    def only(self, tags: Sequence[str]) -> Options:
        """Only these tags."""
        return Options().filled(self, tags)

    def begun(self, day: Optional[str]) -> Options:
        """The same, with this day as the beginning, or an unknown one."""
        return self._with(began=day)

    def day(self, today: str, has_moves: Callable[[], bool]) -> Optional[str]:
        """The day on which a game with these options began: today, if it has no move yet. Unknown if none was kept."""
        return self.began if self.began in (None, today) or has_moves() else today

    def recovering(self, recover: Optional[bool]) -> Options:
        """The same, with pairs recovered or not."""
        return self._with(recover=recover or None)

    def recovers_with(self, given: Options) -> bool:
        """Whether pairs are recovered if these were kept and those are given."""
        return bool(self.recover if given.recover is None else given.recover)

    def has_other_players_than(self, before: Options) -> bool:
        """Whether neither player is the same as before."""
        return self.other_players_than(before) == len(PLAYERS)

    def other_players_than(self, before: Options) -> int:
        """How many players aren't the same as before. Nobody counts as another player than an unknown one."""

        def is_other(option: str) -> bool:
            now, then = dict(self.tags).get(PUBLISHED[option]), dict(before.tags).get(PUBLISHED[option])
            if now and then:  # two names may be the same when recorded
                return now != then
            return before.tag(option) not in (UNKNOWN, self.tag(option))

        return sum(map(is_other, PLAYERS))

    def turned(self, turns: Dict[str, Callable[[str], str]]) -> Options:
        """With the value of each of these options changed to what PGN allows."""
        values = {option: self.value(option) for option in turns}
        return self._with(**{option[2:]: turns[option](value) for option, value in values.items() if value is not None})

    # Messages about changed options.

    def told_of_tags(self, before: Options) -> str:
        """The message if the tags differ from before; empty if they are the same."""
        told = [self._told_of_tag(option, PUBLISHED[option], before) for option in PLAYERS]
        others = [option for option in TAGS if option not in PLAYERS]
        told += [self._told_of_tag(option, Message("tag.its", tag=as_typed([option])[0][2:]), before) for option in others]
        return linked("semicolon", filter(None, told))

    def _told_of_tag(self, option: str, called: str, before: Options) -> str:
        """The message about one tag, which is called so."""
        value, was = self.shown(option), before.shown(option)
        if value == was:
            return ""
        says = Message("tag.unknown_now", called=called) if value == UNKNOWN else Message("tag.now", called=called, value=value)
        return says if was == UNKNOWN else Message("tag.now_and_was", says=says, was=was)

    def told_of_all(self, before: Options) -> str:
        """The message if a game without a move has other options than before; empty if it doesn't."""
        return "" if self.fixed() == before.fixed() else Message("options.now", now=self.said, before=before.said)

    def told_of_turned(self, typed: Options) -> List[str]:
        """The message about values that were changed to what PGN allows."""
        pairs = [(option, typed.value(option), self.value(option)) for option in VALUED]
        return [Message("tag.written_as", option=option, old=old, new=new) for option, old, new in pairs if old != new]


def today() -> str:
    """Today's local date, as PGN has it."""
    return time.strftime("%Y.%m.%d")


def with_help(message: str, see_help: str = SEE_HELP) -> str:
    """A complaint, and where the options are explained."""
    return linked("colon", (message, see_help))


def sorted_pairs(tags: Mapping[str, str]) -> Tuple[Tuple[str, str], ...]:
    """In order of their names."""
    return tuple(sorted(tags.items()))


def value_of(option: str, left: List[str], see_help: str = SEE_HELP) -> str:
    """The value of an option: the next word."""
    if not left:
        raise Refused(ARGUMENTS, with_help(Message("option.wants_value", option=option), see_help))
    return left.pop(0)


def assigned(option: str, value: str) -> str:
    """An option with its value in one word, so that no value is taken for an option, whatever it begins with."""
    return f"{option}={value}"


def meant(option: str) -> str:
    """The option for a word that is typed, as it is kept and as the program has it."""
    return SITE if option == PLACE else option


def as_typed(words: Sequence[str]) -> List[str]:
    """The words as they are mostly typed: an option and its value apart, unless the value looks like an option."""
    typed: List[str] = []
    for word in words:
        option, equals, value = word.partition("=")
        option = PLACE if option == SITE else option
        typed += [option, value] if value and not value.startswith("-") else [option + equals + value]
    return typed


NAME = "name"
OPTION_OF = {"Date": DATE, **{name: option for option, name in PUBLISHED.items()}}
NEXT_PAIR = re.compile(r",?\s+(?=[A-Za-z]+\s*=)")  # before the second pair in a line, and those after it
PLACE_TYPED = re.compile(r"^\s*place\s*=", re.IGNORECASE)  # what PGN calls Site
IN_A_TABLE = Message("naming.in_a_table")


def is_naming(text: str) -> bool:
    """Whether a line gives names."""
    return text.lower().split()[:1] == [NAME]


def read_names(text: str, board: int = 0) -> Options:
    """The tags that a line gives, as they are typed, in a round for this board. Refused if one isn't a tag, or has no such value."""
    how = Message("naming.how", name=f"{board} {NAME}" if board else NAME)
    _, _, pairs = text.strip().partition(" ")
    words: List[str] = []
    for pair in filter(None, NEXT_PAIR.split(pairs.strip())):
        try:
            name, value = pair_of(PLACE_TYPED.sub("Site=", unquoted(pair), count=1))
        except Malformed as error:
            raise NotDone(Message("naming.malformed", why=error.message, how=how)) from None
        words += [OPTION_OF[name], value or UNKNOWN] if name in OPTION_OF else [TAG, f"{name}={value}"]
    if not words:
        raise NotDone(how)
    return Options.of_words(words)


def unquoted(pair: str) -> str:
    """A pair whose value was put in quotes, as a shell wants it, without them."""
    return re.sub(r"""=\s*(["'])((?:(?!\1).)*)\1\s*$""", r"=\2", pair)


def told_of_names(now: Options, before: Options) -> str:
    """What has changed."""
    tags: Dict[str, str] = dict(before.tags)
    others = {name: value for name, value in now.tags if name not in OPTION_OF and tags.get(name) != value}
    gone = [name for name in tags if name not in (*OPTION_OF, *dict(now.tags))]
    parts = [now.told_of_tags(before), *(Message("naming.now", name=name, value=value) for name, value in others.items())]
    parts += [Message("naming.gone", name=name) for name in gone]
    return linked("semicolon", filter(None, parts)) or Message("naming.nothing_changed")


def line_of(given: Options) -> Optional[str]:
    """The line that gives the same as these options; None if they are more than names and tags."""
    named = {name: given.value(option) for name, option in OPTION_OF.items() if given.value(option) is not None}
    pairs = [f"{name}={value}" for name, value in {**named, **dict(given.tags)}.items()]
    is_all = given == given.only(tuple(OPTION_OF.values()))
    return f"{NAME} {' '.join(pairs)}" if pairs and is_all else None
