"""All outputs of a round, the first one and the named ones. Each is a broadcast of its own over the same games: what goes wrong in one
leaves the others alone, and none waits for another. A named one has a delay, a command, a static site and a folder of its own. Its
delay is given whenever it goes out, so none is kept."""

from __future__ import annotations

import os
import pathlib
import re
from dataclasses import dataclass, replace
from typing import Callable, Iterable, List, Optional, Sequence, Tuple

from live.child.program import Program
from live.game.files import new_of, remove, text_of
from live.game.game import OF_AN_OUTPUT
from live.out.broadcast import Broadcast
from live.out.delay import GoingOut, in_home, read_command, seconds_in
from live.out.spectators import Game, Paired
from live.run.loop import Loop, traced
from live.run.refused import ARGUMENTS, REFUSED, Refused
from live.words.message import Message, linked, plural

OUTPUT = "--output"
NAME = re.compile(r"[a-z][a-z0-9-]{0,29}", re.ASCII)
MINUTES = re.compile(r"([0-9.]+)\s*(?:minutes?|min)?", re.ASCII)
WEB = re.compile(r"web(?:\s+(.*))?", re.DOTALL)
EXAMPLE = "agency = 3, /home/anna/agency.sh"
LONG_EXAMPLE = "public = 15, web /home/anna/site, /home/anna/public.sh"
NO = "no"
MOST = 8  # outputs: each has some files open for each board, and boards come first
TEXT, SHOWN = "broadcast.pgn", "broadcast.shown"


@dataclass(frozen=True)
class Output:
    """A named output. Without `out` nothing goes out there any more, and what is left of it is to be removed."""

    name: str
    out: Optional[GoingOut] = None
    web: str = ""  # the folder of its static site

    @property
    def folder(self) -> str:
        """The name of its folder."""
        return f"{OF_AN_OUTPUT}{self.name}"

    @property
    def late(self) -> str:
        """How late it is, in words; empty if it isn't."""
        return self.out.late if self.out else ""


def held(outputs: Sequence[Output], seconds: float) -> Tuple[Output, ...]:
    """The same, where a last ply must stand for so long before it goes out."""
    return tuple(replace(output, out=output.out and replace(output.out, hold=seconds)) for output in outputs)


def read_name(text: str) -> str:
    """A name in small letters. Refused if it isn't one."""
    name = text.strip().lower()
    if NAME.fullmatch(name):
        return name
    what = Message("output.no_name", name=text.strip()) if name else Message("output.has_a_name")
    raise Refused(ARGUMENTS, Message("output.name_how", why=what, example=EXAMPLE))


def read_output(text: str) -> Output:
    """`agency = 3, web /home/anna/site, /home/anna/agency.sh`: how many minutes late, and if wanted the folder of a site and a
    command; `agency = no` removes it. Refused if it isn't understood: what isn't might show moves too soon."""
    before, _, value = text.partition("=")
    name = read_name(before)
    late, comma, rest = (part.strip() for part in value.partition(","))
    if late.lower() == NO and not comma:
        return Output(name)
    found = MINUTES.fullmatch(late)
    seconds = seconds_in(found.group(1)) if found else None
    if seconds is None:
        if late:
            raise _refused(name, Message("output.no_minutes", late=late, example=EXAMPLE))
        raise _refused(name, Message("output.how_late", example=EXAMPLE))
    if rest[:1].isdigit():
        raise _refused(name, Message("output.part_of_a_minute", late=late, rest=rest[:1]))
    site = WEB.fullmatch(rest)
    web, _, command = (part.strip() for part in (site.group(1) or "").partition(",")) if site else ("", "", rest)
    if site and not web:
        raise _refused(name, Message("output.which_folder", example=LONG_EXAMPLE))
    words = read_command(command, f"{OUTPUT} {name}") if command else ()
    if words and words[0].endswith(","):
        raise _refused(name, Message("output.comma", example=LONG_EXAMPLE))
    return Output(name, GoingOut(seconds, words, name), in_home(web))


def _refused(name: str, why: str) -> Refused:
    return Refused(ARGUMENTS, linked("colon", (f"{OUTPUT} {name}", why)))


def read_outputs(texts: Sequence[str]) -> Tuple[Output, ...]:
    """All that are given, in their order. Refused if two have the same name, or there are too many."""
    outputs = tuple(map(read_output, texts))
    names = [output.name for output in outputs]
    for name in names:
        if names.count(name) > 1:
            raise Refused(ARGUMENTS, Message("output.twice", option=OUTPUT, name=name))
    if len(outputs) > MOST:
        raise Refused(ARGUMENTS, Message("output.too_many", count=len(outputs), most=MOST))
    return outputs


def refuse_shared_sites(web: str, outputs: Sequence[Output]) -> None:
    """Refuses two sites of which one is in the folder of the other, or in the same: readers of the later one would get the earlier one too."""
    sites = {os.path.realpath(web): (web, Message("output.own_site"))} if web else {}
    for output in outputs:
        if not output.web:
            continue
        place = os.path.realpath(output.web)
        for other, (folder, whose) in sites.items():
            if place == other:
                raise _refused(output.name, Message("output.same_folder", web=output.web, whose=whose))
            if is_within(place, other):
                raise _refused(output.name, Message("output.inside", web=output.web, folder=folder, whose=whose))
            if is_within(other, place):
                raise _refused(output.name, Message("output.around", web=output.web, folder=folder, whose=whose))
        sites[place] = output.web, Message("output.site_of", name=output.name)


def sites_given(web: str, outputs: Sequence[Output]) -> List[Tuple[str, str]]:
    """The folder of each site, behind the option that gives it."""
    sites = (("--web", web), *((f"{OUTPUT} {output.name}", output.web) for output in outputs))
    return [(option, site) for option, site in sites if site]


def refuse_games_in_site(folder: pathlib.Path, web: str, outputs: Sequence[Output]) -> None:
    """Refuses a site in whose folder the round keeps its games: it would overwrite their round.pgn, and publish them at once."""
    for option, site in sites_given(web, outputs):
        if is_within(os.path.realpath(folder), os.path.realpath(site)):
            why = Message("output.games_there", folder=folder)
            raise Refused(REFUSED, linked("colon", (option, site, why)))


def is_within(inner: str, outer: str) -> bool:
    """Whether a folder is this one, or is in it. Both are given as the file system has them."""
    return os.path.commonpath([inner, outer]) == outer


# In the round's folder.


def left_in(folder: pathlib.Path) -> List[str]:
    """The names of the outputs of which something is there."""
    try:
        found = [path.name[len(OF_AN_OUTPUT) :] for path in folder.glob(f"{OF_AN_OUTPUT}*") if not path.is_symlink() and _own(path)]
    except OSError:
        return []  # what is wrong with the folder is said elsewhere
    return sorted(name for name in found if NAME.fullmatch(name))


def _own(place: pathlib.Path) -> List[pathlib.Path]:
    """The files of an output in its folder."""
    return [place / name for name in (TEXT, new_of(TEXT), SHOWN, new_of(SHOWN)) if os.path.lexists(place / name)]


def refuse_unknown(removed: Sequence[str], known: Sequence[str]) -> None:
    """Refuses to remove an output that isn't there."""
    there = sorted(set(known))
    for name in removed:
        if name not in there:
            names = ", ".join(there)
            others = Message("output.none") if not there else plural("output.there_are", len(there), names=names)
            raise Refused(REFUSED, Message("output.unknown", option=OUTPUT, name=name, no=NO, others=others))


def refuse_links(folder: pathlib.Path, outputs: Sequence[Output]) -> None:
    """Refuses an output whose folder is a link: nothing is written through one."""
    for output in outputs:
        place = folder / output.folder
        if place.is_symlink():
            raise Refused(REFUSED, Message("output.link", place=place, name=output.name))


def removed(folder: pathlib.Path, output: Output) -> str:
    """Removes what belongs to an output from the round's folder, and nothing else. Returns a message; empty if there was nothing."""
    place = folder / output.folder
    if not place.is_dir() or place.is_symlink():
        return ""
    own = _own(place)
    try:
        for path in own:
            remove(path)
        if not any(place.iterdir()):
            place.rmdir()
    except OSError as error:
        return Message("output.not_removed", name=output.name, place=place, why=text_of(error))
    return Message("output.removed", name=output.name) if own else ""


def told_of(folder: pathlib.Path, outputs: Sequence[Output], left: Sequence[str]) -> List[str]:
    """Lines about what goes out beside the first output, and what is left of outputs that aren't given."""
    lines: List[str] = []
    for output in outputs:
        if output.out:
            place = folder / output.folder / TEXT
            if output.late:
                lines.append(Message("output.is_late", name=output.name, late=output.late, place=place))
            else:
                lines.append(Message("output.is_not_late", name=output.name, place=place))
    given = [output.name for output in outputs]
    for name in left:
        if name not in given:
            lines.append(Message("output.not_given", name=name, option=OUTPUT, no=NO))
    return lines


def without_those(words: Sequence[str], names: Sequence[str]) -> List[str]:
    """The words of a command line without the outputs that have these names."""
    return [word for word in words if name_in(word) not in names]


def name_in(word: str) -> Optional[str]:
    """The name of the output in a word of a command line; None if it gives none."""
    option, _, value = word.partition("=")
    return value.partition("=")[0] if option == OUTPUT else None


class Outputs:
    """All of them, over the same games and the table's boards that aren't recorded. The spectators' page shows the first one."""

    def __init__(
        self,
        loop: Loop,
        program: Program,
        folder: pathlib.Path,
        first: GoingOut,
        named: Sequence[Output],
        games: Callable[[], Iterable[Game]],
        unrecorded: Callable[[], Iterable[Paired]],
        says: Callable[[str], None],
        trouble: Callable[[str], None],
    ) -> None:
        self._trouble = trouble

        def broadcast(out: GoingOut, place: pathlib.Path) -> Broadcast:
            return Broadcast(loop, program, out, place / TEXT, games, says, trouble, unrecorded=unrecorded)

        self.first = broadcast(first, folder)
        self.named = {output.name: broadcast(output.out, folder / output.folder) for output in named if output.out}
        self._all = (self.first, *self.named.values())

    def _each(self, does: Callable[[Broadcast], None]) -> None:
        """Does it with each. An error in one keeps no other from it."""
        for one in self._all:
            try:
                does(one)
            except Exception as error:
                self._trouble(traced(error))

    def changed(self, number: Optional[int] = None) -> None:
        """The game with this number has changed. Without a number any game may have changed, or there are others."""
        self._each(lambda one: one.changed(number))

    def look(self) -> None:
        """Takes the games as they are now."""
        self._each(lambda one: one.look())

    @property
    def hidden_for(self) -> Optional[float]:
        """For how many seconds something of the games is still hidden anywhere; None if nothing is."""
        return max((left for left in (one.hidden_for for one in self._all) if left is not None), default=None)

    @property
    def is_out(self) -> bool:
        """Whether all that each shows is written and carried away."""
        return all(one.is_out for one in self._all)

    @property
    def alarms(self) -> List[str]:
        """What can't be carried away, and why."""
        return [alarm for alarm in (one.told_of_alarm for one in self._all) if alarm]

    def finish(self, done: Callable[[], None]) -> None:
        """Writes and publishes a last time what each shows, all at once, then calls this."""
        left = len(self._all)

        def one_is_done() -> None:
            nonlocal left
            left -= 1
            if left == 0:
                done()

        for one in self._all:
            try:
                one.finish(one_is_done)
            except Exception as error:
                self._trouble(traced(error))
                one_is_done()

    def close(self) -> List[str]:
        """Lets nothing further go out. Returns what was wrong at the end."""
        complaints: List[str] = []
        self._each(lambda one: complaints.extend(one.close()))
        return complaints
