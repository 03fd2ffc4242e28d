"""The door of dgt_round: what a command line asks for."""

from __future__ import annotations

import os
import pathlib
import shlex
from dataclasses import dataclass, replace
from typing import List, Optional, Sequence, Tuple

from live.child.program import Program
from live.doors.options import ROUNDS, SEE_HELP, Outcome, Outgoing, out_given, pages_given, read, through, with_values
from live.game.files import Paths, text_of
from live.game.game import ROUND, is_of_an_output, keep_options, kept_options
from live.game.kept import LOCK_PATIENCE
from live.game.opening import recordable, turned, unknown
from live.game.options import RECOVER, STRICT, UNKNOWN, Options, as_typed, assigned
from live.out.delay import GoingOut, delay_of, in_home, keep_out, kept_out, told_of_kept as told_of_kept_out
from live.out.outputs import (
    OUTPUT, Output, held, left_in, name_in, read_outputs, refuse_games_in_site, refuse_links, refuse_shared_sites, refuse_unknown, removed,
    sites_given, told_of, without_those,
)  # fmt: skip
from live.out.publish import RESULTS, TournamentFiles, all_text, results_text
from live.round.round import Round, refuse_another_round
from live.round.row import Hall
from live.round.tournament import Tournament, folder_of_table, made, refuse_exchanged, tournament_of
from live.run.loop import Loop, Signals
from live.run.refused import ARGUMENTS, DONE, FAILED, REFUSED, Refused
from live.run.system import locked
from live.show.address import Pages, keep_pages, pages_of
from live.show.page import Title, TwoPages
from live.show.site import SiteFiles, refuse_no_site
from live.show.table import terminal_of_lines
from live.show.view import ArbiterView
from live.table.encoding import ENCODING, encoding_in, known_encoding
from live.table.hall import Source
from live.table.trf import MATCHES, read_matches
from live.words.message import Message, linked

TAGS = ("--event", "--site", "--date", "--round")
VALUED = with_values(ROUNDS)
HELP = """\
usage: dgt_round FILE [FOLDER] [OPTION..]     a round of its own
       dgt_round CUP ROUND [OPTION..]         a round of a tournament
       dgt_round --new CUP                    its folder, with files to fill in
Records all boards of a round, shows them in a table, and keeps in FOLDER (else
in one named after FILE) each game, as 01.dgt and 01.pgn, and all in round.pgn.
The same command goes on with all games. FILE is a table, saved as CSV:
  board,device,white,black
  1,/dev/ttyUSB0,Anna,Ben
and if needed rotated (yes), first (white or black), fen, name (of files),
result, recover (yes or no), serial (the board's number), WhiteElo and so on.
dgt_live --devices lists devices and numbers. While it records, type
  3 1-0       the result of board 3: 1-0, 0-1, 1/2-1/2; by forfeit +-, -+, --
  3 Nf3 Nc6   moves that board 3 has missed; 3 back takes one off, 3 * a result
  3 name White=Anna   a name that is wrong in FILE, until FILE changes there
  3, 3 moves, 3 ok, 3 undo, 3 y   state; game; LOOK seen; undo; played as asked
  r, messages, q     read FILE again, as HUP does; earlier messages; end
OPTION, kept but *: --event, --place, --site, --date, --round; --tag NAME=VALUE
  --page [ADDRESS:]PORT     a page for spectators, as --page 8000
  --page-host NAME, --arbiter-page [ADDRESS:]PORT   its names; the arbiter's
  --embed https://SITE, --web FOLDER *   who may frame it; a site of files
  --delay MINUTES, --publish COMMAND *   how late it goes out, and by what
  --output 'NAME = MINUTES, COMMAND' *   a further output; for more, once more
  --hold, --encoding, --matches, --recover, --strict, --version: man
"""


@dataclass(frozen=True)
class Asked:
    """What a command line asks for."""

    file: str = ""
    folder: str = ""
    options: Options = Options()  # of all games
    pages: Pages = Pages()
    out: Outgoing = Outgoing()
    web: str = ""  # the folder of the static site
    outputs: Tuple[Output, ...] = ()  # beside the first one
    known: Tuple[str, ...] = ()  # the names of outputs that the tournament's settings have
    encoding: str = ""  # of tables that aren't Unicode; empty if none is typed
    no_matches: bool = False  # the teams of a report play none
    tournament: Optional[Tournament] = None  # the one whose round is played
    asks: str = ""  # --help, --version or --new, for the files of a tournament


def parse(arguments: Sequence[str]) -> Asked:
    """What the arguments ask for. Refused with status 2 if they make no sense."""
    asked = each_read(arguments)
    refuse_shared_sites(asked.web, asked.outputs)
    return asked


def each_read(arguments: Sequence[str]) -> Asked:
    """The same, wherever their sites are."""
    given = read(ROUNDS, arguments)
    for option in ("--help", "--version"):
        if given.has(option):
            return Asked(asks=option)
    words = [word for word in given.of_game() if word.partition("=")[0] not in TAGS]
    if not given.plain or not given.plain[0]:
        raise given.refused(Message("option.file"))
    if len(given.plain) > 2:
        raise given.refused(Message("option.quotes", word=given.plain[2]))
    embed, encoding = given.last("--embed"), given.last(ENCODING)
    if embed and not embed.isascii():
        raise Refused(ARGUMENTS, Message("option.embed", option="--embed", value=repr(embed), how=told_of_letters(embed)))
    if embed and not given.last("--page"):
        raise given.refused(Message("option.embed_without_page", option="--embed"))
    words += [assigned(option, value) for option in TAGS for value in given.all(option)[-1:]]
    return Asked(
        given.plain[0],
        "".join(given.plain[1:]),
        Options.of_words(words),
        pages_given(given) or Pages(),
        out_given(given),
        in_home(given.last("--web") or ""),
        read_outputs(given.all(OUTPUT)),
        encoding=known_encoding(encoding) if encoding else "",
        no_matches=read_matches(given.last(MATCHES) or ""),
        asks="--new" if given.has("--new") else "",
    )


def told_of_letters(site: str) -> str:
    """How a site with letters beyond ASCII is typed."""
    try:
        scheme, _, rest = site.strip().lower().rpartition("://")
        host, colon, port = rest.rstrip("/").partition(":")
        return Message("option.embed_as", site=f"{scheme or 'https'}://{host.encode('idna').decode()}{colon}{port}")
    except UnicodeError:
        return Message("option.embed_copy")


def without_help(message: str) -> str:
    """A complaint without where the options are explained."""
    is_linked = isinstance(message, Message) and message.places.get("last") == SEE_HELP[ROUNDS]
    return str(message.places["front"]) if isinstance(message, Message) and is_linked else message


def of_tournament(arguments: Sequence[str], tournament: Tournament, typed: Asked) -> Asked:
    """The round of a tournament: what its settings say, and what is typed in addition. A relative path of a site in the settings
    begins at the tournament's folder."""
    table = tournament.table()
    words = tournament.words(table, VALUED, encoding_in(arguments))
    if RECOVER in arguments or STRICT in arguments:
        words = [word for word in words if word not in (RECOVER, STRICT)]
    try:
        with_sites_in(each_read([*words, str(table)]), tournament.folder, Asked())
    except Refused as refused:
        raise Refused(REFUSED, linked("colon", (str(tournament.settings), without_help(refused.lines[0])))) from None
    known = tuple(filter(None, map(name_in, words)))
    words = without_those(words, [output.name for output in typed.outputs])
    asked = each_read([assigned("--round", str(tournament.number)), *words, *arguments])
    asked = with_sites_in(asked, tournament.folder, typed)
    typed_encoding = encoding_in(arguments)  # what is set is read anew each time
    return replace(asked, file=str(table), folder=tournament.games, known=known, tournament=tournament, encoding=typed_encoding)


def with_sites_in(asked: Asked, folder: pathlib.Path, typed: Asked) -> Asked:
    """With the sites that aren't typed in this folder, unless their paths are absolute. Refused if one is in another's folder."""
    names = [output.name for output in typed.outputs]

    def placed(web: str, is_typed: bool) -> str:
        return str(folder / web) if web and not is_typed else web

    web = placed(asked.web, bool(typed.web))
    outputs = tuple(replace(output, web=placed(output.web, output.name in names)) for output in asked.outputs)
    refuse_shared_sites(web, outputs)
    return replace(asked, web=web, outputs=outputs)


def folder_of(asked: Asked) -> Tuple[pathlib.Path, int]:
    """The folder, made if necessary, and locked. Refused if what is asked of its outputs can't be."""
    folder = pathlib.Path(asked.folder)
    if is_of_an_output(str(folder)):
        raise Refused(REFUSED, Message("folder.of_an_output", folder=folder))
    refuse_games_in_site(folder, asked.web, asked.outputs)
    for option, site in sites_given(asked.web, asked.outputs):
        refuse_no_site(option, pathlib.Path(site))
    try:
        folder.mkdir(exist_ok=True)
        lock = os.open(folder, os.O_RDONLY | os.O_DIRECTORY)
    except OSError as error:
        raise Refused(FAILED, Message("folder.choose_another", why=told_of_no_folder(folder, error))) from None
    if not os.access(folder, os.W_OK | os.X_OK):
        raise Refused(FAILED, Message("folder.no_right", folder=folder))
    if not locked(lock, LOCK_PATIENCE):
        raise Refused(REFUSED, Message("folder.in_use", folder=folder))
    refuse_unknown([output.name for output in asked.outputs if not output.out], [*asked.known, *left_in(folder)])
    refuse_links(folder, asked.outputs)
    return folder, lock


def told_of_no_folder(folder: pathlib.Path, error: OSError) -> str:
    """Why a folder isn't there."""
    if isinstance(error, FileNotFoundError):
        return Message("folder.no_parent", parent=folder.parent, name=folder.name)
    if isinstance(error, (FileExistsError, NotADirectoryError)):
        return Message("folder.is_file", folder=folder)
    return Message("folder.cannot_be_made", folder=folder, why=text_of(error))


def round_of(text: Optional[str]) -> Optional[int]:
    """The number of the round, if it has one."""
    return int(text) if text and text.isascii() and text.isdigit() and len(text) < 4 else None


def told_of_kept(given: Options, kept: Options) -> str:
    """The message that a round goes on with the options of its beginning; empty if it doesn't."""
    filled, tags = given.filled(kept, TAGS), dict(given.tags)
    left = filled.only([option for option in TAGS if given.value(option) is None])
    words = left.tagged({name: value for name, value in filled.tags if name not in tags}).words()
    return Message("round.goes_on_with", options=shlex.join(as_typed(words))) if words else ""


def play(asked: Asked, program: Program, signals: Signals) -> Outcome:
    """Records the round."""
    asked.options.refuse_breaks()
    refuse_exchanged(asked.file, asked.folder)
    given = turned(recordable(asked.options, unknown))
    file = pathlib.Path(asked.file)
    source = Source(program, file, round_of(asked.options.round), encoding=asked.encoding, no_matches=asked.no_matches)
    source.in_tournament = asked.tournament is not None
    if asked.tournament and not asked.encoding:
        source.encoding_set = asked.tournament.encoding
    read = source.read_first()
    told_of_place = ""
    if not asked.folder:
        asked = replace(asked, folder=str(folder_of_table(file)))
        told_of_place = Message("place.games", folder=os.path.abspath(asked.folder))
    folder, _ = folder_of(asked)
    files = Paths(str(folder / ROUND))
    kept = Options() if asked.tournament else (kept_options(files) or Options()).only(TAGS)
    told, given = told_of_kept(given, kept), given.filled(kept, TAGS)
    loop = Loop()
    hall = Hall(program, str(folder), given, terminal_of_lines(loop))
    of_others = refuse_another_round(source, read, hall)
    where, are_kept = pages_of(files, asked.pages)
    pages = TwoPages(loop, where, are_kept)
    delay = delay_of(files, asked.out.delay, [Paths(str(folder / pairing.file_name)) for pairing in read.boards])
    kept_before = kept_out(files)
    out = GoingOut(delay, asked.out.publish, hold=kept_before.hold_with(asked.out.hold))
    shown = given.written("--event") or file.stem
    event = "" if given.event == UNKNOWN else given.written("--event")
    title = linked("comma", filter(None, (event, given.round and Message("round.number", number=given.round)))) or file.stem
    told_of_removed = [removed(folder, output) for output in asked.outputs if not output.out]
    told_of_named = [*filter(None, told_of_removed), *told_of(folder, asked.outputs, left_in(folder))]
    hall = replace(hall, out=out, outputs=held(asked.outputs, out.hold))
    games = Round(loop, source, read, title, hall, of_others)
    for line in filter(None, (told_of_place, told)):
        games.say(line)
    if out.late:
        spectators = Message("delay.round", late=out.late)
        games.say(Message("delay.as_before", delay=spectators) if asked.out.delay is None else spectators)
    for line in (*told_of_kept_out(kept_before, asked.out.hold, bool(asked.out.publish)), *told_of_named):
        games.say(line)
    try:
        keep_out(files, asked.out.hold, bool(asked.out.publish))
        if given.only(TAGS) != kept:
            keep_options(files, given.only(TAGS))
        if not are_kept and (where.any or where.ends):
            keep_pages(files, where)
    except Refused as refused:  # the boards are recorded anyway
        games.say(refused.lines[0])
    arbiter = ArbiterView(shown, games.boards, games.trouble, given.round or "")
    arbiter.is_unpublished = lambda: bool(games.outputs.alarms)
    pages.trouble = games.trouble
    pages.show(Title(shown, given.round or "", out.late), arbiter, games.broadcast)
    games.on_change = pages.changed
    for line in filter(None, (*pages.told(Message("tag.round")), pages.secret)):
        games.say(line)  # the round's log has only faults
    if hall.terminal is None and os.isatty(0):
        games.say(Message("round.type_help"))
    signals.tell(loop, games.end, games.hung_up)
    more = files_of(asked.tournament, loop, games) if asked.tournament else None
    for line in told_of_sites(asked):
        games.say(line)
    sites = sites_of(asked, loop, games, Title(shown, given.round or "", out.late))
    loop.run()
    pages.close()
    complaints = [*(more.close() if more else []), *(line for site in sites for line in site.close())]
    status, others = games.close()
    return (FAILED if complaints else status), [*complaints, *others]


def files_of(tournament: Tournament, loop: Loop, games: Round) -> TournamentFiles:
    """The files that a tournament's folder gets from a round."""
    others = tournament.other_rounds()
    texts = (
        (tournament.all_games, lambda: all_text(others, tournament.number, games.broadcast.text())),
        (pathlib.Path(tournament.games) / RESULTS, lambda: results_text(games.results())),
    )
    kept = TournamentFiles(loop, texts, games.say, games.trouble, games.broadcast.other_changed)
    games.broadcast.finishes.append(kept.finish)
    return kept


def told_of_sites(asked: Asked) -> List[str]:
    """Where each site is."""
    told = [Message("site.is_in", folder=os.path.abspath(asked.web))] if asked.web else []
    outputs = [output for output in asked.outputs if output.out and output.web]
    return [*told, *(Message("site.of_output_is_in", name=output.name, folder=os.path.abspath(output.web)) for output in outputs)]


def sites_of(asked: Asked, loop: Loop, games: Round, title: Title) -> List[SiteFiles]:
    """The static sites. Each has what its output shows."""
    wanted = [(asked.web, games.broadcast, title)]
    wanted += [(output.web, games.outputs.named[output.name], replace(title, late=output.late)) for output in asked.outputs if output.out]
    sites: List[SiteFiles] = []
    for folder, broadcast, of in wanted:
        if folder:
            sites.append(SiteFiles(loop, pathlib.Path(folder), of, broadcast, games.say, games.trouble))
            broadcast.finishes.append(sites[-1].finish)
    return sites


def main(arguments: Sequence[str], here: str) -> int:
    """Does what the arguments ask for. Returns the status."""

    def answered(signals: Signals) -> Outcome:
        asked = parse(arguments)
        if asked.asks == "--help":
            print(HELP, end="")
            return DONE, ()
        if asked.asks == "--version":
            print("dgt_round", Program.find(here).version())
            return DONE, ()
        if asked.asks == "--new":
            print("\n".join(made(pathlib.Path(asked.file), lambda: Program.find(here))))
            return DONE, ()
        tournament = tournament_of(asked.file, asked.folder)
        if tournament:
            asked = of_tournament(arguments, tournament, asked)
        return play(asked, Program.find(here), signals)

    return through("dgt_round", answered)
