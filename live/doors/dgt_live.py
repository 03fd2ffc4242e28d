"""The door of dgt_live: what a command line asks for. What only some calls need is loaded before they begin: the audience takes a third of
the start of a recorder that nobody else watches, and a tenth of its memory."""

from __future__ import annotations

import importlib
import os
from dataclasses import dataclass
from typing import Any, Callable, Optional, Sequence, Tuple

from live.board.plan import Plan, Rules, numbered
from live.board.single import Choice, Single
from live.child.program import Program
from live.doors.options import LIVE, Outcome, Outgoing, out_given, pages_given, read, through
from live.game import files
from live.game.changing import publish_now
from live.game.files import Paths
from live.game.game import check_name, has_delay, kept_tags
from live.game.log import Screen
from live.game.opening import checked
from live.game.options import Options
from live.run.loop import Loop, Signals
from live.run.refused import BACK, DGT_LIVE, DONE, FAILED, Refused
from live.show.address import Pages
from live.show.terminal import Terminal, Typed
from live.words.message import Message, linked

HELP = """\
usage: dgt_live [--series] [--once] DEVICE NAME [OPTION..]
       dgt_live (--add TEXT|--back PLY|--first SIDE|--recover|--page PORT) NAME

Records the DGT board at DEVICE, prints the game line by line, and keeps
  NAME.dgt   what the board sent
  NAME.pgn   the game so far: a whole PGN text at any time, to be copied
Ctrl-C ends it, and so does a result: by mate, stalemate, kings in the centre.
The same NAME goes on with a game. While it records, type a result (1-0, 0-1,
1/2-1/2; * takes it off), moves that it missed (Nf3 Nc6), back (takes a ply
off; back 14. Bxf6: up to this one), undo, ok (at LOOK), moves, messages, help.

  --series           NAME-1, NAME-2, ..: the next once pieces are set up again
  --once             an unplugged board ends it
  --page [ADDRESS:]PORT, --page-host NAME, --arbiter-page   to browsers: 8000
  --delay MINUTES, --hold SECONDS, --publish COMMAND   how late it goes out
  --recover          put in moves that two hands hid (--strict: no longer)
OPTION says how the board lies, how the game begins, and what its tags say:
  --rotated          Black has the connector on the left
  --first SIDE       whose time comes first, white (without it) or black
  --fen TEXT         the position at the start
  --event, --place, --date, --round, --white, --black TEXT; --tag NAME=VALUE
  --devices, --pack NAME, --version   what is plugged in; a game in one file
Set up the pieces: dgt_live /dev/ttyUSB0 game --white Anna --black Ben
"""
PRINTED = 2.0  # seconds that a slow terminal has for the last lines


@dataclass(frozen=True)
class Call:
    """What a command line asks for. Without a device nothing is recorded."""

    device: str = ""
    name: str = ""
    options: Options = Options()  # of the game, as they were typed
    series: bool = False
    once: bool = False
    asks: str = ""  # --help, --version, --devices or --pack
    typed: Tuple[str, ...] = ()  # lines for an existing game
    pages: Optional[Pages] = None
    out: Outgoing = Outgoing()

    @property
    def shows(self) -> bool:
        """Whether an existing game is only shown."""
        return not self.device and bool(self.pages and self.pages.any) and self.options == Options()


def parse(arguments: Sequence[str]) -> Call:
    """What the arguments ask for. Refused with status 2 if they make no sense."""
    given = read(LIVE, arguments)
    plain, series = given.plain, given.has("--series")
    for option in ("--help", "--version"):
        if given.has(option):
            return Call(asks=option)
    words, pages, out = given.of_game(), pages_given(given), out_given(given)
    if given.has("--devices"):
        if len(arguments) > 1:
            raise given.refused(Message("option.devices_alone"))
        return Call(asks="--devices")
    if given.has("--pack"):
        if len(arguments) != 2 or not "".join(plain):
            raise given.refused(Message("option.pack_alone"))
        return Call(name=plain[0], asks="--pack")
    options = Options.of_words(words)
    typed = tuple(value if name == "--add" else f"{BACK} {value}" for name, value in given.options if name in ("--add", "--back"))
    reads_otherwise = bool(words) and options.lies_as(Options()) and not options.unrotated
    has_name = not typed and len(plain) == 1 and not series
    wanted = 1 if typed or (has_name and (reads_otherwise or (pages and pages.any and not words))) else 2
    if len(plain) > wanted:
        raise given.refused(Message("option.quotes", word=plain[wanted]))
    if len(plain) < wanted or not plain[-1]:
        raise given.refused(Message("option.name_after_add") if typed else Message("option.device_and_name", dgt_live=DGT_LIVE))
    if typed and (words or series):
        raise given.refused(Message("option.add_alone"))
    return Call(plain[0] if wanted == 2 else "", plain[-1], options, series, given.has("--once"), typed=typed, pages=pages, out=out)


def record(call: Call, program: Program, signals: Signals) -> Outcome:
    """Records a game, or a series of them. A call that is refused before there is a game leaves no file."""
    paths = Paths(call.name)
    made = [path for path in (paths.delay, paths.out, paths.pages, paths.log, paths.options) if not os.path.lexists(path)]
    try:
        return record_in(call, program, signals)
    except Refused:
        if not any(map(os.path.lexists, (paths.capture, numbered(call.name, 1).capture))):
            for path in made:
                files.remove(path)
        raise


def record_in(call: Call, program: Program, signals: Signals) -> Outcome:
    """The same, with files that may be left."""
    plan = Plan(call.device, call.name, Rules(call.series), call.once, shows=call.shows)
    given = checked(program, call.options, plan.paths)
    loop = Loop()
    audience = door("audience").Audience(loop, program, call, given) if is_watched(call, given) else None
    terminal = Terminal(loop)
    choice = Choice(given, tuple(given.told_of_turned(call.options)), audience is not None and audience.is_unseen)
    single = Single(loop, program, Screen(terminal), plan, choice)
    if audience:
        audience.join(single)
    single.begin()
    signals.tell(loop, single.end)
    reader = Typed(loop, audience.typed if audience else single.typed, single.refuses, shows=terminal if terminal.in_place else None, interrupted=single.end)
    loop.run()
    reader.close()
    single.close()
    complaints, unseen = audience.close() if audience else ((), "")
    if audience is None and kept_tags(single.board.paths):  # the first of them was typed
        publish_now(single.board.paths)
    terminal.clear()
    if unseen:
        single.say(unseen)
    if single.refused is None:
        terminal.line(linked("colon", ("dgt_live", Message("board.played_is_in", pgn=single.board.paths.pgn))))
    terminal.end(PRINTED)
    if single.refused:
        raise single.refused
    return (FAILED if complaints else DONE), complaints


def is_watched(call: Call, given: Options) -> bool:
    """Whether somebody else sees the game."""
    paths = Paths(call.name)
    left = (paths.broadcast, paths.pages)
    is_asked = call.pages or call.out.delay is not None or call.out.publish or given.tags or kept_tags(paths)
    return bool(is_asked) or has_delay(paths) or any(map(os.path.lexists, left))


def door(name: str) -> Any:
    """The module of a kind of call."""
    return importlib.import_module(f"live.doors.{name}")


def main(arguments: Sequence[str], here: str) -> int:
    """Does what the arguments ask for. Returns the status."""

    def call(signals: Signals) -> Outcome:
        asked = parse(arguments)
        if asked.asks == "--help":
            print(HELP, end="")
            return DONE, ()
        if asked.asks == "--version":
            print("dgt_live", Program.find(here).version())
            return DONE, ()
        if not asked.device and not asked.shows:
            without_recording: Callable[[Call, str], Outcome] = door("kept_game").done
            return without_recording(asked, here)
        check_name(asked.name)
        program = Program.find(here)
        if asked.shows:
            door("kept_game").existing_game(asked.name)
        return record(asked, program, signals)

    return through("dgt_live", call)
