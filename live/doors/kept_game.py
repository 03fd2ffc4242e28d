"""What dgt_live does without recording: a game that is there is changed, made anew or packed; devices are listed."""

from __future__ import annotations

import os
from typing import List

from live.board import calls
from live.board.connection import Asked, ask, listing, told_of_shut
from live.board.plan import last_number, numbered
from live.child.program import Program
from live.doors.dgt_live import Call
from live.doors.options import Outcome
from live.game import packing
from live.game.changing import add_by_name, publish_now, told_of_round, told_of_series
from live.game.files import Paths
from live.game.game import check_name, has_delay
from live.game.kept import LOCK_PATIENCE, Recorded
from live.game.log import log_once
from live.game.making_pgn import first_time
from live.game.opening import Opening, checked, is_recorded, read_otherwise
from live.game.options import Options, line_of, today
from live.line.line import devices, login_name
from live.out.again import is_hidden
from live.run.loop import Loop
from live.run.refused import DGT_LIVE, DONE, FAILED, OK, REFUSED, REOPENS, Answer, Refused, printable
from live.words.message import Message, linked


def publish_anew(paths: Paths, given: Options = Options()) -> List[str]:
    """Publishes the text of a game that nobody records, if it was published before or gets tags. Returns messages about it."""
    if not (given.tags or os.path.lexists(paths.broadcast)):
        return []
    if has_delay(paths) and is_hidden(paths):
        return [Message("text.gets_its_tags", path=paths.broadcast)]
    return [publish_now(paths)]


def existing_game(name: str, *more: str) -> Paths:
    """The files of an existing game. Refused, with these lines too, if it isn't there."""
    paths = Paths(name)
    if not os.path.isfile(paths.capture):
        last = numbered(name, last_number(name))
        missing: str = Message("name.missing", path=paths.capture)
        if os.path.isfile(last.capture):
            missing = Message("name.missing_but", missing=missing, last=last.name)
        raise Refused(REFUSED, missing, *more)
    return paths


def tell(text: str) -> None:
    """Prints what was done."""
    print(printable(f"dgt_live: {text}"))


def remake(call: Call, program: Program) -> Outcome:
    """Makes anew the text of a game that nobody records: with or without its recovered pairs, with the other side's time first, or
    with other names. The call that records a game takes names from here too."""
    line = line_of(call.options)
    device_first = Message("name.device_first", dgt_live=DGT_LIVE, name=call.name)
    paths = existing_game(call.name, *([device_first] if line else []))
    asked = calls.ask(paths.capture, line) if line else None
    if asked:
        return answered(asked)
    given = checked(program, call.options)
    try:
        opened = Opening(program, paths, lambda: read_otherwise(given)).open(Loop.now(), today())
    except Recorded:
        raise Refused(REFUSED, *is_recorded(paths.name, calls.board_of(paths.capture), call.options)) from None
    opened.game.capture.close()
    assert opened.reader
    opened.reader.close()
    options = opened.game.options
    said = [first_time(options.side)] if call.options.first else []
    said += [*opened.told, *opened.old.course.recovered]
    if call.options.recover is not None and not opened.old.course.recovered:
        said.append(Message("text.nothing_recovered"))
    said += publish_anew(paths, given)
    what = linked("semicolon", [*(said or [Message("naming.nothing_changed")]), *opened.results])
    log_once(paths, Message("text.made_anew_so", what=what))
    tell(Message("text.made_anew", pgn=paths.pgn, text=what))
    return DONE, ()


def answered(answer: Answer) -> Outcome:
    """Prints what was done. Refused if it wasn't."""
    status, text = answer
    if status != DONE:
        raise Refused(status, text)
    tell(text)
    return DONE, ()


def add(call: Call, program: Program) -> Outcome:
    """Changes a game that is recorded, or one that is over, line by line. The first refused line ends this."""
    paths, asked = existing_game(call.name), None
    for line in call.typed:
        asked = calls.ask(paths.capture, line)
        answered(asked or add_by_name(program, paths, line, LOCK_PATIENCE))
        if not asked:
            publish_anew(paths)
    last = call.typed[-1].strip().lower()
    left = [] if asked or last == OK else [told_of_round(paths), told_of_series(paths) if last == REOPENS else ""]
    for told in filter(None, left):
        tell(told)
    return DONE, ()


def pack(call: Call, here: str) -> Outcome:
    """Packs all that belongs to a game into one file."""
    paths = existing_game(call.name)
    try:
        version = Program.find(here).version()
    except Refused:
        version = Message("pack.unknown_version")
    packed = packing.pack(paths, version)
    tell(Message("pack.made", path=packed.path, names=", ".join(packed.names)))
    return (FAILED if packed.left_out else DONE), packed.left_out


def list_devices(here: str) -> Outcome:
    """Prints the list of the devices that are plugged in."""
    found = devices()
    asked = ask(Program.find(here), [device for device, _ in found]) if found else Asked()
    print("\n".join(listing(found, asked)))
    shut = told_of_shut(asked, login_name())
    return (FAILED if shut else DONE), shut


def done(call: Call, here: str) -> Outcome:
    """Does what a call asks for that records nothing."""
    if call.asks == "--devices":
        return list_devices(here)
    check_name(call.name)
    if call.asks == "--pack":
        return pack(call, here)
    program = Program.find(here)
    return add(call, program) if call.typed else remake(call, program)
