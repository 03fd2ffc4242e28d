"""Which board has which device and game: the table of a round, or a table or report of its pairs joined with the table of the hall's
boards, which is kept all season."""

from __future__ import annotations

import pathlib
from dataclasses import replace
from types import MappingProxyType
from typing import Callable, Dict, List, Mapping, Optional, Sequence, Tuple

from live.board.connection import ask
from live.child.program import Program
from live.game import files
from live.line.line import devices, same_line
from live.run.refused import DGT_ROUND, FAILED, REFUSED, Refused
from live.table.encoding import told_of_reading
from live.table.pairings import EXAMPLE, Pairing, Pairings, Wrong, device_twice, listed_numbers, read_pairings
from live.table.sheet import LARGEST
from live.table.trf import is_report, read_report
from live.words.message import Message, linked, plural

BOARDS = "boards.csv"


def joined(hall: Pairings, hall_name: str, pairs: Pairings, pairs_name: str) -> Pairings:
    """The pairs with the devices of their boards; a forfeited one needs none. Messages name the table that they are about."""
    places = {place.board: place for place in hall.boards}
    wrong = {line.board for line in hall.wrong}
    boards = [_at(places.get(pair.board, pair), pair) for pair in pairs.boards if pair.board in places or pair.is_forfeited]
    absent = [pair for pair in pairs.boards if pair.board not in places and not pair.is_forfeited]
    lacking = [pair.board for pair in absent if pair.board not in wrong]
    free = [place.board for place in hall.boards if place.board not in {pair.board for pair in pairs.boards}]
    remarks = [*named(pairs_name, pairs.remarks), *named(hall_name, hall.remarks)]
    if lacking:
        remarks.append(plural("pairs.without_device", len(lacking), boards=listed_numbers(sorted(lacking)), hall=hall_name))
    if free:
        remarks.append(plural("pairs.without_game", len(free), boards=listed_numbers(sorted(free)), pairs=pairs_name))
    lines = (*of_file(pairs_name, pairs.wrong), *of_file(hall_name, hall.wrong))
    return Pairings(tuple(boards), lines, tuple(remarks), absent=tuple(absent))


def _at(place: Pairing, pair: Pairing) -> Pairing:
    """A pair at its board."""
    return replace(
        pair,
        device=place.device,
        serial=place.serial,
        rotated=place.rotated,
        first=pair.first or place.first,
        recover=place.recover if pair.recover is None else pair.recover,
    )


def named(name: str, remarks: Sequence[str]) -> List[str]:
    """A message about a table, with the table's name."""
    return [linked("colon", (name, remark)) for remark in remarks]


def of_file(name: str, wrong: Sequence[Wrong]) -> Tuple[Wrong, ...]:
    """Wrong lines, with the name of their table."""
    return tuple(replace(line, file=name) for line in wrong)


def serials_wanted(read: Pairings) -> List[str]:
    """The boards that are given only by their serial numbers."""
    return [pairing.serial for pairing in read.boards if pairing.serial and not pairing.device]


def not_plugged_in(pairing: Pairing) -> Wrong:
    """The line of a pair whose board is missing."""
    why = Message("pairs.not_plugged_in", number=pairing.serial)
    return Wrong(pairing.line, pairing.board, why)


def placed(read: Pairings, plugged: Mapping[str, str]) -> Pairings:
    """With the devices of those boards that are given by serial number and are plugged in. A missing board is a wrong line, unless
    its game is forfeited."""
    boards: List[Pairing] = []
    absent: List[Pairing] = []
    taken: Dict[str, int] = {pairing.device: pairing.board for pairing in read.boards if pairing.device}
    for pairing in read.boards:
        device = pairing.device or plugged.get(pairing.serial, "")
        if device and taken.get(device, pairing.board) == pairing.board:
            boards.append(replace(pairing, device=device))
        elif pairing.is_forfeited:
            boards.append(pairing)
        else:
            absent.append(pairing)
    wrong = (*read.wrong, *map(not_plugged_in, absent))
    return replace(read, boards=tuple(boards), wrong=wrong, absent=(*read.absent, *absent))


def with_some(read: Pairings, found: Sequence[Pairing]) -> Pairings:
    """With these pairs, whose boards are missing, as if they weren't."""
    missing = set(map(not_plugged_in, found))
    wrong = tuple(line for line in read.wrong if line not in missing)
    return replace(read, boards=(*read.boards, *found), wrong=wrong)


def plugged_in(program: Program) -> Dict[str, str]:
    """The device of each board that sends its number, under the name of its cable. It waits for up to two seconds."""
    found = devices()
    names = {device: name or device for device, name in found}
    return {number: names[device] for device, number in ask(program, list(names)).numbers.items()}


def without_twice(read: Pairings, had: Mapping[int, str] = MappingProxyType({})) -> Tuple[List[Pairing], List[Wrong]]:
    """The boards and the wrong lines. Of lines with one device, also under several names, that one is right whose board `had` it, else
    the first. Each name is looked up once, since a device may come or go meanwhile."""
    wrong = [line for line in read.wrong if not line.pairing]
    lines = sorted([*read.boards, *(line.pairing for line in read.wrong if line.pairing)], key=lambda one: one.line)
    has = [one for one in lines if had.get(one.board) == one.device]
    places = {device: same_line(device) for device in {one.device for one in lines} if device}
    owners: Dict[str, Pairing] = {}
    for one in [*has, *lines]:
        if one.device:
            owners.setdefault(places[one.device], one)
    boards = []
    for one in lines:
        owner = owners[places[one.device]] if one.device else one
        if owner is one:
            boards.append(one)
        else:
            wrong.append(device_twice(one, owner))
    return boards, sorted(wrong, key=lambda line: line.line)


class Source:
    """The files of a round. The hall's boards are in a second file, unless the pairs name their devices themselves."""

    def __init__(
        self,
        program: Program,
        file: pathlib.Path,
        round_number: Optional[int] = None,
        encoding: str = "",
        no_matches: bool = False,
    ) -> None:
        self.file = file
        self.boards = file.parent / BOARDS
        self._program, self._round = program, round_number
        self.encoding_set: Callable[[], str] = lambda: ""  # the one that settings have now, where none is typed
        self._encoding = encoding  # of files that aren't Unicode; empty if none is given
        self._no_matches = no_matches  # the teams of a report play none
        self.in_tournament = False  # the round's number is in its file's name
        self._plugged: Dict[str, str] = {}
        self.wants: List[str] = []  # the numbers of boards that weren't found at the last reading

    def read(self) -> Pairings:
        """Reads the files. Raises OSError if one can't be read; refused if one isn't a table."""
        self._encoding = self.encoding_set() or self._encoding
        content = files.beginning(self.file, LARGEST + 1)
        if is_report(content):
            read = read_report(content, self._round, self._encoding, self._no_matches)
        else:
            read = read_pairings(content, self._encoding)
        told = told_of_reading(content, self._encoding)
        read = replace(read, remarks=(told, *read.remarks)) if told else read
        if not read.has_devices:
            read = joined(self._hall(), self.boards.name, read, self.file.name)
        self.wants = [serial for serial in serials_wanted(read) if serial not in self._plugged]
        return placed(read, self._plugged)

    def read_first(self) -> Pairings:
        """Reads the table with which a round begins, and looks for boards that it names by serial number. Refused if it names no
        board."""
        file = self.file
        try:
            read = self.read()
            if self.wants:
                self.found(self.look())
                read = self.read()
        except FileNotFoundError:
            raise Refused(FAILED, Message("round.no_file", file=file, dgt_round=DGT_ROUND)) from None
        except OSError as error:
            raise Refused(FAILED, Message("round.unreadable", file=file, why=files.text_of(error))) from None
        except Refused as refused:
            raise Refused(REFUSED, linked("colon", (str(file), refused.lines[0])), *refused.lines[1:]) from None
        if read.absent and not read.boards and not read.wrong:
            raise Refused(REFUSED, Message("round.no_device_in", file=file, boards=self.boards))
        if not read.boards and not read.wrong:
            raise Refused(REFUSED, Message("round.no_board_in", file=file, example=EXAMPLE))
        return read

    def _hall(self) -> Pairings:
        try:
            hall = read_pairings(files.beginning(self.boards, LARGEST + 1), self._encoding)
        except FileNotFoundError:
            why = Message("sources.no_boards", boards=self.boards)
            raise Refused(REFUSED, why) from None
        except Refused as refused:
            raise Refused(REFUSED, Message("sources.unreadable", boards=self.boards, why=refused.lines[0]), *refused.lines[1:]) from None
        if not hall.has_devices:
            raise Refused(REFUSED, Message("sources.no_column", boards=self.boards))
        return hall

    def look(self) -> Dict[str, str]:
        """The boards that are plugged in. It waits for up to two seconds, and changes nothing here."""
        return plugged_in(self._program)

    def found(self, plugged: Mapping[str, str]) -> None:
        """Takes the boards that were found."""
        self._plugged.update(plugged)
