"""The table of a round: one board and pairing a line, as a spreadsheet saves it."""

from __future__ import annotations

import re
from dataclasses import dataclass, field, replace
from typing import Dict, List, Optional, Sequence, Tuple, Union

from live.game.game import OF_A_GAME, OF_A_ROUND
from live.game.options import FEN, FIRST, PLAYERS, RECOVER, STRICT, TAG, assigned
from live.game.tags import OTHERS, Malformed, cleaned, is_seen, value_of
from live.game.typed import BLACK as FORFEIT_OF_WHITE, BOTH as BOTH_ABSENT, NOUGHTS, WHITE as FORFEIT_OF_BLACK, in_a_table, in_one_word, score_of
from live.line.line import HOW, is_network, read_address
from live.line.protocol import SERIAL_LENGTH
from live.run.refused import DGT_LIVE, REFUSED, Refused
from live.table.sheet import COLUMNS, NAMES, PERHAPS, SEPARATORS, Sheet, fields_of, normal, read_sheet, told_of_above
from live.words.message import Message, linked

YES = ("yes", "y", "1", "x", "true", "rotated", "ja", "oui", "si")
NO = ("", "no", "n", "0", "-", "false", "nein", "non")
DRAW = "1/2-1/2"
RESULTS = {
    "1-0": "1-0", "0-1": "0-1", DRAW: DRAW, "1/2": DRAW, "½": DRAW, "½-½": DRAW, "0.5-0.5": DRAW, ".5-.5": DRAW, "=-=": DRAW,
}  # fmt: skip
FORFEITS = {"+/-": FORFEIT_OF_BLACK, "-/+": FORFEIT_OF_WHITE, "-/-": BOTH_ABSENT}
STILL_TO_COME = Message("pairs.still_to_come")
WRITTEN = Message("pairs.results")  # what may be in the column result
NOT_YET = ("", "*", "-", "--", "---")
BYES = (  # what pairing programs write instead of an opponent, as `normal` makes it
    *("", "bye", "pairingallocatedbye", "notpaired", "unpaired", "absent", "spielfrei", "freilos", "nichtausgelost", "abwesend"),
    *("exempt", "nonapparie", "libre", "descansa", "descanso", "ausente", "riposa", "riposo", "assente", "nonabbinato"),
)
HIGHEST = 999
LONGEST = 1000  # characters of a value
LONGEST_SHOWN = 40  # characters of a wrong value
MOST_UNKNOWN = 5  # columns that are reported one by one
MOST_LISTED = 8  # boards, or ranges of boards, whose numbers are listed
SERIAL = re.compile(f"[!-~]{{{SERIAL_LENGTH}}}")
NAME = re.compile(r"[\w][\w .+-]*")
EXAMPLE = "1,/dev/ttyUSB0,Anna,Ben"
NO_DEVICE = Message("pairs.no_device", dgt_live=DGT_LIVE)


@dataclass(frozen=True)
class Pairing:
    """A correct line: a board, its device, and its game."""

    line: int
    board: int
    device: str
    white: str = ""
    black: str = ""
    rotated: bool = False
    first: str = ""
    fen: str = ""
    name: str = ""
    result: str = ""
    recover: Optional[bool] = None  # as on the command line, if nothing is given
    serial: str = ""  # the board's serial number
    tags: Tuple[Tuple[str, str], ...] = ()  # the published ones
    remarks: Tuple[str, ...] = ()  # messages about values that are left out
    typed: Tuple[Tuple[str, str], ...] = ()  # the tags that were typed in place of its own

    @property
    def file_name(self) -> str:
        """The name of the game's files."""
        return self.name or f"{self.board:02}"

    @property
    def is_forfeited(self) -> bool:
        """Whether its line says that it isn't played: it needs no board."""
        return bool(score_of(self.result))

    @property
    def teams(self) -> Tuple[str, str]:
        """White's and Black's, empty if there is none."""
        tags = dict((*self.tags, *self.typed))
        return tags.get("WhiteTeam", ""), tags.get("BlackTeam", "")

    def words(self, tags: Sequence[str]) -> Tuple[str, ...]:
        """The options of the game, with those for all games."""
        words = ["--rotated"] if self.rotated else []
        words += [assigned(option, value) for option, value in ((FIRST, self.first), (FEN, self.fen)) if value]
        words += tags
        words += [assigned(option, value) for option, value in zip(PLAYERS, (self.white, self.black)) if value]
        words += [assigned(TAG, f"{name}={value}") for name, value in self.tags]
        if self.recover is not None:
            words.append(RECOVER if self.recover else STRICT)
        return tuple(words)


def same_but_for_result(one: Pairing, other: Pairing) -> bool:
    """Whether two lines have the same game, wherever they are in their tables."""
    first, second = (replace(pairing, line=0, result="", remarks=()) for pairing in (one, other))
    return first == second


def same_but_for_names(one: Pairing, other: Pairing) -> bool:
    """Whether two lines have the same game on the same board, but for names and other tags, and for the result."""
    first, second = (replace(pairing, white="", black="", tags=(), typed=()) for pairing in (one, other))
    return same_but_for_result(first, second)


@dataclass(frozen=True)
class Wrong:
    """A wrong line, and the reason; its board if that could be read."""

    line: int
    board: Optional[int]
    why: str
    file: str = ""  # the name of its table, if there is more than one
    pairing: Optional[Pairing] = field(default=None, compare=False)  # the line, if it is wrong only for its device
    unplaced: Optional[Pairing] = field(default=None, compare=False)  # the line, if it only lacks a device


@dataclass(frozen=True)
class Pairings:
    """The table: the boards by number, the wrong lines, and other messages."""

    boards: Tuple[Pairing, ...]
    wrong: Tuple[Wrong, ...] = ()
    remarks: Tuple[str, ...] = ()
    has_devices: bool = True  # it names the devices of its boards
    absent: Tuple[Pairing, ...] = ()  # the pairs whose boards aren't found


@dataclass(frozen=True)
class LeftOut:
    """A line that isn't a board's, or has no game, and why."""

    why: str


@dataclass
class Taken:
    """The correct lines, by what must be unique, and the wrong ones."""

    boards: Dict[int, Pairing] = field(default_factory=dict)
    devices: Dict[str, Pairing] = field(default_factory=dict)
    names: Dict[str, Pairing] = field(default_factory=dict)
    serials: Dict[str, Pairing] = field(default_factory=dict)
    wrong: List[Wrong] = field(default_factory=list)

    def take(self, read: Pairing) -> Tuple[str, ...]:
        """Takes a line, unless another line has its board, device, number or name. Returns the messages about its values."""
        wrong = self._twice(read)
        if wrong:
            self.wrong.append(wrong)
            return ()
        self.boards[read.board] = self.names[read.file_name] = read
        if read.device:
            self.devices[read.device] = read
        if read.serial:
            self.serials[read.serial] = read
        return read.remarks

    def _twice(self, read: Pairing) -> Optional[Wrong]:
        if read.board in self.boards:
            line = self.boards[read.board].line
            return Wrong(read.line, read.board, Message("pairs.board_twice", board=read.board, line=line))
        if read.device in self.devices:
            return device_twice(read, self.devices[read.device])
        if read.serial in self.serials:
            other = self.serials[read.serial]
            why = Message("pairs.serial_twice", serial=read.serial, board=other.board)
            return Wrong(read.line, read.board, why)
        if read.file_name in self.names:
            other = self.names[read.file_name]
            why = Message("pairs.name_twice", name=read.file_name, board=other.board)
            return Wrong(read.line, read.board, why)
        return None


def read_pairings(content: bytes, encoding: str = "") -> Pairings:
    """Reads the table. Refused if no line has known headings, and if it is too large."""
    sheet = read_sheet(content, encoding)
    refuse_divided_otherwise(sheet)
    has_devices = sheet.heading.has_devices
    remarks = [*told_of_above(sheet.above), *unknown(sheet.heading.unknown)]
    taken = Taken()
    left_out: List[str] = []
    for number, line in sheet.lines:
        read = _read(number, line, sheet)
        if isinstance(read, Pairing):
            remarks += taken.take(read)
        elif isinstance(read, Wrong):
            taken.wrong.append(read)
        else:
            left_out.append(read.why)
    open_games = [remark for remark in remarks if STILL_TO_COME in remark]
    remarks = [remark for remark in remarks if remark not in open_games[1:]]  # once for all
    remarks += [*left_out[:MOST_UNKNOWN], *more_lines(len(left_out) - MOST_UNKNOWN)]
    in_order = tuple(taken.boards[board] for board in sorted(taken.boards))
    lacking = nameless(in_order) if has_devices else []
    return Pairings(in_order, tuple(taken.wrong), (*remarks, *lacking), has_devices)


def _read(number: int, line: str, sheet: Sheet) -> Union[Pairing, Wrong, LeftOut]:
    roles, has_devices = sheet.heading.roles, sheet.heading.has_devices
    otherwise, board = divided_otherwise(line, sheet)
    if otherwise:
        return Wrong(number, board, Message("pairs.divided_otherwise", otherwise=otherwise, separator=NAMES[sheet.separator]))
    fields = fields_of(line, sheet.separator)
    if fields is None:
        board = _number(line.partition(sheet.separator)[0])
        return Wrong(number, board, Message("pairs.open_quote"))
    values = dict.fromkeys(COLUMNS, "")
    values.update((role, cleaned(field)) for role, field in zip(roles, fields) if role)
    board = _number(values["board"])
    if board is None:
        if not has_devices and not (values["white"] and values["black"]):
            return LeftOut(Message("pairs.no_number", line=number, text=shown(" ".join(filter(None, fields)))))
        return Wrong(number, None, Message("pairs.no_board_number", value=shown(values["board"] or Message("pairs.nothing")), highest=HIGHEST))
    if any(fields[len(roles) :]):
        return Wrong(number, board, Message("pairs.too_many_fields", count=len(fields), most=len(roles)))
    result, why_none = result_of(values["result"], has_devices)
    if not has_devices:
        no_game = without_a_game(board, values["white"], values["black"])
        if no_game:
            return LeftOut(Message("pairs.of_line", line=number, why=no_game))
    why = _trouble({name: values[name] for name in COLUMNS})
    if why:
        return Wrong(number, board, why)
    tags, remarks = _tags(number, values)
    if why_none:
        remarks = (*remarks, Message("pairs.result_not_used", line=number, why=why_none))
    pairing = Pairing(
        number,
        board,
        values["device"],
        values["white"],
        values["black"],
        values["rotated"].lower() in YES,
        values["first"].lower(),
        values["fen"],
        values["name"],
        result,
        values["recover"].lower() in YES if values["recover"] else None,
        serial_number(values["serial"]),
        tags,
        remarks,
    )
    lacks = has_devices and not (pairing.device or pairing.serial or pairing.is_forfeited)
    return Wrong(number, board, NO_DEVICE, unplaced=pairing) if lacks else pairing


def divided_otherwise(line: str, sheet: Sheet) -> Tuple[str, Optional[int]]:
    """What divides a board's line, if it isn't what divides the headings, and the board; else nothing. A spreadsheet has such a line in
    its first field."""
    whole, *others = fields_of(line, sheet.separator) or [""]
    at = sheet.heading.roles.index("board")
    for separator in () if any(others) else SEPARATORS:
        fields = fields_of(whole, separator) or []
        board = _number(fields[at]) if len(fields) > max(at, 1) else None
        if board:
            return NAMES[separator], board
    return "", None


def refuse_divided_otherwise(sheet: Sheet) -> None:
    """Refuses a table all of whose lines are divided by something else than its headings are."""
    found = [(number, divided_otherwise(line, sheet)[0]) for number, line in sheet.lines]
    if found and all(otherwise for _, otherwise in found):
        number, otherwise = found[0]
        why = Message("pairs.headings_otherwise", separator=NAMES[sheet.separator], line=number, otherwise=otherwise)
        raise Refused(REFUSED, Message("pairs.divide_alike", why=why))


def result_of(text: str, is_by_hand: bool = True) -> Tuple[str, str]:
    """The result in a table, or how the game was forfeited, as an arbiter or a pairing program writes it; empty if there is none. And
    what is wrong with it, if anything."""
    result = in_one_word(text).replace(",", ".")
    if text.strip() == BOTH_ABSENT:  # programs may write it before a game
        return (BOTH_ABSENT, "") if is_by_hand else ("", STILL_TO_COME)
    if result in NOT_YET:
        return "", ""
    found = RESULTS.get(result) or FORFEITS.get(result) or in_a_table(text)
    if found:
        return found, ""
    hint = Message("pairs.neither_came", both=BOTH_ABSENT) if result == NOUGHTS else WRITTEN
    return "", Message("pairs.result_is", value=shown(text), hint=hint)


def without_a_game(board: int, white: str, black: str) -> str:
    """Why a pairing program's line has no game, and who has none; empty if it has one."""
    for player, other in ((white, black), (black, white)):
        if normal(other) in BYES:
            nobody = Message("pairs.nobody")
            return Message("pairs.no_opponent", board=board, player=player or nobody, other=other or nobody)
    return ""


def tag_of(column: str) -> Optional[str]:
    """The tag of a column that is only published; None if it isn't one. The board's number comes from the table itself."""
    name = column.rstrip(PERHAPS)
    return name if name in OTHERS else None


def _tags(line: int, values: Dict[str, str]) -> Tuple[Tuple[Tuple[str, str], ...], Tuple[str, ...]]:
    """The tags of a line, and the messages about those that are left out."""
    tags: Dict[str, str] = {}
    remarks: List[str] = []
    for column, text in values.items():
        name = tag_of(column)
        if name is None:
            continue
        try:
            tags[name] = value_of(name, text)
        except Malformed as error:
            if not column.endswith(PERHAPS):
                remarks.append(Message("pairs.tag_not_used", line=line, column=name, why=error.message))
    return tuple(sorted((name, value) for name, value in tags.items() if value)), tuple(remarks)


def told_of_wrong(wrong: Wrong, file: str, why: str) -> str:
    """The message about a wrong line of a file, which is named if there is more than one."""
    if file:
        return Message("round.wrong_line", line=wrong.line, file=file, why=why)
    return Message("round.wrong_line_of_it", line=wrong.line, why=why)


def serial_number(text: str) -> str:
    """A board's serial number as the board sends it: a spreadsheet drops leading zeros."""
    return text.zfill(SERIAL_LENGTH) if text.isascii() and text.isdigit() else text


def shown(value: str) -> str:
    """A value in quotes; of a long one only the beginning."""
    return repr(value if len(value) <= LONGEST_SHOWN else value[:LONGEST_SHOWN] + "..")


def _number(text: str) -> Optional[int]:
    text = text.strip().rstrip(".")
    return int(text) if re.fullmatch("[0-9]{1,3}", text) and int(text) > 0 else None


def _trouble(values: Dict[str, str]) -> str:
    """What is wrong with the values of a line, if anything."""
    if is_network(values["device"]) and read_address(values["device"]) is None:
        return Message("pairs.device_is", value=shown(values["device"]), how=HOW)
    odd = next((name for name, value in values.items() if not is_seen(value)), "")
    if odd:
        return Message("pairs.unseen_character", column=odd)
    long = next((name for name, value in values.items() if len(value) > LONGEST), "")
    if long:
        return Message("pairs.too_long", column=long, most=LONGEST)
    for name in ("rotated", "recover"):
        if values[name].lower() not in YES + NO:
            return Message("pairs.yes_or_no", column=name, value=shown(values[name]))
    if values["first"].lower() not in ("", "white", "black"):
        return Message("pairs.first_is", value=shown(values["first"]))
    if values["name"].lower() in OF_A_ROUND:
        return Message("pairs.name_of_the_round", value=shown(values["name"]))
    if OF_A_GAME.search(values["name"]):
        game = OF_A_GAME.sub("", values["name"])
        return Message("pairs.name_of_a_game", value=shown(values["name"]), game=game)
    if values["serial"] and not SERIAL.fullmatch(serial_number(values["serial"])):
        return Message("pairs.serial_is", value=shown(values["serial"]), count=SERIAL_LENGTH, dgt_live=DGT_LIVE)
    if values["name"] and not NAME.fullmatch(values["name"]):
        return Message("pairs.name_is", value=shown(values["name"]))
    return ""


def unknown(columns: Sequence[str]) -> List[str]:
    """The message about unknown columns."""
    told: List[str] = [Message("pairs.unknown_column", name=shown(name)) for name in columns[:MOST_UNKNOWN]]
    more = len(columns) - len(told)
    return [*told, Message("pairs.more_unknown_columns", count=more)] if more > 0 else told


def more_lines(number: int) -> List[str]:
    """The message about this many lines that aren't reported one by one."""
    return [Message("pairs.more_lines", count=number)] if number > 0 else []


def device_twice(read: Pairing, other: Pairing) -> Wrong:
    """A line whose device is on another line too."""
    why = Message("pairs.device_twice", device=read.device, board=other.board, line=other.line)
    return Wrong(read.line, read.board, why, pairing=read)


def nameless(boards: Sequence[Pairing]) -> List[str]:
    """The message about lines that name only one player."""
    lacks = [(one, "white" if one.black else "black") for one in boards if bool(one.white) != bool(one.black)]
    write = Message("pairs.type_the_name")
    return [Message("pairs.nameless", line=one.line, board=one.board, side=side, write=write) for one, side in lacks]


def listed_numbers(numbers: Sequence[int]) -> str:
    """`1 to 4, 7 and 9`; of many only some."""
    runs: List[List[int]] = []
    for number in numbers:
        if runs and runs[-1][-1] + 1 == number:
            runs[-1].append(number)
        else:
            runs.append([number])
    parts: List[str] = []
    for run in runs:
        parts += [Message("table.from_to", first=run[0], last=run[-1])] if len(run) > 2 else [str(number) for number in run]
    if len(parts) > MOST_LISTED:
        parts = [*parts[: MOST_LISTED - 2], "..", parts[-1]]
    return linked("and", filter(None, (linked("comma", parts[:-1]), parts[-1])))
