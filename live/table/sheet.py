"""A table as a spreadsheet or a pairing program saves it: its separator, the line with the headings, its fields, and what its columns
are: in tables that are written by hand, and in those of pairing programs in English, German, French, Spanish and Italian. Pure."""

from __future__ import annotations

import csv
import re
import unicodedata
from dataclasses import dataclass
from typing import Dict, List, Optional, Sequence, Tuple

from live.game.tags import OTHERS, SIDES, known_name
from live.run.refused import REFUSED, Refused
from live.table.encoding import text_of
from live.words.message import Message, plural

BOARD, WHITE, BLACK, RESULT = "board", "white", "black", "result"
DEVICE, SERIAL, NAME = "device", "serial", "name"
BY_HAND = (DEVICE, SERIAL, "rotated", "first", "fen", NAME, "recover")  # only in English
COLUMNS = (BOARD, DEVICE, WHITE, BLACK, "rotated", "first", "fen", NAME, RESULT, "recover", SERIAL)
NOT_NEEDED = ""  # a known column that a recorder doesn't need
PERHAPS = "?"  # after a tag: such a column may have no heading

# Words as `normal` makes them.
WORDS: Dict[str, Tuple[str, ...]] = {
    BOARD: (
        *("board", "boardno", "boardnr", "bo", "bd", "brd", "table", "tbl", "tisch", "tischnr", "brett", "brettnr", "br"),
        *("tavolo", "tav", "scacchiera", "tablero", "tabl", "mesa", "echiquier", "ech"),
    ),
    WHITE: ("white", "weiss", "blancs", "blanc", "blancas", "blanco", "bianco", "bianchi"),
    BLACK: ("black", "schwarz", "noirs", "noir", "negras", "negro", "nero", "neri"),
    RESULT: ("result", "results", "res", "ergebnis", "erg", "resultat", "resultats", "resultado", "risultato", "ris"),
    NOT_NEEDED: (
        *("no", "nr", "n", "num", "sno", "snr", "tnr", "startno", "startnr", "rk", "rg", "rank", "rang", "pos", "place"),
        *("pts", "pt", "pkt", "pti", "points", "punkte", "punti", "puntos", "score", "at", "rtgn", "elon", "eloff"),
    ),
}  # fmt: skip
PLAYER = ("name", "player", "teilnehmer", "spieler", "joueur", "jugador", "giocatore", "nom", "nombre", "nominativo")
OF_SIDE: Dict[str, Tuple[str, ...]] = {
    "Elo": ("elo", "rtg", "rating", "eloi", "rtgi", "irtg", "elofide", "fideelo", "eloint", "fiderating"),
    "Title": ("title", "titel", "titre", "titulo", "titolo", "tit"),
    "Fed": ("fed", "federation", "foderation", "federacion", "federazione", "verband", "land", "country", "pays", "pais", "nat"),
    "Team": ("team", "mannschaft", "equipe", "equipo", "squadra", "club", "verein", "circolo", "clubcity", "vereinort", "clubort"),
    "FideId": ("fideid", "fideno", "fidenr", "idfide", "codefide", "fidecode", "fidenumber"),
}
_ROLES = {word: role for role, words in WORDS.items() for word in words}
_OF_SIDE = {word: name for name, words in OF_SIDE.items() for word in words}
NAMES = {",": Message("sheet.commas"), ";": Message("sheet.semicolons"), "\t": Message("sheet.tabs")}  # of what divides the fields of a line
SEPARATORS = tuple(NAMES)
LARGEST = 256 * 1024  # bytes
MOST_LINES = 1000  # the first one, and one for each possible board
MOST_ABOVE = 30  # lines that may be above the headings
BINARY = (b"PK\x03\x04", b"\xd0\xcf\x11\xe0")  # the first bytes of a spreadsheet's own files
HEADER = "board,device,white,black"


@dataclass(frozen=True)
class Heading:
    """What each column is: one of COLUMNS, a tag, or not needed; and the unknown columns."""

    roles: Tuple[str, ...]
    unknown: Tuple[str, ...] = ()
    twice: str = ""  # a heading that two columns have

    @property
    def has_devices(self) -> bool:
        """Whether the table names the devices of its boards."""
        return DEVICE in self.roles or SERIAL in self.roles


def normal(text: str) -> str:
    """Only letters and digits, in lower case and without marks: `Échiquier` becomes `echiquier`, `Weiß` `weiss`, `Bo.` `bo`."""
    parts = unicodedata.normalize("NFKD", text.casefold())
    return "".join(letter for letter in parts if letter.isalnum())


def heading_of(fields: Sequence[str]) -> Optional[Heading]:
    """The heading that these fields are; None if they aren't one."""
    words = [normal(field) for field in fields]
    by_hand = [word if word in BY_HAND else None for word in words]
    has_device = DEVICE in words or SERIAL in words
    roles: List[Optional[str]] = [_role(word) if hand is None else hand for word, hand in zip(words, by_hand)]
    if not has_device:
        roles = _without_hands(words, roles)
    if BOARD not in roles or not (has_device or (WHITE in roles and BLACK in roles)):
        return None
    roles = _of_sides(words, roles)
    known = tuple(role or NOT_NEEDED for role in roles)
    counts: Dict[str, int] = {}
    twice = ""
    for role, field in zip(known, fields):
        counts[role] = counts.get(role, 0) + 1
        if role != NOT_NEEDED and counts[role] == 2 and not twice:
            twice = field.lower()
    unknown = tuple(field.lower() for field, role in zip(fields, roles) if role is None and field)
    return Heading(known, unknown, twice)


def _role(word: str) -> Optional[str]:
    """What a heading means by itself; None if it is unknown, or if it doesn't say which player it means."""
    if word in _ROLES:
        return _ROLES[word]
    sided = _sided(word)
    if sided:
        return sided
    name = known_name(word)
    return name if name in OTHERS else None


def _sided(word: str) -> Optional[str]:
    """`whiteelo`, `elowhite`, `weisstitel`: a tag of a player, or his name."""
    for side, role in zip(SIDES, (WHITE, BLACK)):
        for of_side in sorted(WORDS[role], key=len, reverse=True):
            begins, ends = word.startswith(of_side), word.endswith(of_side)
            rest = word[len(of_side) :] if begins else word[: -len(of_side)] if ends else ""
            if rest in PLAYER:
                return role
            if rest in _OF_SIDE:
                return side + _OF_SIDE[rest]
    return None


def _without_hands(words: Sequence[str], roles: Sequence[Optional[str]]) -> List[Optional[str]]:
    """A pairing program's table: a name is a player's, not a file's. Two names are White's and Black's."""
    names = [at for at, word in enumerate(words) if word in PLAYER]
    found = [NOT_NEEDED if at in names else role for at, role in enumerate(roles)]
    if len(names) == 2 and WHITE not in found and BLACK not in found:
        found[names[0]], found[names[1]] = WHITE, BLACK
    return list(found)


def _of_sides(words: Sequence[str], roles: Sequence[Optional[str]]) -> List[Optional[str]]:
    """Two columns with a rating, a title .. belong to the players in the players' order. A column without a heading before a
    player may have his title."""
    found = list(roles)
    if WHITE not in found or BLACK not in found:
        return found
    players = [at for at, role in enumerate(found) if role in (WHITE, BLACK)]
    sides = [SIDES[0] if found[at] == WHITE else SIDES[1] for at in players]
    if len(players) != 2:
        return found
    for name in OF_SIDE:
        places = [at for at, word in enumerate(words) if _OF_SIDE.get(word) == name and found[at] is None]
        if len(places) == 2:
            for at, side in zip(places, sides):
                found[at] = side + name
    for at, side in zip(players, sides):
        if at and not words[at - 1] and side + "Title" not in found:
            found[at - 1] = side + "Title" + PERHAPS
    return found


@dataclass(frozen=True)
class Sheet:
    """A table: its headings, the lines below them, and the numbers of the lines above."""

    heading: Heading
    separator: str
    lines: Tuple[Tuple[int, str], ...]
    above: Tuple[int, ...] = ()


def refuse_others(content: bytes) -> None:
    """Refused if it is too large, or not text."""
    if len(content) > LARGEST:
        raise Refused(REFUSED, Message("sheet.too_large", largest=LARGEST // 1024))
    if content.startswith(BINARY):
        raise Refused(REFUSED, Message("sheet.no_text"))


def lines_of(content: bytes, encoding: str = "") -> List[Tuple[int, str]]:
    """The lines that aren't empty, with their numbers."""
    lines = enumerate(re.split("\r\n|\r|\n", text_of(content, encoding)), 1)
    return [(number, line) for number, line in lines if line.strip(" \t,;\"")]


def read_sheet(content: bytes, encoding: str = "") -> Sheet:
    """Reads a table. Refused if none of its first lines has known headings, if it is too large, and if it isn't Unicode and its
    names can be read in more than one way."""
    refuse_others(content)
    lines = lines_of(content, encoding)
    if lines and re.fullmatch("sep=.?", lines[0][1].strip().lower()):  # a line for spreadsheets alone
        lines.pop(0)
    if not lines:
        raise Refused(REFUSED, Message("sheet.empty", header=HEADER))
    if len(lines) > MOST_LINES:
        raise Refused(REFUSED, Message("sheet.too_many_lines", count=len(lines), most=MOST_LINES))
    for at, (_, line) in enumerate(lines[: MOST_ABOVE + 1]):
        for separator in SEPARATORS:
            heading = heading_of(fields_of(line, separator) or [])
            if heading:
                if heading.twice:
                    raise Refused(REFUSED, Message("sheet.column_twice", which=which(at), column=heading.twice))
                above = tuple(number for number, _ in lines[:at])
                return Sheet(heading, separator, tuple(lines[at + 1 :]), above)
    raise Refused(REFUSED, Message("sheet.no_board_and_device", header=HEADER))


def which(at: int) -> str:
    """The line with the headings."""
    return Message("sheet.first_line") if at == 0 else Message("sheet.line_with_headings")


def fields_of(line: str, separator: str) -> Optional[List[str]]:
    """The fields of a line; None if its quotes are wrong."""
    try:
        return [field.strip() for field in next(csv.reader([line], delimiter=separator, strict=True), [])]
    except csv.Error:
        return None


def told_of_above(above: Sequence[int]) -> List[str]:
    """The message about lines above the headings."""
    if not above:
        return []
    return [plural("sheet.above", len(above), first=above[0], last=above[-1])]
