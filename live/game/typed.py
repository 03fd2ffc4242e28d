"""What somebody types in a line: commands, which the recorder itself obeys; moves and results, which the program reads, and what it answers;
how a game goes back. And games that aren't played because a player doesn't come.
All in words: what is added or goes, what is asked first, and why it can't be."""

from __future__ import annotations

import contextlib
import re
from dataclasses import dataclass
from typing import Dict, List, Mapping, Optional, Sequence, Tuple, Union

from live.child.lines import Move
from live.child.program import Program, told_of_ending
from live.game.files import Paths, PutIn, beginning, existing, put_in_place, remove
from live.game.game import is_unplayed, result_of
from live.game.options import RECOVER, Options
from live.line.protocol import DUMP_BEGINS, DUMP_SIZE
from live.run.refused import BACK, HELPS, INSTEAD, NO_TEXT, OK, RECOVERS, REOPENS, UNDO, YES, Helped, NotDone
from live.words.message import Message, linked, plural

WAYS = Message("typed.ways")
ALL_WAYS = Message("typed.all_ways")
QUITS = (["q"], ["quit"])
MOVES, MESSAGES = "moves", "messages"  # lists the moves of a game; what was said before
NOUGHTS = "0-0"  # a result, or castling typed with noughts
NO_SCORE = Message("typed.noughts", noughts=NOUGHTS)
ABSENT = Message("typed.absent")
ONE_BOARD = (ABSENT, Message("typed.way_of_names"), Message("typed.way_of_lists"), Message("typed.way_of_q"))  # what can be typed there too
WHICH_PLY = Message("back.which_ply")
WHICH_MOVES = Message("instead.which_moves")
OF_A_PLY = re.compile(r"(\d{1,4})((?: ?\.)+) ?", re.ASCII)  # its number, and one full stop for White or more for Black


@dataclass(frozen=True)
class Added:
    """Moves, a result, or something that the program refuses."""

    line: str


@dataclass(frozen=True)
class Quit:
    """Ends the recording."""


@dataclass(frozen=True)
class Acknowledged:
    """Acknowledges the alarms."""


@dataclass(frozen=True)
class Accepted:
    """It was played as the recorder has asked."""


@dataclass(frozen=True)
class Reopened:
    """The result was typed for the wrong board: the game goes on."""


@dataclass(frozen=True)
class Back:
    """Plies are taken off: the last one, or as far as the text says."""

    to: str = ""


@dataclass(frozen=True)
class Instead:
    """Moves come in place of the last plies: all from the number of the first move on."""

    line: str


@dataclass(frozen=True)
class Recover:
    """Two plies that no picture showed are put in where the board has shown them since."""

    moves: str


@dataclass(frozen=True)
class Undo:
    """The line that was obeyed last is taken back."""


@dataclass(frozen=True)
class Nothing:
    """An empty line."""


Changes = Union[Back, Instead]  # makes the capture anew
Anew = Union[Changes, Recover]
Typed = Union[Added, Acknowledged, Accepted, Reopened, Back, Instead, Recover, Undo, Quit, Nothing]


def read_words(text: str) -> Typed:
    """What was typed in one line. Refused if somebody asks what can be typed, or if it is no text."""
    refuse_no_text(text)
    words = text.split()
    if not words:
        return Nothing()
    if words in QUITS:
        return Quit()
    if [word.lower() for word in words] == [OK]:
        return Acknowledged()
    if [word.lower() for word in words] == [YES]:
        return Accepted()
    if words == [REOPENS]:
        return Reopened()
    if words[0].lower() == BACK:
        return Back(ply_of(" ".join(words[1:])))
    if words[0].lower() == INSTEAD:
        return Instead(moves_from(" ".join(words[1:])))
    if words[0].lower() == UNDO:
        if len(words) > 1:
            raise NotDone(Message("undo.alone"))
        return Undo()
    if words[0].lower() == RECOVERS:
        return Recover(" ".join(words[1:]))
    if words[0].lower() in HELPS:
        raise Helped(ALL_WAYS)
    if with_a_hyphen("".join(words)) == NOUGHTS:
        raise NotDone(NO_SCORE)
    return Added(text.strip())


def ply_of(text: str) -> str:
    """What follows `back`, as the program takes it: `014.Bxf6` is `14. Bxf6`. A number alone would be one of plies."""
    if text.isdigit() and text != "0":
        raise NotDone(WHICH_PLY)
    text = text.replace("…", "...")
    found = OF_A_PLY.match(text)
    if found is None:
        return text
    stops = "." if found[2].count(".") == 1 else "..."
    return f"{int(found[1])}{stops} {text[found.end() :]}".strip()


def moves_from(text: str) -> str:
    """What follows `instead`, as the program takes it: the number of its first move says where."""
    text = text.replace("…", "...")
    found = OF_A_PLY.match(text)
    if found is None:
        raise NotDone(WHICH_MOVES)
    return f"{found[1]}{found[2].replace(' ', '')} {text[found.end() :]}".strip()


def numbered(to: str) -> bool:
    """Whether a ply is named by its number."""
    return OF_A_PLY.match(to) is not None


def refuse_no_text(text: str) -> None:
    """Refused if it was no text in UTF-8, or has a character with which no argument can be given to the program."""
    if any("\ud800" <= letter <= "\udfff" for letter in text) or "\0" in text:
        raise NotDone(NO_TEXT)


def with_a_hyphen(word: str) -> str:
    """A score with one kind of dash."""
    for dash in "–—−:":
        word = word.replace(dash, "-")
    return word


def with_more(answer: str, *more: str) -> str:
    """An answer in which more is behind the list of what can be typed, if it has that."""
    if answer == WAYS:
        return Message("typed.ways_and_more", more=linked("comma", more))
    if answer == ALL_WAYS:
        return Message("typed.all_ways_and_more", more=linked("comma", more))
    if not isinstance(answer, Message):
        return answer
    return answer.with_places(lambda place: with_more(place, *more) if isinstance(place, str) else place)


SLOWEST = 60.0  # seconds that a call may take
TOO_LONG = "input: too long"
RESULT = "result"  # a kind of what is added; the other one is MOVES
NOTHING, MIXED, ILLEGAL, MEANT, UNKNOWN, ENDED, BOARD, LONG = "nothing", "mixed", "illegal", "meant", "unknown", "ended", "board", "long"
MISNUMBERED = "misnumbered"
PLACED = (ILLEGAL, MISNUMBERED)  # the kinds whose sentence says where in the game it is
NO_PLIES = "0"

NUMBERED = re.compile(r"\d+\s+([A-Za-z*]|[01½][-–—−:/.]|[+-][+-])", re.ASCII)  # a line that begins as in a round
OK_NUMBERED = re.compile(r"ok\s+(\d+)", re.ASCII | re.IGNORECASE)
NUMBER = re.compile(r"\d+\.+", re.ASCII)  # of a move

NOTHING_ADDED = Message("typed.nothing_added")
SENTENCES = {
    MIXED: Message("typed.mixed"),
    ENDED: Message("typed.ended_on_the_board", nothing_added=NOTHING_ADDED),
    BOARD: Message("typed.board_would_change"),
    LONG: Message("typed.capture_full", nothing_added=NOTHING_ADDED),
}
LETTERS_OF_PIECES = Message("spelling.pieces")
BY_LETTER = Message("spelling.piece_and_square")
PROMOTED = Message("spelling.promotion")
NO_COMMAS = Message("spelling.no_commas")


@dataclass(frozen=True)
class Said:
    """What the program says of a typed line: a kind, and what a sentence needs; with the bytes, if something is added."""

    kind: str
    words: Tuple[str, ...] = ()
    put: bytes = b""

    @property
    def outcome(self) -> str:
        """The result that is added; empty if none is."""
        return self.words[0] if self.kind == RESULT else ""


def ask_to_add(program: Program, options: Options, sent: bytes, line: str) -> Said:
    """What the program answers to a line that is typed to the game of these bytes. Raises OSError if it fails."""
    return _asked(program, options, sent, "add", f"--line={line}")


def result_typed(program: Program, line: str) -> str:
    """The result that a line is; empty if it is something else. Raises OSError if it fails."""
    return ask_to_add(program, Options(), b"", line).outcome


def ask_to_go_back(program: Program, options: Options, sent: bytes, to: str) -> Said:
    """What it answers if the game of these bytes is to go back so far. Raises OSError if it fails."""
    return _asked(program, options, sent, "back", f"--to={to}")


def ask_for_way(program: Program, options: Options, sent: bytes, typed: Changes) -> Said:
    """What it answers if the game of these bytes is to change so. Raises OSError if it fails."""
    if isinstance(typed, Back):
        return ask_to_go_back(program, options, sent, typed.to)
    return _asked(program, options, sent, "instead", f"--line={typed.line}")


def dump_at_end(program: Program, options: Options, sent: bytes) -> bytes:
    """The dump of the board as it stands behind these bytes: it ends the capture of a game without plies. Raises OSError if the
    program fails."""
    said = ask_to_go_back(program, options, sent, NO_PLIES)
    begins = said.put.rfind(DUMP_BEGINS)
    if begins < 0:
        raise OSError(f"back: {said.kind}")
    return said.put[begins : begins + DUMP_SIZE]


def _asked(program: Program, options: Options, sent: bytes, command: str, word: str) -> Said:
    recovers = (RECOVER,) if options.recover else ()
    answer = program.run(command, *options.of_board(), *recovers, word, given=sent, patience=SLOWEST)
    return read_answer(command, answer.returncode, answer.stderr.decode("utf-8", "replace"), answer.stdout)


def read_answer(command: str, status: int, line: str, output: bytes) -> Said:
    """The answer of a command, by its line on standard error. Raises OSError if it gave none."""
    front, _, rest = line.rstrip("\n").partition(f"{command}: ")
    kind, *words = rest.split(" ")
    if status == 0 and not front and kind:
        return Said(kind, tuple(words), output)
    if status == 1 and not front and kind:
        return Said(kind, tuple(words))
    if status == 1 and front == TOO_LONG:
        return Said(LONG)
    raise OSError(told_of_ending(command, status))


def meaning(said: Said, line: str, plies: Sequence[str]) -> str:
    """What is added, in words; of a result also what it ends, a game with these plies, as `14... Qd7`."""
    return Message("result.added", result=said.outcome, where=what_ends(plies)) if said.kind == RESULT else " ".join(line.split())


def what_ends(plies: Sequence[str]) -> str:
    """Where a result ends a game with these plies."""
    if not plies:
        return Message("result.before_the_first_move")
    return plural("result.after", len(plies), last=plies[-1])


def not_added(said: Said, line: str, place: str) -> NotDone:
    """Why a line adds nothing. `place` is what `place_of` says."""
    if NUMBERED.match(line.strip()) and said.kind in (UNKNOWN, MIXED):
        return NotDone(Message("typed.number_in_front", ways=WAYS))
    ok = OK_NUMBERED.fullmatch(line.strip())
    if ok:
        return NotDone(Message("typed.ok_alone", ok=OK, number=ok[1]))
    if said.kind in SENTENCES:
        return NotDone(SENTENCES[said.kind])
    if said.kind == ILLEGAL:
        return NotDone(Message("typed.illegal", word=said.words[1], place=place, nothing_added=NOTHING_ADDED))
    if said.kind == MISNUMBERED:
        return NotDone(Message("typed.misnumbered", number=NUMBER.findall(said.words[1])[0], place=place, nothing_added=NOTHING_ADDED))
    if said.kind == MEANT:
        return NotDone(Message("typed.meant", written_so=written_so(*said.words[1:]), nothing_added=NOTHING_ADDED))
    if said.kind == UNKNOWN:
        return NotDone(Message("typed.neither", word=shortened(said.words[1]), ways=WAYS))
    return NotDone(Message("typed.no_move", line=shortened(line), ways=WAYS))


def written_so(word: str, meant: str) -> str:
    """The message that a move is to be written otherwise."""
    if word.rstrip(",;") == meant:
        how = NO_COMMAS
    elif meant.startswith("O-O"):
        how = Message("spelling.castling")
    elif sum(letter.isdigit() for letter in word) > 1:  # both squares
        how = BY_LETTER
    else:
        how = PROMOTED if "=" in meant and word[-1:].isdigit() else LETTERS_OF_PIECES
    return Message("spelling.write", word=word, meant=meant, how=how)


def shortened(text: str) -> str:
    """The beginning of a text, with only what can be printed."""
    shown = "".join(letter if letter.isprintable() else "?" for letter in text.strip())
    return shown if len(shown) <= 20 else shown[:20] + ".."


def moves_in(line: str) -> List[str]:
    """The words of a line of moves, without their numbers."""
    words = [NUMBER.sub("", word, 1) for word in line.split()]
    return [word for word in words if word]


def place_of(said: Said, fen: Optional[str], played: Sequence[str], line: str) -> str:
    """Where in a game with these moves a line goes wrong; empty if that isn't said. Before a move that isn't legal, who is to move;
    before one with a wrong number, the right one."""
    if said.kind not in PLACED:
        return ""
    sans = [*played, *moves_in(line)[: int(said.words[0])]]
    half = first_half(fen) + len(sans)
    if said.kind == MISNUMBERED:
        place = Message("typed.next_number", number=number_of(half))
    else:
        place = Message("typed.black_to_move") if half % 2 else Message("typed.white_to_move")
    return Message("typed.after_a_move", place=place, last=f"{number_of(half - 1)} {sans[-1]}") if sans else place


def first_half(fen: Optional[str]) -> int:
    """The half-move with which a game from this start begins: twice its number, and one more for Black's."""
    fields = (fen or "").split()
    number = int(fields[5]) if len(fields) > 5 and fields[5].isdigit() else 1
    return 2 * number + (fields[1:2] == ["b"])


def half_of(number: str) -> int:
    """The half-move with a number, as `14.` or `14...`."""
    return 2 * int(number.rstrip(".")) + number.endswith("..")


def number_of(half: int) -> str:
    """The number of a half-move, as `14.` or `14...`."""
    return f"{half // 2}{'...' if half % 2 else '.'}"


ALL = "*"  # all plies stay, and only a result goes
PLIES, NEAREST, NO_PLY, MOVED, SIGNED, UNSEEN = "plies", "nearest", "none", "moved", "signed", "unseen"
STILL_SHOWN = (MOVED, SIGNED, BOARD, UNSEEN)  # it can't be as long as the board stands as it does
NO_RESULT = "*"
WITHOUT_A_QUESTION = 2  # plies that may go without a question
AS_IT_IS, ANEW, CUT, REFUSED = "as it is", "anew", "cut", "refused"  # how a game that is over goes on with `*`


def stays_of(said: Said) -> int:
    """How many plies stay, or were to stay."""
    return int(said.words[0].rstrip(",")) if said.words and said.kind not in (NEAREST, NO_PLY) else 0


@dataclass(frozen=True)
class Way:
    """The plies of a game, how many of them stay, the result that goes, the new capture; and the moves that come, and how many they are."""

    plies: Sequence[Move]
    stays: int
    result: str
    content: bytes
    line: str = ""
    come: int = 0

    @property
    def gone(self) -> Sequence[Move]:
        """The plies that go."""
        return self.plies[self.stays :]

    @property
    def changes_nothing(self) -> bool:
        """Whether nothing goes."""
        return not self.gone and not self.line and self.result == NO_RESULT

    @property
    def question(self) -> str:
        """The question before so many plies go and no others come; empty if they may go at once."""
        gone = self.gone[self.come :]
        return Message("back.asks", count=len(gone), ply=gone[0].short) if len(gone) > WITHOUT_A_QUESTION else ""

    @property
    def words(self) -> str:
        """What was done: `back to 14. Bxf6; taken off: 14... Qd7 15. Rd1`, `now 14... Nd7; taken off: 14... Qd7`."""
        done = Message("instead.done", moves=self.line) if self.line else Message("back.done", ply=reached(self.plies[: self.stays]))
        parts: List[str] = [done]
        if self.gone:
            parts.append(Message("back.taken_off", plies=moves_of(self.gone)))
        elif not self.line:
            parts.append(Message("back.none_off"))
        if self.result != NO_RESULT:
            parts.append(Message("back.result_gone", result=self.result))
        return linked("semicolon", parts)

    @property
    def front(self) -> bytes:
        """What can't be a set-up for another game, since an arbiter says that the game goes on."""
        return self.content

    @property
    def past(self) -> Optional[PutIn]:
        """What a line has put in, if this takes only that out: then the times from before it go on."""
        return None

    @property
    def settled(self) -> List[str]:
        """The alarms that end: those about plies that are gone, and about moves since the last one that stays."""
        gone = [ply.short for ply in self.gone]
        if not gone:
            return []
        since = (reached(self.plies[: self.stays]), *gone)
        return [*(Message("look.at", ply=ply) for ply in gone), *(Message("look.since", ply=ply) for ply in since)]


def way_of(said: Said, plies: Sequence[Move], line: str = "") -> Optional[Way]:
    """The way that the program has answered, in a game with these plies, where the moves of this line come, if any; None if it has refused,
    or has counted others."""
    if said.kind != PLIES:
        return None
    counts = [int(word[:-1]) for word in said.words if word.endswith(",")]
    come = counts[2] if line else 0
    return Way(plies, counts[0], said.words[-1], said.put, line, come) if counts[0] + counts[1] == len(plies) else None


def not_back(said: Said, to: str, plies: Sequence[Move]) -> NotDone:
    """Why a game with these plies doesn't go back as far as `to` says, and what to do."""
    kept, rest = plies[: stays_of(said)], " ".join(said.words[1:])
    if said.kind == NEAREST and not numbered(to):
        return NotDone(WHICH_PLY)
    if said.kind == NEAREST:
        near = " ".join(said.words)
        if near == reached(plies):
            return NotDone(Message("back.no_ply_end", to=to, near=near))
        return NotDone(Message("back.no_ply_near", to=to, near=near))
    if said.kind == NO_PLY:
        return NotDone(Message("back.none_left") if to else Message("moves.no_move"))
    if said.kind == ENDED:
        return NotDone(Message("back.ends_on_the_board", ply=reached(kept)))
    if said.kind == SIGNED:
        return NotDone(Message("back.kings", result=rest))
    if said.kind == UNSEEN:
        return NotDone(Message("back.unseen"))
    if said.kind == LONG:
        return NotDone(Message("back.capture_full"))
    shows = Message("back.still_shown", moves=rest) if said.kind == MOVED else Message("typed.would_change")
    return NotDone(linked("stop", (shows, hint(kept))))


OLD = "old"  # the board shows the end of the old moves


def not_instead(said: Said, line: str, fen: Optional[str], plies: Sequence[Move]) -> NotDone:
    """Why a game with these plies doesn't get the moves of this line in place of its last ones, and what to do."""
    number = NUMBER.findall(line)[0]
    if said.kind in (NEAREST, NO_PLY):
        return NotDone(Message("instead.no_ply", number=number, next=number_of(first_half(fen) + len(plies))))
    if said.kind == OLD:
        return NotDone(Message("instead.old", ply=reached(plies)))
    if said.kind == MOVED:
        return NotDone(Message("instead.moved", moves=" ".join(said.words[1:])))
    if said.kind == BOARD:
        return NotDone(Message("instead.board"))
    if said.kind in (SIGNED, UNSEEN, LONG):
        return not_back(said, "", plies)
    before = plies[: max(half_of(number) - first_half(fen), 0)]
    return not_added(said, line, place_of(said, fen, [ply.san for ply in before], line))


def no_way(said: Said, typed: Changes, fen: Optional[str], plies: Sequence[Move]) -> NotDone:
    """Why a game with these plies doesn't change so."""
    return not_back(said, typed.to, plies) if isinstance(typed, Back) else not_instead(said, typed.line, fen, plies)


def hint(kept: Sequence[Move]) -> str:
    """What to do so that the game can go back to these plies."""
    return Message("back.hint", ply=reached(kept)) if kept else Message("back.hint_at_the_start")


def asked_of(had: str, plies: int) -> str:
    """How far the program is asked to go back, given all that the board has sent, if a game with this result and so many plies is
    over and goes on. What was played since stays, but behind no result: then that may be a set-up, or what was taken off."""
    return str(plies) if had == NO_RESULT else ALL


def taken_up(had: str, said: Said, is_there: bool) -> str:
    """How that game goes on, by what the program says then: `as it is`, since the board has taken the result off itself; with a
    capture that is made `anew`; `cut` behind its last ply; or `refused`. What a board shows forbids it only as long as the board's
    device is there: nobody can set pieces right on another one."""
    if said.kind == PLIES and said.words[-1] == NO_RESULT != had:
        return AS_IT_IS
    if said.kind == PLIES:
        return ANEW
    return CUT if said.kind in STILL_SHOWN and not is_there else REFUSED


def nothing_goes(way: Way, to: str) -> NotDone:
    """The message if there is nothing to take off in a game that goes on."""
    if to == ALL:
        return NotDone(Message("result.none"))
    return NotDone(Message("back.already", ply=reached(way.plies)) if way.plies else Message("moves.no_move"))


def played_since(before: Sequence[Move], now: Sequence[Move]) -> str:
    """More of the message that a game goes on: how its last ply was corrected after its result, and the plies that were made since."""
    told, last = [""], len(before) - 1
    if 0 <= last < len(now) and before[last].san != now[last].san:
        told.append(Message("back.corrected", before=before[last].short, now=now[last].short))
    since = now[len(before) :]
    if since:
        told.append(Message("back.played_since", plies=moves_of(since)))
    return linked("semicolon", told)


def moves_of(plies: Sequence[Move]) -> str:
    """`14... Qd7 15. Rd1 Rae8`."""
    words = []
    for at, ply in enumerate(plies):
        words.append(ply.san if at and ply.number.endswith("...") else ply.short)
    return " ".join(words)


def reached(plies: Sequence[Move]) -> str:
    """The ply with which a game ends, or its start."""
    return plies[-1].short if plies else Message("ply.the_start")


THIS, UNPLAYED, UNENDED = "this", "unplayed", "unended"


def which_game(plies: int, is_before_unended: Optional[bool]) -> str:
    """The game that is on has so many plies. The one before lacks a result, or has one; None if there is none before. The result is for
    `this` game; or the arbiter is to say which one he means, since this one is `unplayed`, or that one `unended`."""
    if is_before_unended is None:
        return THIS
    if plies == 0:
        return UNPLAYED
    return UNENDED if is_before_unended else THIS


WHITE, BLACK, BOTH = "+-", "-+", "--"  # White wins, Black wins, nobody does
SCORES: Dict[str, str] = {WHITE: "1-0", BLACK: "0-1", BOTH: NOUGHTS}
TERMINATION = "rules infraction"
SPELT: Dict[str, str] = {"+--": WHITE, "--+": BLACK}  # +:- and + - -, as pairing programs write them
MARKED = re.compile(r"([01])F?-([01])(?:F|FF|K|FORFEIT)|([01])F-([01])F", re.IGNORECASE)
BOTH_LOSE = Message("forfeit.both_lose")


@dataclass(frozen=True)
class Forfeit:
    """The game isn't played."""

    kind: str

    @property
    def words(self) -> str:
        """What it comes to."""
        return Message("forfeit.words", score=SCORES[self.kind])

    @property
    def result(self) -> str:
        """The result in PGN."""
        return NO_RESULT if self.kind == BOTH else SCORES[self.kind]


def score_of(kind: str) -> str:
    """The score of a forfeit; empty if there is none."""
    return SCORES.get(kind, "")


def in_one_word(text: str) -> str:
    """Without blanks, and with one kind of dash."""
    return re.sub("[–—−:]", "-", "".join(text.split()))


def in_a_table(text: str) -> str:
    """The forfeit that a table has; empty if it has none. Dashes alone, and 0-0, may mean that nothing was played yet."""
    word = in_one_word(text)
    word = SPELT.get(word, word)
    if word in (WHITE, BLACK):
        return word
    marked = MARKED.fullmatch(word)
    if not marked:
        return ""
    score = "-".join(filter(None, marked.groups()))
    return next((kind for kind, known in SCORES.items() if known == score), "")


def typed_forfeit(text: str) -> str:
    """The forfeit that was typed in a line of its own; empty if it is something else."""
    return BOTH if in_one_word(text) in (BOTH, "---") and len(text.split()) < 4 else in_a_table(text)


def read_typed(text: str, name: str = "") -> Union[Forfeit, Typed]:
    """What was typed in one line. Refused if it makes no sense."""
    refuse_no_text(text)
    kind = typed_forfeit(text)
    if kind:
        return Forfeit(kind)
    if in_one_word(text) == NOUGHTS:
        raise NotDone(Message("forfeit.noughts", no_score=NO_SCORE, both=BOTH))
    words = text.split()
    if len(words) > 1 and name and text.strip().endswith(f" {name}"):
        named = in_a_table(" ".join(words[: -len(name.split())]))
        if named:
            raise NotDone(Message("forfeit.alone", score=SCORES[named]))
    return read_words(text)


def fits(kind: str, result: str, pgn: bytes) -> bool:
    """Whether a game with this text and this result is the one that was forfeited: it has no move, and no other result was typed."""
    return kind in SCORES and Forfeit(kind).result == result and is_unplayed(pgn)


def told_to_readers(kind: str) -> Mapping[str, str]:
    """The tag of what is published of a forfeited game."""
    return {"Termination": TERMINATION} if kind else {}


def refuse_played(plies: int, result: str, typed: Forfeit) -> None:
    """Refused if a game with so many plies and this result can't be the one that is forfeited: it has a result as others have."""
    if plies:
        how = BOTH_LOSE if typed.kind == BOTH else Message("forfeit.type_the_result", result=typed.result)
        raise NotDone(Message("forfeit.has_moves", how=how))
    if typed.result == NO_RESULT and result != NO_RESULT:
        raise NotDone(Message("forfeit.has_result", result=result, reopens=REOPENS))


LONGEST_KEPT = 16  # bytes of the file, whoever wrote it


def _words(paths: Paths) -> List[str]:
    try:
        return beginning(paths.forfeit, LONGEST_KEPT).decode("ascii", "replace").split()
    except OSError:
        return []


def kept_forfeit(paths: Paths) -> str:
    """What was kept, as far as it can be read."""
    return "".join(_words(paths)[:1])


def forfeited_after(paths: Paths) -> Optional[int]:
    """How many bytes the capture had when the game was forfeited; None if that isn't known."""
    sizes = [int(word) for word in _words(paths)[1:2] if word.isdecimal()]
    return sizes[0] if sizes else None


def forfeit_of(paths: Paths, pgn: bytes) -> str:
    """How the game with this text was forfeited; empty if it wasn't."""
    kind = kept_forfeit(paths) if is_unplayed(pgn) else ""
    if not kind:
        return ""
    return kind if fits(kind, result_of(pgn), pgn) else ""


def is_unended(paths: Paths) -> bool:
    """Whether a game has no result, as far as its text can be read, and wasn't forfeited by both players."""
    try:
        pgn = existing(paths.pgn)
    except OSError:
        return True
    return result_of(pgn) == "*" and not forfeit_of(paths, pgn)


def keep_forfeit(paths: Paths, kind: str, size: int) -> None:
    """Keeps it, and how many bytes the capture has now. Raises OSError on failure."""
    put_in_place(paths.forfeit, f"{kind} {size}\n".encode("ascii"))


def drop_forfeit(paths: Paths) -> None:
    """The game is played after all."""
    with contextlib.suppress(OSError):
        remove(paths.forfeit)
