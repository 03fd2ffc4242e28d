"""How a board stands, over the recorder itself: the tables `texts`, `hints` and `turned round` of tests/decisions/state.json.

The tables tell a state what the program reports; here a board shows the pictures of which it reports that, and answers each request
but where it is to be silent. The recorder says a state when it is news.

`LOOK` and `DISK FULL` are left out of what is read: the hosts decide them. `lasting` has sentences. "No start is known" can't be played:
the recorder knows its start. Of the hints that a table has without what the program reports, the hint alone is compared.
"""

from typing import Any, List, Optional, Sequence, Tuple

from attending.answers import Entry, brings
from attending.asked import milliseconds
from attending.host import Call, Host
from attending.pictures import FOOLS, INITIAL, Game, begun, dump, picture, updates
from attending.reading import HINTS, in_order, read_of
from decided.cases import bytes_of, cases
from decided.table import same
from live.board.state import DISK_FULL

LATE = 90  # milliseconds after which a board answers
SILENCE = 6000  # from the last request that a silent board answers to the one at which it is silent
LOOK = "LOOK at 1. e4"
OTHERS = ("look", "full", "written", "rest 0")  # that a recorder isn't told
Happening = Tuple[int, str]


def of_the_board(text: str) -> str:
    """What a table reads, without what the hosts decide."""
    return in_order(text.replace(f"{LOOK}; ", "").replace(f"; {LOOK}", "").replace(f"{DISK_FULL}, ", ""))


class Board:
    """A board that shows what the program is to report, and answers each request, but while it is mute."""

    def __init__(self, call: Call, game: Game) -> None:
        self._call, self.game = call, game
        self._answers_at: Optional[int] = None
        self._is_shown = False
        self.mute: Optional[Tuple[int, int]] = None  # from when to when it answers no request

    def passes(self, now: int, is_whole: bool = True) -> None:
        """The time up to now: answers come, and the recorder is woken; at just this time too, if the time is whole."""
        while (at := self._next()) is not None and (at < now or is_whole and at == now):
            if at == self._answers_at:
                self._answers_at = None
                self._tell(brings(at, "heard", dump(self.game.shown)))
            else:
                self._tell(Entry(at, "wake"))

    def opens(self, at: int) -> None:
        self._answers_at = None
        self._tell(Entry(at, "opened"))

    def goes(self, at: int) -> None:
        self._answers_at = None
        self._tell(Entry(at, "gone"))

    def shows(self, at: int, game: Game, is_whole: bool = True) -> None:
        """A picture, as a dump or by its updates."""
        before, self.game, self._is_shown = self.game, game, True
        sent = dump(game.shown) if is_whole else updates(before.shown, game.shown)
        if sent:
            self._tell(brings(at, "heard", sent))

    def sends(self, at: int, sent: bytes) -> None:
        self._tell(brings(at, "heard", sent))

    def _next(self) -> Optional[int]:
        times = [at for at in (self._answers_at, self._call.due) if at is not None]
        return min(times, default=None)

    def _tell(self, entry: Entry) -> None:
        answer = self._call.tell(entry)
        is_mute = self.mute is not None and self.mute[0] < entry.at < self.mute[1]
        if answer.asked and self._is_shown and not is_mute:
            self._answers_at = entry.at + LATE


def silence_of(happenings: Sequence[Happening]) -> Optional[Tuple[int, int]]:
    """From when to when a board answers no request, so that it is silent when the table says."""
    begins = [at for at, what in happenings if what == "silent"]
    if not begins:
        return None
    ends = [at for at, what in happenings if what in ("answers", "plugged") and at > begins[0]]
    return begins[0] - SILENCE, ends[0] if ends else 1 << 62


def put_off(happenings: Sequence[Happening]) -> Tuple[int, List[Happening]]:
    """A board that is silent soon after it was first seen was seen earlier: by how much all comes later, and what comes then."""
    mute = silence_of(happenings)
    if mute is None or not happenings or happenings[0][1] == "goes on" or mute[0] >= happenings[0][0]:
        return 0, list(happenings)
    later = happenings[0][0] - mute[0]
    first, *rest = happenings
    return later, [(0, first[1]), *((at + later, what) for at, what in rest)]


def before_this_call(happenings: Sequence[Happening]) -> int:
    """So many happenings are from before this call: what a game that goes on was told until its board shows itself."""
    if not happenings or happenings[0][1] != "goes on":
        return 0
    return next(at for at, (_, what) in enumerate(happenings) if what in ("silent", "shows itself"))


class Case:
    """A case that is played: what happens, and what is read meanwhile."""

    def __init__(self, host: Host, happenings: Sequence[Happening], start: str) -> None:
        self.call = Call(host)
        self._board = Board(self.call, begun(start))
        self._later, self._left = put_off(happenings)
        self._first = self._left[0][0] if self._left else -1
        self._board.mute = silence_of(self._left)
        self._begin()

    def _begin(self) -> None:
        """What was kept is told, and a call begins. The line is open when the first thing happens."""
        count = before_this_call(self._left)
        capture, game = b"", self._board.game
        for _, what in self._left[1:count]:
            game = game.told(what.split()[1:])
            capture += dump(game.shown)
        if count:
            self.call.tell(brings(0, "capture", capture))
        self.call.tell(Entry(0, "begin", len(capture)))
        self._board.game = game
        self._left = self._left[count:]
        if self._first >= 0:
            self._board.opens(self._first)

    def read(self, table_time: int) -> str:
        """What is read at a time of the table: what happens at just that time isn't known yet, but for the first thing."""
        now = table_time + self._later
        while self._left and (self._left[0][0] < now or self._left[0][0] == now == self._first):
            self._happens(*self._left.pop(0))
        self._board.passes(now, not (self._left and self._left[0][0] == now))
        return read_of(self.call).text(now)

    def _happens(self, at: int, what: str) -> None:
        self._board.passes(at)
        board = self._board
        if what in ("unplugged", "plugged"):
            board.goes(at) if what == "unplugged" else board.opens(at)
        elif what in ("shows itself", "answers"):
            board.shows(at, board.game)
        elif what == "silent":
            pass  # it answers no request
        elif what.split()[1] == "fault":
            board.sends(at, b"\x05")
        else:
            board.shows(at, board.game.told(what.split()[1:]), board.mute is None or at <= board.mute[0] + LATE)


def start_of(happenings: Sequence[Happening]) -> Tuple[str, List[str]]:
    """The placement at the start, and the option that says so."""
    is_mate = any("Qh4#" in what for _, what in happenings)
    return (FOOLS, ["--fen", f"{FOOLS} b KQkq g3 0 2"]) if is_mate else (INITIAL, [])


def happenings_of(rows: Sequence[Sequence[Any]]) -> List[Happening]:
    return [(milliseconds(at), what) for at, what in rows if what not in OTHERS]


def texts() -> None:
    """What is read at each time."""
    for name, rows, readings in cases("state", "texts"):
        happenings = happenings_of(rows)
        start, options = start_of(happenings)
        with Host(*options) as host:
            case = Case(host, happenings, start)
            seen = [[when, in_order(case.read(milliseconds(when)))] for when, _ in readings]
        same(name, seen, [[when, of_the_board(text)] for when, text in readings])


# ---- hints


def shown_at_once(board: Board, happenings: Sequence[str]) -> None:
    """All of this happens at the beginning. What the program reports of a picture that was just shown isn't told once more."""
    was_shown = False
    for what in happenings:
        if what.startswith("shows "):
            board.shows(0, Game(board.game.position, picture(what.split()[1])))
        elif what in ("unplugged", "plugged"):
            board.goes(0) if what == "unplugged" else board.opens(0)
        elif not (was_shown and what.split()[1] == "differs"):
            board.shows(0, board.game.told(what.split()[1:]))
        was_shown = what.startswith("shows ")


def hints() -> None:
    """A board that lies the other way round, and another board on the cable."""
    for name, start, happenings, text, is_alarm in cases("state", "hints"):
        if start is None:
            continue
        is_told = not happenings[-1].startswith("shows ")
        agrees_untold = not is_told and happenings[-1] == f"shows {start}"  # the recorder sees by itself that it agrees
        with Host() as host:
            call = Call(host)
            call.tell(Entry(0, "begin", 0))
            board = Board(call, begun(start))
            board.opens(0)
            shown_at_once(board, happenings[:-1] if agrees_untold else happenings)
            board.passes(1000)
            read = read_of(call)
        seen = read.text(1000) if is_told else HINTS[read.state.hint]
        same(name, (seen, read.state.is_alarm), (text if is_told else text.partition("; ")[2], is_alarm))


def turned_round() -> None:
    """The first picture of a board."""
    for name, shown, start, expected in cases("state", "turned round"):
        with Host("--fen", f"{start} w KQkq - 0 1") as host:
            call = Call(host)
            call.tell(Entry(0, "begin", 0))
            call.tell(Entry(0, "opened"))
            call.tell(brings(0, "heard", bytes_of(shown)))
        same(name, read_of(call).state.hint == "TURNED-ROUND", expected)


TABLES = [texts, hints, turned_round]
