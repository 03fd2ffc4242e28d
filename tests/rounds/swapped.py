"""Boards that give their serial numbers, and cables that are swapped: each move stands in the game of its board."""

import os
import pathlib
from typing import Callable, Dict, List, Sequence, Tuple

from emulated.board import Board, Manner
from emulated.cable import Cable, swap
from emulated.protocol import Command
from emulated.room import stopwatch
from play_board import EMPTY, INITIAL, field
from played.boards import Cables
from played.recorder import LIVE, Live
from played.stage import Stage, bytes_of, movetext, rest, same, stop, until, until_game, until_line
from rounds.hall import ROUND, Hall, moves, plain, text

BOARDS = 8
UNPLUGGED_FOR = 1.5  # seconds that hands take to swap two plugs, at least
SETTLED = 1.5  # seconds after which a board that is plugged in has shown how it stands
AT_USB, AT_BOARD = "at the USB plug", "at the board's plug"
Pair = Tuple[int, int]
# What a board answers to 45: its number, four characters, six.
NUMBER = bytes((0x91, 0x00, 0x08)) + b"01234"
SHORT = bytes((0x91, 0x00, 0x07)) + b"0123"
LONG = bytes((0x91, 0x00, 0x09)) + b"012345"


class Seat:
    """A table of the hall: its board, which has the table's number, and the cable that it hung on at first."""

    def __init__(self, device: pathlib.Path, number: int, now: Callable[[], float]) -> None:
        self.board = Board(serial=f"{number:05}", seed=number)
        self.cable = Cable(device, self.board, now)
        self._now, self._codes, self._number = now, list(INITIAL), number
        self.plies = 0

    def play(self) -> None:
        """The next ply of its game."""
        if self.plies == len(moves(self._number)):
            return
        move = moves(self._number)[self.plies]
        self.plies += 1
        self._carry(field(move[:2]), field(move[2:]))
        if move == "e1g1":
            self._carry(field("h1"), field("f1"))

    def _carry(self, origin: int, target: int) -> None:
        self._codes[target], self._codes[origin] = self._codes[origin], EMPTY
        for square in (origin, target):
            self.board.show(self._now(), square, self._codes[square])

    def spare(self, serial: str) -> None:
        """Another board is on the table and on its cable, with the same position."""
        self.board = self.cable.board = Board(self._codes, serial=serial)

    @property
    def text(self) -> str:
        """The plies of its game so far."""
        words: List[str] = []
        for word in text(self._number).split():
            if sum(1 for one in words if not one[0].isdigit()) == self.plies:
                break
            words.append(word)
        return " ".join([*words, "*"]) if words[-1:] != ["*"] else " ".join(words)

    # What the stage does with a board.

    @property
    def line(self) -> int:
        return self.cable.line

    @property
    def plugged(self) -> bool:
        return self.cable.plugged and self.cable.heard

    def turn(self) -> None:
        self.cable.turn()

    def end(self) -> None:
        self.cable.end()


class Tables:
    """The tables of a hall, and the call that records them."""

    def __init__(
        self, folder: pathlib.Path, count: int = BOARDS, serials: bool = False, shift: int = 0, start: Sequence[object] = ()
    ) -> None:
        """The table says each board's serial number, where `serials`; its cable is the one `shift` places on. `start` are words that
        start the call."""
        self._folder, self._start, self.now = folder, start, stopwatch()
        places = {n: (n + shift - 1) % count + 1 for n in range(1, count + 1)}
        self.seats: Dict[int, Seat] = {n: Seat(folder / f"board{place}", n, self.now) for n, place in places.items()}
        Stage.boards += self.seats.values()  # type: ignore[arg-type]
        header = "board,device" + (",serial" if serials else "")
        lines = [f"{n},{folder / f'board{n}'}{f',{n}' if serials else ''}" for n in self.seats]
        (folder / "round.csv").write_text("\n".join([header, *lines, ""]))
        self.live = self.record()

    def record(self) -> Live:
        """Starts the call, or starts it again."""
        self.live = Live(self._folder / "round.csv", self._folder / "games", program=ROUND, typed=True, start=self._start)
        return self.live

    def begun(self) -> None:
        for number in self.seats:
            until_line(self.live, f"{number:>3}  agrees")

    def name(self, number: int) -> pathlib.Path:
        return self._folder / "games" / f"{number:02}"

    def play(self, plies: int) -> None:
        """So many plies at each table; each stands in its own game."""
        for _ in range(plies):
            for seat in self.seats.values():
                seat.play()
            self.until_whole()

    def until_whole(self) -> None:
        """Each game has the plies of its table."""
        for number, seat in self.seats.items():
            until(
                lambda: plain(movetext(self.name(number))) == seat.text,
                f"{seat.text} at table {number}, which has {plain(movetext(self.name(number)))}",
                0.01,
            )

    def swap(self, pairs: Sequence[Pair], where: str) -> None:
        """The cables of each pair change their boards; hands take their time for that."""
        for number in {number for pair in pairs for number in pair}:
            cable = self.seats[number].cable
            if where == AT_USB:
                cable.pull()
            else:
                cable.board.power(self.now(), False)
        rest(UNPLUGGED_FOR)
        for one, other in pairs:
            swap(self.seats[one].cable, self.seats[other].cable)
        for number in {number for pair in pairs for number in pair}:
            cable = self.seats[number].cable
            if where == AT_USB:
                cable.plug()
            else:
                cable.board.power(self.now(), True)

    def until_named(self, pairs: Sequence[Pair]) -> None:
        """Each cable of the pairs is an alarm, which names the board that it has."""
        for one, other in [*pairs, *((other, one) for one, other in pairs)]:
            until_line(self.live, f"{one:>3}  LOOK at the cable: it has the board of board {other}, serial number {other:05}")

    def until_acknowledged(self, number: int) -> None:
        """The look at its cable is; there may be another one before it in the line, as the board wasn't heard meanwhile."""
        until(
            lambda: any(f"{number}: acknowledged: " in line and "LOOK at the cable" in line for line in self.live.lines().splitlines()),
            f"that the look at cable {number} is acknowledged",
        )

    def acknowledge(self, pairs: Sequence[Pair]) -> None:
        """The arbiter says that he has looked."""
        for number in {number for pair in pairs for number in pair}:
            self.live.type(f"{number} ok")
            self.until_acknowledged(number)


def swapped(folder: pathlib.Path, pairs: Sequence[Pair], plies: int, where: str, puts_back: bool) -> None:
    """After so many plies the cables of these pairs are swapped. It is named, the games go on, and the arbiter puts the cables
    back, or leaves them so: each game is whole."""
    hall = Tables(folder)
    hall.begun()
    hall.play(plies)
    hall.swap(pairs, where)
    hall.until_named(pairs)
    rest(SETTLED)
    hall.play(2)
    if puts_back:
        hall.swap(pairs, where)
        for number in {number for pair in pairs for number in pair}:
            until_line(hall.live, f"{number:>3}  LOOK at the cable: it had the board")
        rest(SETTLED)
    hall.acknowledge(pairs)
    hall.play(10)
    same(stop(hall.live), 0)
    for number in hall.seats:
        same(bytes_of(hall.name(number).with_suffix(".serial")), f"{number:05}\n".encode())


FOUR = [(1, 2), (3, 4), (5, 6), (7, 8)]


def swapped_at_the_start(folder: pathlib.Path) -> None:
    """At the start, at the USB plug; the arbiter puts the cables back."""
    swapped(folder, FOUR, 0, AT_USB, puts_back=True)


def swapped_after_a_ply(folder: pathlib.Path) -> None:
    """After a ply, at the board's plug; the arbiter puts the cables back."""
    swapped(folder, [(1, 3), (2, 5), (4, 8), (6, 7)], 1, AT_BOARD, puts_back=True)


def swapped_after_six_plies(folder: pathlib.Path) -> None:
    """After six plies, at the USB plug; the arbiter leaves the cables so."""
    swapped(folder, [(1, 8), (2, 7), (3, 6), (4, 5)], 6, AT_USB, puts_back=False)


def number_that_changes(folder: pathlib.Path) -> None:
    """A board gives another serial number each time that it is asked: that is said of the first three, then once that its numbers change, and
    no more. What it sends is kept back. Then its own number is there again, and its game goes on."""
    hall = Hall(folder, 1)
    board = hall.boards[0]
    board.serial_number = b"00001"
    live = hall.record(typed=True)
    hall.begun(live)
    board.play("e2e4")
    hall.until_text(1, "1. e4 *")
    for number in range(8):
        unplugged = live.lines().count("UNPLUGGED")
        board.pull()
        until(lambda: live.lines().count("UNPLUGGED") > unplugged, "that it is unplugged")
        board.serial_number = b"%05d" % (70 + number)
        asked = board.asked.count(b"E")
        board.plug()
        until(lambda: board.asked.count(b"E") > asked and not board.outgoing, "that it is asked for its number")
        until(lambda: f"serial number {70 + number:05}, and not 00001" in live.lines() or number >= 3, f"number {number}")
        until(lambda: "one serial number after the other, and not 00001" in live.lines() or number < 3, "that its numbers change")
    board.pull()
    until(lambda: live.lines().count("UNPLUGGED") > 8, "that it is unplugged")
    board.serial_number = b"00001"
    board.plug()
    until(lambda: board.asked_for_updates, "a request for updates")
    board.play("e7e5")
    hall.until_text(1, "1. e4 e5 *")
    log = bytes_of(f"{hall.name(1)}.log").decode()
    said = [log.count(f"LOOK at the cable: {what}") for what in ("it has the board with", "it has a board that gives one", "it had")]
    same((said[:2], said[2] <= 3), ([3, 1], True))
    live.type("1 ok")
    until_line(live, "1: acknowledged: ")
    same(stop(live), 0)


def found_by_serial(folder: pathlib.Path) -> None:
    """The cables of all boards are in other places than the table says, and it says which board has which serial number: each
    is found, nobody is to look at anything, and each game is whole."""
    hall = Tables(folder, serials=True, shift=3)
    hall.begun()
    hall.play(4)
    hall.swap(FOUR, AT_BOARD)
    rest(SETTLED)
    hall.play(10)
    same(stop(hall.live), 0)
    assert "LOOK" not in hall.live.lines(), hall.live.lines()


def swapped_between_calls(folder: pathlib.Path) -> None:
    """Two cables are swapped while nothing is recorded: that is named, too, and both games go on."""
    hall = Tables(folder, 2)
    hall.begun()
    hall.play(1)
    same(stop(hall.live), 0)
    for seat in hall.seats.values():
        seat.cable.turn()  # nobody has it open
    hall.swap([(1, 2)], AT_USB)
    hall.record()
    hall.until_named([(1, 2)])
    rest(SETTLED)
    hall.play(3)
    hall.acknowledge([(1, 2)])
    same(stop(hall.live), 0)


def left_swapped(folder: pathlib.Path) -> None:
    """Two cables are swapped, the arbiter looks, types ok, and leaves them so: when the call is started again, each move still goes
    to the game of its board, and nobody is to look again."""
    hall = Tables(folder, 2)
    hall.begun()
    hall.play(1)
    hall.swap([(1, 2)], AT_USB)
    hall.until_named([(1, 2)])
    rest(SETTLED)
    hall.acknowledge([(1, 2)])
    hall.play(1)
    same(stop(hall.live), 0)
    hall.record()
    for one, other in ((1, 2), (2, 1)):
        until_line(hall.live, f"has the board of board {other}, serial number {other:05}: it goes to that game")
    rest(SETTLED)
    hall.play(3)
    same((stop(hall.live), hall.live.lines().count("LOOK at the cable")), (0, 0))


def found_on_a_free_socket(folder: pathlib.Path) -> None:
    """A board is plugged in again on another cable, in a socket that the table doesn't name: it is found by its serial number, in a
    round and by dgt_live; another board is there too, and isn't taken. Then its own cable is there again."""
    for of_round in (True, False):
        place = folder / str(of_round)
        place.mkdir()
        cables = Cables(place)
        board, other = cables.board("DGT_A", 0), cables.board("DGT_B", 3)
        board.serial_number, other.serial_number = b"00001", b"00002"
        Stage.boards[:] = [board]
        first, game = board.device, place / ("games/01" if of_round else "game")
        (place / "round.csv").write_text(f"board,device\n1,{first}\n")
        words = (place / "round.csv", place / "games") if of_round else (first, game)
        live = Live(*words, program=ROUND if of_round else LIVE, environment=cables.environment())
        until_line(live, "agrees")
        board.play("e2e4")
        until_game(game, "1. e4 *")
        until(lambda: bytes_of(f"{game}.serial") == b"00001\n", "its number")
        board.pull()
        until_line(live, "UNPLUGGED")
        own = board.cable
        board.cable = None
        cables.plug(board, 5)
        Stage.boards.append(other)
        until_line(live, f"the board with serial number 00001 is on {os.path.realpath(board.device)}, and is recorded there")
        until(lambda: board.asked_for_updates, "a request on the other cable")
        board.play("e7e5")
        until_game(game, "1. e4 e5 *")
        board.pull()
        until_line(live, "UNPLUGGED", 2)
        board.cable = own
        cables.plug(board, 0)
        until(lambda: board.asked_for_updates, "a request on its own cable")
        board.play("g1f3")
        until_game(game, "1. e4 e5 2. Nf3 *")
        same(stop(live), 0)
        board.end()
        other.end()


def played_over_another_cable(folder: pathlib.Path) -> None:
    """Two boards have changed cables. What is played on one of them counts as if it had come over its own: a move after a typed result
    ends the game."""
    cables = Cables(folder)
    boards = [cables.board("DGT_A", 0), cables.board("DGT_B", 3)]
    for board, serial in zip(boards, (b"00001", b"00002")):
        board.serial_number = serial
    Stage.boards[:] = boards
    (folder / "round.csv").write_text("board,device\n" + "".join(f"{n},{board.device}\n" for n, board in enumerate(boards, 1)))
    live = Live(folder / "round.csv", folder / "games", program=ROUND, typed=True, environment=cables.environment())
    game, board = folder / "games" / "01", boards[0]
    for number in (1, 2):
        until_line(live, f"{number:>3}  agrees")
    board.play("e2e4")
    until_game(game, "1. e4 *")
    until(lambda: bytes_of(f"{game}.serial") == b"00001\n", "its number")
    for one in boards:
        one.pull()
    until_line(live, "UNPLUGGED", 2)
    boards[0].cable, boards[1].cable = boards[1].cable, boards[0].cable
    for one, place in zip(boards, (3, 0)):
        cables.plug(one, place)
    until_line(live, "  1  LOOK at the cable: it has the board of board 2, serial number 00002")
    until_line(live, "  2  LOOK at the cable: it has the board of board 1, serial number 00001")
    until(lambda: board.asked_for_updates, "a request on the other cable")
    board.play("e7e5")
    until_game(game, "1. e4 e5 *")
    live.type("1 1-0")
    until_game(game, "1. e4 e5 1-0")
    board.play("g1f3")
    until_line(live, f"  1  {game} is over: another move was made after its result")
    same(movetext(game), "1. e4 e5 1-0")
    words = [line.split()[1] for line in bytes_of(f"{game}.times").decode().splitlines()]
    same((words.count("added"), "brought" in words), (1, True))
    same(stop(live), 0)


def spare_board(folder: pathlib.Path) -> None:
    """A board that breaks is replaced by one that nobody knows: what it sends is kept back until the arbiter says ok, and then
    it is the game's; so it is when the call is started again."""
    hall = Tables(folder, 2)
    hall.begun()
    hall.play(2)
    seat = hall.seats[1]
    seat.cable.pull()
    rest(UNPLUGGED_FOR)
    seat.spare("00099")
    seat.cable.plug()
    until_line(hall.live, "  1  LOOK at the cable: it has the board with serial number 00099, and not 00001: what it sends is")
    rest(SETTLED)
    before = seat.text
    seat.play()
    hall.seats[2].play()
    rest(SETTLED)
    same(plain(movetext(hall.name(1))), before)
    hall.live.type("1 ok")
    until_line(hall.live, "; the board with serial number 00099 is recorded here")
    hall.until_whole()
    hall.play(2)
    same(stop(hall.live), 0)
    hall.record()
    rest(SETTLED)
    hall.play(2)
    same(stop(hall.live), 0)
    same(hall.live.lines().count("LOOK at the cable"), 0)


def spare_board_taken_away(folder: pathlib.Path) -> None:
    """A move is made on a board that nobody knows, and then the game's own is on the cable again: nothing of it is recorded."""
    hall = Tables(folder, 2)
    hall.begun()
    hall.play(1)
    seat = hall.seats[1]
    own = seat.cable.board
    seat.cable.pull()
    spare = seat.cable.board = Board(own.codes, serial="00099")
    seat.cable.plug()
    until_line(hall.live, "  1  LOOK at the cable: it has the board with serial number 00099")
    rest(SETTLED)
    for square, code in ((field("g8"), EMPTY), (field("f6"), INITIAL[field("g8")])):
        spare.show(hall.now(), square, code)
    rest(SETTLED)
    seat.cable.pull()
    seat.cable.board = own
    seat.cable.plug()
    until_line(hall.live, "  1  LOOK at the cable: it had the board with serial number 00099")
    rest(SETTLED)
    hall.live.type("1 ok")
    hall.until_acknowledged(1)
    hall.until_whole()
    hall.play(3)
    same(stop(hall.live), 0)
    same(bytes_of(hall.name(1).with_suffix(".serial")), b"00001\n")


def answers_of_all_kinds(folder: pathlib.Path) -> None:
    """Boards that don't answer 45, answer late, twice, or at another length, and whose cables are pulled: each game is whole,
    and those that gave a number keep it. Two of those that gave none stand alike: they may be exchanged, and no other."""
    hall = Tables(folder, 5)
    hall.seats[2].board.manner = Manner(late=(0.3, 0.8))
    for number, answer in ((1, b""), (3, NUMBER * 2), (4, SHORT), (5, LONG)):
        hall.seats[number].board.answers[Command.SERIAL] = answer
    hall.begun()
    for _ in range(2):
        hall.play(2)
        hall.swap([(number, number) for number in hall.seats], AT_USB)
        rest(2 * SETTLED)
    hall.play(2)
    same(stop(hall.live), 0)
    kept = [bytes_of(hall.name(number).with_suffix(".serial")) for number in hall.seats]
    same(kept, [b"", b"00002\n", b"01234\n", b"", b""])
    looks = [line for line in hall.live.lines().splitlines() if "LOOK at the cable: " in line]
    same({int(line[len("21:50:39 ") :].split()[0]) for line in looks}, {1, 5})
    same([line for line in looks if "it was away together with board" not in line], [])


CASES = [
    found_by_serial, number_that_changes,
    found_on_a_free_socket,
    played_over_another_cable,
    swapped_between_calls,
    left_swapped,
    spare_board,
    spare_board_taken_away,
    answers_of_all_kinds,
    swapped_at_the_start,
    swapped_after_a_ply,
    swapped_after_six_plies,
]
