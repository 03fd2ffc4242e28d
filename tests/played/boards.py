"""A simulated board with a clock, on a pseudo-terminal: what it sends, what it answers, and how it fails.

Nothing of it runs by itself: `turn` takes what it is asked and sends what is due, and stands in the loop of whoever waits.
"""

import contextlib
import os
import pathlib
import random
import time
import tty
from typing import Dict, Iterator, List, Optional, Sequence, Tuple

import play_board
from play_board import BLACK, DUMP, EMPTY, INITIAL, KING, UPDATE, field, frame

SEND_SERIAL, SERIAL = 0x45, 0x91
RATE = 960  # bytes a second of the line: 9600 baud, ten bits a byte


class Board(play_board.Board):
    """A board at a device of its own: a name in `folder` for a pseudo-terminal.

    It sends updates once it was asked for them, and forgets that when its power fails or its cable is pulled.
    `deaf` has it ignore what it is asked. `answers_after` seconds pass before a dump. With a `rate` its line takes so many
    bytes a second. The updates in `spoiled` are cut to so many bytes, the next one first, None for a whole one; of the others
    `spoiled_share` are cut somewhere, or lost whole where `lost_whole`. With a `serial_number`, of five digits, it gives that.
    """

    def __init__(
        self,
        folder: pathlib.Path,
        codes: Optional[Sequence[int]] = None,
        rotated: bool = False,
        device: Optional[pathlib.Path] = None,
        seed: int = 1,
    ) -> None:
        super().__init__(-1)
        self.device = str(device or folder / "board")
        self.rotated = rotated
        self.codes = list(codes or self.codes)
        self.random = random.Random(seed)  # for the line
        self.hands = random.Random(seed)
        self.cable: Optional[pathlib.Path] = None
        self.slave = -1
        self.on = True
        self.deaf = False
        self.answers_after = 0.0
        self.rate: Optional[float] = None
        self.spoiled: List[Optional[int]] = []
        self.spoiled_share = 0.0
        self.lost_whole = False
        self.serial_number = b""
        self.asked = b""
        self.asked_at: List[Tuple[float, int]] = []
        self.outgoing = bytearray()
        self.answers: List[float] = []
        self.noise_ends = 0.0
        self.holds = 0
        self.turned_at = time.monotonic()
        self.room = 0.0
        self.plug()

    # ---- The cable and the power ----

    @property
    def plugged(self) -> bool:
        return self.line >= 0

    def plug(self) -> None:
        """Into the computer, under the device's name and, where it has a cable's name, under this too."""
        self._let_number_go()
        self.line, self.slave = os.openpty()
        os.set_blocking(self.line, False)
        tty.setraw(self.slave)
        os.symlink(os.ttyname(self.slave), self.device)
        if self.cable is not None:
            os.symlink(os.path.relpath(self.device, self.cable.parent), self.cable)

    def pull(self) -> None:
        """Out of the computer, from which it has its power. The number of its pseudo-terminal stays its own: else the board of another
        case may get it, and a recorder that opens it hears that one."""
        os.unlink(self.device)
        if self.cable is not None:
            os.unlink(self.cable)
        os.close(self.line)
        self.line = -1
        self.forget()

    def let_slave_go(self) -> None:
        """From now on a turn fails once nobody has the device open: whoever records it has closed the line."""
        self._let_number_go()

    def take_slave(self) -> None:
        """The line may be closed again."""
        self.slave = os.open(self.device, os.O_RDWR | os.O_NOCTTY)

    def _let_number_go(self) -> None:
        if self.slave >= 0:
            os.close(self.slave)
        self.slave = -1

    def end(self) -> None:
        if self.plugged:
            self.pull()
        self._let_number_go()

    def forget(self) -> None:
        self.asked_for_updates = False
        self.outgoing.clear()
        self.answers.clear()

    def switch_off(self) -> None:
        """Its own power fails; the cable and the device stay."""
        self.on = False
        self.forget()

    def switch_on(self) -> None:
        self.on = True

    # ---- The line ----

    def turn(self) -> None:
        """Takes what it is asked, and sends what is due."""
        if not self.plugged:
            return
        now = time.monotonic()
        try:
            asked = os.read(self.line, 4096)
        except BlockingIOError:
            asked = b""
        self.answer(asked)
        while self.answers and self.answers[0] <= now:
            self.answers.pop(0)
            self.outgoing += self.dump()
        if now < self.noise_ends:
            self.outgoing += self.random.randbytes(round((now - self.turned_at) * RATE))
        self.room = min(self.room + (now - self.turned_at) * (self.rate or 0), 64)
        self.turned_at = now
        self.flush()

    def answer(self, commands: bytes) -> None:
        now = time.monotonic()
        self.asked += commands
        self.asked_at += [(now, command) for command in commands]
        if not self.on or self.deaf:
            return
        for command in commands:
            if command == play_board.SEND_DUMP:
                self.answers.append(now + self.answers_after)
            elif command == play_board.SEND_UPDATES:
                self.asked_for_updates = True
            elif command == SEND_SERIAL and self.serial_number:
                self.outgoing += frame(SERIAL, self.serial_number)

    @contextlib.contextmanager
    def at_once(self) -> Iterator[None]:
        """What is shown meanwhile goes out at the end in one write: however often this process is held up, no piece stands for
        long where a hand has only passed."""
        self.holds += 1
        try:
            yield
        finally:
            self.holds -= 1
            self.flush()

    def flush(self) -> None:
        """Writes what the line takes."""
        while self.outgoing and self.plugged and not self.holds:
            take = len(self.outgoing) if self.rate is None else int(self.room)
            if take == 0:
                return
            try:
                written = os.write(self.line, self.outgoing[:take])
            except BlockingIOError:
                return
            self.room -= written
            del self.outgoing[:written]

    def send(self, bytes_sent: bytes) -> None:
        """Sends them after all that it was about to send."""
        if self.plugged and self.on:
            self.outgoing += bytes_sent
            self.flush()

    def make_noise(self, seconds: float) -> None:
        """The line carries as many bytes as it can for so long, none of which anyone sent."""
        self.turned_at = time.monotonic()
        self.noise_ends = self.turned_at + seconds

    def listen(self, seconds: float) -> None:
        until = time.monotonic() + seconds
        self.turn()
        while time.monotonic() < until:
            time.sleep(0.002)
            self.turn()

    # ---- The pieces ----

    def dump(self) -> bytes:
        """The whole frame that says how it stands."""
        return frame(DUMP, self.codes[::-1] if self.rotated else self.codes)

    def update(self, number: int) -> bytes:
        """The whole frame of the update of a square."""
        return frame(UPDATE, [63 - number if self.rotated else number, self.codes[number]])

    def show(self, number: int, code: int) -> None:
        self.codes[number] = code
        if self.asked_for_updates:
            self.send(self.spoil(self.update(number)))

    def spoil(self, whole: bytes) -> bytes:
        if self.spoiled:
            kept = self.spoiled.pop(0)
        elif self.random.random() < self.spoiled_share:
            kept = 0 if self.lost_whole else self.random.randrange(1, len(whole))
        else:
            kept = None
        return whole[:kept]

    def play(self, *moves: str) -> None:
        """Plays them at once."""
        with self.at_once():
            for move in moves:
                super().play(move)

    def lift(self, square: str) -> None:
        self.show(field(square), EMPTY)

    def put(self, square: str, code: int) -> None:
        self.show(field(square), code)

    def kings_in_centre(self, white: str, black: str) -> None:
        with self.at_once():
            for code in (KING, BLACK + KING):
                self.show(self.codes.index(code), EMPTY)
            self.put(white, KING)
            self.put(black, BLACK + KING)

    def set_up(self, last: Sequence[int]) -> None:
        """Takes all pieces off and sets them up again, those of these codes last."""
        pieces = [(code in last, number, code) for number, code in enumerate(INITIAL) if code != EMPTY]
        with self.at_once():
            for number in range(64):
                if self.codes[number] != EMPTY:
                    self.show(number, EMPTY)
            for _, number, code in sorted(pieces):
                self.show(number, code)

    def homecoming(self, kings_first: bool = False) -> Iterator[None]:
        """Brings the pieces home one by one in random order, each from where it stands, else from the box; one step a round."""
        homes = [number for number in range(64) if INITIAL[number] != EMPTY]
        self.hands.shuffle(homes)
        if kings_first:
            homes.sort(key=lambda number: INITIAL[number] not in (KING, BLACK + KING))
        for home in homes:
            code = INITIAL[home]
            if self.codes[home] == code:
                continue
            if self.codes[home] != EMPTY:
                self.show(home, EMPTY)
                yield
            abroad = [number for number in range(64) if self.codes[number] == code and INITIAL[number] != code]
            if abroad:
                self.show(self.hands.choice(abroad), EMPTY)
                yield
            self.show(home, code)
            yield
        for number in range(64):
            if self.codes[number] != INITIAL[number]:
                self.show(number, INITIAL[number])
                yield


class Cables:
    """A folder that stands for /dev: `ttyUSB0` is a name for whatever was plugged in there, and `serial/by-id` has a name for
    each cable, which stays its own."""

    def __init__(self, folder: pathlib.Path) -> None:
        self.folder = folder / "dev"
        self.serial = self.folder / "serial"
        (self.serial / "by-id").mkdir(parents=True)

    def environment(self) -> Dict[str, str]:
        """What tells the recorder of this folder."""
        return {"DGT_LIVE_SERIAL": str(self.serial)}

    def board(self, cable: str, number: int) -> Board:
        """A board on a cable of this name, plugged in as the ttyUSB of this number."""
        board = Board(self.folder, device=self.folder / f"ttyUSB{number}")
        board.cable = self.serial / "by-id" / f"usb-{cable}"
        board.cable.symlink_to(f"../../ttyUSB{number}")
        return board

    def plug(self, board: Board, number: int) -> None:
        board.device = str(self.folder / f"ttyUSB{number}")
        board.plug()
