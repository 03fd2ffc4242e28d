"""A single game that goes out late: what is still hidden as it ends is shown at its times, by the same call or by the next one.
The case controls the recorder's clock: fifteen minutes take no time."""

import os
import pathlib
import re
from typing import List

from live.out.spectators import Shot
from played import words
from played.boards import Board
from played.hidden import hidden_shots, started_again
from played.recorder import Live
from played.stage import (
    RUY, RUY_TEXT, a_board, begun, bytes_of, ended, holds_within, kill, refuses, same, stop, until, until_game, until_line,
)  # fmt: skip
from rounds.going_out import Clock
from rounds.hall import plain

LAST = "spectators see the last moves at "
WAITS, AGAIN = "it goes on until then", "To end it now, Ctrl-C again"
REST = "spectators get what they haven't seen of it"
SEEN = "spectators have seen all moves: it ends in "
LEFT = "spectators haven't seen all moves. Start it again to show them, the last ones at "
WON = RUY_TEXT.replace("*", "1-0")
DRAWN = RUY_TEXT.replace("*", "1/2-1/2")


class Game:
    """A board whose game goes out fifteen minutes late, to a file and by a copy of it."""

    def __init__(self, folder: pathlib.Path) -> None:
        self.folder, self.name, self.clock = folder, folder / "game", Clock(folder)
        self.board: Board = a_board(folder)
        self.www = folder / "www"
        self.www.mkdir()

    def record(self, *options: str, delay: str = "--delay 15") -> Live:
        """The command, the same each time."""
        command = [*delay.split(), "--publish", f"cp -t {self.www}", *options]
        return Live(self.board.device, self.name, *command, typed=True, start=self.clock.start)

    def play(self, live: Live) -> None:
        """Five plies, with a clock; they are kept."""
        begun(live)
        self.until_shown("*")
        for number, move in enumerate(RUY):
            self.board.clock(5400 - number, 5400 - number)
            self.board.play(move)
        self.until_kept(RUY_TEXT)

    def until_kept(self, text: str) -> None:
        """This is what is kept for spectators."""
        until(lambda: self._kept()[-1:] == [text], f"{text}, kept", 0.02)

    def _kept(self) -> List[str]:
        return [text_of(shot.text) for shot in self.hidden()]

    def hidden(self) -> List[Shot]:
        """What is shown and what is hidden, as a restart would have it."""
        return hidden_shots(self.name)

    @property
    def shown(self) -> List[str]:
        """What spectators have: the file and its copy, which is empty while it is made anew."""
        copy = self.www / f"{self.name.name}.broadcast.pgn"
        until(lambda: bytes_of(copy) or not copy.exists(), "the copy that is just made", 0.002)
        return [text_of(bytes_of(path)) for path in (f"{self.name}.broadcast.pgn", copy)]

    def until_shown(self, text: str) -> None:
        until(lambda: self.shown == [text] * 2, f"{text}, shown; there is {self.shown}", 0.02)


def last_shown(game: Game, live: Live, seconds: float) -> None:
    """The last moves are shown then; the call stays ten seconds, and until the minute that it had printed, and then it ends."""
    game.clock.be(seconds)
    until_line(live, SEEN)
    same(holds_within(lambda: not live.runs, 1.0), False)
    game.clock.be(seconds + 70)
    same(ended(live), 0)


def text_of(content: bytes) -> str:
    """The movetext, without clocks."""
    return plain(" ".join((content.split(b"\n\n") + [b""])[1].decode().split()))


def rest_is_shown(folder: pathlib.Path) -> None:
    """After its result a game is shown to its end, each part at its time, and the call ends by itself. Another call doesn't show
    it beside that; a result that is typed meanwhile is shown fifteen minutes after it."""
    game = Game(folder)
    live = game.record()
    game.play(live)
    game.clock.be(600)
    live.type("1-0")
    until_line(live, WAITS)
    game.until_kept(WON)
    refuses(game.record(delay="--delay 0"), 1, "another dgt_live shows ")
    same((game.shown, bytes_of(f"{game.name}.delay")), (["*", "*"], b"15\n"))
    game.clock.be(910)
    game.until_shown(RUY_TEXT)
    live.type("1/2-1/2")
    game.until_kept(DRAWN)
    until_line(live, f"added to {game.name}: the result 1/2-1/2 after 3. Bb5")
    until_line(live, LAST, 2)
    game.clock.be(1510)
    game.until_shown(WON)
    last_shown(game, live, 2420)
    same((game.shown, text_of(bytes_of(f"{game.name}.pgn"))), ([DRAWN] * 2, DRAWN))
    same((AGAIN in live.lines(), LEFT in live.lines()), (False, False))
    refuses(game.record(), 1, "is over: choose another name")


def rest_after_a_kill(folder: pathlib.Path) -> None:
    """It is killed as it waits, and the board is taken away: the same command shows the rest at the minute at which it would have
    been shown, and then says that the game is over."""
    game = Game(folder)
    live = game.record()
    game.play(live)
    game.clock.be(450)
    live.type("1-0")
    until_line(live, WAITS)
    game.until_kept(WON)
    kill(live)
    game.board.pull()
    os.utime(f"{game.name}.times", (0, 0))  # by the clock on the wall nobody was there for years
    game.clock.be(600)
    live = game.record(delay="")
    until_line(live, REST)
    until_line(live, "15 minutes late as before; --delay 0 ends that")
    until_line(live, WAITS)
    same(game.shown, ["*", "*"])
    game.clock.be(910)
    game.until_shown(RUY_TEXT)
    kill(live)
    game.clock.be(1000)
    live = game.record(delay="")
    until_line(live, WAITS)
    same(game.shown, [RUY_TEXT] * 2)
    last_shown(game, live, 1360)
    same(game.shown, [WON] * 2)
    refuses(game.record(delay=""), 1, "is over: choose another name")


def after_a_start_of_the_computer(folder: pathlib.Path) -> None:
    """The computer is started again: nobody knows how long it was off, so what was hidden waits for the rest of its time."""
    game = Game(folder)
    live = game.record()
    game.play(live)
    game.clock.be(450)
    live.type("1-0")
    until_line(live, WAITS)
    game.until_kept(WON)
    kill(live)
    started_again(pathlib.Path(f"{game.name}.began"))
    for seconds, shown in ((5000, "*"), (5380, "*"), (5520, RUY_TEXT), (5830, RUY_TEXT)):
        if seconds == 5000:
            game.clock.be(seconds)
            live = game.record(delay="")
            until_line(live, WAITS)
        game.clock.be(seconds)
        game.until_shown(shown)
        same((holds_within(lambda: game.shown != [shown] * 2, 1.0), seconds), (False, seconds))
    last_shown(game, live, 6000)
    same(game.shown, [WON] * 2)


def killed_until_after(folder: pathlib.Path) -> None:
    """What became due while no call was there is shown at once, and nothing waits."""
    game = Game(folder)
    live = game.record()
    game.play(live)
    live.type("1-0")
    until_line(live, WAITS)
    game.until_kept(WON)
    kill(live)
    game.clock.be(5000)
    live = game.record()
    same(ended(live), 0)
    same((game.shown, LAST in live.lines()), ([WON] * 2, False))


def second_ctrl_c(folder: pathlib.Path) -> None:
    """A first Ctrl-C says what is hidden, whether the game has a result or not; a second one ends it with that hidden. The same
    command goes on with it, and one with --delay 0 shows all."""
    game = Game(folder)
    live = game.record()
    game.play(live)
    game.clock.be(600)
    live.send(2)
    until_line(live, AGAIN)
    same((game.shown, WAITS in live.lines()), (["*"] * 2, False))
    same(stop(live), 0)
    same((game.shown, LEFT in live.lines()), (["*"] * 2, True))

    live = game.record()
    begun(live)
    live.type("1-0")
    until_line(live, WAITS)
    game.until_kept(WON)
    same(AGAIN in live.lines(), False)
    live.type("q")
    until_line(live, AGAIN)
    game.clock.be(910)
    game.until_shown(RUY_TEXT)
    live.send(2)
    same(ended(live), 0)
    same((game.shown, LEFT in live.lines()), ([RUY_TEXT] * 2, True))

    live = game.record()
    until_line(live, WAITS)
    same(game.shown, [RUY_TEXT] * 2)
    same([stop_twice(live), *game.shown], [0, RUY_TEXT, RUY_TEXT])
    live = game.record(delay="--delay 0")
    same(ended(live), 0)
    same(game.shown, [WON] * 2)
    refuses(game.record(delay=""), 1, "is over: choose another name")


def stop_twice(live: Live) -> int:
    live.send(2)
    until_line(live, AGAIN)
    return stop(live)


def goes_on_meanwhile(folder: pathlib.Path) -> None:
    """The result is taken off while the rest is to be shown: the game is recorded again, and the call stays."""
    game = Game(folder)
    live = game.record()
    game.play(live)
    live.type("1-0")
    until_line(live, WAITS)
    game.until_kept(WON)
    live.type("*")
    until_line(live, f"{game.name} goes on, without the result")
    until_line(live, words.RECORDS, 2)
    game.until_kept(RUY_TEXT)
    game.clock.be(1000)
    game.until_shown(RUY_TEXT)
    game.board.play("a7a6")
    game.until_kept("1. e4 e5 2. Nf3 Nc6 3. Bb5 a6 *")
    same(live.runs, True)
    live.type("0-1")
    until_line(live, WAITS, 2)
    last_shown(game, live, 2000)
    same(game.shown, ["1. e4 e5 2. Nf3 Nc6 3. Bb5 a6 0-1"] * 2)


def away_at_the_end(folder: pathlib.Path) -> None:
    """The command fails as the last moves are shown: the call stays until they are out."""
    game = Game(folder)
    live = game.record()
    game.play(live)
    live.type("1-0")
    until_line(live, WAITS)
    game.until_kept(WON)
    away = game.www.rename(folder / "away")
    game.clock.be(1000)
    until(lambda: game.shown[0] == WON, "the result in the file", 0.02)
    until_line(live, "NOT PUBLISHED: ")
    same(holds_within(lambda: not live.runs, 2.0), False)
    away.rename(game.www)
    same(ended(live), 0)
    same(game.shown, [WON] * 2)
    same(re.findall("isn't published", live.complaint()), [])


def times_lost(folder: pathlib.Path) -> None:
    """It is killed, and it is lost or unknown when its bytes came, or when its call began: nothing goes out that --add or an option makes, and the
    same command hides the game for fifteen minutes more."""
    game = Game(folder)
    live = game.record()
    game.play(live)
    kill(live)
    game.board.pull()
    files = [pathlib.Path(f"{game.name}.{ending}") for ending in ("times", "began")]
    ways = (
        (("--add", "1-0"), b"", None),
        (("--tag", "Section=A"), None, b""),
        (("--add", "*"), b"1 times 0\n67 digest 5\n0 begin 0\n0 heard 9999\n", b"0 21 1 0\n"),
        (("--add", "1-0"), None, None),
    )
    for options, *contents in ways:
        for file, content in zip(files, contents):
            file.unlink(missing_ok=True)
            if content is not None:
                file.write_bytes(content)
        same(ended(Live("", game.name, *options)), 0)
        same((options, game.shown[0]), (options, "*"))
    live = game.record(delay="")
    until_line(live, REST)
    until_line(live, WAITS)
    same(game.shown, ["*", "*"])
    last_shown(game, live, 910)
    same(game.shown, [WON] * 2)


def game_of_a_series(folder: pathlib.Path) -> None:
    """A game of a delayed series that is recorded by itself is as late as the series; --delay 0 shows it at once."""
    game = Game(folder)
    game.name = folder / "blitz"
    live = game.record("--series")
    begun(live)
    for move in RUY:
        game.board.play(move)
    until_game(folder / "blitz-1", RUY_TEXT)
    kill(live)
    game.name = folder / "blitz-1"
    live = game.record(delay="")
    until_line(live, "15 minutes late as before; --delay 0 ends that")
    game.until_kept(RUY_TEXT)
    game.until_shown("*")
    kill(live)
    live = game.record(delay="--delay 0")
    game.until_shown(RUY_TEXT)
    same(stop(live), 0)


def refused_with_a_delay(folder: pathlib.Path) -> None:
    """A call that is refused leaves the delay, and what it hides, as they were; also a call for a game that is over."""
    game = Game(folder)
    live = game.record()
    game.play(live)
    kill(live)
    files = [pathlib.Path(f"{game.name}.{ending}") for ending in ("delay", "began")]
    before = [bytes_of(path) for path in files]
    same(before[0], b"15\n")
    for delay in ("--delay 5", "--delay 0"):
        refuses(game.record("--fen", "4k3/8/8/8/8/8/4P3/4K3 w - - 0 1", delay=delay), 1, "was begun without options: give none to go on")
        same([bytes_of(path) for path in files], before)
    live = game.record(delay="--delay 0")
    game.until_shown(RUY_TEXT)
    same((stop(live), files[0].exists()), (0, False))
    same(ended(Live("", game.name, "--add", "1-0")), 0)
    refuses(game.record(delay="--delay 5"), 1, "is over: choose another name")
    same(files[0].exists(), False)
