"""Games that the board's pictures alone would have wrong, and nobody would know: plies that are taken back by agreement, analysis beside
a running clock, a clock that is read the wrong way. Each is marked, and honest play beside it isn't."""

import pathlib
from typing import List, Optional

from played import words
from played.boards import Board
from played.recorder import Live
from played.stage import a_board, begun, bytes_of, ended, movetext, rest, same, stop, until, until_dumped, until_game, until_line

UNHURRIED = 2.0  # seconds a ply
PAUSE = 2.5  # seconds until players take plies back
KNIGHTS = ["e2e4", "e7e5", "g1f3", "b8c6"]
BACK = ["f3g1", "c6b8"]
SPANISH = ["e2e4", "e7e5", "g1f3", "b8c6", "f1b5", "a7a6", "b5a4", "g8f6"]
SHUFFLED = "1. e4 e5 2. Nf3 Nc6 3. Ng1 Nb8 *"
TAKEN_BACK = "LOOK at 3... Nb8: both players went straight back"
TIME = 600  # seconds


class Clocked:
    """A board with a clock, whose players press it after each ply, or forget it."""

    def __init__(self, folder: pathlib.Path, has_clock: bool = True, *options: str) -> None:
        self.board: Board = a_board(folder)
        self.live = Live(self.board.device, folder / "game", *options, typed=True)
        begun(self.live)
        self._has_clock, self._lever, self._times = has_clock, False, [TIME, TIME]
        self._runs = 0  # whose time runs: White's
        self._shown(0)

    def _shown(self, passes: int, side: int = 0) -> None:
        self._times[side] -= passes
        if self._has_clock:
            white, black = self._times
            self.board.clock(white, black, runs=True, lever=self._lever)

    def play(self, moves: List[str], presses: bool = True, pace: Optional[float] = UNHURRIED, counts: int = 0) -> None:
        """Both sides by turns. After a press the other side's time goes down; with `counts` 1 the sides are exchanged."""
        for move in moves:
            if pace:
                self.waits(pace, counts)
            self.board.play(move)
            if presses:
                self._lever, self._runs = not self._lever, 1 - self._runs
                self._shown(0)
        until_dumped(self.board, self.live.name)

    def stops(self) -> None:
        """Somebody stops the clock."""
        white, black = self._times
        self.board.clock(white, black, runs=False, lever=self._lever)
        until_dumped(self.board, self.live.name)

    def waits(self, seconds: float, counts: int = 0) -> None:
        """Time passes, and the clock says so."""
        rest(seconds)
        self._shown(int(seconds), (self._runs + counts) % 2)


def taken_back_by_agreement(folder: pathlib.Path) -> None:
    """White's knight goes back and at once Black's, and nobody presses the clock: the game has two plies more on each side, and the
    arbiter is told. He takes them off."""
    game = Clocked(folder)
    game.play(KNIGHTS)
    rest(PAUSE)
    game.play(BACK, presses=False, pace=None)
    game.waits(1.0)
    until_line(game.live, TAKEN_BACK)
    game.live.type("back 1... e5")
    until_line(game.live, "type it again")
    game.live.type("back 1... e5")
    until_line(game.live, "Settled: LOOK at 3... Nb8")
    same(movetext(game.live.name).split(" {")[0], "1. e4")
    same(stop(game.live), 0)


def gone_back_in_play(folder: pathlib.Path) -> None:
    """The same plies as moves: each is thought about, and the clock is pressed. Nobody need look."""
    game = Clocked(folder)
    game.play([*KNIGHTS, *BACK])
    assert "LOOK" not in game.live.lines(), game.live.lines()
    same(stop(game.live), 0)


def taken_back_without_a_clock(folder: pathlib.Path) -> None:
    """Without a clock only slow players are doubted: they need six seconds for most of their plies."""
    game = Clocked(folder, has_clock=False)
    game.play(KNIGHTS, pace=6.5)
    rest(UNHURRIED)
    game.play(BACK, pace=None)
    until_line(game.live, TAKEN_BACK)
    until_game(game.live.name, SHUFFLED)
    same(stop(game.live), 0)


def analysed_beside_the_clock(folder: pathlib.Path) -> None:
    """Six plies without a press, while the clock runs: the game may be over."""
    game = Clocked(folder)
    game.play(SPANISH[:2])
    game.play(SPANISH[2:], presses=False, pace=1.5)
    until_line(game.live, "LOOK at 4... Nf6: six moves were made and nobody pressed the clock")
    same(stop(game.live), 0)


def clock_the_wrong_way(folder: pathlib.Path) -> None:
    """While White thinks Black's time goes down: the clock's sides are exchanged, which a hint says by the eighth ply. Read rightly,
    there is none."""
    (folder / "right").mkdir()
    wrong, right = Clocked(folder), Clocked(folder / "right")
    for one, game in ((1, wrong), (0, right)):
        game.play(SPANISH, counts=one)
    until_line(wrong.live, "players think while the other side's time runs: the clock may lie the other way round")
    assert "LOOK" not in right.live.lines(), right.live.lines()
    for game in (wrong, right):
        same(stop(game.live), 0)


def hidden_before_the_first_move(folder: pathlib.Path) -> None:
    """The cable is out for seven seconds before the first move, and the board shows the start as before. While the clock runs, plies may
    have led back to it; before that the pieces were only set up."""
    for name, runs in (("runs", True), ("stands", False)):
        (folder / name).mkdir()
        board = a_board(folder / name)
        live = Live(board.device, folder / name / "game", typed=True)
        begun(live)
        board.clock(TIME, TIME, runs=runs)
        until_dumped(board, live.name)
        board.pull()
        until_line(live, words.UNPLUGGED)
        rest(7)
        board.plug()
        until(lambda: board.asked_for_updates, "a request for updates")
        until_dumped(board, live.name)
        if runs:
            until_line(live, "LOOK after the start: the board wasn't heard for a time, so moves may be missing: compare with the score sheets")
        else:
            assert "LOOK" not in live.lines(), live.lines()
        same(stop(live), 0)


def pushed_before_the_result(folder: pathlib.Path) -> None:
    """White resigns, the clock is stopped, and somebody pushes a bishop. The answer to the result names that move, until somebody has
    looked."""
    game = Clocked(folder)
    game.play(KNIGHTS)
    game.stops()
    game.board.play("f1b5")
    until_dumped(game.board, game.live.name)
    game.live.type("0-1")
    until_line(game.live, "LOOK since 2... Nc6: perhaps nobody played the last move before the result")
    until_line(game.live, "back 2... Nc6; then the result again")
    game.live.type("ok")
    until_line(game.live, "acknowledged: LOOK since 2... Nc6")
    same(ended(game.live), 0)


def ended_by_a_resignation(folder: pathlib.Path) -> None:
    """White resigns before Black has pressed the clock, and it is stopped: nothing is asked."""
    game = Clocked(folder)
    game.play(KNIGHTS[:3])
    game.play(KNIGHTS[3:], presses=False)
    game.stops()
    game.live.type("0-1")
    until_line(game.live, "result 0-1")
    same(ended(game.live), 0)
    assert "LOOK" not in game.live.lines(), game.live.lines()


def ended_unseen(folder: pathlib.Path) -> None:
    """The kings are set in the centre, and the cable is pulled: nobody sees whether the game goes on. It is over a little later, and
    somebody must look."""
    game = Clocked(folder, has_clock=False)
    game.play(KNIGHTS, pace=None)
    game.board.kings_in_centre("e4", "d5")
    until_line(game.live, "result 1-0")
    game.board.pull()
    until_line(game.live, words.UNPLUGGED)
    until_line(game.live, "LOOK after 2... Nc6: the board wasn't heard for 17 seconds after its result")
    until_line(game.live, "if the game isn't over, type *")
    same(ended(game.live), 0)
    until_game(game.live.name, "1. e4 e5 2. Nf3 Nc6 1-0")
    same(bytes_of(game.live.name + ".look").decode().split("\t")[0], "after 2... Nc6")


def doubtful_to_the_end(folder: pathlib.Path) -> None:
    """The cable is out for seven seconds behind the last move, so moves may be missing. Then the pieces are set up, which ends the game: the
    moves may be missing all the same, and somebody must still look."""
    game = Clocked(folder, has_clock=False)
    game.play(KNIGHTS, pace=None)
    game.board.pull()
    until_line(game.live, words.UNPLUGGED)
    rest(7)
    game.board.plug()
    until_line(game.live, "LOOK after 2... Nc6: the board wasn't heard for a time")
    rest(1.5)
    game.board.set_up([])
    until_line(game.live, "game is over: the pieces are at the start again")
    same(ended(game.live), 0)
    until_game(game.live.name, "1. e4 e5 2. Nf3 Nc6 *")
    until_line(game.live, f"in {game.live.name}.pgn: LOOK after 2... Nc6: the board wasn't heard")
    same(bytes_of(game.live.name + ".look").decode().split("\t")[0], "after 2... Nc6")


CASES = [
    pushed_before_the_result,
    ended_by_a_resignation,
    ended_unseen,
    doubtful_to_the_end,
    hidden_before_the_first_move,
    taken_back_by_agreement,
    gone_back_in_play,
    taken_back_without_a_clock,
    analysed_beside_the_clock,
    clock_the_wrong_way,
]
