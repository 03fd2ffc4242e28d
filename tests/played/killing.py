"""Games in which one process after the other is killed, at random moments: after each the game must have every ply that was
played, and none besides; and the recorder must say the same text, alarms and state as one that was told the same and never killed."""

import collections
import pathlib
import random
import termios
import time
from typing import Counter, List, Optional

from live.board.state import Kind
from live.game.files import Paths
from live.game.game import kept_options
from live.game.looks import Looks
from live.game.options import Options
from play_board import EMPTY, PROMOTED, field
from played import unkilled, words
from played.boards import Board
from played.games import PARIS, PARIS_TEXT
from played.recorder import Live, signal_to
from played.stage import (
    Stage,
    a_board,
    begin_game,
    begun,
    bytes_of,
    check,
    ended,
    go_on,
    kill,
    movetext,
    rest,
    same,
    stop,
    until,
    until_dumped,
    until_line,
)

# Who is killed: the main process, one that it started, the one that gives a text just then, or all at once.
VICTIMS = ("main", "child", "text", "all")
# When: before a move, between its two updates, within the frame of the last one, or up to 60 ms after it.
MOMENTS = ("before", "within", "in a frame", "after")
SANS = [word for word in PARIS_TEXT.split() if not word[0].isdigit()]
OK = 0.15  # of the plies, behind which somebody has looked
ALIKE = 30.0  # seconds in which all that was heard is kept, and said
PULLED, GAP = 0.15, 1.2  # of the plies, before which the cable is out, and for how many seconds: a ply may have been made meanwhile
STATES = ("LOOK ", *(kind.value for kind in Kind))
RUNS = 600  # seconds that both clocks show while one of them runs
MUCH_SOONER = 0.8  # of the time after which it is WRONG
LAST = len(PARIS) - 1  # the mate isn't played


def game_text(plies: int) -> str:
    """The movetext of so many plies."""
    parts: List[str] = []
    for ply, san in enumerate(SANS[:plies]):
        parts += [f"{ply // 2 + 1}{'.' if ply % 2 == 0 else '...'}", san, "{[%clk 0:10:00]}"]
    return " ".join([*parts, "*"])


def last_state(live: Live) -> str:
    """The last line that says how the board stands."""
    lines = [line.partition("  ")[2] for line in live.lines().splitlines()]
    return next((line for line in reversed(lines) if line.startswith(STATES) and "Look at it" not in line), "")


def pull(board: Board, live: Live) -> None:
    """The cable is out for a moment."""
    board.pull()
    until(lambda: last_state(live).startswith(words.UNPLUGGED), "that its board is unplugged")
    rest(GAP)
    board.plug()
    until(lambda: board.asked_for_updates and not last_state(live).startswith(words.UNPLUGGED), "that its board is there again")
    until_dumped(board, live.name)


def press(board: Board, live: Live) -> None:
    """The clock is pressed, and nobody presses it for the next plies."""
    for lever in (False, True):
        board.clock(RUNS, RUNS, runs=True, lever=lever)
    until_dumped(board, live.name)  # what was sent before is kept


def says_the_same(live: Live, is_cut: bool) -> None:
    """In its files and its last line: as one that was never killed, as soon as all that was heard is kept. If only a part of it was killed
    (`is_cut`), it may have more alarms: the part that begins again takes that for a time in which the board wasn't heard."""
    options = (kept_options(Paths(live.name)) or Options()).of_live()
    seen: List[object] = []
    over = time.monotonic() + ALIKE

    def is_alike() -> bool:
        told = unkilled.said(bytes_of(live.name + ".dgt"), bytes_of(live.name + ".times"), options)
        looks = Looks.of_content(bytes_of(live.name + ".look"))
        has_all = set(told.looks.open) <= set(looks.open) if is_cut else told.looks == looks
        seen[:] = [looks, told.looks, last_state(live), told.state(looks), bytes_of(live.name + ".pgn"), told.text]
        return has_all and seen[2] == seen[3] and seen[4] == seen[5]

    def is_told() -> bool:
        alike = is_alike()
        assert alike or time.monotonic() < over, f"alarms, state and text, and those of a recorder that was never killed: {seen}"
        return alike

    until(is_told, "that it says the same as one that was never killed", 0.05)


class Killer:
    """Kills, and counts what it killed."""

    def __init__(self, folder: pathlib.Path, seed: int) -> None:
        self.folder = folder
        self.random = random.Random(seed)
        self.killed: Counter[str] = collections.Counter()
        self.games = 0
        self.restarts = 0
        self.alarms = 0  # that were open behind the plies
        self.is_cut = False  # whether only a part was killed, since somebody has looked last

    def victims(self, live: Live, kind: str) -> List[int]:
        """The processes of this kind that run now."""
        if kind == "all":
            return [live.process.pid, *live.children()]
        if kind == "main":
            return [live.process.pid]
        children = live.children()
        return [self.random.choice(children)] if children else []

    def kill(self, live: Live, kind: str, moment: str) -> None:
        victims = self.victims(live, kind)
        for victim in victims:
            signal_to(victim)
        if victims:
            live.was_killed = True
            self.is_cut = self.is_cut or kind in ("child", "text")
            self.killed[f"{kind}, {moment}"] += 1

    def play(self, board: Board, live: Live, move: str, kind: str, moment: str) -> None:
        """Plays one move, and kills at this moment of it."""
        if moment == "before":
            rest(self.random.random() * 0.05)
            self.kill(live, kind, moment)
            board.play(move)
            return
        if moment == "within":
            board.lift(move[:2])
            rest(self.random.random() * 0.02)
            self.kill(live, kind, moment)
            board.codes[field(move[:2])] = self.code
            board.play(move)
            return
        simple = board.codes[field(move[2:])] == EMPTY and move not in ("e1c1",)
        if moment == "in a frame" and simple:
            board.lift(move[:2])
            board.codes[field(move[2:])] = self.code
            whole = board.update(field(move[2:]))
            cut = self.random.randrange(1, len(whole))
            board.send(whole[:cut])
            rest(self.random.random() * 0.02)
            self.kill(live, kind, moment)
            if self.random.random() < 0.5:
                board.send(whole[cut:])
            return
        board.play(move)
        rest(self.random.random() * (0.01 if kind == "text" else 0.06))
        self.kill(live, kind, "after")

    def trial(self, board: Board, live: Live, ply: int) -> Live:
        """One ply with a kill. It answers the recorder that runs then, perhaps another one."""
        kind = self.random.choice(VICTIMS)
        moment = "after" if kind == "text" else self.random.choice(MOMENTS)
        self.code = board.codes[field(PARIS[ply][:2])]
        self.play(board, live, PARIS[ply], kind, moment)
        wanted = game_text(ply + 1)
        until(lambda: movetext(live.name) == wanted or not live.runs, f"{wanted}, {kind} killed {moment} ply {ply + 1}")
        if kind in ("main", "all"):
            # It may have been told before it ended.
            until(lambda: not live.runs, "the end of what was killed")
        if not live.runs:
            assert kind in ("main", "all") or live.complaint(), f"{kind} killed {moment} a move: it ends without a word"
            ended(live)
            if self.random.random() < 0.5:
                termios.tcflush(board.slave, termios.TCIFLUSH)
            live = go_on(board, live, typed=True)
            self.restarts += 1
        until(
            lambda: movetext(live.name) == wanted,
            f"{wanted}\nwhere {kind} was killed {moment} ply {ply + 1}; there is\n{movetext(live.name)}\nand is said\n{live.lines()}",
        )
        return live

    def game(self, kills: int) -> None:
        """A game with so many kills at most, one a ply, and at its end the bytes are those of its text."""
        self.games += 1
        self.is_cut = False
        place = self.folder / f"game{self.games}"
        place.mkdir()
        board = a_board(place, seed=self.random.randrange(1 << 30))
        live = Live(board.device, place / "game", typed=True)
        begun(live)
        press(board, live)
        for ply in range(LAST):
            if sum(self.killed.values()) >= kills:
                break
            if self.random.random() < PULLED:
                pull(board, live)
            live = self.trial(board, live, ply)
            says_the_same(live, self.is_cut)
            self.alarms += bytes_of(live.name + ".look").count(b"\n")
            if self.random.random() < OK:
                live.type("ok")
                until(lambda: not bytes_of(live.name + ".look"), "that somebody has looked")
                self.is_cut = False
                press(board, live)
        plies = check(bytes_of(live.name + ".pgn"))
        same(stop(live), 0)
        same(check(bytes_of(live.name + ".pgn")), plies)
        for recorder in Live.all:
            recorder.end()
        Live.all.clear()
        board.end()
        Stage.boards.remove(board)


def kill_in_games(folder: pathlib.Path, seed: int, kills: int, killer: Optional[Killer] = None) -> Killer:
    killer = killer or Killer(folder, seed)
    while sum(killer.killed.values()) < kills:
        killer.game(kills)
    return killer


def tell(killer: Killer) -> None:
    counts = ", ".join(f"{kind} {count}" for kind, count in sorted(killer.killed.items()))
    print(f"   {counts}; started again {killer.restarts} times; {killer.alarms} alarms", flush=True)


def kills_1(folder: pathlib.Path) -> None:
    """13 kills at random moments of a game: no ply is lost, and none is added."""
    tell(kill_in_games(folder, 1, 13))


def kills_2(folder: pathlib.Path) -> None:
    """13 kills, other moments."""
    tell(kill_in_games(folder, 2, 13))


def kills_3(folder: pathlib.Path) -> None:
    """12 kills, other moments."""
    tell(kill_in_games(folder, 3, 12))


def kills_4(folder: pathlib.Path) -> None:
    """12 kills, other moments."""
    tell(kill_in_games(folder, 4, 12))


def killed_with_a_large_capture(folder: pathlib.Path) -> None:
    """A board has sent 6 MiB, and stands wrong. After a kill it has stood so since then, not since the kill."""
    board, live = begin_game(folder)
    until_dumped(board, live.name)
    same(stop(live), 0)
    path, size = pathlib.Path(live.name), len(bytes_of(f"{live.name}.dgt"))
    again = b"".join(bytes_of(f"{live.name}.dgt")[-67:] for _ in range(6 * 2**20 // 67))
    for name, more in (("dgt", again), ("times", b"86400000 heard %d\n" % len(again))):
        with open(path.with_suffix(f".{name}"), "ab") as file:
            file.write(more)
    live = go_on(board, live)
    board.lift("g1")
    board.put("g5", PROMOTED["n"])
    began = time.monotonic()
    until_line(live, words.WRONG)
    lasted = time.monotonic() - began
    kill(live)
    live = go_on(board, live)
    began = time.monotonic()
    until_line(live, words.WRONG)
    assert time.monotonic() - began < MUCH_SOONER * lasted, "it counts from the kill"
    same(movetext(live.name), "1. e4 e5 *")
    same(stop(live), 0)
    assert len(bytes_of(f"{live.name}.dgt")) > size + len(again)
