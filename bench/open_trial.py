#!/usr/bin/env python3
"""Plays an open of 40 boards over two rounds, half of them behind a serial server (ser2net). The hall's screen is an output that isn't
late; the internet is fifteen minutes late.

In each round the table is changed while it is played: colours are exchanged, a player withdraws, one hasn't come, and somebody types
another forfeit and a result. The spectators' page is in a frame of another site, which reads it too, in Chromium; both outputs have a
static site, served by `python3 -m http.server`; the arbiter's page has all at once. Names are compared with the table of the round as it
is on the disk, in round.pgn by hand with their spelling in ASCII. A witness reads the late files all the time: no ply and no result may
be there before its time. The clock of dgt_round is the trial's.

Prints what it saw; the status is 1 where something is missing.  open_trial.py [--boards N] [--rounds N]
"""

from __future__ import annotations

import argparse
import csv
import json
import pathlib
import re
import subprocess
import sys
import tempfile
import time
from typing import Callable, Dict, List, Tuple

sys.dont_write_bytecode = True
TOP = pathlib.Path(__file__).resolve().parents[1]
sys.path[:0] = [str(TOP), str(TOP / "tests"), str(TOP / "tools")]
import outside  # noqa: E402
from paged.devtools import Shared, Tab  # noqa: E402
from play_board import INITIAL  # noqa: E402
from played.boards import Board  # noqa: E402
from played.ports import free_port  # noqa: E402
from played.recorder import Live  # noqa: E402
from played.stage import Stage, a_board, bytes_of, ended, until  # noqa: E402
from rounds.going_out import Clock  # noqa: E402
from rounds.hall import ROUND, games_of, moves, text  # noqa: E402
from rounds.witness import FORFEIT, Witness, parts_of, served, texts_of  # noqa: E402

DELAY = 900.0
PLIES, FIRST_OUT = 6, 3  # of each game, and how many of them are out in the middle of the delay
APART = 60.0  # seconds between two plies
LIMIT = 590.0  # seconds that the trial may take
ASCII = {  # each name, and its spelling in ASCII, if it has one
    "Иванов, Пётр": "", "王浩然": "", "Świercz, Zofia": "Swiercz, Zofia", "Jörg Müller": "Joerg Mueller",
    "O'Neill, Ann": "O'Neill, Ann", "Γεωργίου, Νίκος": "", "Dvořák, Jan": "Dvorak, Jan", "Nguyễn, Lan": "Nguyen, Lan",
}  # fmt: skip
NAMES = list(ASCII)
FRAME = "<!DOCTYPE html><title>Federation</title><h1>Federation</h1><iframe src='http://127.0.0.1:{port}/' width='900' height='700'></iframe>"
CARDS = """JSON.stringify([...document.querySelectorAll('#boards .tile')].filter((tile) => tile.checkVisibility() && tile.getClientRects().length)
  .map((tile) => [tile.hash.slice(1), ...['.player.w', '.player.b', '.last', '.result'].map((part) => tile.querySelector(part).innerText)]))"""

Players = Dict[int, Tuple[str, str]]  # by board
Shown = Dict[int, Tuple[str, str, str, str]]  # by board: both names, the moves or the last of them, the result


def sans_of(board: int, plies: int) -> List[str]:
    """The first plies of the game on a board."""
    return [word for word in text(board - 1).split() if not word[0].isdigit() and word != "*"][:plies]


def numbered(board: int, plies: int) -> str:
    """The first plies with their numbers, as in a text."""
    return " ".join(san if at % 2 else f"{at // 2 + 1}. {san}" for at, san in enumerate(sans_of(board, plies)))


def last_of(board: int, plies: int) -> str:
    """The last of them, as a page has it."""
    sans = sans_of(board, plies)
    return f"{(plies + 1) // 2}.{'' if plies % 2 else '..'} {sans[-1]}" if sans else ""


def recorded(name: str, side: str, board: int) -> str:
    """A name of the table in round.pgn: the number of its player is behind it."""
    front, _, number = name.rpartition(" ")
    return f"{ASCII[front]} {number}" if ASCII[front] else f"{side} {board}"


def in_pgn(content: bytes, boards: List[int]) -> Shown:
    """What a text has: the games are in the order of the boards."""
    found: Shown = {}
    for board, game, movetext in zip(boards, games_of(content), texts_of(content)):
        tags = dict(re.findall(r'^\[(\w+) "(.*)"\]$', game.decode(), re.MULTILINE))
        sans, result = parts_of(movetext)
        found[board] = tags["White"], tags["Black"], sans, result.replace(FORFEIT, "")
    return found if len(games_of(content)) == len(boards) else {}


def in_json(content: bytes) -> Shown:
    """What a page or a site has."""
    return {
        board["number"]: (board["white"], board["black"], " ".join(ply["san"] for ply in board["moves"]), board.get("forfeit") or board["result"])
        for board in (json.loads(content)["boards"] if content else [])
    }


class Trial:
    """The open, in a folder."""

    def __init__(self, folder: pathlib.Path, count: int) -> None:
        self.folder, self.count, self.wrong, self.begun = folder, count, 0, time.monotonic()
        self.cup, self.site, self.screen, self.federation = (folder / name for name in ("cup", "site", "screen", "federation"))
        for place in (self.cup, self.site, self.screen, self.federation):
            place.mkdir()
        self.page, self.arbiter, self.port, self.screen_port, self.own = (free_port() for _ in range(5))
        self.boards: List[Board] = [a_board(folder, device=folder / f"board{number}", seed=number) for number in range(1, count + 1)]
        self.lines = {number: free_port() for number in range(1, count // 2 + 1)}
        self.clock, self.ahead = Clock(folder), 0.0
        served_folders = ((self.site, self.port), (self.screen, self.screen_port), (self.federation, self.own))
        self.helpers = [*(self._server(place, port) for place, port in served_folders), self._ser2net()]
        (self.federation / "index.html").write_text(FRAME.format(port=self.page))
        devices = [f"tcp://127.0.0.1:{self.lines[n]}" if n in self.lines else f"{folder}/board{n}" for n in range(1, count + 1)]
        (self.cup / "boards.csv").write_text("board;device\n" + "".join(f"{n};{device}\n" for n, device in enumerate(devices, 1)))
        settings = ["event = Open", "time control = 40/90+30:30+30", f"page = {self.page}", f"arbiter page = {self.arbiter}",
                    f"embed = http://localhost:{self.own}", "delay = 15", f"web = {self.site}",
                    f"output hall = 0, web {self.screen}"]  # fmt: skip
        (self.cup / "tournament.txt").write_text("\n".join(settings) + "\n")

    def _server(self, folder: pathlib.Path, port: int) -> "subprocess.Popen[bytes]":
        words = [sys.executable, "-m", "http.server", "--bind", "127.0.0.1", "-d", str(folder), str(port)]
        return subprocess.Popen(words, stdout=subprocess.DEVNULL, stderr=subprocess.DEVNULL)

    def _ser2net(self) -> "subprocess.Popen[bytes]":
        lines = [f"connection: &b{n}\n  accepter: tcp,127.0.0.1,{port}\n  connector: serialdev,{self.folder}/board{n},9600n81,local\n"
                 "  options:\n    kickolduser: true\n" for n, port in self.lines.items()]  # fmt: skip
        (self.folder / "ser2net.yaml").write_text("".join(lines))
        words = [str(outside.path_of("ser2net")), "-n", "-c", str(self.folder / "ser2net.yaml")]
        return subprocess.Popen(words, stdout=subprocess.DEVNULL, stderr=subprocess.DEVNULL)

    def check(self, what: str, holds: bool) -> None:
        self.wrong += not holds
        print(f"  {time.monotonic() - self.begun:4.0f} s  {'yes' if holds else 'NO '}  {what}", flush=True)

    def now(self) -> float:
        return time.monotonic() + self.ahead

    def later(self, seconds: float) -> None:
        self.ahead += seconds
        self.clock.be(self.ahead)

    def until_at(self, moment: float) -> None:
        """The recorder's clock goes on to there."""
        self.later(max(0.0, moment - self.now()))

    def table(self, of: int, players: Players) -> None:
        rows = [f"{n};{white};{black};{'+:-' if n == self.count - 1 else ''}" for n, (white, black) in players.items()]
        (self.cup / f"round{of}.csv").write_text("Bo.;White;Black;Result\n" + "\n".join(rows) + "\n", encoding="utf-8")

    def written(self, of: int) -> Players:
        """The names in the table on the disk, as another program reads it."""
        with open(self.cup / f"round{of}.csv", encoding="utf-8", newline="") as file:
            return {int(row["Bo."]): (row["White"], row["Black"]) for row in csv.DictReader(file, delimiter=";")}

    def frame(self, tab: Tab) -> Tab:
        """The page in the frame, which the browser keeps in a process of its own."""
        assert Shared.browser
        port = Shared.browser.port
        found: List[str] = []

        def is_there() -> bool:
            targets = json.loads(served(port, "/json/list"))
            found[:] = [one["webSocketDebuggerUrl"] for one in targets if one["type"] == "iframe" and one["url"] == f"http://127.0.0.1:{self.page}/"]
            return len(found) == 1

        until(is_there, "the page in a frame", 0.1)
        tab.call("Page.bringToFront")
        return Tab(found[0])

    def cards(self, tab: Tab) -> Shown:
        """The boards that a page shows."""
        shown = tab.value(CARDS)
        return {int(number): (white, black, last, result) for number, white, black, last, result in json.loads(str(shown or "[]"))}

    def round(self, of: int) -> None:
        print(f"round {of}", flush=True)
        count = self.count
        self.table(of, {n: (f"{NAMES[n % 8]} {n}", f"{NAMES[(n + of) % 8]} {n + 100}") for n in range(1, count + 1)})
        for board in self.boards:
            board.codes = list(INITIAL)
        late, games = self.site / f"round{of}", self.cup / f"round{of}"
        witness = Witness(self.now, DELAY, late / "round.pgn", games / "broadcast.pgn")
        witness.watch_state(late / "state.json")
        witness.plays("1-0 forfeit")
        witness.plays("0-1 forfeit")
        witness.begin()
        live = Live(self.cup, str(of), program=ROUND, typed=True, start=self.clock.start)
        plays = range(1, count - 2)
        until(lambda: all(f"{n:>3}  agrees" in live.lines() for n in plays), "that all boards agree", 0.02)
        self.check(f"{len(plays)} boards agree, {len(self.lines)} lines are behind the serial server", True)
        tab, screen = Shared.tab(), Shared.tab()
        tab.open(f"http://localhost:{self.own}/")
        frame = self.frame(tab)
        live.type(f"{count - 2} -+")
        played: List[Tuple[float, float]] = []  # when each ply was begun, and when the recorder had it of all boards
        for ply in range(1, PLIES + 1):
            begun = self.now()
            for n in plays:
                witness.plays(f"{numbered(n, ply)} *")
                self.boards[n - 1].play(moves(n - 1)[ply - 1])
            until(lambda: all(len(board[2].split()) == ply for n, board in in_json(served(self.arbiter, "/state.json")).items() if n in plays),
                  f"ply {ply} on the arbiter's page", 0.1)  # fmt: skip
            played.append((begun, self.now()))
            if ply == 2:
                players = self.written(of)
                players[3] = players[3][::-1]
                players.pop(count)
                self.table(of, players)
                live.type("r")
            self.later(APART)
        self.check(f"the arbiter's page has each of {PLIES} plies of {len(plays)} boards at once", True)
        players = self.written(of)
        assert len(players) == count - 1 and players[3][0].endswith(" 103"), players

        def wanted(plies: int, result: str = "*", *, last: bool = False, ascii_only: bool = False) -> Shown:
            """What is to be seen: the names of the table, so many plies, this result of board 1, and with the first ply the forfeits."""
            shown: Shown = {}
            for n, (white, black) in players.items():
                names = (recorded(white, "White", n), recorded(black, "Black", n)) if ascii_only else (white, black)
                isnt_played = n > count - 3
                forfeit = ("0-1" if n == count - 2 else "1-0") if isnt_played and plies else ""
                score = forfeit or (result if n == 1 else "*")
                said = score.replace("-", "–") + (" forfeit" if forfeit else "") if score != "*" else ""
                of_game = "" if isnt_played else last_of(n, plies) if last else " ".join(sans_of(n, plies))
                shown[n] = *names, of_game, said if last else score
            return shown

        def has(what: str, seen: Callable[[], Shown], expected: Shown) -> None:
            """It comes; if it doesn't within half a minute, says what is there instead."""
            ends = time.monotonic() + 30
            until(lambda: seen() == expected or time.monotonic() > ends, what, 0.1)
            there = seen()
            self.check(what, there == expected)
            if there != expected:
                differ = [(n, there.get(n), expected.get(n)) for n in sorted({*there, *expected}) if there.get(n) != expected.get(n)]
                print(f"        {len(differ)} differ, as {differ[0]}", flush=True)

        numbers = sorted(players)
        round_pgn: Callable[[], Shown] = lambda: in_pgn(bytes_of(games / "round.pgn"), numbers)
        hall_pgn: Callable[[], Shown] = lambda: in_pgn(bytes_of(games / "output-hall" / "broadcast.pgn"), numbers)
        late_pgn: Callable[[], Shown] = lambda: in_pgn(bytes_of(games / "broadcast.pgn"), numbers)
        witness.plays(f"{numbered(1, PLIES)} 1-0")
        live.type("1 1-0")

        def hall_has_all() -> None:
            has("hall: output-hall/broadcast.pgn has the table's names, all plies, the result", hall_pgn, wanted(PLIES, "1-0"))
            has("hall: its site has them too", lambda: in_json(served(self.screen_port, f"/round{of}/state.json")), wanted(PLIES, "1-0"))
            screen.call("Page.bringToFront")
            has("hall: its screen shows them, with the last moves", lambda: self.cards(screen), wanted(PLIES, "1-0", last=True))

        def internet_has(plies: int, result: str = "*") -> None:
            has(f"internet: broadcast.pgn has the table's names and {plies} plies", late_pgn, wanted(plies, result))
            has("internet: the static site too", lambda: in_json(served(self.port, f"/round{of}/state.json")), wanted(plies, result))
            has("internet: the spectators' page too", lambda: in_json(served(self.page, "/state.json")), wanted(plies, result))
            tab.call("Page.bringToFront")
            has("internet: the frame shows them, with the last moves", lambda: self.cards(frame), wanted(plies, result, last=True))

        screen.open(f"http://127.0.0.1:{self.screen_port}/round{of}/index.html")
        has("round.pgn has the table's names in ASCII, and all plies", round_pgn, wanted(PLIES, "1-0", ascii_only=True))
        hall_has_all()
        internet_has(0)
        fetched = f"fetch('http://127.0.0.1:{self.page}/state.json').then((a) => a.json()).then((r) => r.boards.length)"
        until(lambda: tab.value(fetched) == count - 1, "what the other site reads", 0.1)
        self.check("the other site's script reads the page", True)
        self.check(f"that was {played[0][0] + DELAY - self.now():.0f} s before the first ply is due", self.now() < played[0][0] + DELAY)
        self.until_at(played[FIRST_OUT - 1][1] + DELAY)
        internet_has(FIRST_OUT)
        self.check(f"that was {played[FIRST_OUT][0] + DELAY - self.now():.0f} s before the next ply is due", self.now() < played[FIRST_OUT][0] + DELAY)
        self.later(DELAY)
        internet_has(PLIES, "1-0")
        hall_has_all()
        frame.line.close()
        screen.close()
        tab.close()
        live.type("q")
        live.type("q")
        self.check("it ends in order", ended(live) == 0)
        with open(games / "results.csv", encoding="utf-8-sig", newline="") as file:
            rows = {int(row["Board"]): (row["White"], row["Black"], row["Result"], row["Note"]) for row in csv.DictReader(file, delimiter=";")}
        scores = {1: ("1-0", ""), count - 2: ("0-1", "forfeit"), count - 1: ("1-0", "forfeit")}
        self.check("results.csv has the table's names, the result and the forfeits",
                   rows == {n: (*names, *scores.get(n, ("", ""))) for n, names in players.items()})  # fmt: skip
        try:
            witness.end()
            early = ""
        except AssertionError as error:
            early = str(error)
        self.check(f"nothing was early{early and ': ' + early}", not early)

    def end(self) -> None:
        for helper in self.helpers:
            helper.kill()
            helper.wait()
        for board in self.boards:
            board.end()
        Shared.end()


def main() -> int:
    parser = argparse.ArgumentParser()
    parser.add_argument("--boards", type=int, default=40)
    parser.add_argument("--rounds", type=int, default=2)
    given = parser.parse_args()
    Stage.ends = time.monotonic() + LIMIT
    with tempfile.TemporaryDirectory(prefix="open.") as folder:
        room = pathlib.Path(folder) / "room"
        room.mkdir()
        Live.scratch_folder = room
        trial = Trial(pathlib.Path(folder), max(8, given.boards))
        try:
            for of in range(1, given.rounds + 1):
                trial.round(of)
            for name, port in (("internet", trial.port), ("hall", trial.screen_port)):
                listed = served(port, "/index.html").decode()
                trial.check(f"{name}: the list has each round", all(f"Round {of}<" in listed for of in range(1, given.rounds + 1)))
        finally:
            for live in Live.all:
                live.end()
            trial.end()
    print("all as it should be" if not trial.wrong else f"{trial.wrong} things are wrong")
    return int(bool(trial.wrong))


if __name__ == "__main__":
    sys.exit(main())
