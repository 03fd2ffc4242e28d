"""A static site: what goes out of a round, in files that any web host serves."""

import contextlib
import functools
import http.server
import json
import pathlib
import re
import shutil
import sys
import threading
import time
from typing import Dict, Iterator, List, Tuple

import outside
from play_board import INITIAL
from paged.devtools import Shared, Tab
from paged.legible import faults
from played.ports import free_port
from played.recorder import Live
from played.stage import Skipped, bytes_of, kill, refuses, rest, same, stop, until, until_line
from rounds.delayed import DELAY, Delayed
from rounds.going_out import Clock
from rounds.hall import Hall, games_of, quits
from rounds.witness import served as asked
from rounds.witness import texts_of

from live.show.site import list_page, page_files


def state_of(folder: pathlib.Path) -> "dict[str, object]":
    """A round's JSON, which is whole whenever it is read."""
    content = bytes_of(folder / "state.json")
    state: "dict[str, object]" = json.loads(content) if content else {}
    return state


def rows_of(page: bytes) -> List[List[str]]:
    """The tables of the list."""
    rows = re.findall(r"<tr[^>]*>(.*?)</tr>", page.decode(), re.S)
    return [[re.sub(r"<[^>]*>", "", cell) for cell in re.findall(r"<t[hd][^>]*>(.*?)</t[hd]>", row, re.S)] for row in rows]


# Kills the recorder as it is about to put the file that another one names in its place.
KILLS = """
import os, signal
real = os.replace
def replace(new, path):
    with open({at!r}) as file:
        if str(path) == file.read():
            os.kill(os.getpid(), signal.SIGKILL)
    real(new, path)
os.replace = replace
"""

# No file of a folder has room for more than twenty bytes, as long as another file is there.
FULL = """
import errno, os
real = os.write
def write(number, content):
    if not (os.path.exists({full!r}) and os.readlink(f"/proc/self/fd/{{number}}").startswith({www!r})):
        return real(number, content)
    real(number, content[:20])
    raise OSError(errno.ENOSPC, os.strerror(errno.ENOSPC))
os.write = write
"""


STAMP = rb'^\{"written":[0-9.]+,"ended":(true|false),'
LIST = "../index.html"  # as a round's page names it, which it names too


def files_of(www: pathlib.Path) -> Dict[str, bytes]:
    """All files of a site, without the times of their writing."""
    return {str(path.relative_to(www)): re.sub(STAMP, b"{", bytes_of(path)) for path in www.rglob("*") if path.is_file()}


def is_whole(www: pathlib.Path) -> None:
    """Each file of a site is whole, and what it names is there."""
    for path in www.rglob("*"):
        content = bytes_of(path) if path.is_file() else b""
        named: List[str] = []
        if path.suffix == ".pgn":
            assert all(game.startswith(b"[Event ") and game.endswith(b"*\n\n") for game in games_of(content)), content
        elif path.name == "state.json":
            named = [board["pgn"] for board in json.loads(content)["boards"]]
        elif path.suffix == ".html":
            assert content.endswith(b"</html>\n"), content
            named = [name for name in re.findall('(?:href|src)="([^"#:]+)', content.decode()) if name != LIST]
        for name in named:
            assert (path.parent / name).is_file(), f"{path} names {name}, which isn't there"


class Quiet(http.server.SimpleHTTPRequestHandler):
    ahead = 0.0  # seconds by which its date is wrong

    def log_message(self, *_: object) -> None:
        """Says nothing."""

    def date_time_string(self, timestamp: "int | None" = None) -> str:
        return super().date_time_string(int(time.time() + self.ahead) if timestamp is None else timestamp)


@contextlib.contextmanager
def served(www: pathlib.Path) -> Iterator[Tuple[str, Tab]]:
    """The address of a plain web server of this site, and a tab."""
    if missing := outside.lacks("chromium"):
        raise Skipped(missing)
    server = http.server.ThreadingHTTPServer(("127.0.0.1", 0), functools.partial(Quiet, directory=str(www)))
    threading.Thread(target=server.serve_forever, daemon=True).start()
    try:
        yield f"http://127.0.0.1:{server.server_address[1]}/", Shared.tab()
    finally:
        Shared.end()
        server.shutdown()


def two_rounds(folder: pathlib.Path) -> None:
    """Two rounds of a site that a plain web server serves: the list has both with their results, each round has its page, its games
    and its JSON, names are text and no markup, and a browser shows the game that is played."""
    hall, www = Hall(folder, 2), folder / "www"
    hall.extra = {2: ",0-1 FF"}
    hall.write(header="board,device,white,black,result")
    hall.file.write_text(hall.file.read_text().replace("White 1", "<b>王浩</b>"), encoding="utf-8")
    live = hall.record("--web", str(www), "--round", "1", "--event", "Cup & Co", typed=True)
    until(lambda: bytes_of(www / "round1" / "round.pgn") != b"", "the first files", 0.05)
    hall.play(0, 2, [0])
    live.type("1 1-0")
    wanted = [["1", "&lt;b&gt;王浩&lt;/b&gt;", "1–0", "Black 1"], ["2", "White 2", "0–1 forfeit", "Black 2"]]
    until(lambda: rows_of(bytes_of(www / "index.html")) == wanted, "both results in the list", 0.05)
    same(texts_of(bytes_of(www / "round1" / "round.pgn")), ["1. e4 e5 1-0", "0-1 forfeit"])
    same(bytes_of(www / "round1" / "01.pgn") + bytes_of(www / "round1" / "02.pgn"), bytes_of(hall.games / "broadcast.pgn"))
    same(stop(live), 0)
    same(sorted(path.name for path in www.rglob("*") if path.suffix not in (".pgn", ".js", ".css", ".svg", ".html", ".json", "")), ["dgt_round.txt"])

    hall.games, hall.extra = folder / "games2", {1: ",Sportvereinigung Schachfreunde Frankfurt am Main,Süd", 2: ",Süd,Sportvereinigung Schachfreunde Frankfurt am Main"}
    hall.boards[0].codes = list(INITIAL)
    hall.write(header="board,device,white,black,WhiteTeam,BlackTeam")
    hall.file.write_text(hall.file.read_text().replace("Black 2", "Praggnanandhaa-Nepomniachtchi"))
    live = hall.record("--web", str(www), "--round", "2", "--event", "Cup & Co")
    until(lambda: len(rows_of(bytes_of(www / "index.html"))) == 5, "both rounds in the list, one of them a match", 0.05)
    with served(www) as (url, tab):
        tab.open(url)
        until(lambda: tab.value("document.querySelectorAll('h2 a').length") == 2, "two rounds", 0.05)
        same(tab.value("document.querySelectorAll('td b').length"), 0)
        for width in (320, 390, 1024):
            tab.look(width, 900)
            until(lambda: tab.value("innerWidth") == width and tab.value("document.documentElement.scrollWidth <= innerWidth"), f"all within {width} px", 0.05)
        same(tab.value("document.querySelector('meta[http-equiv=refresh]').content"), "60")
        same(faults(tab), {})
        tab.value("document.querySelectorAll('h2 a')[1].click()")
        until(lambda: tab.value("document.querySelectorAll('.tile').length") == 2, "two boards", 0.05)
        until(lambda: tab.value("document.getElementById('matches').innerText.replace(/\\s+/g, ' ').trim()")
              == "Sportvereinigung Schachfreunde Frankfurt am Main 0–0 Süd", "the match above them", 0.05)  # fmt: skip
        hall.play(0, 1, [0])
        until(lambda: tab.value("document.querySelector(\".tile[href='#1'] .last\").textContent") == "1. e4", "the move", 0.1)
        same(tab.value("document.getElementById('pgn').href"), f"{url}round2/round.pgn")
        same([asked for asked in tab.requests() if not asked.startswith(url)], [])
    same(stop(live), 0)


# Of each round's table: its left and right edges; and whether each score that is over is in one line.
TABLES_AT = "JSON.stringify([...document.querySelectorAll('table')].map((one) => [one.getBoundingClientRect().left, one.getBoundingClientRect().right]))"
SCORES = """[...document.querySelectorAll('td:nth-child(3)')].every((one) => {
  const text = document.createRange();
  text.selectNodeContents(one);
  return text.getClientRects().length < 2;
})"""


def list_of_rounds(folder: pathlib.Path) -> None:
    """The list with one round is in the middle of a wide window, and wide; with two they fill it; nothing is to the side, and no score is
    broken, in windows of three widths."""
    www = folder / "www"
    www.mkdir()
    for name, text in page_files().items():
        (www / name).write_bytes(text)
    boards = [{"number": number, "white": "Vachier-Lagrave, Maxime", "black": "O'Kelly de Galway, Albéric", "result": result}
              for number, result in enumerate(("1/2-1/2", "1-0", "*"), 1)]  # fmt: skip

    with served(www) as (address, tab):
        for count in (1, 2, 5):
            rounds = {f"round{number}": {"round": str(number), "boards": boards} for number in range(1, count + 1)}
            (www / "index.html").write_bytes(list_page("Club cup", rounds))
            for wide in (390, 1024, 1440):
                tab.look(wide, 900)
                tab.open(f"{address}?{count}-{wide}")
                tab.until("document.readyState + location.search", f"complete?{count}-{wide}")
                edges = json.loads(str(tab.value(TABLES_AT)))
                same((count, wide, tab.value("document.documentElement.scrollWidth <= innerWidth"), tab.value(SCORES)), (count, wide, True, True))
                if count == 1:
                    (left, right), *_ = edges
                    same((wide, abs(wide - right - left) < 2, right - left > min(900, wide - 30)), (wide, True, True))
                else:
                    same((count, wide, wide - max(right for _, right in edges) < 20), (count, wide, True))


def team_matches(folder: pathlib.Path) -> None:
    """Two matches of teams, one with a forfeit: the list, each page and its JSON have their scores, and each player his team and his
    federation, also the arbiter's. A game that goes on doesn't count; its result does."""
    hall, www, page, arbiter = Hall(folder, 4), folder / "www", free_port(), free_port()
    hall.extra = {1: ",Nord & Co,Süd,GER,SUI,,WIM,2345,,2010", 2: ",Süd,Nord & Co,,,0-1 FF,,,,", 3: ",Ost,West,,,,,,,", 4: ",West,Ost,,,,,,,"}
    hall.write(header="board,device,white,black,WhiteTeam,BlackTeam,WhiteFed,BlackFed,result,WhiteTitle,WhiteElo,BlackTitle,BlackElo")
    live = hall.record("--web", str(www), "--page", str(page), "--arbiter-page", str(arbiter), typed=True)
    hall.play(0, 2, [0])

    def lists(points: str, result: str) -> List[List[str]]:
        return [[f"Nord &amp; Co {points} Süd"], ["1", "White 1 GER, Nord &amp; Co", result, "Black 1 SUI, Süd"],
                ["2", "White 2 Süd", "0–1 forfeit", "Black 2 Nord &amp; Co"], ["Ost 0–0 West"], ["3", "White 3 Ost", "", "Black 3 West"],
                ["4", "White 4 West", "", "Black 4 Ost"]]  # fmt: skip

    until(lambda: rows_of(bytes_of(www / "index.html")) == lists("1–0", ""), "the forfeit in the list", 0.05)
    live.type("1 1/2-1/2")
    until(lambda: rows_of(bytes_of(www / "index.html")) == lists("1½–½", "½–½"), "both results in the list", 0.05)
    wanted = [{"teams": ["Nord & Co", "Süd"], "points": [1.5, 0.5], "boards": [1, 2]}, {"teams": ["Ost", "West"], "points": [0, 0], "boards": [3, 4]}]
    same(state_of(www / "round")["matches"], wanted)
    same(json.loads(asked(page, "/state.json"))["matches"], wanted)
    same([board["teams"] + board["federations"] for board in json.loads(asked(arbiter, "/state.json"))["boards"]],
         [["Nord & Co", "Süd", "GER", "SUI"], ["Süd", "Nord & Co", "", ""], ["Ost", "West", "", ""], ["West", "Ost", "", ""]])  # fmt: skip
    first, second = json.loads(asked(arbiter, "/state.json"))["boards"][:2]
    same(first["titles"] + first["ratings"] + second["titles"] + second["ratings"], ["WIM", "", "2345", "2010", "", "", "", ""])
    same(stop(live), 0)


LATER = "{ const now = performance.now.bind(performance); performance.now = () => now() + 60000; }"  # a minute, for a page
LINE = "document.getElementById('line').textContent"
CLOCKS = "[...document.querySelectorAll('.clock')].map((one) => one.textContent).join()"


def live_or_not(folder: pathlib.Path) -> None:
    """A round's page says Live as long as the round is recorded, also if nothing happens and if the page slept. After a kill it says
    since when nothing was heard, and clocks stand; so also for a reader who comes then. It says that a round has ended."""
    hall, www, clock = Hall(folder, 1, clocks=(0,)), folder / "www", Clock(folder)
    live = hall.record("--web", str(www), start=clock.start)
    hall.begun(live)
    hall.play(0, 2)
    until(lambda: texts_of(bytes_of(www / "round" / "round.pgn")) == ["1. e4 e5 *"] and (www / "index.html").exists(), "the site", 0.05)
    with served(www) as (url, tab):

        def until_says(text: str) -> None:
            until(lambda: str(tab.value(LINE)).startswith(text), f"that the page says {text}", 0.05)

        def until_asked() -> None:
            asked = len(tab.requests())
            until(lambda: tab.value("true") and len(tab.requests()) > asked, "that the page asks for news", 0.05)

        def clocks_stand() -> bool:
            stands = tab.value(CLOCKS)
            time.sleep(2.5)
            return tab.value(CLOCKS) == stands

        tab.open(f"{url}round/index.html")
        until_says("Live")
        before = state_of(www / "round")["written"]
        clock.be(40)
        until(lambda: state_of(www / "round")["written"] != before, "that the state is renewed", 0.05)
        tab.value(LATER + LATER)
        until_asked()
        until_says("Live")
        kill(live)
        state = www / "round" / "state.json"
        state.write_bytes(bytes_of(state).replace(b'"runs":"","at":null', b'"runs":"w","at":%d' % time.time()))
        until_asked()
        runs = tab.value(CLOCKS)
        until(lambda: tab.value(CLOCKS) != runs, "that a clock runs", 0.05)
        for _ in range(2):
            until_asked()
            tab.value(LATER)
        until_says("Nothing heard since ")
        until(clocks_stand, "that the clocks stand", 0.05)
        Quiet.ahead = 120.0
        try:
            tab.open(f"{url}round/index.html")
            until_says("Nothing heard since ")
        finally:
            Quiet.ahead = 0.0
        live = hall.record("--web", str(www), start=clock.start)
        until_says("Live")
        same(stop(live), 0)
        until_says("Ended")


def late_site(folder: pathlib.Path) -> None:
    """With a delay the site has nothing before its time: no ply, no result, no forfeit; neither while it is played nor after a restart."""
    round_, www = Delayed(folder), folder / "www"
    witness, place = round_.witness, folder / "www" / "round"
    witness.watch(place / "round.pgn", place / "01.pgn", place / "02.pgn")
    witness.watch_state(place / "state.json")
    witness.begin()
    live = round_.record("--delay", "15", "--web", str(www), typed=True)
    round_.hall.begun(live)
    round_.play(0, 2)
    witness.plays("1. e4 e5 1-0")
    live.type("1 1-0")
    until_line(live, "the result 1-0")
    until(lambda: texts_of(bytes_of(place / "round.pgn")) == ["*", "*"], "both games, unplayed", 0.05)
    until(lambda: [row[2] for row in rows_of(bytes_of(www / "index.html"))] == ["", ""], "the list without a result", 0.05)
    same(stop(live), 0)
    live = round_.record("--web", str(www), typed=True)
    until_line(live, "15 minutes late as before")
    round_.clock.be(DELAY + 60)
    until(lambda: texts_of(bytes_of(place / "round.pgn")) == ["1. e4 e5 1-0", "1. d4 d5 *"], "both games, after their time", 0.05)
    until(lambda: [row[2] for row in rows_of(bytes_of(www / "index.html"))] == ["1–0", ""], "the result in the list", 0.05)
    same(stop(live), 0)
    witness.end()


def killed_between(folder: pathlib.Path) -> None:
    """The recorder is killed between two files of the site, as it is begun and at a move: each file is whole and names none that is
    missing. The next call has all of it, and leaves nothing else."""
    hall, www, at = Hall(folder, 2), folder / "www", folder / "at"
    (folder / "sitecustomize.py").write_text(KILLS.format(at=str(at)))
    at.write_text("")

    def record() -> Live:
        return hall.record("--web", str(www), start=[sys.executable], environment={"PYTHONPATH": str(folder)})

    def until_killed(live: Live) -> None:
        until(lambda: not live.runs, "the end of the recorder")
        kill(live)
        is_whole(www)
        at.write_text("")

    live = record()
    hall.begun(live)
    hall.play(0, 1)
    until(lambda: texts_of(bytes_of(www / "round" / "round.pgn")) == ["1. e4 *", "1. d4 *"], "both moves", 0.05)
    same(stop(live), 0)
    wanted = files_of(www)
    is_whole(www)
    of_round = [f"round/{name}" for name in ("01.pgn", "02.pgn", "round.pgn", "state.json", "index.html")]
    for name in ("boards.js", "site.css", *of_round, "index.html"):
        shutil.rmtree(www)
        at.write_text(str(www / name))
        until_killed(record())
        same((www / name).exists(), False)
        live = record()
        until(lambda: files_of(www) == wanted, f"the site that lacked {name}", 0.05)
        same(stop(live), 0)
    for ply, name in enumerate(("round/02.pgn", "round/round.pgn", "round/state.json", "index.html"), 1):
        live = record()
        hall.begun(live)
        at.write_text(str(www / name))
        hall.make(ply, [0, 1])
        until_killed(live)
        live = record()
        until(lambda: not any(name.endswith(".new") for name in files_of(www)), "no half file", 0.05)
        until(lambda: [len(board["moves"]) for board in state_of(www / "round")["boards"]] == [ply + 1] * 2, "the moves", 0.05)  # type: ignore[attr-defined]
        is_whole(www)
        same(stop(live), 0)


def full_site(folder: pathlib.Path) -> None:
    """The site's disk is full: a line says that it can't be written, and each file stays as it was. When there is room it has all
    moves. If there is none until the end, the call says so, and the next one writes them."""
    hall, www, full = Hall(folder, 1), folder / "www", folder / "full"
    (folder / "sitecustomize.py").write_text(FULL.format(www=str(www), full=str(full)))

    def record() -> Live:
        return hall.record("--web", str(www), start=[sys.executable], environment={"PYTHONPATH": str(folder)})

    def until_there(moves: str) -> None:
        until(lambda: texts_of(bytes_of(www / "round" / "round.pgn")) == [moves], f"{moves} in the site", 0.05)
        until(lambda: (www / "index.html").exists(), "the list", 0.05)
        until(stays, "a site of which each file is written")

    def stays() -> bool:
        before = files_of(www)
        rest(0.5)
        return files_of(www) == before and not any(name.endswith(".new") for name in before)

    live = record()
    hall.begun(live)
    hall.play(0, 1)
    until_there("1. e4 *")
    before = files_of(www)
    full.touch()
    hall.play(1, 2)
    told = f"the site in {www} can't be written (No space left on device)"
    until_line(live, f"DISK FULL: {told}; it is tried again")
    same({name: content for name, content in files_of(www).items() if not name.endswith(".new")}, before)
    full.unlink()
    until_line(live, f"the site in {www} is written again")
    until_there("1. e4 e5 *")
    full.touch()
    hall.play(2, 3)
    until_line(live, f"DISK FULL: {told}", 2)
    same(stop(live), 3)
    assert told in live.complaint(), live.complaint()
    is_whole(www)
    full.unlink()
    live = record()
    until_there("1. e4 e5 2. Nf3 *")
    same(stop(live), 0)
    same([name for name in files_of(www) if name.endswith(".new")], [])


def carried_away(folder: pathlib.Path) -> None:
    """The command carries the site away too: it runs when only the site has changed, by a clock; and at the end, when the site has
    the last result."""
    hall, www, script, carried = Hall(folder, 1, clocks=(0,)), folder / "www", folder / "carry", folder / "carried"
    script.write_text(f"#!/bin/sh\ncp '{www}/round/state.json' '{carried}/new' && mv '{carried}/new' '{carried}/state.json'\n")
    script.chmod(0o755)
    carried.mkdir()
    live = hall.record("--web", str(www), "--publish", str(script), typed=True, start=Clock(folder).start)
    hall.begun(live)
    hall.play(0, 2)
    published = hall.games / "broadcast.pgn"

    def board() -> "dict[str, object]":
        boards = state_of(carried).get("boards") or [{}]
        return boards[0]  # type: ignore[index,no-any-return]

    until(lambda: len(board().get("moves", ())) == 2 and hall.text(1) in texts_of(bytes_of(published)), "both moves", 0.05)  # type: ignore[arg-type]
    before = bytes_of(published)
    hall.boards[0].clock(4000, 3900)
    until(lambda: board()["clocks"] == ["1:06:40", "1:05:00"], "the clocks", 0.05)
    same(bytes_of(published), before)
    live.type("1 1-0")
    quits(live)
    same((board()["result"], state_of(www / "round")), ("1-0", state_of(carried)))


def withdrawn(folder: pathlib.Path) -> None:
    """The game of a board whose line is taken out of the table leaves the site, once nothing there names it, and a file that somebody
    has put beside it stays. With its line the game is there again; it goes too where the line was taken out between two calls."""
    hall, www = Hall(folder, 2), folder / "www"
    game, other, both = www / "round" / "02.pgn", www / "round" / "notes.pgn", hall.file.read_text()
    one = "\n".join(both.splitlines()[:2]) + "\n"
    live = hall.record("--web", str(www), typed=True)
    hall.begun(live)
    hall.play(0, 2)
    until(lambda: hall.text(2) in texts_of(bytes_of(game)), "the game of board 2")
    other.write_text("[Event \"?\"]\n\n*\n\n")
    for table, there in ((one, False), (both, True)):
        hall.file.write_text(table)
        live.type("r")
        until(lambda: game.exists() == there, f"{game}: {there}")
        is_whole(www)
    until(lambda: hall.text(2) in texts_of(bytes_of(game)), "the game of board 2 again")
    same(stop(live), 0)
    hall.file.write_text(one)
    live = hall.record("--web", str(www))
    until(lambda: not game.exists(), "that it is gone")
    same(stop(live), 0)
    is_whole(www)
    same(other.exists(), True)


def other_folders(folder: pathlib.Path) -> None:
    """A site is written into a new folder, an empty one, or one that has its mark; also if a kill has left only the beginning of that. A
    folder with other files, or with games, is refused, and nothing in it changes. One that gets a game later is left alone from then on."""
    hall, www = Hall(folder, 1), folder / "www"
    (folder / "cup" / "round3").mkdir(parents=True)
    for name, text in (("01.dgt", "bytes"), ("01.pgn", "a game"), ("02.pgn", "a game"), ("round.pgn", "games")):
        (folder / "cup" / "round3" / name).write_text(text)
    (folder / "notes").mkdir()
    (folder / "notes" / "index.html").write_text("mine")
    (folder / "marked" / "round3").mkdir(parents=True)
    for name in ("dgt_round.txt", "round3/01.dgt"):
        (folder / "marked" / name).write_text("")
    before = files_of(folder)
    for place, why in (
        ("cup", f"it has games that are recorded, as {folder}/cup/round3/01.dgt"), ("marked", f"it has games that are recorded, as {folder}/marked/round3/01.dgt"),
        ("notes", f"it has other files, as {folder}/notes/index.html, and no dgt_round.txt"), ("cup/round3", f"it has games that are recorded, as {folder}/cup/round3/01.dgt"),
    ):  # fmt: skip
        for option, words in (("--web", ["--web", str(folder / place)]), ("--output public", ["--output", f"public = 0, web {folder / place}"])):
            live = hall.record("--round", "3", *words)
            refuses(live, 1, f"{option}: {folder / place}: {why}: give the site a new folder, or an empty one")
    same({name: text for name, text in files_of(folder).items() if name in before}, before)
    same(hall.games.exists(), False)
    www.mkdir()
    (www / "dgt_round.txt.new").write_text("dgt_ro")
    for _ in range(2):
        live = hall.record("--web", str(www))
        until(lambda: (www / "index.html").exists(), "the site", 0.05)
        same(((www / "dgt_round.txt").read_text().startswith("dgt_round keeps a site"), (www / "dgt_round.txt.new").exists()), (True, False))
        if not (www / "round3").exists():
            same(stop(live), 0)
            (www / "round3").mkdir()
            (www / "index.html").unlink()
    (www / "round3" / "01.dgt").write_text("bytes")
    left = files_of(www)
    hall.begun(live)
    hall.play(0, 1)
    until_line(live, f"the site in {www} can't be written (it has games that are recorded, as {www}/round3/01.dgt)")
    same({name: text for name, text in files_of(www).items() if "state.json" not in name}, {name: text for name, text in left.items() if "state.json" not in name})
    stop(live)


CASES = [two_rounds, list_of_rounds, team_matches, live_or_not, late_site, killed_between, full_site, carried_away, withdrawn, other_folders]
