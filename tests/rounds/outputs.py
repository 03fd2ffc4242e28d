"""A round with several outputs, each as late as it says and carried by its own command: over kills, restarts and lost files, with one
that is added and one that is removed, and in a tournament. The case controls the recorder's clock."""

import pathlib
import signal
import sys
import time
from typing import Callable, Dict, List, Optional, Tuple

from played.hidden import hidden_shots
from played.recorder import Live
from played.stage import bytes_of, holds_within, kill, refuses, same, stop, until, until_line
from rounds.delayed import FIRST, SECOND
from rounds.going_out import Clock
from rounds.hall import ROUND, Hall, quits
from rounds.witness import Witness, texts_of

# Copies what it is given to a folder, one file for each run, whose name has the number of the run and the recorder's time after that.
CARRIES = """\
import os, pathlib, sys, time
folder, ahead, path = (pathlib.Path(word) for word in sys.argv[1:4])
content = path.read_bytes()
folder.mkdir(exist_ok=True)
number = len(list(folder.glob("*.pgn")))
new = folder / "new"
new.write_bytes(content)
os.replace(new, folder / f"{number:04} {time.monotonic() + float(ahead.read_text())}.pgn")
"""
PLAYED = {"": 0.0, "agency": 180.0, "public": 900.0}  # seconds by which each output is late
UNPLAYED = ["*", "*"]


class Outputs:
    """A hall of two boards, what each of its round's outputs publishes and carries away, and who watches each."""

    def __init__(self, folder: pathlib.Path, late: Dict[str, float] = PLAYED) -> None:
        self.folder, self.clock, self.hall, self.late = folder, Clock(folder), Hall(folder, 2), late
        (folder / "carries.py").write_text(CARRIES)
        self.witnesses = {name: Witness(self.now, delay, self.text(name)) for name, delay in late.items() if delay}
        self.plies = 0

    def now(self) -> float:
        return time.monotonic() + float(bytes_of(self.folder / "ahead") or b"0")

    def place(self, name: str) -> pathlib.Path:
        """The folder of an output."""
        return self.hall.games / f"output-{name}" if name else self.hall.games

    def text(self, name: str) -> pathlib.Path:
        return self.place(name) / "broadcast.pgn"

    def site(self, name: str) -> pathlib.Path:
        return self.folder / f"site-{name or 'first'}"

    def carried(self, name: str) -> List[pathlib.Path]:
        """What its command has carried away, run for run."""
        return sorted((self.folder / f"carried-{name or 'first'}").glob("*.pgn"))

    def last_carried(self, name: str) -> List[str]:
        files = self.carried(name)
        return texts_of(bytes_of(files[-1])) if files else []

    def command(self, name: str) -> str:
        return f"{sys.executable} {self.folder}/carries.py {self.folder}/carried-{name or 'first'} {self.folder}/ahead"

    def options(self, *names: str, site: str = "") -> List[str]:
        """Those of these outputs."""
        words: List[str] = []
        for name in names:
            web = f"web {self.site(name)}, " if name and name == site else ""
            value = f"{name} = {self.late[name] / 60:g}, {web}{self.command(name)}"
            words += ["--output", value] if name else ["--publish", self.command("")]
        return words

    def record(self, *options: str, **more: object) -> Live:
        return self.hall.record(*options, typed=True, start=self.clock.start, **more)  # type: ignore[arg-type]  # what Live takes by name

    def watch(self) -> None:
        for witness in self.witnesses.values():
            witness.begin()

    def plays(self, text: str) -> None:
        for witness in self.witnesses.values():
            witness.plays(text)

    def play(self, end: int) -> None:
        """Plies on both boards, up to this one."""
        for ply in range(self.plies, end):
            for texts in (FIRST, SECOND):
                self.plays(texts[ply])
            self.hall.play(ply, ply + 1)
        self.plies = end

    def until_hidden(self, name: str, ply: int) -> None:
        """So many plies of both games are kept of an output."""
        until(lambda: [self.hidden(name, number) for number in (1, 2)] == [FIRST[ply - 1], SECOND[ply - 1]], f"ply {ply}, hidden in {name}", 0.02)

    def hidden(self, name: str, number: int) -> str:
        shots = hidden_shots(self.place(name) / f"{number:02}")
        return "".join(texts_of(shots[-1].text)) if shots else ""

    def until_out(self, name: str, ply: int) -> None:
        """An output has so many plies of both games, and its command has carried them away."""
        wanted = [FIRST[ply - 1], SECOND[ply - 1]] if ply else UNPLAYED
        until(lambda: texts_of(bytes_of(self.text(name))) == wanted, f"ply {ply} in the text of {name or 'the first output'}", 0.02)
        until(lambda: self.last_carried(name) == wanted, f"ply {ply}, carried from {name or 'the first output'}", 0.02)

    def end(self) -> None:
        """Nothing was too young, neither in a file nor in what a command has carried away when it did so."""
        for name, witness in self.witnesses.items():
            witness.end()
            for file in self.carried(name):
                at = float(file.stem.partition(" ")[2])
                for text in texts_of(bytes_of(file)):
                    assert witness.was_old(text, at), f"{text} was carried from {name} too early"


def three_outputs(folder: pathlib.Path) -> None:
    """A round goes out at once, three minutes late and fifteen minutes late, each by its command and the last with a site. Two plies are
    played, it is killed, two more are played, and a result is typed; dgt_live records a game in between. Each output has each of them at
    its time and none earlier, and none waits for another."""
    round_ = Outputs(folder)
    hall, clock = round_.hall, round_.clock
    place = round_.site("public") / "round"
    round_.witnesses["public"].watch(place / "round.pgn", place / "01.pgn", place / "02.pgn")
    round_.witnesses["public"].watch_state(place / "state.json")
    round_.watch()
    options = round_.options("", "agency", "public", site="public")
    live = round_.record(*options)
    until_line(live, f"output agency is 3 minutes late: {round_.text('agency')}\n")
    until_line(live, f"output public is 15 minutes late: {round_.text('public')}\n")
    hall.begun(live)
    for name in PLAYED:
        round_.until_out(name, 0)
    round_.play(2)
    round_.until_out("", 2)
    for name in ("agency", "public"):
        round_.until_hidden(name, 2)
        same((name, texts_of(bytes_of(round_.text(name)))), (name, UNPLAYED))
    kill(live)

    clock.be(100)
    live = round_.record(*options)
    hall.begun(live)
    round_.play(3)
    round_.until_out("", 3)
    for name in ("agency", "public"):
        round_.until_hidden(name, 3)
    clock.be(240)
    round_.until_out("agency", 2)
    same(texts_of(bytes_of(round_.text("public"))), UNPLAYED)
    same(stop_at_once(live), 0)

    single = Live(hall.boards[0].device, hall.name(1), start=clock.start)
    until_line(single, "agrees")
    for text in (FIRST[3], SECOND[3]):
        round_.plays(text)
    hall.boards[0].play("b8c6")
    hall.until_text(1, FIRST[3])
    same(stop(single), 0)
    hall.boards[1].play("e7e6")
    live = round_.record(*options)
    hall.begun(live)
    round_.plies = 4
    hall.until_plies(4)
    round_.until_out("", 4)
    clock.be(400)
    round_.until_out("agency", 3)
    for name in ("agency", "public"):
        round_.until_hidden(name, 4)
    kill(live)

    live = round_.record(*options)
    clock.be(620)
    round_.until_out("agency", 4)
    round_.plays(FIRST[3].replace("*", "1-0"))
    live.type("1 1-0")
    won = [FIRST[3].replace("*", "1-0"), SECOND[3]]
    until(lambda: round_.last_carried("") == won, "the result, at once", 0.02)
    clock.be(910)
    round_.until_out("public", 2)
    until(lambda: texts_of(bytes_of(place / "round.pgn")) == [FIRST[1], SECOND[1]], "two plies in the site", 0.05)
    until(lambda: round_.last_carried("agency") == won, "the result, three minutes late", 0.02)
    live.type("q")
    until_line(live, "spectators see the last moves at ")
    clock.be(2000)
    until(lambda: round_.last_carried("public") == won, "the result, fifteen minutes late", 0.02)
    until(lambda: texts_of(bytes_of(place / "round.pgn")) == won, "the result in the site", 0.05)
    quits(live)
    round_.end()
    seen = {name: [texts_of(bytes_of(file))[1] for file in round_.carried(name)] for name in PLAYED}
    for name, texts in seen.items():  # each text came in its order, and none came back
        same((name, list(dict.fromkeys(texts)) == [text for text in (*"*", *SECOND) if text in texts]), (name, True))
        same((name, texts == sorted(texts, key=len)), (name, True))


def stop_at_once(live: Live) -> int:
    """Ends it while something is hidden."""
    return stop(live, signal.SIGTERM)


def added_and_removed(folder: pathlib.Path) -> None:
    """Between two calls an output is added: it is as late with what was played before as with the rest. One is left out: nothing goes out
    there, and what is left stays. One is removed: its text goes, and nothing else. One gets a longer delay: what is too young for it is
    hidden again. What can't be is refused first."""
    round_ = Outputs(folder, {"": 0.0, "agency": 180.0, "public": 900.0, "club": 180.0})
    hall, clock = round_.hall, round_.clock
    round_.watch()
    first = round_.options("")
    live = round_.record(*round_.options("", "agency", "club"))
    hall.begun(live)
    for name in ("agency", "club"):
        round_.until_out(name, 0)
    round_.play(2)
    for name in ("agency", "club"):
        round_.until_hidden(name, 2)
    kill(live)
    clock.be(240)
    notes = round_.place("club") / "notes.txt"
    notes.write_bytes(b"mine\n")
    before = {path: bytes_of(path) for path in hall.games.rglob("*") if path.is_file()}
    wrong = (
        (["--output", "public=no"], 1, "there is no output public: there are agency, club"),
        (["--output", "agency=3", "--output", "agency=5"], 2, "--output agency is given twice"),
        (["--output", "a/b=3"], 2, "'a/b' is no name of an output: type letters, digits and -"),
        (["--output", f"public={round_.command('')}"], 2, "is no number of minutes: type minutes, 0 for at once"),
        (["--output", "public=0,5, true"], 2, "a part of a minute is typed as 0.5"),
        (["--output", f"a=0,web {folder}/www", "--output", f"b=3,web {folder}/www"], 2, "is the folder of the site of output a"),
        (["--output", f"a=0,web {folder}/www", "--output", f"b=3,web {folder}/www/late"], 2, f"late is in {folder}/www, the folder of the site of"),
        (["--output", f"a=0,web {hall.games}"], 1, f"--output a: {hall.games}: the round keeps its games there"),
    )
    for words, status, why in wrong:
        refuses(round_.record(*first, *words), status, why)
    (hall.games / "output-link").symlink_to(folder)
    refuses(round_.record(*first, "--output", "link=0"), 1, "is a link, and the folder of output link: move it away")
    (hall.games / "output-link").unlink()
    for game in ("01", "broadcast"):
        refuses(Live(hall.boards[0].device, round_.place("agency") / game), 1, "is the folder of an output of a round: choose another one")
    same({path: bytes_of(path) for path in hall.games.rglob("*") if path.is_file() and path.suffix != ".log"},
         {path: content for path, content in before.items() if path.suffix != ".log"})  # fmt: skip

    live = round_.record(*round_.options("", "public"), "--output", "club=no")
    until_line(live, "output club is removed")
    until_line(live, "output agency isn't given: nothing goes out there. --output agency=no removes what is left of it")
    hall.begun(live)
    round_.until_out("public", 0)
    round_.until_hidden("public", 2)
    same([path.name for path in round_.place("club").iterdir()], ["notes.txt"])
    same([(path.name, bytes_of(path)) for path in sorted(round_.place("agency").iterdir())],
         [(path.name, content) for path, content in sorted(before.items()) if path.parent == round_.place("agency")])  # fmt: skip
    round_.play(3)
    round_.until_out("", 3)
    same(texts_of(bytes_of(round_.text("agency"))), UNPLAYED)
    kill(live)

    live = round_.record(*round_.options("", "agency", "public"))
    hall.begun(live)
    round_.until_out("agency", 2)  # whose time is over, and the third ply came while nothing went out there
    round_.until_hidden("agency", 3)
    same(texts_of(bytes_of(round_.text("public"))), UNPLAYED)
    clock.be(1000)
    round_.until_out("agency", 3)
    round_.until_out("public", 2)  # fifteen minutes after it was played, and not after the output was added
    same(stop_at_once(live), 0)

    live = round_.record(*first, "--output", f"public = 60, {round_.command('public')}")
    hall.begun(live)
    until_line(live, "output public is 60 minutes late")
    round_.until_out("public", 0)
    clock.be(2000)
    same(holds_within(lambda: texts_of(bytes_of(round_.text("public"))) != UNPLAYED, 2.0), False)
    clock.be(5000)
    round_.until_out("public", 3)
    same(stop(live), 0)
    round_.end()


def files_of_one_lost_or_old(folder: pathlib.Path) -> None:
    """The power fails when four plies are out, and one output has hidden them. Each file of the round and of this output is gone in turn,
    empty, or as it was after two plies: the same command shows none of them there."""
    round_ = Outputs(folder, {"": 0.0, "public": 900.0})
    hall, witness = round_.hall, round_.witnesses["public"]
    witness.begin()
    live = round_.record(*round_.options("", "public"), "--event", "Club")
    hall.begun(live)
    round_.play(2)
    round_.until_hidden("public", 2)
    old = files_of(hall.games)
    round_.play(4)
    round_.until_hidden("public", 4)
    round_.until_out("", 4)
    kill(live)
    for board in hall.boards:
        board.pull()
    new = {name: content for name, content in files_of(hall.games).items() if not name.endswith(".log")}
    names = [name for name in sorted(new) if "02" not in name]
    assert {"01.times", "01.began", "output-public/broadcast.pgn"} < set(names), names
    spoiled = [(name, content) for name in names for content in (None, b"", old.get(name)) if content != new[name]]
    for at in range(0, len(spoiled), 4):
        starts = [Start(round_, folder / f"start{number}", new, spoiled[number]) for number in range(at, min(at + 4, len(spoiled)))]
        for start in starts:
            start.look()
        for start in starts:
            start.end()
    round_.end()


def files_of(folder: pathlib.Path) -> Dict[str, bytes]:
    return {str(path.relative_to(folder)): bytes_of(path) for path in folder.rglob("*") if path.is_file()}


class Start:
    """The round's command in a folder with these files, of which one is spoiled."""

    def __init__(self, round_: Outputs, folder: pathlib.Path, files: Dict[str, bytes], spoiled: Tuple[str, Optional[bytes]]) -> None:
        self._witness, self._spoiled, self._text = round_.witnesses["public"], spoiled[0], folder / "output-public" / "broadcast.pgn"
        (folder / "output-public").mkdir(parents=True)
        for name, content in {**files, spoiled[0]: spoiled[1]}.items():
            if content is not None:
                (folder / name).write_bytes(content)
        self._live = Live(round_.hall.file, folder, "--output", "public=15", program=ROUND, start=round_.clock.start)

    def look(self) -> None:
        """Both games are open, or can't be, and the text is there."""
        for number in (1, 2):
            until(lambda: self._is_known(number), f"board {number}, {self._spoiled} spoiled")
        games = 2 - self._live.lines().count("isn't recorded: ")
        until(lambda: len(texts_of(bytes_of(self._text))) == games or not self._live.runs, f"the text, {self._spoiled} spoiled", 0.02)
        self._witness.see(bytes_of(self._text), f"the text, {self._spoiled} spoiled,")

    def _is_known(self, number: int) -> bool:
        lines = [line for line in self._live.lines().splitlines() if line[10:13] == f"{number:>3}"]
        return any(part in line for line in lines for part in ("isn't there: plug it in", "isn't recorded: "))

    def end(self) -> None:
        same(stop_at_once(self._live) in (0, 3), True)  # 3 if a game couldn't be opened
        self._witness.see(bytes_of(self._text), f"the text, {self._spoiled} spoiled,")


def in_a_tournament(folder: pathlib.Path) -> None:
    """The lines of tournament.txt: each output has its own site, whose page says how late it is, and all.pgn is the first one's. A typed
    output takes the place of the one of that name; a line that isn't understood is refused before anything is recorded."""
    round_ = Outputs(folder, {"": 0.0, "public": 900.0})
    hall, cup = round_.hall, folder / "cup"
    cup.mkdir()
    (cup / "round1.csv").write_text(hall.file.read_text())
    lines = ["event = Cup", "round1.csv", f"web = {round_.site('')}", f"output public = 15 minutes, web {round_.site('public')}"]
    settings = cup / "tournament.txt"
    for line, why in (
        ("output public = soon", "line 1: --output public: 'soon' is no number of minutes"),
        ("output = 3", "line 1: an output has a name"),
        ("output a = 3\noutput a = 5", "line 2: there is output a in line 1 already: give it another name"),
        (f"web = {folder}/www\noutput a = 3, web {folder}/www", f"--output a: {folder}/www is the folder of the round's own site"),
        (f"web = {folder}/www/now\noutput a = 3, web {folder}/www", f"--output a: {folder}/www has {folder}/www/now in it, the folder of the round's"),
    ):
        settings.write_text(line + "\n")
        refuses(Live(cup, "1", program=ROUND), 1, f"{settings}: {why}")
    settings.write_text("\n".join([lines[0], *lines[2:]]) + "\n")
    hall.games = cup / "round1"
    round_.witnesses["public"] = witness = Witness(round_.now, 900.0, hall.games / "output-public" / "broadcast.pgn")
    witness.watch(round_.site("public") / "round1" / "round.pgn")
    witness.watch_state(round_.site("public") / "round1" / "state.json")
    witness.begin()

    def record(*options: str) -> Live:
        return Live(cup, "1", *options, program=ROUND, typed=True, start=round_.clock.start, environment=hall.cables.environment())

    live = record()
    hall.begun(live)
    round_.play(2)
    pages = [round_.site(name) / "round1" for name in ("", "public")]
    until(lambda: texts_of(bytes_of(pages[0] / "round.pgn")) == [FIRST[1], SECOND[1]], "two plies in the first site", 0.05)
    until(lambda: texts_of(bytes_of(cup / "all.pgn")) == [FIRST[1], SECOND[1]], "two plies in all.pgn", 0.05)
    until(lambda: texts_of(bytes_of(pages[1] / "round.pgn")) == UNPLAYED, "the unplayed games in the other site", 0.05)
    late = b'"late":"15 minutes"'
    until(lambda: late in bytes_of(pages[1] / "state.json"), "how late the other site is", 0.05)
    same(late in bytes_of(pages[0] / "state.json"), False)
    kill(live)
    refuses(record("--output", "agency=no"), 1, "there is no output agency: there is public")
    witness.end()
    live = record("--output", f"public = 0, {round_.command('public')}")
    until_line(live, "output public isn't late")
    hall.begun(live)
    round_.until_out("public", 2)
    quits(live)
    live = record("--output", "public=no")
    until_line(live, "output public is removed")
    same((stop(live), (hall.games / "output-public").exists(), bytes_of(pages[1] / "round.pgn") != b""), (0, False, True))


def one_board(folder: pathlib.Path) -> None:
    """One board with two outputs, as a round with a table of one line: its game goes out at once, and fifteen minutes late on a site."""
    hall, clock, place = Hall(folder, 1), Clock(folder), folder / "site"
    table, games = folder / "game.csv", folder / "game"
    table.write_text(f"board,device,white,black\n1,{hall.boards[0].device},Anna,Ben\n")
    copied = folder / "club.pgn"
    copies = folder / "club.sh"
    copies.write_text(f"#!/bin/sh\ncp \"$1\" '{copied}.new' && mv '{copied}.new' '{copied}'\n")
    copies.chmod(0o755)
    options = ("--publish", str(copies), "--output", f"public = 15, web {place}")
    live = Live(table, "", *options, program=ROUND, typed=True, start=clock.start)
    until_line(live, "  1  agrees")
    for move in ("e2e4", "e7e5"):
        hall.boards[0].play(move)
    until(lambda: texts_of(bytes_of(copied)) == ["1. e4 e5 *"], "both plies, at once", 0.05)
    late = kept_texts(games / "output-public" / "01")
    until(lambda: late()[-1:] == ["1. e4 e5 *"], "both plies, hidden", 0.05)
    until(lambda: texts_of(bytes_of(place / "round" / "round.pgn")) == ["*"], "no ply on the site", 0.05)
    clock.be(2000)
    until(lambda: texts_of(bytes_of(place / "round" / "round.pgn")) == ["1. e4 e5 *"], "both plies on the site", 0.05)
    live.type("1 1-0")
    until(lambda: texts_of(bytes_of(copied)) == ["1. e4 e5 1-0"], "the result, at once", 0.05)
    same(stop(live), 0)
    same(texts_of(bytes_of(place / "round" / "round.pgn")), ["1. e4 e5 *"])


def kept_texts(path: pathlib.Path) -> Callable[[], List[str]]:
    """The texts of a game in an output, hidden or shown."""
    return lambda: [text for shot in hidden_shots(path) for text in texts_of(shot.text)]


def where_sites_are(folder: pathlib.Path) -> None:
    """A relative path of a site in tournament.txt begins at the tournament's folder, a typed one here, and `~/` is the home folder. A
    line says where each is, and the next call goes on with each."""
    hall, cup, home, here = Hall(folder, 1), folder / "cup", folder / "home", folder / "here"
    cup.mkdir()
    here.mkdir()
    (cup / "round1.csv").write_text(hall.file.read_text())
    settings = "web = site\noutput typed = 5, web typed\noutput public = 15, web ~/public, ~/none.sh\n"
    (cup / "tournament.txt").write_text(settings)

    def call() -> Live:
        return Live("../cup", "1", "--output", "typed = 0, web typed", program=ROUND, cwd=here, environment={"HOME": str(home)}, typed=True)

    sites = {"the site is in": cup / "site", "the site of output typed is in": here / "typed", "the site of output public is in": home / "public"}
    live = call()
    for said, place in sites.items():
        until_line(live, f"{said} {place}")
        until(lambda: (place / "index.html").exists(), f"the site in {place}", 0.05)
    until_line(live, f"the command {home}/none.sh can't be started: there is no such file")
    stop(live)
    same(list(here.iterdir()), [here / "typed"])
    live = call()
    for said, place in sites.items():
        until_line(live, f"{said} {place}")
    stop(live)


CASES = [three_outputs, one_board, added_and_removed, files_of_one_lost_or_old, in_a_tournament, where_sites_are]
