"""No ply of a delayed round goes out before its time: whenever a call is ended or killed, whatever file is lost or old, whatever option
is left out, whatever a game is called, and whichever command records it. The case controls the recorder's clock."""

import json
import pathlib
import shutil
import signal
import time
from typing import Dict, List, Optional, Tuple

from played import TOP
from played.hidden import QUEUED, hidden_shots, started_again
from played.ports import free_port
from played.recorder import Live
from played.stage import bytes_of, ended, holds_within, kill, program, refuses, same, stop, until, until_line
from rounds.going_out import Clock
from rounds.hall import ROUND, Hall, quits
from rounds.witness import Witness, served, texts_of

DELAY = 900.0  # seconds
FIRST, SECOND = ("1. e4 *", "1. e4 e5 *", "1. e4 e5 2. Nf3 *", "1. e4 e5 2. Nf3 Nc6 *"), ("1. d4 *", "1. d4 d5 *", "1. d4 d5 2. c4 *", "1. d4 d5 2. c4 e6 *")
# A program that waits, in the subcommand that a file names, for as long as that file is there; or fails in the one that another names.
STUCK = """#!/bin/sh
[ "$(cat '{stuck}.fails' 2> /dev/null)" = "$1" ] && exit 9
while begins=$(cat '{stuck}' 2> /dev/null) && case "$*" in "$begins"*) ;; *) false ;; esac; do sleep 0.05; done
exec '{program}' "$@"
"""
AWAY = "isn't there: plug it in"


class Delayed:
    """A hall of two boards whose round goes out fifteen minutes late, with all that is published of it."""

    def __init__(self, folder: pathlib.Path) -> None:
        self.folder, self.clock, self.hall = folder, Clock(folder), Hall(folder, 2)
        self.witness = Witness(self.now, DELAY, self.hall.games / "broadcast.pgn")

    def now(self) -> float:
        return time.monotonic() + float(bytes_of(self.folder / "ahead") or b"0")

    def record(self, *options: str, **more: object) -> Live:
        more.setdefault("start", self.clock.start)
        return self.hall.record(*options, **more)  # type: ignore[arg-type]  # what Live takes by name

    def play(self, begin: int, end: int) -> None:
        """Plies on both boards."""
        for ply in range(begin, end):
            for texts in (FIRST, SECOND):
                self.witness.plays(texts[ply])
            self.hall.play(ply, ply + 1)


def stuck_program(folder: pathlib.Path, stuck: pathlib.Path) -> pathlib.Path:
    """The command, with a program that gets stuck if its words begin as a file says."""
    place = folder / "place"
    place.mkdir()
    shutil.copy(ROUND, place)
    (place / "live").symlink_to(TOP / "live")
    (place / "dgt_replay").write_text(STUCK.format(stuck=stuck, program=program()))
    (place / "dgt_replay").chmod(0o755)
    return place / "dgt_round"


def ended_while_opened(folder: pathlib.Path) -> None:
    """A round that was played without a delay gets one, and its call is ended before a game is open: nothing goes out."""
    round_ = Delayed(folder)
    live = round_.record("--delay", "0")
    round_.hall.begun(live)
    round_.hall.play(0, 2)
    same(stop(live), 0)
    goes_out = round_.hall.games / "broadcast.pgn"
    goes_out.unlink()  # it went out when there was no delay
    for texts in (FIRST, SECOND):
        for text in texts:
            round_.witness.plays(text)
    round_.witness.begin()
    command = stuck_program(folder, folder / "stuck")
    for number in (signal.SIGINT, signal.SIGTERM, signal.SIGKILL):
        (folder / "stuck").write_text("live")
        port = free_port()
        live = round_.record("--delay", "15", "--page", str(port), program=command, start=())
        until_line(live, "the round is shown at")
        until(lambda: "live" in words_of(live), "a call of live that is stuck")
        round_.witness.look_at(port)
        live.was_killed = True
        live.send(number)
        until(lambda: not live.runs, "its end")
        (folder / "stuck").unlink()
        kill(live)
    round_.witness.end()


def words_of(live: Live) -> List[str]:
    """The words of all commands that its processes run."""
    lines = [bytes_of(f"/proc/{number}/cmdline").decode(errors="replace").split("\0") for number in live.children()]
    return [word for line in lines for word in line]


def each_file_lost_or_old(folder: pathlib.Path) -> None:
    """Four plies are hidden as the power fails. Each file of the round in turn is gone, empty, or as it was after two plies: the same
    command, with the delay or without, shows none of them."""
    round_ = Delayed(folder)
    hall, witness = round_.hall, round_.witness
    witness.begin()
    live = round_.record("--delay", "15", "--event", "Club")
    hall.begun(live)
    round_.play(0, 2)
    until(lambda: [hidden_texts(hall, number)[-1:] for number in (1, 2)] == [[FIRST[1]], [SECOND[1]]], "two plies, hidden", 0.02)
    old = {path.name: path.read_bytes() for path in hall.games.iterdir()}
    round_.play(2, 4)
    until(lambda: [hidden_texts(hall, number)[-1:] for number in (1, 2)] == [[FIRST[3]], [SECOND[3]]], "four plies, hidden", 0.02)
    kill(live)
    for board in hall.boards:
        board.pull()
    new = {path.name: path.read_bytes() for path in hall.games.iterdir() if path.suffix != ".log"}
    spoiled = [(name, content) for name in sorted(new) if not name.startswith("02") for content in (None, b"", old.get(name)) if content != new[name]]
    for at in range(0, len(spoiled), 4):
        starts = [Start(round_, folder / f"start{number}", new, spoiled[number]) for number in range(at, min(at + 4, len(spoiled)))]
        for start in starts:
            start.look()
        for start in starts:
            start.end()
    witness.end()


def hidden_texts(hall: Hall, number: int) -> List[str]:
    """The movetexts that are kept of a game, hidden or shown."""
    return [text for shot in hidden_shots(hall.name(number)) for text in texts_of(shot.text)]


class Start:
    """The round's command in a folder with these files, of which one is spoiled."""

    def __init__(self, round_: Delayed, folder: pathlib.Path, files: Dict[str, bytes], spoiled: Tuple[str, Optional[bytes]]) -> None:
        self._folder, self._witness = folder, round_.witness
        folder.mkdir()
        for name, content in {**files, spoiled[0]: spoiled[1]}.items():
            if content is not None:
                (folder / name).write_bytes(content)
        self._port = free_port()
        options = ["--page", str(self._port), *(["--delay", "15"] if len(spoiled[1] or b"") % 2 else [])]
        self._live = Live(round_.hall.file, folder, *options, program=ROUND, start=round_.clock.start)
        self._spoiled = spoiled

    def look(self) -> None:
        """All games are open, or can't be; everything that is published then."""
        for number in (1, 2):
            until(lambda: self._is_known(number) or not self._live.runs, f"board {number}, {self._spoiled[0]} spoiled")
        if not self._live.runs:
            refuses(self._live, 1, "has no number of minutes: give --delay, or remove it")
            return
        until(lambda: len(json.loads(served(self._port, "/state.json"))["boards"]) == 2, "both boards on the page", 0.05)
        self._witness.look_at(self._port)

    def _is_known(self, number: int) -> bool:
        lines = [line for line in self._live.lines().splitlines() if line[10:13] == f"{number:>3}"]
        return any(part in line for line in lines for part in (AWAY, "isn't recorded: "))

    def end(self) -> None:
        if self._live.runs:
            same(stop(self._live) in (0, 3), True)  # 3 if a game couldn't be opened
        self._witness.see(bytes_of(self._folder / "broadcast.pgn"), f"broadcast.pgn, {self._spoiled[0]} lost,")


def stuck_as_it_is_said_again(folder: pathlib.Path) -> None:
    """A round is killed when two plies are out and two are hidden, and the program gets stuck before it has said again what they were,
    or fails: until it goes on nothing goes out, and what went out stays."""
    round_ = Delayed(folder)
    hall, witness = round_.hall, round_.witness
    goes_out, two = hall.games / "broadcast.pgn", [FIRST[1], SECOND[1]]
    witness.begin()
    live = round_.record("--delay", "15")
    hall.begun(live)
    round_.play(0, 2)
    until(lambda: [hidden_texts(hall, number)[-1:] for number in (1, 2)] == [[text] for text in two], "two plies, hidden", 0.02)
    round_.clock.be(910)
    until(lambda: texts_of(bytes_of(goes_out)) == two, "two plies", 0.02)
    round_.play(2, 4)
    until(lambda: [hidden_texts(hall, number)[-1:] for number in (1, 2)] == [[FIRST[3]], [SECOND[3]]], "four plies, hidden", 0.02)
    kill(live)
    before = bytes_of(goes_out)
    command, stuck = stuck_program(folder, folder / "stuck"), folder / "stuck"
    for how in ("killed", "fails", "goes on"):
        marks = stuck.with_name("stuck.fails" if how == "fails" else "stuck")
        marks.write_text("live")
        port = free_port()
        live = round_.record("--page", str(port), program=command)
        until_line(live, "the round is shown at")
        until(lambda: "live" in words_of(live) or live.says("live ended with status 9"), "a call of live")
        time.sleep(1.5)
        same((bytes_of(goes_out), texts_of(served(port, "/round.pgn"))), (before, two))
        if how != "killed":
            marks.unlink()
            until(lambda: len(json.loads(served(port, "/state.json"))["boards"]) == 2, "both boards", 0.05)
            until(lambda: texts_of(served(port, "/round.pgn")) == two, "two plies on the page", 0.05)
            same(texts_of(bytes_of(goes_out)), two)
        if how == "goes on":
            round_.clock.be(1820)
            until(lambda: texts_of(bytes_of(goes_out)) == [FIRST[3], SECOND[3]], "four plies", 0.02)
        kill(live)
        marks.unlink(missing_ok=True)
    witness.end()


def recorded_by_itself(folder: pathlib.Path) -> None:
    """dgt_live goes on with a game of a delayed round, without an option: it is as late as the round, and the round still knows what
    is hidden. So are the texts that --add, --tag, --first and --recover make."""
    round_ = Delayed(folder)
    hall, witness = round_.hall, round_.witness
    witness.begin()
    live = round_.record("--delay", "15")
    hall.begun(live)
    round_.play(0, 2)
    until(lambda: hidden_texts(hall, 1)[-1:] == [FIRST[1]], "what is hidden", 0.02)
    same(stop(live), 0)
    port, goes_out = free_port(), pathlib.Path(f"{hall.name(1)}.broadcast.pgn")
    single = Live(hall.boards[0].device, hall.name(1), "--page", str(port), "--publish", "true", start=[*round_.clock.start])
    until_line(single, "15 minutes late as before")
    until_line(single, "agrees")
    witness.plays(FIRST[2])
    hall.boards[0].play("g1f3")
    hall.until_text(1, FIRST[2])
    until(lambda: hidden_texts(hall, 1)[-1:] == [FIRST[2]], "three plies, hidden", 0.02)
    witness.look_at(port)
    single.send(signal.SIGINT)
    until_line(single, "To end it now, Ctrl-C again")
    same(stop(single), 0)
    witness.see(bytes_of(goes_out), "its own text")
    witness.plays("1. e4 e5 2. Nf3 1-0")
    for options in (("--tag", "Section=A"), ("--add", "1-0"), ("--recover",), ("--first", "black")):
        same(ended(Live("", hall.name(1), *options)), 0)
        witness.see(bytes_of(goes_out), f"its own text after {options}")
    witness.end()


def named_as_others(folder: pathlib.Path) -> None:
    """A game may not have the name of a file that goes out, or of another game's."""
    round_ = Delayed(folder)
    hall = round_.hall
    hall.extra = {1: ",broadcast", 2: ",01.before"}
    hall.write(header="board,device,white,black,name")
    live = round_.record("--delay", "15", typed=True)
    until_line(live, "line 2 of round.csv is wrong: name is 'broadcast'")
    until_line(live, "line 3 of round.csv is wrong: name is '01.before'")
    hall.extra = {1: ",Round", 2: ",club"}
    hall.write(header="board,device,white,black,name")
    live.type("r")
    until_line(live, "line 2 of round.csv is wrong: name is 'Round'")
    until_line(live, "agrees")
    until(lambda: (hall.games / "broadcast.pgn").exists(), "the text that goes out")
    quits(live)
    for name in ("broadcast", "round", "club.before", "club.before-1", "club.edited", "club.broadcast"):
        refuses(Live(hall.boards[0].device, hall.games / name), 1, "choose another name")
        refuses(Live(hall.boards[0].device, hall.games / name, "--series"), 1, "choose another name")
    same(sorted(path.name for path in hall.games.glob("broadcast*")), ["broadcast.pgn", "broadcast.shown"])


def times_edited(folder: pathlib.Path) -> None:
    """A round is ninety seconds late. The power fails behind two plies, and somebody adds a minute to the last time of a game: what came
    with that line, and after it, counts as just played, and no ply is seen before its time."""
    clock, hall, port = Clock(folder), Hall(folder, 2), free_port()
    ahead = folder / "ahead"
    witness = Witness(lambda: time.monotonic() + float(bytes_of(ahead) or b"0"), 90.0, hall.games / "broadcast.pgn")
    witness.begin()
    live = hall.record("--delay", "1.5", "--page", str(port), start=clock.start)
    hall.begun(live)
    for ply in range(2):
        for texts in (FIRST, SECOND):
            witness.plays(texts[ply])
        hall.play(ply, ply + 1)
    until(lambda: [hidden_texts(hall, number)[-1:] for number in (1, 2)] == [[FIRST[1]], [SECOND[1]]], "two plies, hidden", 0.02)
    kill(live)
    edited = pathlib.Path(f"{hall.name(1)}.times")
    front, last, rest = edited.read_bytes().rpartition(b" heard ")
    before, line, at = front.rpartition(b"\n")
    edited.write_bytes(before + line + b"%d" % (int(at) + 60_000) + last + rest)
    for number in (1, 2):
        started_again(pathlib.Path(f"{hall.name(number)}.began"))
    for noted in (folder / QUEUED).iterdir():
        noted.unlink()
    live = hall.record("--page", str(port), start=clock.start)
    until(lambda: [hidden_texts(hall, number)[-1:] for number in (1, 2)] == [[FIRST[1]], [SECOND[1]]], "two plies, hidden again", 0.02)
    for seconds in (35, 60, 85):
        clock.be(seconds)
        holds_within(lambda: False, 1.2)
        witness.look_at(port)
    clock.be(200)
    until(lambda: texts_of(served(port, "/round.pgn")) == [FIRST[1], SECOND[1]], "two plies", 0.05)
    stop(live)
    witness.end()


CASES = [ended_while_opened, times_edited, each_file_lost_or_old, stuck_as_it_is_said_again, recorded_by_itself, named_as_others]
