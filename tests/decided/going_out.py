"""What goes out of a round: what of a game is shown when, what a restart still hides, clocks that run, when a command is run."""

import contextlib
import os
import pathlib
import subprocess
import sys
import tempfile
import threading
import time
from typing import Callable, List, Optional, Tuple

from live.child.lines import Clock
from live.game import times
from live.game.files import Paths
from live.game.kept import milliseconds
from live.game.tags import published
from live.game.times import Began, began_line, part_line, summed, this_start
from live.out.again import is_hidden, is_unseen
from live.out.delay import (
    ALWAYS, UNPUBLISHED, Entry, GoingOut, KeptOut, OneGame, Waiting, delay_of, kept_text, read_command, read_delay, read_kept, told_of_kept,
    with_given,
)  # fmt: skip
from live.out.publish import Plan, last_line, run
from live.out.spectators import Clocks, Player, Ply, Running, Shot, SpectatorBoard, round_pgn, seconds_of, side_between
from live.run.refused import Refused

from decided.table import refused, same

TOP = pathlib.Path(__file__).resolve().parents[2]
START, AFTER_E4, AFTER_E5 = "start", "after e4", "after e5"
QUIET = Shot(positions=(START,), text=b"[White]\n\n*\n\n")
E4 = Shot("*", (Ply("e4", "1:29:55"),), (START, AFTER_E4), b"[White]\n\n1. e4 *\n\n", Clocks("1:29:55", "1:30:00", "b", 100.0))
E5 = Shot("*", (Ply("e4", "1:29:55"), Ply("e5")), (START, AFTER_E4, AFTER_E5), b"[White]\n\n1. e4 e5 *\n\n")
WON = Shot("1-0", E5.moves, E5.positions, b"[White]\n\n1. e4 e5 1-0\n\n")


def shown_when() -> None:
    """Entries that came at these times; at a time, with a delay: how many were shown."""
    cases: List[Tuple[List[float], float, float, int]] = [
        ([], 1000.0, 900.0, 0),
        ([100.0], 999.9, 900.0, 0),
        ([100.0], 1000.0, 900.0, 1),
        ([100.0, 200.0, 300.0], 1099.0, 900.0, 1),
        ([100.0, 200.0, 300.0], 1100.0, 900.0, 2),
        ([100.0, 200.0, 300.0], 9999.0, 900.0, 3),
        ([ALWAYS, 200.0], 0.0, 900.0, 1),
        ([100.0, 200.0], 150.0, 0.0, 1),
        ([100.0, 200.0], 200.0, 0.0, 2),
        ([500.0, 200.0], 1101.0, 900.0, 0),  # none before one that came before it
    ]
    for times_, now, delay, expected in cases:
        waiting = Waiting(delay, [Entry(at, E4) for at in times_])
        is_news = waiting.look(now)
        same(f"{times_} at {now}, {delay} late", (len(times_) - len(waiting.entries), is_news), (expected, expected > 0))
        same("and none of them goes back", (waiting.look(now - 60.0), len(times_) - len(waiting.entries)), (False, expected))


def game_goes_by() -> None:
    """A game with a delay of 15 minutes: what is taken when, what is shown then, and when the next one is."""
    waiting = Waiting(900.0)
    seen: List[Tuple[float, bytes, str, Optional[float]]] = []
    for now, shot in [(0.0, QUIET), (60.0, E4), (100.0, E5), (959.9, None), (960.0, None), (1000.0, WON), (1899.0, None), (1900.0, None)]:
        if shot:
            waiting.take(now, shot)
        waiting.look(now)
        seen.append((now, waiting.shot.text.split(b"\n")[2], waiting.shot.result, waiting.next_at))
    same("what is shown", seen, [
        (0.0, b"*", "*", None),
        (60.0, b"*", "*", 960.0),
        (100.0, b"*", "*", 960.0),
        (959.9, b"*", "*", 960.0),
        (960.0, b"1. e4 *", "*", 1000.0),
        (1000.0, b"1. e4 e5 *", "*", 1900.0),
        (1899.0, b"1. e4 e5 *", "*", 1900.0),
        (1900.0, b"1. e4 e5 1-0", "1-0", None),
    ])  # fmt: skip
    same("nothing is hidden at the end", (waiting.ends_at, len(waiting.known)), (None, 1))
    waiting = Waiting(900.0)
    waiting.take(0.0, E4)
    waiting.look(0.0)
    same("a game that is seen first with moves is shown without them", (waiting.shot, waiting.ends_at), (QUIET, 900.0))
    waiting.take(0.0, E4)
    same("the same shot is no news", len(waiting.known), 2)
    waiting = Waiting(900.0)
    waiting.take(0.0, Shot("0-1", E5.moves, E5.positions, b'[White]\n[Result "0-1"]\n[FEN "x"]\n\n1. e4 e5 0-1\n\n'))
    waiting.look(899.9)
    quiet = Shot(positions=(START,), text=b'[White]\n[Result "*"]\n[FEN "x"]\n\n*\n\n')
    same("and without its result", waiting.shot, quiet)
    waiting = Waiting(900.0)
    for now, shot in ((0.0, Shot()), (1.0, QUIET), (2.0, Shot(positions=(START,), text=QUIET.text, clocks=E4.clocks)), (3.0, E4)):
        waiting.take(now, shot)
        waiting.look(now)
    same("a text that comes before the first move is shown, and no clock", (waiting.shot, waiting.next_at), (QUIET, 903.0))
    plain = Waiting(0.0)
    plain.take(5.0, E4)
    plain.look(5.0)
    same("without a delay it is shown at once", plain.shot, E4)


def restarts() -> None:
    """What was said of a game, each at its time; the next process is told that and goes on with the game: what it shows at any moment is
    what the first one would have shown."""
    said = [(0.0, QUIET), (60.0, E4), (100.0, E5), (130.0, WON)]
    for now, shown in ((140.0, QUIET), (959.0, QUIET), (960.0, E4), (1000.0, E5), (1030.0, WON)):
        one = OneGame("01", GoingOut(900.0, hold=0.0))
        one.tell(said, now)
        one.waiting.look(now)
        same(f"killed, and said again at {now}", one.waiting.shot, shown)
    for delay, shown in ((900.0, E4), (3600.0, QUIET), (30.0, WON)):
        one = OneGame("01", GoingOut(delay, hold=0.0))
        one.tell(said, 970.0)
        one.waiting.look(970.0)
        same(f"at 970, {delay} late", one.waiting.shot, shown)
    one = OneGame("01", GoingOut(900.0, hold=0.0))
    one.tell([], 500.0)
    one.waiting.look(500.0)
    same("nothing can be said again", (one.is_told, one.waiting.shot, one.waiting.ends_at), (True, Shot(), None))
    running = Shot("*", E4.moves, E4.positions, E4.text)  # its clock isn't pressed
    thought = Shot(positions=QUIET.positions, text=QUIET.text, clocks=Clocks("1:29:55", "1:30:00", "w", 50.0))
    pressed = Shot("*", E4.moves, (START, "8/8 b"), E4.text, E4.clocks)
    for name, said, out in (
        ("a ply stood for two seconds", [(60.0, running), (70.0, E5)], [(ALWAYS, QUIET), (62.0, running), (72.0, E5)]),
        ("no reply after it", [(60.0, running)], [(ALWAYS, QUIET), (62.0, running)]),
        ("a reply came sooner", [(60.0, running), (61.0, E5)], [(ALWAYS, QUIET), (61.0, running), (63.0, E5)]),
        ("the clock was pressed", [(50.0, thought), (60.0, pressed)], [(ALWAYS, QUIET), (60.0, pressed)]),
        ("nobody knows whether it was", [(60.0, pressed)], [(ALWAYS, QUIET), (62.0, pressed)]),
    ):
        one = OneGame("01", GoingOut(900.0, hold=2.0))
        one.tell([(0.0, QUIET), *said], 500.0)
        found = [(entry.came, entry.shot) for entry in one.waiting.known]
        same(name, found, out)
    one = OneGame("01", GoingOut(900.0, hold=2.0))
    one.tell([(0.0, QUIET), (60.0, running)], 61.0)
    same("a ply that was just made", ([entry.shot for entry in one.waiting.known], one.steady.due), ([QUIET], 62.0))


def hidden_or_not() -> None:
    """A game that nobody shows: whether something of it is hidden, and whether spectators haven't seen all."""
    with tempfile.TemporaryDirectory() as folder:
        paths = Paths(f"{folder}/01")
        text, capture = b'[Result "1-0"]\n\n1. e4 1-0\n\n', b"\x86\x00\x43" + bytes(64)
        pathlib.Path(paths.pgn).write_bytes(text)
        pathlib.Path(paths.capture).write_bytes(capture)
        heading = times.heading(0, capture)

        def began(ago: int) -> None:
            lines = heading + b"0 begin 67\n"
            pathlib.Path(f"{paths.name}.times").write_bytes(lines)
            call = began_line((0, len(heading)), Began(milliseconds() - ago, this_start()))
            pathlib.Path(paths.began).write_bytes(summed([call, part_line(0, 0, lines)], 0))

        began(0)
        same("no delay", (is_hidden(paths), is_unseen(paths)), (False, False))
        delay_of(paths, 60.0, [paths])
        same("just played", (is_hidden(paths), is_unseen(paths)), (True, True))
        began(50_000)
        same("fifty seconds ago", is_hidden(paths), True)
        began(61_000)
        same("a minute ago", (is_hidden(paths), is_unseen(paths)), (False, False))
        pathlib.Path(paths.broadcast).write_bytes(b"earlier")
        same("and its text isn't out", is_unseen(paths), True)
        pathlib.Path(paths.broadcast).write_bytes(round_pgn([published(text, {})]))
        same("it is", is_unseen(paths), False)
        for path in (paths.began, f"{paths.name}.times", paths.capture):
            pathlib.Path(path).write_bytes(b"x")
            same(f"{path} is damaged", is_hidden(paths), True)
        began(61_000)
        pathlib.Path(paths.pgn).write_bytes(b'[Result "*"]\n\n*\n\n')
        same("not played", is_hidden(paths), False)
        pathlib.Path(paths.delay).write_bytes(b"soon\n")
        same("a delay that can't be read", is_hidden(paths), True)


def kept_delays() -> None:
    with tempfile.TemporaryDirectory() as folder:
        paths, game = Paths(f"{folder}/round"), Paths(f"{folder}/01")
        seen = [delay_of(paths, given, [game]) for given in (None, 900.0, None, 30.0, None, 0.0, None)]
        same("a delay stays until another is given", seen, [0.0, 900.0, 900.0, 30.0, 30.0, 0.0, 0.0])
        pathlib.Path(paths.delay).write_bytes(b"soon\n")
        said = refused("a file without a number", Refused, delay_of, paths, None, [game])
        same("says what to do", said.endswith("give --delay, or remove it"), True)
        same("a delay that is given takes its place", delay_of(paths, 60.0, [game]), 60.0)
        delay_of(paths, 20.0, [game])
        same("no shorter when it is read again", 20.0 <= delay_of(paths, None, [game]) < 20.6, True)
        for lost, found in ((None, 900.0), (paths.delay, 900.0), (game.delay, 900.0), ("both", 0.0)):
            delay_of(paths, 900.0, [game])
            for path in [path for path in (paths.delay, game.delay) if lost in (path, "both")]:
                os.unlink(path)
            same(f"{lost} is lost", delay_of(paths, None, [game]), found)
        delay_of(paths, 900.0, [game])
        delay_of(paths, 0.0, [game])
        same("all goes with a delay of 0", (os.listdir(folder), delay_of(paths, None, [game])), ([], 0.0))
    with tempfile.TemporaryDirectory() as folder:
        given = {"round": 900.0, "blitz": 60.0, "02": 1200.0, "9-9": 30.0}
        for name, seconds in given.items():
            delay_of(Paths(f"{folder}/{name}"), seconds, [])
        for name, found in (("01", 900.0), ("02", 1200.0), ("blitz-3", 900.0), ("round", 900.0), ("blitz", 900.0)):
            same(f"the delay of {name} in a round's folder", delay_of(Paths(f"{folder}/{name}"), None, []), found)
        os.unlink(f"{folder}/round.delay")
        for name, found in (("01", 0.0), ("blitz-3", 60.0), ("blitz-x", 0.0), ("blitz-", 0.0), ("9-9-1", 30.0), ("-3", 0.0)):
            same(f"the delay of {name} beside a series", delay_of(Paths(f"{folder}/{name}"), None, []), found)
    for text, seconds in (("15", 900.0), ("0", 0.0), ("0.5", 30.0), (".5", 30.0), ("1440", 86400.0)):
        same(f"--delay {text}", read_delay(text), seconds)
    for text in ("", "-1", "1e3", "x", "15m", "1441", "nan", "inf", "٣", "0x5", "1 5", "."):
        refused(f"--delay {text}", Refused, read_delay, text)
    same("--publish", read_command("curl --config '/home/anna/my file' -T"), ("curl", "--config", "/home/anna/my file", "-T"))
    home = os.path.expanduser("~")
    same("--publish ~/", read_command("~/copy.sh ~/x a~/b"), (f"{home}/copy.sh", "~/x", "a~/b"))
    for text in ("", "  ", "cp '"):
        refused(f"--publish {text!r}", Refused, read_command, text)
    same("nothing is said", GoingOut(), GoingOut(0.0, ()))


def clocks_run() -> None:
    """Readings at these times, and what a browser is told to count from."""
    for before, now, side in [
        (("1:30:00", "1:30:00"), ("1:29:59", "1:30:00"), "w"),
        (("1:30:00", "1:30:00"), ("1:30:00", "1:29:58"), "b"),
        (("1:29:10", "1:30:00"), ("1:29:40", "1:30:00"), "b"),  # White was given time for his move
        (("1:29:10", "1:30:00"), ("1:29:40", "1:29:59"), "b"),
        (("1:29:10", "1:30:00"), ("1:29:10", "1:30:00"), ""),
        (("1:30:00", "1:30:00"), ("0:05:00", "0:05:00"), ""),  # set anew
    ]:
        same(f"{before}, then {now}", side_between(Clock(*before), Clock(*now)), side)
    same("times", [seconds_of(text) for text in ("1:29:55", "0:00:09", "", "x", "1:-2:03")], [5395, 9, None, None, None])
    running = Running()
    told = []
    for at, white, black, goes_on in [
        (0.0, "1:30:00", "1:30:00", True),
        (10.0, "1:30:00", "1:30:00", True),
        (11.0, "1:29:59", "1:30:00", True),
        (12.0, "1:29:58", "1:30:00", True),
        (50.0, "1:29:20", "1:30:00", True),  # as counted
        (51.0, "1:29:20", "1:29:59", True),  # White has pressed
        (52.0, "1:29:20", "1:29:58", True),
        (56.0, "1:29:20", "1:29:58", True),  # the clock was stopped
        (60.0, "1:29:20", "1:29:57", True),
        (61.0, "1:29:20", "1:29:57", False),
    ]:
        told.append(running.look(at, Clock(white, black), at, goes_on))
    same("what is told", told, [
        Clocks("1:30:00", "1:30:00"),
        Clocks("1:30:00", "1:30:00"),
        *[Clocks("1:29:59", "1:30:00", "w", 11.0)] * 3,
        *[Clocks("1:29:20", "1:29:59", "b", 51.0)] * 2,
        Clocks("1:29:20", "1:29:58"),
        Clocks("1:29:20", "1:29:57", "b", 60.0),
        Clocks("1:29:20", "1:29:57"),
    ])  # fmt: skip
    same("no clock", Running().look(5.0, None, 0.0, True), Clocks())
    # When it was looked at, when it had come, and White's seconds; what is told in the end, and since when it counts.
    late: List[Tuple[str, List[Tuple[float, float, int]], Tuple[int, float]]] = [
        ("looked at late", [(1, 1, 59), (2, 2, 58), (4.5, 3, 57)], (58, 2.0)),
        ("the first running one was looked at late", [(1, 1, 59), (3.9, 2, 58), (4, 3, 57)], (58, 2.0)),
        ("it came late by 1.5 s, and the next one in time", [(1, 1, 59), (3.5, 3.5, 58), (4, 4, 56)], (56, 4.0)),
        ("it came late by less than a second", [(1, 1, 59), (2.9, 2.9, 58), (4, 4, 56)], (58, 2.9)),
        ("a later one came late by two seconds", [(1, 1, 59), (2, 2, 58), (7, 7, 55), (8, 8, 52)], (58, 2.0)),
        ("one came late by three seconds, and the next one in time", [(1, 1, 59), (2, 2, 58), (8, 8, 55), (8.1, 8.1, 52)], (52, 8.1)),
    ]
    for name, readings, wanted in late:
        running = Running()
        for at, came_at, seconds in readings:
            now_told = running.look(at, Clock(f"0:00:{seconds}", "0:01:00"), came_at, True)
        same(name, now_told, Clocks(f"0:00:{wanted[0]}", "0:01:00", "w", wanted[1]))


def is_alive(process: int) -> bool:
    """Whether it is there, and no zombie of somebody else's."""
    with contextlib.suppress(OSError):
        return pathlib.Path(f"/proc/{process}/stat").read_text().rpartition(")")[2].split()[0] != "Z"
    return False


def runs_of_a_command() -> None:
    """The file changes and runs end at these times: when the next run begins."""
    plan = Plan()
    same("nothing to do", plan.begins_at, None)
    plan.changed()
    same("at once", plan.begins_at is not None and plan.begins_at <= 0.0, True)
    plan.begun(100.0)
    plan.changed()
    same("one at a time", plan.begins_at, None)
    plan.ended(101.0, True)
    same("not before five seconds", plan.begins_at, 105.0)
    plan.begun(105.0)
    plan.ended(106.0, True)
    same("no change, no run", plan.begins_at, None)
    plan.changed()
    now, waits = 200.0, []
    for _ in range(7):
        plan.begun(now)
        plan.ended(now + 30.0, False)
        plan.changed()  # which makes no run come sooner
        assert plan.begins_at is not None
        waits.append(plan.begins_at - now - 30.0)
        now = plan.begins_at
    same("after failures", waits, [5.0, 10.0, 20.0, 40.0, 60.0, 60.0, 60.0])
    plan.begun(now)
    plan.ended(now + 1.0, True)
    same("it went well", (plan.fails, plan.begins_at), (0, None))
    plan.changed()
    plan.begun(now + 10.0)
    plan.ended(now + 11.0, False)
    same("a first failure again", plan.begins_at, now + 16.0)
    python = [sys.executable, "-c"]
    with tempfile.TemporaryDirectory() as folder:
        path = pathlib.Path(folder) / "broadcast.pgn"
        for program, said in [
            ("import sys; print('out'); assert sys.argv[1].endswith('/broadcast.pgn')", ""),
            ("import sys; print('first\\nlast \\x1b[0m \\n\\n', file=sys.stderr); print('a secret'); sys.exit(3)", "last ?[0m"),
            ("import sys; sys.exit(3)", "the command ended with status 3"),
            ("import os; os.kill(os.getpid(), 9)", "the command was ended by signal 9"),
            ("import sys; print('warning', file=sys.stderr)", ""),
            ("import sys; sys.stderr.write('x' * 1000000 + '\\nend'); sys.exit(1)", "end"),
            ("import os; os.close(2); os._exit(4)", "the command ended with status 4"),
            ("import signal, sys; sys.exit(len(signal.pthread_sigmask(signal.SIG_BLOCK, [])))", ""),
        ]:
            same(program, run([*python, program], path, 60.0), said)
        same("no such program", run(["/nowhere", "secret"], path, 60.0), "the command /nowhere can't be started: there is no such file")
        script = pathlib.Path(folder) / "copy.sh"
        script.write_text("#!/nowhere\n")
        same("a script that may not run", run([str(script)], path, 60.0), f"the command {script} can't be started: type chmod +x {script}")
        script.chmod(0o700)
        why = "its first line names a program that isn't there"
        same("a script of nothing", run([str(script)], path, 60.0), f"the command {script} can't be started: {why}")
        number = pathlib.Path(folder) / "number"
        slow = f"import os, subprocess, time; open({str(number)!r}, 'w').write(str(subprocess.Popen(['sleep', '99']).pid)); time.sleep(99)"
        same("one that is too slow", run([*python, slow], path, 8.0), "the command took more than 8 s, and was ended")
        ends = time.monotonic() + 60
        while number.exists() and is_alive(int(number.read_text() or 0)) and time.monotonic() < ends:
            time.sleep(0.01)
        same("and what it has started", time.monotonic() < ends, True)
        stays = "import subprocess, sys; subprocess.Popen([sys.executable, '-c', 'import time; time.sleep(5)'])"
        same("what it leaves behind isn't waited for", run([*python, stays], path, 60.0), "")
    same("no line", (last_line(b""), last_line(b"\n \r\n")), ("", ""))
    same("a progress bar", last_line(b"10 %\r50 %\rconnection lost\r\n"), "connection lost")


# Notes when it begins and ends, and whether another one is in between; it waits for a file.
TAKES_TURNS = """
import os, pathlib, sys, time
name, folder = sys.argv[1], pathlib.Path(sys.argv[2])
def note(what):
    with open(folder / "notes", "a") as notes:
        notes.write(f"{name} {what}\\n")
note("begins")
while not (folder / f"{name}.goes").exists():
    time.sleep(0.01)
note("ends")
"""
# A recorder that publishes, and is killed.
PUBLISHES = "import sys; sys.path.insert(0, sys.argv[1]); from live.out.publish import run; run(sys.argv[3:], sys.argv[2], 60.0)"
# Starts a process in a session of its own, writes its number, and goes on or not.
OUTLIVED = """
import pathlib, subprocess, sys, time
child = subprocess.Popen(["sleep", "600"], start_new_session=True)
pathlib.Path(sys.argv[1] + ".new").write_text(str(child.pid))
pathlib.Path(sys.argv[1] + ".new").rename(sys.argv[1])
time.sleep(float(sys.argv[2]))
"""


def until(holds: Callable[[], bool]) -> bool:
    """Whether it holds within a minute."""
    ends = time.monotonic() + 60
    while not holds() and time.monotonic() < ends:
        time.sleep(0.01)
    return holds()


def one_run_at_a_time() -> None:
    """A recorder is killed while its command runs: the next recorder's run begins when that one has ended. What a command has started
    in a session of its own is ended with it when its time is over."""
    with tempfile.TemporaryDirectory() as folder:
        path, notes = pathlib.Path(folder) / "broadcast.pgn", pathlib.Path(folder) / "notes"
        path.write_bytes(b"*\n\n")
        takes_turns = [sys.executable, "-c", TAKES_TURNS]
        killed = subprocess.Popen([sys.executable, "-c", PUBLISHES, str(TOP), str(path), *takes_turns, "first", folder])
        until(notes.exists)
        killed.kill()
        killed.wait()
        said: List[str] = []
        again = threading.Thread(target=lambda: said.append(run([*takes_turns, "second", folder], path, 60.0)))
        again.start()
        pathlib.Path(folder, "second.goes").touch()
        time.sleep(1.5)  # in which it could begin
        same("the first one alone", notes.read_text(), "first begins\n")
        pathlib.Path(folder, "first.goes").touch()
        again.join(60)
        same("then the second one", (notes.read_text(), said), ("first begins\nfirst ends\nsecond begins\nsecond ends\n", [""]))
        for stays, told in (("600", "the command took more than 8 s, and was ended"), ("0", "")):
            number = pathlib.Path(folder) / f"number{stays}"
            same(f"a command that stays {stays} s", run([sys.executable, "-c", OUTLIVED, str(number), stays], path, 8.0), told)
            same("and the next one", run(["true"], path, 60.0), "")
            same("comes after all that it started", is_alive(int(number.read_text())), False)
        killed = subprocess.Popen([sys.executable, "-c", PUBLISHES, str(TOP), str(path), *takes_turns, "third", folder])
        until(lambda: "third begins" in notes.read_text())
        same("an earlier run that goes on", run(["true"], path, 2.0), "an earlier run of the command goes on")
        same("of another file", run(["true"], path.with_name("other.pgn"), 60.0), "")
        pathlib.Path(folder, "third.goes").touch()
        same("it ends", killed.wait(60), 0)


def scripts_of_the_docs() -> None:
    """copy.sh, as BROADCAST has it, is killed or is slow in the middle of a copy, and another one runs beside it: nobody ever sees a
    part of a text."""
    text = (TOP / "docs" / "BROADCAST.md").read_text()
    script = next(part for part in text.split("\n\n") if "#!/bin/sh" in part and "/srv/www" in part and "cp " in part)
    with tempfile.TemporaryDirectory() as folder:
        place = pathlib.Path(folder)
        copies, whole, seen = place / "copy.sh", place / "whole", place / "round.pgn"
        copies.write_text("\n".join(line[4:] for line in script.split("\n")).replace("/srv/www", folder) + "\n")
        copies.chmod(0o755)
        whole.write_bytes(b"whole\n" * 20000)
        for ends in ("killed", "goes on"):
            slow = place / f"slow, {ends}"  # a killed copy may keep its own for a moment
            os.mkfifo(slow)
            first = subprocess.Popen([copies, slow], start_new_session=True, umask=0o022)
            with open(slow, "wb") as writing:
                writing.write(b"half\n" * 100)
                writing.flush()
                same("the other one", subprocess.run([copies, whole], umask=0o022).returncode, 0)
                same("is whole", seen.read_bytes() == whole.read_bytes(), True)
                if ends == "killed":
                    os.killpg(first.pid, 9)
                    first.wait()
                else:
                    writing.write(b"half\n" * 100)
            first.wait()
            same(f"whole, where the first one {ends}", seen.read_bytes() in (whole.read_bytes(), b"half\n" * 200), True)
            same("for everybody", seen.stat().st_mode & 0o044, 0o044)


def for_spectators() -> None:
    """A board in JSON for the spectators' page: the whole of it, and what is new."""
    white = Player.of_tags({"WhiteTitle": "GM", "WhiteElo": "2701", "WhiteTeam": "Club"}, "White", "Ünal, Ü")
    board = SpectatorBoard(3, white, Player.of_tags({}, "Black", "?"), E4, b"", 900.0)
    same("whole", board.text(5.0, None), (
        b'{"number":3,"white":"\\u00dcnal, \\u00dc","black":"","titles":["GM",""],"ratings":["2701",""],"teams":["Club",""],"federations":["",""],'
        b'"result":"*","forfeit":"","clocks":["1:29:55","1:30:00"],"runs":"b","at":1005.0,"pgn":"/03.pgn","date":"","place":"","control":"",'
        b'"moves":[{"san":"e4","clock":"1:29:55"}],"positions":["start","after e4"]}'
    ))  # fmt: skip
    after = SpectatorBoard(3, white, Player(), E5, b"", 900.0).text(5.0, board)
    same("news", after[after.index(b'"runs"') :], (
        b'"runs":"","at":null,"pgn":"/03.pgn","date":"","place":"","control":"","moves":[{"san":"e5","clock":""}],"positions":["after e5"],'
        b'"kept":{"moves":1,"positions":2}}'
    ))  # fmt: skip


def kept_beside_the_delay() -> None:
    """The seconds of --hold are kept, and of a command only that there was one."""
    for hold, command, text in ((None, False, ""), (20.0, False, "--hold 20\n"), (0.5, True, "--hold 0.5\n--publish\n"), (None, True, "--publish\n")):
        same(f"written {text}", (kept_text(KeptOut(hold, command)), read_kept(text)), (text, KeptOut(hold, command)))
    same("a later one", with_given(KeptOut(20.0, True), 0.0, False), KeptOut(0.0, True))
    same("none", with_given(KeptOut(20.0), None, True), KeptOut(20.0, True))
    before = "a last move goes out once it has stood for 20 seconds, as before; --hold 2 ends that"
    for kept, hold, command, told in (
        (KeptOut(), None, False, []),
        (KeptOut(20.0), None, False, [before]),
        (KeptOut(20.0), 5.0, False, []),
        (KeptOut(0.0), None, False, ["each move goes out at once, as before; --hold 2 ends that"]),
        (KeptOut(2.0), None, False, []),
        (KeptOut(20.0, True), None, True, [before]),
        (KeptOut(None, True), None, False, [UNPUBLISHED]),
    ):
        same(f"{kept} {hold} {command}", told_of_kept(kept, hold, command), told)


TABLES = [shown_when, game_goes_by, restarts, hidden_or_not, kept_delays, clocks_run, runs_of_a_command,
          one_run_at_a_time, scripts_of_the_docs, for_spectators, kept_beside_the_delay]  # fmt: skip
