"""Plays cases, each in a process of its own, some of them at once, and counts them.

Where all are played, up to three that fail are played once more, each alone. Such a case has passed if it passes then, and that is
said: it is a fault to be found. If more fail, something is broken, and none is played again.
"""

import dataclasses
import os
import pathlib
import signal
import subprocess
import sys
import tempfile
import time
import traceback
import types
from typing import Callable, Dict, Iterator, List, Optional, Sequence

import outside
from played import TOP
from played.recorder import Live
from played.stage import LIMIT, PROGRAM, Skipped, Stage

Case = Callable[[pathlib.Path], None]
PASSED, FAILED, SKIPPED = 0, 1, 3
MOST_AGAIN = 3  # cases that failed and are played once more


class OutOfTime(AssertionError):
    """A case has had its time. No error of the system, as TimeoutError is: nobody who expects those may take it for one."""


def out_of_time(*_: object) -> None:
    raise OutOfTime(f"{LIMIT} s are over")


def ended_from_outside(number: int, frame: Optional[types.FrameType]) -> None:
    """Says where the case stood, and ends it."""
    signal.signal(number, signal.SIG_IGN)
    stood = "".join(traceback.format_stack(frame))
    os.write(1, f"ended from outside by signal {number}, where it stood in\n{stood}".encode())
    sys.exit(143)


def tell_what_was_said() -> None:
    """What the last recorders of a case that failed have said."""
    for live in Live.all[-2:]:
        print(f"{live.name}, status {live.process.poll()}, said:\n{live.lines()[-1500:]}{live.complaint()[-1500:]}", flush=True)


def clear() -> None:
    """Ends what a case has left."""
    for live in Live.all:
        live.end()
    for board in Stage.boards:
        board.end()
    Live.all.clear()
    Stage.boards.clear()


def play(case: Case) -> int:
    """Plays one case here, and tells the outcome in a line."""
    signal.signal(signal.SIGTERM, ended_from_outside)
    signal.signal(signal.SIGALRM, out_of_time)
    start = time.monotonic()
    Stage.ends = start + LIMIT
    status, outcome = PASSED, "passed"
    with tempfile.TemporaryDirectory(prefix="dgt_live.") as folder:
        room = pathlib.Path(folder) / "room"
        place = pathlib.Path(folder) / "case"
        room.mkdir()
        place.mkdir()
        Live.scratch_folder = room
        signal.alarm(LIMIT + 5)
        try:
            case(place)
        except Skipped as skipped:
            status, outcome = (FAILED, "failed") if outside.no_skips() else (SKIPPED, "skipped")
            print(outside.skip_line(case.__name__, str(skipped)))
        except Exception:
            traceback.print_exc(file=sys.stdout)
            tell_what_was_said()
            status, outcome = FAILED, "failed"
        finally:
            signal.alarm(0)
            clear()
    print(f"{outcome} {case.__name__}, {time.monotonic() - start:.1f} s: {case.__doc__}", flush=True)
    return status


@dataclasses.dataclass
class Playing:
    """A case that is being played in a process of its own."""

    name: str
    output: pathlib.Path
    process: "subprocess.Popen[bytes]"
    turned_at: float
    seconds: float = 0.0  # in which it was played: a machine that was stopped for a while has taken nothing of them
    was_told: bool = False

    @property
    def is_over(self) -> bool:
        now = time.monotonic()
        self.seconds += min(now - self.turned_at, 1.0)
        self.turned_at = now
        if self.process.poll() is not None:
            return True
        if self.seconds > LIMIT + 240:
            self.process.kill()
        elif self.seconds > LIMIT + 120 and not self.was_told:
            self.was_told = True  # once: a second signal would end it without a word
            self.process.terminate()
        return False

    @property
    def outcome(self) -> int:
        """How it has ended."""
        status = self.process.returncode
        return status if status in (PASSED, SKIPPED) else FAILED

    @property
    def said(self) -> str:
        """What it has printed."""
        status = self.process.returncode
        text = self.output.read_text(errors="replace")
        return text if status in (PASSED, FAILED, SKIPPED) else f"{text}failed {self.name}: its process ended with status {status}\n"


def environment(folder: pathlib.Path) -> Dict[str, str]:
    """That of a case. Each recorder is run by this Python, takes what was compiled for all of them, and finds none of the boards
    that are plugged into this machine."""
    path = f"{pathlib.Path(sys.executable).parent}{os.pathsep}{os.environ.get('PATH', os.defpath)}"
    others = {name: value for name, value in os.environ.items() if name != "PYTHONDONTWRITEBYTECODE"}
    nothing_plugged = str(folder / "dev" / "serial")
    return {**others, "PATH": path, "PYTHONPYCACHEPREFIX": str(folder / "compiled"), "DGT_LIVE_SERIAL": nothing_plugged}


def compile_modules(folder: pathlib.Path) -> None:
    """Compiles the recorder's modules once, since a recorder keeps nothing of what it compiles."""
    words = [sys.executable, "-m", "compileall", "-q", str(TOP / "live")]
    subprocess.run(words, check=True, env=environment(folder))


def begin(script: str, name: str, folder: pathlib.Path) -> Playing:
    output = folder / name
    words = [sys.executable, script, "--alone", name]
    with open(output, "wb") as kept:
        process = subprocess.Popen(words, stdout=kept, stderr=subprocess.STDOUT, env=environment(folder))
    return Playing(name, output, process, time.monotonic())


def play_some(script: str, names: Sequence[str], at_once: int, place: pathlib.Path) -> Iterator[Playing]:
    """Plays these cases, and gives each as it ends."""
    waiting = list(names)
    playing: List[Playing] = []
    try:
        while waiting or playing:
            while waiting and len(playing) < at_once:
                playing.append(begin(script, waiting.pop(0), place))
            for one in [one for one in playing if one.is_over]:
                playing.remove(one)
                yield one
            time.sleep(0.02)
    finally:
        for one in playing:
            one.process.terminate()
        for one in playing:
            one.process.wait()


def played_again(failed: Sequence[str], counts: bool) -> List[str]:
    """Of the cases that have failed, those that are played once more. `counts` says that no single cases were wanted."""
    return list(failed) if counts and len(failed) <= MOST_AGAIN else []


def play_all(script: str, names: Sequence[str], at_once: int, plays_again: bool) -> Dict[int, int]:
    """How many there are of each outcome. Each case's lines are printed as it ends."""
    ended: Dict[str, Playing] = {}
    with tempfile.TemporaryDirectory(prefix="dgt_live.") as folder:
        place = pathlib.Path(folder)
        compile_modules(place)
        for one in play_some(script, names, at_once, place):
            ended[one.name] = one
            print(one.said, end="", flush=True)
        failed = [name for name, one in ended.items() if one.outcome == FAILED]
        for one in play_some(script, played_again(failed, plays_again), 1, place):
            ended[one.name] = one
            print(one.said, end="", flush=True)
            if one.outcome == PASSED:
                print(f"AT THE SECOND TRY {one.name}")
        for name in failed:
            if ended[name].outcome == FAILED:
                print(f"FAILED{ended[name].said.splitlines()[-1].replace('failed', '', 1)}")
    outcomes = [one.outcome for one in ended.values()]
    return {outcome: outcomes.count(outcome) for outcome in (PASSED, FAILED, SKIPPED)}


def count(outcomes: Dict[int, int]) -> str:
    """The last line, which tests/run reads."""
    skipped = f", {outcomes[SKIPPED]} skipped" if outcomes[SKIPPED] else ""
    return f"{outcomes[PASSED]} passed, {outcomes[FAILED]} failed{skipped}"


def lacks() -> bool:
    """Whether what all cases need is lacking, and says what."""
    if subprocess.run([PROGRAM, "--help"], stdin=subprocess.DEVNULL, stdout=subprocess.DEVNULL).returncode:
        print("bin/dgt_replay doesn't run, and is what all cases need")
        return True
    try:
        for number in os.openpty():
            os.close(number)
    except OSError as error:
        print(f"there is no pseudo-terminal here, and each case plays on one: {error}")
        return True
    return False


def main(script: str, cases: Sequence[Case], arguments: Sequence[str]) -> int:
    """`--alone NAME` plays one here; `--at-once N`, and names of cases, else all."""
    named = {case.__name__: case for case in cases}
    assert len(named) == len(cases), "two cases have one name, and one of them would never be played"
    if list(arguments[:1]) == ["--alone"]:
        return play(named[arguments[1]])
    wanted = list(arguments)
    at_once = 6
    if wanted[:1] == ["--at-once"]:
        at_once, wanted = int(wanted[1]), wanted[2:]
    if unknown := [name for name in wanted if name not in named]:
        print(f"there is no case {', '.join(unknown)}; there are {', '.join(named)}")
        return 2
    signal.signal(signal.SIGTERM, lambda *_: sys.exit(143))
    names = wanted or list(named)
    outcomes = {PASSED: 0, FAILED: len(names), SKIPPED: 0} if lacks() else play_all(script, names, at_once, not wanted)
    print(count(outcomes))
    return int(outcomes[FAILED] > 0)
