"""What goes out late is said again after a restart, from the captures and their times: of a capture that was replaced too, over the
games of a series, and in no other words than the program says of the bytes that had come by then."""

import os
import pathlib
import time
from typing import List

from live.child.lines import Clock, Move, Position, line_of
from live.child.program import Program
from live.game import times
from live.game.files import Paths
from live.game.game import put_options
from live.game.kept import milliseconds
from live.game.options import Options
from live.game.times import HEADED, Began, began_line, part_line, summed, this_start
from live.out.again import MARGIN, said_again
from play_board import BLACK, KING
from played import TOP
from played.back import answered
from played.hidden import QUEUED
from played.late import AGAIN, DRAWN, WAITS, WON, Game, last_shown, text_of
from played.stage import RUY_TEXT, begun, kill, program, rest, run, same, stop, until, until_dumped, until_line


def said_at_each_place(folder: pathlib.Path) -> None:
    """Of a game whose bytes came a second after each other, the program says at each time its `record` and its `watch` of the bytes until
    then. What is older than the delay comes as one; so does what has no time, or is another capture's."""
    sample = (TOP / "samples" / "long-game.dgt").read_bytes()
    paths, now, program_ = Paths(f"{folder}/02"), time.monotonic(), Program(program())
    pathlib.Path(paths.capture).write_bytes(sample)
    sizes = [*range(97, len(sample), 97), len(sample)]
    lasted = 1000 * len(sizes)
    began = milliseconds() - lasted - 5000
    heading = times.heading(0, sample[:HEADED])
    lines = [b"0 begin 0\n", *(b"%d heard %d\n" % (1000 * number, size - before) for number, (before, size) in enumerate(zip([0, *sizes], sizes), 1))]
    pathlib.Path(f"{folder}/02.times").write_bytes(heading + b"".join(lines))
    parts = [part_line(0, 0, heading + b"".join(lines[:9])), part_line(0, len(heading + b"".join(lines[:9])), b"".join(lines[9:]))]
    pathlib.Path(paths.began).write_bytes(summed([began_line((0, len(heading)), Began(began, this_start())), *parts], 0))
    options = Options.of_words(["--white=Anna", "--event=Club", "--first=black", "--recover"])
    put_options(paths, options)
    said = said_again(program_, [paths], 100000.0, time.monotonic)
    ago = [now - came for came, _ in said]
    same((all(1 < one < lasted / 1000 + 30 for one in ago), ago == sorted(ago, reverse=True)), (True, True))
    found = {round(came - (said[0][0] - 1)): shot for came, shot in said[: len(sizes)]}
    same(sorted(found), [*range(1, len(sizes) + 1)])
    for number, size in [*list(enumerate(sizes, 1))[::5], (len(sizes), sizes[-1])]:
        shot, sent = found[number], sample[:size]
        same((size, shot.text), (size, run("record", *options.of_record(), given=sent).stdout))
        read = [line_of(text) for text in run("watch", *options.of_board(), given=sent).stdout.decode().splitlines()]
        events = [line.event for line in read if line]
        plies: List[Move] = []
        for event in events:
            if isinstance(event, Move):
                plies[len(plies) - event.corrects :] = [event]
        same((size, [ply.san for ply in shot.moves]), (size, [ply.san for ply in plies]))
        same((size, shot.positions[-1:]), (size, tuple(event.fen for event in events if isinstance(event, Position))[-1:]))
        clocks = [event for event in events if isinstance(event, Clock)][-1:]
        if not shot.clocks.runs:
            same((size, shot.clocks.white, shot.clocks.black), (size, *([clocks[0].white, clocks[0].black] if clocks else ["", ""])))
    whole = run("record", *options.of_record(), given=sample).stdout
    earlier = time.monotonic()
    late = said_again(program_, [paths], 30.0 - MARGIN, time.monotonic)
    same((len({came for came, _ in late}) < 35, late[-1][1].text), (True, whole))
    same((late[0][0] <= time.monotonic() - 30, late[1][0] >= earlier - 30), (True, True))
    pathlib.Path(f"{folder}/02.times").write_bytes(heading + b"".join(lines[:9]))
    cut = said_again(program_, [paths], 100000.0, time.monotonic)
    ago = [now - came for came, _ in cut]
    same((len([one for one in ago if one > 1]), cut[-1][1].text, ago[-1] < 0), (9, whole, True))  # eight, and that the clock stands
    pathlib.Path(f"{folder}/02.times").write_bytes(heading.replace(b" digest ", b" digest 1") + b"".join(lines))
    same([(shot.text, came > now) for came, shot in said_again(program_, [paths], 100000.0, time.monotonic)], [(whole, True)])
    same(said_again(program_, [Paths(f"{folder}/03")], 100000.0, time.monotonic), [])
    os.rename(paths.capture, f"{folder}/precious")
    os.symlink(f"{folder}/precious", paths.capture)
    same(said_again(program_, [paths], 100000.0, time.monotonic), [])


def forfeited_since_then(folder: pathlib.Path) -> None:
    """A board shows the start three times, a second after each other, and after the first or second one somebody types that neither player
    came: the game is forfeited from the next picture on. If it isn't known how many bytes there were, nothing says since when."""
    dump = (TOP / "samples" / "short-game.dgt").read_bytes()[:67]
    paths, heading = Paths(f"{folder}/01"), times.heading(0, dump)
    pathlib.Path(paths.capture).write_bytes(3 * dump)
    lines = heading + b"0 begin 0\n1000 heard 67\n2000 heard 67\n3000 heard 67\n"
    pathlib.Path(f"{folder}/01.times").write_bytes(lines)
    call = began_line((0, len(heading)), Began(milliseconds() - 10000, this_start()))
    pathlib.Path(paths.began).write_bytes(summed([call, part_line(0, 0, lines)], 0))
    for content, wanted in ((b"-- 67\n", ["", "--", "--"]), (b"-- 134\n", ["", "", "--"]), (b"-- 201\n", [""] * 3), (b"--\n", [""] * 3), (b"+- 67\n", [""] * 3)):
        pathlib.Path(paths.forfeit).write_bytes(content)
        said = said_again(Program(program()), [paths], 900.0, time.monotonic)
        same((content, [shot.forfeit for _, shot in said][:3]), (content, wanted))


def back_and_killed(folder: pathlib.Path) -> None:
    """Plies are taken off, so that the game has another capture, and it is killed: spectators see first what they would have seen of
    the old one, and then the new one."""
    game = Game(folder)
    live = game.record()
    game.play(live)
    game.clock.be(300)
    for move in ("b5f1", "c6b8", "f3g1"):
        game.board.play(move)
    until_dumped(game.board, live.name)
    answered(live, "back 1... e5", "takes off 3 plies, from 2. Nf3: type it again")
    answered(live, "back 1... e5", "back to 1... e5; taken off: 2. Nf3 Nc6 3. Bb5")
    game.until_kept("1. e4 e5 *")
    kill(live)
    for seconds, shown in ((600, "*"), (910, RUY_TEXT), (1000, RUY_TEXT), (1210, "1. e4 e5 *")):
        game.clock.be(seconds)
        live = game.record(delay="")
        begun(live)
        game.until_shown(shown)
        rest(0.5)
        same((seconds, game.shown), (seconds, [shown] * 2))
        kill(live)


def series_killed(folder: pathlib.Path) -> None:
    """A series goes out late and is killed in its second game: spectators see the rest of the first one, and then the second."""
    game = Game(folder)
    game.name = folder / "blitz"
    live = game.record("--series")
    begun(live)
    game.until_shown("*")
    game.board.play("e2e4")
    game.until_kept("1. e4 *")
    game.clock.be(300)
    game.board.kings_in_centre("e4", "d5")
    game.until_kept("1. e4 1-0")
    game.clock.be(400)
    game.board.set_up(last=(KING, BLACK + KING))
    game.until_kept("*")
    game.clock.be(600)
    game.board.play("d2d4")
    game.until_kept("1. d4 *")
    kill(live)
    for seconds, shown in ((700, "*"), (910, "1. e4 *"), (1210, "1. e4 1-0"), (1310, "*"), (1510, "1. d4 *")):
        game.clock.be(seconds)
        live = game.record("--series", delay="")
        begun(live)
        game.until_shown(shown)
        rest(0.5)
        same((seconds, game.shown), (seconds, [shown] * 2))
        if seconds % 100 == 0:
            live.send(2)
            until_line(live, AGAIN)
            same(stop(live), 0)
        else:
            kill(live)


def clocks_run_again(folder: pathlib.Path) -> None:
    """Black's clock runs, and Black moves: a restart has the clock as it was read last, and that it has run since then."""
    game = Game(folder)
    live = game.record()
    begun(live)
    began = time.monotonic()
    game.board.clock(5400, 5400)
    game.board.play("e2e4")
    game.until_kept("1. e4 *")
    game.clock.be(10)
    game.board.clock(5400, 5390)
    until(lambda: [shot.clocks.runs for shot in game.hidden()][-1:] == ["b"], "a clock that runs")
    game.board.play("e7e5")
    game.until_kept("1. e4 e5 *")
    kill(live)
    for noted in (folder / QUEUED).iterdir():
        noted.unlink()
    live = game.record(delay="")
    until(lambda: "1. e4 e5 *" in [text_of(shot.text) for shot in game.hidden()], "what the next one has", 0.02)
    running = [shot.clocks for shot in game.hidden() if shot.clocks.runs]
    kill(live)
    same({(clocks.white, clocks.black, clocks.runs) for clocks in running}, {("1:30:00", "1:29:50", "b")})
    same([began + 10 <= clocks.at <= time.monotonic() + 10 for clocks in running], [True] * len(running))


def result_put_right(folder: pathlib.Path) -> None:
    """The result of a game that is over is put right, so that the capture has other bytes at its end. As the first one is shown, it is
    killed: the moves stay, and the right result comes at its time."""
    game = Game(folder)
    live = game.record()
    game.play(live)
    game.clock.be(300)
    live.type("1-0")
    game.until_kept(WON)
    game.clock.be(320)
    until_line(live, WAITS)
    live.type("1/2-1/2")
    game.until_kept(DRAWN)
    game.clock.be(1210)
    game.until_shown(WON)
    kill(live)
    game.clock.be(1215)
    live = game.record(delay="")
    until_line(live, WAITS)
    rest(1)
    same([text.rpartition(" ")[0] for text in game.shown], [RUY_TEXT.rpartition(" ")[0]] * 2)
    last_shown(game, live, 2120)
    same(game.shown, [DRAWN] * 2)


CASES = [said_at_each_place, forfeited_since_then, back_and_killed, series_killed, clocks_run_again, result_put_right]
