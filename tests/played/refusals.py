"""What is refused, and what stands then; help, names and dates, old games, the archive, the sources."""

import ast
import json
import os
import pathlib
import socket
import subprocess
from typing import Dict, List, Tuple

import outside
from played import TOP, words
from played.ports import free_port
from played.recorder import LIVE, Live
from played.stage import (
    PROGRAM,
    RUY,
    RUY_TEXT,
    SAMPLE_TEXT,
    Skipped,
    a_board,
    begin_game,
    begun,
    bytes_of,
    ended,
    go_on,
    movetext,
    refuses,
    same,
    stop,
    until,
    until_game,
    until_line,
)

MODULE_FOLDERS = ("tests", "tools", "bench")  # a file in one of them is imported by its name alone


def refused(folder: pathlib.Path) -> None:
    """What is refused before anything is begun: a message, no byte to the board, no file."""
    board = a_board(folder)
    (folder / "plain").write_text("")
    (folder / "shut").mkdir(mode=0o555)
    (folder / "options.options").mkdir()
    (folder / "text.pgn.new").mkdir()
    none = str(folder / "none")
    taken = socket.create_server(("127.0.0.1", 0))
    port = str(taken.getsockname()[1])
    cases = [
        ([board.device, "game", "--first", "green"], 2, "--first"),
        ([board.device, "game", "--fen", "8/8/8/8/8/8/8/4K3 w - - 0 1"], 1, "each side has one king"),
        ([board.device, "game", "--fen", "nonsense"], 1, "six fields"),
        ([board.device, "game", "--date", "last Sunday"], 1, "2024.05.31"),
        ([board.device, "game", "--white", "A" * 101], 1, "100"),
        ([board.device, "game", "--white", "王"], 1, words.WHITE_NAME),
        ([board.device, "game", "--colour", "red"], 2, "--colour"),
        ([board.device, "game", "--page"], 2, "--page"),
        ([board.device, "game", "--white"], 2, "--white"),
        ([board.device, ""], 2, "NAME"),
        ([board.device, "game", "more"], 2, "more"),
        ([board.device, "game", "--white", "Anna", "Kern"], 2, "in quotes, as 'Anna Kern'"),
        (["", "game"], 2, "as dgt_live /dev/ttyUSB0 game"),
        ([str(folder / "plain" / "board"), "game"], 3, "dgt_live --devices"),
        (["", "none", "--strict"], 1, "type the NAME of a game"),
        (["", "none", "--white", "Anna"], 1, "type its DEVICE first, as dgt_live /dev/ttyUSB0 none"),
        ([board.device, "game", "--devices"], 2, "--devices"),
        (["game", board.device], 2, "DEVICE first"),
        ([board.device, "game.dgt"], 1, "type its NAME alone, game"),
        ([board.device, "club/game-2.before.dgt"], 1, "type its NAME alone, club/game-2"),
        ([board.device, "game."], 1, "type its NAME alone, game"),
        ([none, "game"], 3, f"there is no {none}"),
        (["/dev/null", "game"], 3, words.NO_LINE),
        ([str(TOP / "crates.txt"), "game"], 3, words.NO_DEVICE),
        ([board.device, "none/game"], 3, words.NO_FOLDER),
        ([board.device, "plain/game"], 3, words.NO_FOLDER),
        ([board.device, "/proc/game"], 3, words.NOT_WRITTEN),
        ([board.device, "plain/" + "long" * 100], 3, words.NO_FOLDER),
        ([board.device, "long" * 100], 3, words.NOT_WRITTEN),
        ([none, "late", "--delay", "5", "--publish", "true"], 3, f"there is no {none}"),
        ([none, "blitz", "--series", "--delay", "5"], 3, f"there is no {none}"),
        ([none, "shown", "--page", str(free_port())], 3, f"there is no {none}"),
        ([board.device, "taken", "--page", port], 3, f"another program has port {port}"),
        ([board.device, "options"], 3, "options.options can't be read"),
        ([board.device, "text"], 3, "text.pgn can't be written"),
    ]
    if os.getuid():
        cases.append(([board.device, "shut/game"], 3, words.NOT_WRITTEN))
    before = sorted(path.name for path in folder.iterdir())
    calls = [(Live(device, name, *options, cwd=folder), status, part) for (device, name, *options), status, part in cases]
    for live, status, part in calls:
        refuses(live, status, part)
        same(live.lines(), "")
        assert "Traceback" not in live.complaint(), live.complaint()
        assert "dgt_replay <COMMAND>" not in live.complaint(), live.complaint()
    same(sorted(path.name for path in folder.iterdir()), before)
    same(list((folder / "shut").iterdir()), [])
    taken.close()
    (folder / "foreign.pgn").write_text("a game\n")
    refuses(Live(board.device, folder / "foreign"), 1, "foreign.pgn is there without")
    same((folder / "foreign.pgn").read_text(), "a game\n")
    board.listen(0)
    same(board.asked, b"")


def old_name(folder: pathlib.Path) -> None:
    """How the board lies and where the game begins can't be changed once a ply stands; the same options, and none, go on. Whose
    time comes first may be changed, while it is recorded and afterwards, and stays so."""
    board = a_board(folder)
    options = ["--white", "Anna O'Neil \\ \"x\" $HOME *", "--event", "", "--first=black"]
    live = Live(board.device, folder / "game", *options)
    begun(live)
    board.clock(600, 500)
    board.play("e2e4")
    until_game(live.name, "1. e4 {[%clk 0:08:20]} *")
    same(stop(live), 0)
    board.listen(0)
    asked = board.asked
    kept = bytes_of(live.name + ".dgt"), bytes_of(live.name + ".pgn")
    for other in (["--rotated"], [*options, "--rotated"], ["--fen", "8/8/4k3/8/8/4K3/4P3/8 w - - 0 1"]):
        answer = Live(board.device, live.name, *other)
        refuses(answer, 1, words.OTHER_OPTIONS)
        assert "O'Neil" in answer.complaint(), answer.complaint()
    same((bytes_of(live.name + ".dgt"), bytes_of(live.name + ".pgn")), kept)
    board.listen(0)
    same(board.asked, asked)
    again = go_on(board, live)
    board.clock(590, 500)
    board.play("e7e5")
    until_game(live.name, "1. e4 {[%clk 0:08:20]} 1... e5 {[%clk 0:09:50]} *")
    same(stop(again), 0)
    again = go_on(board, live, *options)
    board.play("g1f3")
    black_first = "1. e4 {[%clk 0:08:20]} 1... e5 {[%clk 0:09:50]} 2. Nf3 {[%clk 0:08:20]} *"
    white_first = "1. e4 {[%clk 0:10:00]} 1... e5 {[%clk 0:08:20]} 2. Nf3 {[%clk 0:09:50]} *"
    until_game(live.name, black_first)
    same(stop(again), 0)
    calls: List[Tuple[List[str], str]] = [(["--first", "white"], white_first), ([], white_first), (options, black_first)]
    for given, text in calls:
        again = go_on(board, live, *given)
        until_game(live.name, text)
        until_line(again, "2. Nf3  0:09:50" if text == white_first else "2. Nf3  0:08:20")
        same(stop(again), 0)
    anew = subprocess.run([LIVE, "--first", "white", live.name], stdout=subprocess.PIPE)
    same((anew.returncode, movetext(live.name)), (0, white_first))
    assert b"White's time comes first" in anew.stdout, anew.stdout
    assert '[White "Anna O\'Neil \\\\ \\"x\\" $HOME *"]\n' in bytes_of(live.name + ".pgn").decode()
    assert '[Event ""]\n' in bytes_of(live.name + ".pgn").decode()
    (folder / "bare").mkdir()
    board, live = begin_game(folder / "bare")
    same(stop(live), 0)
    answer = Live(board.device, live.name, "--rotated")
    refuses(answer, 1, "has moves, and was begun without options: give none to go on, or choose another name\n")


def options_changed(folder: pathlib.Path) -> None:
    """While no ply stands the options may be changed: the same NAME with --rotated, and with another player. What was given
    before stays."""
    board = a_board(folder, rotated=True)
    wrong = Live(board.device, folder / "game", "--white", "Anna")
    until(lambda: len(bytes_of(wrong.name + ".dgt")) >= 67, "a dump")
    until(lambda: len(wrong.lines().splitlines()) > 1, "a line on the squares")
    same(stop(wrong), 0)
    right = Live(board.device, wrong.name, "--rotated", "--black", "Ben")
    begun(right)
    told = "its options are now --rotated --white Anna --black Ben, and were --white Anna"
    same((right.lines().count(told), (folder / "game.log").read_text().count(told)), (1, 1))
    for move in RUY:
        board.play(move)
    until_game(right.name, RUY_TEXT)
    same(stop(right), 0)
    assert b'[White "Anna"]\n[Black "Ben"]' in bytes_of(right.name + ".pgn")
    again = go_on(board, right, "--rotated", "--black", "Ben")
    begun(again)
    assert "its options" not in again.lines(), again.lines()
    same(stop(again), 0)


def with_a_device(folder: pathlib.Path) -> None:
    """What makes a game anew is called while it is recorded, and with its device when it is over: each answer says what to do.
    So does that to the game's own name, typed behind a result."""
    board = a_board(folder)
    live = Live(board.device, folder / "g3", typed=True)
    begun(live)
    for move in RUY:
        board.play(move)
    until_game(live.name, RUY_TEXT)
    for answer in [Live("", live.name, *option) for option in (["--first", "black"], ["--recover"], ["--strict"])]:
        refuses(answer, 1, f"{live.name} {words.IS_RECORDED}")
    live.type("1-0 g3")
    until_line(live, "refused: 1-0 g3: a result among other words. Type the moves, and then the result alone, in a line of its own")
    live.type("Nc6 1-0 Bb5")
    until_line(live, "refused: Nc6 1-0 Bb5: a result among other words. Type the moves, and then the result alone, in a line of its own")
    same(movetext(live.name), RUY_TEXT)
    live.type("1-0")
    same(ended(live), 0)
    for option in (["--first", "black"], ["--recover", "--first=black"], ["--strict", "--white", "Anna"]):
        answer = Live(board.device, live.name, *option)
        refuses(answer, 1, "g3 is over")
        wanted = {"--first": "--first black", "--recover": "--recover --first black", "--strict": "--strict"}[option[0]]
        assert f"  {words.LEAVE_IT_OUT} {wanted} {live.name}\n" in answer.complaint(), answer.complaint()
    answer = Live(board.device, live.name)
    refuses(answer, 1, "g3 is over")
    assert words.LEAVE_IT_OUT not in answer.complaint(), answer.complaint()


def other_device(folder: pathlib.Path) -> None:
    """A game goes on with a device that isn't there: it may be mistyped, and that is said. One that goes away later isn't."""
    board, live = begin_game(folder)
    assert words.OTHER_DEVICE not in live.lines(), live.lines()
    board.pull()
    until_line(live, words.GOES_ON)
    same(stop(live), 0)
    nowhere = folder / "nowhere"
    again = Live(nowhere, live.name)
    until_line(again, f"{nowhere} {words.OTHER_DEVICE}")
    until_line(again, words.UNPLUGGED)
    same(stop(again), 0)
    again = Live(board.device, live.name)
    until_line(again, words.OTHER_DEVICE)
    board.plug()
    until_line(again, words.BACK)
    board.pull()
    until_line(again, words.GOES_ON)
    same((again.lines().count(words.OTHER_DEVICE), stop(again)), (1, 0))


def names_and_dates(folder: pathlib.Path) -> None:
    """Names and dates as they are written elsewhere become what PGN takes."""
    board = a_board(folder)
    options = ["--white", "Jörg Müller", "--black", "Håkon Łukasz Ørsted", "--date", "31.05.2024", "--site", "Besançon"]
    live = Live(board.device, folder / "game", *options)
    begun(live)
    board.play("e2e4")
    until_game(live.name, "1. e4 *")
    same(stop(live), 0)
    text = bytes_of(live.name + ".pgn").decode()
    for tag in ('White "Joerg Mueller"', 'Date "2024.05.31"', 'Site "Besancon"'):
        assert f"[{tag}]\n" in text, f"{tag} in\n{text}"
    assert text.isascii() and "Joerg Mueller" in live.lines(), live.lines()
    movetext_and_tags(live.name, 'White "Jörg Müller"', 'Black "Håkon Łukasz Ørsted"', 'Site "Besançon"')
    # The same words go on with the game, and so does none.
    again = go_on(board, live, *options)
    board.play("e7e5")
    until_game(live.name, "1. e4 e5 *")
    same(stop(again), 0)
    # Tags may be given when the game is over too.
    tagged = Live("", live.name, "--tag", "WhiteElo=2050", "--tag", "timecontrol=90+30")
    same(ended(tagged), 0)
    movetext_and_tags(live.name, 'White "Jörg Müller"', 'WhiteElo "2050"', 'TimeControl "5400+30"')
    same(bytes_of(live.name + ".pgn").isascii(), True)
    refuses(Live("", live.name, "--tag", "WhiteElo=20x0"), 2, "WhiteElo: '20x0' is no rating")
    (folder / "room").mkdir()
    other = Live(a_board(folder / "room").device, folder / "other", "--date", "2024-05-31")
    begun(other)
    same(stop(other), 0)
    assert b'[Date "2024.05.31"]' in bytes_of(other.name + ".pgn")


def movetext_and_tags(name: str, *tags: str) -> None:
    """What is published has these tags, and the movetext that is recorded."""
    head, _, movetext = bytes_of(name + ".broadcast.pgn").partition(b"\n\n")
    for tag in tags:
        assert f"[{tag}]\n" in head.decode() + "\n", f"{tag} in\n{head.decode()}"
    same(movetext.rstrip(), bytes_of(name + ".pgn").partition(b"\n\n")[2].rstrip())


EAST, WEST = {"TZ": "AAA-14"}, {"TZ": "BBB12"}  # where it is always another day


def today(zone: Dict[str, str]) -> str:
    """The date there, as `date` prints it."""
    call = ["date", "+%Y.%m.%d"]
    return subprocess.run(call, stdout=subprocess.PIPE, env={**os.environ, **zone}, check=True).stdout.decode().strip()


def dates(folder: pathlib.Path) -> None:
    """A game has the date on which it began, where no other is typed; it keeps it when it goes on on another day. One without a
    move begins again. In a series each game has its own. An old game that has none stays so."""

    def date_of(name: object) -> str:
        return bytes_of(f"{name}.pgn").decode().partition('[Date "')[2].partition('"')[0]

    board = a_board(folder)
    live = Live(board.device, folder / "game", "--white", "Anna", environment=WEST)
    begun(live)
    before, now = date_of(live.name), today(WEST)
    assert before == now or today(WEST) != now, (before, now)
    same(stop(live), 0)
    live = Live(board.device, folder / "game", environment=EAST)
    begun(live)
    began, now = date_of(live.name), today(EAST)
    assert began != before and (began == now or today(EAST) != now), (before, began, now)
    board.play("e2e4")
    until_game(live.name, "1. e4 *")
    same(stop(live), 0)
    anna = ("--white", "Anna")
    for given in ((), anna, (*anna, "--date", began), ("--date", before), ()):
        again = Live(board.device, live.name, *given, environment=WEST)
        until_line(again, "1. e4")
        same(stop(again), 0)
        began = before if before in given else began
        same(date_of(live.name), began)
    (folder / "old.dgt").write_bytes((TOP / "samples" / "short-game.dgt").read_bytes())
    (folder / "old.options").write_text("--white\nAnna\n")
    again = Live(board.device, folder / "old")
    until_line(again, "3. Bb5")
    same(stop(again), 0)
    same(date_of(folder / "old"), "????.??.??")
    place = folder / "series"
    place.mkdir()
    for path in folder.glob("old.*"):
        path.rename(place / path.name.replace("old", "old-1"))
    (place / "old-1.end").write_text(f"{(place / 'old-1.dgt').stat().st_size}\n")
    again = Live(a_board(place).device, place / "old", "--series", environment=EAST)
    until(lambda: date_of(place / "old-2"), "the next game")
    now = today(EAST)
    same(stop(again), 0)
    assert date_of(place / "old-2") == now or today(EAST) != now, date_of(place / "old-2")
    same(date_of(place / "old-1"), "????.??.??")


def old_game(folder: pathlib.Path) -> None:
    """A game that the shell script of before has begun goes on: its capture, its options, its text."""
    capture = (TOP / "samples" / "short-game.dgt").read_bytes()
    board = a_board(folder)
    for move in RUY:
        board.play(move)
    for name, kept in (("game", "--white\nAnna\n--event\n\n--date=2024.05.31\n"), ("bare", "")):
        (folder / f"{name}.dgt").write_bytes(capture)
        (folder / f"{name}.options").write_text(kept)
    live = Live(board.device, folder / "game", "--white", "Anna", "--event", "", "--date=2024.05.31")
    until_line(live, "3. Bb5")
    until(lambda: board.asked_for_updates, "a request for updates")
    board.play("a7a6")
    until_game(live.name, SAMPLE_TEXT.replace(" *", " 3... a6 {[%clk 1:29:30]} *"))
    same(stop(live), 0)
    text = bytes_of(live.name + ".pgn").decode()
    for tag in ('White "Anna"', 'Event ""', 'Date "2024.05.31"'):
        assert f"[{tag}]\n" in text, f"{tag} in\n{text}"
    same(bytes_of(live.name + ".dgt")[: len(capture)], capture)
    bare = Live(board.device, folder / "bare")
    until_game(bare.name, SAMPLE_TEXT.replace(" *", " 3... a6 {[%clk 1:29:30]} *"))
    same(stop(bare), 0)


def twice(folder: pathlib.Path) -> None:
    """Two at once on one NAME, and two at once on one device: the second is refused and begins nothing, the first goes on."""
    board, live = begin_game(folder)
    place = folder / "other"
    place.mkdir()
    other = a_board(place)
    second = Live(other.device, live.name)
    third = Live(board.device, place / "game")
    refuses(second, 1, words.ANOTHER_RECORDER)
    refuses(third, 3, words.ANOTHER_RECORDER)
    same((third.lines(), list(place.glob("game*"))), ("", []))
    assert "again" not in third.complaint(), third.complaint()
    same(other.asked, b"")
    for move in RUY[2:]:
        board.play(move)
    until_game(live.name, RUY_TEXT)
    same(stop(live), 0)


def help_on_a_screen(folder: pathlib.Path) -> None:
    """--help says all on 80 by 24."""
    answer = subprocess.run([LIVE, "--help"], stdout=subprocess.PIPE)
    same(answer.returncode, 0)
    lines = answer.stdout.decode().splitlines()
    assert len(lines) < 24 and all(len(line) < 80 for line in lines), (len(lines), max(map(len, lines)))
    for word in ["--series", "--once", "--rotated", "--first", "--fen", "--event", "NAME.dgt", "NAME.pgn", "--add"]:
        assert word in answer.stdout.decode(), word


def archive(folder: pathlib.Path) -> None:
    """bin/package's archive, unpacked into an empty folder: the sample, the manual pages, a played game, all without the
    toolchain and with no file of the repository."""
    made = []
    for _ in range(2):
        answer = subprocess.run([TOP / "bin" / "package"], stdout=subprocess.PIPE)
        same(answer.returncode, 0)
        (name,) = [line for line in answer.stdout.decode().splitlines() if line.endswith("-x86_64-linux.tar.gz")]
        made.append((TOP / name).read_bytes())
    assert made[0] == made[1], "it is another archive"
    (folder / "archive").write_bytes(made[0])
    subprocess.run(["tar", "-xzf", "archive"], cwd=folder, check=True)
    answer = subprocess.run([PROGRAM, "--version"], stdout=subprocess.PIPE)
    program, version = answer.stdout.decode().split()
    same(program, "dgt_replay")
    unpacked = folder / f"dgt_replay-{version}-x86_64-linux"
    names = {"USING.md", "BROADCAST.md", "REFERENCE.md", "dgt_live.1", "dgt_replay.1", "short-game.dgt"}
    names |= {"dgt_live", "dgt_round", "dgt_replay"}
    same(names - {path.name for path in unpacked.iterdir()}, set())
    sample = (unpacked / "short-game.dgt").read_bytes()
    answer = subprocess.run([unpacked / "dgt_replay", "record"], input=sample, capture_output=True, env={"LC_ALL": "C"})
    same(answer.stdout.split(b"\n\n")[1].replace(b"\n", b" ").decode(), SAMPLE_TEXT)
    same(answer.stderr, b"BKB\nmessages 24, faults 1, moves 5, rest 0\n")
    for page in ["dgt_live.1", "dgt_replay.1"]:
        assert version in (unpacked / page).read_text(), page
        if groff := outside.path_of("groff-base"):
            answer = subprocess.run([groff, "-ww", "-man", "-Tutf8", unpacked / page], capture_output=True)
            same((answer.returncode, answer.stderr), (0, b""))
    place = folder / "room"
    place.mkdir()
    board = a_board(place)
    live = Live(board.device, place / "game", program=unpacked / "dgt_live", environment={"PATH": "/usr/bin:/bin"})
    begun(live)
    for move in RUY:
        board.play(move)
    until_game(live.name, RUY_TEXT)
    same(stop(live), 0)
    if lacking := outside.lacks("groff-base"):
        raise Skipped(f"but for the manual pages all is well, and {lacking}")


def sources(kind: str) -> "list[pathlib.Path]":
    """The scripts of the repository that are written in `kind`, as their first line or their name says."""
    places = [TOP / "bin", TOP / "bench", TOP / "hosts", TOP / "live", TOP / "tests", TOP / "tools", TOP / "samples"]
    files = [path for place in places for path in sorted(place.rglob("*")) if path.is_file() and "__pycache__" not in path.parts]
    suffix = {"python3": ".py", "sh": ".sh"}[kind]
    found = []
    for path in files:
        with open(path, "rb") as file:
            first = file.readline(100)
        if path.suffix == suffix or first.startswith(b"#!") and kind in first.decode().split("/")[-1].split():
            found.append(path)
    return found


def complains_of_nothing(tool: str, *arguments: object, path: str = "") -> None:
    """The tool prints nothing that is wrong. The case is skipped where the tool isn't here."""
    program = outside.path_of(tool)
    if program is None:
        raise Skipped(outside.lacks(tool))
    answer = subprocess.run(
        [program, *map(str, arguments)],
        cwd=TOP,
        stdout=subprocess.PIPE,
        stderr=subprocess.STDOUT,
        env={**os.environ, "MYPYPATH": path},
    )
    assert answer.returncode == 0, answer.stdout.decode()


def shellcheck(folder: pathlib.Path) -> None:
    """shellcheck warns of nothing in the shell scripts."""
    complains_of_nothing("shellcheck", "--severity=warning", *sources("sh"))


def pyflakes3(folder: pathlib.Path) -> None:
    """pyflakes has no complaint about any Python file."""
    complains_of_nothing("pyflakes3", *sources("python3"))


def mypy(folder: pathlib.Path) -> None:
    """mypy --strict has no complaint about any Python file but samples/make.py, as one for Python 3.9."""
    links = folder / "links"  # a script is a module to mypy where its name ends in '.py'
    links.mkdir()
    files = []
    for path in sources("python3"):
        if path.parent.name == "samples":
            continue
        if path.suffix != ".py":
            link = links / f"{path.parent.name}_{path.name}.py"
            link.symlink_to(path)
            path = link
        files.append(path)
    places = os.pathsep.join(map(str, [links, TOP, *(TOP / name for name in MODULE_FOLDERS)]))
    words = ["--strict", "--python-version=3.9", "--explicit-package-bases", f"--cache-dir={folder}"]
    complains_of_nothing("mypy", *words, *files, path=places)


def tsc(folder: pathlib.Path) -> None:
    """TypeScript's checker has no complaint about the modules of both pages and those that they import; it has one about a text for a
    number."""
    complains_of_nothing("node-typescript", "--project", TOP / "web" / "jsconfig.json")
    (folder / "wrong.js").write_text(f"import {{ differing }} from '{TOP}/web/line/protocol.js';\n\ndiffering('1', [2]);\n")
    wrong = folder / "jsconfig.json"
    wrong.write_text(json.dumps({"extends": str(TOP / "web" / "jsconfig.json"), "include": ["wrong.js"]}))
    try:
        complains_of_nothing("node-typescript", "--project", wrong)
    except AssertionError as error:
        same([line.split(": ")[1] for line in str(error).splitlines()], ["error TS2345"])
    else:
        raise AssertionError("a text passes for a picture")


TOGETHER = "attending.py kept.py typed.py playing.py state.py arbiter.py terminal.py".split()  # of two that are always opened together


def compiles(folder: pathlib.Path) -> None:
    """Each Python file compiles as one for Python 3.9, isn't long, and names each kind of error that it catches."""
    for path in sources("python3"):
        text = path.read_text()
        tree = ast.parse(text, str(path), feature_version=(3, 9))
        compile(tree, str(path), "exec")
        for node in ast.walk(tree):
            assert not (isinstance(node, ast.ExceptHandler) and node.type is None), f"{path}:{node.lineno}: name what is caught"
        most = 700 if path.name in TOGETHER else 500
        assert len(text.splitlines()) <= most or path.parent.name == "samples", f"{path} is long"
