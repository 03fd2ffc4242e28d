"""Outputs of a round beside its first one: what is typed for one, a tournament's lines, what belongs to one in the round's folder, and
that a run of its command waits for the one before."""

import os
import pathlib
import tempfile
from typing import Callable, List, Tuple

from live.out import one_at_a_time
from live.out.delay import GoingOut
from live.out.outputs import (
    EXAMPLE, LONG_EXAMPLE, Output, left_in, name_in, read_output, read_outputs, refuse_games_in_site, refuse_links, refuse_shared_sites,
    refuse_unknown, removed, told_of, without_those,
)  # fmt: skip
from live.doors.dgt_round import VALUED, parse
from live.game.game import OF_AN_OUTPUT, check_name
from live.round.tournament import TEMPLATE, words_of
from live.run.refused import Refused

from decided.table import refused, same

HOME = os.path.expanduser("~")
GIVEN: List[Tuple[str, Output]] = [
    ("agency=3", Output("agency", GoingOut(180.0, (), "agency"))),
    ("agency = 3 minutes, /home/anna/agency.sh", Output("agency", GoingOut(180.0, ("/home/anna/agency.sh",), "agency"))),
    ("Agency=0.5 min,curl --config '/home/anna/my file' -T", Output("agency", GoingOut(30.0, ("curl", "--config", "/home/anna/my file", "-T"), "agency"))),
    ("hall = 0, /home/anna/hall.sh", Output("hall", GoingOut(0.0, ("/home/anna/hall.sh",), "hall"))),
    ("hall-2 = 1 minute, scp -o A=b,c", Output("hall-2", GoingOut(60.0, ("scp", "-o", "A=b,c"), "hall-2"))),
    ("public = 15, web /srv/my site, /home/anna/public.sh", Output("public", GoingOut(900.0, ("/home/anna/public.sh",), "public"), "/srv/my site")),
    ("public = 15, web /srv/www", Output("public", GoingOut(900.0, (), "public"), "/srv/www")),
    ("public = 15, web ~/my site, ~/public.sh", Output("public", GoingOut(900.0, (f"{HOME}/public.sh",), "public"), f"{HOME}/my site")),
    ("public = 15, web ./~", Output("public", GoingOut(900.0, (), "public"), "./~")),
    ("public=15,", Output("public", GoingOut(900.0, (), "public"))),
    ("public = 15, website.sh", Output("public", GoingOut(900.0, ("website.sh",), "public"))),
    ("public = no", Output("public")),
    ("public=NO", Output("public")),
    *((text, read_output(text)) for text in (EXAMPLE, LONG_EXAMPLE)),
]
NAME = "type letters, digits and -, a letter first, as output agency = 3, /home/anna/agency.sh"
MINUTES = "type minutes, 0 for at once, and behind a comma the command, as agency = 3, /home/anna/agency.sh"
WRONG = {
    "": f"an output has a name: {NAME}",
    "= 3": f"an output has a name: {NAME}",
    "3": f"'3' is no name of an output: {NAME}",
    "3 = 3": f"'3' is no name of an output: {NAME}",
    "my agency = 3": f"'my agency' is no name of an output: {NAME}",
    "a/b = 3": f"'a/b' is no name of an output: {NAME}",
    ".. = 3": f"'..' is no name of an output: {NAME}",
    "é = 3": f"'é' is no name of an output: {NAME}",
    f"{'a' * 31} = 3": f"'{'a' * 31}' is no name of an output: {NAME}",
    "agency": f"--output agency: how late is it? {MINUTES}",
    "agency = ": f"--output agency: how late is it? {MINUTES}",
    "agency = /home/anna/agency.sh": f"--output agency: '/home/anna/agency.sh' is no number of minutes: {MINUTES}",
    "agency = 3 /home/anna/agency.sh": f"--output agency: '3 /home/anna/agency.sh' is no number of minutes: {MINUTES}",
    "agency = no, /home/anna/agency.sh": f"--output agency: 'no' is no number of minutes: {MINUTES}",
    "agency = -3": f"--output agency: '-3' is no number of minutes: {MINUTES}",
    "agency = 1441": f"--output agency: '1441' is no number of minutes: {MINUTES}",
    "agency = 3 seconds": f"--output agency: '3 seconds' is no number of minutes: {MINUTES}",
    "agency = 3 minutes late": f"--output agency: '3 minutes late' is no number of minutes: {MINUTES}",
    "agency = ٣": f"--output agency: '٣' is no number of minutes: {MINUTES}",
    "agency = 0,5": "--output agency: '0,5': a part of a minute is typed as 0.5, and a command that begins with a digit with its path",
    "agency = 0,5, /home/anna/agency.sh": "--output agency: '0,5': a part of a minute is typed as 0.5, and a command that begins with a digit with its path",
    "agency = 3, cp '": "--output agency: a quote in it isn't closed",
    "agency = 3, web": f"--output agency: in which folder is its site? Type it, as {LONG_EXAMPLE}",
    "agency = 3, web , copy.sh": f"--output agency: in which folder is its site? Type it, as {LONG_EXAMPLE}",
    "agency = 3, web, copy.sh": f"--output agency: a comma is behind the minutes and behind web FOLDER alone, as {LONG_EXAMPLE}",
    "agency = 3, copy.sh, web /srv": "--output agency: a comma is behind the minutes and behind web FOLDER alone, "
    "as public = 15, web /home/anna/site, /home/anna/public.sh",
}


def passes(refuses: Callable[..., None], *words: object) -> bool:
    """Nothing is refused."""
    refuses(*words)
    return True


def as_typed() -> None:
    for text, output in GIVEN:
        same(text, read_output(text), output)
    for text, why in WRONG.items():
        same(f"refused: {text}", refused(text, Refused, read_output, text), why)
    same("how late", [read_output(text).late for text in ("a=3", "a=0.5", "a=1", "a=0", "a=no")], ["3 minutes", "0.5 minutes", "1 minute", "", ""])
    double = "--output agency is given twice: give one of them another name, or leave it out"
    same("two of one name", refused("two", Refused, read_outputs, ["agency = 3", "hall = 0", "Agency = 5"]), double)
    same("in a command line", refused("two", Refused, parse, ["t.csv", "--output", "agency=3", "--output=agency=no"]), double)
    many = refused("nine", Refused, read_outputs, [f"a{number} = 0" for number in range(9)])
    same("too many", many, "9 outputs are given, and there can be 8: let one command carry to several places")
    asked = parse(["t.csv", "--output", "hall = 0, a", "--output=public=15,web /srv/b", "--web", "/srv/a", "--delay", "5"])
    same("all of them", (asked.web, asked.out.delay, [output.name for output in asked.outputs]), ("/srv/a", 300.0, ["hall", "public"]))
    same("none", parse(["t.csv"]).outputs, ())
    words = ["--event=--output=a=1", "--output=agency=3, x", "--output=hall=0", "--tag=A=b"]
    same("names", [name_in(word) for word in words], [None, "agency", "hall", None])
    same("those that are typed take the place of others", without_those(words, ["agency", "c"]), [words[0], *words[2:]])


def sites() -> None:
    """Two outputs can't write one site, nor one within the other: it would be as late as the one that isn't. Nor can a site have the
    round's games in it."""
    with tempfile.TemporaryDirectory() as folder:
        os.symlink(folder, f"{folder}/link")
        x, own = f"{folder}/x", "the folder of the round's own site"
        for web, texts, why in (
            (folder, [f"a=3,web {folder}/."], f"{folder}/. is {own}: give it another one"),
            (x, [f"a=3,web {folder}/link/x"], f"{folder}/link/x is {own}: give it another one"),
            ("", [f"b=0,web {folder}", f"a=3,web {folder}"], f"{folder} is the folder of the site of output b: give it another one"),
            (folder, [f"a=3,web {x}"], f"{x} is in {folder}, {own}: give it one that isn't in there"),
            (folder, [f"a=3,web {x}/round3/y"], f"{x}/round3/y is in {folder}, {own}: give it one that isn't in there"),
            (f"{folder}/link", [f"a=3,web {x}"], f"{x} is in {folder}/link, {own}: give it one that isn't in there"),
            (x, [f"a=3,web {folder}"], f"{folder} has {x} in it, {own}: give it one beside that"),
            (x, [f"a=3,web {folder}/y/.."], f"{folder}/y/.. has {x} in it, {own}: give it one beside that"),
            ("", [f"b=0,web {folder}", f"a=3,web {x}"], f"{x} is in {folder}, the folder of the site of output b: give it one that isn't in there"),
            (f"{folder}/z", [f"b=0,web {x}", f"c=0,web {folder}/y", "d=0", f"a=3,web {folder}/y/x"],
             f"{folder}/y/x is in {folder}/y, the folder of the site of output c: give it one that isn't in there"),
            ("x", ["a=3,web ./x/y"], f"./x/y is in x, {own}: give it one that isn't in there"),
            ("/", [f"a=3,web {x}"], f"{x} is in /, {own}: give it one that isn't in there"),
        ):
            same(f"{web} and {texts}", refused(web, Refused, refuse_shared_sites, web, read_outputs(texts)), f"--output a: {why}")
            typed = [f"--output={text}" for text in texts] + ([f"--web={web}"] if web else [])
            same(f"{web} and {texts}, typed", refused(web, Refused, parse, ["t.csv", *typed]), f"--output a: {why}")
        beside = read_outputs([f"a=3,web {folder}/y", "b=3", "c=no", f"d=3,web {folder}/x-2", f"e=3,web {folder}/X"])
        same("others", passes(refuse_shared_sites, x, beside), True)
        games, there = pathlib.Path(f"{folder}/cup/round1"), "and readers would get them at once: give the site another folder"
        sites_of_games: List[Tuple[str, List[str], str]] = [
            (f"{folder}/cup", [], f"--web: {folder}/cup"), (str(games), ["a=3"], f"--web: {games}"), (f"{folder}/link", [], f"--web: {folder}/link"),
            (x, [f"a=3,web {folder}/cup/"], f"--output a: {folder}/cup/"),
        ]
        for web, texts, option in sites_of_games:
            told = refused(web, Refused, refuse_games_in_site, games, web, read_outputs(texts))
            same(f"games in {web} or {texts}", told, f"{option}: the round keeps its games there, in {games}, {there}")
        for web in ("", f"{games}/site", f"{folder}/cup/site", f"{folder}/cup/round"):
            same(f"{web}, and not the games", passes(refuse_games_in_site, games, web, beside), True)


SETTINGS = """\
event = Cup
delay = 0
output agency = 3 minutes, /home/anna/agency.sh
Output Hall-2 = 0, /home/anna/hall.sh
output hall-2 3 = 1, /home/anna/hall.sh
output public = 15, web /srv/www/cup
output public 2 = no
output empty =
"""
NO_SETTINGS = {
    "output = 3, a": f"line 1: an output has a name: {NAME}",
    "output 2 = 3, a": f"line 1: an output has a name: {NAME}",
    "output my agency = 3": f"line 1: 'my agency' is no name of an output: {NAME}",
    "\noutput agency 7 = soon": f"line 2: --output agency: 'soon' is no number of minutes: {MINUTES}",
    "output a = 3\noutput b = 3\noutput A = 5": "line 3: there is output a in line 1 already: give it another name",
    "output a 2 = 3\noutput a 2 = 5": "line 2: there is output a in line 1 already: give it another name",
    "outputs = 3": "line 1: there is no setting 'outputs'",
}


def in_a_tournament() -> None:
    first = ["--event=Cup", "--delay=0", "--output=agency=3 minutes, /home/anna/agency.sh"]
    for number, hall, public in ((1, "0", "15, web /srv/www/cup"), (2, "0", "no"), (3, "1", "15, web /srv/www/cup")):
        wanted = [*first, f"--output=hall-2={hall}, /home/anna/hall.sh", f"--output=public={public}"]
        same(f"round {number}", words_of(SETTINGS.encode(), number, VALUED), wanted)
        read_outputs([word.partition("=")[2] for word in wanted[2:]])
    for text, why in NO_SETTINGS.items():
        same(text, refused(text, Refused, words_of, text.encode(), 1, VALUED).partition(": there are")[0], why)
    example = next(line for line in TEMPLATE.splitlines() if "output" in line).rpartition(": ")[2]
    same("the template's example", words_of(example.encode(), 1, VALUED), ["--output=agency=3, /home/anna/agency.sh"])


def in_its_folder() -> None:
    """What is there of an output is found, and removed, and nothing else is; no game is begun there."""
    with tempfile.TemporaryDirectory() as name:
        folder = pathlib.Path(name)
        elsewhere = folder / "elsewhere"
        elsewhere.mkdir()
        for place in ("output-agency", "output-hall", "output-", "output-A b", "outputs"):
            (folder / place).mkdir()
            for file in ("broadcast.pgn", "broadcast.pgn.new", "broadcast.shown", "broadcast.shown.new"):
                (folder / place / file).write_bytes(b"x")
        (folder / "output-file").write_bytes(b"x")
        (folder / "output-hall" / "notes.txt").write_bytes(b"x")
        (folder / "output-link").symlink_to(elsewhere)
        (elsewhere / "broadcast.pgn").write_bytes(b"x")
        (folder / "broadcast.shown").write_bytes(b"x")
        (folder / "output-empty").mkdir()
        same("those that are there", left_in(folder), ["agency", "hall"])
        same("known", [passes(refuse_unknown, ["hall", "x"], ["hall", "x"]), passes(refuse_unknown, [], [])], [True, True])
        lists: List[Tuple[List[str], str]] = [(["hall", "agency", "hall"], "are agency, hall"), (["hall"] * 2, "is hall"), ([], "is none")]
        for known, there in lists:
            told = refused("unknown", Refused, refuse_unknown, [*known, "public"], known)
            same("unknown", told, f"--output public=no: there is no output public: there {there}")
        told = refused("a link", Refused, refuse_links, folder, [Output("hall"), Output("link", GoingOut())])
        same("a link", told, f"{folder}/output-link is a link, and the folder of output link: move it away")
        before = {path for path in folder.rglob("*") if "output-agency" not in str(path)}
        same("removed", removed(folder, Output("agency")), "output agency is removed")
        same("with its folder", {path for path in folder.rglob("*")}, before)
        same("but for what is somebody else's", removed(folder, Output("hall")), "output hall is removed")
        same("which stays", [path.name for path in (folder / "output-hall").iterdir()], ["notes.txt"])
        same("and is no output's", (left_in(folder), removed(folder, Output("hall"))), ([], ""))
        for other in ("link", "file", "none"):
            same(f"nothing of {other}", removed(folder, Output(other)), "")
        same("behind the link", [path.name for path in elsewhere.iterdir()], ["broadcast.pgn"])
        outputs = read_outputs(["agency=3", "club=0", "gone=no"])
        same("lines", told_of(folder, outputs, ["agency", "hall", "gone"]), [
            f"output agency is 3 minutes late: {folder}/output-agency/broadcast.pgn",
            f"output club isn't late: {folder}/output-club/broadcast.pgn",
            "output hall isn't given: nothing goes out there. --output hall=no removes what is left of it",
        ])  # fmt: skip
        same("a game beside a folder that is no round's", passes(check_name, f"{folder}/output-hall/01"), True)
        (folder / "round.log").write_bytes(b"")
        for game in ("01", "broadcast"):
            told = refused(game, Refused, check_name, f"{folder}/output-hall/{game}")
            same(game, told, f"{folder}/output-hall is the folder of an output of a round: choose another one")
        same("a game of the round", passes(check_name, f"{folder}/output-hall"), True)


def one_run_at_a_time() -> None:
    """The name for which runs wait is each output's own, and stays if its folder is made anew."""
    with tempfile.TemporaryDirectory() as folder:
        same("as in both files", one_at_a_time.OF_AN_OUTPUT, OF_AN_OUTPUT)
        places = [f"{folder}/output-{name}/broadcast.pgn" for name in ("agency", "hall")]
        for place in places:
            os.mkdir(os.path.dirname(place))
        names = [one_at_a_time.name_of(path) for path in (f"{folder}/broadcast.pgn", *places)]
        same("all differ", len(set(names)), 3)
        os.rename(os.path.dirname(places[0]), f"{folder}/away")
        os.mkdir(os.path.dirname(places[0]))
        same("made anew", one_at_a_time.name_of(places[0]), names[1])
        os.rmdir(os.path.dirname(places[0]))
        same("gone", one_at_a_time.name_of(places[0]), names[1])
        here = os.getcwd()
        os.chdir(folder)
        try:
            same("from within", [one_at_a_time.name_of(path) for path in ("broadcast.pgn", "output-hall/broadcast.pgn")], [names[0], names[2]])
        finally:
            os.chdir(here)


TABLES = [as_typed, sites, in_a_tournament, in_its_folder, one_run_at_a_time]
