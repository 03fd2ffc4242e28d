"""A folder that the page saves to: its files are the games at each move, and what can't be written is said."""

import base64
import json
import pathlib
import time
from typing import Dict, List, Tuple

from browsed.games import QUEENS, QUEENS_SANS, RUY, RUY_SANS, answered, of_record, play, until_agrees
from browsed.hall import DROPPED, TRIES, Hall, Port
from browsed.page import Page
from browsed.stage import with_chromium
from paged.devtools import Json
from played.stage import same

SCRIPT = pathlib.Path(__file__).with_name("folder.js")
# What a process is told that is begun while `slow.is` comes to it late.
SLOW = """
window.slow = { is: false, keys: new Set() };
{
  const post = Worker.prototype.postMessage;
  Worker.prototype.postMessage = function (message) {
    const { key, entry } = message?.name === 'tell' ? message.given : {};
    if (slow.is && entry && String.fromCharCode(...entry.subarray(0, 8)) === '0 begin ') slow.keys.add(key);
    if (slow.keys.has(key)) setTimeout(() => post.call(this, message), 1500);
    else post.call(this, message);
  };
}
"""


class Chosen:
    """A folder: what the page has written into it."""

    def __init__(self, stage: Hall, name: str = "chosen") -> None:
        self.path = stage.folder / name
        self.path.mkdir()
        self.files: Dict[str, bytes] = {}
        self.order: List[str] = []  # in which they were written
        self.others, stage.others = stage.others, self.told

    def script(self, permission: str = "granted") -> str:
        """With all that is in the folder now."""
        files = [(name, base64.b64encode(content).decode()) for name, content in self.files.items()]
        start = {"name": self.path.name, "permission": permission, "files": files}
        return f"{SCRIPT.read_text()}\nprovideFolder({json.dumps(start)});"

    def told(self, message: Json) -> None:
        if message.get("at") != self.path.name:
            self.others(message)
        elif message["what"] == "file":
            self.files[message["name"]] = base64.b64decode(message["bytes"])
            self.order.append(message["name"])
        elif message["what"] == "move":
            self.files[message["to"]] = self.files.pop(message["name"])
        else:
            del self.files[message["name"]]

    def choose(self, stage: Hall, page: Page) -> None:
        """The folder is dropped for the window that a click opens."""
        data = {"items": [], "files": [str(self.path)], "dragOperationsMask": 1}
        for _ in range(TRIES):
            for kind in ("dragEnter", "dragOver", "drop"):
                page.tab.call("Input.dispatchDragEvent", type=kind, x=20, y=20, data=data)
            if stage.comes(lambda: page.value("folder.has") == self.path.name, DROPPED):
                break
        assert page.value("folder.has") == self.path.name, f"the folder that is dropped never comes: {page.describe()}"
        page.click("#folder")
        stage.until(lambda: page.keeps("folder"), "the folder to be kept")


def until_text(stage: Hall, chosen: Chosen, name: str, movetext: str) -> None:
    """The folder's text of a game has these moves."""

    def text() -> str:
        parts = chosen.files.get(name, b"").decode().split("\n\n")
        return parts[1].replace("\n", " ") if len(parts) > 1 else ""

    stage.until(lambda: text() == movetext, f"{movetext} in {name}, among {sorted(chosen.files)}")


def until_recorded_so(stage: Hall, chosen: Chosen, name: str) -> None:
    """A game's text in the folder is that of `record` over its capture there, which may be written after it."""

    def text() -> bytes:
        return of_record(chosen.files[name], chosen.files.get(name.replace(".pgn", ".dgt"), b""))

    stage.until(lambda: chosen.files[name] == text(), f"the game of the capture in {name}")


def names_of(chosen: Chosen, suffix: str) -> List[str]:
    return sorted(name for name in chosen.files if name.endswith(suffix) and name != "round.pgn")


@with_chromium
def folder_chosen(folder: pathlib.Path) -> None:
    """A folder has the text and the capture of each game at each move, and the round; they are those of the buttons."""
    with Hall(folder) as stage:
        chosen = Chosen(stage)
        page, port = begin_in(stage, chosen)
        chosen.choose(stage, page)
        play(stage, page, port, RUY[:2], RUY_SANS[:2])
        stage.until(lambda: names_of(chosen, ".pgn"), "a text in the folder")
        name = names_of(chosen, ".pgn")[0]
        until_text(stage, chosen, name, "1. e4 e5 *")
        play(stage, page, port, RUY[2:3], RUY_SANS[2:3])
        until_text(stage, chosen, name, "1. e4 e5 2. Nf3 *")
        stage.until(lambda: chosen.files.get("round.pgn") == chosen.files[name], "the round with the game")
        until_recorded_so(stage, chosen, name)
        kept = chosen.files[name.replace(".pgn", ".dgt")]
        text, capture = stage.saved(page, "#save-game"), stage.saved(page, "#save-capture")
        same(text, chosen.files[name])
        same(text, of_record(text, capture))
        same((capture[: len(kept)], of_record(text, kept)), (kept, text))
        stage.until(lambda: name.replace(".pgn", ".times") in chosen.files, "the times of the capture")
        same({name.rpartition(".")[2] for name in chosen.files}, {"pgn", "dgt", "times"})


@with_chromium
def folder_again(folder: pathlib.Path) -> None:
    """Opened again, the page asks for the folder by one click; what was played meanwhile is written then."""
    with Hall(folder) as stage:
        chosen = Chosen(stage)
        page, port = begin_in(stage, chosen)
        chosen.choose(stage, page)
        play(stage, page, port, RUY[:2], RUY_SANS[:2])
        stage.until(lambda: names_of(chosen, ".pgn"), "a text in the folder")
        name = names_of(chosen, ".pgn")[0]
        until_text(stage, chosen, name, "1. e4 e5 *")
        stage.close(page)
        page = stage.tab([chosen.script("prompt")])
        stage.until(lambda: page in port.holders, "the board to be opened by itself")
        stage.enlarge(page, 1)
        stage.until_moves(page, RUY_SANS[:2])
        play(stage, page, port, RUY[2:4], RUY_SANS[2:4])
        stage.press(page, "Write to chosen")
        until_text(stage, chosen, name, "1. e4 e5 2. Nf3 Nc6 *")


@with_chromium
def folder_full(folder: pathlib.Path) -> None:
    """A folder whose disk is full: the page says so, records on, and writes all when there is room."""
    with Hall(folder) as stage:
        chosen = Chosen(stage)
        page, port = begin_in(stage, chosen)
        chosen.choose(stage, page)
        play(stage, page, port, RUY[:2], RUY_SANS[:2])
        stage.until(lambda: names_of(chosen, ".pgn"), "a text in the folder")
        name = names_of(chosen, ".pgn")[0]
        until_text(stage, chosen, name, "1. e4 e5 *")
        page.value("folder.fails = 'QuotaExceededError'")
        play(stage, page, port, RUY[2:4], RUY_SANS[2:4])
        stage.until(lambda: "can't be written" in page_text(page), "a word on the full disk")
        until_text(stage, chosen, name, "1. e4 e5 *")
        page.value("folder.fails = ''")
        until_text(stage, chosen, name, "1. e4 e5 2. Nf3 Nc6 *")


@with_chromium
def folder_left(folder: pathlib.Path) -> None:
    """A folder vanishes, and another one is chosen: the alarm goes at once. That one can't be written either: the alarm stays when the
    first one is back, in which nothing is written any more, and goes when the second one can be written."""
    with Hall(folder) as stage:
        chosen, other = Chosen(stage), Chosen(stage, "other")
        page, port = begin_in(stage, chosen)
        chosen.choose(stage, page)
        play(stage, page, port, RUY[:1], RUY_SANS[:1])
        until_text(stage, chosen, "board 1.pgn", "1. e4 *")
        page.value("folder.lost = ['chosen']")
        play(stage, page, port, RUY[1:2], RUY_SANS[1:2])
        stage.until_part(page, "#line", "files are NOT WRITTEN")
        other.choose(stage, page)
        stage.until_part(page, "#line", "in the folder other")
        until_text(stage, other, "board 1.pgn", "1. e4 e5 *")
        same(("can't be written" in page.text("#notices"), page.text("#line").endswith("in the folder other")), (False, True))
        page.value("folder.lost = ['chosen', 'other']")
        play(stage, page, port, RUY[2:3], RUY_SANS[2:3])
        stage.until_part(page, "#notices", "can't be written in the folder other")
        page.value("folder.lost = ['other']")
        stage.rest(11)  # each folder is tried again each five seconds
        stage.until_part(page, "#line", "files are NOT WRITTEN")
        same((any("written again" in line for line in page.messages), b"Nf3" in chosen.files["board 1.pgn"]), (False, False))
        page.value("folder.lost = []")
        until_text(stage, other, "board 1.pgn", "1. e4 e5 2. Nf3 *")
        stage.until_part(page, "#line", "in the folder other")
        same((page.text("#notices"), b"Nf3" in chosen.files["board 1.pgn"]), ("", False))


@with_chromium
def folder_goes_on(folder: pathlib.Path) -> None:
    """A capture in the folder gets only what has come since it was written last. If somebody has written that file meanwhile, it is
    written whole."""
    with Hall(folder) as stage:
        chosen = Chosen(stage)
        page, port = begin_in(stage, chosen)
        chosen.choose(stage, page)
        play(stage, page, port, RUY[:3], RUY_SANS[:3])
        until_text(stage, chosen, "board 1.pgn", "1. e4 e5 2. Nf3 *")
        written = page.value("folder.written.filter(([name]) => name === 'board 1.dgt')")
        sizes = [kept + new for _, kept, new in written]
        same([kept for _, kept, _ in written], [0, *sizes[:-1]])
        assert len(sizes) > 1 and sizes == sorted(sizes), sizes
        until_recorded_so(stage, chosen, "board 1.pgn")
        page.value("folder.edit('board 1.dgt', new TextEncoder().encode('x'.repeat(%d)))" % sizes[-1])
        play(stage, page, port, RUY[3:4], RUY_SANS[3:4])
        until_text(stage, chosen, "board 1.pgn", "1. e4 e5 2. Nf3 Nc6 *")
        same(page.value("folder.written.filter(([name]) => name === 'board 1.dgt').at(-1)[1]"), 0)
        until_recorded_so(stage, chosen, "board 1.pgn")


@with_chromium
def folder_in_order(folder: pathlib.Path) -> None:
    """A capture that can't be written holds up the texts that tell of it, and nothing of other games. When it can, it goes out first:
    so it does after plies were taken off, behind what it was before."""
    with Hall(folder) as stage:
        chosen = Chosen(stage)
        page, port = begin_in(stage, chosen)
        chosen.choose(stage, page)
        play(stage, page, port, RUY[:2], RUY_SANS[:2])
        stage.until(lambda: names_of(chosen, ".times"), "times in the folder")
        name = names_of(chosen, ".pgn")[0]
        until_text(stage, chosen, name, "1. e4 e5 *")
        capture, times = name.replace(".pgn", ".dgt"), name.replace(".pgn", ".times")
        page.value(f"folder.failing = {capture!r}; folder.fails = 'QuotaExceededError'")
        play(stage, page, port, RUY[2:3], RUY_SANS[2:3])
        stage.until(lambda: f"{capture} can't be written" in page_text(page), "a word on the capture")
        kept = {file: chosen.files[file] for file in (name, capture, times)}
        other = stage.board()
        stage.show_all(page)
        stage.add(page, other)
        stage.enlarge(page, 2)
        until_agrees(stage, page)
        play(stage, page, other, QUEENS[:2], QUEENS_SANS[:2])
        stage.until(lambda: any(b"1. d4 d5" in text for text in chosen.files.values()), "the second game in the folder")
        stage.show_all(page)
        stage.enlarge(page, 1)
        for ply in (3, 4):
            play(stage, page, port, RUY[ply : ply + 1], RUY_SANS[ply : ply + 1])
            stage.rest(6)  # it is tried again each five seconds
            same({file: chosen.files[file] for file in kept}, kept)
        chosen.order.clear()
        page.value("folder.fails = ''")
        until_text(stage, chosen, name, "1. e4 e5 2. Nf3 Nc6 3. Bb5 *")
        same([file for file in dict.fromkeys(chosen.order) if file in kept][:2], [capture, name])
        before = name.replace(".pgn", ".before-1.dgt")
        port.board.play("b5f1")
        stage.until_dumped(page, port)
        longer = chosen.files[capture]
        page.value(f"folder.failing = {before!r}; folder.fails = 'QuotaExceededError'")
        answered(stage, page, "back", "back to 2... Nc6; taken off: 3. Bb5")
        stage.until(lambda: f"{before} can't be written" in page_text(page), "a word on the capture as it was before")
        stage.rest(6)
        same(chosen.files[capture][: len(longer)], longer)
        page.value("folder.fails = ''")
        until_text(stage, chosen, name, "1. e4 e5 2. Nf3 Nc6 *")
        same(chosen.files[before][: len(longer)], longer)


@with_chromium
def folder_behind_the_report(folder: pathlib.Path) -> None:
    """Plies are taken off, and the program is slow to report what is left: the text without them is in the folder all the same."""
    with Hall(folder) as stage:
        chosen = Chosen(stage)
        port = stage.board()
        page = stage.tab([chosen.script(), SLOW])
        stage.add(page, port)
        stage.enlarge(page, 1)
        until_agrees(stage, page)
        chosen.choose(stage, page)
        play(stage, page, port, RUY[:3], RUY_SANS[:3])
        until_text(stage, chosen, "board 1.pgn", "1. e4 e5 2. Nf3 *")
        port.board.play("f3g1")
        stage.until_dumped(page, port)
        page.value("slow.is = true")
        answered(stage, page, "back", "back to 1... e5; taken off: 2. Nf3")
        until_text(stage, chosen, "board 1.pgn", "1. e4 e5 *")
        play(stage, page, port, ["b1c3"], ["Nc3"])
        until_text(stage, chosen, "board 1.pgn", "1. e4 e5 2. Nc3 *")


@with_chromium
def folder_renamed(folder: pathlib.Path) -> None:
    """A game gets its players' names while the text under the last of them can't be written: the game stays under an earlier name, and
    goes from there when all is written."""
    with Hall(folder) as stage:
        chosen = Chosen(stage)
        page, port = begin_in(stage, chosen)
        chosen.choose(stage, page)
        play(stage, page, port, RUY[:2], RUY_SANS[:2])
        stage.until(lambda: names_of(chosen, ".times"), "times in the folder")
        page.value("folder.failing = 'Anna - Ben.pgn'; folder.fails = 'QuotaExceededError'")
        page.type("Anna", "#white")
        page.type("Ben", "#black")
        stage.until(lambda: "Anna - Ben.pgn can't be written" in page_text(page), "a word on the text")
        stage.rest(6)  # it is tried again each five seconds
        earlier = [name for name in names_of(chosen, ".pgn") if b"1. e4" in chosen.files[name]]
        same((bool(earlier), [name for name in earlier if name.replace(".pgn", ".dgt") not in chosen.files]), (True, []))
        page.value("folder.fails = ''")
        until_text(stage, chosen, "Anna - Ben.pgn", "1. e4 e5 *")
        files = {f"Anna - Ben.{ending}" for ending in ("dgt", "pgn", "times")}
        stage.until(lambda: set(chosen.files) == {*files, "round.pgn"}, "the earlier names to be gone")


@with_chromium
def texts_known_again(folder: pathlib.Path) -> None:
    """The tab is killed while the files have older texts than the page has made, with another event: opened again, the page knows its
    own texts, and keeps no copies of them. A text that somebody has edited is kept."""
    with Hall(folder) as stage:
        chosen = Chosen(stage)
        page, port = begin_in(stage, chosen)
        chosen.choose(stage, page)
        play(stage, page, port, RUY[:2], RUY_SANS[:2])
        until_text(stage, chosen, "round.pgn", "1. e4 e5 *")
        page.value("folder.fails = 'QuotaExceededError'")
        page.type("Club cup", "#event-name")
        play(stage, page, port, RUY[2:3], RUY_SANS[2:3])
        stage.until(lambda: "2. Nf3" in json.dumps(page.setting("round")), "the newer text to be kept")
        stage.crash(page)
        for ply, text in ((3, "1. e4 e5 2. Nf3 Nc6 *"), (4, "1. e4 e5 2. Nf3 Nc6 3. Bb5 *")):
            if ply == 4:
                chosen.files["round.pgn"] = edited = chosen.files["round.pgn"].replace(b"Nc6", b"d6")
            page = stage.tab([chosen.script()])
            stage.enlarge(page, 1)
            stage.until_moves(page, RUY_SANS[:ply])
            stage.until(lambda: page in port.holders, "the board to be opened by itself")
            play(stage, page, port, RUY[ply : ply + 1], RUY_SANS[ply : ply + 1])
            until_text(stage, chosen, "round.pgn", text)
            same([name for name in chosen.files if "edited" in name], [] if ply == 3 else ["round.edited.pgn"])
            stage.crash(page)
        same(chosen.files["round.edited.pgn"], edited)


def page_text(page: Page) -> str:
    """What the page says of itself."""
    return " ".join(page.text(where) for where in ("#line", "#notices", "#alarms", "#state", "#messages"))


@with_chromium
def hostile_names(folder: pathlib.Path) -> None:
    """Names with scripts, slashes and signs are shown as they are typed, harm nothing, and give files that a disk takes."""
    script = "<img src=x onerror=\"window.harmed = 1\"><script>window.harmed = 1</script>"
    with Hall(folder) as stage:
        chosen = Chosen(stage)
        page, port = begin_in(stage, chosen)
        chosen.choose(stage, page)
        for where in ("#white", "#black", "#event-name", "#site", "#round"):
            page.type(script, where)
        page.type("../../a:b*c?<d>|\u202ee\\f", "#name")
        play(stage, page, port, RUY[:2], RUY_SANS[:2])
        other = stage.board()
        stage.show_all(page)
        stage.add(page, other)
        stage.enlarge(page, 2)
        page.type("../../a:b*c?<d>|\u202ee\\f", "#name")
        play(stage, page, other, QUEENS[:2], QUEENS_SANS[:2])
        stage.until(lambda: len(names_of(chosen, ".dgt")) >= 2, "a file for each game")
        stage.until(lambda: any(b"1. d4 d5" in text for text in chosen.files.values()), "the second game in the folder")
        stage.until(lambda: any(b"1. e4 e5" in text for text in chosen.files.values()), "the first game in the folder")
        for name in chosen.files:
            assert not set(name) & set('\\/:*?"<>|\u202e') and name.isprintable() and not name.startswith("."), name
        time.sleep(0.2)
        same((page.value("window.harmed ?? 0"), page.value("document.querySelectorAll('img, script[src]').length")), (0, 0))
        game = next(text for name, text in chosen.files.items() if b"1. e4 e5" in text and name.endswith(".pgn"))
        assert b"onerror=\\\"window" in game, game
        same(page.tab.printed(), [])


def begin_in(stage: Hall, chosen: Chosen) -> Tuple[Page, Port]:
    port = stage.board()
    page = stage.tab([chosen.script()])
    stage.add(page, port)
    stage.enlarge(page, 1)
    until_agrees(stage, page)
    return page, port
