"""What isn't as it should be: odd texts in each field, files that are no captures, a browser that lacks something, storage that
runs out, and a page that somebody would have call home."""

import json
import pathlib
import random
from typing import List

from browsed import TOP
from browsed.games import RUY, RUY_SANS, begin, of_record, play, until_agrees
from browsed.hall import Hall
from browsed.page import Page
from browsed.stage import with_chromium
from played.stage import same

SAMPLES = TOP / "samples"
LIMIT = 64 * 1024 * 1024  # bytes of a capture
NO_SERIAL = "delete Navigator.prototype.serial;"
NO_MEMORY = """
for (const name of ['compile', 'instantiate', 'compileStreaming', 'validate']) {
  WebAssembly[name] = () => (name === 'validate' ? false : Promise.reject(new WebAssembly.CompileError('invalid memory limits')));
}
"""
NO_SUSPENDING = "delete WebAssembly.Suspending;"  # as before Chrome 137
NO_ROOM = """
const Whole = Blob;
window.Blob = class extends Whole {
  constructor(parts, given) {
    const begins = `const Free = WebAssembly.Instance;
      let isFull = false;
      WebAssembly.Instance = function (...given) {
        if (isFull) throw new RangeError('Out of memory: Cannot allocate Wasm memory for new instance');
        return new Free(...given);
      };
      addEventListener('message', ({ data }) => { isFull = data.isFull ?? isFull; });`;
    super(given?.type === 'text/javascript' ? [begins, ...parts] : parts, given);
  }
};
const Begun = Worker;
window.workers = [];
window.Worker = class extends Begun {
  constructor(url) {
    super(url);
    workers.push(this);
  }
};
"""
# Boards that were recorded earlier, each with a game of which nothing was sent.
KEPT = """
(async () => {
  const answer = (request) => new Promise((done, failed) => {
    request.onsuccess = () => done(request.result);
    request.onerror = () => failed(request.error);
  });
  const database = await answer(indexedDB.open('dgt_recorder'));
  const change = database.transaction(['boards', 'games'], 'readwrite');
  const options = { rotated: false, first: null, fen: null, recover: null, began: '2026.11.26', tags: {}, event: null, site: null, date: null,
    round: null, white: null, black: null };
  for (let id = 1; id <= %d; id += 1) {
    change.objectStore('boards').put({ id, serial: String(10000 + id), info: {}, game: id });
    change.objectStore('games').put({ id, board: id, name: `board ${id}`, options, end: null, looks: [] });
  }
  await new Promise((done) => { change.oncomplete = done; });
  database.close();
})()
"""
MOST = 48  # boards

CALLS = (  # home, which nobody answers
    "fetch('http://127.0.0.1:9/').then(() => 'sent', (error) => error.name)",
    "new Promise((done) => { const sent = new Image(); sent.onerror = () => done('refused'); sent.src = 'http://127.0.0.1:9/'; })",
    "new Promise((done) => { try { new WebSocket('ws://127.0.0.1:9/').onerror = () => done('refused'); }"
    " catch { done('refused'); } })",
)


def said(page: Page) -> str:
    """All that the page says of itself."""
    return " ".join(page.text(where) for where in ("#line", "#notices", "#messages", "#answer", "#state"))

PUT = """
{{
  document.querySelector('#answer').textContent = '';
  const field = document.querySelector('{where}');
  field.value = {text};
  field.dispatchEvent(new Event('change'));
}}
"""
NAMES = ("#event-name", "#site", "#round", "#white", "#black")
ODD = {  # what is typed, and what stands between the quotes of a tag then
    "-": "-",
    "--": "--",
    "-1": "-1",
    "-bye-": "-bye-",
    "- Open -": "- Open -",
    "--white": "--white",
    "=x": "=x",
    "  x ": "x",
    "O'Neill, \"Jim\"": "O'Neill, \\\"Jim\\\"",
    "C:\\": "C:\\\\",
    "a\nb": "ab",  # a field of one line takes no line feed
    "x" * 101: "x" * 101,
    "-bye- ": "-bye-",
}
REFUSED = ("a\u2028b", "\ud800", "x" * 256)  # no tag can have these
NO_MOVES = ("-", "----", "-1", "-bye-", "--white", "=x", "\\", '"', "x" * 101, "a\u2028b", "\ud800")


def put(page: Page, where: str, text: str) -> str:
    """A text in a field, as it comes from a keyboard or from another program; what the page answers."""
    page.value(PUT.format(where=where, text=json.dumps(text)))
    return page.text("#answer")


def until_refused(stage: Hall, page: Page, where: str, text: str, part: str) -> None:
    """A field refuses a text, and says what to type. What was typed before may be answered meanwhile: then it is put there again."""
    stage.until(lambda: part in put(page, where, text), f"{part!r} in the answer to {text!r} in {where}")


@with_chromium
def odd_texts(folder: pathlib.Path) -> None:
    """Names that look like options, and other odd texts, are recorded in each field, or refused at once with what to type. The
    recording never stops, and what is typed for all boards is taken for a new one too."""
    with Hall(folder) as stage:
        page, port = begin(stage)
        until_agrees(stage, page)
        for typed, written in ODD.items():
            same([put(page, where, typed).startswith("refused") for where in NAMES], [False] * len(NAMES))
            lines = stage.saved(page, "#save-game").decode().splitlines()
            tags = ("Event", "Site", "Round", "White", "Black")
            same([line for line in lines if line[1:].startswith(tags)], [f'[{tag} "{written}"]' for tag in tags])
        for odd in REFUSED:
            for where in NAMES:
                until_refused(stage, page, where, odd, "type")
        for where, part in (("#date", "write it as 2024.05.31"), ("#white-elo", "type up to four digits")):
            for odd in ("--", "-bye-", "--white", "=x"):
                until_refused(stage, page, where, odd, part)
        for odd in (*ODD, *REFUSED[:2]):
            put(page, "#name", odd)
            assert page.field("#name"), odd
        for move in NO_MOVES:
            put(page, "#typed", move)
            page.value("document.querySelector('#enter').click()")
            stage.until_part(page, "#answer", "Type 1-0")
        until_agrees(stage, page)
        play(stage, page, port, RUY[:2], RUY_SANS[:2])
        text, capture = stage.saved(page, "#save-game"), stage.saved(page, "#save-capture")
        options = [f"--{tag}=-bye-" for tag in ("event", "site", "round", "white", "black")]
        same(text, of_record(text, capture, *options))
        other = stage.board()
        stage.show_all(page)
        stage.add(page, other)
        stage.enlarge(page, 2)
        until_agrees(stage, page)
        play(stage, page, other, RUY[:2], RUY_SANS[:2])
        text, capture = stage.saved(page, "#save-game"), stage.saved(page, "#save-capture")
        same(text, of_record(text, capture, *options[:3]))
        stage.show_all(page)
        assert "NOT RECORDED" not in said(page), page.describe()


@with_chromium
def odd_captures(folder: pathlib.Path) -> None:
    """A sample is shown with its game; random bytes, a text, an empty file and one that is too large are told, and change
    nothing."""
    with Hall(folder) as stage:
        page = stage.tab()
        stage.until(lambda: page.shows("#add"), "the page")
        page.click("#sample")
        stage.until(lambda: len(page.moves) > 3, "the game of the sample")
        print(f"  the sample: {page.describe()}")
        contents = {
            "random.dgt": random.Random(1).randbytes(5000),
            "text.dgt": (SAMPLES / "short-game.pgn").read_bytes(),
            "empty.dgt": b"",
            "<b>bold</b>.dgt": b"\x86\x00\x43",
        }
        for name, content in contents.items():
            (folder / name.replace("/", "")).write_bytes(content)
            before = said(page)
            page.give("#open", folder / name.replace("/", ""))
            stage.until(lambda: said(page) != before, f"a word on {name}")
            print(f"  {name}: {page.describe()}")
        with open(folder / "large.dgt", "wb") as large:
            large.truncate(LIMIT + 1)
        page.give("#open", folder / "large.dgt")
        stage.until(lambda: "64" in said(page), "a word on what is too large")
        page.give("#open", SAMPLES / "long-game.dgt")
        stage.until(lambda: len(page.moves) > 20, "the game of a sample after all that")
        same([told for told in page.tab.printed() if "exceptionDetails" in told], [])


@with_chromium
def without_serial(folder: pathlib.Path) -> None:
    """A browser without Web Serial: the page says which has it, and shows captures."""
    with Hall(folder) as stage:
        page = stage.tab([NO_SERIAL])
        stage.until(lambda: "Chrome" in page.text("body") and "Edge" in page.text("body"), "which browser has it")
        page.click("#sample")
        stage.until(lambda: len(page.moves) > 3, "the game of the sample")
        same([told for told in page.tab.printed() if "exceptionDetails" in told], [])


@with_chromium
def without_memory(folder: pathlib.Path) -> None:
    """A browser that can't run the program, since it has no 64-bit memory: the page says so at once, and which browser can."""
    with Hall(folder) as stage:
        page = stage.tab([NO_MEMORY])
        stage.until(lambda: "Chrome" in page.text("body") and "Edge" in page.text("body"), "which browser can")
        print(f"  the page says: {page.text('#notices')} {page.text('#welcome')[:80]}")
        same([told for told in page.tab.printed() if "exceptionDetails" in told], [])


@with_chromium
def without_suspending(folder: pathlib.Path) -> None:
    """A browser that is too old to suspend the program: the page says so at once, and which browser can."""
    with Hall(folder) as stage:
        page = stage.tab([NO_SUSPENDING])
        stage.until(lambda: "version 137 or later" in page.text("#notices"), "which browser can")
        same((page.shows("#sample"), page.value("document.getElementById('add').disabled")), (True, True))
        same([told for told in page.tab.printed() if "exceptionDetails" in told], [])


@with_chromium
def no_room(folder: pathlib.Path) -> None:
    """The browser has no room for one more process of the program: the card says so, nothing is lost, and it is tried again."""
    with Hall(folder) as stage:
        page = stage.tab([NO_ROOM])
        port = stage.board()
        stage.add(page, port)
        stage.enlarge(page, 1)
        until_agrees(stage, page)
        play(stage, page, port, RUY[:2], RUY_SANS[:2])
        page.value("workers.forEach((worker) => worker.postMessage({ isFull: true }))")
        page.click("#recover")
        stage.until_part(page, "#state", "NOT RECORDED: the browser has no room to attend one more board")
        page.value("workers.forEach((worker) => worker.postMessage({ isFull: false }))")
        until_agrees(stage, page)
        play(stage, page, port, RUY[2:4], RUY_SANS[2:4])
        text, capture = stage.saved(page, "#save-game"), stage.saved(page, "#save-capture")
        same(text, of_record(text, capture))


@with_chromium
def too_many_boards(folder: pathlib.Path) -> None:
    """There are more boards than the browser has room for: the card of the last one says so, until another one is removed."""
    with Hall(folder) as stage:
        page = stage.tab()
        stage.until(lambda: page.shows("#add"), "the page")
        page.value(KEPT % (MOST + 1))
        stage.open(page)
        last = f"a.tile[href='#{MOST + 1}']"
        stage.until_part(page, last, f"NOT RECORDED: the browser has room for {MOST} boards at a time")
        same([page.value("document.querySelectorAll('a.tile').length"), said(page).count("NOT RECORDED")], [MOST + 1, 1])
        stage.enlarge(page, 1)
        page.click("#remove")
        page.click("#remove")
        stage.until_part(page, last, "UNPLUGGED")


@with_chromium
def as_many_boards_as_there_is_room_for(folder: pathlib.Path) -> None:
    """So many boards are kept as the browser has room for, and all of them are there when the page is opened: each is asked who it is,
    and recorded."""
    with Hall(folder) as stage:
        page = stage.tab()
        stage.until(lambda: page.shows("#add"), "the page")
        page.value(KEPT % MOST)
        for number in range(1, MOST + 1):
            port = stage.board()
            port.board.serial_number = b"%d" % (10000 + number)
            port.is_granted = True
        stage.open(page)
        agree = "[...document.querySelectorAll('a.tile .state')].filter((state) => state.textContent === 'agrees').length"
        stage.until(lambda: page.value(agree) == MOST, "all boards to be recorded")
        same([page.value("document.querySelectorAll('a.tile').length"), page.tab.printed()], [MOST, []])


@with_chromium
def asks_nobody(folder: pathlib.Path) -> None:
    """The page asks nobody for anything, and its policy refuses what a script would ask for."""
    with Hall(folder) as stage:
        page, port = begin(stage)
        until_agrees(stage, page)
        play(stage, page, port, RUY[:2], RUY_SANS[:2])
        own = page.value("location.href.split('#')[0]")
        asked = [url for url in page.tab.requests() if url.split("#")[0] != own and not url.startswith("blob:")]
        same(asked, [])
        for call in CALLS:
            assert page.value(call) in ("TypeError", "refused"), call

        def violated() -> int:
            return sum("Content Security Policy" in str(told) for told in page.tab.printed())

        def let_out() -> List[str]:
            return [url for url in page.tab.requests() if "127.0.0.1" in url and not refused_by_policy(page, url)]

        stage.until(lambda: violated() >= 3, "a word on each call that was refused")
        stage.until(lambda: not let_out(), "each call to be refused by the page's policy")


def refused_by_policy(page: Page, url: str) -> bool:
    """Whether what was asked for was stopped by the page's own policy before it went out."""
    asked = {told["params"]["requestId"]: told["params"]["request"]["url"] for told in page.tab.events
             if told["method"] == "Network.requestWillBeSent"}  # fmt: skip
    return any(told["params"].get("blockedReason") == "csp" and asked.get(told["params"]["requestId"]) == url
               for told in page.tab.events if told["method"] == "Network.loadingFailed")  # fmt: skip


@with_chromium
def storage_full(folder: pathlib.Path) -> None:
    """The browser has no room: the page says so as an alarm, loses nothing, and keeps all when there is room again."""
    with Hall(folder) as stage:
        page, port = begin(stage)
        until_agrees(stage, page)
        play(stage, page, port, RUY[:2], RUY_SANS[:2])
        page.tab.call("Storage.overrideQuotaForOrigin", origin="file:///", quotaSize=1)
        for move in RUY[2:4]:
            port.board.play(move)
        stage.until(lambda: any(word in said(page) for word in ("DISK FULL", "NOT WRITTEN", "no room")), "the alarm")
        print(f"  the page says: {page.describe()}")
        page.tab.call("Storage.overrideQuotaForOrigin", origin="file:///")
        stage.until_moves(page, RUY_SANS[:4])
        stage.until(lambda: "DISK FULL" not in page.text("#state"), "no alarm any more")
        text, capture = stage.saved(page, "#save-game"), stage.saved(page, "#save-capture")
        same(text, of_record(text, capture))
        same(port.delivered[: len(capture)], capture)
