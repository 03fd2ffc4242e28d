#!/usr/bin/env python3
"""How fast bin/recorder.html is, in Chromium, with boards that the page itself plays (bench/recorder_boards.js).

Prints the file's size; the time from opening the file to the first board being asked; and for 1 and for 16 boards whose
captures have an hour of play: from opening the page until it shows a board, and until all agree; from a move's last byte to the drawn
card, and to its text on the disk. The files are in the browser's private folder, since nobody is there to choose one; so the page comes
from a server of this machine for that.

Behind that: the processor time that the page took while it was measured, by the threads of its process, and what its main thread
did.

With files of other pages all is measured with each of them, by turns: only figures of one run compare. `--load` has so many processes
compute beside it.
"""

from __future__ import annotations

import argparse
import contextlib
import http.server
import os
import pathlib
import re
import statistics
import subprocess
import sys
import threading
import time
from typing import Dict, Iterator, List, Sequence, Tuple, cast

TOP = pathlib.Path(__file__).resolve().parent.parent
sys.dont_write_bytecode = True
sys.path[:0] = [str(TOP), str(TOP / "tests")]
from paged.devtools import Browser, Tab  # noqa: E402
from played.recorder import processes  # noqa: E402

PAGE = TOP / "bin" / "recorder.html"
BOARDS = (TOP / "bench" / "recorder_boards.js").read_text()
SECONDS = 3600  # of play that a capture has
OPENING = 60.0  # seconds until all boards must be recorded
MOVES = (("g1", "f3", "Nf3"), ("g8", "f6", "Nf6"), ("f3", "g1", "Ng1"), ("f6", "g8", "Ng8"))
EACH = 40  # seconds in which a ply is made before the measurement
MAIN, WORKER, OTHERS, ELSE = "its main thread", "its workers, in which the programs run", "its other threads", "other processes"
THREADS = {"chromium": MAIN, "CrRendererMain": MAIN, "DedicatedWorker": WORKER}  # by how their names begin
DONE = {"ScriptDuration": "scripts", "RecalcStyleDuration": "styles", "LayoutDuration": "layout"}  # by the main thread
HOUR = """(async (count) => {
  const START = [...'rnbqkbnrpppppppp................................PPPPPPPPRNBQKBNR'];
  const codes = (squares) => squares.map((letter) => '.PRNBKQprnbkq'.indexOf(letter));
  const database = await new Promise((done) => { indexedDB.open('dgt_recorder').onsuccess = ({ target }) => done(target.result); });
  const change = database.transaction(['boards', 'games', 'chunks'], 'readwrite');
  const at = Date.now() / 1000 - %(seconds)d;
  for (let id = 1; id <= count; id += 1) {
    const options = { rotated: false, first: null, fen: null, recover: null, began: '2026.11.26', tags: {}, event: null, site: null,
      date: null, round: null, white: null, black: null };
    change.objectStore('boards').put({ id, serial: String(10000 + id), info: { usbVendorId: 0x0403, usbProductId: 0x6001 }, game: id });
    change.objectStore('games').put({ id, board: id, name: `board ${id}`, options, end: null, looks: [] });
    const squares = START.slice();
    const number = (name) => 'abcdefgh'.indexOf(name[0]) + 8 * (8 - Number(name[1]));
    const moves = %(moves)s;
    let bytes = [];
    for (let second = 0; second < %(seconds)d; second += 1) {
      for (let dumps = 0; dumps < %(dumps)d; dumps += 1) bytes.push(0x86, 0, 67, ...codes(squares));
      const two = (value) => 16 * Math.floor(value / 10) + value %% 10;
      const left = 5400 - second;
      bytes.push(0x8d, 0, 10, Math.floor(left / 3600), two(Math.floor(left / 60) %% 60), two(left %% 60), 1, 0x30, 0, 1);
      if (second %% %(each)d === %(each)d - 1) {
        const [from, to] = moves[Math.floor(second / %(each)d) %% moves.length].map(number);
        const code = codes(squares)[from];
        squares[to] = squares[from];
        squares[from] = '.';
        bytes.push(0x8e, 0, 5, from, 0, 0x8e, 0, 5, to, code);
      }
      if (second %% 60 === 59) {
        change.objectStore('chunks').put({ game: id, number: second, at: at + second, bytes: Uint8Array.from(bytes) });
        bytes = [];
      }
    }
  }
  await new Promise((done) => { change.oncomplete = done; });
  database.close();
})(%(count)d)"""
WATCHES = """
window.seen = []; window.written = [];
window.showDirectoryPicker = async () => {
  const folder = await navigator.storage.getDirectory();
  for await (const name of folder.keys()) await folder.removeEntry(name, { recursive: true });
  return folder;
};
const begin = FileSystemFileHandle.prototype.createWritable;
FileSystemFileHandle.prototype.createWritable = async function (...given) {
  const stream = await begin.apply(this, given);
  const { write, close } = stream;
  let text = '';
  stream.write = (content) => { text = content; return write.call(stream, content); };
  stream.close = async () => { await close.call(stream); if (this.name.endsWith('.pgn')) written.push([this.name, performance.now(), text]); };
  return stream;
};
// A message of one's own comes when the frame is drawn in which something has changed.
const drawn = new MessageChannel();
drawn.port1.onmessage = ({ data }) => { const now = performance.now(); for (const [number, text] of data) (window.shown ||= []).push([number, now, text]); };
window.watch = () => new MutationObserver(() => {
  const news = [];
  document.querySelectorAll('#boards .last').forEach((last, at) => {
    if (seen[at] !== last.textContent) { seen[at] = last.textContent; news.push([at + 1, last.textContent]); }
  });
  if (news.length > 0) drawn.port2.postMessage(news);
}).observe(document.getElementById('boards'), { subtree: true, childList: true, characterData: true });
// When the first board is shown, and when all agree.
window.opening = {};
const looks = setInterval(() => {
  const states = [...document.querySelectorAll('#boards .state')].map((one) => one.textContent);
  if (states.length > 0) opening.first ??= performance.now();
  if (states.length === boards.ports.size && states.every((text) => text.includes('agrees'))) opening.all ??= performance.now();
  if (opening.all) clearInterval(looks);
}, 20);
"""


def serving(page: pathlib.Path) -> http.server.ThreadingHTTPServer:
    """A server of this machine alone, for the page."""

    class Handler(http.server.BaseHTTPRequestHandler):
        def do_GET(self) -> None:
            self.send_response(200)
            self.send_header("Content-Type", "text/html")
            self.end_headers()
            self.wfile.write(page.read_bytes())

        def log_message(self, format: str, *args: object) -> None:
            """Nothing is printed of a request."""

    server = http.server.ThreadingHTTPServer(("127.0.0.1", 0), Handler)
    threading.Thread(target=server.serve_forever, daemon=True).start()
    return server


@contextlib.contextmanager
def computing(count: int) -> Iterator[None]:
    """So many processes compute meanwhile."""
    words = [sys.executable, "-c", "while True: pass"]
    children = [subprocess.Popen(words) for _ in range(count)]
    try:
        yield
    finally:
        for child in children:
            child.kill()
            child.wait()


def opened(browser: Browser, url: str, before: str) -> Tab:
    """The page in a tab, with this evaluated before its scripts."""
    tab = browser.tab()
    tab.call("Page.addScriptToEvaluateOnNewDocument", source=BOARDS + before)
    tab.open(url)
    return tab


def press(tab: Tab, name: str) -> None:
    tab.call("Runtime.evaluate", expression=f"document.getElementById('{name}').click()", userGesture=True)


def first_asked(page: pathlib.Path) -> float:
    """Milliseconds from opening the file to the first board being asked, where it was recorded before: the median of five."""
    found: List[float] = []
    with Browser() as browser:
        tab = opened(browser, page.as_uri(), "boards.add(1);")
        tab.until("document.getElementById('add').disabled", False)
        press(tab, "add")
        tab.until("document.querySelector('#boards .state')?.textContent", "agrees")
        tab.close()
        for _ in range(5):
            tab = opened(browser, page.as_uri(), "boards.add(1, true);")
            tab.until("boards.ports.get(1).asked !== null")
            found.append(cast(float, tab.value("boards.ports.get(1).asked")))
            tab.close()
    return statistics.median(found)


def told(name: str, seconds: Sequence[float], count: int) -> None:
    """Of so many moves, each as far as it came in time."""
    ordered = sorted(1000 * second for second in seconds)
    if not ordered:
        print(f"    {name}: never")
        return
    worst = ordered[min(len(ordered) - 1, int(0.99 * len(ordered)))]
    print(f"    {name}: median {statistics.median(ordered):.0f} ms, 99 of 100 within {worst:.0f} ms, {len(ordered)} of {count} moves")


def last_move(pgn: str) -> str:
    """The last move of a text, as `12... Nf6`."""
    words = re.sub(r"\{[^}]*\}", "", pgn.partition("\n\n")[2]).split()
    sans = [word for word in words[:-1] if "." not in word]
    return f"{(len(sans) + 1) // 2}.{'' if len(sans) % 2 else '..'} {sans[-1]}" if sans else ""


def taken(browser: Browser, tab: Tab) -> Dict[str, float]:
    """The seconds of the processor that were taken so far: by the threads of the page's process, by other processes, and by what its
    main thread has done."""
    found: Dict[str, float] = dict.fromkeys((MAIN, WORKER, OTHERS, ELSE, *DONE.values()), 0.0)
    tick = os.sysconf("SC_CLK_TCK")
    for process in processes(browser.process.pid):
        is_page = b"--type=renderer" in pathlib.Path(f"/proc/{process}/cmdline").read_bytes()
        for thread in pathlib.Path(f"/proc/{process}/task").iterdir():
            name, _, rest = (thread / "stat").read_text().partition("(")[2].rpartition(")")
            used = sum(map(int, rest.split()[11:13])) / tick
            what = next((what for begins, what in THREADS.items() if name.startswith(begins)), OTHERS)
            found[what if is_page else ELSE] += used
    for metric in tab.call("Performance.getMetrics")["metrics"]:
        if metric["name"] in DONE:
            found[DONE[metric["name"]]] += metric["value"]
    return found


def play(browser: Browser, url: str, count: int, dumps: int, chatters: bool, seconds: float) -> None:
    """So many boards, each with a capture of an hour, in which each dump comes so often: opened, and played for so long."""
    tab = opened(browser, url, "")
    tab.until("document.getElementById('add').disabled", False)
    moves = str([[start, end] for start, end, _ in MOVES])
    there = count + chatters
    tab.value(HOUR % {"seconds": SECONDS, "moves": moves, "each": EACH, "count": there, "dumps": dumps})
    tab.close()
    before = "".join(f"boards.add({number}, true, START_SQUARES);" for number in range(1, there + 1))
    plies = SECONDS // EACH
    squares = list("rnbqkbnrpppppppp................................PPPPPPPPRNBQKBNR")
    for ply in range(plies):
        left, reached = (("abcdefgh".index(name[0]) + 8 * (8 - int(name[1]))) for name in MOVES[ply % len(MOVES)][:2])
        squares[reached], squares[left] = squares[left], "."
    tab = opened(browser, url, f"const START_SQUARES = '{''.join(squares)}';" + before + WATCHES)
    ends = time.monotonic() + OPENING
    while time.monotonic() < ends and not tab.value("opening.all"):
        time.sleep(0.1)
    first, all_agree = (cast(float, tab.value(f"opening.{name} ?? 0")) for name in ("first", "all"))
    recorded = f"all agree after {all_agree:.0f} ms" if all_agree else f"not all agree after {OPENING:.0f} s"
    print(f"{there} boards with an hour of play, {dumps} dumps a second: opened, the first card after {first:.0f} ms, {recorded}")
    if not seconds or not all_agree:
        tab.close()
        return
    press(tab, "folder")
    if chatters:
        tab.value(f"boards.chatter({there}, 'a2')")
    time.sleep(3)
    tab.value("watch()")
    tab.call("Performance.enable")
    before_it = taken(browser, tab)
    played: List[Tuple[int, float, str]] = []
    began = time.monotonic()
    at: Dict[int, int] = dict.fromkeys(range(1, count + 1), plies)
    while time.monotonic() < began + seconds:
        for number in at:
            start, end, san = MOVES[at[number] % len(MOVES)]
            move = f"{at[number] // 2 + 1}.{'..' if at[number] % 2 else ''} {san}"
            now = tab.value(f"boards.play({number}, '{start}', '{end}'); performance.now()")
            played.append((number, cast(float, now), move))
            at[number] += 1
            time.sleep(2.0 / count)
    lasted = time.monotonic() - began
    used = {what: 1000 * (seconds - before_it[what]) / lasted for what, seconds in taken(browser, tab).items()}
    time.sleep(3)
    shown = cast(List[List[object]], tab.value("window.shown"))
    written = cast(List[List[object]], tab.value("written"))
    lines: List[float] = []
    texts: List[float] = []
    for number, then, move in played:
        line = [cast(float, at_) for one, at_, text in shown if one == number and text == move and cast(float, at_) >= then - 1]
        text = [
            cast(float, at_)
            for name, at_, content in written
            if name == f"board {number}.pgn" and last_move(cast(str, content)) == move and cast(float, at_) >= then - 1
        ]
        lines += [(line[0] - then) / 1000] if line else []
        texts += [(text[0] - then) / 1000] if text else []
    beside = ", beside one that chatters" if chatters else ""
    print(f"  {len(played)} moves in {seconds:.0f} s{beside}:")
    told("to the drawn card", lines, len(played))
    told("to the text on the disk", texts, len(played))
    threads = ", ".join(f"{what} {used[what]:.0f}" for what in (MAIN, WORKER, OTHERS, ELSE))
    print(f"    processor time, ms a second: {threads}")
    print(f"    of its main thread: {', '.join(f'{what} {used[what]:.0f}' for what in DONE.values())}")
    tab.close()


def main() -> int:
    parser = argparse.ArgumentParser(description=__doc__, formatter_class=argparse.RawDescriptionHelpFormatter)
    parser.add_argument("pages", nargs="*", type=pathlib.Path, default=[PAGE], help="files of pages; bin/recorder.html without any")
    parser.add_argument("--boards", type=int, nargs="+", default=[1, 16], help="how many boards there are, one count after the other")
    parser.add_argument("--dumps", type=int, default=1, help="how often each dump of the hour stands in a capture: with 72 it has 20 MB")
    parser.add_argument("--chatter", action="store_true", help="one more board, of which a square chatters, at the pace of its line")
    parser.add_argument("--seconds", type=float, default=60.0, help="for how long is played; with 0 the page is only opened")
    parser.add_argument("--turns", type=int, default=1, help="how often all is measured")
    parser.add_argument("--load", type=int, default=0, help="processes that compute meanwhile")
    given = parser.parse_args()
    pages = [page.resolve() for page in given.pages]
    servers = [serving(page) for page in pages]
    with computing(given.load):
        for _ in range(given.turns):
            for count in [0, *given.boards]:
                for page, server in zip(pages, servers):
                    print(f"{page}: {page.stat().st_size / 1000:.0f} kB", flush=True)
                    if count == 0:
                        print(f"from opening the file to the first board being asked: {first_asked(page):.0f} ms", flush=True)
                        continue
                    with Browser() as browser:
                        url = f"http://127.0.0.1:{server.server_address[1]}/"
                        play(browser, url, count, given.dumps, given.chatter, given.seconds)
    for server in servers:
        server.shutdown()
    return 0


if __name__ == "__main__":
    sys.exit(main())
