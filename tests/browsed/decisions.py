"""The cases of tests/decisions, which tests/live_decisions runs over live/, over the modules of web/; and what one of these keeps, by
itself."""

import contextlib
import json
import pathlib
import subprocess
import threading
from typing import Dict, Iterator, List, Tuple

from browsed import TOP
from browsed.stage import with_chromium
from compared.browser import serving
from paged.devtools import Browser, Tab
from played.stage import same

CASES = TOP / "tests" / "decisions"
FOLDERS = ("web", "hosts", "tests/decisions", "live/show/page")
# 16 boards send something in one moment, twice; then what the fifth has sent can't be kept.
TOGETHER = """
import('/web/kept/database.js').then(async ({ Database }) => {
  const database = await Database.open();
  const [transaction, put] = [IDBDatabase.prototype.transaction, IDBObjectStore.prototype.put];
  let [count, refused] = [0, 0];
  IDBDatabase.prototype.transaction = function (...given) {
    count += 1;
    return transaction.apply(this, given);
  };
  IDBObjectStore.prototype.put = function (value, ...given) {
    if (value.game === refused) throw new DOMException('There is no room.', 'QuotaExceededError');
    return put.call(this, value, ...given);
  };
  const games = Array.from({ length: 16 }, (_, at) => at + 1);
  const send = (number) => Promise.allSettled(games.map((game) => database.append(game, [{ number, at: 0, bytes: Uint8Array.of(number) }])));
  await send(0);
  const transactions = count;
  refused = 5;
  const failed = (await send(1)).flatMap(({ reason }, at) => (reason ? [[at + 1, reason.name]] : []));
  return [transactions, failed, await Promise.all(games.map((game) => database.count(game)))];
}).catch(String)
"""

# A board that stays wrong is read once more, and the program can't do that.
UNREAD = """
Promise.all(['hidden', 'state'].map((name) => import(`/web/board/${name}.js`)).concat(import('/web/run/guard.js'))).then(
  async ([{ Hidden }, { Kind }, { Guard }]) => {
    let [now, broke, count] = [0, '', 0];
    const guard = new Guard({ now: () => now }, (error) => (broke = String(error)));
    const fails = async () => {
      count += 1;
      throw new Error('no room');
    };
    const capture = { size: 5, view: () => new Uint8Array(5) };
    const course = { plies: [], newest: '' };
    const parts = { attending: { showing: { epoch: 1 } }, hall: { calls: { recover: fails } }, presence: { state: { kind: Kind.WRONG }, said: { fits: '' } } };
    const hidden = new Hidden({ ...parts, guard, capture, course, isOver: false, options: {} });
    hidden.look();
    now = 15;
    hidden.look();
    await new Promise((done) => setTimeout(done));
    return [count, broke, guard.ended, hidden.typed];
  },
).catch(String)
"""


def files() -> Dict[str, bytes]:
    """What the browser is given: the modules and the cases."""
    found = [path for folder in FOLDERS for path in (TOP / folder).rglob("*") if path.suffix in (".js", ".mjs", ".json")]
    words = (TOP / "shared" / "words.en.json").read_bytes().replace(b"<", rb"\u003c")
    page = b'<!doctype html><title>cases</title><script type="application/json" id="words">%b</script>' % words
    return {"/": page, **{f"/{path.relative_to(TOP)}": path.read_bytes() for path in found}}


def fails(tab: Tab, name: str) -> int:
    """Runs one file, and says what each of its tables came to; how many cases failed."""
    told = tab.value(f"import('/tests/decisions/run.mjs').then((cases) => cases.run({name!r})).catch(String)")
    assert isinstance(told, list), f"{name}: {told}"
    for table, passed, failed in told:
        print(f"  {name}.{table}: {passed} passed, {len(failed)} failed", *(f"FAILED {case}" for case in failed), sep="\n  ")
    return sum(len(failed) for _, _, failed in told)


@contextlib.contextmanager
def with_modules() -> Iterator[Tab]:
    """A tab in which the modules can be imported."""
    server = serving(files())
    # A thread, since the browser asks it while this process waits for the browser.
    threading.Thread(target=server.serve_forever, daemon=True).start()
    with Browser() as browser:
        tab = browser.tab()
        tab.open(f"http://127.0.0.1:{server.server_address[1]}/")
        tab.until("document.title", "cases")
        yield tab
    server.shutdown()
    server.server_close()


def answered(parts: List[Tuple[str, bytes]], size: int) -> List[str]:
    """What `live` reports and says of a capture in these parts, with their times, once the next call has begun."""
    told = [b"0 kept %d\n%s" % (len(text), text.encode()) if text else b"" for text, _ in parts]
    captures = [b"0 capture %d\n%s" % (len(sent), sent) for _, sent in parts]
    entries = b"".join(part for pair in zip(told, captures) for part in pair)
    begins = b"0 begin %d\n0 away 35000\n5 opened\n12 wake\n20 text\n" % size
    done = subprocess.run([str(TOP / "bin" / "dgt_replay"), "live"], input=entries + begins, stdout=subprocess.PIPE, check=True)
    return [line for line in done.stdout.decode().splitlines() if line != "keep" and not line.startswith("done")]


@with_chromium
def told_in_parts(folder: pathlib.Path) -> None:
    """A long capture is told to the program in parts, with their times: what it says then is what it says of the whole."""
    capture = (TOP / "samples" / "long-game.dgt").read_bytes()
    with with_modules() as tab:
        headed = tab.value(f"import('/web/game/times.js').then(({{ heading }}) => heading(0, Uint8Array.from({list(capture[:67])})))")
        events, size, at = ["0 begin 0", "3 opened"], 0, 0
        while size < len(capture):
            count = min(50 + size % 90, len(capture) - size)
            at, size = at + 700 * (1 + count % 3), size + count
            events.append(f"{at} {'added' if count % 11 == 0 else 'heard'} {count}")
            if count % 7 == 0:
                events += [f"{at} gone", f"{at + 9000} opened", f"{at + 9500} ok"]
                at += 9500
            if count % 13 == 0:
                size = min(size + 200, len(capture))
                events += [f"0 begin {size}", "0 away 60000", "2 opened"]
                at = 2
        text = f"{headed}" + "".join(f"{event}\n" for event in events)
        whole = answered([(text, capture)], len(capture))
        for given, most in ((text, 90), (text, 700), ("", 700)):
            made = f"inParts({json.dumps(given)}, Uint8Array.from({list(capture)}), {most}).map(({{ text, bytes }}) => [text, [...bytes]])"
            parts = tab.value(f"import('/web/game/times.js').then(({{ inParts }}) => {made})")
            assert isinstance(parts, list) and len(parts) > 2, parts
            found = answered([(part, bytes(sent)) for part, sent in parts], len(capture))
            same(found, whole if given else answered([("", capture)], len(capture)))


@with_chromium
def decisions(folder: pathlib.Path) -> None:
    """The modules of web/ decide as those of live/ do: the same cases for both."""
    with with_modules() as tab:
        names = sorted(path.stem for path in CASES.glob("*.json") if path.with_suffix(".mjs").exists())
        failed = {name: fails(tab, name) for name in names}
    assert not any(failed.values()), failed


@with_chromium
def kept_together(folder: pathlib.Path) -> None:
    """What 16 boards send in one moment is kept in one transaction. If one board's part can't be kept, that of each other board is."""
    with with_modules() as tab:
        same(tab.value(TOGETHER), [1, [[5, "QuotaExceededError"]], [2, 2, 2, 2, 1, *[2] * 11]])


@with_chromium
def advice_ends_nothing(folder: pathlib.Path) -> None:
    """If the program can't read a capture for advice, the recording goes on, and nothing is advised."""
    with with_modules() as tab:
        same(tab.value(UNREAD), [1, "", False, ""])
