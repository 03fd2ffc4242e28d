"""Captures that get long: how much a game may have, and what becomes of what comes behind it."""

import pathlib

from browsed.games import QUEENS, QUEENS_SANS, RUY, RUY_SANS, answered, begin, of_record, play, until_agrees
from browsed.hall import Hall
from browsed.page import Page
from browsed.series import movetext_of
from browsed.stage import with_chromium
from played.stage import same

MIB = 2**20  # bytes
# The capture of the first board gets bytes that are no frames, until it has so many.
FILLED = """
(async () => {
  const answer = (request) => new Promise((done, failed) => {
    request.onsuccess = () => done(request.result);
    request.onerror = () => failed(request.error);
  });
  const database = await answer(indexedDB.open('dgt_recorder'));
  const change = database.transaction(['boards', 'chunks'], 'readwrite');
  const { game } = await answer(change.objectStore('boards').get(1));
  const chunks = await answer(change.objectStore('chunks').getAll(IDBKeyRange.bound([game, 0], [game, Infinity])));
  const last = chunks.at(-1);
  const size = chunks.reduce((sum, { bytes }) => sum + bytes.length, 0);
  await answer(change.objectStore('chunks').put({ game, number: last.number + 1000, at: last.at, bytes: new Uint8Array(TOTAL - size) }));
  await new Promise((done) => (change.oncomplete = done)); // else the next page may come before it
  database.close();
})()
"""
# How many bytes the workers got as copies, in large messages; the most that was handed or copied at a time; and how many workers there
# are.
HANDED = """
window.copied = 0;
window.largest = 0;
window.workers = 0;
const [post, terminate, Begun] = [Worker.prototype.postMessage, Worker.prototype.terminate, Worker];
window.Worker = class extends Begun {
  constructor(url) {
    super(url);
    workers += 1;
  }
};
Begun.prototype.terminate = function () {
  workers -= 1;
  terminate.call(this);
};
Begun.prototype.postMessage = function (message, ...given) {
  const bytes = message?.given?.input ?? message?.given?.entry ?? message?.given?.part ?? [];
  const isLarge = bytes.length >= 2 ** 20;
  largest = Math.max(largest, bytes.length);
  post.call(this, message, ...given);
  if (isLarge) copied += bytes.length;
};
const slice = Uint8Array.prototype.slice;
Uint8Array.prototype.slice = function (...given) {
  const bytes = slice.apply(this, given);
  largest = Math.max(largest, bytes.length);
  return bytes;
};
"""
# How many bytes of the first board's game are on the disk.
SIZE = FILLED[: FILLED.index("  await answer(change.objectStore('chunks').put")] + "  database.close();\n  return size;\n})()"


def fill(stage: Hall, page: Page, total: int) -> None:
    """The capture of the first board has so many bytes when the page is opened again."""
    stage.leave(page)
    page.value(FILLED.replace("TOTAL", str(total)))
    stage.open(page)
    stage.enlarge(page, 1)


@with_chromium
def limits(folder: pathlib.Path) -> None:
    """A game may have 63 MiB. Then it is over, the page says why, and keeps all that came until then. What comes behind it has room: the
    next game begins when the pieces are set up. The program gets so many bytes in parts, nothing copies more than one of them, and what it
    takes for its text is given back."""
    with Hall(folder) as stage:
        port = stage.board()
        page = stage.tab([HANDED])
        stage.add(page, port)
        stage.enlarge(page, 1)
        until_agrees(stage, page)
        play(stage, page, port, RUY[:2], RUY_SANS[:2])
        fill(stage, page, 62 * MIB)
        stage.until_moves(page, RUY_SANS[:2])
        stage.until(lambda: page in port.holders, "the board to be opened again")
        play(stage, page, port, RUY[2:3], RUY_SANS[2:3])
        stage.rest(1)
        same([line for line in page.messages if "MiB" in line], [])
        fill(stage, page, 63 * MIB - 150)
        stage.until(lambda: any("its capture has 63 MiB, and none may have more" in line for line in page.messages), "the limit")
        stage.until(lambda: page.value(SIZE) > 63 * MIB, "more behind the game")
        stage.until_moves(page, RUY_SANS[:3])
        game = stage.saved(page, "#save-game")
        same((movetext_of(game), page.value("copied")), ("1. e4 e5 2. Nf3 *", 0))
        stage.until(lambda: page.value("workers") <= 3, "the end of workers that aren't needed any more")
        port.board.set_up([])
        stage.until_moves(page, [])
        until_agrees(stage, page)
        play(stage, page, port, QUEENS[:1], QUEENS_SANS[:1])
        same((page.value("copied"), page.value("largest") < 2 * MIB), (0, True))


def until_short(stage: Hall, page: Page, when: str) -> None:
    """The page says that of what came then only the last is kept, and keeps no more."""
    told = f"what the board has sent {when} got long: only the last of it is kept"
    stage.until(lambda: any(told in line for line in page.messages), "a word that the capture got long")
    stage.until(lambda: page.value(SIZE) < MIB, "a short capture")


@with_chromium
def left_on(folder: pathlib.Path) -> None:
    """A board is left on for weeks. Of what it sends before the first move, and since the end of its game, only the last is kept. So the
    moves come to their game, and the next one begins when the pieces are set up."""
    with Hall(folder) as stage:
        page, port = begin(stage)
        until_agrees(stage, page)
        stage.until_dumped(page, port)
        fill(stage, page, 40 * MIB)
        until_short(stage, page, "before the first move of board 1")
        until_agrees(stage, page)
        play(stage, page, port, RUY[:2], RUY_SANS[:2])
        answered(stage, page, "1-0", "added by hand: the result 1-0")
        stage.until(lambda: page.text("#state").endswith("over"), "the end of the game")
        stage.until_dumped(page, port)
        fill(stage, page, 64 * MIB)
        until_short(stage, page, "since the end of board 1")
        stage.until_moves(page, RUY_SANS[:2])
        same(page.text("#state").endswith("over"), True)
        game, capture = stage.saved(page, "#save-game"), stage.saved(page, "#save-capture")
        same((movetext_of(game), game), ("1. e4 e5 1-0", of_record(game, capture)))
        port.board.set_up([])
        stage.until_moves(page, [])
        until_agrees(stage, page)
        play(stage, page, port, QUEENS[:1], QUEENS_SANS[:1])
        texts = stage.saved(page, "#save-round").decode().replace("\n", " ")
        assert "1. e4 e5 1-0" in texts and "1. d4 *" in texts, texts
