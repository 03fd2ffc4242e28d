"""What stands there instead of the times of a game, and what happens if they can't be kept or read: the game is recorded, and a message
says it once."""

from __future__ import annotations

import json
import pathlib
from typing import List

from browsed.folders import Chosen, begin_in, until_text
from browsed.games import RUY, RUY_SANS, begin, play, until_agrees
from browsed.hall import Hall
from browsed.kept import opened_again
from browsed.losses import DELETED, NO_ROOM, is_troubled
from browsed.stage import with_chromium
from browsed.times import said_of_times, until_kept, until_times
from played.stage import same
from played.times import NOTHING, ONE_BYTE

OTHER = "other times"
# The database takes nothing of times alone while `isShut`.
SHUT = """
window.isShut = false;
const transaction = IDBDatabase.prototype.transaction;
IDBDatabase.prototype.transaction = function (stores, mode, ...more) {
  if (window.isShut && mode === 'readwrite' && String(stores) === 'settings') throw new DOMException('it is shut', 'UnknownError');
  return transaction.call(this, stores, mode, ...more);
};
"""
# The database doesn't give times.
UNREADABLE = """
const getAll = IDBObjectStore.prototype.getAll;
IDBObjectStore.prototype.getAll = function (...given) {
  if (this.name === 'settings') throw new DOMException('they are spoiled', 'UnknownError');
  return getAll.apply(this, given);
};
"""
# The next reading of a game fails once it `breaks`.
BREAKS = """
window.breaks = false;
const post = Worker.prototype.postMessage;
Worker.prototype.postMessage = function (message) {
  if (window.breaks && message?.name === 'tell') {
    window.breaks = false;
    throw new Error('broken for a case');
  }
  return post.call(this, message);
};
"""
# Puts this in the place of a game's times.
EXCHANGED = """
(async () => {
  const answer = (request) => new Promise((done, failed) => {
    request.onsuccess = () => done(request.result);
    request.onerror = () => failed(request.error);
  });
  const database = await answer(indexedDB.open('dgt_recorder'));
  const change = database.transaction(['boards', 'settings'], 'readwrite');
  const { game } = await answer(change.objectStore('boards').get(1));
  const settings = change.objectStore('settings');
  const all = IDBKeyRange.bound(['times', game, 0], ['times', game, Infinity]);
  const before = (await answer(settings.getAll(all))).map(({ value }) => value.text).join('');
  await answer(settings.delete(all));
  const text = TEXT.replace('KEPT', before);
  if (text) await answer(settings.put({ name: ['times', game, 0], value: { at: Date.now() - 35000, text } }));
  database.close();
  return before;
})()
"""


def goes_on_over(stage: Hall, text: str) -> List[str]:
    """A game of two plies goes on beside this instead of its times. Returns what is said."""
    page, port = stage.pages[0], stage.ports[0]
    stage.until_dumped(page, port)
    port.limit = 0
    until_kept(stage, page, is_odd=True)
    stage.close(page)
    port.limit = None
    other = stage.browser.tab()
    other.open((stage.folder / "other.html").as_uri())
    other.until("document.title", "another tab")
    other.value(EXCHANGED.replace("TEXT", json.dumps(text)))
    other.close()
    page = opened_again(stage, port, RUY_SANS[:2])
    stage.until_dumped(page, port)
    until_kept(stage, page, is_odd=True)
    said = said_of_times(page)
    stage.open(page)
    stage.until(lambda: page in port.holders, "the board to be opened by itself")
    same(said_of_times(page), [])
    for line in said:
        assert line.endswith(NOTHING), line
    return said


@with_chromium
def times_that_are_odd(folder: pathlib.Path) -> None:
    """They are torn, missing, tell of more or fewer bytes than there are, are another capture's or a newer program's, or can't be
    read: it is said once, the game goes on with them or with others, and what isn't its own is kept."""
    with Hall(folder) as stage:
        (folder / "other.html").write_text("<!doctype html><title>another tab</title>")
        page, port = begin(stage)
        until_agrees(stage, page)
        play(stage, page, port, RUY[:2], RUY_SANS[:2])
        others: List[str] = []
        for name, text, part in (
            ("a line", "KEPT12 heard 6", "was torn: its last 10 bytes are dropped"),
            ("zeros", "KEPT" + 50 * "\0", "was torn: its last 50 bytes are dropped"),
            ("a word", "KEPT5 flown\n", "was torn: its last 8 bytes are dropped"),
            ("missing", "", "is missing: when the game's first"),
            ("long", "KEPT999000 heard 27\n", "tells of 27 bytes more than"),
            ("short", "KEPT0 begin 67\n", "has no times for the last"),
            ("another", f"1 times 0\n{ONE_BYTE}\n0 begin 1\n", "is of another capture"),
            ("longer", "1 times 0\n999999 digest 5\n0 begin 1\n", "is of another capture"),
            ("newest", "2 times 0\nwhat nobody knows yet\n", "is of a newer program"),
            ("headless", "0 begin 1\n5 opened\n", "isn't readable"),
            ("half", "1 times 0\n67 dig", "isn't readable"),
        ):
            said = goes_on_over(stage, text)
            assert len(said) == 1 and part in said[0], (name, said)
            if "kept as board 1.other.times" in said[0]:
                others.append(text)
            same(stage.pages[0].kept_times(1, OTHER), others)
        same(len(others), 5)
        stage.enlarge(stage.pages[0], 1)
        stage.until_moves(stage.pages[0], RUY_SANS[:2])
        play(stage, stage.pages[0], port, RUY[2:4], RUY_SANS[2:4])


@with_chromium
def times_that_cannot_be_kept(folder: pathlib.Path) -> None:
    """The database takes no times for a while: it is said, the game is recorded, and nothing is lost. A tab that is killed meanwhile
    loses times alone: that is said when it is opened again."""
    with Hall(folder) as stage:
        port = stage.board()
        page = stage.tab([SHUT])
        stage.add(page, port)
        stage.enlarge(page, 1)
        until_agrees(stage, page)
        for end in (2, 4):
            until_kept(stage, page)
            page.value("isShut = true")
            stage.until(lambda: any("can't be kept" in line for line in said_of_times(page)), "that they can't be kept")
            play(stage, page, port, RUY[end - 2 : end], RUY_SANS[end - 2 : end])
            stage.until_dumped(page, port)
            stage.rest(2.5)  # it is tried each second
            if end == 2:
                page.value("isShut = false")
                stage.until(lambda: said_of_times(page)[-1].endswith("is kept again"), "that they are kept again")
                same(len(said_of_times(page)), 2)
                same(len(until_kept(stage, page).calls), 1)
        stage.crash(page)
        page = opened_again(stage, port, RUY_SANS[:4])
        stage.until_dumped(page, port)
        same(len(until_kept(stage, page, lost=True).calls), 2)
        said = said_of_times(page)
        assert len(said) == 1 and "board 1.times has no times for the last" in said[0] and said[0].endswith(NOTHING), said


@with_chromium
def times_that_cannot_be_read(folder: pathlib.Path) -> None:
    """The database doesn't give the times of a game when it is opened: it is said, the game is recorded, and they stay as they are."""
    with Hall(folder) as stage:
        page, port = begin(stage)
        until_agrees(stage, page)
        play(stage, page, port, RUY[:2], RUY_SANS[:2])
        stage.until_dumped(page, port)
        before = until_kept(stage, page)
        stage.close(page)
        page = stage.tab([UNREADABLE])
        stage.enlarge(page, 1)
        stage.until(lambda: page in port.holders, "the board to be opened by itself")
        stage.until_moves(page, RUY_SANS[:2])
        play(stage, page, port, RUY[2:4], RUY_SANS[2:4])
        stage.until_dumped(page, port)
        said = said_of_times(page)
        assert len(said) == 1 and "can't be kept" in said[0] and said[0].endswith(NOTHING), said
        stage.close(page)
        page = opened_again(stage, port, RUY_SANS[:4])
        stage.until_dumped(page, port)
        found = until_kept(stage, page, lost=True)
        same((len(found.calls), found.calls[0][: len(before.calls[0])]), (2, before.calls[0]))
        assert ["has no times for the last" in line for line in said_of_times(page)] == [True], said_of_times(page)


@with_chromium
def times_of_an_error(folder: pathlib.Path) -> None:
    """An error ends a recorder while the browser has no room: it is begun again with all that is in memory, times too."""
    with Hall(folder) as stage:
        port = stage.board()
        page = stage.tab([NO_ROOM, BREAKS])
        stage.add(page, port)
        stage.enlarge(page, 1)
        until_agrees(stage, page)
        play(stage, page, port, RUY[:2], RUY_SANS[:2])
        until_kept(stage, page)
        page.value("isFull = true")
        stage.until(lambda: is_troubled(page), "the alarm of a full disk")
        play(stage, page, port, RUY[2:4], RUY_SANS[2:4])
        page.value("breaks = true")
        port.board.play(RUY[4])
        stage.until(lambda: any("broken for a case" in line for line in page.messages), "the error")
        stage.until_moves(page, RUY_SANS[:5])
        page.value("isFull = false")
        stage.until(lambda: not is_troubled(page), "no alarm any more")
        stage.until_dumped(page, port)
        found = until_kept(stage, page)
        same((len(found.calls), found.words(1)[:3]), (2, ["begin", "away", "opened"]))


@with_chromium
def times_of_a_deleted_database(folder: pathlib.Path) -> None:
    """Another tab deletes the database: the page keeps the times of its games anew, from their beginning."""
    with Hall(folder) as stage:
        page, port = begin(stage)
        until_agrees(stage, page)
        play(stage, page, port, RUY[:2], RUY_SANS[:2])
        until_kept(stage, page)
        (folder / "other.html").write_text("<!doctype html><title>another tab</title>")
        other = stage.browser.tab()
        other.open((folder / "other.html").as_uri())
        other.until("document.title", "another tab")
        same(other.value(DELETED), "deleted")
        play(stage, page, port, RUY[2:4], RUY_SANS[2:4])
        stage.until_dumped(page, port)
        found = until_kept(stage, page)
        same((len(found.calls), found.numbers("begin")), (1, [0]))
        same(said_of_times(page), [])


@with_chromium
def times_of_a_longer_folder(folder: pathlib.Path) -> None:
    """The browser has no room while the folder has, and the tab is killed: the game goes on with the capture of the folder, and with
    its times."""
    with Hall(folder) as stage:
        chosen = Chosen(stage)
        port = stage.board()
        page = stage.tab([chosen.script(), NO_ROOM])
        stage.add(page, port)
        stage.enlarge(page, 1)
        until_agrees(stage, page)
        chosen.choose(stage, page)
        play(stage, page, port, RUY[:2], RUY_SANS[:2])
        until_text(stage, chosen, "board 1.pgn", "1. e4 e5 *")
        page.value("isFull = true")
        stage.until(lambda: is_troubled(page), "the alarm of a full disk")
        play(stage, page, port, RUY[2:4], RUY_SANS[2:4])
        until_text(stage, chosen, "board 1.pgn", "1. e4 e5 2. Nf3 Nc6 *")
        before = until_times(stage, chosen, "board 1", lambda read: read.total() > 67, "what came")
        stage.crash(page)
        page = stage.tab([chosen.script()])
        stage.enlarge(page, 1)
        stage.until_moves(page, RUY_SANS[:4])
        stage.until(lambda: page in port.holders, "the board to be opened by itself")
        stage.until_dumped(page, port)
        found = until_kept(stage, page, lost=True)
        same((len(found.calls), found.calls[0][: len(before.calls[0])]), (2, before.calls[0]))


@with_chromium
def times_in_the_folder(folder: pathlib.Path) -> None:
    """Other times in the folder are kept: under a new name a game is begun, and under its own they get another one."""
    with Hall(folder) as stage:
        chosen = Chosen(stage)
        chosen.files["board 1.times"] = b"mine"
        page, port = begin_in(stage, chosen)
        chosen.choose(stage, page)
        play(stage, page, port, RUY[:2], RUY_SANS[:2])
        until_text(stage, chosen, "board 1-2.pgn", "1. e4 e5 *")
        until_times(stage, chosen, "board 1-2", lambda read: read.numbers("heard"), "what came")
        same((chosen.files["board 1.times"], "board 1.dgt" in chosen.files), (b"mine", False))
        for ply, content in ((2, None), (3, b"2 times 0\nwhat nobody knows yet \xff\n")):
            stage.crash(page)
            if content:
                chosen.files["board 1-2.times"] = content
            page = stage.tab([chosen.script()])
            stage.enlarge(page, 1)
            stage.until(lambda: page in port.holders, "the board to be opened by itself")
            stage.until_moves(page, RUY_SANS[:ply])
            play(stage, page, port, RUY[ply : ply + 1], RUY_SANS[ply : ply + 1])
            until_times(stage, chosen, "board 1-2", lambda read: len(read.calls) == ply, "the times of this call")
            said = [line for line in said_of_times(page) if "in the folder" in line or "other times than" in line]
            same(len(said), 1 if content else 0)
            same(chosen.files.get("board 1-2.other.times"), content)
        page.type("Anna", "#white")
        page.type("Ben", "#black")
        stage.until(lambda: "Anna - Ben.times" in chosen.files and "board 1-2.times" not in chosen.files, "another name")
