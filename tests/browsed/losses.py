"""What the page keeps when its disk is full, when its database is deleted or can't be opened, and when a tab is killed meanwhile."""

from __future__ import annotations

import contextlib
import os
import pathlib
import subprocess
from typing import List

from browsed.folders import Chosen, begin_in, names_of, until_text
from browsed.games import QUEENS, QUEENS_SANS, RUY, RUY_SANS, answered, begin, of_record, play, until_agrees
from browsed.hall import Hall, Port
from browsed.page import Page
from browsed.series import movetext_of
from browsed.stage import with_chromium
from paged.devtools import Browser
from played.stage import Skipped, same

SIZE = "120m"  # of a disk that gets full
SPOILED = b"spoiled."
MANIFEST = "profile/Default/IndexedDB/*.leveldb/MANIFEST-*"  # without it Chromium can't read a database
DELETED = """
new Promise((done) => {
  const request = indexedDB.deleteDatabase('dgt_recorder');
  request.onsuccess = () => done('deleted');
  request.onerror = () => done('refused');
})
"""
# The database can't be opened the first time.
NOT_AT_FIRST = """
let fails = true;
const open = IDBFactory.prototype.open;
IDBFactory.prototype.open = function (...given) {
  if (fails && given[0] === 'dgt_recorder') {
    fails = false;
    const request = { error: new DOMException('Internal error opening backing store for indexedDB.open.', 'UnknownError') };
    setTimeout(() => request.onerror());
    return request;
  }
  return open.apply(this, given);
};
"""
# The database takes nothing while `isFull`, nor while it `isBroken`.
NO_ROOM = """
window.isFull = window.isBroken = false;
const transaction = IDBDatabase.prototype.transaction;
IDBDatabase.prototype.transaction = function (stores, mode, ...more) {
  if (window.isFull && mode === 'readwrite') throw new DOMException('there is no room', 'QuotaExceededError');
  if (window.isBroken && mode === 'readwrite') throw new DOMException('it is broken', 'UnknownError');
  return transaction.call(this, stores, mode, ...more);
};
"""
ALARMS = ("DISK FULL", "NOT WRITTEN")


class Disk:
    """A small disk of its own, from `with` on, which only what is begun by `start` sees at `place`; this process sees it `inside`."""

    def __init__(self, place: pathlib.Path) -> None:
        self.place = place

    def __enter__(self) -> Disk:
        if os.geteuid():
            raise Skipped("only root may mount a disk for a browser")
        self.place.mkdir()
        script = f'mount -t tmpfs -o size={SIZE} none "$1" && echo there && cat'
        self._holder = subprocess.Popen(["unshare", "--mount", "sh", "-c", script, "", str(self.place)], stdin=subprocess.PIPE,
                                        stdout=subprocess.PIPE, stderr=subprocess.DEVNULL)  # fmt: skip
        assert self._holder.stdout is not None
        if self._holder.stdout.readline() != b"there\n":
            self.__exit__()
            raise Skipped("no disk may be mounted here")
        self.start = ["nsenter", f"--target={self._holder.pid}", "--mount"]
        self.inside = pathlib.Path(f"/proc/{self._holder.pid}/root{self.place}")
        return self

    def __exit__(self, *_: object) -> None:
        assert self._holder.stdin is not None and self._holder.stdout is not None
        self._holder.stdin.close()
        self._holder.stdout.close()
        self._holder.wait()

    def fill(self) -> None:
        """To the last byte, with what was freed since."""
        with open(self.inside / "other", "ab", buffering=0) as other:
            for size in (1 << 20, 1):
                with contextlib.suppress(OSError):
                    while other.write(bytes(size)) == size:
                        pass

    def free(self) -> None:
        os.unlink(self.inside / "other")

    def spoil(self, pattern: str) -> None:
        """Files get other bytes, as many as they have."""
        for path in self.inside.glob(pattern):
            with open(path, "r+b") as file:
                file.write(SPOILED * (os.fstat(file.fileno()).st_size // len(SPOILED)))

    def has_spoiled(self, pattern: str) -> bool:
        """Whether one of these files has been spoiled."""
        return any(path.read_bytes().startswith(SPOILED) for path in self.inside.glob(pattern))


def is_troubled(page: Page) -> bool:
    return any(alarm in page.text("#state") for alarm in ALARMS)


def opened_again(stage: Hall, port: Port, moves: List[str]) -> Page:
    """The page in another tab: it has these moves, and goes on recording by itself."""
    page = stage.tab()
    stage.enlarge(page, port.number)
    stage.until_moves(page, moves)
    stage.until(lambda: page in port.holders, "the board to be opened by itself")
    return page


@with_chromium
def disk_full(folder: pathlib.Path) -> None:
    """The browser's disk is full, and has room again: the page says what to do, shows all moves meanwhile, writes what waits, and a
    tab that is killed later loses nothing that was shown."""
    with Disk(folder / "disk") as disk:
        browser = Browser(str(disk.place / "profile"), disk.start, str(disk.inside / "profile"))
        with Hall(folder, browser=browser) as stage:
            page, port = begin(stage)
            until_agrees(stage, page)
            play(stage, page, port, RUY[:2], RUY_SANS[:2])

            def is_full() -> bool:
                disk.fill()
                return is_troubled(page)

            stage.until(is_full, "the alarm of a full disk")
            play(stage, page, port, RUY[2:4], RUY_SANS[2:4])
            stage.until_part(page, "#notices", "Don't reload this page")
            stage.until_part(page, "#line", "NOT KEPT")
            for _ in range(3):
                stage.rest(1)
                disk.fill()
            play(stage, page, port, RUY[4:6], RUY_SANS[4:6])
            disk.free()
            stage.until(lambda: not is_troubled(page), "no alarm any more")
            stage.until(lambda: "Don't reload" not in page.text("#notices"), "no word any more of what isn't kept")
            stage.until(lambda: "NOT KEPT" not in page.text("#line"), "a line without it")
            stage.until_dumped(page, port)
            kept = page.kept(1)
            same(kept, port.delivered[: len(kept)])
            stage.crash(page)
            page = opened_again(stage, port, RUY_SANS[:6])
            play(stage, page, port, RUY[6:8], RUY_SANS[6:8])
            text, capture = stage.saved(page, "#save-game"), stage.saved(page, "#save-capture")
            same((text, capture[: len(kept)]), (of_record(text, capture), kept))


@with_chromium
def broken_while_full(folder: pathlib.Path) -> None:
    """The browser's disk is full, and the database on it breaks meanwhile, so that the browser begins a new one: when there is room
    again all games are kept anew, and a tab that is killed later loses none."""
    with Disk(folder / "disk") as disk:
        browser = Browser(str(disk.place / "profile"), disk.start, str(disk.inside / "profile"))
        with Hall(folder, browser=browser) as stage:
            page, port = begin(stage)
            until_agrees(stage, page)
            page.type("Anna", "#white")
            play(stage, page, port, RUY[:2], RUY_SANS[:2])
            page.type("1-0")
            stage.until(lambda: page.text("#state").startswith("over"), "the end of the game")
            port.board.set_up([])
            stage.until_moves(page, [])
            until_agrees(stage, page)
            play(stage, page, port, QUEENS[:2], QUEENS_SANS[:2])

            def is_full() -> bool:
                disk.fill()
                return is_troubled(page)

            stage.until(is_full, "the alarm of a full disk")
            disk.spoil(MANIFEST)
            same(disk.has_spoiled(MANIFEST), True)
            play(stage, page, port, QUEENS[2:4], QUEENS_SANS[2:4])
            for _ in range(3):
                stage.rest(1)
                disk.fill()
            disk.free()
            stage.until(lambda: not is_troubled(page), "no alarm any more")
            same(disk.has_spoiled(MANIFEST), False)
            stage.until_dumped(page, port)
            stage.crash(page)
            page = opened_again(stage, port, QUEENS_SANS[:4])
            same(page.field("#white"), "Anna")
            play(stage, page, port, QUEENS[4:6], QUEENS_SANS[4:6])
            stage.show_all(page)
            texts = stage.saved(page, "#save-round").split(b"[Event ")[1:]
            same([movetext_of(text) for text in texts], ["1. e4 e5 1-0", "1. d4 d5 2. c4 e6 3. Nc3 Nf6 *"])


@with_chromium
def database_deleted(folder: pathlib.Path) -> None:
    """Another tab deletes the database: the page keeps all its games anew at once, and a tab that is killed later loses none."""
    with Hall(folder) as stage:
        page, port = begin(stage)
        until_agrees(stage, page)
        page.type("Anna", "#white")
        play(stage, page, port, RUY[:2], RUY_SANS[:2])
        page.type("1-0")
        stage.until(lambda: page.text("#state").startswith("over"), "the end of the game")
        port.board.set_up([])
        stage.until_moves(page, [])
        until_agrees(stage, page)
        play(stage, page, port, QUEENS[:2], QUEENS_SANS[:2])
        (folder / "other.html").write_text("<!doctype html><title>another tab</title>")
        other = stage.browser.tab()
        other.open((folder / "other.html").as_uri())
        other.until("document.title", "another tab")
        same(other.value(DELETED), "deleted")
        play(stage, page, port, QUEENS[2:4], QUEENS_SANS[2:4])
        stage.until_dumped(page, port)
        stage.crash(page)
        page = opened_again(stage, port, QUEENS_SANS[:4])
        same(page.field("#white"), "Anna")
        play(stage, page, port, QUEENS[4:6], QUEENS_SANS[4:6])
        stage.show_all(page)
        texts = stage.saved(page, "#save-round").split(b"[Event ")[1:]
        same([movetext_of(text) for text in texts], ["1. e4 e5 1-0", "1. d4 d5 2. c4 e6 3. Nc3 Nf6 *"])


@with_chromium
def changed_while_full(folder: pathlib.Path) -> None:
    """The browser has no room when a new round is begun, and when a board is removed: the page says so, and the game goes on. With
    room the round begins."""
    with Hall(folder) as stage:
        port = stage.board()
        page = stage.tab([NO_ROOM])
        stage.add(page, port)
        stage.enlarge(page, 1)
        until_agrees(stage, page)
        play(stage, page, port, RUY[:2], RUY_SANS[:2])
        stage.until_dumped(page, port)
        page.value("isFull = true")
        stage.until(lambda: is_troubled(page), "the alarm of a full disk")
        page.click("#new-round")
        stage.begin_round(page)
        stage.until_part(page, "#notices", "Board 1: the new round can't be begun")
        stage.enlarge(page, 1)
        page.click("#remove")
        page.click("#remove")
        stage.until_part(page, "#notices", "It can't be removed")
        stage.until_none_is_large(page)
        stage.enlarge(page, 1)
        play(stage, page, port, RUY[2:3], RUY_SANS[2:3])
        page.value("isFull = false")
        stage.until(lambda: not is_troubled(page), "no alarm any more")
        play(stage, page, port, RUY[3:4], RUY_SANS[3:4])
        stage.until_dumped(page, port)
        page.click("#new-round")
        stage.begin_round(page)
        stage.enlarge(page, 1)
        stage.until_moves(page, [])
        same(movetext_of(stage.saved(page, "#save-round")), "1. e4 e5 2. Nf3 Nc6 *")


@with_chromium
def set_up_while_full(folder: pathlib.Path) -> None:
    """The browser has no room when the pieces have been set up, with which the game begins: the page says so once, and goes on. With room
    the game begins, with what was played meanwhile."""
    with Hall(folder) as stage:
        port = stage.board()
        port.board.play("e2e4")
        page = stage.tab([NO_ROOM])
        stage.add(page, port)
        stage.enlarge(page, 1)
        stage.until_moves(page, ["e4"])
        stage.until_dumped(page, port)
        page.value("isFull = true")
        port.board.set_up([])
        told = "board 1 can't begin with the start yet (there is no room). Make room: it is tried again"
        stage.until(lambda: any(told in line for line in page.messages), "a word that the game can't begin")
        port.board.play(QUEENS[0])
        stage.rest(7)  # a recording that an error has ended is begun again after five seconds
        same([sum(part in line for line in page.messages) for part in (told, "NOT RECORDED")], [1, 0])
        same((is_troubled(page), page in port.holders), (True, True))
        page.value("isFull = false")
        stage.until_moves(page, QUEENS_SANS[:1])
        until_agrees(stage, page)
        play(stage, page, port, QUEENS[1:2], QUEENS_SANS[1:2])
        same(movetext_of(stage.saved(page, "#save-game")), "1. d4 d5 *")


@with_chromium
def broken_or_full(folder: pathlib.Path) -> None:
    """The browser can't keep anything: the state, the card and the answer to a typed line speak of a full disk where the disk is
    full, and else give the browser's reason."""
    with Hall(folder) as stage:
        port = stage.board()
        page = stage.tab([NO_ROOM])
        stage.add(page, port)
        stage.enlarge(page, 1)
        until_agrees(stage, page)
        play(stage, page, port, RUY[:2], RUY_SANS[:2])
        stage.until_dumped(page, port)
        broken = "the browser can't keep what the board sends (it is broken), and nothing can be changed. Is there room on the disk?"
        for what, state, mend, answer in (
            ("isBroken", "NOT WRITTEN", "Is there room on the disk? Choose a folder.", broken),
            ("isFull", "DISK FULL", "Make room on the disk, and choose a folder.", "the disk is full, and nothing can be changed."),
        ):
            page.value(f"{what} = true")
            port.board.clock(600, 600)
            stage.until_part(page, "#state", state)
            stage.until_part(page, "#mend", mend)
            answered(stage, page, "1-0", answer)
            page.value(f"{what} = false")
            stage.until(lambda: not is_troubled(page), "no alarm any more")
        stage.until_moves(page, RUY_SANS[:2])


@with_chromium
def database_opened_late(folder: pathlib.Path) -> None:
    """The database can't be opened at first: the page says what to do, tries again by itself, and then records."""
    with Hall(folder) as stage:
        port = stage.board()
        page = stage.tab([NOT_AT_FIRST])
        stage.until_part(page, "#notices", "Make room on the disk")
        stage.add(page, port)
        stage.enlarge(page, 1)
        until_agrees(stage, page)
        play(stage, page, port, RUY[:2], RUY_SANS[:2])
        same("Make room" in page.text("#notices"), False)


@with_chromium
def folder_longer(folder: pathlib.Path) -> None:
    """The browser has no room while the folder has: a tab that is killed then goes on with what the folder has, and never puts a
    shorter capture in the place of a longer one."""
    with Hall(folder) as stage:
        chosen = Chosen(stage)
        page, port = begin_in(stage, chosen)
        chosen.choose(stage, page)
        play(stage, page, port, RUY[:2], RUY_SANS[:2])
        stage.until(lambda: names_of(chosen, ".pgn"), "a text in the folder")
        name = names_of(chosen, ".pgn")[0]
        stage.until_dumped(page, port)
        page.tab.call("Storage.overrideQuotaForOrigin", origin="file:///", quotaSize=1)
        stage.until(lambda: is_troubled(page), "the alarm of a full disk")
        play(stage, page, port, RUY[2:6], RUY_SANS[2:6])
        until_text(stage, chosen, name, "1. e4 e5 2. Nf3 Nc6 3. Bb5 a6 *")
        capture = name.replace(".pgn", ".dgt")
        stage.until(lambda: movetext_of(of_record(chosen.files[name], chosen.files[capture])).endswith("a6 *"), "all in the capture")
        page.tab.call("Storage.overrideQuotaForOrigin", origin="file:///")
        longer = chosen.files[capture]
        stage.crash(page)
        page = stage.tab([chosen.script()])
        stage.enlarge(page, 1)
        stage.until_moves(page, RUY_SANS[:6])
        stage.until(lambda: page in port.holders, "the board to be opened by itself")
        play(stage, page, port, RUY[6:8], RUY_SANS[6:8])
        until_text(stage, chosen, name, "1. e4 e5 2. Nf3 Nc6 3. Bb5 a6 4. Bxc6 dxc6 *")
        stage.until(lambda: len(chosen.files[capture]) > len(longer), "a longer capture")
        same(chosen.files[capture][: len(longer)], longer)
        stage.crash(page)
        other = b"\x91\x00\x08NOBOD" * 60 + chosen.files[capture]  # longer, though dumps have come that the folder hasn't got yet
        chosen.files[capture] = other
        page = stage.tab([chosen.script()])
        stage.enlarge(page, 1)
        stage.until_moves(page, RUY_SANS[:8])
        stage.until(lambda: page in port.holders, "the board to be opened by itself")
        play(stage, page, port, RUY[8:9], RUY_SANS[8:9])
        before = name.replace(".pgn", ".before-1.dgt")
        stage.until(lambda: chosen.files.get(before) == other, f"the longer capture in {before}, among {sorted(chosen.files)}")
