"""What somebody does quickly, one thing after the other: nothing of it is lost."""

import io
import json
import pathlib
import zipfile

from browsed.games import RUY, RUY_SANS, answered, begin, play, until_agrees
from browsed.hall import Hall
from browsed.series import movetext_of
from browsed.stage import with_chromium
from browsed.times import read
from played.stage import same

MANY = 24  # a browser that is given more than ten within a second drops the others
PRESSED = f"for (let count = 0; count < {MANY}; count += 1) document.querySelector('#save-game').click()"

# A line is typed, and the next one before the first is answered.
AHEAD = """
(() => {
  const field = document.querySelector('#typed');
  field.value = '1-0';
  field.form.requestSubmit();
  field.value = '1/2-1/2';
})()
"""


@with_chromium
def many_saved(folder: pathlib.Path) -> None:
    """Save is pressed 24 times at once: the browser gets 24 whole files."""
    with Hall(folder) as stage:
        page, port = begin(stage)
        until_agrees(stage, page)
        play(stage, page, port, RUY[:2], RUY_SANS[:2])
        page.value(PRESSED)
        stage.until(lambda: len(page.saves) == MANY, "a file for each press")
        for number, url in enumerate(page.saves, 1):
            stage.until(lambda: page.download(url), f"the begin of file {number}")
            same(movetext_of(stage.file(page, url, f"file {number}")), "1. e4 e5 *")


@with_chromium
def typed_ahead(folder: pathlib.Path) -> None:
    """Who types the next line before the last one is answered finds it as he has typed it."""
    with Hall(folder) as stage:
        page, port = begin(stage)
        until_agrees(stage, page)
        play(stage, page, port, RUY[:2], RUY_SANS[:2])
        page.value(AHEAD)
        stage.until_part(page, "#answer", "1-0")
        same(page.field("#typed"), "1/2-1/2")


@with_chromium
def all_saved(folder: pathlib.Path) -> None:
    """One button saves a game with its capture and times, those of before plies were taken off, and what the page has said, in an
    archive that others read."""
    with Hall(folder) as stage:
        page, port = begin(stage)
        until_agrees(stage, page)
        page.type("Jos\u00e9", "#white")
        play(stage, page, port, RUY[:2], RUY_SANS[:2])
        port.board.play("e5e7")
        stage.until_dumped(page, port)
        answered(stage, page, "back 1. e4", "back to 1. e4")
        stage.until_moves(page, ["e4"])
        play(stage, page, port, ["c7c5"], ["c5"])
        stage.until_dumped(page, port)
        name = "Jos\u00e9 - Black"
        with zipfile.ZipFile(io.BytesIO(stage.saved(page, "#save-all"))) as archive:
            same(archive.testzip(), None)
            files = {one: archive.read(one) for one in archive.namelist()}
        endings = ("dgt", "times", "pgn", "json", "before-1.dgt", "before-1.times")
        same(list(files), ["README.txt", *(f"{name}/{name}.{ending}" for ending in endings), "messages.log"])
        read_me, log = files["README.txt"].decode(), files["messages.log"].decode()
        assert all(one in read_me for one in files if one != "README.txt") and "Chrom" in read_me, read_me
        assert "back to 1. e4" in log, log
        front = f"{name}/{name}"
        same(movetext_of(files[f"{front}.pgn"]), "1. e4 c5 *")
        record = json.loads(files[f"{front}.json"])
        same((record["name"], record["goneBack"], record["end"], record["options"]["rotated"]), (name, 1, None, False))
        for number, kept in enumerate((f"{front}.before-1", front)):
            same(read(stage, "in the archive", files[f"{kept}.dgt"], files[f"{kept}.times"]).gone_back, number)
