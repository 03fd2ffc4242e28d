"""The file of times has what the program was told in the page, with the same times: so a recorder that begins again with it says the same.
The same rule as in tests/played/filed.py, by the same definition."""

from __future__ import annotations

import base64
import pathlib
from typing import List, Tuple

from attending.answers import Answer, Entry
from attending.filed import Event, entries_of, events_after, events_in
from browsed.games import RUY, RUY_SANS, answered, play, until_agrees
from browsed.hall import Hall, Port
from browsed.page import Page
from browsed.stage import with_chromium
from play_board import field
from played.stage import same

# Writes down what each process is told, and how many bytes the game gets by the answer to it.
TAP = """
window.tapped = [];
{
  const post = Worker.prototype.postMessage;
  const told = new Map();
  const heard = new WeakSet();
  const hears = ({ data }) => {
    const one = data && data.answer && told.get(data.number);
    if (one) Object.assign(one, { kept: data.answer.kept.length, handling: data.answer.handling });
  };
  Worker.prototype.postMessage = function (message, ...more) {
    if (!heard.has(this)) this.addEventListener('message', hears);
    heard.add(this);
    if (message.name === 'tell') {
      const { key, entry } = message.given;
      const one = { key, entry: btoa(Array.from(entry, (byte) => String.fromCharCode(byte)).join('')), kept: 0, handling: '' };
      told.set(message.number, one);
      tapped.push(one);
    }
    post.call(this, message, ...more);
  };
}
"""


NOBODY = b"-----"  # the number that a process is told which only looks what board is there


def calls_of(page: Page) -> List[Tuple[List[Entry], List[Answer]]]:
    """What each process was told and has answered, in the order in which they began."""
    found: List[Tuple[List[Entry], List[Answer]]] = []
    keys: List[int] = []
    for one in page.value("tapped"):
        if one["key"] not in keys:
            keys.append(one["key"])
            found.append(([], []))
        told, said = found[keys.index(one["key"])]
        told += entries_of(base64.b64decode(one["entry"]))
        said.append(Answer(kept=bytes(one["kept"]), handling=one["handling"]))
    return [(told, said) for told, said in found if NOBODY not in [entry.sent for entry in told]]


def filed(calls: List[Tuple[List[Entry], List[Answer]]], before: List[Event]) -> List[Event]:
    """What the file has behind these events: each process was told the file as it was."""
    events = list(before)
    for told, said in calls:
        files = [entry for entry in told if entry.word == "kept"]
        same(events_in(files[0].sent) if files else [], events)
        events = events_after(events, told, said)
    return events


def until_filed(stage: Hall, page: Page, before: List[Event], since: int = 0) -> List[Event]:
    """Waits until the browser has kept all lines of what was told since so many processes, behind these events."""
    seen: List[List[Event]] = [[], []]

    def is_filed() -> bool:
        seen[:] = [events_in("".join(page.kept_times(1)).encode()), filed(calls_of(page)[since:], before)]
        return seen[0] == seen[1]

    try:
        stage.until(is_filed, "the lines of all that was told")
    except AssertionError as error:
        at = next((at for at, (one, other) in enumerate(zip(*seen)) if one != other), min(map(len, seen)))
        raise AssertionError(f"they differ from {at} on: {seen[0][at : at + 6]}, and told was {seen[1][at : at + 6]}\n{error}") from error
    return seen[0]


def in_parts(stage: Hall, port: Port, start: str, end: str) -> None:
    """A piece is put somewhere else, and the update of its new square comes in three reads."""
    board = port.board
    code = board.codes[field(start)]
    board.lift(start)
    board.codes[field(end)] = code
    update = board.update(field(end))
    for part in (update[:1], update[1:4], update[4:]):
        board.send(part)
        count = len(port.delivered)
        stage.until(lambda: len(port.delivered) >= count, "a part of an update")
        for _ in range(5):
            stage.turn()


@with_chromium
def filed_as_told(folder: pathlib.Path) -> None:
    """Moves on a board that tells its number, an update in several reads, typed moves, a pulled cable, an alarm that somebody has looked at,
    a name, plies that are taken off, a result. Then the page is loaded again, and what comes is held until the board has told its number."""
    with Hall(folder) as stage:
        port = stage.board()
        port.board.serial_number = b"01234"
        page = stage.tab([TAP])
        stage.add(page, port)
        stage.enlarge(page, 1)
        until_agrees(stage, page)
        play(stage, page, port, RUY[:2], RUY_SANS[:2])
        page.type("Nf3 Nc6")
        stage.until_moves(page, RUY_SANS[:4])
        stage.pull(port)
        stage.until(lambda: page.text("#state").startswith("UNPLUGGED"), "the alarm of an unplugged board")
        stage.plug(port)
        stage.until(lambda: port.holders, "the board to be opened again")
        stage.until_dumped(page, port)
        port.board.play(*RUY[2:4])
        stage.until_part(page, "#state", "agrees")
        answered(stage, page, "ok", "acknowledged")
        in_parts(stage, port, "f1", "b5")
        stage.until_moves(page, RUY_SANS[:5])
        events = until_filed(stage, page, [])
        same([[event[1] for event in events].count(word) for word in ("begin", "added", "gone", "ok")], [1, 1, 1, 1])
        page.fill("Anna", "#white")
        page.tab.press("Enter")
        stage.until(lambda: len(calls_of(page)) == 2, "another process, for other names")
        play(stage, page, port, RUY[5:6], RUY_SANS[5:6])
        until_filed(stage, page, [])
        port.board.play("a6a7")
        stage.until_dumped(page, port)
        answered(stage, page, "back", "back to 3. Bb5")
        stage.until_moves(page, RUY_SANS[:5])
        play(stage, page, port, ["g8f6"], ["Nf6"])
        events = until_filed(stage, page, [], 2)
        same([event[1] for event in events[:6]], ["begin", "away", "opened", "added", "back", "reopened"])
        stage.open(page)
        stage.enlarge(page, 1)
        stage.until(lambda: page in port.holders, "the board to be opened by itself")
        until_agrees(stage, page)
        stage.until_dumped(page, port)
        (told, said), = calls_of(page)
        before = events_in(next(entry.sent for entry in told if entry.word == "kept"))
        same(before[: len(events)], events)
        assert any(answer.handling == "hold" for answer in said), "nothing was held"
        answered(stage, page, "1-0", "the result 1-0")
        stage.until(lambda: page.text("#state").endswith("over"), "the end of the game")
        events = until_filed(stage, page, before)
        same([event[1] for event in events[-40:]].count("over"), 1)


CASES = [filed_as_told]
