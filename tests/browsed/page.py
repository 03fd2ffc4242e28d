"""bin/recorder.html in a tab, read and used as its users do."""

from __future__ import annotations

import base64
import json
import os
import pathlib
from dataclasses import dataclass
from typing import Any, Callable, Dict, List, Optional, Protocol, Sequence

from browsed import TOP
from paged.devtools import Json, Tab

# Another page may be put to the test: RECORDER_PAGE is its path.
RECORDER = pathlib.Path(os.environ.get("RECORDER_PAGE") or TOP / "bin" / "recorder.html").resolve()
SERIAL = pathlib.Path(__file__).with_name("serial.js")
MOVES = "[...document.querySelectorAll('#moves button .san')].map((san) => san.textContent)"
# Where an element can be clicked; whether the click came to it, or to one that has taken its place, is kept.
CENTRE = """
(() => {{
  const find = () => {element};
  const element = find();
  if (!element || element.disabled) return null;
  const folded = element.closest('details');
  if (folded) folded.open = true;
  element.scrollIntoView({{ block: 'center', inline: 'center' }});
  const {{ left, top, width, height }} = element.getBoundingClientRect();
  window.wasHit = false;
  const hit = ({{ target }}) => (window.wasHit = Boolean(find()?.contains(target)));
  addEventListener('click', hit, {{ capture: true, once: true }});
  return width && height ? [left + width / 2, top + height / 2] : null;
}})()
"""
# Tells of each file that the page gives the browser to save.
SAVES = """
const click = HTMLAnchorElement.prototype.click;
HTMLAnchorElement.prototype.click = function () {
  if (this.download) window.tellBoards(JSON.stringify({ what: 'saves', url: this.href }));
  click.call(this);
};
"""
FOCUS = """
(() => {{
  const field = document.querySelector({where});
  const folded = field?.closest('details');
  if (folded) folded.open = true;
  field?.focus();
  field?.select?.();
  return document.activeElement === field;
}})()
"""


# Reads what the page keeps.
DATABASE = """
(async () => {{
  const answer = (request) => new Promise((done, failed) => {{
    request.onsuccess = () => done(request.result);
    request.onerror = () => failed(request.error);
  }});
  const database = await answer(indexedDB.open('dgt_recorder'));
  const read = (name, query) => answer(query(database.transaction(name).objectStore(name)));
  try {{
    {body}
  }} finally {{
    database.close();
  }}
}})()
"""
CAPTURE = """
const {{ game }} = await read('boards', (store) => store.get({number}));
const chunks = await read('chunks', (store) => store.getAll(IDBKeyRange.bound([game, 0], [game, Infinity])));
return chunks.flatMap(({{ bytes }}) => [...bytes]);
"""
TIMES = """
const {{ game }} = await read('boards', (store) => store.get({number}));
const rows = await read('settings', (store) => store.getAll(IDBKeyRange.bound(['{what}', game, 0], ['{what}', game, Infinity])));
return rows.map(({{ value }}) => value.text ?? value);
"""
SETTING = "return ((await read('settings', (store) => store.get('{name}'))) ?? {{}}).value ?? null;"


@dataclass(frozen=True)
class Device:
    """A port as a page finds it when it is opened."""

    number: int
    is_granted: bool
    is_plugged: bool


class Hears(Protocol):
    """Who hears what a page does with its ports, and waits with it."""

    def told(self, page: Page, message: Json) -> None: ...

    def until(self, holds: Callable[[], object], what: str) -> None: ...


class Page:
    """A tab. `before` are scripts that are evaluated before those of the page."""

    def __init__(self, tab: Tab, hears: Hears, before: Sequence[str] = ()) -> None:
        self.tab = tab
        self._hears = hears
        self._before = before
        self._scripts: List[str] = []
        self._taken = 0
        self.saves: List[str] = []  # the URLs of the files that it has given the browser to save
        self.tab.call("Runtime.addBinding", name="tellBoards")
        self.tab.call("Inspector.enable")

    def open(self, devices: Sequence[Device], path: pathlib.Path = RECORDER) -> None:
        """Opens it anew, with these ports."""
        for identifier in self._scripts:
            self.tab.call("Page.removeScriptToEvaluateOnNewDocument", identifier=identifier)
        told = [{"number": one.number, "isGranted": one.is_granted, "isPlugged": one.is_plugged} for one in devices]
        serial = f"{SERIAL.read_text()}\nprovideSerial({json.dumps(told)});"
        sources = (serial, SAVES, *self._before)
        added = [self.tab.call("Page.addScriptToEvaluateOnNewDocument", source=source) for source in sources]
        self._scripts = [one["identifier"] for one in added]
        self.tab.open(path.as_uri())

    def hear(self) -> None:
        """Takes what the page has done with its ports."""
        self.tab.listen()
        while self._taken < len(self.tab.events):
            event = self.tab.events[self._taken]
            self._taken += 1
            if event["method"] == "Runtime.bindingCalled":
                message = json.loads(event["params"]["payload"])
                if message["what"] == "saves":
                    self.saves.append(message["url"])
                else:
                    self._hears.told(self, message)

    def download(self, url: str) -> Optional[Json]:
        """What the browser has told last of a file that the page has given it; None if it has told nothing."""
        self.tab.listen()
        told = [event["params"] for event in self.tab.events if event["method"].startswith("Browser.download")]
        begun = next((one for one in told if one.get("url") == url), None)
        return begun and {**begun, **[one for one in told if one["guid"] == begun["guid"]][-1]}

    # What is read on it.

    def value(self, expression: str) -> Any:
        return self.tab.value(expression)

    def text(self, where: str) -> str:
        """What stands in an element; nothing if it isn't there."""
        return str(self.value(f"document.querySelector({json.dumps(where)})?.textContent.trim() ?? ''"))

    def field(self, where: str) -> object:
        """What a field has."""
        return self.value(f"document.querySelector({json.dumps(where)})?.value")

    def shows(self, where: str) -> bool:
        """Whether an element is there and can be seen."""
        return bool(self.value(f"document.querySelector({json.dumps(where)})?.checkVisibility({{ visibilityProperty: true }})"))

    @property
    def moves(self) -> List[str]:
        """The moves of the large board."""
        return list(self.value(MOVES) or [])

    def keeps(self, setting: str) -> bool:
        """Whether a setting is on the disk."""
        return self.setting(setting) is not None

    def setting(self, name: str) -> object:
        """A setting, as it is on the disk; None if there is none."""
        return self.value(DATABASE.format(body=SETTING.format(name=name)))

    def kept(self, number: int) -> bytes:
        """What a board has sent of its game, as far as it is on the disk."""
        return bytes(self.value(DATABASE.format(body=CAPTURE.format(number=number))) or ())

    def kept_times(self, number: int, what: str = "times") -> List[str]:
        """The lines about when a board has sent that, in rows, as far as they are on the disk; or what isn't of its game."""
        return list(self.value(DATABASE.format(body=TIMES.format(number=number, what=what))) or [])

    @property
    def messages(self) -> List[str]:
        """The newest first."""
        return list(self.value("[...document.querySelectorAll('#messages li')].map((line) => line.textContent)") or [])

    def describe(self) -> str:
        """How it stands, for whom a case has failed."""
        words = {where: self.text(where)[:300] for where in ("#line", "#alarms", "#notices", "#title", "#state", "#answer")}
        errors = [json.dumps(told)[:900] for told in self.tab.printed()[:2]]
        return f"{words}, moves {self.moves}, messages {self.messages[:8]}, on the console {errors}"

    # What is done on it.

    def click(self, where: str) -> None:
        """With the mouse, in the middle of an element as soon as it is there; again if it moved away under the mouse."""
        self.click_on(f"document.querySelector({json.dumps(where)})", where)

    def click_on(self, element: str, what: str) -> None:
        """The same, on what an expression finds."""

        def hits() -> bool:
            point = self.value(CENTRE.format(element=element))
            if not point:
                return False
            at = {"x": point[0], "y": point[1], "button": "left", "clickCount": 1}
            for kind in ("mousePressed", "mouseReleased"):
                self.tab.call("Input.dispatchMouseEvent", type=kind, **at)
            return bool(self.value("window.wasHit"))

        self._hears.until(hits, f"a click on {what}")

    def type(self, text: str, where: str = "#typed") -> None:
        """Types a line into a field, and Enter."""
        self.fill(text, where)
        self.tab.press("Enter")

    def fill(self, text: str, where: str) -> None:
        """Types over what stands in a field. A part that is folded up is opened first."""

        def takes() -> bool:
            if self.value(FOCUS.format(where=json.dumps(where))):
                self.tab.call("Input.insertText", text=text)
            return self.field(where) == text

        self._hears.until(takes, f"{where} to take a text")

    def give(self, where: str, path: pathlib.Path) -> None:
        """Chooses a file for a field that takes one."""
        found = self.tab.call("Runtime.evaluate", expression=f"document.querySelector({json.dumps(where)})")
        self.tab.call("DOM.setFileInputFiles", files=[str(path)], objectId=found["result"]["objectId"])

    # The other end of its ports.

    def deliver(self, number: int, sent: bytes) -> None:
        self.value(f"boards.deliver({number}, '{base64.b64encode(sent).decode()}')")

    def crash(self) -> None:
        """Its process is gone from one moment to the next."""
        self.tab.send("Page.crash")
        self.tab.until_event("Inspector.targetCrashed")
        self.tab.line.close()


def asked(told: Dict[str, Any]) -> bytes:
    """The bytes that the page has written."""
    return base64.b64decode(told["bytes"])
