"""Wrong definitions: the edits of a crate that turn a definition or a constant, each with what must then be refused."""

import dataclasses
import re
from pathlib import Path
from typing import Callable, Dict, List, Optional, Tuple

from planted import verdict
from planted.trying import Tried
from planted.wrong_body import Change, applied, changes_of

FOLDER = "wrong-definitions"  # of a crate
REFUSED_BY = re.compile(r"(?m)^# refused by: (?:.* of )?`([\w:]+)`$")

Check = Callable[[Dict[str, str], List[str], Path], verdict.Said]  # of sources: these functions; where checks keep their work


@dataclasses.dataclass(frozen=True)
class WrongDefinition:
    """An edit: its name, its changes in order, and the function, by its whole path, whose contract must not be proved then."""

    name: str
    changes: Tuple[Change, ...]
    function: str


def read(crate: str, name: str, text: str) -> Optional[WrongDefinition]:
    """The wrong definition of an edit's text, or None where it doesn't name the function that must be refused."""
    found = REFUSED_BY.search(text)
    return WrongDefinition(name, changes_of(text), f"{crate}::{found[1]}") if found else None


def tried(wrong: WrongDefinition, sources: Dict[str, str], check: Check, kept: Path) -> Tried:
    """What comes of it. Each is tried alone, since a definition may be cited anywhere."""
    texts = applied(sources, wrong.changes)
    if texts is None or not wrong.changes:
        return Tried(wrong.name, False, "BAD EDIT: an 'old:' text isn't in its file exactly once")
    said = check(texts, [wrong.function], kept)
    if not said.ended:
        return Tried(wrong.name, False, f"NO VERDICT: {said.text.strip()[-300:]}")
    status = said.statuses.get(wrong.function, ("", ""))[0]
    if status in ("not proved", "no proof"):
        return Tried(wrong.name, True, f"refused: {wrong.function}")
    return Tried(wrong.name, False, f"NOT REFUSED: {wrong.function} is proved" if status else f"NO SUCH FUNCTION: {wrong.function}")
