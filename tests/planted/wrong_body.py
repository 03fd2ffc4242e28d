"""Wrong bodies: the edits of a crate, and the functions whose bodies they change."""

import dataclasses
import pathlib
import re
from typing import Dict, FrozenSet, List, Optional, Tuple

FOLDER = "wrong-bodies"  # of a crate


@dataclasses.dataclass(frozen=True)
class Change:
    """One text of a file that gives way to another. The path is from the crate."""

    file: str
    old: str
    new: str


@dataclasses.dataclass(frozen=True)
class WrongBody:
    """An edit: its name, its changes in order, and the functions in whose bodies they are."""

    name: str
    changes: Tuple[Change, ...]
    functions: FrozenSet[str]


def changes_of(text: str) -> Tuple[Change, ...]:
    """The changes of an edit, in their order: each is in the file that was named last before it."""
    changes: List[Change] = []
    file = old = ""
    for line in text.split("\n"):
        if line.startswith("file: "):
            file = line[len("file: ") :].strip()
        elif line.startswith("old: "):
            old = line[len("old: ") :]
        elif line.startswith("new:"):
            changes.append(Change(file, old, line[len("new:") :].replace(" ", "", 1)))
    return tuple(changes)


def applied(texts: Dict[str, str], changes: Tuple[Change, ...]) -> Optional[Dict[str, str]]:
    """The texts with these changes, by their paths, or None where an old text isn't there exactly once."""
    texts = dict(texts)
    for change in changes:
        if not change.old or texts.get(change.file, "").count(change.old) != 1:
            return None
        texts[change.file] = texts[change.file].replace(change.old, change.new)
    return texts


IMPL = re.compile(r"impl\b(?:<[^{]*?>)? (?:([\w:]+)(?:<.*>)? for )?&?(?:'\w+ )?(?:mut )?([\w:]+)")
OPENS = re.compile(r"(?m)^(?P<impl>impl\b[^\n]*)|^(?P<end>\})|^(?P<in> *)(?:pub(?:\([a-z]+\))? )?(?:const )?(?:unsafe )?fn (?P<fn>\w+)")


def function_at(crate: str, file: str, text: str, at: int) -> Optional[str]:
    """The function, by its whole path, in which or in whose heading a place of a source is, or None where it is in none."""
    inside = function = ""
    for found in OPENS.finditer(text, 0, at):
        if found["impl"]:
            head = IMPL.match(found["impl"])
            inside = f"{last(head[2])}{last(head[1])}" if head else ""
            function = ""
        elif found["end"] is not None:
            inside = function = ""
        else:
            function = found["fn"]
    modules = file[len("src/") : -len(".rt")].split("/")
    path = [crate, *(it for it in modules if it not in ("lib", "main", "mod")), inside, function]
    return "::".join(it for it in path if it) if function else None


def last(path: Optional[str]) -> str:
    """The last word of a path."""
    return (path or "").split("::")[-1]


def read(crate: str, name: str, text: str, sources: Dict[str, str]) -> Optional[WrongBody]:
    """The wrong body of an edit's text, or None where it can't be applied to the crate's sources."""
    changes, functions, texts = changes_of(text), set(), sources
    for change in changes:
        after = applied(texts, (change,))
        if after is None:
            return None
        function = None
        if change.file.startswith("src/"):
            before = texts[change.file]
            function = function_at(crate, change.file, before, before.index(change.old) + len(change.old))
        functions.add(function or "")
        texts = after
    return WrongBody(name, changes, frozenset(functions)) if changes else None


def sources_of(folder: pathlib.Path) -> Dict[str, str]:
    """The sources of a crate, by their paths in it."""
    found = (it for part in ("src", "specs", "proofs") for it in sorted((folder / part).rglob("*")) if it.is_file())
    return {str(it.relative_to(folder)): it.read_text() for it in found}
