#!/usr/bin/env python3
"""Writes the tables of docs/EDITS.md from the first lines of the edits in crates/*/wrong-bodies/, wrong-definitions/ and wrong-products/.

    tools/edits.py             writes the tables anew
    tools/edits.py --check     says what is to be done where the page isn't what the edits say

An edit begins with a line '# says: ' and what its wrong body does, and may have a line '# refused by: ' and the clause behind
it. A wrong definition or product must have that line, and its last word is the function that is refused.
"""
import dataclasses
import pathlib
import re
import sys
import typing

TOP = pathlib.Path(__file__).resolve().parent.parent
PAGE = TOP / "docs" / "EDITS.md"
SAYS = "# says: "
REFUSED_BY = "# refused by: "
FOLDERS = "wrong-bodies", "wrong-definitions", "wrong-products"
HEAD = ["| Edit | In | What the wrong body does | Refused by |", "|---|---|---|---|"]


@dataclasses.dataclass(frozen=True)
class Edit:
    crate: str
    name: str
    file: str
    function: str
    says: str
    refused_by: str

    def row(self) -> str:
        place = f"`{self.file}`: `{self.function}`" if self.function else f"`{self.file}`"
        return f"| `{self.name}` | {place} | {self.says} | {self.refused_by} |"


NAMES = {  # what names a function or a constant in src/, a definition in specs/
    ".rt": re.compile(r"(?m)(?:\bfn|^ *(?:pub )?const(?! fn\b)) (\w+)"),
    ".antt": re.compile(r"(?m)^(?:abbrev |unfoldable )?pub (?:record |data )?(\w+)"),
}


def function_of(source: str, suffix: str, old: str) -> str:
    """The function, constant or definition of a source in which a text stands, or none where it stands before all of them."""
    named = NAMES[suffix].findall(source[: source.find(old) + len(old)])
    return str(named[-1]) if named else ""


@dataclasses.dataclass(frozen=True)
class Change:
    file: str
    old: str
    new: str


def changes_of(lines: typing.List[str]) -> typing.List[Change]:
    """The changes of an edit, in their order: each is in the file that was named last before it."""
    changes: typing.List[Change] = []
    file = old = ""
    for line in lines:
        if line.startswith("file: "):
            file = line[len("file: ") :].strip()
        elif line.startswith("old: "):
            old = line[len("old: ") :]
        elif line.startswith("new: "):
            changes.append(Change(file, old, line[len("new: ") :]))
    return changes


def place_of(crate: pathlib.Path, changes: typing.List[Change]) -> typing.Optional[typing.Tuple[str, str]]:
    """The file and the function of an edit, or none where its texts don't stand there. That is where its last change is, since
    what comes before often prepares that: an import, a definition."""
    sources = {change.file: (crate / change.file).read_text() for change in changes if (crate / change.file).is_file()}
    function = ""
    for change in changes:
        source = sources.get(change.file, "")
        if change.old not in source:
            return None
        function = function_of(source, pathlib.Path(change.file).suffix, change.old)
        sources[change.file] = source.replace(change.old, change.new, 1)
    return (changes[-1].file, function) if changes else None


def read_edit(crate: str, folder: str, name: str, text: str) -> typing.Union[Edit, str]:
    """The edit of this text, or what is wrong with it."""
    lines = text.split("\n")
    path = f"crates/{crate}/{folder}/{name}.edit"
    if not re.match(SAYS + r"\S", lines[0]):
        return f"{path}: its first line has to be '{SAYS}' and what the wrong body does"
    refused_by = lines[1][len(REFUSED_BY) :] if lines[1].startswith(REFUSED_BY) else ""
    if "|" in lines[0] + refused_by:
        return f"{path}: its first lines have a '|', which ends a cell of the table"
    place = place_of(TOP / "crates" / crate, changes_of(lines))
    if place is None:
        return f"{path}: its lines 'file: ' and 'old: ' name no text of the crate"
    return Edit(crate, name, *place, lines[0][len(SAYS) :], refused_by)


def sections(page: str) -> typing.List[str]:
    """The page cut before each heading of a crate: its beginning, and a part for each crate."""
    return re.split(r"(?m)^(?=### `)", page)


def crate_of(section: str) -> str:
    heading = re.match(r"### `(\w+)`", section)
    return heading.group(1) if heading else ""


def with_table(section: str, edits: typing.List[Edit]) -> str:
    """The section with the rows of these edits in the place of its table, or behind its heading where it has none."""
    lines = section.split("\n")
    first = next((at for at, line in enumerate(lines) if line.startswith("|")), None)
    table = HEAD + [edit.row() for edit in sorted(edits, key=lambda edit: (edit.file, edit.name))]
    if first is None:
        return "\n".join([lines[0], "", *table, *lines[1:]])
    last = next((at for at, line in enumerate(lines) if at > first and not line.startswith("|")), len(lines))
    return "\n".join(lines[:first] + table + lines[last:])


def page_of(page: str, edits: typing.List[Edit]) -> typing.Tuple[str, typing.List[str]]:
    """The page with a table of these edits for each crate, and what is wrong with it."""
    parts = sections(page)
    crates = [crate_of(part) for part in parts]
    have = {edit.crate for edit in edits}
    wrong = [f"docs/EDITS.md has no heading '### `{crate}`', and it has edits" for crate in sorted(have - set(crates))]
    wrong += [f"docs/EDITS.md has a heading for `{it}`, which has no edit" for it in crates if it and it not in have]
    rows = {crate: [it for it in edits if it.crate == crate] for crate in have}
    return "".join(with_table(part, rows[crate]) if crate in have else part for crate, part in zip(crates, parts)), wrong


def all_edits() -> typing.Tuple[typing.List[Edit], typing.List[str]]:
    """The edits of all crates, and what is wrong with the others."""
    paths = sorted(path for folder in FOLDERS for path in TOP.glob(f"crates/*/{folder}/*.edit"))
    read = [read_edit(path.parent.parent.name, path.parent.name, path.stem, path.read_text()) for path in paths]
    return [it for it in read if isinstance(it, Edit)], [it for it in read if isinstance(it, str)]


def complaints() -> typing.List[str]:
    """What has to be done so that docs/EDITS.md is what the edits say."""
    edits, wrong = all_edits()
    before = PAGE.read_text()
    page, missing = page_of(before, edits)
    if not wrong and not missing and page != before:
        missing = ["docs/EDITS.md isn't what the edits say: run tools/edits.py, and commit the page"]
    return wrong + missing


def main() -> int:
    if sys.argv[1:] == ["--check"]:
        wrong = complaints()
    elif sys.argv[1:]:
        print(__doc__, file=sys.stderr)
        return 2
    else:
        edits, unread = all_edits()
        page, missing = page_of(PAGE.read_text(), edits)
        wrong = unread + missing
        if not wrong:
            PAGE.write_text(page)
    for line in wrong:
        print(line)
    return 1 if wrong else 0


if __name__ == "__main__":
    sys.exit(main())
