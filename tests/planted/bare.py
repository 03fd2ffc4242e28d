"""A crate's sources without the bodies that a check of some functions doesn't need.

A function is proved from its own body and the contracts of what it calls. So each other body can be a loop without end, and its
proof a hole, which `rattle check --allow-holes` takes by its statement. Such a check reads what these functions call, and proves
nothing of it."""

import re
from typing import Collection, Dict, Iterator, List, Tuple

from planted.wrong_body import function_at

HEADING = re.compile(r"( *)(?:pub(?:\([a-z]+\))? )?fn ")  # no `const fn`: a type may need its value
NO_BODY = "loop {}"
PROOF = """use Rattle.{path}.Statement.{{statement}}

pub {name}_spec : {{M : Type 1}} → statement M
{name}_spec = ?
"""
FILES = ("Answers.antt", "Invariants.antt", "Proof.antt")  # of a function's proof


def opening(lines: List[str], heading: int, indent: str) -> int:
    """The line in which the body of a function opens, as `rt fmt` writes it, or that of its heading where it opens in none."""
    for at in range(heading, len(lines)):
        line = lines[at]
        if line == indent + "{" or line.endswith(" {") and (at == heading or line.startswith(indent + ")")):
            return at
        if at > heading and not line.startswith((indent + " ", indent + ")", indent + "where")):
            break
    return heading


def bodies(lines: List[str]) -> Iterator[Tuple[int, int, int, str]]:
    """The functions that have a body: the lines of its heading, of the brace that opens the body and of the one that closes it; the
    heading's indent."""
    at = 0
    while at < len(lines):
        found = HEADING.match(lines[at])
        opens = opening(lines, at, found[1]) if found else at
        if found and lines[opens].endswith("{"):
            closes = lines.index(found[1] + "}", opens)
            yield at, opens, closes, found[1]
            at = closes
        at += 1


def emptied(crate: str, file: str, text: str, needed: Collection[str]) -> Tuple[str, List[str]]:
    """A source in which only these functions have their bodies, and the functions that lost theirs."""
    lines = text.split("\n")
    left, lost, done = [], [], 0
    for heading, opens, closes, indent in bodies(lines):
        name = function_at(crate, file, text, len("\n".join(lines[: heading + 1])))
        if name and name not in needed:
            left += [*lines[done : opens + 1], f"{indent}    {NO_BODY}"]
            lost.append(name)
            done = closes
    return "\n".join([*left, *lines[done:]]), lost


def bare(crate: str, sources: Dict[str, str], needed: Collection[str]) -> Dict[str, str]:
    """The sources, by their paths, with the bodies and proofs of these functions alone."""
    texts = dict(sources)
    for path, text in sources.items():
        if not path.startswith("src/"):
            continue
        texts[path], lost = emptied(crate, path, text, needed)
        for name in lost:
            _, *inside = name.split("::")
            folder = "/".join(["proofs", *inside])
            for file in FILES:
                texts.pop(f"{folder}/{file}", None)
            texts[f"{folder}/Proof.antt"] = PROOF.format(path=".".join([crate, "proofs", *inside]), name=inside[-1])
    return texts
