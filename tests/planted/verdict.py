"""What a check says of the functions whose bodies were changed."""

import dataclasses
import re
from typing import Dict, FrozenSet, List, Tuple

STATUS = re.compile(r"(?m)^fn (\S+): (proved|not proved|no proof|could not tell|no holes|depends on a hole)(.*)$")
WAITS = re.compile(r"it calls|it passes|a call of")
OWN = re.compile(r"(?m)^(?:\./)?proofs/(\S+)/(?:Answers|Invariants|Proof)\.antt:\d+:\d+: error: (.*)$")
OPEN = re.compile(r"`search` did not prove (`[^`]+`)")  # a goal of a function that has no proof file
LOST = re.compile(r"has no field|is not in scope|has no `|was not admitted")


@dataclasses.dataclass(frozen=True)
class Said:
    """A check's words: what it says of each function, and the errors in the proofs of each."""

    statuses: Dict[str, Tuple[str, str]]
    errors: Dict[str, Tuple[str, ...]]
    ended: bool
    text: str


def read(crate: str, text: str) -> Said:
    """A check's output, read. It has ended where its last line counts proofs, or says that the crate isn't proved."""
    errors: Dict[str, List[str]] = {}
    for path, error in OWN.findall(text):
        errors.setdefault("::".join([crate, *path.split("/")]), []).append(error)
    last = text.rstrip("\n").rpartition("\n")[2]
    return Said(
        {name: (status, more) for name, status, more in STATUS.findall(text)},
        {name: tuple(it) for name, it in errors.items()},
        re.match(r"only=\d+ (proved|holes)=\d+$|logic=not-proved|logic=proved", last) is not None,
        text,
    )


def is_refused(said: Said, function: str) -> bool:
    """Whether this function's own body was refused: it isn't proved, and not because another function isn't."""
    status, more = said.statuses.get(function, ("", ""))
    if status not in ("not proved", "no proof"):
        return False
    return not WAITS.search(more) or bool(goals(said, function))


def goals(said: Said, function: str) -> List[str]:
    """The goals of this function's proof that were refused."""
    own = [it for it in said.errors.get(function, ()) if not LOST.search(it)]
    return [it.partition(":")[0] for it in own] + OPEN.findall(said.statuses.get(function, ("", ""))[1])


def names_alone(said: Said, function: str) -> bool:
    """Whether this function isn't proved only since a proof file names what isn't there any more."""
    return bool(said.errors.get(function)) and not goals(said, function)


def reason(said: Said, function: str) -> str:
    """The first goal of this function's proof that was refused, to be put behind its name; nothing where it has none of its own."""
    own = goals(said, function)
    if own:
        return f", {own[0]}"
    return " BY A NAME ALONE: a proof file names what the edit took away" if said.errors.get(function) else ""


def waits(said: Said, function: str) -> bool:
    """Whether nothing can be said of this function, since it rests on another one that isn't proved."""
    status, more = said.statuses.get(function, ("", ""))
    return status in ("not proved", "no proof") and not is_refused(said, function)


def others(said: Said, changed: FrozenSet[str]) -> List[str]:
    """The functions that were refused though no body of theirs was changed: then nothing can be said of the check."""
    return sorted(name for name in said.statuses if name not in changed and is_refused(said, name))
