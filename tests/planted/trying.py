"""A crate's wrong bodies, tried in rounds until something can be said of each."""

import dataclasses
import tempfile
from pathlib import Path
from typing import Callable, Dict, Iterator, List, Sequence, Tuple

from planted import verdict
from planted.rounds import next_round
from planted.wrong_body import WrongBody

Check = Callable[[Dict[str, str], List[str], Path], verdict.Said]  # of sources: these functions; where checks keep their work


@dataclasses.dataclass(frozen=True)
class Tried:
    """A wrong body: whether the prover refuses it, and what to say of it; whether a goal of its own is refused, and not only a name
    in its proof."""

    name: str
    refused: bool
    said: str
    by_a_goal: bool = False


def of_one(body: WrongBody, said: verdict.Said) -> Tried:
    """What a check says of one of its bodies that waits for no other."""
    refused = [it for it in sorted(body.functions) if verdict.is_refused(said, it)]
    if refused:
        by_a_goal = any(not verdict.names_alone(said, it) for it in refused)
        return Tried(body.name, True, f"refused: {refused[0]}{verdict.reason(said, refused[0])}", by_a_goal)
    known = [it for it in sorted(body.functions) if it in said.statuses]
    return Tried(body.name, False, f"NOT REFUSED: {known[0]} is proved" if known else f"NO SUCH FUNCTION: {sorted(body.functions)}")


def is_waiting(said: verdict.Said, body: WrongBody) -> bool:
    """Whether nothing can be said of a body, since what it changes rests on another function that isn't proved."""
    own = any(verdict.is_refused(said, it) for it in body.functions)
    return not own and any(verdict.waits(said, it) for it in body.functions)


def halves(bodies: Sequence[WrongBody]) -> List[List[WrongBody]]:
    """These bodies in two parts, or all in one where there is only one."""
    middle = (len(bodies) + 1) // 2
    return [list(it) for it in (bodies[:middle], bodies[middle:]) if it]


def tried(bodies: Sequence[WrongBody], sources: Dict[str, str], check: Check) -> Iterator[Tried]:
    """Tries these bodies: as many together as change different functions; in halves where a check has no verdict, since two of
    them may not compile together; once more without what it calls, where a function rests on another one with a wrong body."""
    groups: List[Tuple[List[WrongBody], bool]] = [(list(bodies), False)] if bodies else []
    with tempfile.TemporaryDirectory() as kept:
        while groups:
            group, is_last = groups.pop(0)
            taken, texts = next_round(group[:1] if is_last else group, sources)
            later = [it for it in group if it not in taken]
            if later:
                groups.insert(0, (later, is_last))
            said = check(texts, sorted({it for body in taken for it in body.functions}), Path(kept))
            odd = verdict.others(said, frozenset(it for body in taken for it in body.functions))
            if not said.ended and len(taken) > 1:
                groups += [(half, is_last) for half in halves(taken)]
                continue
            waiting = [it for it in taken if not odd and said.ended and is_waiting(said, it)]
            if waiting and len(taken) > 1:
                groups.append((waiting, len(waiting) == len(taken)))
            for body in taken:
                if not said.ended:
                    yield Tried(body.name, False, f"NO VERDICT: {said.text.strip()[-300:]}")
                elif odd:
                    yield Tried(body.name, False, f"NO VERDICT: {odd[0]} isn't proved either, and nobody changed it")
                elif body not in waiting or len(taken) == 1:
                    yield of_one(body, said)
