"""Which wrong bodies are tried in one check."""

from typing import Dict, List, Sequence, Set, Tuple

from planted.wrong_body import WrongBody, applied


def next_round(bodies: Sequence[WrongBody], sources: Dict[str, str]) -> Tuple[List[WrongBody], Dict[str, str]]:
    """As many of these as change different functions, from the first on, and the sources with them."""
    taken: List[WrongBody] = []
    changed: Set[str] = set()
    texts = sources
    for body in bodies:
        after = applied(texts, body.changes)
        if after is not None and not changed & body.functions:
            taken.append(body)
            changed |= body.functions
            texts = after
    return taken, texts
