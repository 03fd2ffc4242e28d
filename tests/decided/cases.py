"""The cases that Python and JavaScript both run: tests/decisions/NAME.json, where each table says what its columns are."""

import functools
import json
import pathlib
from typing import Any, Dict, Mapping, Optional

FOLDER = pathlib.Path(__file__).resolve().parents[1] / "decisions"
CODES = ".PRNBKQprnbkq*"  # by piece code


@functools.lru_cache(maxsize=None)
def _tables(name: str) -> Dict[str, Dict[str, Any]]:
    tables: Dict[str, Dict[str, Any]] = json.loads((FOLDER / f"{name}.json").read_text(encoding="utf-8"))
    return tables


def cases(name: str, table: str) -> Any:
    """The cases of a table."""
    return _tables(name)[table]["cases"]


def bytes_of(text: str, frames: Optional[Mapping[str, str]] = None) -> bytes:
    """The bytes that words stand for: `8e`, `00*64`, the name of one of the frames, a placement for its dump, and `rotated:`
    before one for the dump of a rotated board."""
    return b"".join(_word(word, frames or {}) for word in text.split())


def _word(word: str, frames: Mapping[str, str]) -> bytes:
    if word in frames:
        return bytes_of(frames[word])
    if "/" in word:
        rotated, placement = word.startswith("rotated:"), word.split(":")[-1]
        codes = _codes(placement)
        return b"\x86\x00\x43" + (codes[::-1] if rotated else codes)
    value, _, times = word.partition("*")
    return bytes((int(value, 16),)) * int(times or 1)


def _codes(placement: str) -> bytes:
    """Of the squares from a8 to h1."""
    squares = placement.replace("/", "")
    for digit in "12345678":
        squares = squares.replace(digit, "." * int(digit))
    return bytes(map(CODES.index, squares))
