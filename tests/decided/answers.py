"""Typed lines: which are commands, and what is answered, given what the program says. The words are those of USING; who is to move
is counted by hand."""

import dataclasses
import json
from typing import Any, Dict

from live.game.typed import ALL_WAYS, NO_SCORE, WAYS, WHICH_MOVES, WHICH_PLY, Back, Said, Typed, meaning, not_added, place_of, read_answer, read_words, with_more
from live.run.refused import NO_TEXT, REFUSED, Asked, Helped, NotDone, refusal
from live.words.message import Message

from decided.cases import cases
from decided.table import refused, same

ON_HELP = ("1-0", "Nf3 Nc6", "back", "14. Bxf6", "undo", "*", "ok")


def told(typed: Typed) -> Dict[str, Any]:
    """What was typed, as JSON has it."""
    told_so: Dict[str, Any] = json.loads(json.dumps({"kind": type(typed).__name__.lower(), **dataclasses.asdict(typed)}))
    return told_so


def said_of(text: str) -> Said:
    """What the program says, as it writes it behind `add: `."""
    return read_answer("add", 0 if text.startswith(("moves", "result")) else 1, f"add: {text}\n", b"")


def commands() -> None:
    """What is typed in a line."""
    for text, expected in cases("answers", "typed"):
        same(repr(text), told(read_words(text)), expected)
    for text in cases("answers", "noughts"):
        same(text, refused(text, NotDone, read_words, text), NO_SCORE)
    for text, to in cases("answers", "plies"):
        same(f"back {text}", read_words(f"back {text}"), Back(to))
    for text in cases("answers", "which ply"):
        same(text, refused(text, NotDone, read_words, text), WHICH_PLY)
    for text in cases("answers", "which moves"):
        same(text, refused(text, NotDone, read_words, text), WHICH_MOVES)
    for text in cases("answers", "undo alone"):
        same(text, refused(text, NotDone, read_words, text), Message("undo.alone"))
    for text in ("Nf3 \udcff", "\udcc3", "1-0\0", "\0"):
        same(repr(text), refused(repr(text), NotDone, read_words, text), NO_TEXT)
    same("the start of it is shown", refusal("e4 \x1b[2J" + 99 * "N", NotDone("why")), (REFUSED, "refused: e4 ?[2J" + 53 * "N" + ": why"))
    same("a question is no refusal", refusal("back 0", Asked("takes off 5 plies")), (REFUSED, "takes off 5 plies"))


def helps() -> None:
    """All that can be typed, in one line."""
    for text in cases("answers", "helps"):
        said = refused(text, NotDone, read_words, text)
        same(text, [part in said for part in ON_HELP], [True] * len(ON_HELP))
        same(f"{text} in one line", len(said) < 110, True)
        same(f"{text} is no mistake", refusal(text, Helped(said)), (REFUSED, said))
    same("with more", with_more(WAYS, "q", "or x"), "Type 1-0, 0-1, 1/2-1/2, moves as Nf3 Nc6, back, *, ok, help, q, or x")
    neither = Message("typed.neither", word="Nx", ways=WAYS)
    same("inside an answer", with_more(neither, "q"), "Nx: neither a move nor a result. " + with_more(WAYS, "q"))
    same("in no answer", with_more("e4", "q"), "e4")
    same("all of them", with_more(ALL_WAYS, "q").endswith("* (no result), ok, q"), True)


def sentences() -> None:
    """What is answered."""
    for said, line, place, expected in cases("answers", "sentences"):
        answer = str(not_added(said_of(said), line, place))
        same(f"{said}, {line!r}", answer, expected)
        same(f"{answer[:20]!r} can be printed", answer.isprintable(), True)
    for said, line, plies, expected in cases("answers", "added"):
        same(f"{line} after {plies}", meaning(said_of(said), line, plies), expected)
    for fen, played, line, said, expected in cases("answers", "places"):
        same(f"{line} after {played}", place_of(said_of(said), fen, played, line), expected)
    for status, text in cases("answers", "no answer"):
        refused(f"{status} {text}", OSError, read_answer, "add", status, f"{text}\n", b"")
    same("too long", read_answer("add", 1, "input: too long\n", b"").kind, "long")


TABLES = [commands, helps, sentences]
