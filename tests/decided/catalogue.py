"""What people read stands in one catalogue: each key is used, each place is given, and no sentence stands in code."""

import ast
import itertools
import json
import pathlib
import re
import tempfile
from typing import Dict, FrozenSet, Iterator, List, Mapping, NamedTuple, Set, Tuple

from live.show.page import ARBITER, SPECTATORS, index_of
from live.words.message import (
    ENGLISH, LINKS, MANY, ONE, Message, NoCatalogue, faults, has, is_of, linked, path_of, places_of, plural, read, read_like, text_of, written,
)  # fmt: skip

from decided import javascript
from decided.cases import cases
from decided.javascript import Token
from decided.table import refused, same

TOP = pathlib.Path(__file__).resolve().parents[2]
LIVE, WEB = TOP / "live", TOP / "web"
WORD = re.compile(r"""(?:^|(?<=[\s("'>]))[A-Za-z][A-Za-z']*(?=$|[\s.,:;?!)"'<])""")
FEW = 3  # words that make a sentence
# What reads as a sentence and is none, by the file in which it stands: how each begins.
NO_SENTENCES: Dict[str, Tuple[str, ...]] = {
    "live/line/protocol.py": ("not eight",),  # only who programs sees it
    "live/doors/dgt_live.py": ("usage:",),  # its --help
    "live/doors/dgt_round.py": ("usage:",),
    "live/doors/options.py": ("'NAME = MINUTES",),  # what the value of an option is called
    "live/game/typed.py": ("input: too long", "as it is"),  # what dgt_replay prints; a value, as the next ones
    "live/run/loop.py": ("Traceback", '  File "'),  # as Python prints where an error was raised
    "live/show/site.py": ("default-src", "<link"),  # HTML
    "live/round/tournament.py": ("# The settings of the tournament", "board;white;"),  # files that are made
    "live/show/terminal.py": ("to the end", "to the start"),
    "live/show/page/message.js": ("the catalogue has no {}",),
    "live/show/http.py": ("Method Not", "Content Too", "URI Too", "Request Header", "HTTP Version", "default-src"),  # as HTTP has them
    # Where there is no catalogue.
    "live/words/message.py": ("{} can't be read", "{} is no JSON", "{} is no object", "{} is no key", "{} has {}", "the catalogue has no {}"),
    "web/child/attended.js": ("live wrote:",),  # what the program has written, and can't be read
    "web/game/typed.js": ("as it is", "input: too long"),
    "web/line/protocol.js": ("not eight",),
    "web/run/loop.js": ("\n  onmessage",),  # code
}
MESSAGE = "live/show/page/message.js"
MAKING = ("message", "plural", "linked")  # its functions that make messages


class Call(NamedTuple):
    """A message that code makes."""

    place: str  # file and line
    keys: Tuple[str, ...]
    given: FrozenSet[str]


def modules() -> List[Tuple[str, ast.Module]]:
    """The modules of live/ with their paths."""
    return [(str(path.relative_to(TOP)), ast.parse(path.read_text("utf-8"))) for path in sorted(LIVE.rglob("*.py"))]


def scripts() -> List[Tuple[str, List[Token]]]:
    """The modules of web/, and of the pages of a round, with their paths."""
    found = [*sorted(LIVE.rglob("*.js")), *sorted(WEB.rglob("*.js"))]
    return [(str(path.relative_to(TOP)), javascript.tokens(path.read_text("utf-8"))) for path in found]


def constants(node: ast.expr) -> List[str]:
    """The strings that an expression may be."""
    return [part.value for part in ast.walk(node) if isinstance(part, ast.Constant) and isinstance(part.value, str)]


def calls() -> Iterator[Call]:
    """All messages that are made, but in the packages of words."""
    return itertools.chain(calls_in_python(), calls_in_javascript())


def calls_in_javascript() -> Iterator[Call]:
    for path, found in scripts():
        for name, line, (first, *rest) in () if path == MESSAGE else javascript.calls(found, MAKING):
            keys, given = [text for kind, text, _ in first if kind == "text"], frozenset().union(*map(javascript.fields, rest[-1:]))
            if name == "message":
                yield Call(f"{path}:{line}", tuple(keys), given)
            elif name == "plural":
                given = given if len(rest) > 1 else frozenset()
                yield from (Call(f"{path}:{line}", (key + ONE, key + MANY), given | {"count"}) for key in keys)
            else:
                yield from (Call(f"{path}:{line}", (f"join.{how}",), frozenset({"front", "last"})) for how in keys)


def calls_in_python() -> Iterator[Call]:
    for path, tree in modules():
        if path.startswith("live/words/"):
            continue
        for node in ast.walk(tree):
            if not isinstance(node, ast.Call) or not isinstance(node.func, ast.Name):
                continue
            name, place = node.func.id, f"{path}:{node.lineno}"
            given = {word.arg or "**" for word in node.keywords}
            if name == "Message":
                yield Call(place, tuple(constants(node.args[0])), frozenset(given))
            elif name == "plural":
                for key in constants(node.args[0]):
                    yield Call(place, (key + ONE, key + MANY), frozenset(given | {"count"}))
            elif name == "linked":
                for how in constants(node.args[0]):
                    yield Call(place, (f"join.{how}",), frozenset({"front", "last"}))


def docstrings(tree: ast.Module) -> Set[int]:
    """The strings of a module that stand alone, by their identity."""
    return {id(node.value) for node in ast.walk(tree) if isinstance(node, ast.Expr)}


def strings(tree: ast.Module) -> Iterator[Tuple[int, str]]:
    """Each text in code, with its line: `{}` stands for what is put in."""
    inside: Set[int] = docstrings(tree)
    for node in ast.walk(tree):
        if isinstance(node, ast.JoinedStr):
            inside |= {id(part) for part in ast.walk(node) if part is not node and not _is_call_in(node, part)}
            yield node.lineno, "".join(str(part.value) if isinstance(part, ast.Constant) else "{}" for part in node.values)
    for node in ast.walk(tree):
        if isinstance(node, ast.Constant) and isinstance(node.value, str) and id(node) not in inside:
            yield node.lineno, node.value


def _is_call_in(text: ast.JoinedStr, part: ast.AST) -> bool:
    """Whether a part of an f-string is code, and not its own text."""
    own = {id(value) for value in text.values} | {id(inner) for value in text.values if isinstance(value, ast.FormattedValue)
                                                  and value.format_spec for inner in ast.walk(value.format_spec)}  # fmt: skip
    return id(part) not in own


def each_key_is_used() -> None:
    """The catalogue has what code makes, and nothing else. A key stands in code, and isn't put together there."""
    used = {key for call in calls() for key in call.keys}
    same("keys that nobody uses", sorted(set(ENGLISH) - used), [])
    same("keys that the catalogue lacks", sorted(used - set(ENGLISH)), [])
    same("keys that are put together", [call.place for call in calls() if not call.keys], [])
    compared = {name for _, tree in modules() for node in ast.walk(tree) for name in keys_compared(node)}
    same("keys that are looked for", sorted(compared - set(ENGLISH)), [])


def keys_compared(node: ast.AST) -> List[str]:
    """The keys with which code compares a message's: alone, or in a list of them."""
    if isinstance(node, ast.Call) and isinstance(node.func, ast.Name) and node.func.id in ("has", "is_of"):
        return [text for argument in node.args[1:] for text in constants(argument)]
    texts = [part.value for part in node.elts if isinstance(part, ast.Constant)] if isinstance(node, ast.Tuple) else []
    return list(map(str, texts)) if set(texts) & set(ENGLISH) else []


def each_place_is_given() -> None:
    """A sentence has the places that each of its calls gives, no other and none less. That for one thing may leave its number out."""
    for call in calls():
        for key in call.keys:
            wanted = places_of(ENGLISH.get(key, ""))
            given = call.given & wanted if key.endswith((ONE, MANY)) else call.given
            same(f"{call.place}: {key}", sorted(wanted), sorted(given))
        if len(call.keys) == 2 and call.keys[0].endswith(ONE):
            both = frozenset.union(*(places_of(ENGLISH.get(key, "")) for key in call.keys)) | {"count"}
            same(f"{call.place}: what is given is used", sorted(both), sorted(call.given))


def no_sentence_in_code() -> None:
    """Three words one after the other are a sentence, unless the list above says what else they are."""
    seen: Set[Tuple[str, str]] = set()
    texts = [(path, line, text) for path, tree in modules() for line, text in strings(tree)]
    texts += [(path, line, text) for path, found in scripts() for kind, text, line in found if kind == "text"]
    for path, line, text in texts:
        if len(WORD.findall(text)) >= FEW:
            begins = next((front for front in NO_SENTENCES.get(path, ()) if text.startswith(front)), "")
            seen.add((path, begins))
            same(f"{path}:{line}: {text[:60]}", bool(begins), True)
    listed = {(path, begins) for path, fronts in NO_SENTENCES.items() for begins in fronts}
    same("what is listed and isn't there", sorted(listed - seen), [])


def how_it_is_written() -> None:
    """One key in a line, in order; one key for one sentence; names of places that JavaScript reads too."""
    lines = pathlib.Path(path_of("en")).read_text("utf-8").splitlines()
    same("a line for each", len(lines), len(ENGLISH) + 2)
    same("in order", [line.split('"')[1] for line in lines[1:-1]], sorted(ENGLISH))
    texts = list(ENGLISH.values())
    same("sentences that stand twice", sorted({text for text in texts if texts.count(text) > 1}), [])
    for key, text in ENGLISH.items():
        same(f"{key} has no other braces", re.sub(r"\{[A-Za-z_]+\}", "", text).strip("{}"), re.sub(r"\{[A-Za-z_]+\}", "", text))
    ends = {key[: -len(end)] for key in ENGLISH for end in (ONE, MANY) if key.endswith(end)}
    same("one and many are pairs", [key for key in sorted(ends) if not {key + ONE, key + MANY} <= set(ENGLISH)], [])


def pages_have_theirs() -> None:
    """A page has the sentences that its scripts need, and no other."""
    for site in (ARBITER, SPECTATORS):
        _, _, rest = index_of(site).partition(b'id="words">')
        words = json.loads(rest.partition(b"</script>")[0])
        own = {f"live/show/page/{name}" for name in site.files}
        made = {key for call in calls_in_javascript() if call.place.partition(":")[0] in own for key in call.keys}
        same(f"{site.index}: what its scripts need", sorted(made - set(words)), [])
        same(f"{site.index}: no other", [key for key in words if key not in made and not key.startswith(LINKS)], [])
        same(f"{site.index}: as in the catalogue", {key: ENGLISH[key] for key in words}, words)


# The folders of live/ as far as each imports of itself and of those before it alone.
IN_ORDER = ("words", "run", "line", "child", "game", "board")


def leftmost() -> None:
    """What makes messages imports nothing of the recorders, and no folder something of one that stands behind it on a byte's way."""
    for path, tree in modules():
        folder = path.split("/")[1]
        if folder not in IN_ORDER:
            continue
        nodes = list(ast.walk(tree))
        names = [f"{node.module}.{one.name}" for node in nodes if isinstance(node, ast.ImportFrom) for one in node.names]
        names += [one.name for node in nodes if isinstance(node, ast.Import) for one in node.names]
        left = IN_ORDER[: IN_ORDER.index(folder) + 1]
        same(path, [name for name in names if name.startswith("live.") and name.split(".")[1] not in left], [])
    for path, found in scripts():
        same(path, path == MESSAGE and "import" in [text for kind, text, _ in found if kind == "name"], False)


# A language of which nobody knows a word: each sentence is its key and its places.
OTHER = {key: " ".join((key.upper(), *(f"{{{name}}}" for name in sorted(places_of(text))))) for key, text in ENGLISH.items()}


def another_language() -> None:
    """A file with the same keys and the same places is a language. Any other is refused by a sentence that says what to mend."""
    with tempfile.TemporaryDirectory() as folder:
        path = pathlib.Path(folder) / "words.xx.json"

        def tried(content: object) -> str:
            path.write_text(content if isinstance(content, str) else json.dumps(content), "utf-8")
            return refused("refused", NoCatalogue, read_like, str(path), ENGLISH)

        path.write_text(json.dumps(OTHER), "utf-8")
        same("another language", read_like(str(path), ENGLISH), OTHER)
        whole = dict(OTHER)
        del whole["typed.illegal"]
        same("a key lacks", tried(whole), f"{path}: typed.illegal is missing")
        same("a key more", tried({**OTHER, "typed.new": "?"}), f"{path}: typed.new is no key of the English catalogue")
        same("a place lacks", tried({**OTHER, "ply.number": "?"}), f"{path}: ply.number has no place, and is to have {{number}}")
        same("another place", tried({**OTHER, "look.at": "{move}"}), f"{path}: look.at has {{move}}, and is to have {{ply}}")
        same("no JSON", tried("{").startswith(f"{path} is no JSON ("), True)
        same("a list", tried([]), f"{path} is no object of keys and sentences")
        path.unlink()
        lacks = refused("no file", NoCatalogue, read, str(path))
        same("no file says", lacks, f"{path} can't be read (No such file or directory): install all of dgt_replay anew")
    english = {"a.one": "{count} thing", "a.many": "{count} things"}
    same("the number of one may be left out", faults({"a.one": "one", "a.many": "{count}"}, english), [])


def made(key: str, places: Mapping[str, object]) -> Message:
    """A message of the cases for both languages."""
    return Message(key, **{name: made(*place) if isinstance(place, list) else place for name, place in places.items()})


def as_in_javascript() -> None:
    """The same cases play over message.js."""
    for key, places, text in cases("words", "made"):
        same(key, made(key, places), text)
    for key, count, text in cases("words", "plural"):
        same(text, plural(key, count), text)
    for how, texts, text in cases("words", "linked"):
        same(text, linked(how, texts), text)
    for key, places in cases("words", "no messages"):
        refused(key, LookupError, made, key, places)


def messages() -> None:
    """A message is its English text, and keeps what any other language needs."""
    illegal = Message("typed.illegal", word="Nf9", place=Message("typed.white_to_move"), nothing_added=Message("typed.nothing_added"))
    same("in English", str(illegal), "Nf9 is no legal move: White is to move. Nothing was added")
    same("in another language", text_of(illegal, OTHER), "TYPED.ILLEGAL TYPED.NOTHING_ADDED TYPED.WHITE_TO_MOVE Nf9")
    same("what is no message", text_of("Anna", OTHER), "Anna")
    same("it is a text", (illegal == str(illegal), hash(illegal) == hash(str(illegal)), illegal.key), (True, True, "typed.illegal"))
    same("none", plural("table.boards", 0).key, "table.boards.many")
    same("with other things in it", illegal.with_places(lambda place: "x"), "x is no legal move: x. x")
    same("of a key", (is_of(illegal, "typed.illegal"), is_of(illegal, "typed.neither")), (True, False))
    same("of a key, read from a file", (is_of(str(illegal), "typed.illegal"), is_of(str(illegal), "typed.misnumbered")), (True, False))
    same("has one inside", (has(illegal, "typed.white_to_move"), has(illegal, "typed.black_to_move")), (True, False))
    same("what is no message has none", has("Anna", "side.white"), False)
    same("what it says", refused("no key in another language", LookupError, written, {}, "side.white", {}), "the catalogue has no side.white")


TABLES = [each_key_is_used, each_place_is_given, no_sentence_in_code, how_it_is_written, pages_have_theirs, leftmost, another_language,
          as_in_javascript, messages]  # fmt: skip
