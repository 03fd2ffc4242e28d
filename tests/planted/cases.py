"""Which function a wrong body changes, which are tried together, and what a check is read as. All worked by hand."""

import pathlib
import tempfile
from typing import Callable, Dict, List, Sequence, Tuple
from unittest import mock

from decided.table import same
from planted import before, checking, crates, verdict, wrong_body, wrong_definition
from planted.bare import bare
from planted.rounds import next_round
from planted.trying import tried
from planted.wrong_body import Change, WrongBody
from planted.wrong_definition import WrongDefinition

SOURCE = """use std::io;

const LIMIT: usize = 4;

pub fn first(n: u64) -> u64
    ensures { result ≡ n }
{
    n
}

impl Watch {
    pub(crate) fn note(&mut self) {
        self.failed = true;
    }
}

impl<W: Write> io::Write for Watch<W> {
    fn flush(&mut self) -> Result<(), Error> {
        self.inner.flush()
    }
}

impl<'a> Line<'a> {
    fn has(&self) -> bool {
        true
    }
}

fn last() {}
"""
# A text of that source, and the function that has it.
PLACES = [
    ("const LIMIT: usize = 4;", None),
    ("pub fn first", "board::streams::first"),
    ("    n\n", "board::streams::first"),
    ("impl Watch {", None),
    ("self.failed = true;", "board::streams::Watch::note"),
    ("self.inner.flush()", "board::streams::WatchWrite::flush"),
    ("        true\n", "board::streams::Line::has"),
    ("fn last() {}", "board::streams::last"),
]


def places() -> None:
    for text, expected in PLACES:
        at = SOURCE.index(text) + len(text)
        same(text, wrong_body.function_at("board", "src/streams.rt", SOURCE, at), expected)
    same("a function of the root", wrong_body.function_at("board", "src/lib.rt", "fn f() {", 8), "board::f")
    same("a folder of modules", wrong_body.function_at("board", "src/a/b.rt", "fn f() {", 8), "board::a::b::f")


BARE = """use std::io;

const LIMIT: usize = 4;

pub fn first(n: u64) -> u64
    ensures { result ≡ n }
{
    n
}

impl Watch {
    pub(crate) fn note(&mut self) {
        loop {}
    }
}

impl<W: Write> io::Write for Watch<W> {
    fn flush(&mut self) -> Result<(), Error> {
        loop {}
    }
}

impl<'a> Line<'a> {
    fn has(&self) -> bool {
        loop {}
    }
}

fn last() {}
"""
LONG = """const fn limit() -> usize {
    4
}

fn long(
    one: u64,
    other: u64,
) -> u64
    requires sum {
        one + other < 4
    }
{
    if one < other {
        other
    } else {
        one
    }
}

fn plain(
    one: u64,
) -> u64 {
    one
}

trait Named {
    fn name(&self) -> u64;
}
"""
LONG_BARE = LONG.replace("    if one < other {\n        other\n    } else {\n        one\n    }\n", "    loop {}\n").replace("    one\n}", "    loop {}\n}")
HOLE = """use Rattle.board.proofs.streams.Line.has.Statement.{statement}

pub has_spec : {M : Type 1} → statement M
has_spec = ?
"""


def without_bodies() -> None:
    answers = "proofs/streams/Line/has/Answers.antt", "proofs/streams/first/Answers.antt", "proofs/Lines.antt"
    sources = {"src/streams.rt": SOURCE, **{it: "proved" for it in answers}}
    left = bare("board", sources, {"board::streams::first"})
    same("its body stays, the others go", left["src/streams.rt"], BARE)
    same("its proof stays, and the lemmas", [left[it] for it in answers[1:]], ["proved", "proved"])
    same("another one's proof is a hole", (left.get(answers[0]), left["proofs/streams/Line/has/Proof.antt"]), (None, HOLE))
    same("long headings; a constant's value; what has no body", bare("c", {"src/lib.rt": LONG}, ())["src/lib.rt"], LONG_BARE)


def edits() -> None:
    sources = {"src/lib.rt": "fn f() { 1 }\nfn g() { 1 + 2 }\n"}
    read: Callable[[str], object] = lambda text: wrong_body.read("c", "name", text, sources)
    text = "# says: it\nfile: src/lib.rt\nold: { 1 }\nnew: { 0 }\nold: 1 + 2\nnew: \n"
    changes = Change("src/lib.rt", "{ 1 }", "{ 0 }"), Change("src/lib.rt", "1 + 2", "")
    same("two functions", read(text), WrongBody("name", changes, frozenset({"c::f", "c::g"})))
    same("a text that is there twice", read("file: src/lib.rt\nold: 1\nnew: 0\n"), None)
    same("a text that isn't there", read("file: src/lib.rt\nold: 3\nnew: 0\n"), None)
    same("another file", read("file: src/main.rt\nold: 1 + 2\nnew: 0\n"), None)
    same("no change", read("# says: nothing\n"), None)


def body(name: str, old: str, *functions: str) -> WrongBody:
    return WrongBody(name, (Change("f", old, old.upper()),), frozenset(functions))


def together() -> None:
    sources = {"f": "a b c a1 c"}
    bodies = [body("one", "b", "f"), body("same function", "a1", "f"), body("another", "a1", "g"), body("there twice", "c", "h")]
    taken, texts = next_round(bodies, sources)
    same("one for each function", ([it.name for it in taken], texts), (["one", "another"], {"f": "a B c A1 c"}))


OUTPUT = """./proofs/lines/add/Answers.antt:6:26: error: `returns-clause-items`: `search`: no proof of `x`
./proofs/lines/put/Answers.antt:1:1: error: `Rattle.c.add` was not admitted
./proofs/lines/Line/has/Invariants.antt:9:5: error: `loop-at-preserved`: the two types differ
fn c::lines::add: not proved
fn c::lines::number: not proved; it calls `c::lines::add`, which is not proved
fn c::lines::put: no proof: it calls `c::lines::add`, which is not proved
fn c::lines::Line::has: not proved; it calls `c::lines::add`, which is not proved
fn c::lines::kept: proved
fn c::lines::long: could not tell
only=6 proved=1
"""
# A function of that check: whether it was refused itself, and whether it waits for another one.
VERDICTS = [
    ("c::lines::add", True, False),
    ("c::lines::number", False, True),
    ("c::lines::put", False, True),
    ("c::lines::Line::has", True, False),
    ("c::lines::kept", False, False),
    ("c::lines::long", False, False),
    ("c::lines::unknown", False, False),
]


def verdicts() -> None:
    said = verdict.read("c", OUTPUT)
    for name, refused, waits in VERDICTS:
        same(name, (verdict.is_refused(said, name), verdict.waits(said, name)), (refused, waits))
    same("the goal is named", verdict.reason(said, "c::lines::add"), ", `returns-clause-items`")
    same("a refusal that no edit explains", verdict.others(said, frozenset({"c::lines::add"})), ["c::lines::Line::has"])
    same("it has ended", said.ended, True)
    named = verdict.read("c", "./proofs/f/Answers.antt:1:1: error: `Rattle.c.g` is not in scope\nfn c::f: not proved\nonly=1 holes=0\n")
    same("only a name is gone", [verdict.names_alone(it, name) for it, name in [(named, "c::f"), (said, "c::lines::add")]], [True, False])
    same("and that is said", verdict.reason(named, "c::f"), " BY A NAME ALONE: a proof file names what the edit took away")
    calls = "fn c::f: no proof: `search` did not prove `returns`; it calls `c::g`, which is not proved\nonly=1 holes=0\n"
    said = verdict.read("c", calls)
    same("a goal without a proof file", (verdict.is_refused(said, "c::f"), verdict.reason(said, "c::f")), (True, ", `returns`"))
    hole = verdict.read("c", "fn c::f: depends on a hole in `Rattle.c.proofs.g.Proof.g_spec`\nonly=1 holes=1\n")
    same("a hole below refuses nothing", (hole.ended, verdict.is_refused(hole, "c::f")), (True, False))
    same("it has not", verdict.read("c", "error[E0308]: mismatched types\n").ended, False)


def check_of(lines: Dict[str, Tuple[str, ...]], asked: List[List[str]]) -> Callable[[Dict[str, str], List[str], pathlib.Path], verdict.Said]:
    """A check in which a goal of a function is refused where the text has its letter as a capital; `lines` has what it calls. With a
    '!' it doesn't compile, nor with A and C together; with a '?' it speaks of all functions."""

    def check(texts: Dict[str, str], functions: List[str], _: pathlib.Path) -> verdict.Said:
        asked.append(functions)
        wrong = {it for it in lines if it.upper() in texts["f"]}
        said = []
        for it in sorted({*lines} if "?" in texts["f"] else {*functions}):
            below = [other for other in lines[it] if other in wrong]
            if below:
                said.append(f"fn {it}: not proved; it calls `{below[0]}`, which is not proved")
            else:
                said.append(f"fn {it}: {'no proof: `search` did not prove `returns`' if it in wrong else 'proved'}")
        compiles = "!" not in texts["f"] and not ("A" in texts["f"] and "C" in texts["f"] and "c" in functions)
        return verdict.read("c", "\n".join([*said, "only=1 proved=0"]) if compiles else "error: no such type")

    return check


Plan = Tuple[str, List[WrongBody], Dict[str, Tuple[str, ...]], List[List[str]], Dict[str, bool]]
PLANS: List[Plan] = [
    ("different functions, one check", [body("a", "a", "a"), body("b", "b", "b")], {"a": (), "b": ()}, [["a", "b"]], {"a": True, "b": True}),
    (
        "one function, two checks",
        [body("a", "a", "a"), WrongBody("again", (Change("f", "z", "A"),), frozenset({"a"}))],
        {"a": ()},
        [["a"], ["a"]],
        {"a": True, "again": True},
    ),
    (
        "a body that is proved",
        [body("a", "a", "a"), WrongBody("b", (Change("f", "z", "y"),), frozenset({"b"}))],
        {"a": (), "b": ()},
        [["a", "b"]],
        {"a": True, "b": False},
    ),
    (
        "a caller is tried again, without what it calls",
        [body("a", "a", "a"), body("b", "b", "b")],
        {"a": (), "b": ("a",)},
        [["a", "b"], ["b"]],
        {"a": True, "b": True},
    ),
    (
        "a caller that is right is not refused with what it calls",
        [body("a", "a", "a"), WrongBody("b", (Change("f", "z", "y"),), frozenset({"b"}))],
        {"a": (), "b": ("a",)},
        [["a", "b"], ["b"]],
        {"a": True, "b": False},
    ),
    (
        "something else isn't proved",
        [WrongBody("a", (Change("f", "a", "A C ?"),), frozenset({"a"}))],
        {"a": (), "c": ()},
        [["a"]],
        {"a": False},
    ),
    (
        "two that don't compile together",
        [body("a", "a", "a"), body("b", "b", "b"), WrongBody("c", (Change("f", "z", "C"),), frozenset({"c"}))],
        {"a": (), "b": (), "c": ()},
        [["a", "b", "c"], ["a", "b"], ["c"]],
        {"a": True, "b": True, "c": True},
    ),
    ("it doesn't compile", [WrongBody("a", (Change("f", "a", "!"),), frozenset({"a"}))], {"a": ()}, [["a"]], {"a": False}),
]


def plans() -> None:
    for name, bodies, calls, checks, expected in PLANS:
        asked: List[List[str]] = []
        seen = {it.name: it.refused for it in tried(bodies, {"f": "a b z"}, check_of(calls, asked))}
        same(name, (asked, seen), (checks, expected))


NAMED = [
    ("# refused by: `laws::is_said_once`\nfile: f\nold: a\nnew: b\n", "c::laws::is_said_once"),
    ("# refused by: `listed` of `Tag::index`\nfile: f\nold: a\nnew: b\n", "c::Tag::index"),
    ("# says: a is b\nfile: f\nold: a\nnew: b\n", None),
]
# The sources, what the check says, whether it counts as refused.
TURNED = [
    ("a", "fn c::f: not proved\nonly=1 proved=0\n", True),
    ("a", "fn c::f: no proof: it calls `c::g`, which is not proved\nonly=1 proved=0\n", True),
    ("a", "fn c::f: proved\nonly=1 proved=1\n", False),
    ("a", "fn c::g: not proved\nonly=1 proved=0\n", False),
    ("a", "error: no such type\n", False),
    ("a a", "fn c::f: not proved\nonly=1 proved=0\n", False),
]


def definitions() -> None:
    for text, function in NAMED:
        read = wrong_definition.read("c", "name", text)
        same(text, read and read.function, function)
    wrong = WrongDefinition("name", (Change("f", "a", "b"),), "c::f")
    for source, text, refused in TURNED:
        done = wrong_definition.tried(wrong, {"f": source}, lambda *_: verdict.read("c", text), pathlib.Path())
        same(f"{source}: {text}", done.refused, refused)


def libraries() -> None:
    uses = checking.crates_of("# libraries\nlow:\nmiddle: low itoa\nhigh: middle low  # the top\n")
    same("what each uses", uses, {"low": [], "middle": ["low", "itoa"], "high": ["middle", "low"]})
    same("what is below", checking.below(uses, "high"), ["low", "middle"])


USES: before.Uses = {"low": ["itoa"], "high": ["low"], "other": []}
# A file of a tree: whether the digest of high's wrong bodies changes with it, or with its being there.
RESTS_ON = [
    ("crates/high/src/lib.rt", True),
    ("crates/high/specs/Sum.antt", True),
    ("crates/high/proofs/sum/Answers.antt", True),
    ("crates/high/wrong-bodies/none_added.edit", True),
    ("crates/low/src/lib.rt", True),
    ("crates/low/specs/Lib.antt", True),
    ("crates/low/proofs/Lib.antt", True),
    ("tests/planted/trying.py", True),
    ("tests/wrong_bodies", True),
    ("crates/high/wrong-definitions/half.edit", False),
    ("crates/low/wrong-bodies/none_added.edit", False),
    ("crates/other/src/lib.rt", False),
    ("crates/high/README.md", False),
    ("tests/planted/__pycache__/trying.pyc", False),
]


def unchanged() -> None:
    with tempfile.TemporaryDirectory() as folder:
        top = pathlib.Path(folder)
        for path, _ in RESTS_ON:
            (top / path).parent.mkdir(parents=True, exist_ok=True)
            (top / path).write_text("one\n")

        def digest(uses: before.Uses = USES, version: str = "kit 1") -> str:
            return before.digest(top, uses, "high", "wrong-bodies", version)

        first = digest()
        for path, matters in RESTS_ON:
            (top / path).write_text("two\n")
            same(f"{path} changed", digest() != first, matters)
            (top / path).unlink()
            same(f"{path} gone", digest() != first, matters)
            (top / path).write_text("one\n")
        same("another toolchain", digest(version="kit 2") != first, True)
        same("another line of crates.txt", digest({**USES, "low": ["itoa", "clap"]}) != first, True)
        same("a crate that it doesn't stand on", digest({**USES, "other": ["low"]}), first)
        same("a new edit", [(top / "crates/high/wrong-bodies/half.edit").write_text("x"), digest() != first][1], True)


def written() -> None:
    with tempfile.TemporaryDirectory() as folder:
        top = pathlib.Path(folder)
        (top / "tests").mkdir()
        same("no file", before.read(top), {})
        before.write(top, "wrong-bodies", {"low": "1a", "high": "2b"})
        before.write(top, "wrong-definitions", {"low": "3c"})
        before.write(top, "wrong-bodies", {"high": "4d"})
        same("each run writes its own", before.read(top), {("wrong-bodies", "high"): "4d", ("wrong-definitions", "low"): "3c"})


# What is in the file, the digests now, whether all are tried; what is tried, what isn't.
AGAIN: List[Tuple[Dict[str, str], Dict[str, str], bool, List[str], List[str]]] = [
    ({}, {"low": "1", "high": "2"}, False, ["low", "high"], []),
    ({"low": "1", "high": "2"}, {"low": "1", "high": "2"}, False, [], ["low", "high"]),
    ({"low": "1", "high": "2"}, {"low": "1", "high": "3"}, False, ["high"], ["low"]),
    ({"low": "1", "high": "2"}, {"low": "1", "high": "2"}, True, ["low", "high"], []),
    ({"low": "1", "high": "2"}, {}, False, ["low", "high"], []),  # they were named, so no digest was made
]


def tried_again() -> None:
    for kept, digests, has_all, trying, taken in AGAIN:
        names: Dict[str, List[str]] = {"low": [], "high": []}
        known = {("wrong-bodies", crate): summed for crate, summed in kept.items()}
        with mock.patch.object(before, "read", return_value=known):
            got = crates.to_try(names, USES, "wrong-bodies", digests, has_all=has_all)
        same(f"{kept}, {digests}, {has_all}", got, (trying, taken))


TABLES: Sequence[Callable[[], None]] = [
    *(places, without_bodies, edits, together, verdicts, plans, definitions, libraries),
    *(unchanged, written, tried_again),
]
