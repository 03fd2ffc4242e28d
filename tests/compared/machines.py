"""The programs in bin/ for other machines: the bytes that the gate makes, and the answers of the program for x86-64."""

from __future__ import annotations

import ctypes
import functools
import os
import pathlib
import random
import shutil
import subprocess
import tempfile
from concurrent.futures import ThreadPoolExecutor
from typing import List, Optional, Sequence

import outside
from compared.browser import Page
from compared.calls import TOP, Answer, Call, answer, by_chance, captures, of_files

AARCH64, WASM = "aarch64-linux", "wasm"
FILES = {AARCH64: "dgt_replay", WASM: "dgt_replay.wasm"}
NATIVE = TOP / "bin" / "dgt_replay"
BY_RATTLE = TOP / "crates" / "dgt_main" / "out" / "dgt_main.by-rattle"  # what `rt ci` builds with Rattle's own compiler
LIBRARY = pathlib.Path("/usr/aarch64-linux-gnu")  # where Debian's cross packages put glibc for aarch64
SEED = 20261126
BY_CHANCE = 2500  # calls, for which Chromium takes ten seconds
ON_AARCH64 = 600  # of all calls, since each takes a twentieth of a second under qemu-user
LARGEST = 1 << 26  # bytes of a capture
PAGE = 1 << 16
NO_TOOLCHAIN = "it needs rt, the toolchain that README names, on PATH"


class Skipped(Exception):
    """What is missing."""


class Wrong(Exception):
    """What differs."""


class Made:
    """What hosts/build has made of the crates that the gate has built, once it is asked for."""

    folder = pathlib.Path(os.environ.get("MADE", ""))
    log: Optional[str] = "MADE is set" if "MADE" in os.environ else None

    @classmethod
    def path(cls, machine: str) -> pathlib.Path:
        if cls.log is None:
            machines = [it for it in FILES if not lacking(it)]
            words = [str(TOP / "hosts" / "build"), str(TOP / "crates"), str(cls.folder), *machines]
            done = subprocess.run(words, stdin=subprocess.DEVNULL, stdout=subprocess.PIPE, stderr=subprocess.STDOUT)
            cls.log = done.stdout.decode(errors="replace")
        made = cls.folder / machine / FILES[machine]
        if not made.exists():
            raise Wrong(f"hosts/build has made no {made.name} for {machine}: {cls.log}")
        return made


def lacking(machine: str) -> str:
    """What hosts/build lacks for a machine; empty where all is there."""
    if not shutil.which("rt"):
        return NO_TOOLCHAIN
    return outside.lacks("libc6-dev-arm64-cross", "libgcc-12-dev-arm64-cross") if machine == AARCH64 else ""


def compare(machine: str) -> None:
    """What stands in bin is what the gate has built, and its sources are those that stand here."""
    if lacking(machine):
        raise Skipped(lacking(machine))
    kept = TOP / "bin" / machine
    digest = subprocess.run([TOP / "bin" / "digest", machine], stdout=subprocess.PIPE, check=True).stdout
    if digest != (kept / "sources").read_bytes():
        raise Wrong(f"the sources have changed since bin/{machine} was built: run bin/renew, and commit what it changes")
    made = Made.path(machine)
    if made.read_bytes() != (kept / made.name).read_bytes():
        by, here = [(folder / "toolchain").read_text().strip() for folder in (kept, made.parent)]
        named = f", built by\n{by}\nand here is\n{here}\n" if by != here else ""
        raise Wrong(f"bin/{machine}/{made.name} is not what its sources give{named}: run bin/renew, and commit what it changes")


def aarch64_is_the_gates() -> None:
    compare(AARCH64)


def module_is_the_gates() -> None:
    compare(WASM)


def page_is_packed() -> None:
    """bin/recorder.html is what bin/pack makes of the module and of the page's sources as they stand."""
    with tempfile.TemporaryDirectory() as folder:
        made = pathlib.Path(folder) / "recorder.html"
        subprocess.run([TOP / "bin" / "pack", made], check=True)
        if made.read_bytes() != (TOP / "bin" / "recorder.html").read_bytes():
            raise Wrong("bin/recorder.html is not what its sources give: run bin/pack, and commit what it changes")


def renew_looks_first() -> None:
    """Without one of Debian's packages for aarch64, bin/renew says which to install, before it builds or changes anything."""
    with tempfile.TemporaryDirectory() as folder:
        top = pathlib.Path(folder)
        for name in ("bin", "hosts"):
            (top / name).mkdir()
        shutil.copy(TOP / "bin" / "renew", top / "bin")
        build = (TOP / "hosts" / "build").read_text()
        (top / "hosts" / "build").write_text(build.replace('"/usr/lib/gcc-cross/aarch64-linux-gnu/12"', repr(f"{top}/none")))
        before = sorted(top.rglob("*"))
        done = subprocess.run([top / "bin" / "renew"], stdout=subprocess.PIPE, stderr=subprocess.STDOUT, check=False)
        said = done.stdout.decode(errors="replace")
        words = said.rstrip().partition("sudo apt-get install ")[2].split()  # with the other package where that is missing here too
        if done.returncode != 1 or words[-1:] != ["libgcc-12-dev-arm64-cross"]:
            raise Wrong(f"it ends with status {done.returncode}, and says {said!r}")
        if sorted(top.rglob("*")) != before:
            raise Wrong("it has changed something")


def program_of(machine: str) -> pathlib.Path:
    """What the gate has made, or what stands in bin where it can make nothing."""
    return TOP / "bin" / machine / FILES[machine] if lacking(machine) else Made.path(machine)


def emulated() -> List[str]:
    """The words that start the program for aarch64."""
    if missing := outside.lacks("qemu-user", "libc6-dev-arm64-cross"):
        raise Skipped(missing)
    return ["qemu-aarch64", "-L", str(LIBRARY), str(program_of(AARCH64))]


def each(program: Sequence[str], calls: Sequence[Call]) -> List[Answer]:
    """What a program answers to calls, as many at once as there are processors."""
    with ThreadPoolExecutor(len(os.sched_getaffinity(0))) as pool:
        return list(pool.map(functools.partial(answer, program), calls))


@functools.lru_cache(maxsize=None)
def calls_by_chance() -> Sequence[Call]:
    """The samples, the captures worked by hand, and calls by chance."""
    return (*of_files(), *by_chance(SEED, BY_CHANCE))


@functools.lru_cache(maxsize=None)
def wanted(calls: Sequence[Call]) -> Sequence[Answer]:
    """What the program for x86-64 answers."""
    native = subprocess.run([TOP / "bin" / "program"], stdout=subprocess.PIPE, check=True).stdout.decode().strip()
    return each([native], calls)


def same(calls: Sequence[Call], got: Sequence[Answer]) -> None:
    """These are the first answers of the program for x86-64 to these calls."""
    for call, here, there in zip(calls, wanted(tuple(calls)), got):
        if here != there:
            told = f"{call.words} of {len(call.read())} bytes, {call.input[:40]!r}"
            raise Wrong(f"{told}:\n  got {there}\n  wanted {here}")
    statuses = sorted({str(it.status) for it in got})
    print(f"  {len(got)} calls, statuses {' '.join(statuses)}")


def compilers_agree() -> None:
    """The program that Rattle's own compiler makes answers as the one that LLVM makes: samples, captures worked by hand, calls by chance."""
    if not shutil.which("rt"):
        raise Skipped(NO_TOOLCHAIN)
    if not BY_RATTLE.exists():
        raise Wrong(f"{BY_RATTLE.relative_to(TOP)} isn't there: see what rt ci said")
    with tempfile.TemporaryDirectory() as folder:
        program = shutil.copy(BY_RATTLE, pathlib.Path(folder) / NATIVE.name)  # its own name stands in what it prints
        same(calls_by_chance(), each([str(program)], calls_by_chance()))


def aarch64_answers_as_x86_64() -> None:
    """Samples, captures worked by hand, and calls by chance."""
    program = emulated()
    same(calls_by_chance(), each(program, calls_by_chance()[:ON_AARCH64]))


def aarch64_fails_as_x86_64() -> None:
    """A full output, a folder as input, an output that nobody reads."""
    for program in ([str(NATIVE)], emulated()):
        words = [*program, "show"]
        with open("/dev/full", "wb") as full, open(TOP / "samples" / "short-game.dgt", "rb") as sample:
            done = subprocess.run(words, stdin=sample, stdout=full, stderr=subprocess.PIPE)
        expect("a full output", (done.returncode, done.stderr), (3, b"write fault\n"))
        folder = os.open(TOP, os.O_RDONLY)
        done = subprocess.run(words, stdin=folder, stdout=subprocess.DEVNULL, stderr=subprocess.PIPE)
        os.close(folder)
        expect("a folder", (done.returncode, done.stderr), (3, b"read fault\n"))
        reader, writer = os.pipe()
        os.close(reader)
        done = subprocess.run(words, input=captures()[0], stdout=writer, stderr=subprocess.PIPE)
        os.close(writer)
        expect("a closed pipe", (done.returncode, done.stderr), (3, b"write fault\n"))


def expect(name: str, got: object, wanted: object) -> None:
    if got != wanted:
        raise Wrong(f"{name}: got {got!r}, wanted {wanted!r}")


def page() -> Page:
    if missing := outside.lacks("chromium"):
        raise Skipped(missing)
    return Page(program_of(WASM))


def module_answers_as_x86_64() -> None:
    """Samples, captures worked by hand, and calls by chance."""
    with page() as browser:
        same(calls_by_chance(), [it for it, _ in browser.answers(calls_by_chance())])


def module_takes_the_largest() -> None:
    """A capture of 64 MiB, and one byte more, which is refused."""
    sample = (TOP / "samples" / "long-game.dgt").read_bytes()
    calls = [Call(("record",), sample, LARGEST), Call(("record",), sample, LARGEST + 1)]
    with page() as browser:
        got = browser.answers(calls)
    same(calls, [it for it, _ in got])
    print(f"  {got[0][1]:.2f} s for 64 MiB")


def module_runs_out_of_memory() -> None:
    """With each bound of its memory up to what suffices: status 4, or all; never a trap, and the page goes on."""
    sample = (TOP / "samples" / "long-game.dgt").read_bytes()
    whole = [Call((word,), sample) for word in ("record", "follow", "recover")]
    few = [Call(call.words, call.input, None, pages * PAGE) for call in whole for pages in range(0, 48)]
    with page() as browser:
        full = {call.words: it for call, (it, _) in zip(whole, browser.answers(whole))}
        got = [it for it, _ in browser.answers(few)]
        same(whole, [it for it, _ in browser.answers(whole)])
    for call, it in zip(few, got):
        if it != full[call.words] and it.status != 4:
            raise Wrong(f"{call.words} with {call.most} bytes of memory: {it}")
    expect("some run out, and some don't", {it.status for it in got}, {0, 4})


def an_evening(chance: random.Random, sample: bytes) -> List[bytes]:
    """What a host tells of a game that a board sends, and last what is no entry."""
    parts = [b"0 begin 0\n", b"0 opened\n"]
    at = now = 0
    while at < len(sample):
        read = sample[at : at + chance.randrange(1, 90)]
        now += chance.choice((3, 90, 700))
        parts += [b"%d wake\n" % now] if chance.random() < 0.3 else []
        parts.append(b"%d heard %d\n%b" % (now, len(read), read))
        at += len(read)
    return [*parts, b"what\n"]


def module_goes_on_as_x86_64() -> None:
    """`live` is told a game by parts, and waits for each: with moves that are recovered, and without. `record` reads one in parts, up to
    its end."""
    chance = random.Random(SEED)
    sample = (TOP / "samples" / "long-game.dgt").read_bytes()
    with page() as browser:
        for words in (("live",), ("live", "--recover"), ("live", "--rotated", "--first=black")):
            evening = an_evening(chance, sample)
            cuts = [b"".join(evening[at : at + 3]) for at in range(0, len(evening), 3)]
            same([Call(words, b"".join(evening))], [browser.goes_on(words, cuts)])
        cuts = [sample[at : at + 100] for at in range(0, len(sample), 100)]
        same([Call(("record",), sample)], [browser.goes_on(("record",), cuts)])


def module_has_processes() -> None:
    """A browser has room for the boards of a round at least, and has it again when they have ended."""
    with page() as browser:
        found = browser.many()
    print(f"  {found}")
    expect("room for 48 boards and short calls, and again", (found["most"] >= 56, found["again"]), (True, True))
    expect("those that were ended", found["killed"], found["most"])


class Halves(ctypes.Structure):
    """A number of 128 bits, which x86-64 passes and returns as these two."""

    _fields_ = [("low", ctypes.c_uint64), ("high", ctypes.c_uint64)]


def halves(number: int) -> Halves:
    return Halves(number % 2**64, number >> 64)


def whole(number: Halves) -> int:
    return int(number.high) << 64 | int(number.low)


def library_of(source: pathlib.Path, folder: pathlib.Path) -> ctypes.CDLL:
    """A C file, compiled for this machine."""
    told = subprocess.run(["rt", "doc"], stdout=subprocess.PIPE, check=True).stdout.decode().strip()
    clang = pathlib.Path(told).parent / "toolchain" / "bin" / "clang"
    made = folder / source.stem
    subprocess.run([clang, "-O2", "-fPIC", "-c", "-o", f"{made}.o", source], check=True)
    subprocess.run([clang.with_name("ld.lld"), "-shared", "-o", f"{made}.so", f"{made}.o"], check=True)
    return ctypes.CDLL(f"{made}.so")


def products_and_shifts() -> None:
    """hosts/int128.c computes as Python does."""
    if not shutil.which("rt"):
        raise Skipped(NO_TOOLCHAIN)
    with tempfile.TemporaryDirectory() as folder:
        library = library_of(TOP / "hosts" / "int128.c", pathlib.Path(folder))
    multiply, left, right = (getattr(library, name) for name in ("__multi3", "__ashlti3", "__lshrti3"))
    multiply.argtypes = [Halves, Halves]
    left.argtypes = right.argtypes = [Halves, ctypes.c_int]
    multiply.restype = left.restype = right.restype = Halves
    chance = random.Random(SEED)
    edges = [0, 1, 2**32 - 1, 2**32, 2**64 - 1, 2**64, 2**127, 2**128 - 1]
    numbers = edges + [chance.getrandbits(chance.randrange(1, 129)) for _ in range(40)]
    for a in numbers:
        for b in numbers:
            expect(f"{a} * {b}", whole(multiply(halves(a), halves(b))), a * b % 2**128)
        for count in range(128):
            expect(f"{a} << {count}", whole(left(halves(a), count)), (a << count) % 2**128)
            expect(f"{a} >> {count}", whole(right(halves(a), count)), a >> count)
