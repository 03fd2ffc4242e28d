"""What bin/package makes: Debian packages, and the archive for aarch64, played with its program under qemu-user. tests/live
plays the archive for x86-64."""

from __future__ import annotations

import os
import pathlib
import re
import shutil
import subprocess
import tarfile
from typing import List

import outside
from played import TOP
from played.kept_bytecode import digests, kept_in, says
from played.recorder import Live
from played.stage import PROGRAM, RUY, RUY_TEXT, Skipped, a_board, begun, same, stop, until_game
from rounds.hall import Hall, text

LIBRARY = pathlib.Path("/usr/aarch64-linux-gnu")  # where Debian's cross packages put glibc for aarch64
SAMPLE = TOP / "samples" / "short-game"


def needs(*packages: str) -> None:
    if missing := outside.lacks(*packages):
        raise Skipped(missing)


def made(*endings: str) -> List[pathlib.Path]:
    """The files of these endings that bin/package makes."""
    answer = subprocess.run([TOP / "bin" / "package"], stdout=subprocess.PIPE, stderr=subprocess.PIPE)
    same((answer.returncode, answer.stderr), (0, b""))
    names = answer.stdout.decode().splitlines()
    return [TOP / name for ending in endings for name in names if name.endswith(ending)]


def files_below(folder: pathlib.Path) -> "set[pathlib.Path]":
    return {path.relative_to(folder) for path in folder.rglob("*") if path.is_file() and path.suffix != ".pyc"}


def is_whole(package: pathlib.Path, root: pathlib.Path) -> None:
    """The package has the commands, their pages, all of live/ and shared/, and the sample."""
    subprocess.run(["dpkg-deb", "--extract", package, root], check=True)
    for command in ("dgt_live", "dgt_round", "dgt_replay"):
        assert os.access(root / "usr" / "bin" / command, os.X_OK), command
        assert (root / "usr" / "share" / "man" / "man1" / f"{command}.1.gz").exists(), command
        completion = root / "usr" / "share" / "bash-completion" / "completions" / command
        same(completion.read_bytes(), (TOP / "bin" / "completion.bash").read_bytes())
    for folder in ("live", "shared"):
        same(files_below(root / "usr" / "lib" / "dgt_replay" / folder), files_below(TOP / folder))
    sample = root / "usr" / "share" / "doc" / "dgt-replay" / "examples" / "short-game.dgt"
    same(sample.read_bytes(), SAMPLE.with_suffix(".dgt").read_bytes())
    assert os.access(sample.with_name("play_board.py"), os.X_OK)
    same((root / "usr" / "share" / "dgt-replay" / "recorder.html").read_bytes(), (TOP / "bin" / "recorder.html").read_bytes())


def compiles_and_cleans(package: pathlib.Path, folder: pathlib.Path) -> None:
    """What the package has done when it is installed, and before it is removed or replaced."""
    subprocess.run(["dpkg-deb", "--control", package, folder / "control"], check=True)
    (folder / "stubs").mkdir()
    for script, words, command, given in (
        ("postinst", ["configure"], "py3compile", "-p dgt-replay /usr/lib/dgt_replay"),
        ("prerm", ["upgrade", "1"], "py3clean", "-p dgt-replay"),
    ):
        stub = folder / "stubs" / command
        stub.write_text(f"#!/bin/sh\necho $@ > {folder}/{command}\n")
        stub.chmod(0o755)
        path = f"{folder}/stubs:{os.environ['PATH']}"
        subprocess.run([folder / "control" / script, *words], env={**os.environ, "PATH": path}, check=True)
        same((folder / command).read_text(), f"{given}\n")


def bytecode_in_archives(folder: pathlib.Path) -> None:
    """An archive has bytecode of each module, with the digest of its source; it is neither made anew nor used once the source changes."""
    (packed,) = made("-x86_64-linux.tar.gz")
    with tarfile.open(packed) as archive:
        archive.extractall(folder)
    (unpacked,) = folder.iterdir()
    modules = [str(path.relative_to(unpacked)) for path in (unpacked / "live").rglob("*.py")]
    same(digests(unpacked), dict.fromkeys(modules, True))
    before = {path: path.read_bytes() for path in kept_in(unpacked)}
    said = says(unpacked / "dgt_live")
    door = unpacked / "live" / "doors" / "dgt_live.py"
    door.write_text(door.read_text().replace("Records the DGT board", "Records the ABC board"))
    os.utime(door, (0, 0))
    same(says(unpacked / "dgt_live"), said.replace("the DGT board", "the ABC board"))
    same({path: path.read_bytes() for path in kept_in(unpacked)}, before)


LINK = re.compile(r"\]\(([^)#:]+)[)#]")
PAGES = ("README.md", "USING.md", "BROWSER.md", "BROADCAST.md", "REFERENCE.md")


def reads_well(place: pathlib.Path) -> None:
    """The pages that a user needs are there, each link leads to one of them, and nothing is said of the repository's folders."""
    same([name for name in PAGES if not (place / name).is_file()], [])
    same(sorted(path.name for path in place.glob("*.md")), sorted(PAGES))
    for name in PAGES:
        text = (place / name).read_text()
        same((name, [link for link in LINK.findall(text) if not (place / link).exists()]), (name, []))
        same((name, [part for part in ("](docs/", "bin/dgt", "tools/", "samples/", "FORMATS.md", "..]") if part in text]), (name, []))


def pages_of_the_archive(folder: pathlib.Path) -> None:
    """Where archives for two processors lie, USING's first line unpacks this one's. Its pages are whole, and so are the page that
    records and the program that plays a board."""
    packed = made("-x86_64-linux.tar.gz", "-aarch64-linux.tar.gz")
    for archive in packed:
        shutil.copy(archive, folder)
    recipe = next(line.strip() for line in (TOP / "docs" / "USING.md").read_text().splitlines() if "tar -xzf" in line)
    place = pathlib.Path(subprocess.run(f"{recipe} && pwd", shell=True, cwd=folder, stdout=subprocess.PIPE, check=True).stdout.decode().strip())
    same(place.name.endswith(f"{os.uname().machine}-linux"), True)
    reads_well(place)
    same((place / "recorder.html").read_bytes(), (TOP / "bin" / "recorder.html").read_bytes())
    same(subprocess.run([place / "play_board.py", "--help"], stdout=subprocess.DEVNULL).returncode, 0)
    first, _ = [line.split("#")[0].strip() for line in (place / "README.md").read_text().splitlines() if "short-game" in line or "--devices" in line]
    subprocess.run(first, shell=True, cwd=place, stderr=subprocess.DEVNULL, check=True)
    same((place / "sample.pgn").read_bytes(), SAMPLE.with_suffix(".pgn").read_bytes())


def debian_packages(folder: pathlib.Path) -> None:
    """lintian finds no error in them; each is whole, and has the same bytes each time."""
    needs("dpkg", "lintian")
    endings = ("_amd64.deb", "_arm64.deb")
    before = [package.read_bytes() for package in made(*endings)]
    packages = made(*endings)
    same([package.read_bytes() for package in packages] == before, True)
    answer = subprocess.run(["lintian", "--fail-on", "error", *packages], stdout=subprocess.PIPE, stderr=subprocess.DEVNULL)
    same((answer.returncode, answer.stdout), (0, b""))
    for ending, package in zip(endings, packages):
        is_whole(package, folder / ending)
        compiles_and_cleans(package, folder / ending)
        reads_well(folder / ending / "usr" / "share" / "doc" / "dgt-replay")


def debian_package_played(folder: pathlib.Path) -> None:
    """dgt_live of the package for this machine, from /usr/bin, with no file of the repository."""
    needs("dpkg")
    (package,) = made("_amd64.deb")
    subprocess.run(["dpkg-deb", "--extract", package, folder / "root"], check=True)
    commands = folder / "root" / "usr" / "bin"
    sample = SAMPLE.with_suffix(".dgt").read_bytes()
    answer = subprocess.run([commands / "dgt_replay", "record"], input=sample, capture_output=True)
    same(answer.stdout, SAMPLE.with_suffix(".pgn").read_bytes())
    plays_a_game(folder, commands / "dgt_live")


def emulated(folder: pathlib.Path) -> pathlib.Path:
    """The archive for aarch64, whose program runs under qemu-user."""
    needs("qemu-user", "libc6-dev-arm64-cross")
    (packed,) = made("-aarch64-linux.tar.gz")
    with tarfile.open(packed) as archive:
        archive.extractall(folder / "archive")
    (unpacked,) = (folder / "archive").iterdir()
    program = unpacked / "lib" / "dgt_replay"
    program.rename(unpacked / "lib" / "aarch64")
    program.write_text(f'#!/bin/sh\nexec qemu-aarch64 -L {LIBRARY} {unpacked}/lib/aarch64 "$@"\n')
    program.chmod(0o755)
    return unpacked


def plays_a_game(folder: pathlib.Path, program: pathlib.Path) -> None:
    """A board is played against this dgt_live."""
    place = folder / "played"
    place.mkdir()
    board = a_board(place)
    live = Live(board.device, place / "game", program=program, environment={"PATH": "/usr/bin:/bin"})
    begun(live)
    for move in RUY:
        board.play(move)
    until_game(live.name, RUY_TEXT)
    same(stop(live), 0)


def aarch64_plays_a_board(folder: pathlib.Path) -> None:
    """dgt_live with the program for aarch64."""
    plays_a_game(folder, emulated(folder) / "dgt_live")


def aarch64_plays_a_round(folder: pathlib.Path) -> None:
    """dgt_round with the program for aarch64, over two boards."""
    unpacked = emulated(folder)
    hall = Hall(folder, 2, clocks=(1,))
    live = hall.record(program=unpacked / "dgt_round", environment={"PATH": "/usr/bin:/bin"})
    hall.begun(live)
    hall.play()
    for number in range(2):
        hall.until_text(number + 1, text(number))
    hall.until_round()
    same(stop(live), 0)


def aarch64_has_what_x86_64_has(folder: pathlib.Path) -> None:
    """Both archives have the same files; only the program differs."""
    contents: List["dict[str, bytes]"] = []
    for packed in made("-x86_64-linux.tar.gz", "-aarch64-linux.tar.gz"):
        with tarfile.open(packed) as archive:
            files = {it.name.partition("/")[2]: archive.extractfile(it) for it in archive.getmembers() if it.isfile()}
            contents.append({name: file.read() for name, file in files.items() if file})
    here, there = contents
    same(set(here), set(there))
    same([name for name in here if here[name] != there[name]], ["lib/dgt_replay"])
    native = subprocess.run([PROGRAM.with_name("program")], stdout=subprocess.PIPE, check=True).stdout.decode().strip()
    same(here["lib/dgt_replay"] == pathlib.Path(native).read_bytes(), True)
