"""Checks of a crate whose sources were changed, over the libraries that were built of the others."""

import pathlib
import shutil
import subprocess
import tempfile
from typing import Dict, List, Sequence

KIT = pathlib.Path(shutil.which("rt") or "rt").resolve().parent.parent


def crates_of(text: str) -> Dict[str, List[str]]:
    """What each crate uses, from crates.txt, in the order of its lines."""
    lines = (line.partition("#")[0].partition(":") for line in text.split("\n"))
    return {name.strip(): uses.split() for name, colon, uses in lines if colon}


def below(crates: Dict[str, List[str]], name: str) -> List[str]:
    """The repository's crates on which this one stands."""
    found: List[str] = []
    for it in crates[name]:
        if it in crates:
            found += [one for one in [*below(crates, it), it] if one not in found]
    return found


def library(crates: pathlib.Path, name: str) -> pathlib.Path:
    """Where the library of a crate is built."""
    return crates / name / "out" / "rlib" / f"{name}.rlib"


def is_built(crates: pathlib.Path, uses: Dict[str, List[str]], name: str) -> bool:
    """Whether the library of a crate is there, and no source of it or of those below is newer."""
    built = library(crates, name)
    folders = [crates / it / part for it in [name, *below(uses, name)] for part in ("src", "specs", "proofs")]
    newest = max((file.stat().st_mtime for folder in folders for file in folder.rglob("*.*")), default=0.0)
    return built.is_dir() and newest <= built.stat().st_mtime


def words(
    top: pathlib.Path, crates: Dict[str, List[str]], name: str, only: Sequence[str], kept: pathlib.Path, *, has_holes: bool = False
) -> List[str]:
    """The words of a check of this crate, in its folder or a copy of it: whole, or only these functions; past holes, if it has any."""
    root = "src/main.rt" if (top / "crates" / name / "src" / "main.rt").is_file() else "src/lib.rt"
    said = [str(KIT / "bin" / "rattle"), "check", "--crate-name", name, root]
    own = [it for it in crates[name] if it in crates]
    for it in ["std", *(it for it in crates[name] if it not in crates)]:
        said += ["--extern", f"{it}={KIT}/rlibs/{it}.rlib"]
    said += ["-L", f"dependency={KIT}/rlibs"]
    for it in own:
        said += ["--extern", f"{it}={library(top / 'crates', it)}"]
    for it in below(crates, name):
        said += ["-L", f"dependency={library(top / 'crates', it).parent}"]
    said += ["--antt-project", f"{KIT}/rattle/logic/antt-project.json", "--logic-built", f"{KIT}/logic_built"]
    said += ["--jobs", "1", "--links", f"{name}=", "--incremental", str(kept)]
    for function in only:
        said += ["--only", function]
    if has_holes:
        said.append("--allow-holes")
    return said


def check(command: Sequence[str], texts: Dict[str, str]) -> str:
    """What a check says of a crate with these sources."""
    with tempfile.TemporaryDirectory() as room:
        for path, text in texts.items():
            file = pathlib.Path(room) / path
            file.parent.mkdir(parents=True, exist_ok=True)
            file.write_text(text)
        ran = subprocess.run(command, cwd=room, stdin=subprocess.DEVNULL, stdout=subprocess.PIPE, stderr=subprocess.STDOUT)
        return ran.stdout.decode(errors="replace")
