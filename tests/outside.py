#!/usr/bin/env python3
"""The outside tools that tests use, as tests/tools.txt lists them: where each is, which are missing, how to get them.

    tests/outside.py                  says which are missing and how to get them
    tests/outside.py install [NAME]   installs with apt-get what is missing, all or the package NAME; status 1 where it can't
    tests/outside.py path NAME        the path of the package's command; status 1 where it is missing

Where NO_SKIPS is set, as .ci/run sets it, a test fails that would be skipped for want of a tool.
"""

import dataclasses
import os
import pathlib
import shutil
import subprocess
import sys
import time
from typing import List, Optional, Sequence, Tuple

LIST = pathlib.Path(__file__).resolve().with_name("tools.txt")
GAMES = "/usr/games"  # where Debian puts chess programs, and PATH often has it not
APT_SECONDS = 900  # that one call of apt-get may take
PAUSE = float(os.environ.get("APT_PAUSE", "10"))  # seconds before the second try


@dataclasses.dataclass(frozen=True)
class Tool:
    """A line of the list: the package, the commands or files of which one must be there, the test and its cases that need it."""

    package: str
    commands: Tuple[str, ...]
    test: str
    cases: Tuple[str, ...]

    def path(self) -> Optional[str]:
        """Where the tool is; None where it is missing."""
        places = os.pathsep.join([os.environ.get("PATH", os.defpath), GAMES])
        files = [name for name in self.commands if name.startswith("/") and os.path.exists(name)]
        return next((path for name in self.commands for path in [shutil.which(name, path=places)] if path), files[0] if files else None)


def read(text: str) -> List[Tool]:
    """The tools of a list. A line that starts with '#' is a comment."""
    lines = [line.split() for line in text.splitlines() if line.strip() and not line.startswith("#")]
    return [Tool(package, tuple(commands.split(",")), test, tuple(cases)) for package, commands, test, *cases in lines]


def tools(package: str = "") -> List[Tool]:
    """The listed tools, all or those of a package."""
    found = [tool for tool in read(LIST.read_text()) if package in ("", tool.package)]
    if not found:
        raise LookupError(f"{LIST.name} doesn't list {package}")
    return found


def path_of(package: str) -> Optional[str]:
    """Where the package's command is; None where it is missing."""
    return tools(package)[0].path()


def lacks(*packages: str) -> str:
    """What is missing of these packages, and how to get it; empty where all are there."""
    missing = [package for package in packages if path_of(package) is None]
    return f"there is no {' and no '.join(missing)} here: {how_to_get(missing)}" if missing else ""


def how_to_get(packages: Sequence[str]) -> str:
    return f"apt-get install {' '.join(packages)}"


def no_skips() -> bool:
    """Whether a test fails that would be skipped."""
    return bool(os.environ.get("NO_SKIPS"))


def skip_line(name: str, why: str) -> str:
    """The line that says that a case isn't played, and why. tests/run repeats it at its end."""
    return f"{'FAILED, as NO_SKIPS is set:' if no_skips() else 'SKIPPED'} {name}: {why}"


def missing_packages(wanted: Sequence[Tool]) -> List[str]:
    """The packages of the tools that are missing, each once."""
    return list(dict.fromkeys(tool.package for tool in wanted if tool.path() is None))


def report(wanted: Sequence[Tool]) -> str:
    """Which tools are missing, which cases need them, and how to get them; empty where all are there."""
    missing = [tool for tool in wanted if tool.path() is None]
    lines = [f"there is no {tool.package}, which {tool.test} needs for {', '.join(tool.cases)}" for tool in missing]
    if missing:
        lines.append(f"Debian and Ubuntu have what is missing: {how_to_get(missing_packages(missing))}")
    return "\n".join(lines)


def obstacle(user: int, apt_get: Optional[str]) -> str:
    """Why this user can't install here; empty where he can."""
    if apt_get is None:
        return "there is no apt-get here"
    return "" if user == 0 else "only root may install them"


def call_apt(*words: str) -> str:
    """Calls apt-get without questions; what it prints."""
    called = ["apt-get", "-q", "-y", "-o", "DPkg::Lock::Timeout=600", *words]
    try:
        done = subprocess.run(
            called,
            stdin=subprocess.DEVNULL,
            stdout=subprocess.PIPE,
            stderr=subprocess.STDOUT,
            timeout=APT_SECONDS,
            env={**os.environ, "DEBIAN_FRONTEND": "noninteractive"},
        )
    except subprocess.TimeoutExpired:
        return f"apt-get {words[0]} took more than {APT_SECONDS} s"
    return done.stdout.decode(errors="replace")


def install(wanted: Sequence[Tool]) -> str:
    """Installs what is missing, and tries once more where that fails. Says why some tool is still missing; else empty."""
    packages = missing_packages(wanted)
    if not packages:
        return ""
    if found := obstacle(os.geteuid(), shutil.which("apt-get")):
        return f"{report(wanted)}\nThey aren't installed: {found}"
    print(f"installing {' '.join(packages)}", flush=True)
    said = ""
    for attempt in range(2):
        time.sleep(PAUSE * attempt)
        said = call_apt("update") + call_apt("--no-install-recommends", "install", *packages)
        if not missing_packages(wanted):
            return ""
    last = "\n".join(f"  {line}" for line in said.splitlines()[-5:])
    return f"{report(wanted)}\nThey aren't installed: apt-get failed twice. Is the network away? It said last:\n{last}"


def main(arguments: Sequence[str]) -> int:
    """As the head of this file says."""
    verb, name = [*arguments, "", ""][:2]
    if verb not in ("", "install", "path") or len(arguments) > 2 or (verb == "path" and not name):
        print(__doc__, file=sys.stderr)
        return 2
    try:
        wanted = tools(name)
    except LookupError as error:
        print(error.args[0], file=sys.stderr)
        return 2
    if verb == "path":
        print(wanted[0].path() or report(wanted[:1]), file=sys.stdout if wanted[0].path() else sys.stderr)
        return 0 if wanted[0].path() else 1
    said = install(wanted) if verb == "install" else report(wanted)
    if said or not verb:
        print(said or "no outside tool is missing")
    return 1 if said and verb == "install" else 0


if __name__ == "__main__":
    sys.exit(main(sys.argv[1:]))
