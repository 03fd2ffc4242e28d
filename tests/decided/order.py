"""The folders of live/ stand in the order of a byte's way: a module imports from its own folder, and from folders to the left of it."""

import ast
import pathlib
from typing import List

from decided.table import same

LIVE = pathlib.Path(__file__).resolve().parents[2] / "live"
FOLDERS = ("words", "run", "line", "child", "game", "board", "table", "out", "show", "round", "doors")


def folders_of(code: str) -> List[str]:
    """The folders of live/ from which some code imports, wherever in it."""
    names: List[str] = []
    for node in ast.walk(ast.parse(code)):
        if isinstance(node, ast.Import):
            names += [one.name for one in node.names]
        elif isinstance(node, ast.ImportFrom):
            names += [f"{node.module}.{one.name}" for one in node.names]
    return [name.split(".")[1] for name in names if name.startswith("live.")]


def to_the_right(folder: str, code: str) -> List[str]:
    """The folders from which a module of this folder may not import, and does. Another one than those in order is refused too."""
    allowed = FOLDERS[: FOLDERS.index(folder) + 1]
    return sorted({name for name in folders_of(code) if name not in allowed})


def leftwards() -> None:
    """No module imports from a folder to the right of its own."""
    same("the folders", sorted({path.parent.name for path in LIVE.glob("*/*.py")}), sorted(FOLDERS))
    found = []
    for path in sorted(LIVE.glob("*/*.py")):
        right = to_the_right(path.parent.name, path.read_text("utf-8"))
        found += [(f"{path.parent.name}/{path.name}", name) for name in right]
    same("to the right", found, [])


def planted() -> None:
    """A module that imports to the right is refused, whichever way it does."""
    for folder, code, right in (
        ("out", "from live.game.files import Paths\nfrom live.out import shot\nfrom live.words.message import Message\n", []),
        ("out", "from live.show.page import Page\n", ["show"]),
        ("line", "def late():\n    import live.child.program\n    from live import game\n", ["child", "game"]),
        ("board", "from live.round import row\nfrom live.new.part import Part\n", ["new", "round"]),
        ("words", "import os\nimport lively\n", []),
    ):
        same(f"{folder}: {code!r}", to_the_right(folder, code), right)


TABLES = [leftwards, planted]
