"""The folders of web/ stand in the order of a byte's way: a module imports only from its own, or from those to its left. None is long, and
no class has many fields."""

import pathlib
import re
import tempfile
from typing import Iterator, List

from decided.table import same

WEB = pathlib.Path(__file__).resolve().parents[2] / "web"
FOLDERS = ("run", "line", "child", "game", "kept", "board", "hall", "show")
SHARED = ("message.js", "chess.js")  # what the words need of live/show/page: only show/ may have more
IMPORTED = re.compile(r"^import \{[^}]*\} from '([^']+)';$", re.MULTILINE)
CLASS = re.compile(r"^(?:export )?class (\w+).*?^\}$", re.MULTILINE | re.DOTALL)
CONSTRUCTOR = re.compile(r"^  constructor\(.*?^  \}$", re.MULTILINE | re.DOTALL)
FIELD = re.compile(r"^    this\.(\w+)(?: =|;)", re.MULTILINE)
MOST_LINES, MOST_FIELDS, MOST_MODULES = 500, 12, 45


def modules(web: pathlib.Path) -> List[pathlib.Path]:
    """The modules below a folder."""
    return sorted(web.rglob("*.js"))


def to_the_right(web: pathlib.Path) -> Iterator[str]:
    """The imports that go back: each with its module."""
    for path in modules(web):
        place = FOLDERS.index(path.parent.name)
        for name in IMPORTED.findall(path.read_text("utf-8")):
            source = (path.parent / name).resolve()
            inside = source.is_relative_to(web) and FOLDERS.index(source.parent.name) > place
            beside = source.parent.name == "page" and source.name not in SHARED and place < len(FOLDERS) - 1
            if inside or beside:
                yield f"{path.relative_to(web)} imports {name}"


def crowded(text: str) -> Iterator[str]:
    """The classes of a module that have many fields."""
    for found in CLASS.finditer(text):
        made = CONSTRUCTOR.search(found[0])
        fields = set(FIELD.findall(made[0])) if made else set()
        if len(fields) > MOST_FIELDS:
            yield f"{found[1]} has {len(fields)} fields"


def the_way() -> None:
    """No module of web/ imports from its right; one that does is found."""
    same("its folders", sorted({path.parent.name for path in modules(WEB)}), sorted(FOLDERS))
    same("to the right", list(to_the_right(WEB)), [])
    with tempfile.TemporaryDirectory() as folder:
        web = pathlib.Path(folder).resolve()
        for name in FOLDERS:
            (web / name).mkdir()
        (web / "board" / "one.js").write_text("import { Seat } from '../hall/seat.js';\nimport { isLong } from '../kept/capture.js';\n")
        (web / "game" / "other.js").write_text("import {\n  Large,\n} from '../../live/show/page/large.js';\nimport { x } from './x.js';\n")
        seen = ["board/one.js imports ../hall/seat.js", "game/other.js imports ../../live/show/page/large.js"]
        same("two that are planted", list(to_the_right(web)), seen)


def sizes() -> None:
    """No module is long, there aren't many, and no class knows much."""
    texts = {path.name: path.read_text("utf-8") for path in modules(WEB)}
    same("long ones", [name for name, text in texts.items() if len(text.splitlines()) > MOST_LINES], [])
    same("many", len(texts) > MOST_MODULES, False)
    same("crowded", [one for text in texts.values() for one in crowded(text)], [])
    fields = "".join(f"    this.part{number} = {number};\n" for number in range(MOST_FIELDS + 1))
    same("one that is planted", list(crowded(f"class All {{\n  constructor() {{\n{fields}  }}\n}}\n")), ["All has 13 fields"])


TABLES = [the_way, sizes]
