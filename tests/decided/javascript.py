"""A module in JavaScript, in tokens: as far as the cases of the catalogue need to read one."""

import re
from typing import FrozenSet, Iterator, List, NamedTuple, Tuple

TOKEN = re.compile(
    r"""(?P<blank>\s+|//[^\n]*|/\*.*?\*/)
      | (?P<name>[\w$]+)
      | (?P<text>'(?:[^'\\\n]|\\.)*'|"(?:[^"\\\n]|\\.)*")
      | (?P<pattern>/(?:[^/\\\[\n]|\\.|\[(?:[^\]\\\n]|\\.)*\])+/[a-z]*)
      | (?P<sign>\.\.\.|.)""",
    re.VERBOSE | re.DOTALL,
)
NO_PATTERN = re.compile(TOKEN.pattern.replace("(?P<pattern>/", "(?P<pattern>(?!)/"), TOKEN.flags)
OPENS, CLOSES = "([{", ")]}"
OPERATORS = ("return", "typeof", "case", "in", "of", "do", "else", "await", "yield", "throw", "new", "delete", "void")


class Token(NamedTuple):
    """A name, a text, a pattern or a sign. In a text `{}` stands for what is put in; the code of that follows in parentheses."""

    kind: str
    text: str
    line: int


def tokens(code: str) -> List[Token]:
    """The tokens of a module."""
    found: List[Token] = []
    assert _read(code, 0, found, "") == len(code)
    return found


def _read(code: str, at: int, found: List[Token], ends: str) -> int:
    """Adds the tokens up to this sign, which closes what was open. Returns where they end."""
    depth = 0
    while at < len(code):
        line = code.count("\n", 0, at) + 1
        if code[at] == "`":
            at = _read_template(code, at, found, line)
            continue
        match = (TOKEN if _begins_value(found) else NO_PATTERN).match(code, at)
        assert match, f"line {line}"
        kind, text, at = str(match.lastgroup), match[0], match.end()
        if kind == "sign" and text == ends and depth == 0:
            return at
        depth += (text in OPENS) - (text in CLOSES) if kind == "sign" else 0
        if kind != "blank":
            found.append(Token(kind, _unescaped(text[1:-1]) if kind == "text" else text, line))
    assert not ends, f"no {ends} at the end"
    return at


def _read_template(code: str, at: int, found: List[Token], line: int) -> int:
    """Adds the text of a template, and the code in it behind that. Returns where it ends."""
    text, inside = "", []
    at += 1
    while code[at] != "`":
        if code.startswith("${", at):
            part: List[Token] = []
            at = _read(code, at + 2, part, "}")
            inside += [Token("sign", "(", line), *part, Token("sign", ")", line)]
            text += "{}"
        else:
            size = 2 if code[at] == "\\" else 1
            text += _unescaped(code[at : at + size])
            at += size
    found += [Token("text", text, line), *inside]
    return at + 1


def _unescaped(text: str) -> str:
    return re.sub(r"\\(.)", r"\1", text, flags=re.DOTALL)


def _begins_value(found: List[Token]) -> bool:
    """Whether a value may begin here: then a stroke begins a pattern, and else it divides."""
    if not found:
        return True
    kind, text, _ = found[-1]
    return text in OPERATORS if kind == "name" else kind == "sign" and text not in (")", "]", "}")


def calls(found: List[Token], names: Tuple[str, ...]) -> Iterator[Tuple[str, int, List[List[Token]]]]:
    """The calls of these functions: the name, the line, and the arguments."""
    for at, (kind, name, line) in enumerate(found[:-1]):
        before = found[at - 1].text if at else ""
        if kind == "name" and name in names and found[at + 1].text == "(" and before not in (".", "function"):
            yield name, line, _parts(found, at + 1)


def _parts(found: List[Token], at: int) -> List[List[Token]]:
    """What is between the sign here and the one that closes it, divided at commas."""
    parts: List[List[Token]] = [[]]
    depth = 0
    for token in found[at:]:
        is_sign = token.kind == "sign"
        depth -= is_sign and token.text in CLOSES
        if depth == 0 and is_sign and token.text in CLOSES:
            break
        if depth == 1 and is_sign and token.text == ",":
            parts.append([])
        elif depth > 0:
            parts[-1].append(token)
        depth += is_sign and token.text in OPENS
    return [part for part in parts if part]


def fields(argument: List[Token]) -> FrozenSet[str]:
    """The names of the fields of an object that is written here. What can't be seen here is `**`."""
    is_object = argument[0].text == "{"
    return frozenset("**" if part[0].text == "..." else part[0].text for part in _parts(argument, 0)) if is_object else frozenset({"**"})
