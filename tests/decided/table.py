"""A table of cases: each has a name, what is seen, and what is expected."""

import traceback
from typing import Callable, Dict, Sequence, Type

import outside

counts: Dict[str, int] = {"passed": 0, "failed": 0}


def same(name: str, seen: object, expected: object) -> None:
    """Counts a case, and says what was seen where it isn't what was expected."""
    if seen == expected:
        counts["passed"] += 1
    else:
        counts["failed"] += 1
        print(f"FAILED {name}\n  seen     {seen!r}\n  expected {expected!r}")


def refused(name: str, error: Type[Exception], call: Callable[..., object], *arguments: object) -> str:
    """Counts a case whose call must raise the error, and gives what it says."""
    try:
        seen = call(*arguments)
    except error as refusal:
        counts["passed"] += 1
        return str(refusal)
    counts["failed"] += 1
    print(f"FAILED {name}\n  seen     {seen!r}\n  expected {error.__name__}")
    return ""


def accepted(name: str, call: Callable[..., None], *arguments: object) -> None:
    """Counts a case whose call checks something, and must raise nothing."""
    try:
        call(*arguments)
        counts["passed"] += 1
    except Exception as refusal:
        counts["failed"] += 1
        print(f"FAILED {name}\n  refused  {refusal!r}")


def skip(name: str, why: str) -> None:
    """Counts a case that can't be played here, and says why."""
    kind = "failed" if outside.no_skips() else "skipped"
    counts[kind] = counts.get(kind, 0) + 1
    print(outside.skip_line(name, why))


def run(tables: Sequence[Callable[[], None]]) -> int:
    """Runs the tables, and prints the line that counts them. The status of the script."""
    for table in tables:
        before = dict(counts)
        try:
            table()
        except Exception:
            counts["failed"] += 1
            traceback.print_exc()
        passed, failed = (counts[key] - before[key] for key in ("passed", "failed"))
        print(f"{table.__module__.split('.')[-1]}.{table.__name__}: {passed} passed, {failed} failed")
    skipped = f", {counts['skipped']} skipped" if counts.get("skipped") else ""
    print(f"{counts['passed']} passed, {counts['failed']} failed{skipped}")
    return 1 if counts["failed"] else 0
