"""What the cases in a browser share."""

import functools
import pathlib
from typing import Callable

import outside
from played.stage import Skipped

Case = Callable[[pathlib.Path], None]


def with_chromium(case: Case) -> Case:
    """The case, which is skipped if there is no Chromium."""

    @functools.wraps(case)
    def played(folder: pathlib.Path) -> None:
        if lacking := outside.lacks("chromium"):
            raise Skipped(lacking)
        case(folder)

    return played
