"""How a call ends early, or a typed line isn't obeyed, with what to do about it; and how both commands are called, for that."""

from __future__ import annotations

import os
import shlex
import sys
from typing import Tuple

from live.words.message import Complaint, Message, linked

COMMANDS = ("dgt_live", "dgt_round")


def in_front(path: str, places: str) -> str:
    """What to type before the name of a command that was called by this path: nothing if a shell finds it in these places."""
    folder, name = os.path.split(path)
    if name not in COMMANDS or folder in places.split(":"):
        return ""
    return os.path.join(folder or ".", "")


DGT_LIVE, DGT_ROUND = (shlex.quote(in_front(sys.argv[0], os.environ.get("PATH", "")) + name) for name in COMMANDS)

# The statuses of dgt_live.
DONE = 0
REFUSED = 1
ARGUMENTS = 2
FAILED = 3
NO_PROGRAM = 70

JOINERS = "\u200c\u200d"  # they can't be seen, and Persian and Indian scripts need them


def printable(text: str) -> str:
    """Without what a terminal would take as a command, and without what turns the order of letters round. Bytes of a path that are
    no text are printed as such."""
    if text.isprintable():
        return text
    return "".join(letter if letter.isprintable() or "\ud800" <= letter <= "\udfff" or letter in JOINERS else "?" for letter in text)


def recorded_elsewhere(what: str) -> str:
    """The message that another call records this. Ctrl-C in a round would end all its boards."""
    return Message("start.recorded_elsewhere", what=what)


class Refused(Exception):
    """A complaint for standard error, in lines, and its exit status."""

    def __init__(self, status: int, message: str, *more: str) -> None:
        super().__init__(message)
        self.status = status
        self.lines = (message, *more)

    def text(self, command: str) -> str:
        """The text as a command prints it."""
        return "".join(("  " if number else f"{command}: ") + printable(line) + "\n" for number, line in enumerate(self.lines))


class Broken(Refused):
    """A part of the program failed again and again: the recording begins again after a while."""


HELPS = ("help", "?")
BACK, INSTEAD, RECOVERS, UNDO, OK, REOPENS, YES = "back", "instead", "recover", "undo", "ok", "*", "y"  # what messages say is to be typed: takes
# plies off; puts others in their place; puts in what no picture showed; takes back the line before; acknowledges alarms; takes a result off;
# says that it was played as the recorder has asked
NO_TEXT = Message("typed.no_text")
REFUSALS = ("refused.why", "refused.line", "refused.too_long")  # the keys of messages that something isn't done
SHOWN = 60  # characters of a line that an answer shows
Answer = Tuple[int, str]  # a status, and its message


class NotDone(Complaint):
    """What was typed isn't done. The text says why, and what to type."""


class Asked(NotDone):
    """What was typed would remove a lot: it is done if it is typed again."""


class Helped(NotDone):
    """Somebody asks what can be typed."""


def shown(text: str) -> str:
    """The beginning of what was typed, with only what can be printed."""
    return printable(text[:SHOWN])


def reason_of(error: Exception) -> str:
    """The message for an error."""
    if isinstance(error, OSError):
        why = error.strerror or str(error)
        return linked("colon", (os.fsdecode(error.filename), why)) if isinstance(error.filename, (str, bytes)) else why
    if isinstance(error, Refused):
        return error.lines[0]
    return error.message if isinstance(error, NotDone) else f"{type(error).__name__}: {error}"


def refusal(text: str, error: Exception) -> Answer:
    """The answer to what was typed, if that isn't done, or not yet."""
    if isinstance(error, (Asked, Helped)):
        return REFUSED, error.message
    reason = reason_of(error)
    return REFUSED, Message("refused.why", why=reason) if text in reason else Message("refused.line", line=shown(text), why=reason)
