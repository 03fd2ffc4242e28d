"""What a file of times has after what a recorder was told, and what it answered: `events_after` of crates/live_lines/specs/Kept.antt, said
once more. A host is beside it that keeps such a file. Pure.

What is told has one line, with its time; behind it stands one for the bytes that the game gets by the answer, with the same time. What
the board sends has no line of its own.
"""

import re
from typing import Iterator, List, Optional, Sequence, Tuple

from attending.answers import Answer, Entry

Event = Tuple[int, str, Optional[int]]  # when, in milliseconds since its call began; the word; its number
WITH_BYTES = ("heard", "added", "brought", "number", "kept", "capture")  # words whose number says how many bytes stand behind the line
WITHOUT_LINE = ("kept", "capture", "number", "lent", "wake", "text")  # these aren't events
LINE = re.compile(rb"([0-9]+) ([a-z]+)(?: ([0-9]+))?\n")


def entries_of(text: bytes) -> Iterator[Entry]:
    """What a host has written: the entries that are whole."""
    at = 0
    while found := LINE.match(text, at):
        when, word, number = int(found.group(1)), found.group(2).decode(), found.group(3)
        count = None if number is None else int(number)
        at = found.end() + (count or 0 if word in WITH_BYTES else 0)
        if at > len(text):
            return
        yield Entry(when, word, count, text[found.end() : at])


def line_of(entry: Entry) -> List[Event]:
    """The line of what is told."""
    if entry.word in WITHOUT_LINE or entry.word == "heard":
        return []
    return [(entry.at, entry.word, entry.number)]


def heard_line(at: int, kept: bytes) -> List[Event]:
    """That of the bytes that the game gets."""
    return [(at, "heard", len(kept))] if kept else []


def events_after(before: Sequence[Event], told: Sequence[Entry], said: Sequence[Answer]) -> List[Event]:
    """The events after a call, if the file had these before. Whoever reads no answer any more has got no bytes."""
    events = list(before)
    for entry, answer in zip(told, [*said, *[Answer()] * (len(told) - len(said))]):
        events += [*line_of(entry), *heard_line(entry.at, answer.kept)]
    return events


def events_in(times: bytes) -> List[Event]:
    """The events in a file of times, of its heading and whole lines. A request to the board only names a time."""
    lines = [line.split(" ") for line in times.decode().splitlines()[2:]]
    return [(int(at), word, int(number[0]) if number else None) for at, word, *number in lines if word != "asked"]
