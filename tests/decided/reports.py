"""Lines of the program's report: what each is, what they come to, and which of many are enough. And the words of options."""

import dataclasses
import json
import random
from typing import Any, Dict, List, Optional, Sequence, Tuple

from live.child.lines import Agrees, Line, Move, Picture, Position, Recovered, Result, by_byte, line_of
from live.game.game import Course, clocks_of, wanted
from live.game.options import Options
from live.line.protocol import SQUARES
from live.run.refused import Refused

from decided.cases import cases
from decided.table import refused, same

START = "rnbqkbnr/pppppppp/8/8/8/8/PPPPPPPP/RNBQKBNR"
NO_KNIGHT = "rnbqkbnr/pppppppp/8/8/8/8/PPPPPPPP/RNBQKB1R"
FAR = "rnbqkbnr/pppppppp/8/8/8/8/8/RNBQKBNR"


def told(line: Optional[Line]) -> Optional[List[Any]]:
    """A line as JSON has it."""
    if line is None:
        return None
    event = {"kind": type(line.event).__name__.lower(), **dataclasses.asdict(line.event)}
    return [line.offset, json.loads(json.dumps(event))]


def a_line(text: str) -> Line:
    """A line that is one."""
    line = line_of(text)
    assert line, text
    return line


def lines() -> None:
    for text, line in cases("reports", "lines"):
        same(text[:60], told(line_of(text)), line)
    for digit, count, rest in cases("reports", "long lines"):
        same(f"{count} times {digit}", line_of(digit * count + rest), None)
    for text, shown in cases("reports", "shown"):
        same(f"{text} as it is shown", getattr(a_line(text).event, "shown"), shown)


def news() -> None:
    """What changes the game is shown, and nothing else; and the lines of a byte stay together."""
    for text, line in cases("reports", "lines"):
        if line is not None:
            changes = isinstance(a_line(text).event, (Move, Result, Recovered))
            same(text[:60], [bool(reported.shown) for reported in by_byte([text])], [changes])
    reports: List[Tuple[str, List[Any]]] = [
        ("", []),
        ("0 position start", [(0, [Position("start")], [])]),
        ("9 picture a\n9 move 1. e4\n12 agrees", [(9, [Picture("a"), Move("1.", "e4")], ["1. e4"]), (12, [Agrees()], [])]),
        ("9 agrees\nrest 5\n9 agrees\n12\n", [(9, [Agrees(), Agrees()], []), (12, [], [])]),
    ]
    for report, expected in reports:
        same(f"{report!r}", by_byte(report.split("\n")), expected)


def course_of(texts: Sequence[str], seconds: float = 1.0) -> Course:
    """The course of a game that begins at the start, of lines that come one after the other."""
    course = Course(START)
    for number, text in enumerate(texts):
        line = line_of(text)
        if line:
            course.take(line, number * seconds)
    return course


OF_LIVE = ("changed at", "stands at start", "has agreed", "stood again")  # of a game's end, which the program says


def looked_at(course: Course) -> Dict[str, object]:
    """What cases look at."""
    return {
        "moves": [ply.san for ply in course.plies],
        "positions": course.fens,
        "result": course.result,
        "standing": [getattr(event, "words") for event in course.standing()],
        "news": [event.words for event in course.news if not isinstance(event, Recovered)],
    }


def courses() -> None:
    """Moves, corrections and results, with the positions behind them."""
    for name, texts, expected in cases("reports", "courses"):
        seen_so = looked_at(course_of(texts))
        for what, value in expected.items():
            if what not in OF_LIVE:
                same(f"{name}: {what}", seen_so[what], value)
    for plies, clocks in cases("reports", "clocks"):
        same(f"the clocks after {len(plies)} plies", list(clocks_of([Move(*ply) for ply in plies])), clocks)


def ends() -> None:
    """What stays of a course if the game has fewer bytes, as the program says of one that was over before."""
    game = ["0 position start w", "70 move 1. e4", "70 position e4 b", "80 move 1... e5", "80 position e5 w", "90 result 1-0", "100 move 2. Nf3",
            "100 position Nf3 b", "100 result *"]  # fmt: skip
    for size, result, stays, gone in ((91, "1-0", ["e4", "e5"], ["Nf3"]), (81, "*", ["e4", "e5"], ["Nf3"]), (80, "*", ["e4"], ["e5", "Nf3"]), (101, "*", ["e4", "e5", "Nf3"], [])):
        course = course_of(game)
        same(f"{size} bytes, gone", [ply.san for ply in course.end(size, result)], gone)
        same(f"{size} bytes", ([ply.san for ply in course.plies], len(course.fens), len(course.ends), course.result), (stays, len(stays) + 1, len(stays), result))


def seen(course: Course) -> object:
    """What the course of a game comes to."""
    return course.shown.placement, course.shown.clock, course.result, course.standing()


def enough() -> None:
    """Of lines in a row that change no game those are taken that a course asks for: it comes to the same."""
    chance = random.Random(7)
    pictures = [START, NO_KNIGHT, FAR]
    squares = [" ".join(chance.sample(SQUARES, count)) for count in (1, 2, 9)]
    fewer = 0
    for trial in range(400):
        begins = ["66 agrees", "70 move 1. e4", "75 move 1... Nc6"] if chance.random() < 0.5 else ["70 move 1. e4"]
        texts, offset = [f"66 picture {START}", *begins], 80
        parts = []
        for _ in range(chance.randrange(1, 5)):
            part, shown = [], pictures[: chance.choice((2, 2, 3))]
            for _ in range(chance.randrange(1, 40)):
                offset += 5
                if chance.random() < 0.3:
                    part.append(f"{offset} clock 0:{offset % 60:02}:00 1:30:00")
                    continue
                part.append(f"{offset} picture {chance.choice(shown)}")
                part.append(f"{offset} {chance.choice(['agrees', f'differs {chance.choice(squares)}'])}")
            if chance.random() < 0.3:
                part.append(f"{offset} move 2. Nf3")
            parts.append(part)
        few = [text for part in parts for text in wanted(part, START)]
        fewer += sum(map(len, parts)) - len(few)
        all_of = course_at([*texts, *(text for part in parts for text in part)])
        same(f"trial {trial}", seen(course_at([*texts, *few])), seen(all_of))
    same("they are fewer", fewer > 4000, True)


def course_at(texts: Sequence[str]) -> Course:
    """As lines of which each comes at the time of its byte."""
    course = Course(START)
    for text in texts:
        line = a_line(text)
        course.take(line, line.offset / 50)
    return course


WORDS = {
    (): (),
    ("--rotated",): ("--rotated",),
    ("--white=Anna", "--first", "black"): ("--first=black", "--white=Anna"),
    ("--fen", "", "--recover"): ("--recover", "--fen="),
    ("--white", "--rotated"): ("--white=--rotated",),
    ("--event=a=b",): ("--event=a=b",),
    ("--recover", "--strict"): ("--strict",),
}
NO_WORDS = [("--rotated", "--rotated"), ("--white", "A", "--white=B"), ("--what",), ("Anna",), ("--white",), ("--rotated=yes",)]


def options() -> None:
    """Words that are read are written so, and are read again."""
    for words, written in WORDS.items():
        read = Options.of_words(words)
        same(f"{words}", read.words(), written)
        same(f"{words}, again", (Options.of_words(read.words()), Options.of_text(read.text())), (read, read))
    for words in NO_WORDS:
        refused(f"{words}", Refused, Options.of_words, words)
    refused("a NUL", Refused, Options.of_text, "--white\nAn\0na\n")


TABLES = [lines, news, courses, ends, enough, options]
