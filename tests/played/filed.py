"""The file of times has what the program was told, with the same times: so a recorder that begins again with it says the same."""

import pathlib
from typing import List, Sequence, Tuple

from attending.answers import Answer, Entry
from attending.filed import Event, events_after, events_in
from play_board import BLACK, KING, field
from played import words
from played.asleep import Clock
from played.boards import Board
from played.recorder import Live, signal_to
from played.stage import a_board, begin_game, begun, bytes_of, ended, kill, rest, same, stop, until, until_dumped, until_game, until_kept, until_line
from played.tapped import Tap
from played.times import accounted

NUMBER = b"01234"


def a_game(folder: pathlib.Path) -> Tuple[Tap, Board, Live]:
    """Two plies on a board that tells its number."""
    tap, board = Tap(folder), a_board(folder)
    board.serial_number = NUMBER
    live = Live(board.device, folder / "game", typed=True, start=tap.start)
    begun(live)
    board.play("e2e4")
    until_game(live.name, "1. e4 *")
    board.play("e7e5")
    until_game(live.name, "1. e4 e5 *")
    return tap, board, live


def told_of(entries: List[Entry], word: str) -> List[Entry]:
    return [entry for entry in entries if entry.word == word]


def is_filed(name: object, calls: List[Tuple[List[Entry], List[Answer]]], before: Sequence[Event] = ()) -> List[Event]:
    """Each child was told the files as they were; what it was told and answered stands behind that in the file of times, which began with the
    events from before, if there were some. Else what a game begins with is of a call before the first one. Returns the events."""
    size = next((entry.number or 0 for entry in calls[0][0] if entry.word == "begin"))
    events: List[Event] = [*before] or ([(0, "begin", size)] if size else [])
    for told, said in calls:
        files = [entry for entry in told if entry.word in ("kept", "capture")]
        same([entry.word for entry in files], ["kept", "capture"] if events else [])
        same(events_in(files[0].sent) if files else [], events)
        events = events_after(events, told, said)
    same(events_in(bytes_of(f"{name}.times")), events)
    accounted(name, bool(before))
    return events


def times_as_told(folder: pathlib.Path) -> None:
    """Moves on the board, a pulled cable, typed moves, alarms that somebody has looked at; then another call, in which what comes is held
    until the board has told its number, and a typed result."""
    tap, board, live = a_game(folder)
    live.type("Nf3 Nc6")
    until_line(live, "added by hand")
    board.pull()
    until_line(live, words.UNPLUGGED)
    board.plug()
    until(lambda: board.asked_for_updates, "a request for updates")
    board.play("g1f3")
    board.play("b8c6")
    until_dumped(board, live.name)
    live.type("ok")
    until_line(live, "acknowledged")
    bishop = board.codes[field("f1")]
    board.lift("f1")
    board.codes[field("b5")] = bishop
    update = board.update(field("b5"))
    for part in (update[:1], update[1:4], update[4:]):  # in three reads
        board.send(part)
        until_kept(live.name, update[: update.index(part) + len(part)], len(bytes_of(f"{live.name}.dgt")) - 8)
    until_game(live.name, "1. e4 e5 2. Nf3 Nc6 3. Bb5 *")
    same(stop(live), 0)
    is_filed(live.name, tap.calls)
    again = Live(board.device, live.name, typed=True, start=tap.start)
    begun(again)
    board.play("a7a6")
    until_game(live.name, "1. e4 e5 2. Nf3 Nc6 3. Bb5 a6 *")
    until_dumped(board, live.name)
    again.type("1-0")
    until_line(again, "is over: its result was given")
    same(ended(again), 0)
    events = is_filed(live.name, tap.calls)
    (_, told), (_, said) = zip(*tap.calls)
    assert any(answer.handling == "hold" for answer in said), "nothing was held"
    same(len(tap.calls), 2)
    same([len([event for event in events if event[1] == word]) for word in ("begin", "added", "ok", "over")], [2, 2, 1, 1])


def times_as_told_anew(folder: pathlib.Path) -> None:
    """Its program is killed twice, the players get names, plies are taken off, and the result that a game had: each time another program
    attends the board, and a call begins for it and in the file."""
    tap, board, live = a_game(folder)
    for move, text in (("g1f3", "2. Nf3"), ("b8c6", "2. Nf3 Nc6")):
        for child in live.children():
            signal_to(child)
        until_line(live, "it is started again", 1 if text == "2. Nf3" else 2)
        board.play(move)
        until_game(live.name, f"1. e4 e5 {text} *")
    live.type("name White=Anna")
    until(lambda: b'[White "Anna"]' in bytes_of(f"{live.name}.pgn"), "the name")
    board.play("f1b5")
    until_game(live.name, "1. e4 e5 2. Nf3 Nc6 3. Bb5 *")
    until_dumped(board, live.name)
    board.play("b5f1")
    rest(0.5)
    live.type("back")
    until_line(live, "is kept in")
    before = len(tap.calls) - 1
    is_filed(f"{live.name}.before-1", tap.calls[:before])
    same(before, 4)
    board.play("d2d4")
    until_game(live.name, "1. e4 e5 2. Nf3 Nc6 3. d4 *")
    until_dumped(board, live.name)
    same(stop(live), 0)
    events = is_filed(live.name, tap.calls[before:])
    same([event[1] for event in events[:5]], ["begin", "begin", "away", "back", "reopened"])


def times_as_told_undone(folder: pathlib.Path) -> None:
    """Typed moves are undone: the file goes on behind the events from before them, which the next program is told."""
    tap, board, live = a_game(folder)
    until_dumped(board, live.name)
    live.type("ok")
    until_line(live, "there is no LOOK here")
    live.type("Nf3 Nc6")
    until_line(live, "added by hand")
    until_dumped(board, live.name)
    live.type("undo")
    until_line(live, "undone: ")
    old = is_filed(f"{live.name}.before-1", tap.calls[:1])
    board.play("g1f3")
    until_game(live.name, "1. e4 e5 2. Nf3 *")
    same(stop(live), 0)
    before = old[: [event[1] for event in old].index("added")]
    assert "ok" in [event[1] for event in before], before
    same(len(tap.calls), 2)
    events = is_filed(live.name, tap.calls[1:], before)
    same([event[1] for event in events[len(before) :][:4]], ["begin", "away", "back", "reopened"])


def times_as_told_of_another(folder: pathlib.Path) -> None:
    """Another board is on the cable, and the arbiter gives it the game."""
    tap, board, live = a_game(folder)
    until(lambda: (folder / "game.serial").exists(), "its number")
    board.pull()
    until_line(live, words.UNPLUGGED)
    board.serial_number = b"05678"
    board.plug()
    until_line(live, "05678")
    live.type("ok")
    until_line(live, "05678", 2)
    until_dumped(board, live.name)
    board.play("g1f3")
    until_game(live.name, "1. e4 e5 2. Nf3 *")
    kill(live)
    calls = tap.calls
    file = events_in(bytes_of(f"{live.name}.times"))
    events = [event for told, said in calls for event in events_after([], told, said)]
    same(file, events[: len(file)])
    assert {"called", "took", "ok"} <= {word for _, word, _ in file}, file


def times_as_told_asleep(folder: pathlib.Path) -> None:
    """The computer sleeps for 35 s: the program is told that nobody listened, and the file has it at the same place."""
    clock, tap = Clock(folder), Tap(folder)
    board, live = begin_game(folder, start=[*tap.start, *clock.start[1:]])
    until_dumped(board, live.name)
    clock.go_on(35)
    rest(1.5)  # the loop turns each second
    board.play("g1f3")
    until_game(live.name, "1. e4 e5 2. Nf3 *")
    until_dumped(board, live.name)
    same(stop(live), 0)
    same([count for _, word, count in is_filed(live.name, tap.calls) if word == "stopped"], [35_000])


def times_as_told_as_it_ends(folder: pathlib.Path) -> None:
    """Another move is made after a typed result: the program watches the board on, and is told what happens there; then the result is
    taken off, and another program is told the files."""
    tap, board, live = a_game(folder)
    live.type("1-0")
    until_game(live.name, "1. e4 e5 1-0")
    board.play("g1f3")
    until_line(live, "is over: another move was made after its result")
    board.play("b8c6")
    until_line(live, "LOOK after 1... e5")
    until_dumped(board, live.name)
    before = tap.calls
    live.type("*")
    until_line(live, "goes on, without the result")
    same([word for _, word, _ in events_after([], *before[0])].count("over"), 1)
    until_game(live.name, "1. e4 e5 2. Nf3 Nc6 *")
    board.play("f1b5")
    until_game(live.name, "1. e4 e5 2. Nf3 Nc6 3. Bb5 *")
    until_dumped(board, live.name)
    same(stop(live), 0)
    (told, said), = tap.calls[len(before) :]
    events = events_in(next(entry.sent for entry in told if entry.word == "kept"))
    without_ends = [event for event in events_after([], *before[0]) if event[1] != "over"]
    same(events[: len(without_ends)], without_ends)
    same([word for _, word, _ in events[len(without_ends) :]], ["begin", "away", "opened", "reopened", "back"])
    same(events_in(bytes_of(f"{live.name}.times")), events_after(events, told, said))


def times_as_told_in_a_series(folder: pathlib.Path) -> None:
    """The next game of a series begins with what the board has shown, which is told as a call before it. Killed, it goes on."""
    tap, board = Tap(folder), a_board(folder)
    live = Live(board.device, folder / "round", "--series", start=tap.start)
    begun(live)
    board.play("e2e4")
    board.kings_in_centre("e4", "d5")
    until_line(live, f"round-2 {words.BEGINS}")
    board.set_up(last=(KING, BLACK + KING))
    until(lambda: len(bytes_of(folder / "round-2.dgt")) >= 67, "the second game")
    board.play("d2d4")
    until_game(folder / "round-2", "1. d4 *")
    until_dumped(board, folder / "round-2")
    same(stop(live), 0)
    events = is_filed(folder / "round-2", tap.calls_of("round-2"))
    same(([word for _, word, _ in events[:3]], (events[0][2] or 0) >= 67), (["begin", "begin", "opened"], True))
    again = Live(board.device, folder / "round", "--series", start=tap.start)
    board.play("d7d5")
    until_game(folder / "round-2", "1. d4 d5 *")
    same(stop(again), 0)
    same(len(tap.calls_of("round-2")), 2)
    is_filed(folder / "round-2", tap.calls_of("round-2"))


CASES = [
    times_as_told,
    times_as_told_anew,
    times_as_told_undone,
    times_as_told_of_another,
    times_as_told_asleep,
    times_as_told_as_it_ends,
    times_as_told_in_a_series,
]
