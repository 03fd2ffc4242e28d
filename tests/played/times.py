"""NAME.times beside NAME.dgt: when its bytes came, and what else happened. Whatever stands there instead, the game is recorded, and the
log says it once."""

import dataclasses
import os
import pathlib
from typing import List, Optional, Tuple

from play_board import BLACK, KING
from played import words
from played.across import ser2net
from played.asleep import Clock
from played.recorder import Live
from played.stage import (
    a_board,
    begin_game,
    begun,
    bytes_of,
    ended,
    go_on,
    kill,
    movetext,
    rest,
    same,
    stop,
    until,
    until_dumped,
    until_game,
    until_line,
)

NUMBERED = ("begin", "away", "heard", "brought", "added", "stopped", "asked", "over", "suspect")
ALONE = ("opened", "answered", "gone", "called", "took", "ok", "back", "reopened")
NOTHING = "Nothing is to be done"
OTHER = "other.times"
ONE_BYTE = "1 digest 12638187200555641996"  # of a capture that begins with the letter a


def digest(content: bytes) -> int:
    """FNV-1a with 64 bits, as its authors word it."""
    hashed = 0xCBF29CE484222325
    for byte in content:
        hashed ^= byte
        hashed = hashed * 0x100000001B3 & 0xFFFFFFFFFFFFFFFF
    return hashed


@dataclasses.dataclass
class Read:
    """What stands in a file of times: how often the game has gone back, and the events of each call."""

    gone_back: int
    calls: List[List[Tuple[int, str, Optional[int]]]]
    torn: bool = False

    def words(self, call: int = -1) -> List[str]:
        """What happened in a call."""
        return [word for _, word, _ in self.calls[call]]

    def numbers(self, wanted: str, call: int = -1) -> List[int]:
        """The numbers behind a word."""
        return [number for _, word, number in self.calls[call] if word == wanted and number is not None]

    def total(self, call: int = -1) -> int:
        """Of how many bytes of the capture a call tells."""
        return sum(number or 0 for _, word, number in self.calls[call] if word in ("begin", "heard", "brought", "added"))


def read(name: object) -> Read:
    """The file beside a capture, whose digest it has. Only its last line may be torn."""
    content, capture = bytes_of(f"{name}.times").decode(), bytes_of(f"{name}.dgt")
    *lines, torn = content.split("\n")
    version, headed, *events = [line.split(" ") for line in lines]
    same(version[:2], ["1", "times"])
    size = int(headed[0])
    assert 0 < size <= len(capture), f"a heading of {size} bytes"
    same(headed[1:], ["digest", str(digest(capture[:size]))])
    found = Read(int(version[2]), [], bool(torn))
    for at, word, *number in events:
        assert word in (NUMBERED if number else ALONE), f"{at} {word} {number}"
        if word == "begin":
            same(at, "0")
            found.calls.append([])
        call = found.calls[-1]
        assert not call or int(at) >= call[-1][0], f"{at} {word} after {call[-1]}"
        call.append((int(at), word, int(number[0]) if number else None))
    return found


def accounted(name: object, lost: bool = False) -> Read:
    """The same, where each byte of the capture is accounted for; unless a kill may have `lost` some of the lines."""
    found, size = read(name), len(bytes_of(f"{name}.dgt"))
    same(found.torn, False)
    for call in range(1, len(found.calls)):
        begins = found.numbers("begin", call)[0]
        assert found.total(call - 1) == begins or (lost and found.total(call - 1) < begins), f"call {call} of {found.calls}"
    same(found.total(), size)
    return found


def log(name: object) -> str:
    return bytes_of(f"{name}.log").decode()


def said_of_times(name: object) -> List[str]:
    """What the log says of the file."""
    return [line for line in log(name).split("\n") if ".times" in line]


# ---- What it has ----


def times_of_a_game(folder: pathlib.Path) -> None:
    """Moves on the board, two that are typed, an unplugged cable, a result: each byte is accounted for, and so is what was typed.
    Started again it goes on behind that."""
    board, live = begin_game(folder, typed=True)
    live.type("Nf3 Nc6")
    until_line(live, "added by hand")
    board.pull()
    until_line(live, words.UNPLUGGED)
    board.plug()
    until(lambda: board.asked_for_updates, "a request for updates")
    board.play("g1f3")
    board.play("b8c6")
    until_dumped(board, live.name)
    live.type("1-0")
    until_line(live, "added by hand: the result 1-0")
    until_line(live, "is over: its result was given")
    same(stop(live), 0)
    end = int(bytes_of(f"{live.name}.end"))
    found = accounted(live.name)
    same((found.gone_back, len(found.calls), found.numbers("begin")), (0, 1, [0]))
    happened = [word for word in found.words() if word in ALONE]
    same(happened, ["opened", "gone", "opened", "gone"])
    same(len(found.numbers("added")), 2)
    same(found.numbers("over"), [end])
    same(found.numbers("asked")[0], 3)
    same(said_of_times(live.name), [])


def times_after_a_kill(folder: pathlib.Path) -> None:
    """Killed three times in a game: each call begins with what the capture has, and nothing is in the way."""
    board, live = begin_game(folder)
    for move, text in (("g1f3", "2. Nf3"), ("b8c6", "2. Nf3 Nc6"), ("f1b5", "2. Nf3 Nc6 3. Bb5")):
        kill(live)
        live = go_on(board, live)
        board.play(move)
        until_game(live.name, f"1. e4 e5 {text} *")
    same(stop(live), 0)
    found = accounted(live.name, lost=True)
    same(len(found.calls), 4)
    same([len(found.numbers("away", call)) for call in range(4)], [0, 1, 1, 1])
    same(max(found.numbers("away", call)[0] for call in range(1, 4)) < 60_000, True)


def times_of_the_way_back(folder: pathlib.Path) -> None:
    """Plies are taken off: the new capture has times of its own, and the old one's are kept beside it."""
    board, live = begin_game(folder, typed=True)
    board.play("e5e7")
    until_dumped(board, live.name)
    live.type("back 1. e4")
    until_line(live, "is kept in")
    board.play("c7c5")
    until_game(live.name, "1. e4 c5 *")
    until_dumped(board, live.name)
    same(stop(live), 0)
    before, found = accounted(f"{live.name}.before-1"), accounted(live.name)
    same((before.gone_back, before.numbers("begin"), found.gone_back), (0, [0], 1))
    same(found.words()[:5], ["begin", "away", "back", "reopened", "opened"])
    same(found.numbers("away"), [0])
    again = go_on(board, live, typed=True)
    until_line(again, words.AGREES)
    again.type("1/2-1/2")
    until_line(again, "is over: its result was given")
    same(ended(again), 0)
    over = [int(bytes_of(f"{live.name}.end"))]
    same((read(live.name).numbers("over"), read(live.name).total()), (over, len(bytes_of(f"{live.name}.dgt"))))
    reopens = Live("", "", "--add", "*", live.name)
    until(lambda: not reopens.runs, "its end")
    once_more = go_on(board, live)
    until_line(once_more, words.AGREES)
    board.play("g1f3")
    until_game(live.name, "1. e4 c5 2. Nf3 *")
    until_dumped(board, live.name)
    same(stop(once_more), 0)
    found = accounted(live.name, lost=True)  # what came after the result has no times any more
    same([number for call in range(len(found.calls)) for number in found.numbers("over", call)], [])
    same(said_of_times(live.name), [])


def times_of_added(folder: pathlib.Path) -> None:
    """Added to a game that nobody records, by a command: accounted for like all else."""
    board, live = begin_game(folder)
    same(stop(live), 0)
    adds = Live("", "", "--add", "Nf3", live.name)
    until(lambda: not adds.runs, "its end")
    found = accounted(live.name)
    same((len(found.calls), len(found.numbers("added"))), (2, 1))
    adds = Live("", "", "--add", "0-1", live.name)
    until(lambda: not adds.runs, "its end")
    same(accounted(live.name).numbers("over"), [int(bytes_of(f"{live.name}.end"))])
    same(said_of_times(live.name), [])


def times_of_a_series(folder: pathlib.Path) -> None:
    """Two games on one board: each has its own times; killed within the second."""
    board = a_board(folder)
    live = Live(board.device, folder / "round", "--series")
    begun(live)
    board.play("e2e4")
    board.kings_in_centre("e4", "d5")
    until_line(live, f"round-2 {words.BEGINS}")
    board.set_up(last=(KING, BLACK + KING))
    until(lambda: len(bytes_of(folder / "round-2.dgt")) >= 67, "the second game")
    board.play("d2d4")
    until_game(folder / "round-2", "1. d4 *")
    kill(live)
    again = Live(board.device, folder / "round", "--series")
    board.play("d7d5")
    until_game(folder / "round-2", "1. d4 d5 *")
    same(stop(again), 0)
    first, second = accounted(folder / "round-1"), accounted(folder / "round-2", lost=True)
    same(first.numbers("over"), [int(bytes_of(folder / "round-1.end"))])
    same((first.words().count("opened"), second.words(0), second.words(1)[:2]), (1, ["begin"], ["begin", "opened"]))
    assert said_of_times(folder / "round-1") == [], said_of_times(folder / "round-1")


def times_of_a_set_up(folder: pathlib.Path) -> None:
    """Pieces are set up while it records: what came before the start is kept with its times, and the game has its own."""
    from played.games import set_up_wrongly

    set_up_wrongly(folder)
    for capture in folder.rglob("*.dgt"):
        found = accounted(str(capture)[: -len(".dgt")], lost=True)
        same(found.gone_back, 0)


def times_asleep(folder: pathlib.Path) -> None:
    """The computer sleeps for 35 s, by a clock that counts on: it is written so, and later times count on."""
    clock = Clock(folder)
    board, live = begin_game(folder, start=clock.start)
    until_dumped(board, live.name)
    clock.go_on(35)
    rest(1.5)  # the loop turns each second
    board.play("g1f3")
    until_game(live.name, "1. e4 e5 2. Nf3 *")
    until_dumped(board, live.name)
    same(stop(live), 0)
    found = accounted(live.name)
    same(found.numbers("stopped"), [35_000])
    slept = found.words().index("stopped")
    times = [at for at, _, _ in found.calls[0]]  # which go on as the loop's clock while the other one stands still
    same((times[slept - 1] < 35_000, times[slept] >= 35_000), (True, True))


# ---- What stands there instead ----


def goes_on_over(folder: pathlib.Path, content: Optional[bytes]) -> List[str]:
    """A game of two plies goes on beside this file of times. Returns what is said."""
    folder.mkdir()
    board, live = begin_game(folder)
    until_dumped(board, live.name)
    same(stop(live), 0)
    path = pathlib.Path(f"{live.name}.times")
    kept = path.read_bytes()
    if content is None:
        path.unlink()
    else:
        path.write_bytes(content.replace(b"KEPT", kept))
    again = go_on(board, live)
    board.play("g1f3")
    until_game(live.name, "1. e4 e5 2. Nf3 *")
    until_dumped(board, live.name)
    same(stop(again), 0)
    accounted(live.name, lost=True)
    said = said_of_times(live.name)
    once_more = go_on(board, live)
    until_line(once_more, words.AGREES)
    same(stop(once_more), 0)
    same(said_of_times(live.name), said)
    for line in said:
        assert line.endswith(NOTHING), line
    return said


def times_torn(folder: pathlib.Path) -> None:
    """Its last line is torn, as a kill leaves it, or made of zeros, as a power cut does: only that goes."""
    for name, torn in (("line", b"KEPT12 heard 6"), ("zeros", b"KEPT" + bytes(500)), ("words", b"KEPT5 flown\n")):
        said = goes_on_over(folder / name, torn)
        same(len(said), 1)
        assert f"was torn: its last {len(torn) - 4} bytes are dropped" in said[0], said
        same(read(folder / name / "game").numbers("begin", 0), [0])
        same(list((folder / name).glob(f"*{OTHER}")), [])


def times_missing(folder: pathlib.Path) -> None:
    """It is missing, or empty, as for a game of an older recorder: it is begun anew."""
    for name, content in (("missing", None), ("empty", b"")):
        said = goes_on_over(folder / name, content)
        same(len(said), 1)
        assert "is missing: when the game's first" in said[0], said
        same(len(read(folder / name / "game").numbers("begin", 0)), 1)


def times_short_and_long(folder: pathlib.Path) -> None:
    """It tells of fewer bytes than the capture has, or of more, as after a power cut."""
    for name, content, part in (("long", b"KEPT999000 heard 27\n", "tells of 27 bytes more than"), ("short", None, "has no times for the last")):
        place = folder / name
        place.mkdir()
        board, live = begin_game(place)
        until_dumped(board, live.name)
        same(stop(live), 0)
        path = pathlib.Path(f"{live.name}.times")
        lines = path.read_bytes()
        if content:
            path.write_bytes(content.replace(b"KEPT", lines))
        else:
            cut = lines.rindex(b"heard")
            path.write_bytes(lines[: lines.rindex(b"\n", 0, cut) + 1])
        again = go_on(board, live)
        until_line(again, words.AGREES)
        until_dumped(board, live.name)
        same(stop(again), 0)
        found = read(live.name)
        same((len(found.calls), found.total()), (2, len(bytes_of(f"{live.name}.dgt"))))
        said = said_of_times(live.name)
        same(len(said), 1)
        assert part in said[0] and said[0].endswith(NOTHING), said


def times_of_others(folder: pathlib.Path) -> None:
    """It is another capture's, a newer program's, or no file of times: it is kept beside, and another one is begun. A second one is
    kept beside the first."""
    for name, content, part in (
        ("another", f"1 times 0\n{ONE_BYTE}\n0 begin 1\n".encode(), "is of another capture"),
        ("longer", b"1 times 0\n999999 digest 5\n0 begin 1\n", "is of another capture"),
        ("newer", b"2 times 0 and what nobody knows yet\n", "isn't readable"),
        ("newest", b"2 times 0\nwhat nobody knows yet\n", "is of a newer program"),
        ("headless", b"0 begin 1\n5 opened\n", "isn't readable"),
        ("half", b"1 times 0\n67 dig", "isn't readable"),
    ):
        said = goes_on_over(folder / name, content)
        same(len(said), 1)
        assert part in said[0] and f"kept as {folder / name / 'game'}.{OTHER}" in said[0], said
        same((folder / name / f"game.{OTHER}").read_bytes(), content)
    # Games that begin where such a file is left, and one was kept beside before; and under a name whose capture was moved away.
    name = str(folder / "game")
    pathlib.Path(f"{name}.times").write_bytes(b"3 times\n")
    pathlib.Path(f"{name}.other.times").write_bytes(b"4 times\n")
    same(stop(begin_game(folder)[1]), 0)
    same([pathlib.Path(f"{name}.{other}.times").read_bytes() for other in ("other", "other-2")], [b"4 times\n", b"3 times\n"])
    accounted(name)
    for ending in ("dgt", "pgn", "options"):
        os.unlink(f"{name}.{ending}")
    board = a_board(folder, device=folder / "second board")
    live = Live(board.device, name)
    begun(live)
    board.play("d2d4")
    until_game(name, "1. d4 *")
    until_dumped(board, name)
    same(stop(live), 0)
    same(accounted(name).numbers("begin"), [0])
    assert pathlib.Path(f"{name}.other-3.times").exists()


def times_that_cannot_be_written(folder: pathlib.Path) -> None:
    """A link, a pipe or a folder stands there, or nobody may write it: it stays as it is, and the game is recorded without."""
    precious = folder / "precious"
    precious.write_text("precious")
    for name in ("link", "pipe", "folder", "shut"):
        if name == "shut" and not os.getuid():
            continue  # an administrator may write everything
        place = folder / name
        place.mkdir()
        path = place / "game.times"
        if name == "link":
            path.symlink_to(precious)
        elif name == "pipe":
            os.mkfifo(path)
        elif name == "folder":
            path.mkdir()
        else:
            path.write_text("mine")
            path.chmod(0)
        board, live = begin_game(place, typed=True)
        live.type("Nf3")
        until_game(live.name, "1. e4 e5 2. Nf3 *")
        rest(2.5)  # it is tried each second
        said = said_of_times(live.name)
        same(len(said), 1)
        assert "can't be written" in said[0] and said[0].endswith(NOTHING), said
        if name == "pipe":
            path.unlink()
            until_dumped(board, live.name)
            until(lambda: "is written again" in log(live.name), "that it is written")
        same(stop(live), 0)
        same(movetext(live.name), "1. e4 e5 2. Nf3 *")
        if name == "pipe":
            found = accounted(live.name)
            assert found.numbers("begin")[0] > 67, found
    same(precious.read_text(), "precious")


def times_on_a_full_disk(folder: pathlib.Path) -> None:
    """The disk is full, and has room again: the game has all its moves, the times those from then on, and no line is torn."""
    board = a_board(folder)
    live = Live(board.device, folder / "game", limit=2000)
    begun(live)
    board.play("e2e4")
    until_game(live.name, "1. e4 *")

    def is_full() -> bool:
        board.clock(600, 600)
        return "game.times can't be written" in log(live.name)

    until(is_full, "that its times can't be written")
    live.make_room()
    board.play("e7e5")
    until(lambda: " e5 " in movetext(live.name), "the second ply")
    until(lambda: "game.times is written again" in log(live.name), "that its times are written")
    until_dumped(board, live.name)
    same(stop(live), 0)
    found = accounted(live.name, lost=True)
    same((len(found.calls), found.numbers("away"), found.words()[:3]), (2, [0], ["begin", "away", "opened"]))
    same(len(said_of_times(live.name)), 2)


def times_removed(folder: pathlib.Path) -> None:
    """All files of a game are removed while it is recorded: the capture is written again, and its times begin anew."""
    board, live = begin_game(folder)
    for path in folder.glob("game.*"):
        path.unlink()
    until_line(live, "was removed: it is written anew, whole")
    board.play("g1f3")
    until_game(live.name, "1. e4 e5 2. Nf3 *")
    until_dumped(board, live.name)
    same(stop(live), 0)
    accounted(live.name)


def times_behind_a_server(folder: pathlib.Path) -> None:
    """What comes after a serial number of the board is accounted for too; another board's bytes are not until it is taken."""
    board = a_board(folder)
    board.serial_number = b"01234"
    live = Live(board.device, folder / "game", typed=True)
    begun(live)
    board.play("e2e4")
    until_game(live.name, "1. e4 *")
    until(lambda: (folder / "game.serial").exists(), "its number")
    board.pull()
    until_line(live, words.UNPLUGGED)
    board.serial_number = b"05678"
    board.plug()
    until_line(live, "05678")
    live.type("ok")
    until_line(live, "05678", 2)
    until_dumped(board, live.name)
    same(stop(live), 0)
    same(accounted(live.name).words().count("took"), 1)


def times_behind_ser2net(folder: pathlib.Path) -> None:
    """The same behind ser2net, whose board has no power for a while: it is called again, and answers again."""
    board = a_board(folder)
    with ser2net(folder, board.device, "kickolduser: true") as server:
        live = Live(server.address, folder / "game")
        begun(live)
        board.switch_off()
        until_line(live, words.SILENT)
        until(lambda: read(live.name).words()[-1:] == ["called"], "that it is called again", 0.1)
        board.switch_on()
        until_line(live, "answers again")
        board.play("e2e4")
        until_game(live.name, "1. e4 *")
        same(stop(live), 0)
    happened = [word for word in accounted(live.name).words() if word in ALONE]
    same(happened, ["opened", "answered", "called", "opened", "answered", "gone"])


CASES = [
    times_of_a_game,
    times_after_a_kill,
    times_of_the_way_back,
    times_of_added,
    times_of_a_series,
    times_of_a_set_up,
    times_asleep,
    times_torn,
    times_missing,
    times_short_and_long,
    times_of_others,
    times_that_cannot_be_written,
    times_on_a_full_disk,
    times_removed,
    times_behind_a_server,
    times_behind_ser2net,
]
