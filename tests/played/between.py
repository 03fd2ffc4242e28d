"""Between two games of a series, and while pieces are set up: what is typed then, and a game that can't be begun."""

import contextlib
import pathlib

from play_board import EMPTY, INITIAL, field
from played import words
from played.doors import boards_at
from played.failing import ENDED, failing
from played.ports import free_port
from played.recorder import Live
from played.renamed import has, until_tags
from played.stage import a_board, begun, bytes_of, ended, kill, movetext, same, stop, until, until_dumped, until_game, until_line


def result_put_right_between(folder: pathlib.Path) -> None:
    """While the pieces are set up a wrong result is put right, and a ply is taken off that the board still shows: the page and what goes
    out have it at once. Moves after the second result are an alarm, as they would be after the first."""
    board, port = a_board(folder), free_port()
    live = Live(board.device, folder / "blitz", "--series", "--page", str(port), "--tag", "WhiteElo=2050", typed=True)
    one = folder / "blitz-1"

    def on_the_page() -> object:
        return [([ply["san"] for ply in shown["moves"]], shown["result"]) for shown in boards_at(port)]

    def is_shown(*sans: str, result: str) -> None:
        """The game has this result, and the page and what goes out have it with these plies."""
        until(lambda: movetext(one).endswith(f" {result}"), f"{result} in {one}.pgn")
        until(lambda: movetext(folder / "blitz.broadcast") == movetext(one), f"{movetext(one)} in what goes out", 0.05)
        until(lambda: on_the_page() == [([*sans], result)], f"{movetext(one)} on the page", 0.05)

    begun(live)
    for move in ("e2e4", "e7e5", "g1f3"):
        board.play(move)
    until_game(one, "1. e4 e5 2. Nf3 *")
    live.type("1-0")
    until_line(live, f"blitz-2 {words.BEGINS}")
    is_shown("e4", "e5", "Nf3", result="1-0")
    live.type("0-1")
    is_shown("e4", "e5", "Nf3", result="0-1")
    for move in ("b8c6", "f1b5"):
        board.play(move)
        until_dumped(board, one)
    until_line(live, "LOOK after 2. Nf3: 2 moves were made, and the game is over: 0-1. Look at it, and type ok")
    live.type("ok")
    until_line(live, "acknowledged: LOOK after 2. Nf3")
    board.play("b5f1", "c6b8")
    until_dumped(board, one)
    live.type("back")
    until_line(live, "back to 1... e5; taken off: 2. Nf3; the result 0-1 is gone. What the board had sent is kept in")
    until_line(live, "The game stays over")
    is_shown("e4", "e5", result="*")
    same(movetext(one), "1. e4 e5 *")
    same(stop(live), 0)


def block(path: pathlib.Path) -> None:
    """From now on no file can be made under this name."""

    def is_there() -> bool:
        with contextlib.suppress(FileExistsError):  # one that is just written
            path.mkdir()
        return path.is_dir()

    until(is_there, f"a folder {path}")


def next_not_begun(folder: pathlib.Path) -> None:
    """The text of the next game can't be made, and then its capture can't be written: there is no next game, and what is played stays
    behind the end of the one before. After a kill the next game has all of it."""
    door, stuck = failing(folder, "record")
    board, one, two = a_board(folder), folder / "blitz-1", folder / "blitz-2"
    live = Live(board.device, folder / "blitz", "--series", program=door)
    begun(live)
    for move in ("e2e4", "e7e5"):
        board.play(move)
    until_game(one, "1. e4 e5 *")
    board.kings_in_centre("d4", "d5")
    until_line(live, f"blitz-2 {words.BEGINS}")
    stuck.touch()
    board.set_up([])
    until_line(live, f"blitz-2 can't be begun (record {ENDED}). Put that right: it is tried again")
    block(folder / "blitz-2.dgt.new")
    for move in ("d2d4", "d7d5"):
        board.play(move)
        until_dumped(board, one)
    same((folder / "blitz-2.dgt").exists(), False)
    kill(live)
    (folder / "blitz-2.dgt.new").rmdir()
    stuck.unlink()
    live = Live(board.device, folder / "blitz", "--series", program=door)
    until_game(two, "1. d4 d5 *")
    board.play("c2c4")
    until_game(two, "1. d4 d5 2. c4 *")
    same(movetext(one), "1. e4 e5 1/2-1/2")
    same(stop(live), 0)


def not_begun_anew(folder: pathlib.Path) -> None:
    """What looked like a move was part of the set-up, and the text of the game that begins only then can't be made; later not even its
    capture can be written. The capture is the old one, and gets what is played. After a kill the game begins with the start."""
    door, stuck = failing(folder, "record")
    board = a_board(folder, [EMPTY] * 64)
    live = Live(board.device, folder / "game", program=door)
    until(lambda: board.asked_for_updates and board.dump() in bytes_of(f"{live.name}.dgt"), "the empty board")
    stuck.touch()
    with board.at_once():
        for number, code in enumerate(INITIAL):
            if code and number != field("e2"):
                board.show(number, code)
        board.put("e4", INITIAL[field("e2")])
        board.lift("e4")
        board.put("e2", INITIAL[field("e2")])
    until_line(live, f"game can't be begun (record {ENDED}). Put that right: it is tried again")
    block(folder / "game.before.dgt.new")
    for move in ("d2d4", "d7d5"):
        board.play(move)
        until_dumped(board, live.name)
    kill(live)
    (folder / "game.before.dgt.new").rmdir()
    stuck.unlink()
    live = Live(board.device, live.name, program=door)
    until_line(live, "the pieces have been set up: ")
    until_game(live.name, "1. d4 d5 *")
    board.play("c2c4")
    until_game(live.name, "1. d4 d5 2. c4 *")
    same(stop(live), 0)


def names_put_right(folder: pathlib.Path) -> None:
    """Names are put right between two games, by a typed line and by another call: the game that is over has them, and so has the next one.
    Moves after the result are an alarm all the same. While the next game is played, a line with the name of the one before is for that."""
    board, one, two = a_board(folder), folder / "blitz-1", folder / "blitz-2"
    live = Live(board.device, folder / "blitz", "--series", "--white", "Anne", typed=True)
    begun(live)
    for move in ("e2e4", "e7e5"):
        board.play(move)
    until_game(one, "1. e4 e5 *")
    live.type("1-0")
    until_line(live, f"blitz-2 {words.BEGINS}")
    live.type("name White=Anna")
    until_line(live, "White is now Anna, and was Anne")
    until_tags(str(one), 'White "Anna"', 'Result "1-0"')
    other = Live("", one, "--black", "Ben")
    same((ended(other), other.lines()), (0, f"dgt_live: {one}: Black is now Ben\n"))
    until_tags(str(one), 'White "Anna"', 'Black "Ben"', 'Result "1-0"')
    for move in ("g1f3", "b8c6"):
        board.play(move)
        until_dumped(board, one)
    until_line(live, "LOOK after 1... e5: 2 moves were made, and the game is over: 1-0")
    board.set_up([])
    until(lambda: len(bytes_of(f"{two}.dgt")) >= 67, "the second game")
    board.play("d2d4")
    until_game(two, "1. d4 *")
    until_tags(str(two), 'White "Anna"', 'Black "Ben"')
    live.type(f"name White=Anya {one}")
    until_line(live, f"{one}: White is now Anya, and was Anna")
    until_tags(str(one), 'White "Anya"', 'Black "Ben"')
    live.type("name Event=Club")
    until_tags(str(two), 'White "Anna"', 'Event "Club"')
    same((stop(live), has(f"{one}.pgn", 'Event "Club"')), (0, False))


def look_not_kept(folder: pathlib.Path) -> None:
    """NAME.look can't be written while moves are made after a result, between two games of a series and in a game by itself: the alarm
    stays all the same, and is written once it can be."""
    for name, option in (("blitz", "--series"), ("game", "--strict")):
        board = a_board(folder, device=folder / f"board of {name}")
        live = Live(board.device, folder / name, option, typed=True)
        one = folder / (f"{name}-1" if option == "--series" else name)
        begun(live)
        for move in ("e2e4", "e7e5"):
            board.play(move)
        until_game(one, "1. e4 e5 *")
        live.type("1-0")
        until_game(one, "1. e4 e5 1-0")
        board.play("g1f3")
        until_line(live, f"{one} is over: another move was made after its result")
        block(pathlib.Path(f"{one}.look.new"))
        board.play("b8c6")
        until_line(live, "LOOK after 1... e5: 2 moves were made, and the game is over: 1-0")
        until_line(live, f"{one}.look can't be written (Is a directory): it is tried again")
        until_line(live, "  LOOK after 1... e5; ")
        same(bytes_of(f"{one}.look"), b"")
        pathlib.Path(f"{one}.look.new").rmdir()
        until_line(live, f"{one}.look is written")
        same(bytes_of(f"{one}.look").split(b"\t")[0], b"after 1... e5")
        live.type("ok")
        until_line(live, "acknowledged: LOOK after 1... e5")
        same(bytes_of(f"{one}.look"), b"")
        same(stop(live), 0)


CASES = [result_put_right_between, next_not_begun, not_begun_anew, names_put_right, look_not_kept]
