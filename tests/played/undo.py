"""The line that was typed last is taken back: the game has the plies from before it, and what the board has sent since."""

import pathlib
import shutil
import signal
import sys
from typing import List

from live.child.program import Program
from live.game.changing import add_by_name
from live.game.files import Paths, PutIn
from live.game.game import Game
from live.game.kept import Times, open_game
from live.game.options import Options
from live.game.typed import ask_to_add
from live.game.undone import undone
from live.run.refused import REFUSED
from play_board import field
from played import times, words
from played.back import answered, is_whole, ruy, sans
from played.back_killed import CALLS, KILLING, MOST, PARTS, PAUSE, Record
from played.recorder import Live
from played.stage import a_board, begin_game, begun, bytes_of, ended, go_on, movetext, program, recorded, rest, same, stop, until, until_dumped, until_game, until_line

BY_HAND = "Take plies off with back, and a result with *"
NOTHING = f"refused: nothing was typed since this recording began, and what was typed before can't be undone. {BY_HAND}"


def moves_undone(folder: pathlib.Path) -> None:
    """Two moves were typed for another board, and the players have gone on: the two go, their next move stays, and all clocks are those of
    before. A line that was refused isn't undone, and what was undone can't be undone again."""
    board, live = ruy(folder)
    before, capture = movetext(live.name), bytes_of(live.name + ".dgt")
    answered(live, "undo", NOTHING)
    answered(live, "a6 Ba4", "added by hand: a6 Ba4")
    until_game(live.name, before[:-1] + "3... a6 4. Ba4 *")
    answered(live, "Nf3", "Nothing was added")
    answered(live, "undo 3", "undo takes back the line that was typed last, and stands alone")
    board.play("g8f6")
    until_dumped(board, live.name)
    same(movetext(live.name), before[:-1] + "3... a6 4. Ba4 *")
    answered(live, "undo", 'undone: "a6 Ba4"; taken off: 3... a6 4. Ba4; 6 plies again, the last one 3... Nf6. What the board had sent is kept in')
    until_game(live.name, before[:-1] + "3... Nf6 {[%clk 1:27:40]} *")
    assert bytes_of(live.name + ".dgt").startswith(capture), "the capture isn't the old one, and what came since"
    until_line(live, words.AGREES)
    answered(live, "undo", 'refused: "a6 Ba4" is undone, and nothing else is left to undo. To have it again, type it again')
    board.play("e1g1")
    until(lambda: sans(live)[-1] == "O-O", "the next move")
    same(stop(live), 0)
    is_whole(live)
    found, size = times.read(folder / "game"), len(bytes_of(live.name + ".dgt"))
    same((found.total(), found.torn), (size, False))
    again = go_on(board, live, typed=True)
    answered(again, "undo", NOTHING)
    same(stop(again), 0)


def back_undone(folder: pathlib.Path) -> None:
    """Plies were taken off, and others put in their place, by mistake: all are there again with their clocks, and the next move comes to them.
    The captures from before each line are kept."""
    board, live = ruy(folder)
    before = movetext(live.name)
    board.lift("e1")  # so the board shows no ply that could come back
    until_dumped(board, live.name)
    answered(live, "back 1... e5", "takes off 3 plies, from 2. Nf3: type it again")
    answered(live, "back 1... e5", "back to 1... e5; taken off: 2. Nf3 Nc6 3. Bb5")
    until_game(live.name, before.split(" 2. Nf3")[0] + " *")
    board.put("e1", 5)
    until_dumped(board, live.name)
    answered(live, "undo", 'undone: "back 1... e5"; 5 plies again, the last one 3. Bb5. What the board had sent is kept in')
    until_game(live.name, before)
    until_line(live, words.AGREES)
    board.lift("e1")
    until_dumped(board, live.name)
    answered(live, "instead 3. Bc4", "now 3. Bc4; taken off: 3. Bb5")
    answered(live, "undo", 'undone: "instead 3. Bc4"; taken off: 3. Bc4; 5 plies again, the last one 3. Bb5. What the board had sent is kept in')
    until_game(live.name, before)
    board.put("e1", 5)
    board.clock(5000, 4900)
    board.play("a7a6")
    until_game(live.name, before[:-1] + "3... a6 {[%clk 1:21:40]} *")
    same(len(list(folder.glob("game.before-*.dgt"))), 4)
    same(stop(live), 0)
    is_whole(live)


def result_undone(folder: pathlib.Path) -> None:
    """A result was meant for another board: the game goes on. A second result in the place of the first was wrong: the first one is there again,
    and ends the game."""
    board, live = begin_game(folder, typed=True)
    answered(live, "1-0", "added by hand: the result 1-0 after 1... e5, 2 plies")
    until_game(live.name, "1. e4 e5 1-0")
    answered(live, "undo", 'undone: "1-0"; 2 plies again, the last one 1... e5; the result 1-0 is gone. What the board had sent is kept in')
    until_game(live.name, "1. e4 e5 *")
    board.play("g1f3")
    until_game(live.name, "1. e4 e5 2. Nf3 *")
    until_line(live, words.AGREES)
    answered(live, "0-1", "added by hand: the result 0-1")
    answered(live, "1-0", "added by hand: the result 1-0")
    until_game(live.name, "1. e4 e5 2. Nf3 1-0")
    answered(live, "undo", 'undone: "1-0"; 3 plies again, the last one 2. Nf3; the result 0-1 again. What the board had sent is kept in')
    until_game(live.name, "1. e4 e5 2. Nf3 0-1")
    same(ended(live), 0)
    same(movetext(live.name), "1. e4 e5 2. Nf3 0-1")
    is_whole(live)


def all_undone(folder: pathlib.Path) -> None:
    """The first moves of a game go, and it has none. That a player hasn't come is taken off in another way."""
    board = a_board(folder)
    live = Live(board.device, folder / "game", typed=True)
    begun(live)
    answered(live, "+-", "added by hand: forfeit 1-0")
    answered(live, "undo", 'refused: "+-" was typed last, and can\'t be undone. Type * to take it off')
    answered(live, "*", "the result 1-0 is gone")
    until_game(live.name, "*")
    answered(live, "e4", "added by hand: e4")
    until_game(live.name, "1. e4 *")
    answered(live, "UNDO", 'undone: "e4"; taken off: 1. e4; the game has no moves again')
    until_game(live.name, "*")
    board.play("d2d4")
    until_game(live.name, "1. d4 *")
    same(stop(live), 0)
    is_whole(live)


def looks_again(folder: pathlib.Path) -> None:
    """A ply after a gap is a LOOK. It goes with its ply, and both come again when that is undone. Once somebody has looked it stays away, also
    when later moves are undone."""
    board, live = ruy(folder)
    board.pull()
    until_line(live, words.UNPLUGGED)
    rest(1.5)  # there is room for a ply
    board.play("a7a6")
    board.plug()
    until_line(live, "LOOK at 3... a6")
    look = bytes_of(live.name + ".look")
    until(lambda: sans(live)[5:] == ["a6"], "the ply after the gap")
    until_dumped(board, live.name)
    board.lift("e1")
    until_dumped(board, live.name)
    answered(live, "back", "back to 3. Bb5; taken off: 3... a6. Settled: LOOK at 3... a6.")
    same(bytes_of(live.name + ".look"), b"")
    answered(live, "undo", 'undone: "back"; 6 plies again, the last one 3... a6.')
    until_line(live, "LOOK at 3... a6", 2)
    until(lambda: bytes_of(live.name + ".look") == look, "the same LOOK")
    board.put("e1", 5)
    until_dumped(board, live.name)
    answered(live, "ok", "acknowledged: LOOK at 3... a6")
    answered(live, "Ba4 Nf6", "added by hand: Ba4 Nf6")
    said = len(live.lines())
    answered(live, "undo", 'undone: "Ba4 Nf6"; taken off: 4. Ba4 Nf6; 6 plies again, the last one 3... a6.')
    until_dumped(board, live.name)
    board.play("b5a4")
    until(lambda: sans(live)[6:] == ["Ba4"], "the next move")
    until_line(live, words.AGREES)
    same((bytes_of(live.name + ".look"), "LOOK" in live.lines()[said:]), (b"", False))
    same(stop(live), 0)
    is_whole(live)


def frame_whole_again(folder: pathlib.Path) -> None:
    """A move was put in after the first two bytes of a frame of the board: without it the frame is whole, and the game has the board's own move."""
    board, live = begin_game(folder)
    same(stop(live), 0)
    calls, paths, sent = Program(program()), Paths(live.name), bytes_of(live.name + ".dgt")
    cut = sent.index(board.update(field("e5"))) + 2
    said = ask_to_add(calls, Options(), sent[:cut], "c5")
    now = sent[:cut] + said.put + sent[cut:]
    pathlib.Path(paths.capture).write_bytes(now)
    capture = open_game(paths)
    game = Game(calls, paths, capture, Options(), Times(paths, capture))
    way = undone(game, "c5", PutIn(added=range(cut, cut + len(said.put))), now)
    capture.close()
    same(([ply.san for ply in way.plies], [ply.san for ply in way.now], way.content), (["e4", "c5"], ["e4", "e5"], sent))


def others_refused(folder: pathlib.Path) -> None:
    """What changes no move isn't undone, nor is what was typed before it: the answer names it, and says what to type. Nor is anything of a game
    that nobody records."""
    _, live = begin_game(folder, typed=True)
    for line, done, why in (
        ("Nf3", "added by hand: Nf3", ""),
        ("ok", "there is no LOOK here", "You have looked at it, so there is nothing to take back"),
        ("name White=Anna", "White", "Type the names as they were"),
        ("Nc6", "added by hand: Nc6", ""),
        ("1-0", "added by hand: the result 1-0", ""),
        ("*", "the result 1-0 is gone", "Type the result again"),
    ):
        answered(live, line, done)
        if why:
            answered(live, "undo", f'refused: "{line}" was typed last, and can\'t be undone. {why}')
    until_game(live.name, "1. e4 e5 2. Nf3 Nc6 *")
    same(stop(live), 0)
    status, said = add_by_name(Program(program()), Paths(live.name), "undo", 0)
    same(status, REFUSED)
    assert said.endswith(f"undo takes back what was typed while the game is recorded. Now {BY_HAND[0].lower()}{BY_HAND[1:]}"), said


def between_games(folder: pathlib.Path) -> None:
    """In a series a result ends the game. It goes on without it; so it does with all its plies after some were taken off between the games. The
    result of a game is not undone once the next one has begun."""
    board = a_board(folder)
    live = Live(board.device, folder / "blitz", "--series", typed=True)
    one = folder / "blitz-1"
    begun(live)
    for move in ("e2e4", "e7e5"):
        board.play(move)
    until_game(one, "1. e4 e5 *")
    answered(live, "1-0", "blitz-2 begins when the pieces are at the start")
    answered(live, "undo", 'undone: "1-0"; 2 plies again, the last one 1... e5; the result 1-0 is gone. What the board had sent is kept in')
    until_game(one, "1. e4 e5 *")
    until_line(live, words.AGREES)
    board.play("g1f3")
    until_game(one, "1. e4 e5 2. Nf3 *")
    answered(live, "1-0", "blitz-2 begins when the pieces are at the start")
    answered(live, "back", "The game stays over")
    until_game(one, "1. e4 e5 *")
    answered(live, "undo", 'undone: "back"; 3 plies again, the last one 2. Nf3; the result 1-0 again. What the board had sent is kept in')
    until_game(one, "1. e4 e5 2. Nf3 1-0")
    answered(live, "0-1", "added by hand to")
    until_game(one, "1. e4 e5 2. Nf3 0-1")
    answered(live, "undo", 'undone: "0-1"; 3 plies again, the last one 2. Nf3; the result 1-0 again. What the board had sent is kept in')
    until_game(one, "1. e4 e5 2. Nf3 1-0")
    board.lift("e1")
    until_dumped(board, one)
    answered(live, "back", "back to 1... e5; taken off: 2. Nf3; the result 1-0 is gone. What the board had sent is kept in")
    until_game(one, "1. e4 e5 *")
    answered(live, "undo", 'undone: "back"; 3 plies again, the last one 2. Nf3; the result 1-0 again. What the board had sent is kept in')
    until_game(one, "1. e4 e5 2. Nf3 1-0")
    same(bytes_of(f"{one}.end") != b"", True)
    answered(live, "0-1", "added by hand to")
    until_game(one, "1. e4 e5 2. Nf3 0-1")
    board.put("e1", 5)
    board.set_up([])
    until(lambda: len(bytes_of(folder / "blitz-2.dgt")) >= 67, "the second game")
    board.play("d2d4")
    until_game(folder / "blitz-2", "1. d4 *")
    answered(live, "undo", f'refused: undo: "0-1" was typed before {folder}/blitz-2 began. Put {one} right by its name, as * {one}')
    answered(live, f"1-0 {one}", "added by hand to")
    answered(live, "undo", f'refused: "1-0" was typed last, and can\'t be undone. It was for {one}: put that right by its name, as * {one}')
    same((movetext(one), movetext(folder / "blitz-2")), ("1. e4 e5 2. Nf3 1-0", "1. d4 *"))
    same(stop(live), 0)


class Undoing:
    """A game that gets two moves, which are undone again and again, while the recorder is killed."""

    def __init__(self, name: str) -> None:
        self._name, self._capture, self._folder = name, pathlib.Path(f"{name}.dgt"), pathlib.Path(name).parent
        self._kept = self._folder.parent / "kept"
        shutil.copytree(self._folder, self._kept)
        self._old, self._new = movetext(name)[:-1] + "3... a6 4. Ba4 *", movetext(name)
        self._seen: List[int] = [0, 0]  # how often the moves were there after a kill, and how often not

    def _text(self) -> str:
        """The text of the game as its capture has it."""
        return " ".join(recorded(self._capture.read_bytes(), self._name).decode().split("\n\n")[1].split())

    def _begun(self, record: Record, count: int) -> Live:
        """Started on what is there. Its text is what its capture gives."""
        live = record([sys.executable, KILLING, count, CALLS])
        until_line(live, f" in {self._capture} and ")
        text = self._text()
        assert text in (self._old, self._new), f"killed before a call, it is {text}"
        until(lambda: movetext(self._name) == text, f"{text}, as the capture has it, and not {movetext(self._name)}", PAUSE)
        return live

    def is_killed(self, count: int, record: Record) -> bool:
        """Has it killed before this call, and starts it on what that leaves. Whether there was such a call."""
        shutil.rmtree(self._folder)
        shutil.copytree(self._kept, self._folder)
        live = self._begun(record, count)
        answered(live, "a6 Ba4", "added by hand: a6 Ba4")
        until(lambda: movetext(self._name) == self._old, "what was typed", PAUSE)
        before = self._capture.read_bytes()
        live.type("undo")
        until(lambda: not live.runs or (movetext(self._name) == self._new and live.says("undone: ")), f"the end, before call {count}", PAUSE)
        beside = self._folder.glob(f"{self._capture.stem}.before-*.dgt")
        assert any(path.read_bytes().startswith(before) for path in (self._capture, *beside)), f"killed before call {count}, the capture isn't kept"
        is_done, live.was_killed = live.runs, True
        status = stop(live)
        if is_done:
            return False
        same(status, -signal.SIGKILL)
        self._seen[self._text() == self._new] += 1
        same(stop(self._begun(record, MOST)), 0)
        found = times.read(self._folder / self._capture.stem)
        assert not found.torn and found.total() == len(self._capture.read_bytes()), f"killed before call {count}, the times are {found.calls}"
        return True

    def kill(self, part: int, record: Record) -> None:
        """Kills it before one call after the other, as far as they are of this part, until there is none left."""
        count = part
        while self.is_killed(count, record):
            count += PARTS
            assert count < MOST, "there is no end of calls"
        old, new = self._seen
        print(f"it was killed {old + new} times, up to call {count}: then it was {old} times the game with the moves, {new} without them")


def killed(folder: pathlib.Path, part: int) -> None:
    board, live = ruy(folder / "games")
    same(stop(live), 0)
    device = folder / "board"  # beside the folder of the game, which is copied
    pathlib.Path(board.device).rename(device)
    board.device = str(device)
    Undoing(live.name).kill(part, lambda start: Live(device, live.name, start=start, typed=True))


def killed_undoing_1(folder: pathlib.Path) -> None:
    """`undo` is typed, and the recorder is killed before each third call that changes a file or its name, from the first one on: started
    again it has the game with the typed moves or without them, with its clocks, and each byte is in its times."""
    killed(folder, 1)


def killed_undoing_2(folder: pathlib.Path) -> None:
    """From the second one on."""
    killed(folder, 2)


def killed_undoing_3(folder: pathlib.Path) -> None:
    """From the third one on."""
    killed(folder, 3)


CASES = [moves_undone, back_undone, result_undone, all_undone, looks_again, frame_whole_again, others_refused, between_games, killed_undoing_1, killed_undoing_2, killed_undoing_3]
