"""The line that was typed last is taken back: its bytes go out of the capture, and what the board has sent since stays. So the game is what it
would be if nobody had typed it."""

from __future__ import annotations

from dataclasses import dataclass
from typing import List, Optional, Sequence, Tuple

from live.child.lines import Move
from live.game.changing import and_made, made_of, put_way
from live.game.files import PutIn, existing, size_of
from live.game.game import Game, end_mark, front_of, game_of, largest
from live.game.kept import Capture
from live.game.making_pgn import Text
from live.game.typed import NO_RESULT, WITHOUT_A_QUESTION, Way, moves_of, reached
from live.run.refused import NotDone, shown
from live.words.message import Message, linked, plural


@dataclass(frozen=True)
class Obeyed:
    """A line that was obeyed, and with which capture; what it has put in, if that can be taken out again; else why not, and what to type."""

    line: str
    capture: Capture
    put: Optional[PutIn] = None
    why: str = ""


@dataclass(frozen=True)
class Undone(Way):
    """The way back to what was before a typed line: which plies the game has then, and which result."""

    typed: str = ""
    put: PutIn = PutIn()
    now: Sequence[Move] = ()
    has: str = NO_RESULT

    @property
    def words(self) -> str:
        """What was done: `undone: "instead 14. O-O Qd7"; taken off: 14. O-O Qd7; 27 plies again, the last one 14... Bxf6`."""
        parts: List[str] = [Message("undo.done", line=shown(self.typed))]
        if self.gone:
            parts.append(Message("back.taken_off", plies=moves_of(self.gone)))
        parts.append(plural("undo.plies", len(self.now), last=reached(self.now)) if self.now else Message("undo.no_ply"))
        if self.has == NO_RESULT != self.result:
            parts.append(Message("back.result_gone", result=self.result))
        elif self.has != self.result:
            parts.append(Message("undo.result", result=self.has))
        return linked("semicolon", parts)

    @property
    def question(self) -> str:
        """The question before plies go that were made since; empty if they may go at once."""
        since = self.gone[sum(word[0].isalpha() for word in self.typed.split()) :]
        return Message("undo.asks", count=len(since), ply=since[0].short) if len(since) > WITHOUT_A_QUESTION else ""

    @property
    def front(self) -> bytes:
        """A game that has a result or was over ends as if the line hadn't been typed."""
        return self.content if self.has == NO_RESULT and self.put.end is None else b""

    @property
    def past(self) -> Optional[PutIn]:
        """What the line has put in."""
        return self.put


def alike(before: Sequence[Move], now: Sequence[Move]) -> int:
    """With how many plies two games begin alike."""
    pairs = enumerate(zip(before, now))
    return next((at for at, (one, other) in pairs if one.san != other.san), min(len(before), len(now)))


def put_in(game: Game, generation: int, added: range, end: Optional[int]) -> Optional[PutIn]:
    """What a line has put into the capture: it has added this, and the file of times was of this generation before it. None if that can't be
    found out."""
    if game.times.generation == generation:
        return PutIn(added=added, end=end) if added else None
    kept, made = game.paths.last_before_back, front_of(game.paths, game.capture)
    return PutIn(kept, size_of(kept), made, added, end) if kept and made else None


def to_undo(last: Optional[Obeyed], game: Game) -> Tuple[str, PutIn]:
    """The line that was obeyed last, and what it has put into the capture of this game. Refused if there is none, or it can't be taken back."""
    if last is None:
        raise NotDone(Message("undo.nothing"))
    if last.put is None:
        raise NotDone(last.why)
    if last.capture is game.capture:
        return last.line, last.put
    before, line = last.capture.path[: -len(".dgt")], shown(last.line)
    if before == game.paths.name:  # it has begun anew
        raise NotDone(Message("undo.cannot", line=line, why=Message("undo.other_way")))
    raise NotDone(Message("undo.begun_since", line=line, name=game.paths.name, how=Message("undo.by_its_name", name=before)))


def undone(game: Game, line: str, put: PutIn, sent: bytes) -> Undone:
    """The way back to what was before a line that has put this into a capture, which has these bytes now. Refused if that can't be;
    OSError if the program or the disk fails."""
    kept = existing(put.kept) if put.kept else b""
    if len(kept) != put.size:
        raise NotDone(Message("undo.kept_is_gone", kept=put.kept))
    content = put.taken_out(sent, kept)
    if len(content) > largest(game.options):
        raise NotDone(Message("back.capture_full"))
    before = game_of(game.program, game.options, sent[: end_mark(game.paths)])
    now = game_of(game.program, game.options, content[: put.end])
    stays = alike(before.plies, now.plies)
    return Undone(before.plies, stays, before.result, content, typed=line, put=put, now=now.plies, has=now.result)


def put_undone(game: Game, way: Undone) -> str:
    """Takes the line out of a game whose board isn't recorded now, and makes its text. The game is over if it was over before the line.
    Returns what was done. Raises OSError if a file can't be written."""
    text = Text(game)
    text.look(end_mark(game.paths))
    kept = put_way(game, way, way.put.end)
    return and_made(linked("stop", (way.words, kept)), made_of(game, text.make(way.put.end)))
