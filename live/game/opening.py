"""How a game is opened, to be recorded or to be made anew. All calls go through here. It waits for the program and the disk."""

from __future__ import annotations

import contextlib
import dataclasses
import os
import threading
from dataclasses import dataclass
from typing import Callable, Dict, List, Optional, Sequence, Tuple

from live.child.program import Program
from live.game.attending import Reader, words_of
from live.game.files import Paths, size_of
from live.game.game import Game, Old, end_mark, is_full, keep_options, kept_options, result_in, result_of
from live.game.kept import LOCK_PATIENCE, Capture, Times, open_game
from live.game.making_pgn import Made, Text, told_of_edit, told_of_reading, told_of_result
from live.game.options import PUBLISHED, SEE_HELP, UNKNOWN, Options, as_typed, read_names, told_of_names
from live.game.tags import LONGEST, Unreadable, ascii_name, cleaned, is_seen, pgn_date
from live.run.loop import Callback
from live.run.refused import DGT_LIVE, FAILED, REFUSED, Refused
from live.words.message import Message, linked

# The conditions for a position and its text, in docs/CHESS.md.
OF_FEN: Dict[str, str] = {
    "form": Message("fen.form"),
    "counters": Message("fen.counters"),
    "placement": Message("fen.placement"),
    "kings": Message("fen.kings"),
    "pawns": Message("fen.pawns"),
    "rights": Message("fen.rights"),
    "en passant": Message("fen.en_passant"),
    "check": Message("fen.check"),
}


def reason(error: str) -> str:
    """The message, given what the program has printed."""
    first = (error.strip().splitlines() or [Message("program.no_reason")])[0]
    kind, _, why = first.partition(": ")
    if kind == "fen":
        return Message("fen.refused", why=why, advice=OF_FEN.get(why, SEE_HELP))
    return Message("option.refused", why=why if kind == "error" else first, dgt_live=DGT_LIVE)


def is_recorded(name: str, board: Optional[str], given: Options) -> Tuple[str, ...]:
    """The message if a game is to be made anew while it is recorded: on this board of a round, on none, or unknown."""
    if board == "":
        return (Message("remake.recorded", name=name),)
    columns = [Message("remake.column_first", side=given.first)] if given.first else []
    if given.recover is not None:
        columns.append(Message("remake.column_recover", answer=Message("table.yes") if given.recover else Message("table.no")))
    write = Message("remake.write", columns=linked("comma_and", columns))
    if board:
        return Message("remake.board", name=name, board=board), write
    return (
        Message("remake.in_use", name=name),
        write,
    )


# What changes each tag, and what it is called if that fails.
TURNS: Dict[str, Callable[[str], str]] = {
    "--event": ascii_name,
    "--site": ascii_name,
    "--round": ascii_name,
    "--white": ascii_name,
    "--black": ascii_name,
    "--date": pgn_date,
}
CALLED: Dict[str, str] = {
    "--event": Message("tag.event"),
    "--site": Message("tag.site"),
    "--round": Message("tag.round"),
    "--white": Message("tag.white"),
    "--black": Message("tag.black"),
    "--date": Message("tag.date"),
}


SIDES_OF_CLOCK = ("white", "black")
LARGE = 1024 * 1024  # bytes of a capture that takes long to be read: its board is asked meanwhile


def unknown(option: str) -> str:
    """What is recorded for a text that can't be written in ASCII, if no replacement is known."""
    return UNKNOWN


def recordable(typed: Options, instead: Optional[Callable[[str], str]] = None) -> Options:
    """With a replacement for each text that can't be written in ASCII, if there is one; the published tags keep all texts as they
    were typed."""
    values: Dict[str, str] = {}
    written: Dict[str, str] = {}
    for option, name in PUBLISHED.items():
        text = typed.value(option)
        if text is None:
            continue
        try:
            recorded = ascii_name(text)
        except Unreadable:
            if instead is None or not is_seen(cleaned(text)) or len(text) > LONGEST:
                continue  # it is refused
            recorded = values[option] = instead(option)
        if cleaned(text) != recorded.strip():
            written[name] = cleaned(text)
    changed: Dict[str, object] = {option[2:]: value for option, value in values.items()}
    return dataclasses.replace(typed, **changed).tagged({**written, **dict(typed.tags)})


def turned(given: Options) -> Options:
    """With names and dates as PGN has them."""

    def turn(option: str) -> Callable[[str], str]:
        def of_value(value: str) -> str:
            try:
                return TURNS[option](value)
            except Unreadable as error:
                raise Refused(REFUSED, Message("start.unfit_value", called=CALLED[option], why=error.message)) from None

        return of_value

    return given.turned({option: turn(option) for option in TURNS})


def checked(program: Program, typed: Options, paths: Optional[Paths] = None) -> Options:
    """With names and dates as PGN has them. Refused if the program refuses them. It is asked about a position alone, unless that is kept
    beside the game: names and dates are as it takes them by now."""
    typed.refuse_breaks()
    given = turned(recordable(typed))
    kept = kept_options(paths) if paths and given.fen is not None else None
    if given.fen == (kept.fen if kept else None) and given.first in (None, *SIDES_OF_CLOCK):
        return given
    answer = program.run("record", *given.of_record())
    if answer.returncode != 0:
        raise Refused(answer.returncode, reason(answer.stderr.decode("utf-8", "replace")))
    return given


@dataclass(frozen=True)
class Chosen:
    """The options with which a game goes on, and the message about them; or why it doesn't go on, once its text is made."""

    options: Options
    told: Tuple[str, ...] = ()
    refused: Optional[Refused] = None


# Chooses the options with which a game goes on, given those that were kept, of a game that isn't new, and whether it has a move. Refused if
# it can't go on.
Chooses = Callable[[Optional[Options], Callable[[], bool]], Chosen]


@dataclass(frozen=True)
class Opened:
    """A game whose text was just made: what it had, and the messages."""

    game: Game
    old: Old
    is_over: bool = False  # whether its end is marked; a result alone ends no game, since it may have stood for a moment only
    is_full: bool = False
    told: Tuple[str, ...] = ()  # about its options
    read_anew: Tuple[str, ...] = ()  # if its capture is read in another way than before
    results: Tuple[str, ...] = ()  # if its result has changed
    is_reopened: bool = False  # whether an arbiter has just said that it isn't over
    reader: Optional[Reader] = None  # the child that has read it


class Opening:
    """The opening of a game, which a worker does: first `prepares`, and then the choice of its options. If it is no longer wanted,
    its capture is closed."""

    def __init__(
        self, program: Program, paths: Paths, prepares: Callable[[], Chooses], patience: float = LOCK_PATIENCE
    ) -> None:
        self._program, self._paths, self._prepares, self._patience = program, paths, prepares, patience
        self._lock = threading.Lock()
        self._capture: Optional[Capture] = None
        self._reader: Optional[Reader] = None
        self._found: Optional[Old] = None  # what that has read
        self._dropped = self._is_read = False
        self.untold: Tuple[str, ...] = ()  # errors that aren't the system's, to be said even if nobody gets what is opened
        self.held: Callback = lambda: None  # called in the worker's thread when a game that goes on is held, and takes long to be read

    def open(self, now: float, today: str) -> Opened:
        """Opens it at this time of the loop, and on this day. Refused if that isn't possible."""
        chooses = self._prepares()
        capture = open_game(self._paths, self._patience)
        with self._lock:
            if self._dropped:
                capture.close()
                raise Refused(FAILED, Message("start.not_wanted"))
            self._capture = capture
        try:
            return self._read(capture, chooses, now, today)
        except BaseException:
            self._remove_if_empty()
            self.drop()
            raise
        finally:
            self._ends()

    def _remove_if_empty(self) -> None:
        """A game that couldn't be begun leaves no capture."""
        with self._lock:
            if self._capture and not self._capture.size and not os.path.lexists(self._paths.pgn):
                with contextlib.suppress(OSError):
                    os.unlink(self._paths.capture)

    def take(self) -> None:
        """From now on the caller owns the capture, and the child that has read it."""
        with self._lock:
            self._capture = self._reader = None

    def drop(self) -> None:
        """Closes both; the result of the opening isn't used."""
        with self._lock:
            self._dropped = True
            capture, self._capture = self._capture, None
            if capture:
                capture.close()
            if self._reader:
                self._reader.close(self._is_read)

    def _ends(self) -> None:
        """Nothing more is read."""
        with self._lock:
            self._is_read = True
            if self._reader and self._dropped:
                self._reader.close()

    def _read(self, capture: Capture, chooses: Chooses, now: float, today: str) -> Opened:
        paths, times = self._paths, Times(self._paths, capture)
        times.look()
        self.untold = times.unexpected
        kept = kept_options(paths)
        before = kept if capture.size else None
        was = Game(self._program, paths, capture, kept or Options(), times)

        def has_moves() -> bool:
            return bool(capture.size and self._old(was, now).course.plies)

        chosen = chooses(before, has_moves)
        options = chosen.options.begun(before.day(today, has_moves) if before else None if capture.size else today)
        end = end_mark(paths)
        if capture.size >= LARGE and end is None and not chosen.refused and not is_full(was):
            self.held()
        Text(was).look(end, self._text_of(was, now))
        if chosen.refused:
            _make_again(was)
            raise chosen.refused
        game = dataclasses.replace(was, options=options)
        if options != kept:
            keep_options(paths, options)
        result, old = result_in(paths), self._old(game, now)
        made = Text(game).put(old.text)
        if made.trouble:
            raise Refused(FAILED, made.told(paths.pgn))
        told = (*chosen.told, told_of_edit(paths.pgn, made.edited)) if made.edited else chosen.told
        pairs = old.course.recovered if before and bool(before.recover) != bool(options.recover) else []
        read_anew = told_of_reading(before or options, options, pairs)
        results = told_of_result(result, result_of(old.text))
        old = dataclasses.replace(old, size=capture.size, lines=old.lines if capture.size else 0)
        told = (*told, *times.unexpected)
        return Opened(game, old, end is not None, is_full(game), told, tuple(read_anew), tuple(results), reader=self._reader)

    def _old(self, game: Game, now: float) -> Old:
        """What the game has. It is read once with the same options. Refused if it can't be read."""
        if self._found and self._reader and self._reader.words == words_of(game.options):
            return self._found
        try:
            reader = Reader(game, end_mark(game.paths))
            with self._lock:
                before, self._reader = self._reader, reader
                if self._dropped:
                    reader.close(is_read=False)
            if before:
                before.close()
            self._found = reader.read(now)
        except OSError as error:
            raise Refused(FAILED, Made.of_error(error).told(game.paths.pgn)) from None
        return self._found

    def _text_of(self, game: Game, now: float) -> bytes:
        """The text that an earlier call made, unless it was killed on the way; empty if none is there, or it can't be read."""
        with contextlib.suppress(Refused):
            return self._old(game, now).text if size_of(game.paths.pgn) else b""
        return b""


def _make_again(game: Game) -> None:
    """Makes the text of a game that doesn't go on: a call that was killed may have left an old one. One that somebody has edited
    stays."""
    if game.written.last or not size_of(game.paths.pgn):
        Text(game).make(end_mark(game.paths))


def added_to_kept(given: Options, name: str, told_first: Sequence[str] = (), is_over: bool = False) -> Chooses:
    """For a game that is recorded by itself: what is given is added to what was kept. Once the game has a move, its board stays as
    it lies and its start as it was, and one player at least keeps the name. A game that is over changes nothing."""

    def chooses(kept: Optional[Options], has_moves: Callable[[], bool]) -> Chosen:
        if kept is None:
            return Chosen(Options().with_given(given), tuple(told_first))
        chosen = kept.with_given(given)
        if kept.is_said_by(given) or not has_moves():
            return Chosen(chosen, (*told_first, *filter(None, [chosen.told_of_all(kept)])))
        refuse_another_game(chosen, kept, name, is_over)
        return Chosen(chosen, (*told_first, *filter(None, [chosen.told_of_tags(kept)])))

    return chooses


def refuse_another_game(chosen: Options, kept: Options, name: str, is_over: bool) -> None:
    """Refuses options that a game with moves can't go on with."""
    if not chosen.lies_as(kept) or (is_over and not chosen.has_tags_of(kept)):
        goes_on = Message("start.give_none")
        if not as_typed(kept.words()):
            raise Refused(REFUSED, Message("start.without_options", name=name, goes_on=goes_on))
        raise Refused(REFUSED, Message("start.other_options", name=name, goes_on=goes_on), kept.said)
    if chosen.has_other_players_than(kept):
        raise Refused(
            REFUSED,
            Message("start.other_players", name=name, players=kept.players),
            Message("start.change_both_names"),
        )


def strictly(given: Options, name: str) -> Chooses:
    """The same options as at the game's beginning, or none; while it has no move, all that are given and no others."""

    def chooses(kept: Optional[Options], has_moves: Callable[[], bool]) -> Chosen:
        wanted: Optional[Options] = given if kept is None else kept
        if kept is not None and not kept.is_said_by(given):
            wanted = kept.going_on(given, has_moves())
        if wanted is None:
            raise Refused(REFUSED, Message("start.begun_with_others", name=name))
        before = kept or Options()
        tags_now = given if wanted == given else given.tagged_over(before)
        chosen = wanted.tagged(dict(tags_now.tags)).recovering(before.recovers_with(given))
        told = chosen.told_of_all(kept or chosen)
        return Chosen(chosen, tuple(filter(None, [told])))

    return chooses


def of_a_line(given: Options, name: str) -> Chooses:
    """For a game of a round: the options of its line; but a game that has moves keeps how its board lies and its start position."""

    def chooses(kept: Optional[Options], has_moves: Callable[[], bool]) -> Chosen:
        told: List[str] = []
        try:
            wanted = strictly(given, name)(kept, has_moves).options
        except Refused as refused:
            if kept is None or refused.status != REFUSED:
                raise
            stays, asked = kept.fixed().of_board(), given.fixed().of_board()
            if stays != asked:
                words = " ".join(as_typed(stays)) or Message("start.lies_as_usual")
                told.append(Message("start.keeps", words=words))
            wanted = kept.with_tags_of(given).recovering(kept.recovers_with(given))
            told += filter(None, [wanted.told_of_tags(kept)])
        chosen = wanted.tagged(dict(given.tags)).with_first(given.side)
        if kept is not None and not told and chosen.players != kept.players and has_moves():
            told.append(chosen.told_of_tags(kept))  # they are recorded in the same letters as before
        return Chosen(chosen, tuple(told))

    return chooses


def named(program: Program, text: str) -> Chooses:
    """For a game that gets the tags of `name White=Anna`. Refused if it can't have them."""
    given = checked(program, read_names(text))

    def chooses(kept: Optional[Options], has_moves: Callable[[], bool]) -> Chosen:
        before = kept or Options()
        chosen = before.with_given(given)
        return Chosen(chosen, (told_of_names(chosen, before),))

    return chooses


def read_otherwise(given: Options) -> Chooses:
    """For a game that is made anew: its own options, except for how its capture is read, and for its names and other tags."""

    def chooses(kept: Optional[Options], has_moves: Callable[[], bool]) -> Chosen:
        before = kept or Options()
        chosen = before.with_given(given)
        return Chosen(chosen, tuple(filter(None, [chosen.told_of_tags(before)])))

    return chooses
