"""Changes of a game by a typed line: what is added is put in its place on the disk; or the capture is made anew, with fewer plies or without
a result, and the old one is kept beside it; and the text is made.

Whenever this process is killed, the game is the old one or the new one: first the old capture gets a second name, then the new
one, which the program has made and read, is put in place at once."""

from __future__ import annotations

import errno
import functools
import os
from dataclasses import replace
from typing import Callable, Optional, Sequence, Tuple

from live.child.lines import Move, Picture, line_of
from live.child.program import Program
from live.game.attending import read_game
from live.game.files import Paths, existing, not_written, put_in_place, sync_folder
from live.game.game import ROUND, Course, Game, end_mark, forget_question, game_of, is_unplayed, keep_front, keep_options, kept_options, mark_end, result_in, unmark_end
from live.game.kept import Capture, Times, open_game
from live.game.log import log_once
from live.game.looks import acknowledge, keep_looks, kept_looks
from live.game.making_pgn import Made, Text, told_of_edit, told_of_result
from live.game.opening import Chooses, named
from live.game.options import Options, is_naming
from live.game.tags import published
from live.game.times import ADDED, BACK, LOOKED, OVER, REOPENED
from live.game.typed import ALL, ANEW, AS_IT_IS, BOARD, CUT, NO_RESULT, PLACED, PLIES, SIGNED, STILL_SHOWN, WAYS, Accepted, Acknowledged, Anew, Back, Forfeit, Instead, Nothing, Quit, Recover, Reopened, Said, Undo, Way, ask_for_way, ask_to_add, ask_to_go_back, asked_of, drop_forfeit, dump_at_end, forfeit_of, keep_forfeit, kept_forfeit, meaning, not_added, not_back, not_instead, nothing_goes, place_of, played_since, read_typed, refuse_played, result_typed, stays_of, taken_up, told_to_readers, way_of
from live.run.refused import DGT_LIVE, DONE, FAILED, Answer, Asked, NotDone, Refused, refusal
from live.words.message import Message, linked

NO_LINKS = (errno.EPERM, errno.EOPNOTSUPP, errno.EMLINK)  # a file system without hard links


def keep_before(capture: Capture, paths: Paths) -> str:
    """Gives the present capture a second name, on the disk. Raises OSError if that fails."""
    capture.sync()
    number = 1
    while True:
        kept = paths.before_back(number)
        try:
            os.link(paths.capture, kept)
        except FileExistsError:
            if os.path.samefile(kept, paths.capture):
                return kept  # of a call that was killed at this point
            number += 1
            continue
        except OSError as error:
            if error.errno not in NO_LINKS:
                raise
            put_in_place(kept, capture.bytes())
        sync_folder(paths.folder)
        return kept


def put_way(game: Game, way: Way, end: Optional[int] = None) -> str:
    """Makes the new game the current one; it goes on from where its end was marked, unless it stays over with so many bytes. Returns
    which alarms it has ended, and where the old capture is. Raises OSError if a file can't be written."""
    kept = keep_before(game.capture, game.paths)
    forget_question(game.paths)
    game.times.set_aside(kept)
    try:
        _renew(game, way, end)
    except Exception:
        game.times.come_back(kept)
        raise
    if way.past and way.past.before:
        game.times.go_on_from(way.past.kept or kept, way.past.before)
    game.times.begin()
    if end is not None:
        game.times.note(OVER, end)
    settled, kept_in = _settle(game.paths, way), Message("back.kept", kept=kept)
    return linked("stop", (settled, kept_in)) if settled else kept_in


def _renew(game: Game, way: Way, end: Optional[int]) -> None:
    keep_front(game.paths, way.front)
    mark, capture = end_mark(game.paths), game.capture
    if mark is not None:
        # First what came after the end is removed; then the mark is moved, to allow the longer capture: each step leaves a
        # whole game.
        capture.renew(capture.bytes(0, mark))
        mark_end(game.paths, capture, max(mark, len(way.content) if end is None else end))
    capture.renew(way.content[:end])
    if end is not None:
        mark_end(game.paths, capture, end)
        if end < len(way.content):
            capture.renew(way.content)
    elif mark is not None:
        unmark_end(game.paths)


def _settle(paths: Paths, way: Way) -> str:
    """Ends the alarms about what was taken off. Returns the message; empty if there was no alarm."""
    before = kept_looks(paths)
    left = before.without(way.settled)
    if left == before:
        return ""
    try:
        keep_looks(paths, left)
    except OSError:
        return ""  # it stays, and must be acknowledged
    return Message("look.settled", looks=linked("comma", (look.short for look in before.open if look not in left.open)))


# Games that nobody records, or that are over.


def change_closed(game: Game, typed: Anew, listens: bool = False, may_stay: bool = False) -> str:
    """Changes a game that nobody records now, and makes its text, as the next two do."""
    if isinstance(typed, Recover):
        raise NotDone(Message("hidden.not_recorded"))
    return go_back_closed(game, typed.to, listens, may_stay) if isinstance(typed, Back) else put_instead_closed(game, typed, listens)


def put_instead_closed(game: Game, typed: Instead, listens: bool) -> str:
    """Puts moves in place of the last plies of a game that nobody records now, and makes its text. A game that was over goes on, with the
    board as it is now if the board is watched. Returns what was done. Refused if it can't be."""
    mark, course = end_mark(game.paths), course_of(game)
    said = ask_for_way(game.program, game.options, game.capture.bytes(0, None if listens else mark), typed)
    way = way_of(said, course.plies if not listens else read_game(game, None).course.plies, typed.line)
    if way is None:
        raise not_instead(said, typed.line, game.options.fen, course.plies)
    ask_first(game.paths, way)
    return _put_closed(game, way)


def go_back_closed(game: Game, to: str, listens: bool = False, may_stay: bool = False) -> str:
    """Takes plies off a game that nobody records now, and makes its text. A game that was over goes on, with the board as it is
    now if the board is watched; where that can't be, and it may, it stays over. Returns what was done. Refused if it can't be,
    or with a question."""
    mark, course = end_mark(game.paths), course_of(game)
    sent, whole = game.capture.bytes(0, mark), game.capture.bytes()
    said = _said(game, sent, to)
    if said.kind not in (PLIES, *STILL_SHOWN):
        raise not_back(said, to, course.plies)
    ends, stays = way_of(said, course.plies), stays_of(said)
    if ends and ends.changes_nothing and mark is None:
        raise nothing_goes(ends, to)
    way = None
    anew = _since_the_start(game, mark) if listens and stays == 0 and mark is not None else b""
    if anew:
        way = Way(course.plies, 0, course.result, anew)
    elif listens or stays == 0 or course.result == NO_RESULT:
        now = said if len(whole) == len(sent) else _said(game, whole, str(stays))
        way = Way(course.plies, stays, course.result, now.put) if now.put else None
        if way is None and listens and not may_stay:
            raise not_back(now, to, course.plies)
    is_over = way is None and listens
    way = way or ends or _cut(game, course, stays)
    if way is None:
        raise not_back(said, to, course.plies)
    ask_first(game.paths, way)
    done = _put_closed(game, way, len(way.content) if is_over else None)
    if anew:
        return Message("back.begins_since_the_start", done=done)
    return Message("back.stays_over", done=done) if is_over else done


def reopen(game: Game, is_there: bool = False) -> str:
    """Takes the result off a game; if that result ended it, what was played after it belongs to the game from now on. Returns the
    message. Refused if the game has no result and isn't over, if it ended by mate, or if the board itself shows the result and
    its device is there; OSError if a file can't be written."""
    mark, course = end_mark(game.paths), course_of(game)
    had, total, name = course.result, len(course.plies), game.paths.name
    if mark is None and had == NO_RESULT:
        return unforfeited(game.paths, course.plies)
    said = _said(game, game.capture.bytes(), asked_of(had, total))
    how = taken_up(had, said, is_there)
    if how == AS_IT_IS:
        more = _open_again(game)
        return and_made(Message("over.goes_on", name=name, since=played_since(course.plies, course_of(game).plies)), more)
    way = None
    if how == ANEW:
        way = Way(course.plies, total, had, said.put)
    elif how == CUT:
        way = _cut(game, course, total)
    if way is None:
        raise not_back(said, ALL, course.plies)
    if mark is None or had == NO_RESULT or how == CUT:
        return Message("over.goes_on_so", name=name, done=_put_closed(game, way))
    kept = _put_closed(game, way, says=False)
    return linked("stop", (Message("over.goes_on", name=name, since=played_since(course.plies, course_of(game).plies)), kept))


def or_reopened(game: Game, change: Callable[[], str]) -> str:
    """What a change of a game that is over has done. If the game goes on by it and only its text can't be made, that is said: whoever
    records it makes its text again and again. Raises OSError if it is over still."""
    was_over = end_mark(game.paths) is not None
    try:
        return change()
    except OSError as error:
        if not was_over or end_mark(game.paths) is not None:
            raise
        return Message("over.goes_on_unwritten", unwritten=not_written(game.paths.pgn, error))


def replace_result(game: Game, line: str, is_there: bool) -> Optional[Tuple[Said, str]]:
    """Puts a typed result in the place of the one that the kings gave to a game that is over: it ends with its last ply then. Returns
    what was added, and where the old capture is; None if the line is no result, or the game has none. Refused while the kings stand
    in the centre of a board whose device is there."""
    mark, course = end_mark(game.paths), course_of(game)
    if course.result == NO_RESULT or not result_typed(game.program, line):
        return None
    if is_there:
        shown = _said(game, game.capture.bytes(), ALL)
        if shown.kind == SIGNED:
            raise not_back(shown, ALL, course.plies)
    way = _cut(game, course, len(course.plies))
    said = ask_to_add(game.program, game.options, way.content, line) if way else None
    if way is None or said is None or not said.put:
        return None
    game_bytes, later = way.content + said.put, b""
    if mark is not None:  # what the board has shown since stays after the end
        later = dump_at_end(game.program, game.options, game.capture.bytes(0, mark)) + game.capture.bytes(mark)
    text = Text(game)
    text.look(mark)
    return said, put_way(game, replace(way, content=game_bytes + later), len(game_bytes))


def unforfeited(paths: Paths, plies: Sequence[Move]) -> str:
    """A game that goes on and has no result isn't forfeited any more. Returns the message. Refused if it wasn't."""
    if plies or not kept_forfeit(paths):
        raise NotDone(Message("result.none"))
    drop_forfeit(paths)
    return Message("forfeit.gone")


def course_of(game: Game, now: float = 0.0) -> Course:
    """The course of the game at this time, up to its marked end."""
    return read_game(game, end_mark(game.paths), now).course


def _said(game: Game, sent: bytes, to: str) -> Said:
    return ask_to_go_back(game.program, game.options, sent, to)


def _since_the_start(game: Game, end: int) -> bytes:
    """What the board has sent after this end of the game since it last showed the start before a move, behind a dump of the start;
    empty if it hasn't shown that, or nothing else since."""
    sent = game.capture.bytes(end)
    lines = filter(None, map(line_of, game.program.lines("watch", *game.options.of_board(), given=sent)))
    shown = [(line.offset + 1, line.event.placement == game.options.start) for line in lines if isinstance(line.event, Picture)]
    while shown and shown[-1][1]:
        shown.pop()
    begins = max((behind for behind, is_start in shown if is_start), default=0)
    return dump_at_end(game.program, game.options, sent[:begins]) + sent[begins:] if begins else b""


def _cut(game: Game, course: Course, stays: int) -> Optional[Way]:
    """The way back without what the board has sent after the last ply that stays: a board that isn't watched may stand otherwise by
    now. None if that capture gives another game."""
    content = game.capture.bytes(0, course.ends[stays - 1] + 1 if stays else course.began)
    kept = [ply.san for ply in course.plies[:stays]]
    after = game_of(game.program, game.options, content)
    if ([ply.san for ply in after.plies], after.result) != (kept, NO_RESULT):
        return None
    return Way(course.plies, stays, course.result, content)


def _open_again(game: Game) -> str:
    """The board has taken the result back itself, and its game goes on with all that it has sent. Returns more of the message."""
    text = Text(game)
    text.look(end_mark(game.paths))
    game.times.cut(game.capture.size)
    unmark_end(game.paths)
    game.times.begin()
    game.times.note(REOPENED)
    game.times.note(BACK)
    return made_of(game, text.make(None))


def _put_closed(game: Game, way: Way, end: Optional[int] = None, says: bool = True) -> str:
    text = Text(game)
    text.look(end_mark(game.paths))
    kept = put_way(game, way, end)
    return and_made(linked("stop", (way.words, kept)) if says else kept, made_of(game, text.make(None)))


def made_of(game: Game, made: Made) -> str:
    """What else is to be said of a text that was made; mostly nothing. Raises OSError if it couldn't be made."""
    if made.trouble:
        raise made.error()
    return told_of_edit(game.paths.pgn, made.edited) if made.edited else ""


def and_made(done: str, made: str) -> str:
    """What was done, and what `made_of` says."""
    return linked("semicolon", filter(None, (done, made)))


# The question.


def ask_first(paths: Paths, way: Way) -> None:
    """Asked if many plies would go and that wasn't just asked: NAME.back keeps the last question."""
    asked = way.question
    if asked and existing(paths.question) != asked.encode():
        put_in_place(paths.question, asked.encode())
        raise Asked(asked)


LONGEST_NUMBER = 10  # digits of the number of a game in a series


def add_to_closed(game: Game, line: str, is_there: bool = False) -> Tuple[Said, str]:
    """Adds to a game that nobody records now, after its last byte; what came after that byte stays after it. A typed result takes the
    place of that of the kings. Returns what was added, and more of the message. Refused if nothing was; OSError if a file can't be
    written."""
    mark = end_mark(game.paths)
    end = game.capture.size if mark is None else mark
    sent = game.capture.bytes(0, end)
    said = ask_to_add(game.program, game.options, sent, line)
    replaced = replace_result(game, line, is_there) if said.kind == BOARD else None
    if replaced:
        return replaced
    if not said.put:
        played = game_of(game.program, game.options, sent).plies if said.kind in PLACED else []
        raise not_added(said, line, place_of(said, game.options.fen, [ply.san for ply in played], line))
    Text(game).look(mark)
    game.times.cut(end)
    after = game.capture.bytes(end)
    try:
        game.capture.renew(sent + said.put + after)
    except Exception:
        game.times.begin()
        raise
    game.times.begin(None if after else end)
    if not after:
        game.times.note(ADDED, len(said.put))
    forget_question(game.paths)
    if mark is not None or said.outcome:
        mark_end(game.paths, game.capture, end + len(said.put))
        game.times.note(OVER, end + len(said.put))
    return said, ""


def add_and_make(game: Game, line: str, is_there: bool = False) -> str:
    """Adds to a game that nobody records now, and makes its text. Returns in words what was added."""
    before = result_in(game.paths)
    said, more = add_to_closed(game, line, is_there)
    made = made_of(game, Text(game).make(end_mark(game.paths)))
    gone = [] if said.outcome else told_of_result(before, result_in(game.paths))
    plies = game_of(game.program, game.options, game.capture.bytes(0, end_mark(game.paths))).plies if said.outcome else []
    told = linked("semicolon", (meaning(said, line, [ply.short for ply in plies]), *gone))
    return and_made(linked("stop", (told, more)) if more else told, made)


def add_by_name(program: Program, paths: Paths, text: str, patience: float) -> Answer:
    """Adds what was typed to the game of this name, which nobody records now, and writes that to its log. Refused if its capture
    can't be opened."""
    capture = open_game(paths, patience)
    times = Times(paths, capture)
    try:
        if is_naming(text):
            game = Game(program, paths, capture, kept_options(paths) or Options(), times)
            told = linked("semicolon", put_names_right(game, functools.partial(named, program, text), False)[1])
            log_once(paths, told)
            return DONE, linked("colon", (paths.name, told))
        typed = read_typed(text, os.path.basename(paths.name))
        if isinstance(typed, Acknowledged):
            return DONE, acknowledge_closed(paths, times)
        game = Game(program, paths, capture, kept_options(paths) or Options(), times)
        if isinstance(typed, Forfeit):
            told = forfeit_closed(game, typed)
            log_once(paths, told)
            return DONE, linked("colon", (paths.name, told))
        if isinstance(typed, Reopened):
            told = reopen(game)
            drop_forfeit(paths)
            log_once(paths, told)
            return DONE, told
        if isinstance(typed, (Back, Instead, Recover)):
            done = change_closed(game, typed)
            drop_forfeit(paths)
            log_once(paths, done)
            return DONE, linked("colon", (paths.name, done))
        if isinstance(typed, (Accepted, Quit, Nothing, Undo)):
            raise NotDone(Message("undo.not_recorded") if isinstance(typed, Undo) else WAYS)
        what = add_and_make(game, typed.line)
        drop_forfeit(paths)
    except NotDone as refused:
        return refusal(text, refused)
    except OSError as error:
        return FAILED, not_written(paths.name, error)
    finally:
        times.close()
        capture.close()
        if times.told:
            log_once(paths, *times.told)
    log_once(paths, Message("typed.added_by_hand", what=what))
    return DONE, Message("typed.added_to", name=paths.name, what=what)


def acknowledge_closed(paths: Paths, times: Times) -> str:
    """Somebody has looked at the alarms of a game that nobody records now. Returns the answer. Raises OSError if that can't be kept."""
    is_open = bool(kept_looks(paths).open)
    seen = acknowledge(paths)
    if is_open:
        times.begin()
        times.note(LOOKED)
    log_once(paths, seen)
    return seen


def forfeit_closed(game: Game, typed: Forfeit) -> str:
    """A game that nobody records now isn't played. Returns the message. Refused if it has moves."""
    course = game_of(game.program, game.options, game.capture.bytes(0, end_mark(game.paths)))
    refuse_played(len(course.plies), course.result, typed)
    keep_forfeit(game.paths, typed.kind, game.capture.total)
    if typed.result not in (NO_RESULT, course.result):
        add_and_make(game, typed.result)
    return Message("forfeit.not_played", words=typed.words)


def put_names_right(
    game: Game, prepares: Callable[[], Chooses], has_moves: bool, is_recorded: bool = False
) -> Tuple[Options, Tuple[str, ...]]:
    """A game gets the tags that are chosen, and its text is made with them if it has others; while it `is_recorded`, that is to follow.
    Returns its options then, and the messages. Refused if it can't have them."""
    chosen = prepares()(game.options, lambda: has_moves)
    options, told = game.options.with_tags_of(chosen.options), chosen.told
    needs_text = options.of_record() != game.options.of_record()
    if needs_text and not is_recorded:
        Text(game).look(end_mark(game.paths))
    keep_options(game.paths, options)
    if needs_text and not is_recorded:
        told = (*told, *filter(None, [made_of(game, Text(replace(game, options=options)).make(end_mark(game.paths)))]))
    elif not needs_text and game.written.last:
        game.written.last = game.written.last[0], options
    return options, told


# What is still to be done then.


def told_of_round(paths: Paths) -> str:
    """When the text of its round has what was changed; empty if it is of no round."""
    of_round = ROUND if paths.folder == "." else f"{paths.folder}/{ROUND}"
    if not all(os.path.lexists(f"{of_round}.{ending}") for ending in ("log", "pgn")):
        return ""
    return Message("text.at_next_start", round=of_round)


def told_of_series(paths: Paths) -> str:
    """How a game of a series goes on, though the next one was begun; empty if it wasn't."""
    if next_of(paths) is None:
        return ""
    first = told_of_next(paths)
    if first:
        return Message("text.in_a_series_first", dgt_live=DGT_LIVE, name=paths.name, first=first)
    return Message("text.in_a_series", dgt_live=DGT_LIVE, name=paths.name)


def told_of_next(paths: Paths) -> str:
    """What to do if the next game of a series has moves of this one; empty if it has no move."""
    following = next_of(paths)
    try:
        if following is None or is_unplayed(existing(following.pgn)):
            return ""
    except OSError:
        return ""
    return Message("text.moves_of_the_game_before", following=following.name, name=paths.name, dgt_live=DGT_LIVE)


def next_of(paths: Paths) -> Optional[Paths]:
    """The next game of a series, if it was begun."""
    name, dash, number = paths.name.rpartition("-")
    if not (dash and number.isascii() and number.isdigit() and len(number) < LONGEST_NUMBER):
        return None
    following = Paths(f"{name}-{int(number) + 1}")
    return following if os.path.lexists(following.capture) else None


def publish_now(paths: Paths) -> str:
    """Publishes the text of a game that nobody records. Returns a message about it."""
    kept = kept_options(paths)
    try:
        text = existing(paths.pgn)
        put_in_place(paths.broadcast, published(text, dict(kept.tags) if kept else {}, told_to_readers(forfeit_of(paths, text))))
    except OSError as error:
        raise Refused(FAILED, not_written(paths.broadcast, error)) from None
    return Message("text.has_its_tags", path=paths.broadcast)
