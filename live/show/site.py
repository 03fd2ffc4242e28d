"""A static site of a tournament: a list of rounds with their results, and a page for each round, in files that any web host serves.

What it has comes from the broadcast alone, so it is as late as that. Each file is put in place whole, beside the loop: first the
games, then what names them.
"""

from __future__ import annotations

import contextlib
import html
import json
import os
import pathlib
import re
import time
from typing import Any, Callable, Dict, FrozenSet, List, Mapping, Sequence, Tuple

from live.board.state import trouble_of
from live.game.files import new_of, put_in_place
from live.game.making_pgn import Made
from live.out.broadcast import Broadcast
from live.out.publish import outcome
from live.out.spectators import SpectatorBoard, json_text, pgn_path, printed, round_pgn, round_text
from live.run.loop import Guard, Restarted, Turns, Worker
from live.run.refused import REFUSED, Refused
from live.show.page import FOLDER, SPECTATORS, Title, index_of
from live.show.view import RoundView
from live.words.message import Message

LOOK = 1.0  # seconds between two checks
AGAIN = 5.0  # seconds until it is tried again after an error
RENEWED = 30.0  # seconds after which a state that hasn't changed is written again: a page that finds it older says so
STATE = "state.json"
MARK = "dgt_round.txt"  # in the folder of a site: what else is in there is a site's
MARKED = b"dgt_round keeps a site in this folder. It replaces and removes files here.\n"
HERE = ""  # the folder of what it names
ROUND_FOLDER = re.compile(r"round([0-9]{0,3})")
GAME = re.compile(r"round[0-9]{0,3}/[0-9]{2,}\.pgn")  # the file of one board
POLICY = "default-src 'self'; img-src 'self' data:; base-uri 'none'; form-action 'none'"
REFRESH = '<meta http-equiv="refresh" content="60">'
Texts = Dict[str, bytes]  # by path in the folder, in the order of their writing


def page_files() -> Texts:
    """What every round's page uses."""
    return {name: (FOLDER / name).read_bytes() for name in (*SPECTATORS.files, "site.css")}


def round_page() -> bytes:
    """The spectators' page, with paths that lead out of a round's folder, which asks for files."""
    text = index_of(SPECTATORS).decode("utf-8")
    text = re.sub(r'(href|src)="/(?!round\.pgn)', r'\1="../', text).replace('"/round.pgn"', '"round.pgn"')
    text = text.replace("<nav>", f'<nav><a href="../index.html">{_text(Message("site.all_rounds"))}</a>')
    text = text.replace('<html lang="en">', '<html lang="en" data-files="">')
    return text.replace('<meta charset="utf-8">', f'<meta charset="utf-8">\n  {_policy()}', 1).encode("utf-8")


def _policy() -> str:
    return f'<meta http-equiv="Content-Security-Policy" content="{POLICY}">'


Matches = Tuple[Tuple[str, object], ...]  # what is said of them


def state_text(title: Title, boards: Sequence[SpectatorBoard], matches: Matches, offset: float) -> bytes:
    """A round in JSON. The games are beside it."""
    said = RoundView(title.event, said=(*title.said, *matches))
    return round_text(said.values, [board.text(offset, None, HERE) for board in boards])


def round_texts(folder: str, title: Title, boards: Sequence[SpectatorBoard], matches: Matches, offset: float) -> Texts:
    """The files of a round."""
    games = {folder + pgn_path(board.number): board.pgn for board in boards}
    return {
        **games,
        f"{folder}/round.pgn": round_pgn(board.pgn for board in boards),
        f"{folder}/{STATE}": state_text(title, boards, matches, offset),
        f"{folder}/index.html": round_page(),
    }


def stamped(state: bytes, now: float, ended: bool) -> bytes:
    """A round's JSON with the time of its writing, in seconds since 1970, and whether it is the last one."""
    return json_text({"written": round(now, 1), "ended": ended})[:-1] + b"," + state[1:]


def list_page(event: str, rounds: Mapping[str, Mapping[str, object]]) -> bytes:
    """All rounds with their results, from what each has in its JSON."""
    parts: List[str] = []
    for folder, state in sorted(rounds.items(), key=lambda one: _number(one[0])):
        name = Message("site.round", number=state["round"]) if state.get("round") else Message("site.the_round")
        parts.append(f'<section><h2><a href="{folder}/index.html">{_text(name)}</a></h2>\n<table>{_rows(state, folder)}</table>'
                     f'<p><a href="{folder}/round.pgn" download>{_text(Message("site.pgn_of_all"))}</a></p></section>')  # fmt: skip
    head = f'<meta charset="utf-8">\n{_policy()}\n<meta name="viewport" content="width=device-width, initial-scale=1">\n{REFRESH}'
    links = '<link rel="icon" href="icon.svg">\n<link rel="stylesheet" href="page.css">\n<link rel="stylesheet" href="site.css">'
    title, body = _text(event), '<body class="alone">' if len(rounds) == 1 else "<body>"
    return (f'<!DOCTYPE html>\n<html lang="en">\n<head>\n{head}\n<title>{title}</title>\n{links}\n</head>\n{body}\n'
            f"<header><h1>{title}</h1></header>\n<main>\n" + "\n".join(parts) + "\n</main>\n</body>\n</html>\n").encode("utf-8")  # fmt: skip


def _text(value: object) -> str:
    return html.escape(str(value))


def _objects_of(state: Mapping[str, object], name: str) -> List[Mapping[str, Any]]:
    objects = state.get(name)
    return [one for one in objects if isinstance(one, dict)] if isinstance(objects, list) else []


def _rows(state: Mapping[str, object], folder: str) -> str:
    """The boards of a round, those of a match below its score."""
    rows = {board.get("number"): _row(board, folder) for board in _objects_of(state, "boards")}
    parts: List[str] = []
    for match in _objects_of(state, "matches"):
        (one, other), points = map(_text, match["teams"]), "–".join(map(printed, match["points"] or ())) or "–"
        why = f" <small>{_text(Message('site.no_score', why=match['why']))}</small>" if match.get("why") else ""
        heading = f'<th colspan="4" scope="rowgroup"><bdi>{one}</bdi> <b>{points}</b> <bdi>{other}</bdi>{why}</th>'
        parts.append(f'<tbody><tr class="match">{heading}</tr>\n{"".join(rows.pop(number, "") for number in match["boards"])}</tbody>')
    return "".join([*parts, *rows.values()])


def _row(board: Mapping[str, object], folder: str) -> str:
    forfeit, result = str(board.get("forfeit", "")), str(board.get("result", "*"))
    score = Message("site.forfeit", score=forfeit) if forfeit else "" if result == "*" else result
    number = int(str(board.get("number", 0)))
    names = [f"<td><bdi>{_text(board.get(side, ''))}</bdi>{_whence(board, index)}</td>" for index, side in enumerate(("white", "black"))]
    link = f'<th scope="row"><a href="{folder}/index.html#{number}">{number}</a></th>'
    return f"<tr>{link}{names[0]}<td>{_text(score.replace('1/2', '½').replace('-', '–'))}</td>{names[1]}</tr>\n"


def _whence(board: Mapping[str, Any], index: int) -> str:
    """A player's federation and team, if they are known."""
    known = [str(board[what][index]) for what in ("federations", "teams") if board.get(what)]
    text = _text(", ".join(filter(None, known)))
    return f" <small><bdi>{text}</bdi></small>" if text else ""


def _number(folder: str) -> int:
    found = ROUND_FOLDER.fullmatch(folder)
    return int(found[1] or 0) if found else 0


def why_no_site(folder: pathlib.Path) -> str:
    """Why no site may be written into a folder, in words; empty if one may: it isn't there, or is empty, or has the mark; and it has no
    games. Raises OSError if it can't be looked at."""
    if not folder.is_dir():
        return ""
    games = sorted([*folder.glob("*.dgt"), *folder.glob("*/*.dgt")])
    if games:
        return Message("site.has_games", game=games[0])
    names = {path.name for path in folder.iterdir()} - {new_of(MARK)}
    return Message("site.has_files", file=folder / min(names), mark=MARK) if names and MARK not in names else ""


def refuse_no_site(option: str, folder: pathlib.Path) -> None:
    """Refuses a folder that may have no site. One that can't be looked at can't be written either, and that is said later."""
    with contextlib.suppress(OSError):
        why = why_no_site(folder)
        if why:
            raise Refused(REFUSED, Message("site.refused", option=option, folder=folder, why=why))


def kept_rounds(folder: pathlib.Path) -> Dict[str, Mapping[str, object]]:
    """The rounds that the folder has, as far as they can be read."""
    found: Dict[str, Mapping[str, object]] = {}
    for path in folder.glob(f"round*/{STATE}"):
        try:
            state = json.loads(path.read_bytes())
        except (OSError, ValueError):
            continue
        if ROUND_FOLDER.fullmatch(path.parent.name) and isinstance(state, dict):
            found[path.parent.name] = state
    return found


class SiteFiles:
    """Keeps a round's part of the site up to date, as a broadcast shows it, and the list. `says` gets lines for the screen, `trouble`
    errors that should never happen."""

    def __init__(
        self, loop: Turns, folder: pathlib.Path, title: Title, broadcast: Broadcast, says: Callable[[str], None], trouble: Callable[[str], None]
    ) -> None:
        self._loop, self._folder, self._title, self._broadcast, self._says = loop, folder, title, broadcast, says
        number = title.round if re.fullmatch("[0-9]{1,3}", title.round) else ""
        self._round = f"round{number}"
        self._offset = time.time() - loop.now()
        self._written: Texts = {}  # each state without its time
        self._games: FrozenSet[str] = frozenset()  # the files of the round's games
        self._renewed_at = -RENEWED
        self._told = ""
        self._part = Restarted(loop, self._begin, trouble, AGAIN)

    def _begin(self, guard: Guard) -> None:
        self._worker = Worker(guard)
        guard.opened(self._worker.close)
        guard.after(0, self._look)

    def _texts(self, renews: bool) -> Texts:
        """The files that have changed; with them, or if it is to be renewed, the state."""
        boards = self._broadcast.boards
        if not boards:
            return {}
        of_round = round_texts(self._round, self._title, boards, self._broadcast.matches, self._offset)
        self._games = frozenset(self._round + pgn_path(board.number) for board in boards)
        self._written = {name: text for name, text in self._written.items() if name in self._games or not GAME.fullmatch(name)}
        texts = of_round if self._written else {**page_files(), **of_round}
        changed = {name for name, text in texts.items() if self._written.get(name) != text}
        if changed or renews:
            changed.add(f"{self._round}/{STATE}")
        return {name: text for name, text in texts.items() if name in changed}

    def _look(self) -> None:
        """Writes what has changed, and looks again."""
        texts = self._texts(self._loop.now() >= self._renewed_at + RENEWED)
        if not texts:
            self._part.guard.after(LOOK, self._look)
            return
        now = self._loop.now()

        def done(made: Made) -> None:
            self._take(texts, made, now)
            self._part.guard.after(AGAIN if made.trouble else LOOK, self._look)

        self._worker.do(lambda: self._write(texts, False), done)

    def _write(self, texts: Texts, ended: bool) -> Made:
        """Writes these files; the state has the time."""
        state = f"{self._round}/{STATE}"
        of_now = {name: stamped(text, time.time(), ended) if name == state else text for name, text in texts.items()}
        return outcome(lambda: write(self._folder, self._title.event, self._round, of_now, self._games))

    def _take(self, texts: Texts, made: Made, now: float) -> None:
        if made.trouble:
            if not self._told:
                self._says(Message("site.unwritten_again", trouble=trouble_of(made.full), folder=self._folder, why=made.trouble))
        else:
            self._written.update(texts)
            self._renewed_at = now
            if self._told:
                self._says(Message("site.written_again", folder=self._folder))
            self._broadcast.other_changed()
        self._told = made.trouble

    def finish(self) -> None:
        """Writes it a last time."""
        if self._part.closed:
            return
        self._worker.close()
        self._worker.wait()
        self._part.end()
        texts = self._texts(True)
        if texts:
            self._take(texts, self._write(texts, True), self._loop.now())

    def close(self) -> List[str]:
        """Writes it a last time, unless that is done. Returns what can't be written."""
        self.finish()
        return [Message("site.unwritten", folder=self._folder, why=self._told)] if self._told else []


def write(folder: pathlib.Path, event: str, this_round: str, texts: Texts, games: FrozenSet[str]) -> str:
    """Marks the folder, if it may have a site, and writes these files, each whole, and the list behind them. Last the games of boards that
    are no longer in the round go, which nothing names any more. Returns why the folder may have no site."""
    why = why_no_site(folder)
    if why:
        return why
    os.makedirs(folder, exist_ok=True)
    if not (folder / MARK).exists():
        put_in_place(folder / MARK, MARKED)
    os.makedirs(folder / this_round, exist_ok=True)
    for name, text in texts.items():
        put_in_place(folder / name, text)
    put_in_place(folder / "index.html", list_page(event, kept_rounds(folder)))
    for path in (folder / this_round).iterdir():
        name = f"{this_round}/{path.name}"
        if GAME.fullmatch(name) and name not in games:
            path.unlink()
    return ""
