"""Another version takes the place of the program while it records, as an upgrade does."""

import contextlib
import os
import pathlib
import shutil
from typing import Callable, Optional

from play_board import BLACK, KING
from played import TOP, words
from played.back import answered
from played.recorder import Live
from played.renamed import has
from played.series import play
from played.stage import RUY, RUY_TEXT, a_board, begun, bytes_of, program, same, stop, until, until_game, until_line

OTHER = "raise SystemExit('another version')\n"  # which the system can't run as a program


def copied(place: pathlib.Path, command: str) -> pathlib.Path:
    """The command in a folder of its own, with all that it needs."""
    (place / "lib").mkdir(parents=True)
    shutil.copytree(TOP / "live", place / "live", ignore=shutil.ignore_patterns("__pycache__"))
    shutil.copytree(TOP / "shared", place / "shared")
    shutil.copy(TOP / "bin" / command, place)
    shutil.copy(program(), place / "lib" / "dgt_replay")
    return place / command


def upgrade(place: pathlib.Path) -> None:
    """Each file is replaced by another one, as dpkg does it."""
    for path in [path for path in place.rglob("*") if path.is_file()]:
        new = path.with_name(f"{path.name}.dpkg-new")
        new.write_text(OTHER)
        new.chmod(0o755)
        os.replace(new, path)


def overwrite(place: pathlib.Path) -> None:
    """Each file loses its end, but for the program, which the system lets nobody write while it runs."""
    for path in [path for path in place.rglob("*") if path.is_file()]:
        with contextlib.suppress(OSError):
            os.truncate(path, 100)


def goes_on(folder: pathlib.Path, change: Callable[[pathlib.Path], None], limit: Optional[int] = None) -> None:
    """A move, a way back, a first tag and a result are typed to a recorder whose files have become others."""
    command = copied(folder / "program", "dgt_live")
    board = a_board(folder)
    live = Live(board.device, folder / "game", program=command, typed=True, limit=limit)
    begun(live)
    play(board, RUY[:4])
    until_game(live.name, "1. e4 e5 2. Nf3 Nc6 *")
    change(command.parent)
    answered(live, "Bb5", "3. Bb5")
    until_game(live.name, RUY_TEXT)
    answered(live, "back", "back to 2... Nc6; taken off: 3. Bb5")
    until_game(live.name, "1. e4 e5 2. Nf3 Nc6 *")
    answered(live, "name WhiteElo=2000", "WhiteElo is now 2000")
    answered(live, "1-0", "1-0")
    until_game(live.name, "1. e4 e5 2. Nf3 Nc6 1-0")
    same((stop(live), has(f"{live.name}.broadcast.pgn", 'WhiteElo "2000"')), (0, True))


def upgraded(folder: pathlib.Path) -> None:
    """Another version is installed while a game is recorded, and nothing of it is used: what is typed then is put in."""
    goes_on(folder, upgrade)


def overwritten(folder: pathlib.Path) -> None:
    """The files of the program are overwritten where they are, with their ends missing: what is typed then is put in."""
    goes_on(folder, overwrite)


def upgraded_under_a_limit(folder: pathlib.Path) -> None:
    """The same where the system lets no file have more than a MiB: no file in memory either."""
    goes_on(folder, upgrade, 1 << 20)


def upgraded_in_a_series(folder: pathlib.Path) -> None:
    """Another version is installed in the first game of a series: the second one begins, and gets what is typed."""
    command = copied(folder / "program", "dgt_live")
    board = a_board(folder)
    live = Live(board.device, folder / "club", "--series", program=command, typed=True)
    begun(live)
    board.play("e2e4")
    until_game(folder / "club-1", "1. e4 *")
    upgrade(command.parent)
    board.kings_in_centre("e4", "d5")
    until_line(live, f"club-2 {words.BEGINS}")
    until_game(folder / "club-1", "1. e4 1-0")
    board.set_up(last=(KING, BLACK + KING))
    until(lambda: len(bytes_of(folder / "club-2.dgt")) >= 67, "a dump")
    board.play("d2d4")
    until_game(folder / "club-2", "1. d4 *")
    answered(live, "d5", "1... d5")
    until_game(folder / "club-2", "1. d4 d5 *")
    same(stop(live), 0)


CASES = [upgraded, overwritten, upgraded_under_a_limit, upgraded_in_a_series]
