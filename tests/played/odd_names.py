"""Odd names of players, events and files: recorded as they are typed, or refused at once with what to type."""

import pathlib

from played.recorder import Live
from played.stage import a_board, begun, bytes_of, refuses, same, stop, until_game, until_line

ODD = {  # what is typed as a name, and what stands between the quotes of its tag
    "-": "-",
    "--": "--",
    "-1": "-1",
    "-bye-": "-bye-",
    "- Open -": "- Open -",
    "--white": "--white",
    "=x": "=x",
    " x ": " x ",
    "O'Neill, \"Jim\"": "O'Neill, \\\"Jim\\\"",
    "C:\\": "C:\\\\",
}
NO_NAMES = {  # what can't be recorded, and a part of the answer
    "x" * 101: "write at most 100",
    "a\nb": "in one line",
    "a\u2028b": "write it with the letters A to Z",
    "a\udcffb": "write it with the letters A to Z",
}


def odd_names(folder: pathlib.Path) -> None:
    """Names that look like options, and other odd ones, are recorded as they are typed, or refused at once with what to type; a
    game goes on with them. So it is with its files' name."""
    lives = []
    for number, typed in enumerate(ODD):
        place = folder / str(number)
        place.mkdir()
        board = a_board(place)
        texts = [f"--{tag}={typed}" for tag in ("white", "black", "event", "site", "round")]
        lives.append((board, Live(board.device, "./-game" if number == 0 else "game", *texts, cwd=place), place, typed))
    for board, live, _, _ in lives:
        begun(live)
        board.play("e2e4")
    for number, (_, live, place, typed) in enumerate(lives):
        name = place / ("-game" if number == 0 else "game")
        until_game(name, "1. e4 *")
        lines = bytes_of(f"{name}.pgn").decode().splitlines()
        written = [line for line in lines if line.startswith(("[White ", "[Black ", "[Event ", "[Site ", "[Round "))]
        same(written, [f'[{tag} "{ODD[typed]}"]' for tag in ("Event", "Site", "Round", "White", "Black")])
        same(stop(live), 0)
    board, live, place, typed = lives[3]
    again = Live(board.device, "game", "--white", typed, "--black", typed, "--event", typed, "--site", typed, "--round", typed, cwd=place)
    until_line(again, "1. e4")
    board.play("e7e5")
    until_game(place / "game", "1. e4 e5 *")
    same(stop(again), 0)
    spare = a_board(folder)
    calls = [(Live(spare.device, folder / "none", "--white", typed), part) for typed, part in NO_NAMES.items()]
    for live, part in calls:
        refuses(live, 1, part)
    for options, part in ((["--white", "--rotated"], "--white=--rotated"), (["-game"], "./-game")):
        refuses(Live(spare.device, folder / "none", *options), 2, part)
    same((list(folder.glob("none*")), spare.asked), ([], b""))
