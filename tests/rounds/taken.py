"""A page whose port another program has."""

import pathlib
import socket

from played import words
from played.ports import free_port
from played.recorder import Live
from played.stage import refuses, same, stop, until_line
from rounds.hall import Hall


def listening(port: int) -> socket.socket:
    """Another program that has this port."""
    line = socket.socket()
    line.setsockopt(socket.SOL_SOCKET, socket.SO_REUSEADDR, 1)
    line.bind(("127.0.0.1", port))
    line.listen()
    return line


def port_taken(folder: pathlib.Path) -> None:
    """A call that asks for a page is refused if another program has its port, and if another call records the boards. Then the place
    stays kept where they were shown. A call that would show them there records them all the same, and says why it doesn't. So it
    is with a round and with the game of a single board."""
    hall = Hall(folder, 1)
    port, taken = free_port(), free_port()

    def call(of_round: bool, *options: str) -> Live:
        return hall.record(*options) if of_round else Live(hall.boards[0].device, folder / "game", *options)

    def recorded(live: Live, *lines: str) -> None:
        for line in (words.AGREES, *lines):
            until_line(live, line)
        same(stop(live), 0)

    for of_round, kept in ((True, hall.games / "round.pages"), (False, folder / "game.pages")):
        is_taken = f"another program has port {taken}: give another one, or end that program"
        with listening(taken):
            recorded(call(of_round))
            refuses(call(of_round, "--page", str(taken)), 3, is_taken)
            assert not kept.exists(), kept.read_text()
            recorded(call(of_round, "--page", str(port)), f"is shown at http://127.0.0.1:{port}/")
            for option in ("--page", "--arbiter-page"):
                refuses(call(of_round, option, str(taken)), 3, is_taken)
                same(kept.read_text(), f"--page 127.0.0.1:{port}\n")
        live = call(of_round)
        until_line(live, f"is shown at http://127.0.0.1:{port}/")
        refuses(call(of_round, "--page", str(taken)), 1 if of_round else 3, "another")
        same(stop(live), 0)
        same(kept.read_text(), f"--page 127.0.0.1:{port}\n")
        with listening(port):
            recorded(call(of_round), f"no page can be served at 127.0.0.1:{port}", "it is recorded all the same. Put that right")
        same(kept.read_text(), f"--page 127.0.0.1:{port}\n")
        recorded(call(of_round), f"is shown at http://127.0.0.1:{port}/", "it is shown as before; --page no ends that")
