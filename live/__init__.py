"""The live recorder: the code of `dgt_live` and `dgt_round`. A byte's way from a board to `round.pgn`:

`board/connection.py` reads it from its line (`line/line.py`) and passes it on to the session (`board/session.py`). `game/attending.py` tells it
to `dgt_replay live`, and `child/lines.py` reads the answer. What is kept goes into the capture, and when it came into the times beside it
(`game/kept.py`), before anything else is done. What the board is asked goes back through `board/cable.py`. Then the answer counts, in
the stage of the game (`board/playing.py`): its report is printed (`game/log.py`, `show/terminal.py`), NAME.pgn wanted anew
(`game/making_pgn.py`), its course kept (`game/game.py`), and the board's state shown (`board/state.py`). What goes up from the session are
values, which `board/board.py` takes in the same turn; from there they go to `board/single.py`, or to `round/row.py`. `out/publish.py`
puts `round.pgn` in place.

A typed line's way: `show/terminal.py`; `board/single.py`, or `round/round.py` and its row; `board/board.py`; `board/arbiter.py`, which obeys it. What
it means says `game/typed.py`, what it changes on the disk `game/changing.py`.

In that order:

`words/`: what people read, by keys of `shared/words.en.json`. It imports nothing of the other folders.
`run/`: the loop, guards, refusals: what all of these use.
`line/`: a board's line: a device here, or a serial server.
`child/`: the proved program: how it is called, what it is told, what it answers.
`game/`: a game: its files, its options, what an arbiter adds or takes off, where it ended.
`board/`: one board and its games, whatever goes wrong there; its state.
`table/`: the table of a round, a tournament, the tables of pairing programs.
`out/`: what goes out of games, and when; `round.pgn`.
`show/`: what a terminal and a browser show; the site.
`round/`: the boards of a round with their rows.
`doors/`: the command lines of `dgt_live` and `dgt_round`, and how a call ends.
"""

import sys
import types

# `dataclasses` imports `inspect`, which takes an eighth of a start. Before Python 3.12 it uses that only for a class without a docstring.
if sys.version_info < (3, 12) and not {"dataclasses", "inspect"} & set(sys.modules):
    unused = types.ModuleType("inspect")
    vars(unused)["signature"] = lambda described: ""
    sys.modules["inspect"] = unused
    __import__("dataclasses")
    del sys.modules["inspect"], unused
