"""Another version takes the place of the program while a round is recorded."""

import pathlib

from played.back import answered
from played.stage import same, stop
from played.upgraded import copied, upgrade
from rounds.hall import Hall


def upgraded(folder: pathlib.Path) -> None:
    """Nothing of the other version is used: both boards play on, and get what is typed."""
    command = copied(folder / "program", "dgt_round")
    hall = Hall(folder, 2)
    live = hall.record(program=command, typed=True)
    hall.begun(live)
    hall.play(0, 3)
    upgrade(command.parent)
    answered(live, "1 Nc6", "2... Nc6")
    answered(live, "2 e6", "2... e6")
    answered(live, "1 back", "taken off: 2... Nc6")
    hall.play(3, 4)
    hall.until_plies(4)
    hall.until_round()
    same(stop(live), 0)


CASES = [upgraded]
