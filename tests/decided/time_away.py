"""Which gaps between two turns of the loop are a time away."""

from live.run.loop import time_away

from decided.cases import cases
from decided.table import same


def turns() -> None:
    """Stopped, asleep, held up for a moment. The cases have two clocks, as a page does: one stands still while the computer sleeps,
    the other may be put back. The recorder's clock does neither, so it shows the longer of both times."""
    for name, before, now, waited, seconds in cases("time_away", "turns"):
        longer = max(later - earlier for earlier, later in zip(before, now))
        same(name, time_away(longer, waited), seconds)


TABLES = [turns]
