"""When a recorder wants to be woken, beside its requests: an idle board is asked once a second, and woken for that alone."""

from typing import List, Tuple

from attending.answers import Answer, Entry, brings
from attending.asked import OWN, begun
from attending.host import Call, Host
from attending.pictures import INITIAL, dump, picture
from decided.table import same

SECOND, MINUTE = 1000, 60_000  # milliseconds
LATE = 50  # milliseconds after which a board answers
Woken = List[Tuple[int, str]]  # when, and what was sent then


def lives(call: Call, until: int, answers: bool) -> Woken:
    """An idle board at the start, that answers each request or none; when its recorder was woken, and what the board was sent then."""
    found: Woken = []
    answer: Answer = call.tell(Entry(0, "opened"))
    while True:
        if answer.asked and answers:
            answer = call.tell(brings(call.now + LATE, "heard", dump(picture(INITIAL))))
            continue
        if call.due is None or call.due > until:
            return found
        answer = call.wake(call.due)
        found.append((call.now, answer.asked))


def idle() -> None:
    """Each second, for a dump."""
    with Host() as host:
        same("a board that agrees", lives(begun(host), MINUTE, True), [(at, "B") for at in range(SECOND, MINUTE + 1, SECOND)])


def numbered() -> None:
    """The first three dumps may end what is held, and bring no other wake; the number is asked for with two more requests."""
    expected = [(at, "EB" if at <= 2 * SECOND else "B") for at in range(SECOND, 10 * SECOND + 1, SECOND)]
    with Host() as host:
        same("a board that sends no number", lives(begun(host, OWN), 10 * SECOND, True), expected)


def silent() -> None:
    """What is held ends after five seconds, when the board is asked too."""
    with Host() as host:
        same("a board that sends nothing", lives(begun(host, OWN), MINUTE, False), [(at, "EBK") for at in range(SECOND, MINUTE + 1, SECOND)])


def unplugged() -> None:
    """Never while the line is gone."""
    with Host() as host:
        call = begun(host)
        lives(call, SECOND, True)
        same("a line that is gone", call.tell(Entry(call.now + LATE, "gone")).due, None)


TABLES = [idle, numbered, silent, unplugged]
