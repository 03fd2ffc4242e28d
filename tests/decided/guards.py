"""What a guard lets through: an error ends the part that raised it, and no other."""

import functools
import os
import threading
from typing import Callable, List

from live.run.loop import Guard, Loop, Worker, traced

from decided.table import same


def raises(error: Exception) -> Callable[[], None]:
    def call() -> None:
        raise error

    return call


def run_until(loop: Loop, holds: Callable[[], object]) -> None:
    """Runs the loop until it holds, or for a minute."""

    def look() -> None:
        if holds() or loop.now() > over:
            loop.stop()
        else:
            loop.after(0.002, look)

    over = loop.now() + 60
    loop.after(0, look)
    loop.run()


def one_part() -> None:
    """Errors of each kind, at a timer, at a file descriptor, in the next turn and in a job: the other part goes on."""
    for error in (OSError(24, "Too many open files"), ValueError("embedded null byte"), OverflowError("too large")):
        for where in ("after", "watch", "soon", "job", "call"):
            loop = Loop()
            told: List[Exception] = []
            ticks: List[str] = []
            closed: List[str] = []
            noted: List[Exception] = []
            guard, other = Guard(loop, told.append, noted.append), Guard(loop, told.append, noted.append)
            read, write = os.pipe()
            os.write(write, b"x")
            close = guard.opened(lambda: closed.append("first"))
            closing = OSError("as it is closed")
            guard.opened(raises(closing))
            guard.opened(lambda: closed.append("last"))
            worker = Worker(guard)
            if where == "after":
                guard.after(0, raises(error))
            elif where == "watch":
                guard.watch(read, raises(error))
            elif where == "soon":
                guard.soon(raises(error))
            elif where == "job":
                worker.do(raises(error), lambda result: None)
            else:
                guard.call(raises(error))
            later = guard.after(1000, lambda: ticks.append("its own"))
            run_until(loop, lambda: told)
            later.callback()
            guard.soon(lambda: ticks.append("its own, soon"))
            other.after(0, lambda: ticks.append("the other's"))
            run_until(loop, lambda: ticks)
            close()
            guard.watch(read, lambda: ticks.append("again"))
            same(f"{error!r} in {where}", (told, ticks, closed), ([error], ["the other's"], ["last", "first"]))
            same(f"{error!r} in {where}: what is noted", noted, [closing])
            same(f"{error!r} in {where}: who has ended", (guard.ended, other.ended), (True, False))
            worker.close()
            os.close(read)
            os.close(write)


def jobs() -> None:
    """What a job raises comes as it was raised, each time."""
    loop = Loop()
    told: List[Exception] = []
    for number in range(50):
        error = ValueError(str(number))
        guard = Guard(loop, told.append, told.append)
        worker = Worker(guard)
        worker.do(raises(error), lambda result: None)
        run_until(loop, lambda: len(told) > number)
        worker.close()
    same("what came", [str(error) for error in told], [str(number) for number in range(50)])


def closed_once() -> None:
    """What was opened is closed once, by whoever is first."""
    closed: List[str] = []
    guard = Guard(Loop(), lambda error: None, lambda error: None)
    close = guard.opened(lambda: closed.append("file"))
    close()
    close()
    guard.end()
    guard.end()
    same("closed", closed, ["file"])
    try:
        raise ValueError("wrong")
    except ValueError as error:
        text = traced(error)
    first, *_, last = text.splitlines()
    same("a traceback", (first, last), ("Traceback (most recent call last):", "ValueError: wrong"))


def job_after_the_end() -> None:
    """What a job raises after its part has ended is noted."""
    loop = Loop()
    told: List[Exception] = []
    noted: List[Exception] = []
    guard = Guard(loop, told.append, noted.append)
    worker = Worker(guard)
    guard.opened(worker.close)
    error, begun, ended = ValueError("late"), threading.Event(), threading.Event()

    def job() -> None:
        begun.set()
        ended.wait()
        raise error

    worker.do(job, lambda result: None)
    begun.wait()
    guard.soon(guard.end)
    guard.soon(lambda: told.append(ValueError("called after the end")))
    loop.soon(ended.set)
    run_until(loop, lambda: noted)
    same("a job that raises late", (told, noted), ([], [error]))


class Fails(Loop):
    """A loop that fails once to forget a file descriptor."""

    def __init__(self) -> None:
        self.errors: List[Exception] = []
        super().__init__()

    def forget(self, number: int) -> None:
        if self.errors:
            raise self.errors.pop()
        super().forget(number)


def hears(guard: Guard, number: int, heard: List[str]) -> None:
    heard.append("by the second")
    guard.forget(number)


def forgotten_all_the_same() -> None:
    """Where a descriptor can't be forgotten that is told, and the next file with its number is heard."""
    for error in (OSError(), ValueError(), KeyError()):
        for ends in (True, False):
            loop = Fails()
            told: List[Exception] = []
            noted: List[Exception] = []
            heard: List[str] = []
            guard, other = Guard(loop, told.append, noted.append), Guard(loop, told.append, noted.append)
            read, write = os.pipe()
            guard.watch(read, lambda: heard.append("by the first"))
            loop.errors = [error]
            if ends:
                guard.end()
            else:
                guard.call(functools.partial(guard.forget, read))
            os.close(read)
            os.close(write)
            another, write = os.pipe()
            again = os.dup2(another, read)  # the same number
            other.watch(again, functools.partial(hears, other, again, heard))
            os.write(write, b"x")
            run_until(loop, lambda: heard)
            wanted = ([], [error]) if ends else ([error], [])
            same(f"{error!r} is told", (told, noted, heard), (*wanted, ["by the second"]))
            for number in {another, again, write}:
                os.close(number)


def taken_in_the_same_turn() -> None:
    """What goes up during a callback is taken right after it, in order, and nothing is if nothing went up. An error in that is the part's."""
    loop = Loop()
    got: List[object] = []
    told: List[Exception] = []

    def take() -> None:
        while guard.ups:
            got.append(guard.ups.popleft())
        if "the last" in got:
            raises(ValueError("taken"))()

    guard = Guard(loop, told.append, told.append, take)
    for name, ups, expected in (
        ("nothing goes up", [], []),
        ("two go up", ["one", "another"], ["one", "another"]),
        ("one more", ["a third"], ["one", "another", "a third"]),
    ):
        guard.call(functools.partial(guard.ups.extend, ups))
        same(name, (got, told, guard.ended), (expected, [], False))
    guard.after(0, lambda: guard.ups.append("the last"))
    run_until(loop, lambda: told)
    same("an error", ([str(error) for error in told], guard.ended), (["taken"], True))


TABLES = [one_part, jobs, closed_once, job_after_the_end, forgotten_all_the_same, taken_in_the_same_turn]
