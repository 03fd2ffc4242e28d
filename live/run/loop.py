"""One loop for all boards: file descriptors that are ready, timers that are due, signals that end it; a guard between the loop and each
part of the recorder: an error in one board or one reader ends only that one, and some parts begin again then; a thread beside it, for jobs
that wait for the disk, or for a program to start; and what is done in steps, each of which waits for a job or for what the loop brings."""

from __future__ import annotations

import collections
import contextlib
import functools
import heapq
import itertools
import os
import queue
import select
import signal
import socket
import threading
import time
from dataclasses import dataclass
from typing import Callable, Deque, Dict, Generator, List, NoReturn, Optional, Set, Tuple, TypeVar, Union, cast


Callback = Callable[[], None]
ENDING = (signal.SIGINT, signal.SIGTERM, signal.SIGHUP)
PULSE = 1.0  # seconds after which the loop turns at the latest
MOST_FOUND = 32  # descriptors that are found ready at once: others are found in the next turn
READS, WRITES = select.EPOLLIN, select.EPOLLOUT
LONGEST = 5.0  # seconds for which a turn may come late: after more, nobody has listened to the boards meanwhile
MAY_READ, MAY_WRITE = ~WRITES, ~READS  # what else is reported, as that a line is gone, counts as both


@dataclass
class Watch:
    """What to call when a file descriptor can be read, or written."""

    readable: Optional[Callback]
    writable: Optional[Callback]

    def events(self) -> int:
        return (READS if self.readable else 0) | (WRITES if self.writable else 0)

    def end(self) -> None:
        """The descriptor is watched for something else now, or for nothing."""
        self.readable = self.writable = None


@dataclass
class Away:
    """How long the recorder was stopped, or the computer slept, in all. A value and no call: it is looked at with all that a board
    sends."""

    seconds: float = 0.0


@dataclass
class Timer:
    """A call at a time; it can be cancelled."""

    when: float
    callback: Callback
    cancelled: bool = False

    def cancel(self) -> None:
        self.cancelled = True


class Loop:
    """Calls what is ready, one after the other, until it is stopped. No call may wait for long."""

    def __init__(self) -> None:
        self._epoll = select.epoll()
        self._watches: Dict[int, Watch] = {}  # by their file descriptors
        self._timers: List[Tuple[float, int, Timer]] = []  # a heap: those for the same time are called in their order
        self._numbers = itertools.count()
        self._stopped = False
        self._has_called = False  # in this turn
        self._turn, self.away = self.counting(), Away()
        self._soon: Deque[Callback] = collections.deque()
        self._woken, self._wakes = socket.socketpair()
        self._woken.setblocking(False)
        self._wakes.setblocking(False)
        self.watch(self._woken.fileno(), self._call_soon)

    # Two clocks that nobody can set.
    now: Callable[[], float] = time.monotonic  # the time of all timers, which stands still while the computer sleeps
    counting = staticmethod(functools.partial(time.clock_gettime, time.CLOCK_BOOTTIME))  # which counts on

    def _turned(self, waited: float = 0.0) -> None:
        """A wait of at most so many seconds is over, or a call that another one follows: many slow ones are no time away."""
        now = self.counting()
        if now - self._turn > LONGEST:
            self.away.seconds += time_away(now - self._turn, waited)
        self._turn = now

    def watch(self, number: int, readable: Optional[Callback] = None, writable: Optional[Callback] = None) -> None:
        """Calls these from now on for the file descriptor; none if both are None."""
        watch, before = Watch(readable, writable), self._watches.pop(number, None)
        if before:
            before.end()
        if watch.events():
            if before:
                self._epoll.modify(number, watch.events())
            else:
                self._epoll.register(number, watch.events())
            self._watches[number] = watch
        elif before:
            with contextlib.suppress(OSError):  # it is closed
                self._epoll.unregister(number)

    def forget(self, number: int) -> None:
        """Call this before you close the file descriptor."""
        self.watch(number)

    def at(self, when: float, callback: Callback) -> Timer:
        """Calls it once, at this time."""
        timer = Timer(when, callback)
        heapq.heappush(self._timers, (when, next(self._numbers), timer))
        return timer

    def after(self, seconds: float, callback: Callback) -> Timer:
        """Calls it once, after this many seconds."""
        return self.at(self.now() + seconds, callback)

    def soon(self, callback: Callback) -> None:
        """Calls it once, in the next turn. Any thread may call this."""
        self._soon.append(callback)
        with contextlib.suppress(Exception):  # a full pipe wakes the loop all the same
            self._wakes.send(b"\0")

    def raised(self, error: Exception) -> None:
        """A thread has raised this error: it is raised in the next turn."""

        def again() -> None:
            raise error

        self.soon(again)

    def _call_soon(self) -> None:
        with contextlib.suppress(BlockingIOError):
            self._woken.recv(4096)
        while self._soon and not self._stopped:
            self._call(self._soon.popleft())

    def stop(self) -> None:
        """The loop ends after the present call."""
        self._stopped = True

    def close(self) -> None:
        """Gives up what it has open. It runs no more."""
        self._epoll.close()
        self._woken.close()
        self._wakes.close()

    def run(self) -> None:
        """Runs until it is stopped."""
        self._stopped = False
        while not self._stopped:
            for watch, events in self._ready():
                if events & MAY_READ:
                    self._call(watch.readable)
                if events & MAY_WRITE:
                    self._call(watch.writable)
            if self._timers and self._timers[0][0] <= self.now():
                self._call_timers()
            if self._soon:  # and the loop couldn't be woken for it
                self._call_soon()

    def _call(self, callback: Optional[Callback]) -> None:
        """Calls it, unless an earlier call has closed the descriptor or watched it for something else."""
        if callback and not self._stopped:
            if self._has_called:
                self._turned()
            self._has_called = True
            callback()

    def _ready(self) -> List[Tuple[Watch, int]]:
        """Waits until a descriptor is ready, or a timer due. Returns those that are ready: what is called meanwhile may end a watch."""
        timers, watches, wait = self._timers, self._watches, PULSE
        while timers and timers[0][2].cancelled:
            heapq.heappop(timers)
        if timers:
            left = timers[0][0] - self.now()
            if left < wait:
                wait = left if left > 0 else 0.0
        ready = []
        for number, events in self._epoll.poll(wait, MOST_FOUND):
            watch = watches.get(number)
            if watch:
                ready.append((watch, events))
        self._turned(wait)
        self._has_called = False
        return ready

    def _call_timers(self) -> None:
        now = self.now()
        while self._timers and self._timers[0][0] <= now and not self._stopped:
            _, _, timer = heapq.heappop(self._timers)
            if not timer.cancelled:
                self._call(timer.callback)


def time_away(seconds: float, waited: float) -> float:
    """The seconds between two turns, if they were a time away; else 0. The loop meant to wait for `waited` of them at most. They are
    those of a clock that counts on while the computer sleeps, and that nobody can set."""
    return seconds if seconds - waited > LONGEST else 0.0


class Signals:
    """INT, TERM and HUP call one function, in the loop. If the caller ignores HUP, as `nohup` does, it stays ignored; INT is taken
    even if a shell has started this in the background and ignores it. A terminal's stop signals are ignored: a recorder that is
    stopped takes no bytes from its boards."""

    def __init__(self) -> None:
        self._woken, wakes = socket.socketpair()
        self._woken.setblocking(False)
        wakes.setblocking(False)
        self._wakes = wakes
        self.came = self.hung_up = False
        signal.set_wakeup_fd(wakes.fileno(), warn_on_full_buffer=False)
        for number in ENDING:
            if number != signal.SIGHUP or signal.getsignal(number) != signal.SIG_IGN:
                signal.signal(number, self._note)
        for number in (signal.SIGTSTP, signal.SIGTTIN, signal.SIGTTOU, signal.SIGPIPE):
            signal.signal(number, signal.SIG_IGN)

    def _note(self, number: int, _frame: object) -> None:
        if number == signal.SIGHUP:
            self.hung_up = True
        else:
            self.came = True

    def tell(self, loop: Loop, ends: Callback, hangs_up: Optional[Callback] = None) -> None:
        """From now on each signal calls this, also one that has already come; HUP calls another function, if given."""

        def heard() -> None:
            hung_up, self.hung_up = self.hung_up, False
            if self.came or (hung_up and hangs_up is None):
                self.came = True
                ends()
            elif hung_up and hangs_up:
                hangs_up()

        def woken() -> None:
            try:
                while self._woken.recv(4096):
                    pass
            except BlockingIOError:
                pass
            heard()

        loop.watch(self._woken.fileno(), woken)
        if self.came or self.hung_up:
            loop.after(0, heard)


def close(number: Optional[int]) -> None:
    """Closes a file descriptor, if it is one."""
    if number is not None:
        os.close(number)


class Guard:
    """The loop's calls for one part. If a callback raises an error, this part ends: none of its callbacks is called any more, what
    it has open is closed, and `broke` gets the error. `notes` gets every other error: what else failed during closing, and what
    a job raised later. What goes up from the part during a callback is put into `ups`: `taken` is called then, in the same turn."""

    def __init__(
        self, loop: Turns, broke: Callable[[Exception], None], notes: Callable[[Exception], None], taken: Callback = lambda: None
    ) -> None:
        self._loop, self._broke, self._notes, self._taken = loop, broke, notes, taken
        self.ups: Deque[object] = collections.deque()
        self.now: Callable[[], float] = loop.now  # the time of all timers; it never goes back
        self.away: Away = loop.away
        self._watched: Set[int] = set()
        self._open: Dict[object, Callback] = {}  # closes each open thing, in the order of opening
        self.ended = False

    def watch(self, number: int, readable: Optional[Callback] = None, writable: Optional[Callback] = None) -> None:
        """Calls these from now on for the file descriptor; none if both are None."""
        if self.ended:
            return
        if readable or writable:
            self._watched.add(number)
            self._loop.watch(number, self._guarded(readable), self._guarded(writable))
        else:
            self.forget(number)

    def forget(self, number: int) -> None:
        """Call this before you close the file descriptor."""
        if number in self._watched:
            self._watched.discard(number)
            self._forget(number)

    def _forget(self, number: int) -> None:
        """Tries twice, and raises the first error: a new file with a number that is still watched would not be heard."""
        try:
            self._loop.forget(number)
        except Exception:
            self._loop.forget(number)
            raise

    def at(self, when: float, callback: Callback) -> Timer:
        """Calls it once, at this time."""
        return self._loop.at(when, lambda: self.call(callback))

    def after(self, seconds: float, callback: Callback) -> Timer:
        """Calls it once, after this many seconds."""
        return self._loop.at(self.now() + seconds, lambda: self.call(callback))

    def soon(self, callback: Callback) -> None:
        """Calls it once, in the next turn. Any thread may call this."""
        self._loop.soon(lambda: self.call(callback))

    def raised(self, error: Exception) -> None:
        """Another thread has raised this error for the part: in the next turn it ends the part, or is noted if the part has ended."""
        self._loop.soon(lambda: self._notes(error) if self.ended else self._ends_by(error))

    def call(self, callback: Callback) -> None:
        """Calls it now, unless the part has ended. An error ends the part."""
        if self.ended:
            return
        try:
            callback()
            if self.ups:
                self._taken()
        except Exception as error:
            self._ends_by(error)

    def _ends_by(self, error: Exception) -> None:
        self.end()
        self._broke(error)

    def opened(self, close: Callback) -> Callback:
        """Something was opened, and this closes it. The returned function closes it too: it is closed only once, at the latest
        when the part ends."""
        key = object()
        self._open[key] = close

        def once() -> None:
            if self._open.pop(key, None):
                close()

        return once

    def end(self) -> None:
        """Ends the part: calls nothing further, and closes what is open, the last first. A second call does nothing."""
        if self.ended:
            return
        self.ended = True
        closes: List[Callback] = [functools.partial(self._forget, number) for number in self._watched]
        closes += reversed(list(self._open.values()))
        self._watched.clear()
        self._open.clear()
        troubles: List[Exception] = []
        for close in closes:
            try:
                close()
            except Exception as error:
                troubles.append(error)
        for trouble in troubles:
            self._notes(trouble)

    def _guarded(self, callback: Optional[Callback]) -> Optional[Callback]:
        return functools.partial(self.call, callback) if callback else None


def traced(error: BaseException) -> str:
    """Where an error was raised, line by line."""
    lines, step = ["Traceback (most recent call last):"], error.__traceback__
    while step:
        code = step.tb_frame.f_code
        lines.append(f'  File "{code.co_filename}", line {step.tb_lineno}, in {code.co_name}')
        step = step.tb_next
    return "\n".join([*lines, f"{type(error).__name__}: {error}"])


Turns = Union[Loop, Guard]  # the loop, or as a part of the recorder has it


Result = TypeVar("Result")


class Worker:
    """Does one job after the other. A job gets what it needs by value, and changes nothing that the loop uses."""

    def __init__(self, loop: Turns) -> None:
        self._loop = loop
        self._jobs: queue.SimpleQueue[Optional[Callable[[], None]]] = queue.SimpleQueue()
        self._closed = False
        self._thread = threading.Thread(target=self._work, daemon=True)
        self._thread.start()

    def do(self, job: Callable[[], Result], done: Callable[[Result], None]) -> None:
        """Does this, and calls `done` in the loop. An error in the job is raised there too, even after `close`."""

        def work() -> None:
            try:
                result = job()
            except Exception as error:
                self._loop.raised(error)
            else:
                self._loop.soon(lambda: None if self._closed else done(result))

        self._jobs.put(work)

    def close(self) -> None:
        """Begins no further job, and reports no result any more."""
        self._closed = True
        self._jobs.put(None)

    def wait(self) -> None:
        """After `close`: waits for the running job."""
        self._thread.join()

    def _work(self) -> None:
        try:
            signal.pthread_sigmask(signal.SIG_BLOCK, ENDING)  # wakes the loop
        except Exception as error:
            self._loop.raised(error)
        for job in iter(self._jobs.get, None):
            if not self._closed:
                job()


Outcome = Callable[[], object]  # returns what was waited for, or raises its error
Resume = Callable[[Outcome], None]
Wait = Callable[[Resume], None]  # begins to wait; when that is over the loop calls `Resume`, once
Steps = Generator[Wait, object, Result]


def beside(worker: Worker, job: Callable[[], Result]) -> Steps[Result]:
    """Waits for a job that a worker does. Returns its result, or raises its error."""

    def work() -> Outcome:
        try:
            result = job()
        except Exception as error:
            return functools.partial(_raise, error)
        return lambda: result

    return cast(Result, (yield lambda resume: worker.do(work, resume)))


def _raise(error: Exception) -> NoReturn:
    raise error


def walk(steps: Steps[Result], done: Callable[[Union[Result, Exception]], None]) -> None:
    """Does all steps, as soon as each wait is over. `done` gets the result, or the error that ended them."""

    def resume(outcome: Outcome) -> None:
        result: Union[Result, Exception]
        try:
            try:
                value = outcome()
            except Exception as error:
                wait = steps.throw(error)
            else:
                wait = steps.send(value)
            wait(resume)
            return
        except StopIteration as ended:
            result = ended.value
        except Exception as error:
            result = error
        done(result)

    resume(lambda: None)


class Restarted:
    """A part that begins again, with another guard, some seconds after an error has ended it. `trouble` gets each error."""

    def __init__(self, loop: Turns, begins: Callable[[Guard], None], trouble: Callable[[str], None], pause: float) -> None:
        self._loop, self._begins, self._trouble, self._pause = loop, begins, trouble, pause
        self.closed = False
        self._begin()

    def _begin(self) -> None:
        self.guard = Guard(self._loop, self._broke, lambda error: self._trouble(traced(error)))
        self._begins(self.guard)

    def _broke(self, error: Exception) -> None:
        self._trouble(traced(error))
        self._loop.after(self._pause, self._begin_again)

    def _begin_again(self) -> None:
        if self.closed:
            return
        try:
            self._begin()
        except Exception as error:
            self.guard.end()
            self._broke(error)

    def end(self) -> None:
        """Ends it for good."""
        self.closed = True
        self.guard.end()
