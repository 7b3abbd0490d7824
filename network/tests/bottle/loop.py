"""The loop: virtual time, which jumps to the next timer once nobody can run, and machines on whose behalf code runs."""
import asyncio
import collections
import contextlib
import contextvars
import dataclasses
import hashlib
import heapq
import itertools
import random
import socket
import weakref
from asyncio import base_events
from typing import Any, Callable, Iterator, Optional

START = 1_000.0  # the virtual time at which a run begins
TURN = 1e-6  # seconds that a turn of the loop takes: some code relies on time going by between two readings
CALL = 0.0002  # mean seconds of a call in an executor
RATE = 1e8  # bytes a second on each connection


class Escaped(RuntimeError):
    """Something would leave the bottle: a real socket, a thread or a process."""


class Stuck(RuntimeError):
    """Nothing is ready, and no timer is set: the simulated world has come to a halt."""


@dataclasses.dataclass(eq=False)
class Machine:
    """A machine from its start until it ends or crashes. Its clock is ahead by `skew` seconds."""

    name: str
    host: str
    skew: float = 0.0
    alive: bool = True
    tasks: "weakref.WeakSet[asyncio.Task[Any]]" = dataclasses.field(default_factory=weakref.WeakSet)
    kept: list[object] = dataclasses.field(default_factory=list)  # what must not be freed, and so not run, once dead


OUTSIDE = Machine("outside", "10.0.0.254")
RUNNING = contextvars.ContextVar("machine", default=OUTSIDE)  # the machine on whose behalf the present callback runs


@contextlib.contextmanager
def on(machine: Machine) -> Iterator[None]:
    """Tasks that are created in this block run on a machine."""
    token = RUNNING.set(machine)
    try:
        yield
    finally:
        RUNNING.reset(token)


class Clocks(base_events.BaseEventLoop):
    """The loop without connections: time, the order of what is ready, and calls in executors."""

    def __init__(self, seed: int):
        super().__init__()
        self.drawn, self.now, self.turns = random.Random(seed), START, 0
        self.trace, self.events = hashlib.sha256(), collections.deque[str](maxlen=100)
        self.lanes: dict[object, collections.deque[Any]] = collections.defaultdict(collections.deque)
        self.set_task_factory(self.make_task)
        self.ports = itertools.count(20_000)

    @staticmethod
    def make_task(loop: asyncio.AbstractEventLoop, work: Any, context: Any = None) -> "asyncio.Task[Any]":
        task = asyncio.Task(work, loop=loop, context=context)
        RUNNING.get().tasks.add(task)
        return task

    def time(self) -> float:
        return self.now

    def note(self, *words: object) -> None:
        """Add an event to the trace, which is the same for the same seed."""
        text = " ".join(map(str, (f"{self.now:.6f}", *words)))
        self.events.append(text)
        self.trace.update(text.encode())

    def _run_once(self) -> None:
        timers: list[Any] = self._scheduled  # type: ignore[attr-defined]
        ready: collections.deque[Any] = self._ready  # type: ignore[attr-defined]
        while timers and timers[0]._cancelled:
            self._timer_cancelled_count -= 1
            heapq.heappop(timers)._scheduled = False
        if not ready and not self._stopping:  # type: ignore[attr-defined]
            if not timers:
                raise Stuck(f"at {self.now:.3f} s")
            self.now = max(self.now, timers[0]._when)
        self.now += TURN
        while timers and timers[0]._when <= self.now:
            timer = heapq.heappop(timers)
            timer._scheduled = False
            ready.append(timer)
        batch = [*ready]
        ready.clear()
        self.drawn.shuffle(batch)
        self.turns += 1
        for handle in batch:
            if not handle._cancelled and handle._context.get(RUNNING, OUTSIDE).alive:
                handle._run()

    def run_in_executor(self, executor: Any, call: Callable[..., Any], *words: Any) -> "asyncio.Future[Any]":
        """Make the call soon, inline; those of an executor with one thread in their order."""
        told, machine = self.create_future(), RUNNING.get()
        alone = getattr(executor, "_max_workers", 9) == 1
        lane = self.lanes[machine, id(executor)] if alone else collections.deque[Any]()
        lane.append((told, call, words))

        def run() -> None:
            told, call, words = lane.popleft()
            if told.cancelled():
                return
            try:
                told.set_result(call(*words))
            except StopIteration as fault:
                told.set_exception(RuntimeError(str(fault)))
            except Exception as fault:
                told.set_exception(fault)

        self.call_later(self.drawn.expovariate(1 / CALL), run)
        return told

    def _write_to_self(self) -> None:
        pass  # nothing waits in a selector

    def _process_events(self, events: Any) -> None:
        pass

    def add_signal_handler(self, *_: Any) -> None:  # type: ignore[override]
        pass

    def remove_signal_handler(self, *_: Any) -> bool:
        return True

    async def subprocess_exec(self, *_: Any, **__: Any) -> Any:
        raise Escaped("a process")

    subprocess_shell = subprocess_exec

    async def getaddrinfo(self, host: Any, port: Any, **_: Any) -> Any:
        return self.lookup(host, port)

    @staticmethod
    def lookup(host: Any, port: Any, *_: Any, **__: Any) -> list[Any]:
        return [(socket.AF_INET, socket.SOCK_STREAM, 6, "", (host or "0.0.0.0", int(port or 0)))]


Made = Optional[Callable[[], Any]]  # what makes the protocol of a connection that comes
