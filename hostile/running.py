"""Runs the program once, with a given input, output and limits."""
import contextlib
import os
import resource
import select
import signal
import time
from dataclasses import dataclass

MEBIBYTE = 1 << 20
PATIENCE = 10
SPARE = 64 * MEBIBYTE  # address space that this process must have left while it applies a run's limits to itself
OWN = object()  # stands for the runner's own file


@dataclass
class Outcome:
    """The result of a run."""
    status: int      # the exit status, or the number of the signal that ended it, negative
    text: bytes      # what was written to standard output
    errors: bytes    # what was written to standard error
    taken: int       # the number of bytes of input that were read; None if that is not known, as for a call
    seconds: float   # of processor time
    late: bool       # whether it took too long

    def took_other(self, count):
        """Return whether it is known that another number of bytes than `count` was read."""
        return self.taken not in (None, count)


@dataclass
class Limits:
    """What a run may use."""
    memory: int              # bytes of address space
    seconds: float           # of processor time; as real time it may take PATIENCE times as long
    room: int = None         # the most bytes of a file, or None for any

    def rows(self):
        """Return the kinds of limits with their sizes; that of memory is the last."""
        room = [] if self.room is None else [(resource.RLIMIT_FSIZE, self.room)]
        return room + [(resource.RLIMIT_AS, self.memory)]


@dataclass
class Zeros:
    """A long input: a front and then zero bytes, `size` bytes in all."""
    front: bytes
    size: int

    def __len__(self):
        return self.size

    def __bytes__(self):
        return self.front + bytes(self.size - len(self.front))


class Runner:
    """Runs a program, and uses the same files in memory for its input and output again and again."""

    def __init__(self, program):
        self.program = program
        resource.setrlimit(resource.RLIMIT_CORE, (0, 0))
        self.source, self.sink, self.errors = (os.memfd_create(name) for name in ("source", "sink", "errors"))

    def run(self, words, content, limits, **places):
        """Run once and return the outcome; `places` are arguments of `begin`."""
        return self.end(self.begin(words, content, limits, **places), limits)

    def begin(self, words, content, limits, source=OWN, sink=OWN, plain_pipe=False):
        """Begin a run; `end` waits for it. The input is the content, or comes from the descriptor `source`. The output
        is kept, or goes to the descriptor `sink`. With `plain_pipe` SIGPIPE has its default action."""
        self._fill(content)
        source = self.source if source is OWN else source
        sink = self.sink if sink is OWN else sink
        return self._start(words, source, sink, limits, plain_pipe)

    def end(self, started, limits):
        """Wait for a run that was begun, kill it if it hangs, and return its outcome."""
        process, begun = started
        hangs = not ended_in_time(process, begun + PATIENCE * limits.seconds)
        if hangs:
            os.kill(process, signal.SIGKILL)
        _, status, used = os.wait4(process, 0)
        seconds = used.ru_utime + used.ru_stime
        return Outcome(os.waitstatus_to_exitcode(status), whole(self.sink), whole(self.errors),
                       os.lseek(self.source, 0, os.SEEK_CUR), seconds, hangs or seconds > limits.seconds)

    def _fill(self, content):
        for descriptor in (self.source, self.sink, self.errors):
            os.ftruncate(descriptor, 0)
            os.lseek(descriptor, 0, os.SEEK_SET)
        if isinstance(content, Zeros):
            os.pwrite(self.source, content.front, 0)
            os.ftruncate(self.source, content.size)
        else:
            os.pwrite(self.source, content, 0)

    def _start(self, words, source, sink, limits, plain_pipe):
        begun = time.monotonic()
        places = (source, 0), (sink, 1), (self.errors, 2)
        start = self._spawn if limits.memory > own_memory() + SPARE else self._fork
        return start(words, places, limits, plain_pipe), begun

    def _spawn(self, words, places, limits, plain_pipe):
        """Start a run that inherits its limits from this process, which applies them meanwhile: cheaper than a fork."""
        actions = [(os.POSIX_SPAWN_CLOSE, place) if descriptor is None else (os.POSIX_SPAWN_DUP2, descriptor, place)
                   for descriptor, place in places]
        plain = [signal.SIGPIPE] if plain_pipe else []  # Python ignores it and SIGXFSZ, and its children inherit that
        with taken(limits):
            return os.posix_spawn(self.program, [self.program] + words, {}, file_actions=actions, setsigdef=plain)

    def _fork(self, words, places, limits, plain_pipe):
        process = os.fork()
        if process == 0:
            try:
                self._become(words, places, limits, plain_pipe)
            finally:
                os._exit(127)
        return process

    def _become(self, words, places, limits, plain_pipe):
        for descriptor, place in places:
            if descriptor is None:
                os.close(place)
            else:
                os.dup2(descriptor, place)
        signal.signal(signal.SIGPIPE, signal.SIG_DFL if plain_pipe else signal.SIG_IGN)
        signal.signal(signal.SIGXFSZ, signal.SIG_IGN)
        arguments = [self.program] + words
        for kind, size in limits.rows():
            resource.setrlimit(kind, (size, size))
        os.execve(self.program, arguments, {})


def own_memory():
    """Return the bytes of address space that this process has."""
    with open("/proc/self/statm", "rb") as told:
        return int(told.read().split()[0]) * resource.getpagesize()


@contextlib.contextmanager
def taken(limits):
    """Apply the limits of a run to this process during the block, as soft limits."""
    before = [(kind, resource.getrlimit(kind)) for kind, _ in limits.rows()]
    try:
        for (kind, size), (_, (_, hard)) in zip(limits.rows(), before):
            resource.setrlimit(kind, (size, hard))
        yield
    finally:
        for kind, old in before:
            resource.setrlimit(kind, old)


def ended_in_time(process, deadline):
    descriptor = os.pidfd_open(process)
    try:
        watch = select.poll()
        watch.register(descriptor, select.POLLIN)
        return bool(watch.poll(max(0, (deadline - time.monotonic()) * 1000)))
    finally:
        os.close(descriptor)


def whole(descriptor):
    return os.pread(descriptor, os.fstat(descriptor).st_size, 0)


def least_memory(runner):
    """Return the smallest memory limit in bytes, of whole pages, with which the program starts and prints its usage."""
    low, high = 0, 64 * MEBIBYTE // 4096
    while high - low > 1:
        middle = (low + high) // 2
        outcome = runner.run([], b"", Limits(middle * 4096, 30))
        low, high = (low, middle) if outcome.status == 2 and not outcome.errors else (middle, high)
    return high * 4096
