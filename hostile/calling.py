"""Calls the library with an input in this process, as running.py starts the program; and further checks of calls.

A call that crashes or takes too long ends its process. So calls are made in a child, and the parent reports the input.
"""
import contextlib
import ctypes
import mmap
import os
import pickle
import signal
import time
import traceback

import checks
from running import Limits, Outcome, Zeros, own_memory, taken

NO_ROOM = 7
ROOM = 1 << 20  # bytes of room for an output of unknown size
FILL = 0xA5
ENDED = "the library ended its process"


class Caller:
    """Calls a library, and uses the room for its output again and again."""

    def __init__(self, path):
        library = ctypes.CDLL(path)
        self.call, self.code = library.walrus_run, library.walrus_code
        size, number = ctypes.c_size_t, ctypes.POINTER(ctypes.c_uint64)
        self.call.argtypes = [ctypes.c_char_p, size, ctypes.c_void_p, size, ctypes.c_void_p, size, number, number]
        self.call.restype = ctypes.c_uint8
        self.code.argtypes, self.code.restype = [ctypes.c_uint8, ctypes.c_char_p, size], ctypes.c_uint32
        self.room = bytearray(ROOM)

    def run(self, words, content, limits):
        """Make one call, and a second one if the first needs more room than there is."""
        begun = time.process_time()
        status, written, needed = self.into(self.room, words, content, limits)
        if status == NO_ROOM and needed > len(self.room):
            self.room = bytearray(needed)
            status, written, _ = self.into(self.room, words, content, limits)
        seconds = time.process_time() - begun
        text = bytes(memoryview(self.room)[:written])
        return Outcome(status, text, b"", None, seconds, seconds > limits.seconds)

    def into(self, room, words, content, limits):
        """Make one call with this room; return the status, the bytes that were written, and the bytes that it needs."""
        told = b"".join(word + b"\0" for word in words)
        written, needed = ctypes.c_uint64(), ctypes.c_uint64()
        output = (ctypes.c_char * len(room)).from_buffer(room)
        with placed(content) as (address, size), taken(Limits(own_memory() + limits.memory, limits.seconds)):
            signal.setitimer(signal.ITIMER_VIRTUAL, limits.seconds + 1)
            try:
                status = self.call(told, len(told), address, size, output, len(room), written, needed)
            finally:
                signal.setitimer(signal.ITIMER_VIRTUAL, 0)
        return status, written.value, needed.value


@contextlib.contextmanager
def placed(content):
    """Yield the address and size of an input. The zeros of a long one are pages that take no memory."""
    if not isinstance(content, Zeros):
        told = ctypes.c_char_p(content)
        yield ctypes.cast(told, ctypes.c_void_p), len(content)
        return
    pages = mmap.mmap(-1, max(content.size, 1))
    pages[:len(content.front)] = content.front
    first = ctypes.c_char.from_buffer(pages)
    try:
        yield ctypes.addressof(first), content.size
    finally:
        del first
        pages.close()


def small_room(trial, random):
    """Too little room gets a prefix of the whole text, and the needed size is reported."""
    length = len(trial.whole.text)
    size = random.choice([0, 1, 7, max(0, length - 1), length, length + 1, random.randrange(length + 1)])
    room = bytearray([FILL]) * (size + 8)
    with memoryview(room) as view, view[:size] as part:
        status, written, needed = trial.runner.into(part, trial.words, trial.content, trial.limits)
    wanted = (NO_ROOM, size, length) if size < length else (trial.whole.status, length, length)
    if (status, written, needed) != wanted:
        return f"status {status}, {written} written and {needed} needed of {length} bytes with room for {size}"
    if room != trial.whole.text[:size] + bytes([FILL]) * (len(room) - written):
        return f"another front, or bytes behind it, with room for {size} bytes"
    return None


def beside_program(trial, random):
    """The program gives the same answer."""
    outcome = trial.beside.run(trial.words, trial.content, trial.limits)
    return None if checks.same(outcome, trial.whole) else f"the program ends with status {outcome.status}, or says more"


def coded(trial, random):
    """The code of the answer is one of its status; it is 0 for status 0."""
    code = trial.runner.code(trial.whole.status, trial.whole.text, len(trial.whole.text))
    return None if code // 100 == trial.whole.status else f"code {code} with status {trial.whole.status}"


CHECKS = [checks.same_again, small_room, small_room, beside_program, checks.front, checks.way_back, coded]


def in_child(work):
    """Run `work` in a child; it is given a function, which it calls with each number that it comes to. Returns the
    result and None; or, if the child failed, None and a pair: the last such number and the child's exit status."""
    place, (source, sink) = mmap.mmap(-1, 8), os.pipe()
    child = os.fork()
    if child == 0:
        try:
            signal.signal(signal.SIGVTALRM, signal.SIG_DFL)
            os.close(source)
            found = pickle.dumps(work(lambda number: place.__setitem__(slice(8), number.to_bytes(8, "big"))))
            with os.fdopen(sink, "wb") as pipe:
                pipe.write(found)
            os._exit(0)
        except BaseException:
            traceback.print_exc()
        finally:
            os._exit(1)
    os.close(sink)
    with os.fdopen(source, "rb") as pipe:
        found = pipe.read()
    _, status = os.waitpid(child, 0)
    status = os.waitstatus_to_exitcode(status)
    return (pickle.loads(found), None) if status == 0 else (None, (int.from_bytes(place[:8], "big"), status))
