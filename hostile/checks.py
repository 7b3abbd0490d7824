"""Further checks of an input, besides its plain answer: failing sinks and sources, little memory, the same again.

Each check runs the program once more and returns what is wrong, or None.
"""
import fcntl
import math
import os
import select
import socket
import time

import forms
from local import by_blob
from running import Limits, Zeros

PIPE = 4096  # the capacity of a small pipe, in bytes


def same(outcome, whole):
    return (outcome.status, outcome.text, outcome.errors) == (whole.status, whole.text, b"")


def same_again(trial, random):
    """The same input has the same answer."""
    outcome = trial.run(trial.words, trial.content, trial.limits)
    return None if same(outcome, trial.whole) else f"another answer to the same input, with status {outcome.status}"


def full_sink(trial, random):
    """The output cannot be written at all."""
    sink = os.open("/dev/full", os.O_WRONLY)
    try:
        outcome = trial.run(trial.words, trial.content, trial.limits, sink=sink)
    finally:
        os.close(sink)
    return trial.cut_fault(outcome, b"", 0)


def small_sink(trial, random):
    """The output is a file that has room for a part."""
    length = len(trial.whole.text)
    room = random.choice([0, 1, 7, max(0, length - 1), length, random.randrange(length + 1)])
    outcome = trial.run(trial.words, trial.content, Limits(trial.limits.memory, trial.limits.seconds, room))
    return trial.cut_fault(outcome, outcome.text, min(room, length))


def closed_pipe(trial, random):
    """The output is a pipe without a reader, and SIGPIPE has its default action, which the program must prevent."""
    source, sink = os.pipe()
    os.close(source)
    try:
        outcome = trial.run(trial.words, trial.content, trial.limits, sink=sink, plain_pipe=True)
    finally:
        os.close(sink)
    return trial.cut_fault(outcome, b"", 0)


def closing_pipe(trial, random):
    """The output is a pipe whose reader closes it after some bytes."""
    length = len(trial.whole.text)
    count = random.choice([1, 7, 8, random.randrange(length + 1), max(1, length - PIPE - 1)])
    source, sink = os.pipe()
    fcntl.fcntl(sink, fcntl.F_SETPIPE_SZ, PIPE)
    begun = trial.begin(sink=sink)
    os.close(sink)
    text = read_up_to(source, count, trial.limits.seconds)
    os.close(source)
    outcome = trial.end(begun)
    if outcome.status == 7 and count < length:  # the program may have written more than was read
        return trial.cut_fault(outcome, text, len(text)) or (None if len(text) == count else "less than was to be read")
    least = max(0, length - PIPE)  # at least this much was read, if all could be written
    if not trial.whole.text.startswith(text) or len(text) < least:
        return f"{len(text)} bytes of another answer were read from a pipe, with status {outcome.status}"
    return None if outcome.status == trial.whole.status else f"status {outcome.status} where a pipe was read"


def read_up_to(source, count, seconds):
    text, deadline = b"", time.monotonic() + seconds
    while len(text) < count and select.select([source], [], [], max(0, deadline - time.monotonic()))[0]:
        piece = os.read(source, count - len(text))
        if not piece:
            break
        text += piece
    return text


def failing_source(trial, random):
    """The input cannot be read: it is a folder, or closed."""
    source = os.open("/", os.O_RDONLY) if random.random() < 0.7 else None
    try:
        outcome = trial.run(trial.words, b"", trial.limits, source=source)
    finally:
        if source is not None:
            os.close(source)
    if trial.takes_nothing():
        return None if same(outcome, trial.whole) else f"status {outcome.status} where no input is read"
    return None if (outcome.status, outcome.text, outcome.errors) == (6, b"", b"") else (
        f"status {outcome.status} and {len(outcome.text)} bytes where the input cannot be read")


def in_pieces(trial, random):
    """The input arrives byte by byte, one for each read."""
    if len(trial.content) > 2000:
        return None
    ours, theirs = socket.socketpair(socket.AF_UNIX, socket.SOCK_SEQPACKET)
    ours.settimeout(trial.limits.seconds)
    begun = trial.begin(source=theirs.fileno())
    theirs.close()
    try:
        for place in range(len(trial.content)):
            ours.send(trial.content[place:place + 1])
    except OSError:
        pass  # the program reads no more
    ours.close()
    outcome = trial.end(begun)
    return None if same(outcome, trial.whole) else f"another answer to an input in pieces, with status {outcome.status}"


def is_front(command, text):
    """Return whether a command may leave this prefix of its output when memory runs out: whole lines or envelopes."""
    if command == "challenge":
        return forms.split(text)[1] == len(text)
    return command in ("replay", "gateway") and text.endswith(b"\n")


def small_memory(trial, random):
    """With little memory there is the whole answer, or status 5 with such output as a command may leave then."""
    more = int(2 ** random.uniform(12, math.log2(trial.limits.memory)))
    memory = min(trial.least_memory + more - more % PIPE, trial.limits.memory)
    outcome = trial.run(trial.words, trial.content, Limits(memory, trial.limits.seconds))
    if same(outcome, trial.whole):
        return None
    about = f"with {memory} bytes of memory"
    if outcome.status != 5 or outcome.errors:
        return f"status {outcome.status} {about}"
    if outcome.text and not (trial.whole.text.startswith(outcome.text) and is_front(trial.command, outcome.text)):
        return f"{len(outcome.text)} bytes were written {about}"
    taken = trial.command == "serve" and outcome.taken
    return f"status 5 after {outcome.taken} bytes of input {about}" if taken else None


def front(trial, random):
    """The first requests have the same answers without those that follow."""
    if trial.command != "serve" or trial.whole.status not in (0, 8) or isinstance(trial.content, Zeros):
        return None
    envelopes, _ = forms.split(trial.content)
    part = forms.join(envelopes[:random.randrange(len(envelopes) + 1)])
    outcome = trial.run(trial.words, part, trial.limits)
    fits = outcome.status == 0 and trial.whole.text.startswith(outcome.text)
    return None if fits else "other answers to the first requests alone"


def way_back(trial, random):
    """An encoded blob is read back from any f+1 primary slivers."""
    if trial.command != "encode" or trial.whole.status != 0 or isinstance(trial.content, Zeros):
        return None
    envelopes, _ = forms.split(trial.whole.text)
    metadata = envelopes[0][1]
    place = forms.numbers_at(metadata)
    faults = forms.value_of(metadata[place:place + 2])
    chosen = [envelopes[0]] + random.sample(envelopes[1::2], faults + 1)
    random.shuffle(chosen)
    outcome = trial.run([b"read", forms.identifier_of(metadata).hex().encode()], forms.join(chosen), trial.limits)
    return None if (outcome.status, outcome.text) == (0, trial.content) else "what was encoded is not read back"


CHECKS = [same_again, full_sink, small_sink, closed_pipe, closing_pipe, failing_source, in_pieces, small_memory,
          small_memory, front, by_blob, way_back]
