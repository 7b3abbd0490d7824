"""Trials: an input, its whole answer, and for some of them a further check."""
import json
import os
import random
import time
from collections import Counter
from dataclasses import dataclass, field

import calling
import checks
import streams
from judging import Judge
from running import MEBIBYTE, Limits, Outcome, Runner, least_memory
from words import is_text, without_options

CHECKED = 4  # one in this many trials has a further check


def page_bytes(words):
    """Return the bytes that a shard's pages or an image's disk take, according to the words."""
    values, options = without_options(words)
    if values and values[0] == b"image" and len(values) == 2 and values[1].isdigit() and len(values[1]) < 10:
        return int(values[1])
    if values is None or values[:1] != [b"serve"]:
        return 0
    pages = options.get(b"--pages", b"16384")
    return 4096 * int(pages) if pages.isdigit() and len(pages) < 7 else 0


def bound(words, content):
    """Return the bytes of memory for a run: a base, some for each byte of input, and for a shard's pages or a disk."""
    return 192 * MEBIBYTE + 20 * len(content) + page_bytes(words)


def limits_of(words, content):
    """Return the limits of a run: memory, and 30 seconds of processor time and one for each MiB of input."""
    return Limits(bound(words, content), 30 + len(content) / MEBIBYTE)


@dataclass
class Trial:
    """One input with its words, and its outcome."""
    runner: Runner
    command: str
    words: list
    content: object
    limits: Limits
    least_memory: int
    beside: Runner = None  # of the program, if the library is tested
    whole: object = None

    def run(self, words, content, limits, **places):
        return self.runner.run(words, content, limits, **places)

    def begin(self, **places):
        return self.runner.begin(self.words, self.content, self.limits, **places)

    def end(self, begun):
        return self.runner.end(begun, self.limits)

    def takes_nothing(self):
        """Return whether the input is never read: the words match no command, or are those of `sample`."""
        values, _ = without_options(self.words) if is_text(self.words) else (None, None)
        return self.whole.status in (2, 11) or (values or [b""])[0] == b"sample"

    def cut_fault(self, outcome, text, room):
        """Return what is wrong with a run whose sink accepted `text`, and at most `room` bytes."""
        if outcome.errors:
            return "it writes to standard error where the sink fails"
        fails = room < len(self.whole.text)
        status = 7 if fails else self.whole.status
        if outcome.status != status:
            return f"status {outcome.status} and not {status} where the sink takes {room} bytes"
        return None if text == self.whole.text[:room] else f"another front where the sink takes {room} bytes"


@dataclass
class Tally:
    """The outcome of many trials."""
    inputs: int = 0
    checks: int = 0
    statuses: Counter = field(default_factory=Counter)
    seconds: float = 0.0
    longest: float = 0.0
    faults: list = field(default_factory=list)

    def add(self, other):
        self.inputs += other.inputs
        self.checks += other.checks
        self.statuses += other.statuses
        self.seconds += other.seconds
        self.longest = max(self.longest, other.longest)
        self.faults += other.faults


class Bench:
    """Makes and judges the trials of a seed."""

    def __init__(self, program, seed, library=None):
        self.program = program
        self.seed = seed
        self.library = library
        self.checks = calling.CHECKS if library else checks.CHECKS
        self.owner = None
        self.least_memory = 0 if library else least_memory(self.runner)
        self.judge = None

    def own(self):
        """Return this process's runner of trials, or its caller of the library, and its runner of the program."""
        if self.owner != os.getpid():
            self.owner, self._beside = os.getpid(), Runner(self.program)
            self._runner = calling.Caller(self.library) if self.library else self._beside
        return self._runner, self._beside

    @property
    def runner(self):
        return self.own()[0]

    def ask(self, words, content):
        """Return the status and the text of one plain run of the program."""
        words = [word.encode() for word in words]
        outcome = self.own()[1].run(words, content, limits_of(words, content))
        return outcome.status, outcome.text

    def use(self, corpus):
        self.judge = Judge(corpus)

    def draw(self, command, number):
        """Return the random numbers, the words and the input of a trial."""
        drawn = random.Random(f"{self.seed} {command} {number}")
        words, content = streams.trial(drawn, self.judge.corpus, command, number)
        return drawn, words, content

    def plain_fault(self, trial):
        """Get the whole answer, and return what is wrong with it."""
        trial.whole = trial.run(trial.words, trial.content, trial.limits)
        if trial.whole.status == 5:
            return f"more than {trial.limits.memory} bytes of memory are needed"
        try:
            return self.judge.fault(trial.words, trial.content, trial.whole)
        except (IndexError, KeyError, ValueError) as error:
            return f"an answer that cannot be judged: {error!r}"

    def further_fault(self, trial, drawn):
        """Make a further check, and return what is wrong."""
        check = drawn.choice(self.checks)
        fault = check(trial, drawn)
        return f"{check.__name__}: {fault}" if fault else None

    def trial_of(self, command, words, content):
        runner, beside = self.own()
        return Trial(runner, command, words, content, limits_of(words, content), self.least_memory, beside)

    def try_one(self, command, number, tally):
        drawn, words, content = self.draw(command, number)
        trial = self.trial_of(command, words, content)
        fault = self.plain_fault(trial)
        tally.inputs += 1
        tally.statuses[trial.whole.status] += 1
        tally.longest = max(tally.longest, trial.whole.seconds)
        if not fault and number % CHECKED == 0:
            tally.checks += 1
            fault = self.further_fault(trial, drawn)
        if fault:
            tally.faults.append(Fault(fault, command, self.seed, number, words, content, trial.whole))

    def try_many(self, command, numbers):
        tally, begun = Tally(), time.monotonic()
        if self.library:
            self.try_in_children(command, list(numbers), tally)
        else:
            self.try_each(command, numbers, tally, lambda _: None)
        tally.seconds = time.monotonic() - begun
        return tally

    def try_each(self, command, numbers, tally, note):
        for number in numbers:
            note(number)
            self.try_one(command, number, tally)
        return tally

    def try_in_children(self, command, numbers, tally):
        """Make these trials in a child. If one of them ends it, make those before and after it in further children."""
        while numbers:
            part, end = calling.in_child(lambda note: self.try_each(command, numbers, Tally(), note))
            if part:
                tally.add(part)
                return
            number, status = end
            place = numbers.index(number)
            self.try_in_children(command, numbers[:place], tally)
            _, words, content = self.draw(command, number)
            ended = Outcome(status, b"", b"", 0, 0.0, False)
            text = f"{calling.ENDED} with status {status}" if status > 0 else f"{calling.ENDED} by signal {-status}"
            tally.inputs += 1
            tally.faults.append(Fault(text, command, self.seed, number, words, content, ended))
            numbers = numbers[place + 1:]


@dataclass
class Fault:
    """A fault that was found, with the input and its answer."""
    text: str
    command: str
    seed: int
    number: int
    words: list
    content: object
    whole: object

    def keep(self, folder, end=""):
        """Keep the input in a file, and seed, words and answer in another one. Returns the name of the latter."""
        os.makedirs(folder, exist_ok=True)
        name = os.path.join(folder, f"{self.command}-{self.seed}-{self.number}{end}")
        with open(f"{name}.input", "wb") as kept:
            kept.write(bytes(self.content))
        told = {"fault": self.text, "seed": self.seed, "number": self.number,
                "words": [word.decode(errors="backslashreplace") for word in self.words],
                "input": f"{name}.input", "status": self.whole.status,
                "text": self.whole.text[:2000].decode(errors="backslashreplace"),
                "errors": self.whole.errors[:2000].decode(errors="backslashreplace")}
        with open(f"{name}.json", "w", encoding="utf-8") as kept:
            json.dump(told, kept, indent=1)
        return f"{name}.json"
