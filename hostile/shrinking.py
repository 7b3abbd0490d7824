"""Makes the input of a fault smaller, as long as the fault stays the same."""
import random
import re
from dataclasses import replace

import calling
import checks
import forms

MOST_RUNS = 400


def kind_of(fault):
    """Return the text of a fault without its numbers."""
    return fault and re.sub(r"[0-9]+", "N", fault)


class Budget:
    """Tests whether a smaller input still has the fault, in at most `MOST_RUNS` runs."""

    def __init__(self, bench, fault):
        self.bench, self.fault, self.runs = bench, fault, MOST_RUNS

    def holds(self, content):
        if self.runs <= 0:
            return None
        trial = self.bench.trial_of(self.fault.command, self.fault.words, content)
        found = self._again(self.bench.plain_fault, trial)
        name, colon, _ = self.fault.text.partition(":")
        check = getattr(checks, name, None) or getattr(calling, name, None)
        for seed in range(3 if not found and colon and check else 0):
            found = found or self._again(lambda trial: check(trial, random.Random(seed)), trial, f"{name}: ")
        return trial.whole if kind_of(found) == kind_of(self.fault.text) else None

    def _again(self, look, trial, front=""):
        self.runs -= 1
        found = look(trial)
        return found and front + found


def without_parts(parts, joined, budget):
    """Return as few of the parts as are left after ever shorter runs of them were removed, if the fault stays."""
    size = len(parts)
    while size:
        start = 0
        while start < len(parts):
            fewer = parts[:start] + parts[start + size:]
            if budget.holds(joined(fewer)):
                parts = fewer
            else:
                start += size
        size //= 2
    return parts


def shrink(bench, fault):
    """Return the same fault with a smaller input, if there is one."""
    if not isinstance(fault.content, bytes) or len(fault.content) > 1 << 20 or fault.text.startswith(calling.ENDED):
        return fault
    budget = Budget(bench, fault)
    envelopes, end = forms.split(fault.content)
    parts = [forms.envelope(*part) for part in envelopes] + [fault.content[end:]]
    content = b"".join(without_parts(parts, b"".join, budget))
    content = bytes(without_parts(list(content), bytes, budget))
    budget.runs = max(budget.runs, 4)
    whole = budget.holds(content)
    return replace(fault, content=content, whole=whole) if whole else fault
