"""Histograms of durations, by label."""
import contextlib
import time
from typing import Iterator

HEADERS = {"Content-Type": "text/plain; version=0.0.4; charset=utf-8"}  # of metrics for Prometheus
BOUNDS = 0.001, 0.005, 0.02, 0.1, 0.5, 2.0, 10.0, 60.0


class Times:
    """For each label, the number of durations per bucket, the last one for what is above all bounds; and their sum."""

    def __init__(self) -> None:
        self.counts, self.sums = dict[str, list[int]](), dict[str, float]()

    def add(self, label: str, seconds: float) -> None:
        counts = self.counts.setdefault(label, [0] * (len(BOUNDS) + 1))
        counts[sum(seconds > bound for bound in BOUNDS)] += 1
        self.sums[label] = self.sums.get(label, 0.0) + seconds

    @contextlib.contextmanager
    def taking(self, label: str) -> Iterator[None]:
        begun = time.monotonic()
        try:
            yield
        finally:
            self.add(label, time.monotonic() - begun)

    def buckets(self, label: str) -> list[tuple[str, float]]:
        """Returns each bound with the number of durations up to it, as Prometheus' buckets are cumulative."""
        counts = self.counts[label]
        ends = [*map(str, BOUNDS), "+Inf"]
        return [(end, float(sum(counts[: place + 1]))) for place, end in enumerate(ends)]
