"""The progress of a transfer, on a terminal."""
import contextlib
import sys
import time


class Bar(contextlib.AbstractContextManager["Bar"]):
    """A line on a terminal that shows the progress of what takes longer than a second."""

    def __init__(self, name: str, size: int = 0):
        self.name, self.size, self.done = name, size, 0
        self.begun, self.told = time.monotonic(), 0.0

    def add(self, count: int) -> None:
        now, self.done = time.monotonic(), self.done + count
        if sys.stderr.isatty() and now - self.begun > 1 and now - self.told > 0.1:
            self.told = now
            bar = f"[{'#' * (30 * self.done // self.size):30.30}] " if self.size else ""
            speed = self.done / 1e6 / (now - self.begun)
            print(f"\r{self.name} {bar}{self.done / 1e6:.1f} MB, {speed:.1f} MB/s\033[K", end="", file=sys.stderr)

    def __exit__(self, *_: object) -> None:
        if self.told:
            print("\r\033[K", end="", file=sys.stderr, flush=True)
