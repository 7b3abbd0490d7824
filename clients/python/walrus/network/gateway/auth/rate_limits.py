"""Rate limits for the requests and bytes of each client: token buckets, which fill with time."""
import asyncio
import collections
import math
import time
from typing import Sequence

MOST, BURST = 65_536, 2.0  # the most buckets that are kept; seconds' worth of unused rate that a bucket holds


class Bucket:
    """A bucket that fills with `rate` a second, up to `BURST` seconds' worth, or `least` if that is more."""

    def __init__(self, rate: float, least: float = 1.0):
        self.rate, self.most = rate, max(least, BURST * rate)
        self.left, self.at = self.most, time.monotonic()

    def wait(self, amount: float = 0.0) -> float:
        """Returns the seconds until `amount` is there; without an amount, until nothing is owed."""
        now = time.monotonic()
        self.left, self.at = min(self.most, self.left + (now - self.at) * self.rate), now
        return max(0.0, (amount - self.left) / self.rate)

    def take(self, amount: float) -> None:
        """Takes an amount, which may leave the bucket below zero: the rest is owed."""
        self.wait()
        self.left -= amount


class Limits:
    """The buckets of clients, by their keys: a token, or an address."""

    def __init__(self, requests: float, rate: float):
        self.requests, self.rate = requests, rate
        self.buckets: "collections.OrderedDict[tuple[str, str], Bucket]" = collections.OrderedDict()

    def bucket(self, kind: str, key: str) -> Bucket:
        found = self.buckets.pop((kind, key), None)
        if found is None:
            found = Bucket(self.requests) if kind == "requests" else Bucket(self.rate, 1_048_576)
        self.buckets[kind, key] = found
        if len(self.buckets) > MOST:
            self.buckets.popitem(last=False)
        return found

    def admit(self, keys: Sequence[str]) -> float:
        """Counts a request of the client with these keys and returns 0, or counts nothing and returns the seconds after
        which it may try again."""
        buckets = [self.bucket("requests", key) for key in keys if self.requests]
        wait = max((it.wait(1) for it in buckets), default=0.0)
        for it in buckets if not wait else ():
            it.take(1)
        return math.ceil(wait)

    async def spend(self, keys: Sequence[str], size: int) -> None:
        """Counts bytes that were transferred, and waits until nothing is owed for them."""
        if self.rate:
            buckets = [self.bucket("bytes", key) for key in keys]
            for it in buckets:
                it.take(size)
            await asyncio.sleep(max(it.wait() for it in buckets))


class Flow:
    """The bytes that one request transfers."""

    def __init__(self, limits: Limits, keys: Sequence[str]):
        self.limits, self.keys, self.moved = limits, keys, 0

    async def spend(self, size: int) -> None:
        self.moved += size
        await self.limits.spend(self.keys, size)
