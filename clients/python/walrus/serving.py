"""Shards that run as processes: the program `walrus serve` behind two pipes, for fronts, nodes and examples."""
import asyncio
import contextlib
import os
import signal
from asyncio.subprocess import PIPE
from collections.abc import Iterable
from typing import Optional

from . import client

GRACE = 5.0  # seconds for a process to end by itself before it is killed
ENDINGS = {2: "wrong arguments", 5: "out of memory", 8: "a malformed stream", 9: "1,073,741,824 bytes of requests came"}
ENDINGS |= {10: "a clash", 127: "it was built for another processor"}


def status_in_words(status: int) -> str:
    """Returns in words how a process ended, from its return code in asyncio or subprocess."""
    meaning = f" ({ENDINGS[status]})" if status in ENDINGS else ""
    return f"signal {-status}" if status < 0 else f"status {status}{meaning}"


class Ended(ConnectionError):
    """The process of a shard ended, or did not answer in time."""


class Process:
    """One process `walrus serve`, which replies to each request before it takes the next one."""

    def __init__(self, words: Iterable[str], longest: int, seconds: Optional[float] = None):
        self.words, self.longest, self.seconds, self.sent = list(words), longest, seconds, 0
        self.child: Optional[asyncio.subprocess.Process] = None

    async def open(self) -> None:
        self.child = await asyncio.create_subprocess_exec(*self.words, stdin=PIPE, stdout=PIPE, limit=2**20)

    async def ask(self, requests: Iterable[bytes]) -> list[list[bytes]]:
        """Returns the replies to one request, or to a few small ones. If the process fails it is ended, and `Ended` is
        raised; if the caller is cancelled, it is killed."""
        assert self.child and self.child.stdin and self.child.stdout
        data = [client.envelope(request) for request in requests]
        self.sent += sum(map(len, data))
        replies: list[list[bytes]] = []
        try:
            async with asyncio.timeout(self.seconds):
                self.child.stdin.writelines(data)
                await self.child.stdin.drain()
                for _ in data:
                    reply = b""
                    replies.append([])
                    while reply[:1] not in (b"\x30", b"\x31"):
                        _, reply = await client.take_envelope(self.child.stdout, self.longest)
                        replies[-1].append(reply)
            return replies
        except (OSError, EOFError, client.Fault) as fault:
            words = status_in_words(await self.end(GRACE))
            raise Ended(f"walrus serve ended with {words}, {type(fault).__name__}") from fault
        except asyncio.CancelledError:
            self.kill()
            raise

    async def wait(self) -> None:
        """Waits until the process ends."""
        if self.child:
            await self.child.wait()

    def kill(self) -> None:
        if self.child and self.child.returncode is None:
            with contextlib.suppress(ProcessLookupError):  # the child's own `kill` would take its status from asyncio
                os.kill(self.child.pid, signal.SIGKILL)

    async def end(self, seconds: float = 0) -> int:
        """Ends the input and waits these seconds for the process to end, then kills it; without seconds, at once.
        Returns its status, 1 if there is no process."""
        if not self.child or not self.child.stdin:
            return 1
        if seconds:
            self.child.stdin.close()
            with contextlib.suppress(TimeoutError):
                async with asyncio.timeout(seconds):
                    await self.child.communicate()
        self.kill()
        return await self.child.wait()


class ProcessShard(client.Shard):
    """A shard that runs as a process of its own, `walrus serve`, until it is closed; `options` are more arguments."""

    def __init__(
        self, walrus: client.Walrus, faults: int, number: int, *options: str, seconds: float = client.SECONDS
    ) -> None:
        super().__init__(number, faults, seconds)
        self.words = [walrus.path, "serve", str(faults), str(number), *options]
        self.process: Optional[asyncio.subprocess.Process] = None

    async def open(self) -> client.Streams:
        self.process = self.process or await asyncio.create_subprocess_exec(*self.words, stdin=PIPE, stdout=PIPE)
        assert self.process.stdout and self.process.stdin
        return self.process.stdout, self.process.stdin

    async def drop(self) -> str:
        """Ends the input, and so the process; returns in words how the process ended."""
        if not self.process or not self.process.stdin:
            return ""
        self.process.stdin.close()
        try:
            await asyncio.wait_for(self.process.communicate(), self.seconds)
        except TimeoutError:
            self.process.kill()
        return "; its process ended with " + status_in_words(await self.process.wait())
