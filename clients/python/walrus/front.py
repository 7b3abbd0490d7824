"""A small front that puts one long-lived shard behind a port of this machine.

One process `walrus serve F SHARD` gets the requests of all connections, one after the other, and each connection gets
the replies to its own. What cannot be a request for this F is answered here, and is not forwarded. The port is printed
once the shard serves. The front ends at SIGINT or SIGTERM, and when the process ends: it accepts 1,073,741,824 bytes of
requests in total, and ends at a hash collision. What was stored is lost with the process. Messages for operators are
lines on standard error. The exit status is that of the shard, 128 + N for a signal N, or 1 if the front cannot begin.
"""
import argparse
import asyncio
import errno
import os
import signal
import sys
from collections.abc import Callable, Sequence
from typing import Any, Optional


from walrus.client import HEAD, MOST_FAULTS, Shape, envelope
from walrus.wire.port import Bounds, Port
from walrus.wire.served_client import Said

from . import loop as walrus_loop
from .serving import Ended, Process, status_in_words

LIFE = 1_073_741_824  # bytes of requests that a process accepts in total
MARKS = (50, 80, 95)  # percentages of them at which an operator is warned
GRACE = 5.0  # seconds for the process to end


def be_silent(text: str) -> None:
    """Drops the messages for an operator, for a front in a test or an example."""


class Front(Port):
    """A shard behind a port. `alter` changes each envelope of a reply, so that a test can make a shard lie."""

    def __init__(self, program: str, faults: int, shard: int, *words: str, bounds: Bounds = Bounds()) -> None:
        super().__init__(self.reply_to, Shape(faults), bounds._replace(idle=bounds.seconds), shard)
        self.process = Process([program, "serve", str(faults), str(shard), *words], self.shape.longest)
        self.shard, self.port, self.forwarded, self.turn = shard, 0, 0, asyncio.Lock()
        self.alter: Callable[[bytes], bytes] = lambda said: said
        self.say = be_silent

    async def open(self, port: int = 0) -> "Front":
        """Starts the shard, and once it serves listens at `port`, a free one if it is 0; raises `Ended` if it fails."""
        await self.process.open()
        await self.ask(b"")
        self.port = await self.listen("127.0.0.1", port)
        return self

    async def reply_to(self, _: int, request: bytes) -> Said:
        reply = await self.ask(bytes(request))
        return Said([self.alter(envelope(payload, self.shard)) for payload in reply])

    async def ask(self, request: bytes) -> list[bytes]:
        """Returns the shard's reply to a request, which waits for its turn."""
        async with self.turn:
            self.count(HEAD.size + len(request))
            return (await self.process.ask([request]))[0]

    def count(self, size: int) -> None:
        """Counts bytes that are forwarded, and warns at each mark once."""
        before, self.forwarded = self.forwarded, self.forwarded + size
        for percent in MARKS:
            if before * 100 < percent * LIFE <= self.forwarded * 100:
                self.say(f"{percent} % of the {LIFE:,} bytes that the shard accepts in total were forwarded")

    async def close(self) -> int:
        """Stops listening, cuts off connections, ends the shard, and returns its exit status."""
        await self.close_port()
        return await self.process.end(GRACE)

    def tell_trouble(self, context: dict[str, Any]) -> None:
        """Reports what the event loop could not do, such as accept a connection when no descriptor is left."""
        error = context.get("exception")
        lacks = isinstance(error, OSError) and error.errno in (errno.EMFILE, errno.ENFILE)
        text = "no more descriptors: new connections wait, raise the limit (ulimit -n)" if lacks else context["message"]
        self.tell(text, text)


def read_words(words: Optional[Sequence[str]] = None) -> argparse.Namespace:
    parser = argparse.ArgumentParser(description=__doc__, formatter_class=argparse.RawDescriptionHelpFormatter)
    parser.add_argument("--port", type=int, default=0, help="where to listen on 127.0.0.1; by default a free one")
    parser.add_argument("--connections", type=int, default=Bounds().connections, help="the most connections at once")
    parser.add_argument(
        "--seconds",
        type=float,
        default=Bounds().seconds,
        help="for a request to arrive whole, and for its reply to be read; then the connection is cut off",
    )
    parser.add_argument("program", metavar="PROGRAM", help="the program walrus")
    parser.add_argument("faults", metavar="F", type=int, help="the number of shards that may lie")
    parser.add_argument("shard", metavar="SHARD", type=int, help="the shard's number")
    parser.add_argument("words", metavar="...", nargs=argparse.REMAINDER, help="more arguments for serve, as --pages N")
    given = parser.parse_args(words)
    if not 1 <= given.faults <= MOST_FAULTS or not 0 <= given.port < 65_536 or given.connections < 1:
        parser.error(f"F is 1 to {MOST_FAULTS}, a port is below 65536, and there is at least one connection")
    return given


async def serve(given: argparse.Namespace, say: Callable[[str], None]) -> int:
    """Runs a front until a signal comes or its shard ends; returns the exit status."""
    front = Front(
        given.program, given.faults, given.shard, *given.words, bounds=Bounds(given.connections, given.seconds)
    )
    front.say, signals, running = say, list[int](), asyncio.current_task()
    loop = asyncio.get_running_loop()

    def hear(number: int) -> None:
        signals.append(number)
        if len(signals) > 1:  # the second one is final
            front.process.kill()
            os._exit(128 + number)
        if running:
            running.cancel()

    for number in (signal.SIGINT, signal.SIGTERM):
        loop.add_signal_handler(number, hear, number)
    loop.set_exception_handler(lambda _, context: front.tell_trouble(context))
    try:
        async with asyncio.timeout(given.seconds):
            await front.open(given.port)
        print(front.port, flush=True)
        await front.process.wait()
    except (asyncio.CancelledError, Ended):
        pass
    except OSError as error:
        say(f"it cannot begin: {error.strerror or f'the shard does not serve in {given.seconds:g} s'}")
        front.process.kill()
        await front.close()
        return 1
    status = await front.close()
    if signals:
        return 128 + signals[0]
    say(f"the shard ended with {status_in_words(status)}")
    return 128 - status if status < 0 else status or 1


def main() -> None:
    given = read_words()
    sys.exit(
        walrus_loop.run(serve(given, lambda text: print(f"walrus.front: shard {given.shard}: {text}", file=sys.stderr)))
    )


if __name__ == "__main__":
    main()
