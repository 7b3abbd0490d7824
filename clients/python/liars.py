#!/usr/bin/env python3
"""Shards and clients that lie, and a load under which honest ones publish, fetch and recover all the same.

One of four shards lies, each round in another way, and clients that lie come to the fronts of the other three. Every
round publishes a blob, fetches it and recovers a sliver. It fails where one of these does not end or gives something
else, where a front ends, forwards what is no request or takes more memory than its bounds allow, and where the client
takes more than its share. It ends after about so many seconds."""
import argparse
import asyncio
import contextlib
import itertools
import pathlib
import random
import resource
import signal
import sys
import time
from collections.abc import AsyncIterator, Awaitable, Callable

from walrus import client, loop
from walrus.format import frames
from example_tools import find_walrus

Way = Callable[[bytes, asyncio.StreamWriter, client.Shape], Awaitable[None]]
LONG, PIECE, NEVER = 8_000_000, 65_536, 3_600  # bytes of padding, and of what is sent at once; seconds of silence
DONE = client.write_frame(client.Answer(client.DONE, 3, 0))
SLOW, MOST, FAULTS = 30.0, 8, 1  # seconds in which anything must end; connections of a front; shards that lie
FRONT_MEMORY, CLIENT_MEMORY = 160_000, 400_000  # KiB: 8 connections of 8.4 MB and Python; the replies of four shards


def false_proof(identifier: bytes, shape: client.Shape) -> bytes:
    """A proof of the right form that shows nothing."""
    path = (bytes(32),) * shape.levels
    bodies = tuple(frames.Body(cross, b"\0\0", path) for cross in range(shape.symbols[client.SECONDARY]))
    return frames.write_frame(frames.Proof(identifier, client.SECONDARY, 0, bodies))


def false_sliver(identifier: bytes, number: int, shape: client.Shape) -> bytes:
    return frames.write_frame(frames.Sliver(identifier, client.PRIMARY, number, bytes(2 * shape.symbols[0])))


class Served:
    """A shard of this process behind a port, which replies to each request as its way says."""

    def __init__(self, number: int, shape: client.Shape, way: Way) -> None:
        self.number, self.shape, self.way, self.port = number, shape, way, 0
        self.tasks: set[asyncio.Task[None]] = set()

    async def connect(self, reader: asyncio.StreamReader, writer: asyncio.StreamWriter) -> None:
        task = asyncio.current_task()
        assert task
        self.tasks.add(task)
        with contextlib.suppress(OSError, EOFError, ValueError, asyncio.CancelledError):
            while True:
                _, payload = await client.take_envelope(reader, self.shape.longest)
                await self.way(payload, writer, self.shape)
                await writer.drain()
        writer.transport.abort()
        self.tasks.discard(task)

    def write(self, writer: asyncio.StreamWriter, *payloads: bytes) -> None:
        writer.write(b"".join(client.envelope(payload, self.number) for payload in payloads))

    async def __aenter__(self) -> "Served":
        self.server = await asyncio.start_server(self.connect, "127.0.0.1", 0)
        self.port = self.server.sockets[0].getsockname()[1]
        return self

    async def __aexit__(self, *_: object) -> None:
        self.server.close()
        for task in self.tasks:
            task.cancel()
        await asyncio.gather(*self.tasks, return_exceptions=True)


class Honest(Served):
    """A shard that says what one with this blob would, but for symbols."""

    def __init__(self, number: int, shape: client.Shape, encoded: client.Encoded) -> None:
        super().__init__(number, shape, self.reply)
        self.encoded = encoded

    async def reply(self, payload: bytes, writer: asyncio.StreamWriter, shape: client.Shape) -> None:
        if payload[0] == client.READ:
            self.write(writer, self.encoded.metadata, self.encoded.slivers[self.number][0], DONE)
        elif payload[0] in (client.ACK, client.ACK_ENTRY):
            self.write(writer, client.write_frame(client.Answer(13, 1, 0)))
        else:
            self.write(writer, DONE)


class Liar(Served):
    """A shard that lies in one of these ways, each named after what it does."""

    WAYS = ("repeat", "silent", "others", "drip", "midst", "endless", "noise", "impostor")
    PADS = ("pad", "pad_longer")

    def __init__(self, number: int, shape: client.Shape, way: str) -> None:
        super().__init__(number, shape, getattr(self, way))

    async def silent(self, payload: bytes, writer: asyncio.StreamWriter, shape: client.Shape) -> None:
        await asyncio.sleep(NEVER)

    async def drip(self, payload: bytes, writer: asyncio.StreamWriter, shape: client.Shape) -> None:
        for byte in client.envelope(bytes(shape.longest), self.number):
            writer.write(bytes([byte]))
            await writer.drain()
            await asyncio.sleep(0.05)

    async def pad(self, payload: bytes, writer: asyncio.StreamWriter, shape: client.Shape) -> None:
        self.write(writer, *[bytes(shape.longest)] * 3, DONE)

    async def pad_longer(self, payload: bytes, writer: asyncio.StreamWriter, shape: client.Shape) -> None:
        self.write(writer, *[bytes(LONG)] * 3, DONE)

    async def repeat(self, payload: bytes, writer: asyncio.StreamWriter, shape: client.Shape) -> None:
        self.write(writer, *[false_sliver(payload[1:33], self.number, shape)] * 3, DONE)

    async def others(self, payload: bytes, writer: asyncio.StreamWriter, shape: client.Shape) -> None:
        other = bytes(reversed(payload[1:33]))
        self.write(writer, false_proof(other, shape), false_sliver(other, self.number, shape))
        self.write(writer, false_proof(payload[1:33], shape), DONE)

    async def midst(self, payload: bytes, writer: asyncio.StreamWriter, shape: client.Shape) -> None:
        writer.write(client.envelope(false_sliver(payload[1:33], self.number, shape), self.number)[:-1])
        raise ConnectionError("it ends here")

    async def endless(self, payload: bytes, writer: asyncio.StreamWriter, shape: client.Shape) -> None:
        while True:
            self.write(writer, b"\xff" * 1_000)
            await writer.drain()

    async def noise(self, payload: bytes, writer: asyncio.StreamWriter, shape: client.Shape) -> None:
        writer.write(b"HTTP/1.1 400 Bad Request\r\n\r\n")

    async def impostor(self, payload: bytes, writer: asyncio.StreamWriter, shape: client.Shape) -> None:
        writer.write(client.envelope(DONE, self.number ^ 1))


@contextlib.asynccontextmanager
async def connect(ports: list[int], faults: int, seconds: float) -> AsyncIterator[list[client.Shard]]:
    """Shards behind these ports, in their order."""
    places = enumerate(("127.0.0.1", port) for port in ports)
    shards = [client.SocketShard(number, faults, place, seconds) for number, place in places]
    try:
        yield list(shards)
    finally:
        await asyncio.gather(*[shard.close() for shard in shards])


def false_requests(identifier: bytes) -> list[bytes]:
    """What clients that lie send, of which they take no reply."""
    return [
        client.envelope(b"\xff" * 2_000_000) * 4,  # what is no request
        client.envelope(b"\x11" * LONG)[:-1],  # a request that is never whole
        client.envelope(client.write_frame(client.Read(identifier))) * 20_000,  # more replies than are taken
        b"GET / HTTP/1.1\r\n\r\n",  # no envelope
        client.HEAD.pack(client.MARK, 0, 2**32 - 1) + bytes(1_000_000),  # a payload that is too long
    ]


async def come_as_liar(port: int, sent: bytes) -> None:
    """A client that sends this to a front, and stays until it is cut off or for three seconds."""
    with contextlib.suppress(OSError, TimeoutError):
        _, writer = await asyncio.open_connection("127.0.0.1", port)
        try:
            async with asyncio.timeout(3):
                for place in range(0, len(sent), PIECE):
                    end = place + PIECE
                    writer.write(sent[place:end])
                    await writer.drain()
                await asyncio.sleep(3)
        finally:
            writer.transport.abort()


class FrontProcess:
    """A front that runs as a process of its own."""

    def __init__(self, walrus: client.Walrus, shard: int, *words: str) -> None:
        front = [sys.executable, "-m", "walrus.front", "--connections", str(MOST), "--seconds", "2", walrus.path]
        self.words = [*front, str(FAULTS), str(shard), *words]

    async def __aenter__(self) -> "FrontProcess":
        pipe = asyncio.subprocess.PIPE
        self.process = await asyncio.create_subprocess_exec(*self.words, stdout=pipe, stderr=pipe)
        assert self.process.stdout
        self.port = int(await self.process.stdout.readline())
        return self

    def memory(self) -> int:
        """The greatest resident memory so far, in KiB."""
        status = pathlib.Path(f"/proc/{self.process.pid}/status").read_text()
        return int(status.partition("VmHWM:")[2].split()[0])

    async def __aexit__(self, *_: object) -> None:
        if self.process.returncode is None:
            self.process.send_signal(signal.SIGTERM)
        async with asyncio.timeout(SLOW):
            self.told = (await self.process.communicate())[1].decode().splitlines()


async def try_round(walrus: client.Walrus, fronts: list[FrontProcess], way: str, seed: int) -> bytes:
    """Publishes, fetches and recovers a blob while shard 3 lies in this way."""
    blob, shape = random.Random(seed).randbytes(1_000), client.Shape(FAULTS)
    encoded = await walrus.encode(blob, FAULTS)
    async with Liar(3, shape, way) as liar, connect([it.port for it in fronts] + [liar.port], FAULTS, 4.0) as shards:
        published = await client.publish(shards, encoded, until=1)
        assert published.signers[:3] == published.certified[:3] == [0, 1, 2], published
        assert await client.fetch(shards, encoded.identifier, walrus) == blob, "another blob is read"
        target = client.Symbol(encoded.identifier, client.SECONDARY, 3)
        assert await client.recover(shards, target, walrus) == (0, encoded.slivers[3][1]), "another sliver"
    return encoded.identifier


async def keep_lying(fronts: list[FrontProcess], names: list[bytes]) -> None:
    """Clients that lie come to all fronts, as many as take all of their connections, until this is cancelled."""
    for number in itertools.count():
        sent = false_requests(names[-1])
        kinds = [sent[(number + count) % len(sent)] for count in range(MOST)]
        await asyncio.gather(*[come_as_liar(front.port, kind) for front in fronts for kind in kinds])


async def try_load(walrus: client.Walrus, seconds: float) -> int:
    """Rounds under load for so long; how many there were. Raises where a bound was not kept."""
    names, end, rounds, ways = [bytes(32)], time.monotonic() + seconds, 0, Liar.PADS + Liar.WAYS
    async with contextlib.AsyncExitStack() as stack:
        fronts = [await stack.enter_async_context(FrontProcess(walrus, it, "--blobs", "8192")) for it in range(3)]
        lying = asyncio.create_task(keep_lying(fronts, names))
        while not rounds or time.monotonic() < end:
            async with asyncio.timeout(SLOW):
                names.append(await try_round(walrus, fronts, ways[rounds % len(ways)], rounds))
            rounds += 1
        assert not lying.done(), lying.result()
        lying.cancel()
        memory = [front.memory() for front in fronts]
        assert [front.process.returncode for front in fronts] == [None] * 3, "a front ended"
        assert max(memory) < FRONT_MEMORY, f"a front took {max(memory)} KiB"
    assert [front.process.returncode for front in fronts] == [128 + signal.SIGTERM] * 3, "a front did not end as told"
    assert not [line for front in fronts for line in front.told if "%" in line], "a front forwarded what is no request"
    own = resource.getrusage(resource.RUSAGE_SELF).ru_maxrss
    assert own < CLIENT_MEMORY, f"the client took {own} KiB"
    return rounds


def main() -> None:
    parser = argparse.ArgumentParser(description=__doc__, formatter_class=argparse.RawDescriptionHelpFormatter)
    parser.add_argument("--seconds", type=float, default=60.0)
    parser.add_argument(
        "program", nargs="?", default="", metavar="PROGRAM", help="else the variable WALRUS, or ./walrus"
    )
    given = parser.parse_args()
    try:
        walrus = find_walrus(given.program)
    except ValueError as error:
        sys.exit(f"liars: {error}")
    print(f"{loop.run(try_load(walrus, given.seconds))} rounds, and every bound was kept")


if __name__ == "__main__":
    main()
