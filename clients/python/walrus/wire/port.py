"""A port that answers the requests of its clients, each client's in order, and limits what one client may cost.

Fronts and nodes are built on it. There is a deadline from the first byte of a request to its last, and one for a client
to accept a reply. If there are too many connections, or too many bytes are kept for clients, the port disconnects the
client whose present step takes longest."""
import asyncio
import collections
import contextlib
import functools
import socket
import ssl
import sys
import time
from collections.abc import Awaitable, Callable
from typing import Any, NamedTuple, Optional


from walrus.format.envelopes import HEAD, MARK
from walrus.format.frames import refuse, write_frame
from walrus.format.kinds import Fault, in_words
from walrus.format.shapes import Shape

from .connection import Data, Wire, accept, bound, filling, memory
from .fairness import Fair
from .served_client import SMALL, Connection, Said
from .streams import SLICE, envelope, write_parts

PIECE, QUIET = 65_536, 60.0  # bytes up to which a request is small; seconds between two log lines of one kind
LARGE_PAGE, HANDSHAKE = 2_097_152, 5.0  # bytes; seconds for a TLS handshake
ASIDE = 256  # the most requests that wait for others without a turn
MANY = 4  # an address with more than one in MANY of the connections has many


class Bounds(NamedTuple):
    """The limits of a port: on connections, on the time to send a request or accept a reply, and on memory."""

    connections: int = 64
    seconds: float = 60.0  # to send a whole request, to wait for a turn, and to accept a reply
    idle: float = 60.0  # seconds without a request
    kept: int = 268_435_456  # bytes of requests and replies, for all clients together


class Port:
    """Answers requests by `reply`, which is given the shard's number and a request. The number is `own`, for a port of
    one shard, or else the sender's number in the envelope."""

    def __init__(
        self, reply: Callable[[int, bytes], Awaitable[Said]], shape: Shape, bounds: Bounds, own: Optional[int] = None
    ) -> None:
        self.reply, self.shape, self.bounds, self.own = reply, shape, bounds, own
        self.turns = Fair(max(2, bounds.kept // shape.longest))  # limits how many requests are answered at once
        self.connections, self.coming = dict[Connection, None](), dict[Connection, None]()  # coming: in their handshake
        self.asking = set[Connection]()  # clients with a request being answered, even if they were disconnected since
        self.answers, self.at_turn = set["asyncio.Task[Said]"](), set["asyncio.Task[Any]"]()  # all; those with a turn
        self.told: dict[tuple[str, str], float] = {}
        self.say: Callable[[str], None] = functools.partial(print, file=sys.stderr, flush=True)  # a line for operators
        self.kept, self.changed = 0, asyncio.Event()
        self.accepting, self.tls = list["asyncio.Task[None]"](), dict[str, Any]()  # one for each socket; TLS options

    def tell(self, text: str, kind: str, client: object = "") -> None:
        """Log a line, unless one of the same kind about the same address (IPv6: /64 network) was logged within a
        minute."""
        now, key = time.monotonic(), (kind, client.whom if isinstance(client, Connection) else "")
        if now - self.told.get(key, -QUIET) >= QUIET:
            self.told = {key: when for key, when in self.told.items() if now - when < QUIET} | {key: now}
            self.say(text)

    async def listen(self, host: str, port: int, context: Optional[ssl.SSLContext] = None) -> int:
        """Start to listen, over TLS if a context is given; return the port's number."""
        self.tls = {"ssl": context, "ssl_handshake_timeout": HANDSHAKE} if context else {}
        listening = bound(host, port)
        self.accepting = [asyncio.create_task(accept(it, self.connect)) for it in listening]
        return int(listening[0].getsockname()[1])

    async def close_port(self) -> None:
        """Stop listening, disconnect all clients, and cancel the answers under way."""
        for accepting in self.accepting:
            accepting.cancel()
        await asyncio.gather(*self.accepting, return_exceptions=True)
        while tasks := [*(client.task for client in (*self.connections, *self.coming)), *self.answers]:
            for task in tasks:
                task.cancel()
            await asyncio.gather(*tasks, return_exceptions=True)

    def cut_off(self, client: Connection) -> None:
        self.let_go(client)
        client.task.cancel()

    def let_go(self, client: Connection) -> None:
        """Forget a client. If a request of it is being answered, the bytes kept for it count until that is done."""
        self.connections.pop(client, None)
        self.coming.pop(client, None)
        if client not in self.asking:
            self.hold(client, -client.kept)

    def hold(self, client: Connection, size: int) -> None:
        client.kept += size
        self.kept += size
        self.changed.set()

    def keep(self, client: Connection, size: int) -> None:
        """Count `size` more bytes as kept for a client, or fewer if it is negative. If that is too much, disconnect
        others, but none whose request is being answered, since that would free nothing."""
        if client not in self.connections:
            return
        self.hold(client, size)
        while size > 0 and self.kept > self.bounds.kept:
            others = [it for it in self.connections if it.kept and it is not client and it not in self.asking]
            if not others:
                return
            other = min(others, key=lambda it: it.since)
            self.tell(f"client {other} is cut off: too much memory is used, by this client for longest", "kept", other)
            self.cut_off(other)

    def make_room(self, newcomer: Connection, among: dict[Connection, None]) -> None:
        """Add a connection. If there are too many, disconnect the one that waits longest: preferably one of an address
        with many connections, and then preferably one of which no request reached a shard."""
        if len(among) >= self.bounds.connections:
            counts, many = collections.Counter(it.whom for it in among), self.bounds.connections // MANY
            client = min(among, key=lambda it: (counts[it.whom] <= many, it.had_reply, it.since))
            self.tell(f"{len(among)} connections: {client}, which waits longest, is cut off for {newcomer}", "many")
            self.cut_off(client)
        among[newcomer] = None

    async def connect(self, connection: socket.socket, address: tuple[Any, ...]) -> None:
        """Answer the requests of one connection until it ends, or is disconnected by the port."""
        task, loop, wire = asyncio.current_task(), asyncio.get_running_loop(), Wire()
        assert task
        client = Connection(task, address)
        self.make_room(client, self.coming)
        try:
            with contextlib.suppress(asyncio.CancelledError, OSError):  # disconnected, or its TLS handshake failed
                await loop.connect_accepted_socket(lambda: wire, connection, **self.tls)
                self.coming.pop(client, None)
                client.since, client.certificate = time.monotonic(), wire.transport.get_extra_info("peercert")
                self.make_room(client, self.connections)
                wire.transport.set_write_buffer_limits(high=1, low=0)  # so that `drain` waits until all is sent
                await self.converse(client, wire)
        finally:
            self.let_go(client)
            with contextlib.suppress(AttributeError):  # no transport yet, or asyncio's is closed already
                wire.transport.abort()

    async def converse(self, client: Connection, reader: Wire) -> None:
        """Receive requests and send replies until there are no more; log it if the client breaks a rule or deadline."""
        try:
            async with asyncio.TaskGroup() as group:
                group.create_task(self.receive(client, reader))
                group.create_task(self.send(client, reader))
        except* (Fault, TimeoutError) as faults:
            error = faults.exceptions[0]
            text = str(error) or f"no whole request, or no reply taken, in {self.bounds.seconds:g} s"
            self.tell(f"client {client} is cut off: {text}", type(error).__name__, client)
        except* (EOFError, OSError):
            pass  # the client went away, or the shard ended, which is logged elsewhere

    async def receive(self, client: Connection, reader: Wire) -> None:
        """Receive requests and have them answered, one after the other, until there are no more."""
        while first := await self.begin(reader):
            await self.receive_one(client, first, reader)  # in a call of its own: while idle, no request is in memory
            if client.kept > PIECE:
                await client.replies.join()  # small replies may wait for each other and the disk
        await client.replies.put(None)

    async def receive_one(self, client: Connection, first: bytes, reader: Wire) -> None:
        """Receive the request that begins with the byte `first`, have it answered, and queue its reply."""
        client.since = time.monotonic()
        async with asyncio.timeout(self.bounds.seconds):
            sender, payload = await self.take(client, first, reader)
        await self.expect(payload)
        async with asyncio.timeout(self.bounds.seconds):
            await self.turns.acquire(client.whom)
        client.since = time.monotonic()
        task = asyncio.create_task(self.answer(client, sender, payload))
        self.answers.add(task)
        self.at_turn.add(task)
        self.asking.add(client)
        task.add_done_callback(functools.partial(self.answered, client, len(payload or b"")))
        said = await asyncio.shield(task)  # a client that is disconnected meanwhile does not disturb the shard
        await client.replies.put(said)

    async def begin(self, reader: Wire) -> bytes:
        """Return the first byte of the next request, or an empty `bytes` if none begins within the idle time."""
        try:
            async with asyncio.timeout(self.bounds.idle):
                return await reader.read(1)
        except TimeoutError:
            return b""  # the idle connection is closed, which needs no log line

    async def take(self, client: Connection, first: bytes, reader: Wire) -> tuple[int, Optional[Data]]:
        """Return the sender and payload of the envelope that begins with the byte `first`. A payload that is too long
        is discarded as it arrives, and None is returned in its place."""
        if first[0] != MARK:
            raise Fault("what it sends is no envelope")
        _, sender, size = HEAD.unpack(first + await reader.readexactly(HEAD.size - 1))
        fits = size <= self.longest()
        place, kept = self.place(size) if fits else memory(min(PIECE, size)), 0
        while size:
            piece = place[kept:][: min(SLICE, size)]
            if fits:
                await self.wait_for_answers(client, len(piece))
            await reader.readinto(piece)
            size -= len(piece)
            if fits:
                self.keep(client, len(piece))  # counts what arrived, not what was announced
                kept += len(piece)
                if kept == LARGE_PAGE:  # a client that sent this much may cause as much memory to be taken in advance
                    filling(place)
        return sender, place if fits else None

    async def wait_for_answers(self, client: Connection, size: int) -> None:
        """Wait while `size` further bytes would be too many and the client to disconnect is one whose request is being
        answered: disconnecting that client would free nothing."""
        while self.kept + size > self.bounds.kept:
            others = [it for it in {*self.connections, *self.asking} if it.kept > PIECE and it is not client]
            if not others or min(others, key=lambda it: it.since) not in self.asking:
                break
            self.changed.clear()
            await self.changed.wait()

    def longest(self) -> int:
        """Return the bytes of the longest request that is accepted."""
        return self.shape.longest

    def place(self, size: int) -> memoryview:
        """Return memory for a request."""
        return memory(size)

    async def answer(self, client: Connection, sender: int, request: Optional[Data]) -> Said:
        number, payload = sender if self.own is None else self.own, request or b""
        if refused := refuse(self.shape, request):
            self.tell(f"client {client} sends what is no request: {in_words(refused)}", "no request", client)
            return Said([envelope(write_frame(refused), number)])
        client.had_reply = True
        return await self.reply(number, payload if len(payload) > PIECE else bytes(payload))  # long ones are not copied

    async def expect(self, request: Optional[Data]) -> None:
        """Wait, before a request gets its turn, until it may be answered. For subclasses."""

    def give_way(self) -> bool:
        """End the turn of the request that is being answered, since it now waits for others, such as the ledger, unless
        too many do so already. Returns whether it may wait; a task that answers no request has no turn, and may."""
        task = asyncio.current_task()
        if task in self.at_turn:
            if len(self.answers) - len(self.at_turn) >= ASIDE:
                return False
            self.end_turn(task)
        return True

    def end_turn(self, task: "asyncio.Task[Any]") -> None:
        if task in self.at_turn:
            self.at_turn.discard(task)
            self.turns.release()

    def answered(self, client: Connection, size: int, task: "asyncio.Task[Said]") -> None:
        """Count the reply as kept in place of its request of `size` bytes; for a disconnected client count nothing."""
        self.end_turn(task)
        self.answers.discard(task)
        self.asking.discard(client)
        failed = task.cancelled() or task.exception()  # raised where the reply is awaited, if it still is
        if client not in self.connections:
            self.hold(client, -client.kept)
        elif not failed:
            self.keep(client, task.result().size - size)

    async def send(self, client: Connection, wire: Wire) -> None:
        """Send the replies in order, each once the write that it depends on is on the disk. Small ones that are due
        together are sent together."""
        due = list[Said]()
        while said := await client.replies.get():
            if said.size > SMALL or not said.is_due:
                await self.send_due(client, wire, due)
            if said.written:
                await asyncio.shield(said.written)
            due.append(said)
            if said.size > SMALL or client.replies.empty():
                await self.send_due(client, wire, due)
            del said  # so that the reply is not in memory while the client is idle
        await self.send_due(client, wire, due)

    async def send_due(self, client: Connection, wire: Wire, due: list[Said]) -> None:
        """Send replies together within the deadline; after that they no longer count as kept."""
        if due:
            async with asyncio.timeout(self.bounds.seconds):
                await write_parts(wire, [part for said in due for part in said.known])
            for said in due:
                self.keep(client, -said.size)
                client.replies.task_done()
            client.since = time.monotonic()
            due.clear()
