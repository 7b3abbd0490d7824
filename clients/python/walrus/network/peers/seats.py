"""Shards at nodes, over TLS. Requests to them are those of the small client, with its deadlines and filters."""
import asyncio
import concurrent.futures
import contextlib
import functools
import itertools
import json
import pathlib
import socket
import ssl
import time
from typing import Any, Optional, Sequence


from walrus import client
from walrus.client.shards import Heard
from walrus.network.ledger.entries import OPERATOR
from walrus.network.ledger.rules import Ledger
from walrus.network.service.names import read_address
from walrus.wire.connection import Wire, connect

LOOKUPS = 32  # names that are resolved at once, at most one of each node
FIRST = 2.0  # seconds for a node's address to accept a connection before the next one is tried
LANES, LARGE = 8, 4_194_304  # exchanges with a shard at once; bytes from which on a request is large
SMALL, TOGETHER, MANY = 32_768, 262_144, 64  # a small request has at most SMALL bytes; limits of those sent together
Storing = dict["asyncio.Future[str]", list[client.Data]]  # requests to store blobs, by the future of the result
FIGURES, SCRUB = b"\x60", b"\x61"  # requests for a node's figures: alone, or, from the operator, with a scrub begun
HELD, ASKED = b"\x63", 1_000  # the question which blobs a node holds, before their identifiers; the most of these
LACKS, HOLDS, UNSEEN = range(3)  # what it answers for each, behind the same byte; `UNSEEN`: it had not the time
DECLINES = b"\x30"  # the kind of an answer, which comes first if the request is declined


class Seat(client.Shard):
    """A shard at a node, whose name is resolved for each connection. It may be asked again after a fault. Several
    exchanges may be under way at once, each over a connection of its own."""

    def __init__(self, peers: "Peers", name: str, number: int, faults: int):
        super().__init__(number, faults, peers.seconds)
        self.peers, self.name, self.turns = peers, name, asyncio.Semaphore(LANES)
        self.large = asyncio.Semaphore(2)  # for large requests: a node keeps no more in memory
        self.small = asyncio.Semaphore(1)  # for one exchange with small requests at a time
        self.waiting: Storing = {}  # small requests to send together
        self.going: Optional["asyncio.Task[None]"] = None  # sends these
        self.idle = list[Wire]()

    async def connection(self) -> Wire:
        """Return an idle connection to the node, or a new one."""
        while self.idle:
            wire = self.idle.pop()
            if not wire.at_eof() and not wire.exception():
                return wire
            wire.transport.abort()  # it was closed between two requests
        return await self.peers.connect(self.name)

    async def ask(self, *requests: client.Request) -> list[client.Reply]:
        """Return the replies, as any shard does. An exchange that has begun continues even if nobody waits any more, to
        learn when a late shard answers again. If the caller is cancelled before its turn, nothing is sent."""
        await self.turns.acquire()
        task = asyncio.create_task(self.exchange(requests))
        self.exchanges.add(task)
        task.add_done_callback(self.exchanged)
        return await asyncio.shield(task)

    def exchanged(self, task: "asyncio.Task[Any]") -> None:
        super().exchanged(task)
        self.turns.release()

    async def exchange(self, requests: Sequence[client.Request], heard: Heard = None) -> list[client.Reply]:
        """Return the replies to requests over a connection of their own; calls `heard` with each as soon as it came."""
        if self.fault:
            raise ConnectionError(self.fault)
        begun, wire = time.monotonic(), None
        try:
            async with asyncio.timeout(self.seconds):
                wire = await self.connection()
                if len(requests) == 1:  # it is answered only once all of it is sent
                    await self.send(wire, requests)
                    replies = await self.hear(wire, requests, heard)
                else:
                    replies, _ = await asyncio.gather(self.hear(wire, requests, heard), self.send(wire, requests))
        except (EOFError, OSError, ValueError) as error:
            await self.drop()  # idle ones may be dead too: a firewall that forgets one connection forgets all
            raise ConnectionError(client.fault_in_words(error, self.seconds)) from None
        else:
            self.idle.append(wire)
            wire = None
        finally:
            if wire:
                wire.transport.abort()
        self.took, self.late = max(time.monotonic() - begun, 0.9 * self.took), False
        return replies

    async def store(self, request: list[client.Data], registered: asyncio.Event) -> str:
        """Store a whole blob; return an empty text, or why the shard did not store it. If the caller is cancelled, the
        request is dropped. A small one is sent at once if no other is under way, and otherwise with others: not before
        it is registered, as the node would delay the others until then."""
        told: "asyncio.Future[str]" = asyncio.get_running_loop().create_future()
        size = sum(map(len, request))
        if size <= SMALL and (self.small.locked() or self.waiting):
            await registered.wait()
            return await self.join(told, request)
        async with contextlib.AsyncExitStack() as stack:
            if size <= SMALL or size >= LARGE:
                await stack.enter_async_context(self.small if size <= SMALL else self.large)
            await stack.enter_async_context(self.turns)
            await self.put({told: request})
        return told.result()

    async def join(self, told: "asyncio.Future[str]", request: list[client.Data]) -> str:
        """Store a small blob together with others that wait; return an empty text, or why it is not stored."""
        self.waiting[told] = request
        if self.going is None or self.going.done():
            self.going = asyncio.create_task(self.send_together())
            self.exchanges.add(self.going)
            self.going.add_done_callback(super().exchanged)
        try:
            return await told
        finally:
            self.waiting.pop(told, None)

    async def send_together(self) -> None:
        """Send waiting small requests while there are any, as many in each exchange as fit."""
        taken: Storing = {}
        try:
            while self.waiting:
                async with self.small, self.turns:
                    if taken := self.take():
                        await self.put(taken)
        except asyncio.CancelledError:
            for told in (*taken, *self.waiting):
                told.cancel()
            raise
        except Exception as fault:  # of any kind: it is the result of each request
            for told in (*taken, *self.waiting):
                if not told.done():
                    told.set_result(str(fault) or type(fault).__name__)
            raise

    def take(self) -> Storing:
        """Remove and return the first waiting requests that fit together: copies, as a caller may free its blob."""
        first = [*itertools.islice(self.waiting, MANY)]
        sizes = itertools.accumulate(sum(map(len, self.waiting[it])) for it in first)
        count = sum(size <= TOGETHER for size in sizes)
        taken: Storing = {it: [b"".join(self.waiting[it])] for it in first[:count]}
        for told in taken:
            del self.waiting[told]
        return taken

    async def put(self, storing: Storing) -> None:
        """Store blobs in one exchange, and set the result of each."""
        waiting, rest = iter(storing), "the exchange ended with a clash"

        def tell(told: "asyncio.Future[str]", said: str) -> None:
            if not told.done():  # it is cancelled if nobody waits any more
                told.set_result(said)

        def heard(reply: client.Reply) -> None:
            done = isinstance(reply.end, client.Answer) and reply.end.code == client.DONE
            tell(next(waiting), "" if done else f"store at shard {self.number}: {client.in_words(reply.end)}")

        try:
            await self.exchange([*storing.values()], heard)
        except ConnectionError as error:
            rest = str(error)
        for told in waiting:
            tell(told, rest)

    async def drop(self) -> str:
        while self.idle:
            self.idle.pop().transport.abort()
        return ""


class Peers:
    """The nodes of a network, by name."""

    def __init__(self, ledger: Ledger, authority: pathlib.Path, seconds: float, own: Optional[tuple[str, str]] = None):
        """`own` names the files of the certificate and key that are shown to nodes."""
        self.ledger, self.seconds = ledger, seconds
        self.context = ssl.create_default_context(cafile=str(authority))
        if own:
            self.context.load_cert_chain(*own)
        self.kept = dict[tuple[str, int], Seat]()
        self.pool = concurrent.futures.ThreadPoolExecutor(LOOKUPS, "names")  # apart from asyncio's, which serves all
        self.taken = dict[str, str]()  # each node's address that accepted the last connection
        self.sought = dict[str, "asyncio.Future[list[Any]]"]()  # lookups under way, by node

    def address(self, name: str) -> tuple[str, int]:
        """Return a node's host and port by the ledger; raises `ConnectionError` if it has none."""
        if name not in self.ledger.addresses:
            raise ConnectionError(f"{name} has posted no address to the ledger")
        return self.ledger.addresses[name]

    async def connect(self, name: str) -> Wire:
        """Connect to a node at the first of its addresses that accepts soon. The one that accepted the last connection
        is tried first, so an address where a firewall drops packets costs time only once. It is tried again after all
        others, as it may be slow."""
        port, hosts = self.address(name)[1], await self.find(name)
        *others, last = sorted(hosts, key=lambda it: it != self.taken.get(name))
        if others and others[0] == self.taken.get(name):
            others, last = [*others, last], others[0]
        to = functools.partial(connect, port=port, ssl=self.context, server_hostname=name)
        for host in others:
            with contextlib.suppress(OSError):  # such as `TimeoutError`
                async with asyncio.timeout(min(FIRST, self.seconds / (len(others) + 1))):
                    wire = await to(host)
                self.taken[name] = host
                return wire
        try:
            wire = await to(last)
        except ssl.SSLCertVerificationError as fault:
            raise ConnectionError(f"it has no certificate of {name}: {fault.verify_message}") from None
        self.taken[name] = last
        return wire

    async def find(self, name: str) -> list[str]:
        """Return the addresses of a node. Its name is resolved in a thread, by one lookup at a time, as a node may post
        a name that takes long: that delays no other node."""
        host, port = self.address(name)
        if read_address(host):
            return [host]
        sought = self.sought.get(name)
        if not sought or sought.done():
            look = functools.partial(socket.getaddrinfo, host, port, type=socket.SOCK_STREAM)
            try:
                sought = self.sought[name] = asyncio.get_running_loop().run_in_executor(self.pool, look)
            except RuntimeError as fault:  # no thread can be started
                raise ConnectionError(f"{host} cannot be looked up: {fault}") from None
            sought.add_done_callback(lambda it: it.cancelled() or it.exception())  # even if nobody waits any more
        return [str(it[4][0]) for it in await asyncio.shield(sought)]

    def seats(self, owners: Sequence[str], faults: int) -> list[Seat]:
        """Return the shards of a committee, given the node of each; the same objects at each call."""
        places = [(name, number) for number, name in enumerate(owners)]
        return [self.kept.get(it) or self.kept.setdefault(it, Seat(self, *it, faults)) for it in places]

    async def told(self, name: str, request: bytes) -> dict[str, Any]:
        """Return the figures that a node sends; raises `ConnectionError` if it does not."""
        payload = await self.answered(name, request, self.seconds)
        try:
            if payload[:1] == DECLINES:
                raise ValueError(f"it takes this order from the {OPERATOR} alone")
            if not isinstance(told := json.loads(payload[1:]), dict):
                raise ValueError("its reply has no figures")
            return told
        except (ValueError, RecursionError) as fault:
            raise ConnectionError(str(fault)) from None

    async def answered(self, name: str, request: bytes, seconds: float) -> bytes:
        """Return the first payload that a node answers to a request, over a connection of its own; raises
        `ConnectionError` if there is none within these seconds."""
        try:
            async with asyncio.timeout(seconds):
                with contextlib.closing(await self.connect(name)) as wire:
                    wire.write(client.envelope(request))
                    return bytes((await client.take_envelope(wire, 65_535))[1])
        except (OSError, EOFError, ValueError) as fault:
            raise ConnectionError(client.fault_in_words(fault, seconds)) from None

    async def close(self) -> None:
        await asyncio.gather(*(seat.close() for seat in self.kept.values()))
        self.pool.shutdown(wait=False, cancel_futures=True)
