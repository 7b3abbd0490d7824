"""A shard behind two streams, and what it is asked: requests in order, each with its reply, within a deadline."""

import asyncio
import contextlib
import os
import struct
import time
from collections.abc import Callable, Iterable, Sequence
from typing import Any, NamedTuple, Optional, Union


from walrus.format.envelopes import HEAD, MARK
from walrus.format.kinds import DONE, KINDS, METADATA, READ, SECOND_METADATA, SYMBOL, Answer, Clash, Fault, in_words
from walrus.format.shapes import Shape, name_of
from walrus.wire.baskets import OFFERED, PASSED, Basket, Sieve
from walrus.wire.connection import LARGE, Data
from walrus.wire.streams import Sink, Source, Streams, take_envelope, write_parts

SECONDS = 10.0  # the deadline for requests that are sent together
LONGEST_REPLY = 4  # most frames of a reply, with the answer at its end
LONGEST_END = 133  # bytes of the longest end of a reply: a clash, with its two texts of 65
AGAIN, PROVES = 0, -1  # keys beside kinds: a payload was discarded that may be asked for again, or as a proof
LEAST = 0.2  # least seconds until other shards are asked as well
MOST = 1.0  # and at most
USUAL = 0.2  # seconds that a shard is assumed to need at first

Request = Union[bytes, list[Data]]  # a payload, which may come in parts
Step = tuple[str, bytes, Sequence[int]]  # a request in words and as a payload, and the accepted codes of answers
Reply = NamedTuple("Reply", [("kept", dict[int, bytes]), ("end", Union[Answer, Clash])])  # useful payloads by kind
Heard = Optional[Callable[[Reply], object]]  # is called with each reply


class Asked(bytes):
    """The payload of a request, and in `basket` the memory into which large payloads of its replies come."""

    basket: Basket
    is_for_proof = False

    @classmethod
    def of(cls, payload: bytes, count: int, most: int) -> "Asked":
        """Returns a request to several shards of which `count` replies are needed, with memory for at most `most`. If
        both are 0, only small payloads are kept."""
        made = cls(payload)
        made.basket = Basket(count, most)
        return made

    @classmethod
    def alone(cls, payload: bytes) -> "Asked":
        """Returns a request whose reply has memory of its own."""
        return cls.each([payload])[0]

    @classmethod
    def each(cls, payloads: Sequence[bytes]) -> list["Asked"]:
        """Returns requests to one shard for symbols of one blob, each of whose replies has memory of its own."""
        asked, sieve = [cls(payload) for payload in payloads], Sieve(len(payloads))
        for it in asked:
            it.basket = sieve
        return asked

    @classmethod
    def for_proof(cls, payload: bytes) -> "Asked":
        """Returns a request for a proof of bad encoding: nothing else that is large is kept of its reply."""
        made = cls(payload)
        made.basket, made.is_for_proof = Sieve(1, True), True
        return made

    def hear(self, shape: Shape, payload: bytes) -> None:
        """Once the blob's own metadata has come, sets the lengths of the payloads that may follow, if any is large."""
        is_metadata = payload[:1] in (bytes([METADATA]), bytes([SECOND_METADATA])) and shape.allows(payload)
        if not self.basket.size and is_metadata:
            size, proofs = shape.lengths_of(payload, self)
            if max(size, *proofs) >= LARGE and name_of(payload) == self[1:33]:
                self.basket.size, self.basket.proofs = size, proofs


class Failed(Exception):
    """A request to shards failed; `said` has by shard the request and its answer, or the fault."""

    def __init__(self, text: str, said: dict[int, str]) -> None:
        super().__init__("; ".join([text] + [f"shard {it}: {said[it]}" for it in sorted(said) if said[it]]))
        self.said = said


def fault_in_words(error: Exception, seconds: float) -> str:
    """Returns in words why a shard did not reply within these seconds."""
    if isinstance(error, (EOFError, TimeoutError)):
        return "it ended" if isinstance(error, EOFError) else f"no whole reply within {seconds:g} s"
    number = getattr(error, "errno", None) or 0
    return os.strerror(number).lower() if number > 0 else getattr(error, "strerror", None) or str(error)


class Shard(contextlib.AbstractAsyncContextManager["Shard"]):
    """A shard behind two streams, which are opened when it is first asked. After a fault it is not asked again."""

    def __init__(self, number: int, faults: int, seconds: float = SECONDS) -> None:
        self.number, self.shape, self.seconds, self.fault = number, Shape(faults), seconds, ""
        self.streams: Optional[Streams] = None
        self.took = USUAL  # seconds for an exchange: a decaying maximum
        self.late = False  # whether a reply is overdue
        self.turn, self.exchanges = asyncio.Lock(), set[asyncio.Task[Any]]()

    async def open(self) -> Streams:
        raise NotImplementedError  # returns the streams, which it opens if they are not open

    async def ask(self, *requests: Request) -> list[Reply]:
        """Returns the replies to payloads, in order and up to a clash, within one deadline. Raises `ConnectionError` if
        the shard fails, which it then does for good."""
        task = asyncio.create_task(self.exchange(requests))  # it goes on if nobody waits, to keep replies in step
        self.exchanges.add(task)
        task.add_done_callback(self.exchanged)
        return await asyncio.shield(task)

    def exchanged(self, task: "asyncio.Task[Any]") -> None:
        self.exchanges.discard(task)
        if not task.cancelled():
            task.exception()  # is marked as seen: perhaps nobody waits for the replies any more

    async def exchange(self, requests: Sequence[Request]) -> list[Reply]:
        async with self.turn:
            if self.fault:
                raise ConnectionError(self.fault)
            begun = time.monotonic()
            try:
                async with asyncio.timeout(self.seconds):
                    reader, writer = self.streams = await self.open()
                    replies, _ = await asyncio.gather(self.hear(reader, requests), self.send(writer, requests))
                self.took, self.late = max(time.monotonic() - begun, 0.9 * self.took), False
                return replies
            except (EOFError, OSError, ValueError) as error:
                self.fault = fault_in_words(error, self.seconds) + await self.drop()
                raise ConnectionError(self.fault) from None

    async def send(self, writer: Sink, requests: Sequence[Request]) -> None:
        """Sends requests one after the other, in few writes."""
        parts = list[Data]()
        for request in requests:
            payload = request if isinstance(request, list) else [request]
            parts += [HEAD.pack(MARK, self.number, sum(map(len, payload))), *payload]
        with contextlib.suppress(OSError):  # `hear` notices that the stream ended
            await write_parts(writer, parts)

    async def hear(self, reader: Source, requests: Sequence[Request], heard: Heard = None) -> list[Reply]:
        """Returns the replies up to a clash, and calls `heard` with each as soon as it came."""
        replies: list[Reply] = []
        while len(replies) < len(requests) and not (replies and isinstance(replies[-1].end, Clash)):
            replies.append(await self.hear_one(reader, requests[len(replies)]))
            if heard:
                heard(replies[-1])
        return replies

    async def hear_one(self, reader: Source, request: Request) -> Reply:
        kept: dict[int, bytes] = {}
        brings_parts = isinstance(request, bytes) and request[:1] in (bytes([READ]), bytes([SYMBOL]))
        longest = self.shape.longest if brings_parts else LONGEST_END  # so useless payloads take no memory
        for _ in range(LONGEST_REPLY):
            basket = request.basket if isinstance(request, Asked) else None
            sender, payload = await take_envelope(reader, longest, basket)
            if sender != self.number:
                raise Fault(f"it says that it is shard {sender}: are the shards in their order?")
            if payload is PASSED or payload is OFFERED:
                kept[AGAIN if payload is PASSED else PROVES] = payload
            if isinstance(request, Asked):
                request.hear(self.shape, payload)
            if payload[:1] == b"\x31":
                return Reply(kept, Clash(payload))
            if payload[:1] == b"\x30":
                if len(payload) != 10 or payload[1] > 15:
                    raise Fault("its answer is malformed")
                return Reply(kept, Answer(*struct.unpack(">BII", payload[1:])))
            if isinstance(request, bytes) and (kind := self.shape.keeps(payload, request, self.number)):
                kept.setdefault(kind, payload)
        raise Fault("its reply does not end")

    async def drop(self) -> str:
        """Closes the streams; returns in words what else is known about their end."""
        if self.streams:
            self.streams[1].transport.abort()
        return ""

    async def close(self, *_: object) -> None:
        self.fault = self.fault or "it is closed"
        for task in self.exchanges:
            task.cancel()
        await asyncio.gather(*self.exchanges, return_exceptions=True)
        await self.drop()

    __aexit__ = close


class SocketShard(Shard):
    """A shard behind a socket, at a host and a port; `options` are further arguments of asyncio.open_connection."""

    def __init__(self, number: int, faults: int, address: tuple[str, int], seconds: float = SECONDS) -> None:
        super().__init__(number, faults, seconds)
        self.address, self.options = address, dict[str, object]()

    async def open(self) -> Streams:
        if self.streams and not self.streams[0].at_eof() and not self.streams[0].exception():
            return self.streams
        await self.drop()  # it ended between two requests
        return await asyncio.open_connection(*self.address, **self.options)  # type: ignore[arg-type]


Shards = Sequence[Shard]


def shape_of(shards: Shards) -> Shape:
    """Returns the shape that these shards share; raises `ValueError` if they are not distinct ones of one committee."""
    numbers, faults = [shard.number for shard in shards], {shard.shape.faults for shard in shards}
    if len(faults) != 1:
        raise ValueError("no shard is given" if not shards else f"the shards are of several f: {sorted(faults)}")
    if len(set(numbers)) < len(numbers) or max(numbers) >= shards[0].shape.shards:
        raise ValueError(f"shards {numbers} are not distinct numbers below {shards[0].shape.shards}")
    return shards[0].shape


async def take_steps(shard: Shard, steps: Sequence[Step]) -> tuple[int, str]:
    """Asks a shard to take these steps. Returns how many it took, and in words the first answer that is not accepted,
    or the fault; these words are empty if it took all."""
    try:
        replies = await shard.ask(*[payload for _, payload, _ in steps])
    except ConnectionError as error:
        return 0, str(error)
    taken = [getattr(reply.end, "code", None) in codes for (_, _, codes), reply in zip(steps, replies)]
    other = [f"{step[0]}: {in_words(reply.end)}" for step, reply, fine in zip(steps, replies, taken) if not fine]
    return sum(taken), next(iter(other), "")


async def listen(shard: Shard, request: bytes) -> tuple[int, dict[int, bytes], str]:
    """Asks a shard for parts. Returns its number, the useful payloads of its reply by kind, and in words what these
    are, or why there are none."""
    try:
        [reply] = await shard.ask(request)
    except ConnectionError as error:
        return shard.number, {}, str(error)
    words = ", ".join(KINDS[kind] for kind in reply.kept if kind > 0) or "nothing of it"
    done = getattr(reply.end, "code", None) == DONE
    return (shard.number, reply.kept, words) if done else (shard.number, {}, in_words(reply.end))


def patience_for(shards: Iterable[Shard]) -> float:
    """Returns the seconds until others are asked in place of these shards, by the time that these took before."""
    return min(max(LEAST, 2 * max((shard.took for shard in shards), default=0.0)), MOST)
