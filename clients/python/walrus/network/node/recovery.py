"""How a node recovers its shards' blobs from other nodes: many blobs at once, from no more nodes than needed."""
import asyncio
import contextlib
import functools
import itertools
import sqlite3
import sys
from collections.abc import AsyncIterator, Awaitable, Callable, Collection, Iterable, Iterator, Sequence
from typing import TYPE_CHECKING, NamedTuple, Optional


from walrus import client
from walrus.client.shards import Asked
from walrus.format import frames
from walrus.format.frames import METADATA, PRIMARY, SECONDARY, code_of
from walrus.network.ledger.blobs import Owed
from walrus.network.ledger.entries import ACK, ATTEST
from walrus.network.peers.parts import name_of
from walrus.network.peers.seats import Seat
from walrus.network.service.task_groups import several

from .judge import Busy, Clash
from .progress import NAMED, Progress
from .shard import LAST, SMALL, Shard, pages


if TYPE_CHECKING:
    from .node import Node

FRONT = 40  # bytes of a sliver before its symbols
LANES, SEATS = 8, 256  # blobs recovered at once, if memory allows; connections for all of them
PAGE = 1_000  # blobs that are looked at before other tasks get a turn
MANY = 100_000  # missing blobs that are listed in memory at once, however many there are
Lack = NamedTuple("Lack", [("shard", Shard), ("identifier", bytes)])  # a blob that a shard lacks


class Once(client.Shard):
    """A shard at another node. When it is first asked for a symbol, one exchange asks for all that are still wanted.
    A long proof in its reply is skipped, and asked for separately."""

    def __init__(self, seat: Seat, wanted: Collection[bytes]):
        super().__init__(seat.number, seat.shape.faults)
        self.seat, self.wanted, self.sent = seat, wanted, list[bytes]()
        self.took, self.late = seat.took, seat.late
        self.asked: Optional["asyncio.Task[list[client.Reply]]"] = None

    async def ask(self, *requests: client.Request) -> list[client.Reply]:
        if not isinstance(requests[0], Asked) or requests[0].is_for_proof:
            return await self.seat.ask(*requests)
        if not self.asked:
            self.sent = [*self.wanted]
            self.asked = asyncio.create_task(self.seat.ask(*map(Asked.alone, self.sent)))
            self.asked.add_done_callback(lambda it: it.cancelled() or it.exception())  # even if nobody waits
        try:
            replies = await asyncio.shield(self.asked)
        except ConnectionError:
            self.late = True  # it may have missed its deadline with no other shard left to ask
            raise
        self.late = False
        if len(replies) < len(self.sent):
            raise ConnectionError("its reply ended with a clash")
        return [replies[self.sent.index(it)] for it in requests]  # type: ignore[arg-type]


class Own(client.Shard):
    """The shard that recovers. Each of its slivers has a symbol of the other one, which counts like any other: with f
    silent shards only 2f others may be left, and a primary sliver takes 2f+1 symbols."""

    def __init__(self, shard: Shard):
        super().__init__(shard.number, shard.ledger.faults)
        self.shard = shard

    async def ask(self, *requests: client.Request) -> list[client.Reply]:
        [request] = map(bytes, requests)  # type: ignore[arg-type]
        answering = asyncio.create_task(self.shard.answer(request))  # it runs on if nobody waits, as it holds memory
        answering.add_done_callback(lambda it: it.cancelled() or it.exception())
        *found, end = await asyncio.shield(answering)
        kept = {kind: bytes(it) for it in found if (kind := self.shape.keeps(it, request, self.number))}
        return [client.Reply(kept, frames.read_frame(end))]


@contextlib.asynccontextmanager
async def passing(who: str, what: str, seconds: float = 0) -> AsyncIterator[None]:
    """Report a temporary fault of the system or of others, such as no free descriptor, and wait before the caller tries
    again. Faults that must end the node are raised."""
    try:
        yield
    except (OSError, Busy, sqlite3.OperationalError) as fault:
        print(f"{who}: {what}: {fault}", file=sys.stderr, flush=True)
        await asyncio.sleep(seconds)


async def by_lanes(node: "Node", lacks: Iterable[Lack], step: Callable[[Lack], Awaitable[None]]) -> None:
    """Run a step for each blob, several at once. If steps fail, one is reported in a minute for each kind of fault, as
    they may be as many as the blobs; a later round tries them again."""

    async def take(lack: Lack) -> None:
        await asyncio.sleep(0)  # a turn for others, as possibly no step waits for anything
        try:
            await step(lack)
        except Exception as fault:  # whatever other nodes reply, or the system refuses for now, this one goes on
            if isinstance(fault, (Clash, sqlite3.Error)) and not isinstance(fault, sqlite3.OperationalError):
                raise  # a hash collision or a torn database: the node must stop
            kind = type(fault).__name__
            node.port.tell(f"{lack.shard.title}: {lack.identifier.hex()}: {kind}: {fault}", kind)

    await several(map(take, lacks), max(1, min(LANES, SEATS // node.port.shape.shards)))


async def settle(node: "Node", epoch: int, owed: Collection[bytes] | Owed, progress: Optional[Progress] = None) -> int:
    """Recover what the node's shards of an epoch lack of the blobs owed, about MANY at a time in the order of their
    names. All that is missing is counted first. Return how many are still missing."""
    losses, left, progress = node.store.losses, 0, progress or Progress(epoch)
    async for lacks in lacking(node, epoch, owed):
        if not lacks[0].shard.free_pages(LAST):  # it could not be kept, so the rest is not looked at
            tell_full(node)
            progress.name(lacks[:NAMED])
            return len(lacks)
        progress.of += len(lacks)
    async for lacks in lacking(node, epoch, owed if progress.of else ()):
        left += await recover_all(node, lacks, progress)
    progress.of = progress.blobs + left  # clients may have stored some of them meanwhile
    kept = await node.store.durable() and node.store.losses == losses
    return left if kept else max(1, left)  # the disk has lost something that it had before


def paged(names: Iterator[bytes]) -> Iterator[list[bytes]]:
    while some := [*itertools.islice(names, PAGE)]:
        yield some


async def lacking(node: "Node", epoch: int, owed: Iterable[bytes] | Owed) -> AsyncIterator[list[Lack]]:
    """Yield lists of what the node's shards of an epoch want of these blobs, each of about MANY at most. They are found
    page by page, so that other tasks get turns. Of an `Owed` most are there, so one query reads those of a page."""
    shards, lacks = [*node.sides.get(epoch, {}).values()], list[Lack]()
    for some in owed.pages(PAGE) if isinstance(owed, Owed) else paged(iter(owed)):
        for shard in shards:
            held = set[bytes]()
            if isinstance(owed, Owed) and some:
                held = await node.store.settled(shard.holding, epoch, some[0], some[-1])
            lacks += [Lack(shard, it) for it in some if it not in held and shard.wants(it)]
            if len(lacks) >= MANY:
                yield lacks
                lacks.clear()
            await asyncio.sleep(0)
    if lacks:
        yield lacks


async def recover_all(node: "Node", work: list[Lack], progress: Progress) -> int:
    """Recover what shards lack, several blobs at once and large ones first; return how many are still missing.
    Certified blobs come before others, of which possibly nobody has anything. Late nodes are waited for only once all
    blobs have had their turn: nodes that recover the same blobs can then give each other the rest. For blobs without
    a certificate that is done for a few only; if the late node replies, it is asked about the others too."""
    sizes, put_off, certified, others = dict[Lack, int](), list[Lack](), list[Lack](), list[Lack]()
    if not work[0].shard.free_pages(LAST):  # what comes could not be kept
        tell_full(node)
        return len(work)
    node.progress = progress

    async def part(lack: Lack) -> None:
        (certified if node.ledger.certificate(lack.identifier) else others).append(lack)

    async def measure(lack: Lack) -> None:
        if node.store.wrong(lack.shard.holding, lack.identifier):
            await lack.shard.check(lack.identifier)  # it is sound if only the disk had failed for a moment
        if lack.shard.wants(lack.identifier) and (metadata := await find_metadata(node, *lack)):
            sizes[lack] = sum(node.port.shape.symbols) * node.port.shape.symbol_of(metadata)
            progress.of_bytes += sizes[lack]

    async def recover(how: Callable[..., Awaitable[bool]], lack: Lack) -> None:
        async with node.store.alone(lack.shard.holding, lack.identifier, "recover"):  # other tasks may do so too
            if lack.shard.wants(lack.identifier) and await how(node, *lack):
                put_off.append(lack)
        if lack.shard.settled(lack.identifier):
            node.progress = progress  # again, as another recovery may run beside this one
            progress.blobs, progress.bytes = progress.blobs + 1, progress.bytes + sizes.get(lack, 0)

    await by_lanes(node, work, part)
    for some, waits in (certified, len(certified)), (others, LANES):
        await by_lanes(node, some, measure)
        some.sort(key=lambda it: sizes.get(it, 0), reverse=True)
        await by_lanes(node, some, functools.partial(recover, fill))
        late, put_off[:] = [*put_off], []
        await by_lanes(node, late[:waits], functools.partial(recover, functools.partial(fill, late=True)))
        await by_lanes(node, late[waits:], functools.partial(recover, fill))
    left = 0
    for place in range(0, len(work), PAGE):
        missing = [it for it in work[place : place + PAGE] if not it.shard.settled(it.identifier)]  # noqa: E203
        left += len(missing)
        progress.name(missing[:NAMED])
        await asyncio.sleep(0)
    return left  # including what the disk lost meanwhile


def tell_full(node: "Node") -> None:
    """Report that the disk has no room for what would be recovered."""
    node.port.tell(f"{node.name}: the disk has no room for the missing blobs (network/OPERATING.md)", "room")


def sides(node: "Node") -> list[Sequence[Seat]]:
    """Return the shards that may be asked: those of the present committee, and of the next one if there is one."""
    return [node.peers.seats(it, node.ledger.faults) for it in (node.ledger.now, node.ledger.next) if it]


def rounds(node: "Node", own: int, late: bool) -> tuple[list[list[Seat]], bool]:
    """Return groups of other shards to ask for a blob, one after the other, and whether some are left out. Those that
    were late are asked last, and only if `late`. So a silent shard delays nothing that the others have, such as a proof
    of bad encoding, for which all of them are heard."""
    whole = [[it for it in side if (it.name, it.number) != (node.name, own)] for side in sides(node)]
    prompt = [[it for it in side if not it.late] for side in whole]
    enough = 2 * node.ledger.faults if late else node.ledger.faults + 1  # for all of it; for a secondary sliver
    asked = [some for some in prompt if len(some) >= enough]
    others = [side for some, side in zip(prompt, whole) if len(some) < len(side)]
    return (asked + others, False) if late else (asked, bool(others))


async def find_metadata(node: "Node", shard: Shard, identifier: bytes, late: bool = False) -> bytes:
    """Return a blob's metadata, which the shard then holds; empty if nobody has it. Shards that are or become late are
    waited for only if `late`."""

    async def is_it(found: bytes) -> bool:
        fits = bool(found) and name_of(found) == identifier
        return fits and code_of(await shard.put(found, True)) in (client.DONE, client.HELD)

    for own in (shard, *node.sides.get(shard.epoch, {}).values()):
        for part in node.store.parts(own.holding, own.epoch, identifier, [METADATA]):
            if own is shard or await is_it(part.payload):
                return part.payload
    wanted = client.Symbol(identifier, client.PRIMARY, 999)  # a symbol that no shard has, so the reply has little else
    seats = [it for it in itertools.chain(*sides(node)) if late or not it.late]
    listening, are_prompt = client.Listening(seats, Asked.of(client.write_frame(wanted), 0, 0)), True
    try:
        while are_prompt and not listening.is_over():
            listening.ask(1)
            heard = await listening.next(late)
            are_prompt = bool(heard or listening.left)
            for found in [kept.get(client.METADATA, b"") for _, kept, _ in heard]:
                if await is_it(found):
                    return found
    finally:
        await listening.end()
    return b""


async def fill(node: "Node", shard: Shard, identifier: bytes, late: bool = False) -> bool:
    """Recover what a shard lacks of a blob from the others, even from late ones if `late`. Return whether shards that
    were left out may have what is still missing. If a proof of bad encoding comes instead, attest it."""
    if not (metadata := await find_metadata(node, shard, identifier, late)):
        return not late and any(it.late for side in sides(node) for it in side)
    shape, own = node.port.shape, shard.number
    crossing = shape.shards - 1 - own if metadata[0] == client.SECOND_METADATA else own
    targets = {PRIMARY: client.Symbol(identifier, 0, own), SECONDARY: client.Symbol(identifier, 1, crossing)}
    lacks = {*targets} & {*shard.lacks(identifier)}
    counts = [shape.symbols[it - PRIMARY] for it in lacks]  # symbols of each missing sliver
    symbol = shape.symbol_of(metadata)
    size = (sum(counts) + max(counts, default=0)) * (symbol + 1_024)
    async with node.repairs.take(size, None):
        if pages(FRONT + count * symbol for count in counts) > shard.free_pages(LAST):  # it could not be kept
            tell_full(node)
            return False
        if FRONT + symbol * max(counts, default=0) > SMALL:  # a file, which its folder must take: else this raises
            await node.judges.work(node.store.files.must_take, identifier.hex())
        asked_in, are_left_out = rounds(node, own, late)
        for side in asked_in:
            wanted = {part: client.write_frame(targets[part]) for part in lacks & {*shard.lacks(identifier)}}
            others = [Once(it, wanted.values()) for it in side]
            for part in sorted(wanted, reverse=True):  # the secondary sliver first, which takes fewer symbols
                asked: list[client.Shard] = [*others]
                if PRIMARY + SECONDARY - part not in shard.lacks(identifier):  # once the other sliver is there
                    asked = [*(it for it in others if it.number != own), Own(shard)]  # not a shard with the same number
                with contextlib.suppress(client.Refused):
                    if not shard.settled(identifier):
                        found = client.recover(asked, targets[part], node.judges)  # type: ignore[arg-type]
                        await shard.put((await found)[1], True)  # in one expression, so that no copy stays in memory
                del wanted[part]
                for it in others:
                    it.late = it.late or it.asked is None  # whoever was asked has sent the rest already
            for it in others:
                it.seat.late = it.late if it.asked else it.seat.late
    if shard.vouches(ATTEST, identifier) and not shard.vouches(ACK, identifier):
        await attest(node, shard, identifier)
    return are_left_out and not shard.settled(identifier)


async def attest(node: "Node", shard: Shard, identifier: bytes) -> None:
    """Attest a proof of bad encoding. If the ledger is away, `heal` does so later."""
    said = await node.vouch(ATTEST, shard, frames.write_frame(frames.Attest(identifier)))
    if code_of(said) == client.LEDGER_AWAY[0]:
        node.unattested.add(identifier)
