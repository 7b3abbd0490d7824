"""Collects shards' replies to one request, and no more of them than the program `walrus` needs for a result."""

import asyncio
import collections
import contextlib
import random
from typing import Optional, Union


from walrus.engines.codes import BADLY_ENCODED, Code
from walrus.format.envelopes import parts
from walrus.format.frames import write_frame
from walrus.format.kinds import METADATA, PROOF, SECONDARY, Read, Symbol
from walrus.wire.baskets import Basket
from walrus.wire.streams import envelope

from .program import TooFew, Walrus, refusal
from .shards import AGAIN, PROVES, Asked, Shard, Shards, listen, patience_for, shape_of


class Listening:
    """Asks shards in random order, those that were late or failed last, and only as many as the caller wants. Further
    ones are asked if some are late, or reply nothing useful."""

    def __init__(self, shards: Shards, request: bytes) -> None:
        self.shards, self.repeats, mixed = shards, 0, random.sample(list(shards), len(shards))
        self.left, self.request = sorted(mixed, key=lambda it: bool(it.late or it.fault)), request
        self.pending = dict["asyncio.Task[tuple[int, dict[int, bytes], str]]", Shard]()

    def ask(self, count: int) -> None:
        """Ask `count` further shards, or those that are left."""
        for shard in self.left[: max(0, count)]:
            self.pending[asyncio.create_task(listen(shard, self.asked()))] = shard
        del self.left[: max(0, count)]

    def asked(self) -> bytes:
        """Return the request for the next shard."""
        return self.request

    async def next(self, waits: bool = True) -> list[tuple[int, dict[int, bytes], str]]:
        """Wait for some replies and return them: number, useful frames by kind, and words, as `listen` gives them. If
        the shards asked are late, return none. If no others are left, wait however late they are, if `waits`."""
        patience = None if waits and not self.left else patience_for(self.pending.values())
        done, late = await asyncio.wait(self.pending, timeout=patience, return_when=asyncio.FIRST_COMPLETED)
        for task in () if done else late:
            self.pending[task].late = True
        for task in done:
            del self.pending[task]
        return [task.result() for task in done]

    def again(self, number: int) -> None:
        """Put a shard behind those that are left, to be asked again; in all at most twice the number of shards."""
        self.repeats += 1
        if self.repeats <= 2 * len(self.shards):
            self.left += [shard for shard in self.shards if shard.number == number]

    def is_over(self) -> bool:
        return not self.left and not self.pending

    async def end(self) -> None:
        for task in self.pending:
            task.cancel()
        await asyncio.gather(*self.pending, return_exceptions=True)


class Proving(Listening):
    """Asks each shard for a proof of bad encoding, with separate memory for it; other long payloads are discarded."""

    def __init__(self, shards: Shards, request: bytes) -> None:
        super().__init__(shards, request)
        self.sieves = list[Basket]()

    def asked(self) -> bytes:
        made = Asked.for_proof(self.request)
        self.sieves.append(made.basket)
        return made

    async def end(self) -> None:
        await super().end()
        for sieve in self.sieves:
            sieve.close()


async def collect(
    shards: Shards,
    request: Union[Read, Symbol],
    walrus: Walrus,
    *words: object,
    told: Optional["collections.Counter[bytes]"] = None,
) -> tuple[int, bytes]:
    """Run the program on the replies to a request and return its status, 0 or 3, and its text; otherwise raise
    `Refused`. Only as many shards are asked as are needed, and others once one is late or useless. The program runs
    once there are enough replies, and again once further ones may be enough. If all replies are too few, a proof of bad
    encoding decides: status 3, and the proof in an envelope. Long proofs are requested only then, from at most f+1
    shards at once, and from the next if one is late or shows nothing: so liars take little memory and little time. The
    metadata of replies are counted in `told`."""
    needed = shape_of(shards).symbols[getattr(request, "axis", SECONDARY)]
    asked = Asked.of(write_frame(request), needed, len(shards))
    with contextlib.closing(asked.basket):
        return await gather(
            shards, asked, needed, request, walrus, *words, told=collections.Counter() if told is None else told
        )


async def gather(
    shards: Shards,
    asked: Asked,
    needed: int,
    request: Union[Read, Symbol],
    walrus: Walrus,
    *words: object,
    told: "collections.Counter[bytes]",
) -> tuple[int, bytes]:
    """Do the work of `collect`; `needed` is the number of replies before the program runs for the first time."""
    count, patience, said, listening = 0, 1, dict[int, str](), Listening(shards, asked)
    heard, proofs = list[bytes](), dict[bytes, bytes]()  # distinct frames in order; the metadata that came with a proof
    offers = set[int]()  # shards that offered a long proof
    listening.ask(needed)
    try:
        while not listening.is_over():
            found = await listening.next()
            for number, kept, said[number] in found:
                if AGAIN in kept:
                    del kept[AGAIN]
                    listening.again(number)
                if PROVES in kept:
                    del kept[PROVES]
                    offers.add(number)
                told.update([kept[METADATA]] if METADATA in kept else [])
                if PROOF in kept:
                    proofs[kept.pop(PROOF)] = kept.get(METADATA, b"")
                    asked.basket.want(needed + len(proofs))
                heard += [it for it in kept.values() if it not in heard]
                count += len(kept.keys() - {METADATA})
            if count >= needed or listening.is_over():
                status, text = await walrus.run(*words, data=asked.basket.stream(heard))
                asked.basket.is_read = False
                code = walrus.code(status, text)
                if not status or code in BADLY_ENCODED:
                    return status, text
                lacking = refusal(status, text, said, code)
                if not isinstance(lacking, TooFew):
                    raise lacking
                needed = count + patience * max(1, lacking.needed - lacking.held)
                patience *= 2  # so that liars cause few runs of the program
                asked.basket.want(needed + len(proofs))
            listening.ask(max(needed - count - len(listening.pending) * bool(found), not listening.pending))
    finally:
        await listening.end()
    asked.basket.close()  # frees more memory than a proof takes
    for kept in [{PROOF: proof, METADATA: metadata} for proof, metadata in proofs.items()]:
        if await proves(kept, request.identifier, walrus):
            return 3, envelope(kept[PROOF])
    offering = Proving([it for it in shards if it.number in offers], bytes(asked))
    try:
        while not offering.is_over():
            offering.ask(len(offering.pending) <= shards[0].shape.faults)
            for _, kept, _ in await offering.next():
                if await proves(kept, request.identifier, walrus):
                    return 3, envelope(kept[PROOF])
    finally:
        await offering.end()
    raise lacking


async def proves(kept: dict[int, bytes], identifier: bytes, walrus: Walrus) -> bool:
    """Return whether a shard's reply contains a valid proof that the blob was badly encoded."""
    data = parts(kept[kind] for kind in (METADATA, PROOF) if kind in kept)
    return PROOF in kept and walrus.code(*await walrus.run("check", identifier.hex(), data=data)) is Code.INCONSISTENT
