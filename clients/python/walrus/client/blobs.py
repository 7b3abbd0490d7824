"""Publishes blobs at shards, and fetches and recovers them."""
import asyncio
from typing import NamedTuple

from walrus.format.frames import write_frame
from walrus.format.kinds import (
    AXES,
    COUNTS,
    DONE,
    HELD,
    MOST_UNTIL,
    SLIVERS,
    Ack,
    AckEntry,
    Read,
    RegisterEntry,
    Symbol,
)
from walrus.wire.streams import split

from .program import BadlyEncoded, Encoded, Walrus
from .replies import collect
from .shards import Failed, Shards, Step, shape_of, take_steps

Published = NamedTuple("Published", [("signers", list[int]), ("certified", list[int])])  # numbers of shards


class NoQuorum(Failed):
    """Fewer than 2f+1 shards acknowledge a blob, or fewer ledgers count 2f+1 acknowledgements. `published` has the
    numbers of those that do."""

    def __init__(self, text: str, said: dict[int, str], published: "Published") -> None:
        super().__init__(text, said)
        self.published = published


def steps_to_store(encoded: Encoded, shard: int, until: int) -> list[Step]:
    """Return a writer's requests to one shard: register the blob, store its parts, acknowledge it."""
    register, ack = write_frame(RegisterEntry(encoded.identifier, until)), write_frame(Ack(encoded.identifier))
    parts = {"metadata": encoded.metadata, **dict(zip(SLIVERS, encoded.slivers[shard]))}
    stored = [(name, part, (DONE, HELD)) for name, part in parts.items()]
    return [(f"register until {until}", register, (DONE,)), *stored, ("acknowledge", ack, COUNTS)]


async def publish(shards: Shards, encoded: Encoded, until: int) -> Published:
    """Register a blob until an epoch, store it at the shards, and enter their acknowledgements in each shard's ledger.
    Raises `NoQuorum` if fewer than 2f+1 shards acknowledge the blob, or fewer ledgers count 2f+1 acknowledgements."""
    shape = shape_of(shards)
    if not shape.allows(encoded.metadata) or len(encoded.slivers) != shape.shards:
        raise ValueError(f"the blob is encoded for another f than that of the shards, which is {shape.faults}")
    if not 1 <= until <= MOST_UNTIL:
        raise ValueError(f"until is {until}, and should be 1 to 65,536: the epoch until which the blob is kept")
    said = await asyncio.gather(*[take_steps(it, steps_to_store(encoded, it.number, until)) for it in shards])
    signers, certified = [shard.number for shard, (_, words) in zip(shards, said) if not words], list[int]()
    text = f"{len(signers)} shards acknowledge"
    if len(signers) >= shape.quorum:
        acks = [(f"enter acknowledgement of {it}", AckEntry(it, encoded.identifier)) for it in signers]
        steps = [(words, write_frame(entry), COUNTS) for words, entry in acks]
        said = await asyncio.gather(*[take_steps(shard, steps) for shard in shards])
        certified = [shard.number for shard, (count, _) in zip(shards, said) if count >= shape.quorum]
        text += f", and {len(certified)} ledgers count that"
    if len(certified) >= shape.quorum:
        return Published(signers, certified)
    refused = {shard.number: words for shard, (_, words) in zip(shards, said)}
    raise NoQuorum(f"{text}, of {shape.quorum} needed", refused, Published(signers, certified))


async def fetch(shards: Shards, identifier: bytes, walrus: Walrus) -> bytes:
    """Return the blob with this identifier, read from the shards' replies. Raises `Refused` if it cannot be read."""
    status, text = await collect(shards, Read(identifier), walrus, "read", identifier.hex())
    if status:
        raise BadlyEncoded(status, b"reject: the blob was badly encoded", {}, walrus.code(status, text))
    return text


async def recover(shards: Shards, target: Symbol, walrus: Walrus) -> tuple[int, bytes]:
    """Recover a sliver from the symbols that other shards reply. Returns status 0 and the sliver's frame, or status 3
    and the frame of a proof of bad encoding."""
    words = "recover", target.identifier.hex(), AXES[target.axis], target.index
    status, text = await collect(shards, target, walrus, *words)
    return status, split(text)[0][1]
