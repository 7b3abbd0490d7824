"""Fills a shard that was restarted empty with what the others hold."""
import asyncio
from collections.abc import Iterable


from walrus.client import COUNTS, DONE, HELD, METADATA, PRIMARY, SECONDARY, SLIVERS, Failed

from . import client


async def give(shard: client.Shard, step: client.Step) -> None:
    """Asks a shard to take a step; raises `Failed` if it does not."""
    if other := (await client.take_steps(shard, [step]))[1]:
        raise Failed("it is not refilled", {shard.number: other})


async def give_metadata(shard: client.Shard, others: client.Shards, identifier: bytes) -> bytes:
    """Gives a shard each metadata that the others return, until it accepts one, and returns that. Raises `Failed` if
    the shard accepts none."""
    asked = client.write_frame(client.Symbol(identifier, PRIMARY, shard.number))
    heard = await asyncio.gather(*[client.listen(other, asked) for other in others])
    said = {number: words for number, _, words in heard}
    told: set[bytes] = {kept[METADATA] for _, kept, _ in heard if METADATA in kept}
    for metadata in told:
        _, said[shard.number] = await client.take_steps(shard, [("metadata", metadata, (DONE, HELD))])
        if not said[shard.number]:
            return metadata
    raise Failed("no metadata of the blob is stored", said)


async def refill(
    shard: client.Shard, others: client.Shards, identifiers: Iterable[bytes], until: int, walrus: client.Walrus
) -> None:
    """Registers blobs at an empty shard, and gives it the metadata and both slivers of each, in the blob's format.

    They come from the others, of which 2f+1 must hold a blob. For a badly encoded one the shard gets a proof instead.
    Raises `Failed`, or `Refused` if too little is received."""
    shape, own = client.shape_of([shard, *others]), shard.number
    for identifier in identifiers:
        entry = client.write_frame(client.RegisterEntry(identifier, until))
        await give(shard, (f"register until {until}", entry, (DONE,)))
        metadata = await give_metadata(shard, others, identifier)
        column = shape.shards - 1 - own if metadata[0] == client.SECOND_METADATA else own
        for axis, index in ((PRIMARY, own), (SECONDARY, column)):
            status, part = await client.recover(others, client.Symbol(identifier, axis, index), walrus)
            await give(shard, (SLIVERS[axis], part, (DONE, HELD)))
            if status:
                break
        else:
            await give(shard, ("acknowledge", client.write_frame(client.Ack(identifier)), COUNTS))
