"""What a node says of the blobs that it holds, to a writer that asks about many of them in one exchange.

A blob is held if all the node's shards of the committee that answers for it have its metadata and both slivers in their
rows, not marked wrong, and each file that a row names is there with its length. No content is read: that is the work of
reads, challenges and scrubs."""
import contextlib
import functools
import sqlite3
import time
from typing import TYPE_CHECKING, Sequence


from walrus.format.frames import METADATA, PRIMARY, SECONDARY
from walrus.network.node.disk.content_files import Files
from walrus.network.node.disk.store import MARK, SEEN
from walrus.network.peers.seats import ASKED, HELD, HOLDS, LACKS, UNSEEN


if TYPE_CHECKING:
    from .node import Node

NAME, LOOKS = 32, 1.0  # bytes of an identifier; seconds in which blobs are looked for, one of them at least
ROWS = f"""SELECT part, size, file FROM held JOIN contents USING (content)
    WHERE holding = ? AND identifier = ? AND {SEEN} AND NOT wrong"""
Sides = Sequence[tuple[int, int]]  # the holding and epoch of each shard
Lost = tuple[int, bytes, int, str]  # the holding, blob and part of a file that is not there, and its name


def look(files: Files, asked: Sequence[tuple[bytes, Sides]], base: sqlite3.Connection) -> tuple[bytes, list[Lost]]:
    """Return a byte for each blob, whether all these sides hold it, and the parts whose file is not there."""
    found, lost, end = bytearray(), list[Lost](), time.monotonic() + LOOKS
    for identifier, sides in asked:
        if found and time.monotonic() > end:
            found.append(UNSEEN)
            continue
        holds = bool(sides)
        for holding, epoch in sides:
            parts = set[int]()
            for part, size, file in base.execute(ROWS, (holding, identifier, epoch, epoch)):
                if file and not files.has(file, size):
                    lost.append((holding, identifier, part, file))
                else:
                    parts.add(part)
            holds = holds and {METADATA, PRIMARY, SECONDARY} <= parts
        found.append(HOLDS if holds else LACKS)
    return bytes(found), lost


async def held(node: "Node", request: bytes) -> bytes:
    """Return the reply to the question which blobs the node holds. A part whose file is not there is marked wrong, so
    that the node takes it from a writer, or recovers it."""
    ledger, names = node.ledger, [request[at : at + NAME] for at in range(1, len(request), NAME)][:ASKED]  # noqa: E203
    sides = {epoch: [(it.holding, epoch) for it in side.values()] for epoch, side in node.sides.items()}
    asked = [(name, sides.get(home, [])) for name, home in ledger.homes(names).items()]
    found, lost = await node.store.asked(functools.partial(look, node.store.files, asked))
    with contextlib.suppress(sqlite3.Error):  # the store has reported it
        for row in lost:
            node.store.stage(MARK, *row)
    for identifier in dict.fromkeys(identifier for _, identifier, _, _ in lost):
        node.wrong.put_nowait(identifier)
    return HELD + found
