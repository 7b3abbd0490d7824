"""Blobs that come to a node whole: the judge is asked once for each, and the node acknowledges them by itself."""
import asyncio
from typing import TYPE_CHECKING, Optional


from walrus import client
from walrus.format.frames import answer, code_of
from walrus.network.ledger.entries import ACK, entry_key

from .shard import DECLINED, FULL, Shard
from .whole_blob import Whole


if TYPE_CHECKING:
    from .node import Node

HEARD = 10.0  # seconds for which a blob that came ahead of its registration waits for it


class Intake:
    """Stores the blobs that come to a node whole."""

    def __init__(self, node: "Node"):
        self.node, self.words = node, list[tuple[int, str]]()  # acknowledgements to post; losses before each
        self.given = set[str]()  # those that wait for the disk or the ledger: a blob that is sent again adds none
        self.giving: Optional["asyncio.Task[None]"] = None

    async def expect(self, request: memoryview) -> None:
        """Wait until the ledger shows the registration of the blob in a request, for `HEARD` seconds at most."""
        whole = Whole.read(self.node.port.shape, request)
        if whole and whole.identifier not in self.node.ledger.blobs:
            identifier = whole.identifier
            await self.node.until(lambda it: identifier in it.blobs, HEARD)

    async def store(self, number: int, request: memoryview) -> list[bytes]:
        """Store a blob at a shard and return the answer. If DONE, all is staged, and the caller waits for the disk."""
        node, ledger = self.node, self.node.ledger
        if not (whole := Whole.read(node.port.shape, request)):
            return [answer(client.MALFORMED, 3)]
        identifier = whole.identifier
        shard = node.sides.get(ledger.writing_epoch, {}).get(number)
        if not shard:
            return [answer(DECLINED)]
        losses = node.store.losses
        if not (said := await shard.put_whole(whole)):
            for part in whole.parts:
                if code_of(said := await shard.put(bytes(part))) not in (client.DONE, client.HELD):
                    return said
            said = await shard.answer(whole.wish)
            if node.store.losses != losses:
                return [answer(FULL)]  # the judge counted parts that the disk has lost meanwhile
        if code_of(said) not in client.COUNTS:
            return said
        if not ledger.voted(ACK, identifier, node.name) and not ledger.certified_before(identifier, shard.epoch):
            self.give_word(shard, identifier)
        return [answer(client.DONE)]

    def give_word(self, shard: Shard, identifier: bytes) -> None:
        """Have the node acknowledge a blob that a shard holds, if all its other shards hold it too."""
        node, others = self.node, self.node.sides.get(shard.epoch, {}).values()
        word = entry_key(node.name, ACK, shard.epoch, identifier.hex())
        if word not in self.given and all(it is shard or it.vouches(ACK, identifier) for it in others):
            self.given.add(word)
            self.words.append((node.store.losses, word))
            if self.giving is None or self.giving.done():
                self.giving = asyncio.create_task(self.give_words())

    async def give_words(self) -> None:
        """Post acknowledgements once their blobs are on the disk. The ledger refuses one if the epoch has changed
        meanwhile or the blob has expired."""
        node = self.node
        while self.words:
            words, self.words = self.words, []
            durable = await node.store.durable()
            for losses, word in words:
                if durable and node.store.losses == losses:
                    taken = node.recorders.leave(word)  # done once the ledger takes or refuses it
                    taken.add_done_callback(lambda _, word=word: self.given.discard(word))  # type: ignore[misc]
                else:
                    self.given.discard(word)

    async def close(self) -> None:
        if self.giving:
            self.giving.cancel()
            await asyncio.gather(self.giving, return_exceptions=True)
