"""Lengths of files, taken from the metadata of their blobs alone if that settles them."""
from typing import Optional


from walrus import client
from walrus.client.shards import Asked
from walrus.network.files.file_list import HEAD, NAME
from walrus.network.peers.network import Network
from walrus.network.peers.parts import name_of


KNOWN = 65_536  # the most lengths that are kept; the oldest one is dropped first


class Lengths:
    """The lengths of blobs, kept once they are known."""

    def __init__(self, network: Network):
        self.network = network
        self.known = dict[bytes, int]()

    async def of_blob(self, identifier: bytes) -> Optional[int]:
        """Returns the length of a blob; None if no shard returns its metadata."""
        length = self.known.get(identifier)
        if length is None and (length := await self.ask(identifier)) is not None:
            self.known[identifier] = length
            if len(self.known) > KNOWN:
                del self.known[next(iter(self.known))]
        return length

    async def of_file(self, identifier: bytes) -> Optional[int]:
        """Returns the length of a file; None if its blob may be a list of pieces, or if no metadata is heard."""
        length = await self.of_blob(identifier)
        return None if length is None or length > HEAD.size and not (length - HEAD.size) % NAME else length

    async def ask(self, identifier: bytes) -> Optional[int]:
        """Asks f+1 shards, and others if these are late or of no use, for a symbol that none has: they return little
        beside the metadata, which the identifier verifies. Returns the length in it, or None."""
        ledger = self.network.ledger
        wanted = client.Symbol(identifier, client.PRIMARY, 999)  # only the last shard of 1,000 could have it
        seats = self.network.peers.seats(ledger.owners(ledger.home_epoch(identifier)), ledger.faults)
        listening = client.Listening(seats, Asked.of(client.write_frame(wanted), 0, 0))
        listening.ask(ledger.faults + 1)
        try:
            while not listening.is_over():
                said = await listening.next()
                for found in [kept.get(client.METADATA, b"") for _, kept, _ in said]:
                    if found and name_of(found) == identifier:
                        front = 3 + (found[0] == client.SECOND_METADATA)
                        return int.from_bytes(found[front : front + 8], "big")  # noqa: E203
                listening.ask(max(1, len(said)))
        finally:
            await listening.end()
        return None
