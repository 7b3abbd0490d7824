"""Finds out which blobs are lists of pieces, and which are pieces, so that files are shown and not their pieces."""
import asyncio
import collections
import random
from typing import Any, Iterable


from walrus.network.files.file_list import HEAD, NAME, File
from walrus.network.gateway.read.reader import Reader

SORTED, PIECES = 10_000, 200_000  # most files and pieces that are remembered
AT_ONCE = 3  # blobs that one call looks at
TOGETHER = 1_024  # pieces that are recorded before other tasks run


class Sorter:
    """What is known about blobs. `sizes` has the length of each file and the number of its pieces."""

    def __init__(self, reader: Reader):
        self.reader, self.sizes = reader, collections.OrderedDict[bytes, tuple[int, int]]()
        self.pieces: "collections.OrderedDict[bytes, bytes]" = collections.OrderedDict()  # each with its list

    def files(self, blobs: Iterable[bytes]) -> Iterable[bytes]:
        """Returns those blobs that are not known to be pieces."""
        return (it for it in blobs if it not in self.pieces or not self.is_piece(it, self.pieces[it]))

    def is_piece(self, identifier: bytes, listed: bytes) -> bool:
        """Whether a blob has the same poster as a list that names it: else anybody's list could hide others' files."""
        piece, file = map(self.reader.network.ledger.blobs.get, (identifier, listed))
        return bool(piece and file and piece.poster == file.poster)

    def told(self, identifier: bytes) -> dict[str, Any]:
        size, pieces = self.sizes.get(identifier, (None, None))
        return {"size": size, "pieces": pieces}

    async def learn(self, blobs: Iterable[bytes]) -> None:
        """Looks at some of these blobs that are not known yet: at the metadata, and at all of what may be a list."""
        reader = self.reader
        unknown = [it for it in blobs if it not in self.sizes and reader.stands(it)]
        for identifier in random.sample(unknown, min(AT_ONCE, len(unknown))):  # for some, no shard may answer
            length = await reader.lengths.of_blob(identifier)
            if length is None:
                continue
            file = File(length, identifier)
            if length > HEAD.size and not (length - HEAD.size) % NAME:
                async with reader.blob(identifier) as blob:
                    file = File.of(identifier, blob)
            await self.note(identifier, file)

    async def note(self, identifier: bytes, file: File) -> None:
        """Records what a blob turned out to be."""
        is_list = file.names != identifier
        for place in range(0, min(len(file.names), PIECES * NAME) if is_list else 0, NAME):
            self.pieces[bytes(file.names[place : place + NAME])] = identifier  # noqa: E203
            if len(self.pieces) > PIECES:
                self.pieces.popitem(last=False)
            if place % (TOGETHER * NAME) == 0:
                await asyncio.sleep(0)
        self.sizes[identifier] = file.length, len(file.names) // NAME
        while len(self.sizes) > SORTED:
            self.sizes.popitem(last=False)
