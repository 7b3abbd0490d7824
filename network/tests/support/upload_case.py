"""What the tests of resumable uploads share: a gateway whose pieces are short, over a store in memory."""
import asyncio
import hashlib
import os
import pathlib
import time
from typing import Any, Iterable, Optional
from unittest import mock

from support.guard_case import GuardCase
from walrus import client
from walrus.network.files import file_list, sealed
from walrus.network.files.file_list import MARK
from walrus.network.gateway.auth import shares
from walrus.network.gateway.write import unfinished
from walrus.network.ledger.blobs import Blobs
from walrus.network.ledger.live_blob import Blob

SIZE = 1_000  # bytes of a piece
PATCH = {"Content-Type": "application/partial-upload"}


class UploadCase(GuardCase):
    """A gateway with pieces of 1,000 bytes, or `size`. `blobs` has what was stored; `away` is why storing fails."""

    size, fresh = SIZE, -1.0  # seconds for which a list of the uploads is used again

    async def start(self, host: str = "127.0.0.1", **options: Any) -> None:
        for module in (unfinished, file_list, shares):
            self.enterContext(mock.patch.object(module, "PIECE", self.size))
        self.enterContext(mock.patch.object(unfinished, "FRESH", self.fresh))
        await super().start(host, **options)
        self.blobs, self.away, self.kept = list[bytes](), "", Blobs()
        self.enterContext(mock.patch.object(self.network.ledger, "certificate", self.certificate))
        self.enterContext(mock.patch.object(self.network.ledger, "blobs", self.kept))
        self.take()

    def take(self) -> None:
        self.enterContext(mock.patch.object(self.gateway.publisher.writer, "store_blob", self.store_blob))

    def certificate(self, name: bytes) -> Optional[tuple[int, int]]:
        return (0, 4) if name in self.kept else None

    async def store_blob(self, blob: sealed.Blob, until: int) -> tuple[bytes, bool]:
        data = bytes(blob.read(0, len(blob)) if isinstance(blob, sealed.Away) else blob)
        name = hashlib.sha256(data).digest()
        if self.away:
            raise client.Failed(self.away, {0: "it is away"})
        await asyncio.sleep(0.01)
        was_there = name in self.kept
        self.kept[name] = Blob(until, "publisher")
        self.blobs += [] if was_there else [data]
        return name, was_there

    def name_of(self, data: bytes) -> str:
        """Returns the identifier of a file of several pieces, by the definition in HTTP.md."""
        pieces = [data[place:][: self.size] for place in range(0, len(data), self.size)] or [b""]
        names = [hashlib.sha256(piece).digest() for piece in pieces]
        listed = MARK + len(data).to_bytes(8, "big") + b"".join(names)
        plain = len(names) == 1 and not data.startswith(MARK)
        return (names[0] if plain else hashlib.sha256(listed).digest()).hex()

    def used(self, name: str) -> tuple[int, int]:
        kept = shares.Shares(self.folder / "tokens.used")
        self.addCleanup(kept.close)
        return kept.used(name, 0)

    async def begin(self, data: bytes = b"", end: bool = False, **headers: str) -> tuple[int, dict[str, str], Any]:
        words = {"Upload-Complete": f"?{int(end)}", **{name.replace("_", "-"): text for name, text in headers.items()}}
        return await self.ask("POST", "/v1/uploads?epochs=5", data=data, headers=words)

    async def go_on(self, path: str, offset: int, data: Any, end: bool = False, **more: Any) -> Any:
        words = {**PATCH, "Upload-Offset": str(offset), "Upload-Complete": f"?{int(end)}", **more}
        return await self.ask("PATCH", path, data=data, headers=words)

    async def offset(self, path: str, **headers: str) -> int:
        status, found, _ = await self.ask("HEAD", path, headers=headers)
        self.assertEqual((status, found["cache-control"]), (200, "no-store"))
        return int(found["upload-offset"])

    async def comes(self, path: str, size: int) -> None:
        """Waits until this much of an upload is on the disk."""
        folder = pathlib.Path(self.folder, "tokens.uploads", path.rpartition("/")[2])
        async with asyncio.timeout(120):
            while unfinished.Upload(folder).offset < size:
                await asyncio.sleep(0.02)

    def age(self, seconds: float, paths: Iterable[str]) -> None:
        """Makes uploads look as if they had been idle for this long."""
        for path in paths:
            about = self.folder / "tokens.uploads" / path.rpartition("/")[2] / "about"
            os.utime(about, (time.time() - seconds, time.time() - seconds))

    def on_disk(self) -> int:
        return sum(path.stat().st_size for path in self.folder.glob("tokens.uploads/*/*.piece"))
