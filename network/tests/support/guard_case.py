"""What the tests of a gateway's rules share: a gateway over a ledger with no nodes, whose files are in memory."""
import hashlib
import socket
from typing import Any, AsyncIterator
from unittest import mock

import aiohttp
from support.ledger_case import LedgerCase
from walrus.network.files.file_list import PIECE
from walrus.network.gateway.app import Gateway
from walrus.network.gateway.auth import tokens
from walrus.network.gateway.read import reader
from walrus.network.settings.gateway_options import Options

EVIL = {"Origin": "http://evil.example"}


def other_address() -> str:
    """Returns an address of this machine that others reach, or nothing if it has none."""
    with socket.socket(socket.AF_INET, socket.SOCK_DGRAM) as asked:
        try:
            asked.connect(("192.0.2.1", 9))  # nothing is sent
        except OSError:
            return ""
        found = str(asked.getsockname()[0])
        return "" if found.startswith("127.") else found


class GuardCase(LedgerCase):
    """A gateway. `stored` has what was stored through it; `files` has what can be read, by identifier."""

    async def asyncSetUp(self) -> None:
        await super().asyncSetUp()
        self.network = await self.enterAsyncContext(self.local.network())
        self.assertTrue(await self.network.until(lambda it: it.now))
        self.stored, self.files, self.was_there = list[bytes](), dict[str, bytes](), False
        self.session = await self.enterAsyncContext(aiohttp.ClientSession())

    async def start(self, host: str = "127.0.0.1", port: int = 0, **options: Any) -> None:
        """Starts a gateway, whose URL goes to `url`."""
        self.enterContext(mock.patch.object(reader.Reader, "fetch", self.fetch))
        self.gateway = Gateway(self.network, self.folder, Options(challenge=0, probe=60, **options))
        self.addAsyncCleanup(self.gateway.close)
        self.enterContext(mock.patch.object(self.gateway.publisher.writer, "store", self.store))
        self.enterContext(mock.patch.object(self.gateway.reader, "must_stand", lambda _: None))
        self.enterContext(mock.patch.object(self.gateway.reader, "length_alone", mock.AsyncMock(return_value=None)))
        self.port = await self.gateway.listen(host, port)
        self.url = f"http{'s' * bool(self.gateway.certificate)}://{host}:{self.port}"

    async def store(self, stream: AsyncIterator[bytes], epochs: int, _: object = None) -> dict[str, Any]:
        data = b"".join([part async for part in stream])
        self.stored.append(data)
        name = hashlib.sha256(data).hexdigest()
        self.files[name] = data
        told = {"blobId": name, "size": len(data), "pieces": max(1, -(-len(data) // PIECE)), "endEpoch": epochs}
        return told | {"certificate": {"epoch": 0, "count": 4}, "alreadyCertified": self.was_there}

    async def fetch(self, name: bytes, size: int) -> bytes:
        return self.files[name.hex()]

    def token(self, name: str, rights: str = "read,store", **bounds: int) -> dict[str, str]:
        """Makes a token, and returns the header with it."""
        told = {"rights": tokens.rights_of(rights), **bounds}
        made = tokens.change_token(self.folder / "tokens.json", name, told)
        return {"Authorization": f"Bearer {made}"}

    async def ask(self, method: str, path: str, **words: Any) -> tuple[int, dict[str, str], Any]:
        """Sends a request, and returns the status, headers and body of the response."""
        async with self.session.request(method, self.url + path, **words) as said:
            body = await said.read()
            kind = said.headers.get("Content-Type", "")
            told = await said.json() if kind.startswith("application/json") and body else body
            return said.status, {name.lower(): text for name, text in said.headers.items()}, told

    def form(self, *files: bytes) -> aiohttp.FormData:
        made = aiohttp.FormData()
        for data in files:
            made.add_field("file", data, filename="name")
        return made

    async def put(self, data: bytes = b"data", epochs: int = 1, **words: Any) -> int:
        return (await self.ask("PUT", f"/v1/blobs?epochs={epochs}", data=data, **words))[0]


__all__ = ["EVIL", "GuardCase", "other_address"]
