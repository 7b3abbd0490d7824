"""Shared by the tests of slow requests: a gateway of which a request goes on once it is told to."""
import asyncio
from typing import Any, Callable

from aiohttp import web

from support.guard_case import GuardCase


class Coming(GuardCase):
    async def asyncSetUp(self) -> None:
        await super().asyncSetUp()
        self.goes_on = asyncio.Event()
        self.addCleanup(self.goes_on.set)

    async def wait(self, *_: object) -> web.Response:
        await self.goes_on.wait()
        return web.Response()

    async def connect(self, said: bytes) -> tuple[asyncio.StreamReader, asyncio.StreamWriter]:
        reader, writer = await asyncio.open_connection("127.0.0.1", self.port)
        self.addCleanup(writer.transport.abort)
        writer.write(said)
        return reader, writer

    def head(self, line: str, *fields: str) -> bytes:
        return "\r\n".join([f"{line} HTTP/1.1", f"Host: 127.0.0.1:{self.port}", *fields, "", ""]).encode()

    def served(self) -> list[Any]:
        """Returns the connections of the gateway."""
        assert self.gateway.runner and self.gateway.runner.server
        return self.gateway.runner.server.connections

    async def until(self, holds: Callable[[], object]) -> None:
        async with asyncio.timeout(60):
            while not holds():
                await asyncio.sleep(0.01)

    async def paused(self, count: int) -> None:
        """Waits until this many connections have paused reading."""
        await self.until(lambda: sum(it._reading_paused for it in self.served()) == count)
