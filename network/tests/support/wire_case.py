"""Shared by the tests of baskets and of memory: a server's end of a connection that reports itself."""
import asyncio
from typing import Callable

from walrus.wire import connection


class Taken(connection.Wire):
    """A connection that a server accepted, which is passed to `come`."""

    def __init__(self, come: Callable[[connection.Wire], object]) -> None:
        super().__init__()
        self.come = come

    def connection_made(self, transport: asyncio.BaseTransport) -> None:
        super().connection_made(transport)
        self.come(self)
