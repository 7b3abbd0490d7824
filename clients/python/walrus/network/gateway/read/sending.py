"""Sends spans of blobs, in parts; and ends a response that has begun and cannot go on."""
import contextlib
import sys
import typing
from typing import Any, Awaitable, Callable, Iterator

from aiohttp import web

from walrus import client
from walrus.network.files.sealed import Away, Blob, Data
from walrus.network.gateway.http.errors import Problem
from walrus.network.gateway.resources.spool import part_of


if typing.TYPE_CHECKING:
    from . import reader

SLICE = 262_144  # bytes of a blob that are sent at once
PART = 65_536  # the same of a text, and of a blob in a file to a client that is slow
Write = Callable[["reader.Pace", web.StreamResponse, Any], Awaitable[None]]


class Sending:
    """A span of a blob that is being sent, and the place up to which it is sent. `ready` has what follows there, if it
    was read: to read some bytes anew takes as long as to read, and check, their whole chunk."""

    def __init__(
        self, write: Write, pace: "reader.Pace", response: web.StreamResponse, start: int, end: int, ready: list[Data]
    ):
        self.write, self.pace, self.response, self.place, self.end = write, pace, response, start, end
        self.ready = ready

    async def send(self, blob: Blob) -> None:
        """Sends the rest of the span. To a slow client it sends less at once, as that is in memory meanwhile."""
        while self.place < self.end:
            size = SLICE if self.pace.is_prompt or not isinstance(blob, Away) else PART
            end = min((self.place // size + 1) * size, self.end)  # where a chunk of a file ends
            part = self.ready.pop() if self.ready else await part_of(blob, self.place, end)
            await self.write(self.pace, self.response, part)
            self.place += len(part)


@contextlib.contextmanager
def ending_early(request: web.Request) -> Iterator[None]:
    """Logs the error and ends the connection if a response that has begun cannot go on."""
    try:
        yield
    except (Problem, client.Failed, TimeoutError, OSError) as fault:
        print(f"GET {request.path} ends early: {fault or 'its reader is slow'}", file=sys.stderr, flush=True)
        if request.transport:
            request.transport.abort()
