"""Connections of clients, with or without TLS: silent ones are closed, and no client can have them all."""
import asyncio
import collections
import contextlib
import functools
import itertools
import logging
import math
import os
import socket
import ssl
import sys
from typing import Any, Awaitable, Callable, Optional, cast

from aiohttp import http_exceptions, streams, web


from walrus.wire.connection import accept, bound
from walrus.wire.fairness import key_of
from walrus.wire.port import HANDSHAKE, MANY

from .certificates import peer_name

FIRST, EACH = 30.0, 300  # seconds for a request's head, since the last reply; the most connections of one address
MALFORMED = b"HTTP/1.1 400 Bad Request\r\nContent-Length: 0\r\nConnection: close\r\n\r\n"
GRACE, LEAST = 60.0, 32_768  # seconds in which a client must take a reply; one more for each LEAST bytes of it
FIELDS, WAITING, AHEAD = 64, 64, 65_536  # the most fields of a request's head; the most that a client may send ahead:
# requests, bytes of their heads, and bytes of their bodies
STEP, PARTS = 16_384, 1_024  # bytes parsed at once, except of a body of known length; parts of a body that may wait


class Connection(web.RequestHandler):
    """A connection with a client. It counts towards the bounds of its server and its peer, and is closed if it exceeds
    one. If aiohttp raises `ValueError`, as for some URLs, the request counts as malformed, too (400)."""

    first: asyncio.TimerHandle  # closes a connection that sends no request, or does not take the last reply

    def __init__(self, server: web.Server, most: int, each: "collections.Counter[str]", **words: Any):
        loop = asyncio.get_running_loop()
        words |= {"keepalive_timeout": FIRST, "lingering_time": 2, "auto_decompress": False, "max_headers": FIELDS}
        super().__init__(server, loop=loop, **words)
        self.server, self.most, self.each, self.peer = server, most, each, ""
        self.body, self.length = streams.EMPTY_PAYLOAD, 0  # of the last request; its Content-Length, or 0
        self.half = 0  # bytes of an incomplete head, or of trailers after a body

    def whom(self, transport: asyncio.BaseTransport) -> tuple[str, float]:
        """Returns the key of the peer under which a connection counts, and how many connections it may have."""
        raise NotImplementedError

    def connection_made(self, transport: asyncio.BaseTransport) -> None:
        super().connection_made(transport)
        self.first = asyncio.get_running_loop().call_later(FIRST, self.force_close)
        self.peer, most = self.whom(transport)
        self.each[self.peer] += 1
        if len(self.server.connections) > self.most or self.each[self.peer] > most:
            cast(asyncio.Transport, transport).abort()

    def connection_lost(self, exc: Optional[BaseException]) -> None:
        super().connection_lost(exc)
        self.first.cancel()
        self.each[self.peer] -= 1
        if self.each[self.peer] <= 0:
            del self.each[self.peer]  # so that only connected peers take memory

    def data_received(self, data: bytes) -> None:
        """Parses what arrives in steps, so that little of it is parsed once it is too much."""
        while data and self.transport and not self.transport.is_closing():
            size = max(STEP, self.length - self.body.total_bytes)
            self.take(data[:size])
            data = data[size:]

    def take(self, data: bytes) -> None:
        """Parses one step of what arrives. The connection ends if it is malformed or too much."""
        before = len(self._messages), self.body.total_bytes
        try:
            super().data_received(data)
        except ValueError:
            cast(asyncio.Transport, self.transport).write(MALFORMED)
            self.force_close()
        is_half = before == (len(self._messages), self.body.total_bytes)
        self.half = self.half + len(data) if is_half else 0
        self.look()
        if self.is_ahead() and self.transport:
            self.transport.abort()

    def look(self) -> None:
        """Notes the body that is arriving. If more than `PARTS` parts of a body wait to be read, they are joined: each
        takes 48 bytes of memory, even a chunk of one byte. The connection is not read again before the body is."""
        if self._messages:
            head, self.body = self._messages[-1]
            self.length = int(getattr(head, "headers", {}).get("Content-Length", 0))
        for body in {self.body, *(body for _, body in self._messages)}:
            if len(getattr(body, "_buffer", ())) > PARTS and not body.exception():
                body.unread_data(body.read_nowait())
                self.pause_reading()
        if self.body.is_eof():
            self.resume_reading()  # for what follows the body, even if nobody reads the body

    def is_ahead(self) -> bool:
        """Whether a client has sent too much ahead of its replies: requests; bytes of their heads, with an incomplete
        one; bytes of whole bodies after the first, and of what follows an upgrade to another protocol. aiohttp has no
        bound for these, and no public way to see them."""
        fields = (field for head, _ in self._messages for field in getattr(head, "raw_headers", ()))
        heads = max(self.half, sum(map(len, itertools.chain.from_iterable(fields))))
        bodies = sum(getattr(body, "total_bytes", 0) for _, body in itertools.islice(self._messages, 1, None))
        return len(self._messages) > WAITING or heads > AHEAD or bodies + len(self._message_tail) > AHEAD

    async def finish_response(self, request: web.BaseRequest, resp: web.StreamResponse, *words: Any) -> Any:
        """Sends a reply, or the rest of one that is a stream. A client that does not take it in time is disconnected:
        aiohttp would wait for ever, and so would a transport that is closed with data to send."""
        body = resp.body if isinstance(resp, web.Response) else None
        seconds = GRACE + (len(body) if isinstance(body, bytes) else 0) / LEAST
        self.first.cancel()
        if transport := self.transport:
            self.first = asyncio.get_running_loop().call_later(seconds, transport.abort)
        asyncio.get_running_loop().call_soon(self.look)  # for what follows a request for another protocol
        ended = await super().finish_response(request, resp, *words)
        self.look()
        return ended

    def handle_error(self, request: web.BaseRequest, status: int = 500, exc: Any = None, message: Any = None) -> Any:
        """Answers errors. If aiohttp cannot encode the client's text into its reply, the fault is the client's: 400."""
        return super().handle_error(request, 400 if isinstance(exc, UnicodeError) else status, exc, message)


class Counted(Connection):
    """A connection that counts towards the bound of its address, unless that is a proxy before the gateway."""

    proxies: set[str]

    def whom(self, transport: asyncio.BaseTransport) -> tuple[str, float]:
        peer = str((transport.get_extra_info("peername") or ("",))[0])
        return key_of(peer), math.inf if peer in self.proxies else EACH


class Named(Connection):
    """A connection that counts towards the bound of the name in its certificate, which `bound` returns."""

    def __init__(self, *words: Any, bound: Callable[[str], float]):
        super().__init__(*words, access_log=None)
        self.bound = bound

    def whom(self, transport: asyncio.BaseTransport) -> tuple[str, float]:
        name = peer_name(transport.get_extra_info("peercert"))
        return name, self.bound(name)


class Server:
    """A service over HTTP, whose connections count as `connect` makes them. TLS handshakes that are under way count
    separately, by address, from accept on."""

    most: int  # the most handshakes under way
    shake_hands: Callable[[socket.socket], Awaitable[Any]]  # does the handshake, and then serves the connection

    def __init__(self) -> None:
        self.runner: Optional[web.AppRunner] = None
        self.listening, self.accepting = list[socket.socket](), list["asyncio.Task[None]"]()
        self.coming = dict["asyncio.Task[Any]", str]()  # the key of the address of each handshake, by its task

    def connect(self, server: web.Server) -> Connection:
        """Returns what serves a new connection, and closes it if it is one too many or stays silent."""
        raise NotImplementedError

    async def serve(
        self, app: web.Application, host: str, port: int, most: int, context: Optional[ssl.SSLContext] = None
    ) -> int:
        """Starts to answer, over TLS if there is a `context`, and returns the port. `most` bounds the handshakes."""
        logging.getLogger("aiohttp.server").addFilter(is_own_fault)
        self.runner = web.AppRunner(app)
        await self.runner.setup()
        assert self.runner.server
        made = functools.partial(self.connect, self.runner.server)
        tls: dict[str, Any] = {"ssl": context, "ssl_handshake_timeout": HANDSHAKE} if context else {}
        accepted = asyncio.get_running_loop().connect_accepted_socket
        self.most, self.shake_hands = most, functools.partial(accepted, made, **tls)
        self.listening = bound(host, port)
        self.accepting = [asyncio.create_task(accept(it, self.come)) for it in self.listening]
        return int(self.listening[0].getsockname()[1])

    async def come(self, connection: socket.socket, address: tuple[Any, ...]) -> None:
        """Does the handshake of a connection. If there are too many, the oldest one is cancelled, preferably one of an
        address that has a large part of them."""
        task = asyncio.current_task()
        assert task
        if len(self.coming) >= self.most:
            counts = collections.Counter(self.coming.values())
            first = min(self.coming, key=lambda it: counts[self.coming[it]] <= self.most // MANY)
            del self.coming[first]
            first.cancel()
        self.coming[task] = key_of(str(address[0]))
        try:
            with contextlib.suppress(asyncio.CancelledError, OSError):  # it was cancelled for another, or TLS failed
                await self.shake_hands(connection)
        finally:
            self.coming.pop(task, None)

    async def end(self, seconds: float) -> None:
        """Stops accepting connections; requests under way have `seconds` to end."""
        for tasks in (self.accepting, self.coming):
            for task in tasks:
                task.cancel()
            await asyncio.gather(*tasks, return_exceptions=True)
        if self.runner and self.runner.server:
            await self.runner.server.shutdown(seconds)
            await self.runner.cleanup()


class Certificate:
    """The TLS certificate of a server, which is loaded again when its files change."""

    def __init__(self, certificate: str, key: str):
        self.files = certificate, key
        self.context = ssl.create_default_context(ssl.Purpose.CLIENT_AUTH)
        self.context.load_cert_chain(*self.files)
        self.state = self.look()

    def look(self) -> list[tuple[int, int]]:
        return [(it.st_mtime_ns, it.st_ino) for it in map(os.stat, self.files)]

    def refresh(self) -> None:
        """Loads a changed certificate for new connections; if it does not fit its key, the old one stays in use."""
        with contextlib.suppress(OSError):
            if (state := self.look()) != self.state:
                self.state = state
                try:
                    trial = ssl.SSLContext(ssl.PROTOCOL_TLS_SERVER)
                    trial.load_cert_chain(*self.files)  # tried here first: a failed load would break the one in use
                    self.context.load_cert_chain(*self.files)
                except (OSError, ValueError) as fault:
                    print(f"{self.files[0]} is not used: {fault}", file=sys.stderr, flush=True)


def is_own_fault(record: logging.LogRecord) -> bool:
    """Whether a log record of aiohttp is about more than a malformed request, or a client that has gone."""
    faults = http_exceptions.HttpProcessingError, ConnectionError, UnicodeError
    return not (record.exc_info and isinstance(record.exc_info[1], faults))
