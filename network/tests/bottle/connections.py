"""Connections in memory between machines, with drawn latency, partitions and crashes. TLS is left out: each end is
shown the certificate that a real handshake would show it, and names are compared as there."""
import asyncio
import collections
import contextvars
import hashlib
import ssl
from typing import Any, Optional

from .loop import RATE, RUNNING, Clocks, Machine, Made

HIGH = 65_536  # bytes under way above which a writer pauses
FIN, RST = b"fin", b"rst"  # in an inbox, by identity
AGAIN = 1.0  # seconds until a connection is tried again that a partition stops
MOST = 75  # such tries


class End(asyncio.Transport):
    """One end of a connection. What it sends lies in the other's inbox until its time has come."""

    def __init__(self, loop: "Loop", machine: Machine, address: tuple[str, int], secured: Any):
        super().__init__()
        self.loop, self.machine, self.address, self.secured = loop, machine, address, secured
        self.inbox, self.last, self.size = collections.deque[tuple[float, bytes]](), 0.0, 0
        self.high, self.low = HIGH, HIGH // 4
        self.full = self.paused = self.closing = self.lost = self.ended = False
        self.context: Optional[contextvars.Context] = None
        self.protocol: Any = None
        self.other: End
        self.extra: dict[str, Any] = {}

    def begin(self, protocol: Any, extra: dict[str, Any]) -> None:
        self.protocol, self.extra, self.context = protocol, extra, contextvars.copy_context()
        self._extra = extra
        self.loop.ends[self] = None
        protocol.connection_made(self)
        self.loop.call_soon(self.pump, context=self.context)

    def get_extra_info(self, name: str, default: Any = None) -> Any:
        return self.extra.get(name, default)

    def get_protocol(self) -> Any:
        return self.protocol

    def set_protocol(self, protocol: Any) -> None:
        self.protocol = protocol

    def is_closing(self) -> bool:
        return self.closing

    def is_reading(self) -> bool:
        return not (self.paused or self.closing)

    def pause_reading(self) -> None:
        self.paused = True

    def resume_reading(self) -> None:
        if self.paused:
            self.paused = False
            self.loop.call_soon(self.pump, context=self.context)

    def set_write_buffer_limits(self, high: Optional[int] = None, low: Optional[int] = None) -> None:
        self.high = (HIGH if low is None else 4 * low) if high is None else high
        self.low = self.high // 4 if low is None else low

    def get_write_buffer_limits(self) -> tuple[int, int]:
        return self.low, self.high

    def get_write_buffer_size(self) -> int:
        return self.size

    def can_write_eof(self) -> bool:
        return not self.secured

    def write_eof(self) -> None:
        if not self.ended and not self.closing:
            self.ended = True
            self.put(FIN)

    def write(self, data: Any) -> None:
        if self.lost or self.ended or not len(data):
            return
        sent = bytes(data)
        self.size += len(sent)
        self.put(sent)
        if self.size > self.high and not self.full:
            self.full = True
            self.protocol.pause_writing()

    def writelines(self, parts: Any) -> None:
        self.write(b"".join(parts))

    def put(self, item: bytes) -> None:
        way = self.loop.latency(self.machine, self.other.machine) + len(item) / RATE
        self.last = max(self.last, self.loop.now + way)
        self.other.inbox.append((self.last, item))
        if self.other.context is not None:
            self.loop.call_at(self.last, self.other.pump, context=self.other.context)

    def pump(self) -> None:
        """Give the protocol what has arrived."""
        loop = self.loop
        while self.inbox and self.protocol is not None and not self.paused:
            due, item = self.inbox[0]
            if loop.is_cut(self.machine, self.other.machine):
                return
            if due > loop.now:
                loop.call_at(due, self.pump, context=self.context)
                return
            self.inbox.popleft()
            if item is RST:
                self.lose(ConnectionResetError(104, "Connection reset by peer"))
            elif item is FIN:
                if not self.lost and not self.protocol.eof_received() or self.secured:
                    self.close()
            else:
                shown = hashlib.sha256(item).hexdigest()[:8]
                loop.note(self.other.machine.name, "->", self.machine.name, len(item), shown)
                if self.other.context is not None:
                    loop.call_soon(self.other.taken, len(item), context=self.other.context)
                if not self.lost:
                    self.feed(item)

    def feed(self, data: bytes) -> None:
        if not isinstance(self.protocol, asyncio.BufferedProtocol):
            self.protocol.data_received(data)
            return
        while data and not self.lost:
            place = self.protocol.get_buffer(-1)
            size = min(len(place), len(data))
            memoryview(place)[:size] = data[:size]
            self.protocol.buffer_updated(size)
            data = data[size:]
            if self.paused and data:  # the rest waits in the inbox, at its head
                self.inbox.appendleft((0.0, data))
                self.other.size += len(data)
                return

    def taken(self, size: int) -> None:
        self.size = max(0, self.size - size)
        if self.full and self.size <= self.low:
            self.full = False
            self.protocol.resume_writing()
        if self.closing and not self.size:
            self.lose(None)

    def close(self) -> None:
        if not self.closing:
            self.closing = True
            if not self.size:
                self.lose(None)

    def abort(self) -> None:
        self.lose(None, RST)

    def lose(self, fault: Optional[Exception], sent: bytes = FIN) -> None:
        if self.lost:
            return
        self.lost = self.closing = True
        self.loop.ends.pop(self, None)
        if not isinstance(fault, ConnectionResetError) and not (self.ended and sent is FIN):
            self.put(sent)
        self.loop.call_soon(self.protocol.connection_lost, fault, context=self.context)

    def vanish(self) -> None:
        """End as a connection of a machine that crashed: the other end learns of it by a reset."""
        self.loop.ends.pop(self, None)
        if not self.lost:
            self.lost = self.closing = True
            self.put(RST)


class Listening:
    """Stands for a listening socket, and for a server of asyncio."""

    def __init__(self, loop: "Loop", machine: Machine, address: tuple[str, int], made: Made = None, tls: Any = None):
        self.loop, self.machine, self.address, self.made, self.tls = loop, machine, address, made, tls
        self.coming, self.context = collections.deque[End](), contextvars.copy_context()
        self.waiting: "Optional[asyncio.Future[None]]" = None
        self.sockets = [self]

    def setblocking(self, _: bool) -> None:
        pass

    def fileno(self) -> int:
        return -1

    def getsockname(self) -> tuple[str, int]:
        return self.address

    def is_serving(self) -> bool:
        return self.loop.listening.get(self.address) is self

    def get_loop(self) -> "Loop":
        return self.loop

    def __enter__(self) -> "Listening":
        return self

    def __exit__(self, *_: object) -> None:
        self.close()

    async def wait_closed(self) -> None:
        pass

    async def start_serving(self) -> None:
        pass

    def close(self) -> None:
        if self.is_serving():
            del self.loop.listening[self.address]

    def come(self, end: End) -> None:
        """Take a connection that comes to this machine."""
        if self.made:
            end.begin(self.made(), self.loop.known(end, self.tls))
            return
        self.coming.append(end)
        if self.waiting and not self.waiting.done():
            self.waiting.set_result(None)


class Loop(Clocks):
    """The loop, with connections between its machines."""

    def __init__(self, seed: int):
        super().__init__(seed)
        self.ends, self.listening = dict[End, None](), dict[tuple[str, int], Listening]()
        self.links, self.cuts = dict[frozenset[str], float](), set[frozenset[str]]()

    def latency(self, one: Machine, other: Machine) -> float:
        if one.host == other.host:
            return 20e-6
        link = frozenset((one.host, other.host))
        if link not in self.links:
            self.links[link] = self.drawn.uniform(0.0005, 0.02)
        return self.links[link] * (1 + self.drawn.expovariate(10))

    def is_cut(self, one: Machine, other: Machine) -> bool:
        return one.host != other.host and any(
            frozenset(it) in self.cuts for it in ((one.host, other.host), (one.host,), (other.host,))
        )

    def cut(self, *hosts: str) -> None:
        """Cut two hosts from each other, or one from all."""
        self.cuts.add(frozenset(hosts))
        self.note("cut", *hosts)

    def mend(self, *hosts: str) -> None:
        self.cuts.discard(frozenset(hosts))
        self.note("mended", *hosts)
        for end in [*self.ends]:
            self.call_soon(end.pump, context=end.context)

    def crash(self, machine: Machine) -> None:
        """End all that runs on a machine, at once and without a last word."""
        machine.alive = False
        machine.kept += machine.tasks
        for end in [it for it in self.ends if it.machine is machine]:
            end.vanish()
        for listening in [it for it in self.listening.values() if it.machine is machine]:
            for end in listening.coming:
                end.vanish()
            listening.close()
        self.note("crash", machine.name)

    def known(self, end: End, tls: Any) -> dict[str, Any]:
        """What a connection knows of its other end; with TLS, the certificate that a real handshake would show."""
        told: dict[str, Any] = {"peername": end.other.address, "sockname": end.address}
        if tls:
            own = getattr(end.other.secured, "own", None)
            if own and tls.verify_mode != ssl.CERT_NONE:
                told["peercert"] = ssl._ssl._test_decode_cert(own)  # type: ignore[attr-defined]
            told |= {"sslcontext": tls, "ssl_object": None, "cipher": ("none", "none", 0)}
        return told

    def listen(self, host: str, port: int, made: Made = None, tls: Any = None) -> Listening:
        address = host or RUNNING.get().host, port or next(self.ports)
        if address in self.listening:
            raise OSError(98, "Address already in use")
        found = self.listening[address] = Listening(self, RUNNING.get(), address, made, tls)
        return found

    async def create_server(  # type: ignore[override]
        self, made: Made, host: Any = None, port: Any = None, *, ssl: Any = None, sock: Any = None, **_: Any
    ) -> Any:
        if sock is None:
            return self.listen(host, port, made, ssl)
        sock.made, sock.tls = made, ssl
        return sock

    async def sock_accept(self, listening: Any) -> Any:
        while not listening.coming:
            listening.waiting = self.create_future()
            await listening.waiting
        end = listening.coming.popleft()
        return end, end.other.address

    async def connect_accepted_socket(  # type: ignore[override]
        self, made: Any, sock: Any, *, ssl: Any = None, **_: Any
    ) -> Any:
        sock.secured = ssl
        if ssl:
            await asyncio.sleep(2 * self.latency(sock.machine, sock.other.machine))
        sock.begin(protocol := made(), self.known(sock, ssl))
        return sock, protocol

    async def found(self, me: Machine, host: str, port: int) -> Listening:
        """Who listens there, once no partition is between; each try costs a second, as of a SYN that is lost."""
        for _ in range(MOST):
            listening = self.listening.get((host, port))
            if listening is None:
                raise ConnectionRefusedError(111, f"Connect call failed {host, port}")
            if not self.is_cut(me, listening.machine):
                return listening
            await asyncio.sleep(AGAIN)
        raise TimeoutError(110, "Connection timed out")

    async def create_connection(  # type: ignore[override]
        self,
        made: Any,
        host: Any = None,
        port: Any = None,
        *,
        ssl: Any = None,
        server_hostname: Optional[str] = None,
        **_: Any,
    ) -> Any:
        me = RUNNING.get()
        await asyncio.sleep(self.latency(me, me))
        listening = await self.found(me, host, port)
        near = End(self, me, (me.host, next(self.ports)), ssl or None)
        far = End(self, listening.machine, listening.address, listening.tls)
        near.other, far.other = far, near
        self.call_later(self.latency(me, far.machine), listening.come, far, context=listening.context)
        while ssl and far.context is None and not far.lost:  # the handshake
            await asyncio.sleep(self.latency(me, far.machine))
            if listening.address not in self.listening:
                raise ConnectionResetError(104, "Connection reset by peer")
        extra = self.known(near, ssl)
        if ssl and ssl.check_hostname:
            must_be_named(server_hostname or host, extra)
        near.begin(protocol := made(), extra)
        return near, protocol


def must_be_named(name: str, extra: dict[str, Any]) -> None:
    """Raise as TLS does where a certificate is not for a name."""
    names = [text for _, text in extra.get("peercert", {}).get("subjectAltName", ())]
    if name not in names:
        fault = ssl.SSLCertVerificationError(1, f"certificate is not valid for {name!r}: {names}")
        fault.verify_message = fault.strerror
        raise fault
