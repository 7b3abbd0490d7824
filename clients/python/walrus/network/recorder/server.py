"""A recorder over HTTP: clients with a certificate of the network post under the name in it, and follow the ledger."""
import asyncio
import base64
import collections
import contextlib
import json
import pathlib
import sqlite3
import ssl
import sys
from typing import Any, AsyncIterator, Awaitable, Callable, Optional, Union

from aiohttp import web


from walrus.network.ledger.checkpoint import Mark, line_of, parted
from walrus.network.ledger.entries import number
from walrus.network.ledger.follower import NAME as RECORDER, PARTED
from walrus.network.ledger.state import State
from walrus.network.service import certificates, private_files
from walrus.network.service.connections import Named, Server
from walrus.network.service.systemd import ending, ready
from walrus.network.settings.services import RecorderSettings

from .appender import BEAT, MOST_BATCH, Answer, Broken, Recorder
from .compaction import Keeper
from .etcd import Batch, Etcd, Failed, Gone

MOST_BODY, MOST_ENTRIES, MOST_PLACE = 1_048_576, 4_096, 10**12 - 1  # bytes and entries of a body; the last place
REQUEST, ANSWER = 30.0, 8.0  # seconds
CONNECTIONS, OF_NAME, OF_OTHERS = 1_024, 64, 4  # connections, those of one name, and those of a name that may not post
EACH = 32  # requests of one name under way at most
SMALL = 65_536  # bytes of a body that is read without a turn of its name
MOST_WAITING = 65_536  # entries that wait at most


class Service(Server):
    """The HTTP service of a recorder."""

    def __init__(self, recorder: Recorder, settings: RecorderSettings):
        super().__init__()
        self.recorder, self.settings = recorder, settings
        self.busy, self.asked = collections.Counter[str](), collections.Counter[str]()  # requests, and entries, by name
        self.connected = collections.Counter[str]()  # connections, by name
        self.reading = collections.defaultdict[str, asyncio.Lock](asyncio.Lock)  # held from before a body is read on
        self.turns = collections.defaultdict[str, asyncio.Lock](asyncio.Lock)  # held while a body is checked, by name
        self.places: dict[str, int] = {}  # the place up to which each name was sent entries

    async def listen(self) -> int:
        """Starts the server; returns the port on which it listens."""
        app = web.Application(middlewares=[self.answer], client_max_size=MOST_BODY)
        app.add_routes(self.routes())
        context = ssl.create_default_context(ssl.Purpose.CLIENT_AUTH, cafile=self.settings.authority)
        context.verify_mode = ssl.CERT_REQUIRED
        context.load_cert_chain(self.settings.certificate, self.settings.key)
        return await self.serve(app, self.settings.host, self.settings.port, CONNECTIONS, context)

    def routes(self) -> list[web.RouteDef]:
        entries = "/v1/entries"
        return [web.post(entries, self.post), web.get(entries, self.follow), web.get("/v1/status", self.status)]

    def connect(self, server: web.Server) -> Named:
        return Named(server, CONNECTIONS, self.connected, bound=lambda it: OF_NAME if self.may_post(it) else OF_OTHERS)

    def may_post(self, name: str) -> bool:
        return name not in ("", RECORDER) and name not in self.recorder.ledger.expelled

    @web.middleware
    async def answer(self, request: web.Request, handler: Callable[..., Awaitable[Any]]) -> web.StreamResponse:
        """Passes a request on under the name in its certificate, within the bounds of that name; faults become JSON."""
        request.protocol.first.cancel()  # type: ignore[attr-defined]
        request["name"] = name = request.protocol.peer  # type: ignore[attr-defined]
        if not self.may_post(name):
            expelled = name in self.recorder.ledger.expelled
            refused = wrong(403, f"{name} is expelled" if expelled else "the certificate has no name that may post")
            refused.force_close()
            return refused
        if self.busy[name] >= EACH:
            return wrong(429, f"{name} has {EACH} requests under way")
        self.busy[name] += 1
        try:
            response: web.StreamResponse = await handler(request)
            return response
        except web.HTTPException as fault:
            return wrong(fault.status, f"{fault.reason}: POST and GET /v1/entries and GET /v1/status are answered")
        except (Failed, Gone) as fault:
            return wrong(503, str(fault))
        finally:
            self.busy[name] -= 1

    async def post(self, request: web.Request) -> web.Response:
        """Reads entries, and answers once the ledger has them. Of the bodies of one name only one that is longer than
        `SMALL` is read at once, so that few are in memory; one that comes slowly delays no small one. They are checked
        one after another, and after each the name waits for as long as the check took, so others have at least half of
        the time."""
        name, length = request["name"], request.content_length
        is_small = length is not None and length <= SMALL
        turn: Any = contextlib.nullcontext() if is_small else self.reading[name]
        async with turn:
            try:
                async with asyncio.timeout(REQUEST):
                    body = await request.read()
            except (TimeoutError, OSError, ValueError, web.PayloadAccessError):
                body = b""
            async with held_twice(self.turns[name]):
                taken = self.take(name, body)
            body, request._read_bytes = b"", None  # aiohttp keeps it too: it would be in memory while its entries wait
        if isinstance(taken, web.Response):
            return taken
        try:
            async with asyncio.timeout(ANSWER):
                said = await taken
        except TimeoutError:
            return wrong(503, f"it is not appended yet: {self.recorder.slow}; post it again")
        return web.json_response([{"place": it} if isinstance(it, int) else {"refused": str(it)} for it in said])

    def take(self, name: str, body: bytes) -> Union[web.Response, asyncio.Future[list[Answer]]]:
        """Queues the entries of a body and returns a future of their answers, or a response if the body is refused."""
        recorder = self.recorder
        try:
            texts = json.loads(body)
        except (ValueError, RecursionError):
            return wrong(400, "the body is not JSON, or it came too slowly or not at all")
        if not isinstance(texts, list) or len(texts) > MOST_ENTRIES or not all(isinstance(it, str) for it in texts):
            return wrong(400, f"the body must be a JSON list of at most {MOST_ENTRIES} texts KIND/FIELDS")
        if self.asked[name] + len(texts) > 2 * MOST_ENTRIES:
            return wrong(429, f"{name} has {self.asked[name]} entries under way: post again once they are answered")
        if len(recorder.waiting) + len(texts) > MOST_WAITING:
            return wrong(503, f"{len(recorder.waiting)} entries wait already: post them again")
        self.asked[name] += len(texts)
        taken = recorder.post([f"{name}/{it}" for it in texts])
        taken.add_done_callback(lambda _: self.asked.subtract({name: len(texts)}))
        return taken

    async def follow(self, request: web.Request) -> web.StreamResponse:
        """Sends the entries after a place, and then each new one, without end."""
        recorder, name, after = self.recorder, request["name"], number(request.query.get("after", "0"), MOST_PLACE)
        if after is None:
            return wrong(400, "after must be a place of the ledger, a number")
        await recorder.refresh()
        if after > (end := recorder.chain.place):
            return wrong(409, f"the ledger ends at place {end}, but {after} entries were heard before: {PARTED}")
        line: dict[str, Any] = {"ledger": recorder.state.identity, "head": end, "entries": []}
        mark, batches = await self.behind(after, name)
        chain = mark.chain if mark else batches[0].before if batches else recorder.chain
        if mark:
            line |= {"place": mark.place, "pieces": mark.pieces, "state": mark.state}
        response = web.StreamResponse(headers={"Content-Type": "application/x-ndjson", "Cache-Control": "no-store"})

        async def tell(lines: bytes) -> None:
            async with asyncio.timeout(REQUEST):
                await response.write(lines)

        await response.prepare(request)
        try:
            await tell(line_of(line | {"digest": chain.digest.hex()}))
            for count in range(mark.pieces) if mark else ():
                async with recorder.turns[name], recorder.turn:
                    piece = await recorder.etcd.piece(chain.place, count)
                await tell(line_of({"piece": base64.b64encode(piece).decode()}))
            while request.transport and not request.transport.is_closing() and name not in recorder.ledger.expelled:
                batches = batches or [Batch(chain, [])]
                for lines in parted((it.line for it in batches), MOST_BATCH):
                    await tell(lines)
                chain = batches[-1].after
                self.places[name] = place = chain.place
                heard = await recorder.news.until(lambda: recorder.chain.place > place, BEAT)
                batches = await recorder.behind(place, name) if heard else []
                if not heard and not recorder.fresh:  # the follower turns to another recorder, which may see more
                    await tell(line_of({"error": recorder.slow}))
                    break
        except (TimeoutError, OSError, Gone):  # a follower that is slow, gone or far behind; or etcd is away
            if request.transport:
                request.transport.abort()
        return response

    async def behind(self, after: int, name: str) -> tuple[Optional[Mark], list[Batch]]:
        """Returns what a follower that has heard up to a place is sent: the checkpoint if it is new or asks for dropped
        entries, and otherwise the entries. While a checkpoint waits for nodes, only the entries before the previous
        checkpoint are dropped."""
        mark = await self.recorder.etcd.mark()
        stands = mark if mark and after < mark.place else None
        if stands and (stands.dropped or not after):
            return stands, []
        try:
            return None, await self.recorder.behind(after, name)
        except Gone:
            if not stands:
                raise
            return stands, []

    async def status(self, request: web.Request) -> web.Response:
        recorder = self.recorder
        told = json.loads(recorder.head(recorder.chain)) | {"fresh": recorder.fresh, "said": recorder.fault}
        told |= {"epoch": recorder.ledger.epoch, "past": recorder.ledger.past, "followers": self.places}
        with contextlib.suppress(Failed):  # the status goes without `etcd` then
            told["etcd"] = dict(zip(("bytes", "used"), await recorder.etcd.sizes(1)))
        return web.json_response(told)


@contextlib.asynccontextmanager
async def held_twice(lock: asyncio.Lock) -> AsyncIterator[None]:
    """Holds a lock during the block, and after it for as long as the block took."""
    loop = asyncio.get_running_loop()
    await lock.acquire()
    begun = loop.time()
    try:
        yield
    finally:
        loop.call_later(loop.time() - begun, lock.release)


def wrong(status: int, text: str) -> web.Response:
    return web.json_response({"error": text}, status=status)


def etcd_of(settings: RecorderSettings) -> Etcd:
    return Etcd(settings.etcd, settings.etcd_authority, settings.etcd_certificate, settings.etcd_key)


async def serve(settings: RecorderSettings) -> int:
    """Runs a recorder until a signal ends it, or it must stop; returns its exit status."""
    try:
        private_files.begin(settings.state)
        state = State.open(settings.state)
        loaded = [certificates.read(pathlib.Path(it)) for it in (settings.certificate, settings.etcd_certificate)]
    except (OSError, ValueError) as fault:
        print(f"{settings.name} cannot start: {fault}", file=sys.stderr, flush=True)
        return 1
    recorder = Recorder(etcd_of(settings), state, settings.least)
    service, keeper = Service(recorder, settings), Keeper(recorder, settings.patience)
    watching = [certificates.watch(settings.name, it) for it in loaded]
    tasks = [asyncio.create_task(it) for it in (recorder.run(), keeper.run(), ending().wait(), *watching)]
    try:
        ready(f"{settings.name} {settings.host}:{await service.listen()}")
        done, _ = await asyncio.wait(tasks, return_when=asyncio.FIRST_COMPLETED)
        for task in done:
            task.result()
        return 0
    except (Broken, OSError, sqlite3.Error) as fault:
        told = ": restore it (network/OPERATING.md)" if isinstance(fault, Broken) else ""
        if told and "no ledger any more" not in str(fault):  # without its state it would found another ledger there
            told += f"; remove {settings.state} only if the ledger must stay as etcd has it now"
        if type(fault) is sqlite3.DatabaseError:
            told = f": {settings.state} is torn: start the recorder again, and it makes a new one"
        print(f"{settings.name} must stop: {fault}{told}", file=sys.stderr, flush=True)
        return 1
    finally:
        for task in tasks:
            task.cancel()
        await service.end(1)
        await recorder.etcd.aclose()
        state.close()
