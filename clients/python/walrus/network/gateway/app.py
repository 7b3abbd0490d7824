"""The gateway: stores and reads blobs over HTTP, and serves a page about the network and metrics."""
import asyncio
import collections
import contextlib
import ctypes
import gc
import mimetypes
import pathlib
from asyncio import sslproto
from typing import Any, Awaitable, Callable, Optional, Union

from aiohttp import hdrs, web

from walrus import client
from walrus.network.files.file_list import File
from walrus.network.gateway.auth.guard import Guard
from walrus.network.gateway.auth.tokens import STORE, Tokens, places
from walrus.network.gateway.http.access_log import CommonLog, log_to
from walrus.network.gateway.http.conditions import condition
from walrus.network.gateway.http.errors import ALONE, FRESH, JSON, Problem, as_json, ledger_away, problem_of
from walrus.network.gateway.read.announcer import Announcer
from walrus.network.gateway.read.listing import Lister
from walrus.network.gateway.read.manifests import Shelf
from walrus.network.gateway.read.reader import FOREVER, Reader, send_text
from walrus.network.gateway.resources.turns import ASKING, owner_of
from walrus.network.gateway.status.sorter import Sorter
from walrus.network.gateway.status.watch import Watch
from walrus.network.gateway.write.publisher import Publisher, expected, named
from walrus.network.gateway.write.resumable import Uploads
from walrus.network.ledger.follower import Unreachable
from walrus.network.peers.network import Access, Network
from walrus.network.service import certificates, private_files
from walrus.network.service.connections import Certificate, Counted, Server
from walrus.network.service.histograms import HEADERS, Times
from walrus.network.service.systemd import ready
from walrus.network.settings.gateway_options import Options

from .folders import PATHS, Folders

__all__ = ["Gateway", "Options", "serve"]
MMAP_THRESHOLD = -3  # an option of the C library's mallopt
sslproto.SSLProtocol.max_size = 65_536  # bytes that each TLS connection holds ready, as at nodes; else 256 KiB
POLICY = "default-src 'none'; style-src 'self'; script-src 'self'; connect-src 'self'; frame-ancestors 'none'"
POLICY += "; form-action 'none'; base-uri 'none'"
OWN = {**ALONE, "Content-Security-Policy": POLICY, "Cache-Control": "no-cache"}
STORING = (
    ("PUT", "/v1/blobs"),
    ("PUT", "/v1/blobs/{name}"),
    ("POST", "/v1/extend/{name}"),
    ("POST", "/v1/bundles"),
    ("POST", "/v1/uploads"),
)
TAKEN = dict.fromkeys([*STORING, ("PUT", "/v1/folders")], ["epochs", "for"])  # query parameters by method and path
TAKEN |= {("GET", "/v1/blobs"): ["within", "after"], ("PUT", "/v1/blobs"): ["epochs", "for", "filename"]}
TAKEN |= {("GET", "/v1/status/{name}"): ["held"]}
RESTING = (
    "/v1/blobs",
    "/v1/bundles",
    "/v1/folders",
    "/v1/lists/",
    "/v1/uploads",
    "/v1/extend",
    "/v1/challenges",
    "/v1/status/",
)  # prefixes of paths whose answers depend on the present state of the ledger
PARTS = "page.css", "page.js", "store.js"
PAGES = {"/": "page/page.html", "/v1/api": "openapi.yaml"} | {f"/{it}": f"page/{it}" for it in PARTS}


def must_be_known(request: web.Request) -> None:
    """Raises `Problem` if a request has a query parameter that it does not take, or one parameter twice."""
    if request.path.startswith(PATHS) and request.method in ("GET", "HEAD"):
        return  # pages in folders use parameters of their own, such as app.js?version=3
    resource = request.match_info.route.resource
    taken = TAKEN.get((request.method, resource.canonical if resource else ""), [])
    unknown = [word for word in request.query if word not in taken]
    if request.match_info.http_exception is None and unknown:
        asked = f"it takes {', '.join(taken)}" if taken else "it takes none"
        raise Problem(400, f"{unknown[0][:40]!r} is not a query parameter of this request: {asked}")
    if len(request.query) > len(set(request.query)):
        raise Problem(400, "a query parameter occurs twice: send it once")


class Gateway(Server):
    """The HTTP service over one user's view of the network. `folder` has tokens.json unless options name another."""

    def __init__(self, network: Network, folder: pathlib.Path, options: Optional[Options] = None):
        super().__init__()
        self.network = network
        self.own = certificates.read(network.certificate)  # towards recorders
        options = self.options = options or Options()
        tokens, default, used = places(folder, options.tokens, options.used)
        self.guard = Guard(options, Tokens(tokens, default, used))
        self.reader = Reader(network, options)
        self.shelf = Shelf(self.reader)
        self.lister = Lister(network, self.reader, self.shelf)
        self.publisher = Publisher(network, self.reader, self.lister, options, used)
        self.folders = Folders(self.reader, self.publisher, self.shelf, options.sites)
        self.uploads = Uploads(self.publisher)
        self.announcer = Announcer(network, self.reader.memory)
        self.reader.rejected = self.announcer.hear
        self.watch = Watch(network, self.reader.memory, options, Sorter(self.reader))
        self.watch.announced, self.times = self.announcer.findings, Times()
        self.requests: "collections.Counter[str]" = collections.Counter()
        self.certificate = Certificate(options.tls_certificate, options.tls_key) if options.tls_certificate else None
        self.log, self.each = log_to(options.log), collections.Counter[str]()

    async def listen(self, host: str = "127.0.0.1", port: int = 0) -> int:
        """Starts to answer requests, and returns the port."""
        app, publisher = web.Application(middlewares=[self.answer, self.guard.check, self.sort]), self.publisher
        app.on_response_prepare.extend([self.guard.share, self.guard.keep])
        app.add_routes([web.put("/v1/blobs", self.folders.put_file, expect_handler=expected)])
        app.add_routes([web.post("/v1/bundles", publisher.post_bundle, expect_handler=expected)])
        uploads = self.uploads
        app.on_response_prepare.append(uploads.share)
        app.add_routes([web.post("/v1/uploads", uploads.create, expect_handler=expected)])
        app.add_routes([web.get("/v1/uploads/{upload}", uploads.look), web.delete("/v1/uploads/{upload}", uploads.end)])
        app.add_routes([web.patch("/v1/uploads/{upload}", uploads.patch, expect_handler=expected)])
        app.add_routes([web.put("/v1/blobs/{name}", publisher.extend), web.post("/v1/extend/{name}", publisher.extend)])
        app.add_routes([web.get("/v1/blobs", self.lister.list), web.get("/v1/blobs/{name}", self.get_blob)])
        app.add_routes([web.get("/v1/bundles/{name}/{number}", self.get_blob)])
        app.add_routes([web.get("/v1/lists/{name}", self.get_list)])
        app.add_routes([web.put("/v1/folders", self.folders.put, expect_handler=expected)])
        app.add_routes([web.get("/v1/folders/{name}", self.folders.get)])
        app.add_routes([web.get("/v1/folders/{name}/{path:.*}", self.folders.get)])
        app.add_routes([web.get("/v1/status", self.status), web.get("/v1/status/{name}", self.status_of)])
        app.add_routes([web.put("/v1/challenges/{name}/{node}", self.challenge), web.get("/metrics", self.metrics)])
        app.add_routes([web.get("/livez", self.livez), web.get("/readyz", self.readyz)])
        app.add_routes([web.get("/v1/rights", self.rights)])
        app.add_routes([web.get(path, self.page) for path in PAGES])
        context = self.certificate.context if self.certificate else None
        self.reader.keeping = asyncio.create_task(self.reader.keep_room())
        return await self.serve(app, host, port, self.options.connections, context)

    async def close(self) -> None:
        await self.end(5)
        await self.watch.close()
        await self.announcer.close()
        await self.shelf.close()
        await self.reader.close()
        self.publisher.close()

    def connect(self, server: web.Server) -> Counted:
        words: dict[str, Any] = {"access_log": self.log, "access_log_class": CommonLog}
        made = Counted(server, self.options.connections, self.each, **words)
        made.proxies = self.guard.proxies
        if self.certificate:
            self.certificate.refresh()
        return made

    @web.middleware
    async def answer(self, request: web.Request, handler: Callable[..., Awaitable[Any]]) -> web.StreamResponse:
        """Passes a request on, turns expected errors into responses in JSON, and counts and times all responses. A
        folder's own host (`site`) serves that folder and nothing else."""
        request.protocol.first.cancel()  # type: ignore[attr-defined]
        faults = Problem, client.Failed, OSError, web.HTTPException
        method = request.method if request.method in hdrs.METH_ALL else "other"
        resource = request.match_info.route.resource
        with self.times.taking(f'method="{method}",path="{resource.canonical if resource else "other"}"'):
            try:
                if name := self.folders.at_site(request):
                    request["site"] = name
                response: web.StreamResponse = await handler(request)
            except faults as fault:
                response = problem_of(fault).response()
        self.requests[f'method="{method}",status="{response.status}"'] += 1
        return response

    @web.middleware
    async def sort(self, request: web.Request, handler: Callable[..., Awaitable[Any]]) -> web.StreamResponse:
        """Checks the query, and that the ledger is followed if the answer depends on it; then passes a request on."""
        ASKING.set(owner_of(request))
        if "site" in request:
            self.must_follow()
            return await self.folders.get_site(request)
        must_be_known(request)
        if request.path.startswith(RESTING):
            self.must_follow()
        response: web.StreamResponse = await handler(request)
        return response

    async def get_blob(self, request: web.Request) -> web.StreamResponse:
        return await self.reader.answer(request, named(request))

    async def get_list(self, request: web.Request) -> web.StreamResponse:
        """Sends the list of a file's pieces, as its blob has it: a client checks it by the identifier, which so commits
        to the file's length and pieces."""
        name = named(request)
        self.reader.must_stand(name)
        async with self.reader.blob(name) as blob:
            file, size = File.of(name, blob), len(blob)
        if file.names == name:
            raise Problem(404, "the file is one blob, and has no list of pieces: read it under /v1/blobs")
        tag = f'"{name.hex()}/list"'
        headers = {**ALONE, **FOREVER, "ETag": tag}
        if (found := condition(request, tag, headers)) is not None:
            return found
        return await self.reader.give(request, File(size, name), tag, headers)

    async def status(self, request: web.Request) -> web.StreamResponse:
        return await send_text(request, self.watch.status_text(), FRESH | JSON)

    async def status_of(self, request: web.Request) -> web.Response:
        """Tells what is known of a blob; with `held` in the query also whether enough nodes say that they hold it."""
        name = named(request)
        told = self.watch.with_shards(name)
        if "held" in request.query:
            told["held"] = bool(told["certificate"]) and await self.network.holders.have(name)
        return as_json(told)

    async def challenge(self, request: web.Request) -> web.Response:
        """Challenges a node to show that it holds its part of a blob; the response has the finding."""
        self.reader.must_stand(named(request))
        return as_json(await self.watch.challenge(named(request), request.match_info["node"]))

    async def livez(self, request: web.Request) -> web.Response:
        return as_json({"live": True})

    async def readyz(self, request: web.Request) -> web.Response:
        self.must_follow()
        return as_json({"ready": True})

    def must_follow(self) -> None:
        """Raises `Problem` (503) if the ledger has not been heard for longer than `Options.stale` seconds."""
        away = self.watch.away()
        if away["stale"]:
            raise ledger_away(f"the ledger is away for {away['away']:.0f} s ({away['said']})")

    async def metrics(self, request: web.Request) -> web.StreamResponse:
        cache = self.reader.cache
        counts: dict[str, Any] = {"http_requests": self.requests, "http_bytes": self.reader.bytes}
        counts |= {"cache_hits": cache.hits, "blobs_read": cache.reads}
        sizes = {"cache_bytes": cache.size, "certificate_days": certificates.days_left(self.own)}
        found = self.announcer.counts
        counts |= {"bad_encodings": {f'came="{it}"': found[it] for it in ("declared", "not declared")}}
        try:
            told = self.watch.metrics(counts, sizes, {"http_seconds": self.times})
        except ModuleNotFoundError as fault:
            raise Problem(501, f"{fault.name} is not here: install python3-prometheus-client") from None
        return await send_text(request, told, FRESH | HEADERS)

    async def rights(self, request: web.Request) -> web.Response:
        """Returns what the client may do here, so that the page offers only that."""
        told = self.publisher.rights(request, self.guard.refusal(request, STORE))
        return as_json(told | {"token": self.guard.tokens.all() is not None and "Authorization" not in request.headers})

    async def page(self, request: web.Request) -> web.Response:
        path = pathlib.Path(__file__).parent / PAGES[request.path]
        kind = mimetypes.guess_type(path)[0] or "text/plain"
        return web.Response(text=path.read_text(), content_type=kind, headers=OWN)


def keep_buffers() -> None:
    """Makes malloc reuse memory for transfer buffers of 256 KiB. As `walrus-net` sets malloc, it maps blocks of 64 KiB
    and more anew: for an upload of 16 MiB that took 43 ms of processor time, and everything else 35 ms."""
    with contextlib.suppress(AttributeError):  # other C libraries have no mallopt
        ctypes.CDLL(None).mallopt(MMAP_THRESHOLD, 524_288)


async def serve(
    access: Union[pathlib.Path, Access], host: str, port: int, options: Options, told: asyncio.Event
) -> int:
    """Runs a gateway until `told` is set, and returns 0. Raises if it can no longer follow the ledger or ask nodes."""
    keep_buffers()
    access = access if isinstance(access, Access) else Access.within(access, "publisher")
    private_files.begin(access.state)
    gc.freeze()
    gc.set_threshold(2_000)  # the default of 700 objects costs a tenth of its processor time when many store at once
    async with Network(access, seconds=options.patience, kept=True) as network:
        gateway = Gateway(network, network.authority.parent, options)
        private_files.close_database(str(gateway.publisher.used))
        try:
            port = await gateway.listen(host, port)
            scheme = "https" if gateway.certificate else "http"
            ready(f"the gateway is at {scheme}://{host}:{port}/\nready")
            waiting = asyncio.create_task(told.wait())
            watching = asyncio.create_task(certificates.watch(network.user, gateway.own))
            tasks: "list[asyncio.Future[Any]]" = [waiting, gateway.watch.task, *filter(None, [network.task])]
            await asyncio.wait(tasks, return_when=asyncio.FIRST_COMPLETED)
            waiting.cancel()
            watching.cancel()
            if network.lost:
                raise Unreachable(f"the gateway must stop, as it cannot follow the ledger: {network.lost}")
            if gateway.watch.task.done() and (fault := gateway.watch.task.exception()):
                said = f"{type(fault).__name__}: {fault}"  # if it went on, it would report old states of the nodes
                raise RuntimeError(f"the gateway must stop, as it can no longer ask the nodes: {said}")
        finally:
            await gateway.close()
    return 0
