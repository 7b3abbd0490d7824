"""Access control of a gateway: rights come from a token; without a file of tokens only its own machine may store.

Any web page can make a browser send requests, though without a token of the gateway. So a request without a token
that would store must use one of the gateway's own names, and must not come from another page. At an address that not
everybody reaches, a request without a token that reads something other than a file by its identifier must use such a
name too: otherwise a page could point its own name at that address (DNS rebinding) and read everything there."""
import collections
import contextlib
from typing import Any, Awaitable, Callable, Iterator, Optional

from aiohttp import hdrs, web


from walrus.network.gateway.http.errors import Problem
from walrus.network.service.names import is_address, is_inner, is_loopback
from walrus.network.settings.gateway_options import Options
from walrus.wire.fairness import key_of

from .rate_limits import Flow, Limits
from .tokens import ANYONE, READ, STORE, Token, Tokens

SAFE = "GET", "HEAD", "OPTIONS"
PASSED_ON = "x-forwarded-for", "forwarded", "via", "x-real-ip"
FREE = "/", "/page.css", "/page.js", "/store.js", "/v1/api", "/v1/rights", "/livez", "/readyz"
UPLOADS = "/v1/uploads"  # every request for these needs the right to store
BY_NAME = "/v1/blobs/", "/v1/bundles/", "/v1/folders/"  # what is read here is found only by those who know its name
EXPOSED = "ETag, Content-Range, Location, Repr-Digest, Retry-After, Upload-Offset, Upload-Complete, Upload-Limit"
SENT = "Authorization, Content-Type, Range, If-Match, If-None-Match, If-Range, Digest, Repr-Digest, Want-Repr-Digest"
SENT += ", Upload-Offset, Upload-Complete, Upload-Length, Upload-Draft-Interop-Version"
ASKED = {"WWW-Authenticate": 'Bearer realm="walrus"'}
INVALID = {"WWW-Authenticate": 'Bearer realm="walrus", error="invalid_token"'}
NO_TOKEN = "only its own machine may store here, unless there are tokens (walrus-net token)"
MARKS, TYPE = 256, 256  # the most commas, semicolons and ampersands in query and fields; the most bytes of Content-Type


class Crowd:
    """Counts the unanswered requests of each client. They are bounded, as requests of disconnected clients continue."""

    def __init__(self, most: int):
        self.most, self.counts = most, collections.Counter[str]()

    @contextlib.contextmanager
    def one(self, whom: str) -> Iterator[None]:
        """Counts a request while the context runs; raises `Problem` (429) if the client has too many."""
        if self.counts[whom] >= self.most:
            text = f"{self.most} requests of yours are not answered yet: try again once some are"
            raise Problem(429, text, {"Retry-After": "5"})
        self.counts[whom] += 1
        try:
            yield
        finally:
            self.counts[whom] -= 1
            if not self.counts[whom]:
                del self.counts[whom]


class Guard:
    """The access rules of a gateway."""

    def __init__(self, options: Options, tokens: Tokens):
        self.tokens, self.crowd, self.sites = tokens, Crowd(options.connections), options.sites
        self.limits = Limits(options.requests, options.rate)
        self.names, self.proxies = {it.lower() for it in options.names}, {*options.proxies}

    def address(self, request: web.BaseRequest) -> str:
        """Returns the client's address: what a trusted proxy says, or else the other end of the connection."""
        peer = request.remote or ""
        told = ",".join(request.headers.getall("X-Forwarded-For", [])).rpartition(",")[2].strip()
        return told if told and peer in self.proxies else peer

    @web.middleware
    async def check(self, request: web.Request, handler: Callable[..., Awaitable[Any]]) -> web.StreamResponse:
        """Passes a request on if it is allowed and within the limits; otherwise raises `Problem`."""
        address = request["address"] = self.address(request)
        keys = [f"address {key_of(address)}"]
        self.must_be_few(keys)
        must_be_brief(request)
        token = request["token"] = self.shown(request)
        if token:
            keys.append(f"token {token.name}")
            self.must_be_few(keys[1:])
        request["flow"] = Flow(self.limits, keys)
        if request.method == "OPTIONS":
            return self.options(request)
        if "site" in request or request.match_info.http_exception is None and request.path not in FREE:
            self.must_be_allowed(request, token, READ if is_read(request) else STORE)
        with self.crowd.one(keys[-1]):
            await request["flow"].spend(0)  # until nothing is owed: who moves too many bytes waits, and is not refused
            response: web.StreamResponse = await handler(request)
        if isinstance(response, web.Response) and isinstance(response.body, bytes):
            await request["flow"].spend(len(response.body))  # a stream spends as it goes
        return response

    def must_be_few(self, keys: list[str]) -> None:
        """Counts a request of the client with these keys; raises `Problem` (429) if it comes too soon."""
        if seconds := self.limits.admit(keys):
            raise Problem(429, f"too much at once: try again in {seconds} s", {"Retry-After": str(seconds)})

    def shown(self, request: web.Request) -> Optional[Token]:
        """Returns the token that a request shows, or None. Raises `Problem` (401) if there are tokens, but not this."""
        fields: list[str] = request.headers.getall("Authorization", [])
        if not fields or self.tokens.all() is None:
            return None
        kind, _, text = fields[0].partition(" ")
        token = self.tokens.find(text.strip().encode("utf-8", "surrogateescape")) if kind.lower() == "bearer" else None
        if token is None or len(fields) > 1:
            raise Problem(401, "this token is not known here", INVALID)
        return token

    def must_be_allowed(self, request: web.Request, token: Optional[Token], right: str) -> None:
        known = self.tokens.all()
        by_name = is_by_name(request) and right == READ
        if token is None and (right == STORE or not by_name and self.may_be_led(request)):
            self.must_be_named(request)
        if token is None and right == STORE:
            self.must_be_own(request)
        if known is None:
            passed_on = request.remote not in self.proxies and {*PASSED_ON} & {*map(str.lower, request.headers)}
            if right == STORE and (passed_on or not is_loopback(request["address"])):
                raise Problem(403, NO_TOKEN)
            return
        holder = token or known.get(ANYONE)
        if holder is None or right not in holder.rights:
            who, asked = (token.name, None) if token else ("a client without a token", ASKED)
            raise Problem(403 if token else 401, f"{who} may not {right} here", asked)
        if token is None:
            request["token"] = holder

    def refusal(self, request: web.Request, right: str) -> str:
        """Returns why the client of a request does not have a right, or an empty text if it has."""
        try:
            self.must_be_allowed(request, request["token"], right)
        except Problem as problem:
            return str(problem)
        return ""

    def may_be_led(self, request: web.Request) -> bool:
        """Whether DNS rebinding may have led a browser here: a page that cannot reach this address points a name of its
        own at it. On inner networks an address in `Host` rules that out; on loopback it must be the gateway's own."""
        place = self.place(request)[0]
        return is_loopback(place) or is_inner(place) and not is_address(request.headers.get("Host", ""))

    def must_be_named(self, request: web.Request) -> None:
        """Raises `Problem` (421) if `Host` is no name of this gateway."""
        host = request.headers.get("Host", "").lower()
        if not self.is_own(request, host):
            raise Problem(421, f"{host[:80]!r} is no name of this gateway: add it with --names, or show a token")

    def must_be_own(self, request: web.Request) -> None:
        """Raises `Problem` (403) if a page of another origin may have made the browser send this request."""
        origin, site = request.headers.get("Origin"), request.headers.get("Sec-Fetch-Site", "none")
        scheme, _, name = (origin or "").lower().partition("://")
        own = scheme in ("http", "https") and self.is_own(request, name)
        if origin is not None and not own or site not in ("none", "same-origin"):
            raise Problem(403, "a page from elsewhere may store nothing here: show a token")

    def place(self, request: web.Request) -> tuple[str, int]:
        """Returns the local address and port at which a request arrived."""
        found = request.transport.get_extra_info("sockname") if request.transport else None
        host, port = (found or ("", 0))[:2]
        return host.removeprefix("::ffff:"), port

    def is_own(self, request: web.Request, name: str) -> bool:
        """Whether HOST or HOST:PORT is a name of this gateway."""
        if {name, name.rpartition(":")[0] or name} & self.names:
            return True
        host, port = self.place(request)
        hosts = [f"[{host}]" if ":" in host else host] + ["localhost"] * is_loopback(host)
        return name in [f"{it}:{port}" for it in hosts] + (hosts if port in (80, 443) else [])

    def options(self, request: web.Request) -> web.Response:
        """Answers OPTIONS with the methods of a path; `share` adds what pages of other origins need."""
        fault = request.match_info.http_exception
        if "site" in request:
            return web.Response(status=204, headers={"Allow": "GET, HEAD, OPTIONS"})
        if not isinstance(fault, web.HTTPMethodNotAllowed):
            raise fault or web.HTTPNotFound()
        methods = ", ".join(sorted({*fault.allowed_methods, "OPTIONS"}))
        return web.Response(status=204, headers={"Allow": methods})

    async def keep(self, request: web.Request, response: web.StreamResponse) -> None:
        """Makes shared caches keep nothing for which a token had to be shown; and if folders have hosts of their own,
        keep the responses of different hosts apart (`Vary: Host`)."""
        told, known = response.headers.get(hdrs.CACHE_CONTROL, ""), self.tokens.all()
        if self.sites and "no-store" not in told:
            response.headers[hdrs.VARY] = ", ".join([*response.headers.getall(hdrs.VARY, []), hdrs.HOST])
        if told.startswith("public") and not (known is None or ANYONE in known and READ in known[ANYONE].rights):
            response.headers[hdrs.CACHE_CONTROL] = told.replace("public", "private", 1)

    async def share(self, request: web.Request, response: web.StreamResponse) -> None:
        """Lets pages of other origins read a response (CORS) if it is read by its name, or if a token was shown."""
        by_name = is_by_name(request) and request.method in SAFE
        asks = request.method == "OPTIONS" and response.status == 204
        if asks and (by_name or self.tokens.all() is not None):
            wanted = request.headers.get("Access-Control-Request-Method", "GET")
            if wanted not in SAFE and self.tokens.all() is None:
                return
            response.headers["Access-Control-Allow-Methods"] = response.headers["Allow"]
            response.headers["Access-Control-Allow-Headers"] = SENT
            response.headers["Access-Control-Max-Age"] = "86400"
        elif not by_name and not (hdrs.AUTHORIZATION in request.headers and request.get("token")):
            return
        response.headers["Access-Control-Allow-Origin"] = "*"
        response.headers["Access-Control-Expose-Headers"] = EXPOSED


def must_be_brief(request: web.BaseRequest) -> None:
    """Raises `Problem` (431) if a request's head would take long to parse: each range, tag and query parameter takes
    time, and each parameter of a media type as much as the text before it."""
    texts = [request.rel_url.raw_query_string, *request.headers.values()]
    if sum(text.count(mark) for text in texts for mark in ",;&") > MARKS:
        said = f"the head of the request has more than {MARKS} commas, semicolons and ampersands"
        raise Problem(431, f"{said}: ask for less at once")
    if len(request.headers.get(hdrs.CONTENT_TYPE, "")) > TYPE:
        raise Problem(431, f"Content-Type has more than {TYPE} bytes: send a shorter one")


def is_read(request: web.Request) -> bool:
    """Whether a request needs only the right to read."""
    return request.method in SAFE and ("site" in request or not request.path.startswith(UPLOADS))


def is_by_name(request: web.BaseRequest) -> bool:
    """Whether a request is for something that is found only by those who know its name."""
    return "site" in request or request.path.startswith(BY_NAME)
