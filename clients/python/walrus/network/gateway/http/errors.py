"""Errors of the gateway: each has an HTTP status and a sentence that says what to do."""
import json
from typing import Any, Optional

from aiohttp import web

from walrus import client
from walrus.network.ledger.follower import Refused, Unreachable
from walrus.network.peers.network import Away


ALONE = {"X-Content-Type-Options": "nosniff", "Referrer-Policy": "no-referrer"}
ALONE["Content-Security-Policy"] = "default-src 'none'; sandbox"  # a blob must not act as the gateway's own page
FRESH = {**ALONE, "Cache-Control": "no-store"}  # for answers about the present, which no cache may keep
JSON = {"Content-Type": "application/json; charset=utf-8"}
NO_BLOB = "no such blob is registered, or its time is over"
BAD = "the blob was badly encoded by its writer: nobody can read it"


class Problem(Exception):
    """A request that fails: the HTTP status, the reason, headers, and further fields of the error in the body."""

    def __init__(self, status: int, text: str, headers: Optional[dict[str, str]] = None, **more: object):
        super().__init__(text)
        self.status, self.headers, self.more = status, headers or {}, more

    def response(self) -> web.Response:
        body = {"error": {"status": self.status, "text": str(self), **self.more}}
        headers = {"Retry-After": "5"} if self.status == 503 else {}
        return as_json(body, self.status, {**headers, **self.headers, "Cache-Control": "no-store"})


def as_json(value: Any, status: int = 200, headers: Optional[dict[str, str]] = None) -> web.Response:
    """Returns a response with a value as a line of JSON, which no cache may keep."""
    words = {**FRESH, **JSON, **(headers or {})}
    return web.Response(body=as_line(value), status=status, headers=words)


def as_line(value: Any) -> bytes:
    """Returns a value as a line of JSON."""
    return json.dumps(value).encode() + b"\n"


def problem_of(fault: Exception) -> Problem:
    """Returns what an exception from below means to the client."""
    said = {str(shard): words for shard, words in getattr(fault, "said", {}).items() if words}
    if isinstance(fault, Problem):
        return fault
    if isinstance(fault, web.HTTPException):
        headers = {name: text for name, text in fault.headers.items() if name == "Allow"}
        if isinstance(fault, web.HTTPMethodNotAllowed) and fault.method == "DELETE":
            return Problem(405, "nothing is deleted: a blob ends with its last epoch, for which it was stored", headers)
        return Problem(fault.status, f"{fault.reason}: GET /v1/api describes all requests", headers)
    if isinstance(fault, client.NoBundle):
        return Problem(404, "the blob is no bundle: read it under /v1/blobs")
    if isinstance(fault, client.NoMember):
        return Problem(404, f"the bundle has {fault.count} members, whose numbers begin with 0")
    if isinstance(fault, client.BadlyEncoded):
        return Problem(410, BAD, invalid=True)
    if isinstance(fault, client.TooFew):
        lacking = fault.needed - fault.held
        heard = f"{fault.held} of {fault.needed} needed slivers are" if lacking else "too little of the blob is"
        return Problem(503, f"{heard} heard: try again once more nodes answer", lacking=lacking or None, shards=said)
    if isinstance(fault, Away):
        return ledger_away(str(fault), shards=said)
    if isinstance(fault, client.Failed):
        return Problem(503, str(fault), shards=said)
    if isinstance(fault, TimeoutError):
        return Problem(503, "the gateway has too much to do: try again later")
    if isinstance(fault, Unreachable):
        return ledger_away(f"the ledger does not answer ({fault})")
    part = "the ledger does not take it" if isinstance(fault, Refused) else "the gateway cannot do its part just now"
    return Problem(503, f"{part}: {fault}")


def ledger_away(text: str, **more: object) -> Problem:
    """Returns the error for a request that failed because the ledger is away, or was away meanwhile."""
    return Problem(503, f"{text}: try again later", None, cause="ledger", **more)
