"""Conditions of requests by the tag of a file (`If-Match`, `If-None-Match`)."""
from typing import Iterable, Optional

from aiohttp import web

from .errors import Problem


def condition(request: web.Request, tag: str, headers: dict[str, str]) -> Optional[web.Response]:
    """Returns 304 if `If-None-Match` names this tag, and None if the file is to be sent. Raises `Problem` (412) if
    `If-Match` names only other tags."""
    if "If-Match" in request.headers and not tagged(request.headers.getall("If-Match"), tag):
        raise Problem(412, "the only tag of this file is its identifier", headers)
    if tagged([it.replace("W/", "") for it in request.headers.getall("If-None-Match", [])], tag):
        return web.Response(status=304, headers=headers)
    return None


def tagged(fields: Iterable[str], tag: str) -> bool:
    """Whether a conditional header's values contain a tag, or `*` for any."""
    return any(word.strip() in ("*", tag) for field in fields for word in field.split(","))
