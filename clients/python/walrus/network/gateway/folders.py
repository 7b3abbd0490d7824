"""Folders over HTTP: clients send a tar or a form, and read each file at its path, as from a web server."""
import asyncio
import base64
import html
import json
import re
import urllib.parse
from typing import Any, AsyncIterator, Optional, Union

from aiohttp import web


from walrus.network.files.file_list import LONGEST, File
from walrus.network.files.manifest import Manifest, Place, Wrong, as_path, kind_told, label_of, shown
from walrus.network.files.sealed import Blob, put_away
from walrus.network.gateway.auth.guard import SAFE
from walrus.network.gateway.http.conditions import condition
from walrus.network.gateway.http.errors import JSON, Problem
from walrus.network.gateway.read.manifests import LISTS, Shelf
from walrus.network.gateway.read.reader import FOREVER, Reader, send_text
from walrus.network.gateway.read.sending import SLICE
from walrus.network.gateway.resources.turns import Turns, owner_of
from walrus.network.gateway.write.folder_upload import AT_ONCE, Costs, Storing, Upload
from walrus.network.gateway.write.publisher import Publisher, named
from walrus.network.gateway.write.writer import Told

OPEN = {"X-Content-Type-Options": "nosniff", "Referrer-Policy": "no-referrer"}
SANDBOX = {**OPEN, "Content-Security-Policy": "sandbox allow-scripts allow-popups"}  # cannot act as the gateway's page
OWN_HOST = {**OPEN, "Origin-Agent-Cluster": "?1"}  # a site cannot reach its neighbours either
PATHS = "/v1/folders/"
MOST, ROOM, LISTINGS = 10_000, 2_097_152, 2  # most lines and bytes of a listing; listings that are made at once
HTML = {"Content-Type": "text/html; charset=utf-8"}
FRONT = """<!DOCTYPE html><html lang="en"><head><meta charset="utf-8"><title>{title}</title>
<meta name="viewport" content="width=device-width"><style>body {{ font-family: sans-serif; margin: 2em }}
td {{ padding: 0.1em 1em 0.1em 0 }} td + td {{ text-align: right }}</style></head>
<body><h1>{title}</h1><table>
"""


class Folders:
    """The folders of a gateway. Unless `site` is empty, each folder also has a host of its own below that host."""

    def __init__(self, reader: Reader, publisher: Publisher, shelf: Shelf, site: str):
        self.reader, self.publisher, self.shelf = reader, publisher, shelf
        self.site, self.turns, self.listings = site.lower().strip("."), Turns(AT_ONCE), Turns(LISTINGS)

    async def put(self, request: web.Request) -> web.Response:
        options, publisher = self.publisher.options, self.publisher
        kind, costs = request.headers.get("Content-Type", ""), Costs(publisher.charge(request))

        async def store(stream: AsyncIterator[bytes], epochs: int, stored: list[bytes]) -> Told:
            return await self.store(kind, costs, stream, epochs, stored)

        async with self.turns.take(owner_of(request)):
            response = await publisher.upload(request, min(options.most, LONGEST), costs, store)
        name = response.headers["Location"].rpartition("/")[2]
        response.headers["Location"] = f"{PATHS}{name}/"
        return response

    async def put_file(self, request: web.Request) -> web.Response:
        """Stores a file; if the query has `filename`, also the manifest of a folder with this file alone."""
        publisher = self.publisher
        words = urllib.parse.parse_qs(request.rel_url.raw_query_string, True, errors="surrogateescape")
        if "filename" not in words:
            return await publisher.put_blob(request)
        name = words["filename"][0]
        try:
            kind, path = kind_told(request.headers.get("Content-Type", ""), name), as_path(name)
        except Wrong as fault:
            raise Problem(400, f"{fault}; nothing is stored") from None
        if "/" in name:
            raise Problem(400, f"{shown(name)} is a path: say the name of a file, without a slash; nothing is stored")
        costs = Costs(publisher.charge(request), 2)

        async def store(stream: AsyncIterator[bytes], epochs: int, stored: list[bytes]) -> Told:
            told = await Storing(publisher.writer, costs, epochs, stored).store_named(path, kind, stream)
            folder = told["named"]["folder"]
            where = {"path": f"{PATHS}{folder}/{urllib.parse.quote(path)}", **self.site_of(folder)}
            return {**told, "named": {**told["named"], **where}}

        return await publisher.upload(request, min(publisher.options.most, LONGEST), costs, store, True)

    def site_of(self, name: str) -> dict[str, str]:
        """Returns the folder's own host as `site`, or nothing if folders have no hosts here."""
        return {"site": f"{label_of(bytes.fromhex(name))}.{self.site}"} if self.site else {}

    async def store(
        self, kind: str, costs: Costs, stream: AsyncIterator[bytes], epochs: int, stored: list[bytes]
    ) -> Told:
        """Stores a body of media type `kind` as a folder. Returns the JSON of the answer, with the folder's host."""
        publisher = self.publisher
        upload = Upload(publisher.writer, costs, epochs, publisher.options.reserve, stored)
        told = await upload.store_folder(kind, stream)
        return {**told, "folder": {**told["folder"], **self.site_of(told["blobId"])}}

    def at_site(self, request: web.BaseRequest) -> Optional[bytes]:
        """Returns the identifier of the folder whose own host the request names, or None if it names another host.
        Raises 404 if the label below `site` is no identifier, and 405 if the method does more than read."""
        host = re.sub(r"\.?(:[0-9]*)?$", "", request.headers.get("Host", "").lower())
        if not self.site or not host.endswith(f".{self.site}"):
            return None
        label = host.removesuffix(f".{self.site}")
        try:
            name = base64.b32decode(label.upper() + "====")
        except ValueError:
            name = b""
        if len(name) != 32 or label_of(name) != label:
            raise Problem(404, f"no folder is at {host[:80]!r}")
        if request.method not in SAFE:
            raise Problem(405, "a site can only be read", {"Allow": ", ".join(SAFE)})
        return name

    async def get(self, request: web.Request) -> web.StreamResponse:
        """Answers a request for a file or a folder below /v1/folders/ID."""
        front, slash, path = request.rel_url.raw_path.removeprefix(PATHS).partition("/")
        name = named(request)
        return await self.answer(request, name, path, SANDBOX) if slash else moved(front, request)

    async def get_site(self, request: web.Request) -> web.StreamResponse:
        """Answers a request for a file or a folder at the folder's own host."""
        return await self.answer(request, request["site"], request.rel_url.raw_path.removeprefix("/"), OWN_HOST)

    async def answer(self, request: web.Request, name: bytes, raw: str, headers: dict[str, str]) -> web.StreamResponse:
        await self.shelf.manifest(name)
        try:
            path = urllib.parse.unquote_to_bytes(raw).decode()
        except UnicodeDecodeError:
            raise Problem(404, "the folder has no such file: its names are UTF-8") from None
        is_folder = not path or path.endswith("/")
        place, has_folder = await self.shelf.look(name, lambda it: find(it, path, is_folder))
        if place:  # the manifest may be long: a client that reads slowly does not keep it in memory
            return await self.send(request, place, headers)
        if is_folder and has_folder:
            accepted = ",".join(request.headers.getall("Accept", []))
            is_json = "application/json" in accepted and "text/html" not in accepted
            headers = {**headers, **(JSON if is_json else HTML), "Cache-Control": "no-cache", "Vary": "Accept"}
            owner = owner_of(request)
            async with self.reader.sendings.take(owner):  # a long list is on disk until it is sent, as a piece is
                async with self.listings.take(owner):  # making a list takes a while, beside other requests
                    run, manifest = asyncio.get_running_loop().run_in_executor, await self.shelf.manifest(name)
                    text = await run(LISTS, listing, name, manifest, path, is_json)
                    del manifest
                return await send_text(request, text, headers)
        if has_folder:
            return moved(raw.rpartition("/")[2], request)
        raise Problem(404, "the folder has no such file")

    async def send(self, request: web.Request, place: Place, headers: dict[str, str]) -> web.StreamResponse:
        at = "" if place.offset is None else f"/{place.offset}-{place.length}"
        tag, charset = f'"{place.file.hex()}{at}"', "; charset=utf-8" if place.kind.startswith("text/") else ""
        headers = {**FOREVER, **headers, "ETag": tag}
        if (found := condition(request, tag, headers)) is not None:
            return found
        is_head = request.method == "HEAD"  # HEAD needs only what the manifest has
        file = File(place.length, b"") if is_head else await self.shelf.file(place)
        return await self.reader.give(request, file, tag, headers, place.kind + charset)


def find(manifest: Manifest, path: str, is_folder: bool) -> tuple[Optional[Place], bool]:
    """Returns the file of a path, or of the page of a folder, if there is one; else whether the path is a folder's."""
    place = manifest.find(f"{path}index.html" if is_folder else path)
    return place, not place and manifest.has(path if is_folder else f"{path}/")


def moved(name: str, request: web.Request) -> web.Response:
    """Returns a redirect from a folder's path without a slash at its end to the one with it."""
    query = f"?{request.rel_url.raw_query_string}" if request.rel_url.raw_query_string else ""
    place = f"./{urllib.parse.quote(urllib.parse.unquote_to_bytes(name))}/{query}"
    return web.Response(status=301, headers={**SANDBOX, "Location": place, "Cache-Control": "public, max-age=86400"})


def listing(name: bytes, manifest: Manifest, folder: str, is_json: bool) -> Blob:
    """Returns the contents of a folder as JSON or as a page. A long result is in a file without a name, as names of a
    manifest may take nine times their bytes here."""
    lines, size, is_whole = list[bytes](), 0, True
    for it in manifest.within(folder):
        line = (json.dumps(entry(it, folder)) if is_json else row(it, folder)).encode()
        size += len(line)
        if len(lines) == MOST or size > ROOM:
            is_whole = False
            break
        lines.append(line)
    if is_json:
        told = json.dumps({"blobId": name.hex(), "folder": folder, "complete": is_whole})
        text = f'{told[:-1]}, "entries": ['.encode() + b", ".join(lines) + b"]}\n"
    else:
        front = FRONT.format(title=html.escape(f"/{folder}"))
        front += '<tr><td><a href="../">..</a></td><td></td></tr>\n' if folder else ""
        more = "" if is_whole else f"<p>The first {len(lines)} alone: the manifest names all.</p>"
        text = front.encode() + b"".join(lines) + f"</table>{more}</body></html>\n".encode()
    return put_away(text) if len(text) > SLICE else text


def entry(it: Union[str, Place], folder: str) -> dict[str, Any]:
    if isinstance(it, str):
        return {"name": f"{it}/"}
    told: dict[str, Any] = {"name": it.path[len(folder) :], "type": it.kind, "size": it.length}  # noqa: E203
    told |= {"blobId": it.file.hex()} if it.file else {}
    return told | ({"offset": it.offset} if it.offset is not None else {})


def row(it: Union[str, Place], folder: str) -> str:
    name = f"{it}/" if isinstance(it, str) else it.path[len(folder) :]  # noqa: E203
    size = "" if isinstance(it, str) else f"{it.length:,}"
    return f'<tr><td><a href="./{urllib.parse.quote(name)}">{html.escape(name)}</a></td><td>{size}</td></tr>\n'
