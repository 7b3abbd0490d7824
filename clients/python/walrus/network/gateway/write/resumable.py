"""Resumable uploads: `Resumable Uploads for HTTP`, draft-ietf-httpbis-resumable-upload-05 (interop version 6).

POST begins an upload, HEAD returns how much of it has arrived, PATCH continues from there, and DELETE ends it. Files
are stored piece by piece: certified pieces are never sent again, and at most a few are on the gateway's disk."""
import asyncio
import contextlib
import functools
import re
from typing import AsyncIterator, Optional

import aiohttp
from aiohttp import web

from walrus import client
from walrus.network.files.file_list import LONGEST, MARK, File
from walrus.network.files.sealed import front_of
from walrus.network.gateway.auth.guard import PASSED_ON
from walrus.network.gateway.auth.shares import Charge
from walrus.network.gateway.http import digests
from walrus.network.gateway.http.errors import Problem, as_json
from walrus.network.gateway.resources.turns import WAITING, Turns, owner_of
from walrus.network.ledger.entries import LAST_UNTIL

from .publisher import LISTED, Publisher, as_known, failed_with, must_be_plain
from .unfinished import IDLE, Unfinished, Upload, is_of
from .writer import Told


VERSION, KIND = "6", "application/partial-upload"
AHEAD = 2  # pieces of an upload that are stored while the next one arrives
OWN = "Upload-Offset", "Upload-Complete", "Upload-Length"
FAULTS = Problem, client.Failed, client.Refused, OSError


class Uploads:
    """Answers requests for resumable uploads. Their state is in files (`unfinished`)."""

    def __init__(self, publisher: Publisher):
        self.publisher, self.active = publisher, dict[str, web.Request]()
        self.turns = Turns(publisher.options.connections, 1)  # one request at a time may work on an upload

    @functools.cached_property
    def kept(self) -> Unfinished:
        return Unfinished(self.publisher.used.with_suffix(".uploads"), self.publisher.options.reserve)

    @property
    def most(self) -> int:
        return min(self.publisher.options.most, LONGEST)

    async def create(self, request: web.Request) -> web.Response:
        """Begins an upload, and stores the data that the request brings."""
        publisher, ledger = self.publisher, self.publisher.network.ledger
        epochs, is_last, length, size = publisher.epochs(request), whole(request), told_length(request), None
        must_be_plain(request)
        if is_last and (size := request.content_length) is not None and length not in (None, size):
            raise Problem(400, "Upload-Length differs from the length of the file, which this request sends whole")
        length = size if length is None else length
        if max(length or 0, request.content_length or 0) > self.most:
            raise Problem(413, f"an upload has at most {self.most} bytes here", self.limits())
        must_promise_nothing(request)
        if not ledger.now:
            raise client.Failed("the network has no committee yet", {})
        charge = publisher.charge(request)
        charge.announce(length or 0)
        until = min(ledger.writing_epoch + epochs, LAST_UNTIL)
        upload = self.kept.create(owner_of(request), {"until": until, "epoch": ledger.writing_epoch, "length": length})
        try:
            charge.add(0)
        except Problem:
            self.kept.drop(upload)
            raise
        place = {"Location": f"/v1/uploads/{upload.folder.name}"}
        if hears_early(request):
            told = {**place, "Upload-Draft-Interop-Version": VERSION, **self.limits()}
            lines = "".join(f"{name}: {text}\r\n" for name, text in told.items())
            await request.writer.write(f"HTTP/1.1 104 Upload Resumption Supported\r\n{lines}\r\n".encode())
        async with self.hold(request, upload.folder.name) as upload:
            return await self.append(request, upload, is_last, place)

    async def look(self, request: web.Request) -> web.Response:
        """Returns how much of an upload has arrived, its certified pieces, and the stored file if it is finished."""
        must_tell_nothing(request)
        async with self.hold(request) as upload:
            told: Told = {"offset": upload.offset, "length": length_of(upload), "complete": bool(upload.told)}
            told |= {"stored": listed(upload)[:LISTED], "storedPieces": upload.count}
            told |= {"endEpoch": upload.about["until"], "file": upload.told}
            return as_json(told, headers=self.state(upload))

    async def patch(self, request: web.Request) -> web.Response:
        """Continues an upload. Raises `Problem` (409) with the right offset if the request has another one."""
        if request.content_type != KIND:
            raise Problem(415, f"to continue an upload, send Content-Type {KIND}", {"Accept-Patch": KIND})
        must_be_plain(request)
        is_last, told = whole(request), request.headers.get("Upload-Offset", "")
        if not re.fullmatch("[0-9]{1,15}", told):
            raise Problem(400, "send in Upload-Offset how much of the file was sent before, as HEAD reports it")
        must_promise_nothing(request)
        async with self.hold(request) as upload:
            state = self.state(upload)
            if upload.told:
                raise Problem(400, "this upload is finished: GET returns the stored file's description", state)
            if int(told) != upload.offset:
                text = f"{upload.offset} bytes have come, not {told}: continue from there"
                raise Problem(409, text, state, expectedOffset=upload.offset, providedOffset=int(told))
            length, size = length_of(upload), request.content_length
            if is_last and size is not None and length not in (None, upload.offset + size):
                raise Problem(400, f"with this the file would not have the {length} bytes that were announced", state)
            return await self.append(request, upload, is_last, {})

    async def end(self, request: web.Request) -> web.Response:
        """Drops an upload, and gives back what it cost beyond its certified pieces, which stay until their epoch."""
        must_tell_nothing(request)
        async with self.hold(request) as upload:
            self.kept.drop(upload)
            if not upload.told:
                self.charge(request, upload).settle_at(upload.count)
        return web.Response(status=204)

    def charge(self, request: web.Request, upload: Upload) -> Charge:
        """Returns what counts an upload towards the share of its token; what arrived before is counted already."""
        charge = self.publisher.charge(request)
        charge.epoch = upload.about["epoch"]
        charge.go_on(upload.offset)
        return charge

    @contextlib.asynccontextmanager
    async def hold(self, request: web.Request, name: str = "") -> AsyncIterator[Upload]:
        """Locks the upload that a request names while the context runs. An earlier request for it in this gateway is
        disconnected: its client is gone, or would not ask again. Raises `Problem` if there is no such upload."""
        name, owner = name or request.match_info["upload"], owner_of(request)
        if is_of(owner, name) and (earlier := self.active.get(name)) and earlier.transport:
            earlier.transport.abort()
        async with self.turns.take(f"{owner} {name}"):
            async with asyncio.timeout(WAITING):
                while (lock := self.kept.lock(owner, name)) is None:  # another gateway works on it
                    await asyncio.sleep(0.1)
            with lock:
                self.active[name] = request
                try:
                    yield self.kept.find(name)
                finally:
                    if self.active.get(name) is request:
                        del self.active[name]

    async def append(
        self, request: web.Request, upload: Upload, is_last: bool, headers: dict[str, str]
    ) -> web.Response:
        """Stores the data that a request brings, finishes the file if `is_last`, and returns the response."""
        charge, length, told = self.charge(request, upload), length_of(upload), None
        most = min(self.most, self.most if length is None else length) - upload.offset
        if upload.about["until"] <= self.publisher.network.ledger.writing_epoch:
            self.kept.drop(upload)
            raise Problem(410, "the time for which this file was to be kept is over: begin it again, for more epochs")
        try:
            async with self.publisher.uploads.take(owner_of(request)):
                await self.take(upload, self.publisher.body(request, most, charge, None))
                if is_last and length not in (None, upload.offset):
                    raise Problem(400, f"{upload.offset} of {length} bytes have come, but Upload-Complete is ?1")
                told = await self.finish(upload) if is_last else None
        except FAULTS as fault:
            upload.measure()  # less may have arrived than it seemed
            upload.touch()
            raise failed_with(fault, listed(upload), {**headers, **self.state(upload)}) from None
        finally:
            charge.replace(upload.offset)  # what arrived and could not be kept is sent again, and is charged then
        upload.touch()
        if told is None:
            return web.Response(status=201 if headers else 204, headers={**headers, **self.state(upload)})
        charge.settle(True, not told["alreadyCertified"])
        headers = {"Location": f"/v1/blobs/{told['blobId']}", **self.state(upload)}
        return as_json(upload.told, 200 if told["alreadyCertified"] else 201, headers)

    async def take(self, upload: Upload, stream: AsyncIterator[bytes]) -> None:
        """Keeps what arrives, and has each piece stored in the network once it is whole: a piece arrives while up to
        `AHEAD` are stored, side by side, and recorded in their order. Pieces left from earlier requests are stored
        first, so only a few are ever on the disk."""
        tasks = list["asyncio.Task[None]"]()

        def store(number: int) -> None:
            tasks.append(asyncio.create_task(self.store(upload, number, tasks[-1:])))

        for number in upload.whole():
            await self.store(upload, number, [])
        try:
            async for part in stream:
                view = memoryview(part)
                while view:
                    room = upload.room()
                    full, view = await upload.add(view[:room]), view[room:]
                    if full is not None:
                        if len(tasks) >= AHEAD:
                            await tasks[-AHEAD]
                        store(full)
            await asyncio.gather(*tasks)
        finally:
            await asyncio.gather(*tasks, return_exceptions=True)  # whole pieces are stored, whatever follows
            tasks.clear()  # as in `Writer.end`

    async def store(self, upload: Upload, number: int, before: "list[asyncio.Task[None]]") -> None:
        """Stores a piece in the network, and records it after the piece before it, whose task is in `before`. This is
        a list, and is emptied, as an error that led to its task by this frame would be a cycle."""
        name, was_there = await self.publisher.writer.store_blob(upload.piece(number), upload.about["until"])
        while before:
            await before.pop()
        upload.record(name, was_there)

    async def finish(self, upload: Upload) -> Told:
        """Stores the last piece, and the list of pieces if there are several; returns the file's description."""
        store, until, names = self.publisher.writer.store_blob, upload.about["until"], upload.names
        size, marked, was_there = upload.offset, upload.is_marked, upload.was_there
        if any(upload.sizes) or not names:
            last = upload.piece(upload.count)
            marked = marked or not names and front_of(last, len(MARK)) == MARK
            name, before = await store(last, until)
            names, was_there = [*names, name], was_there and before
        identifier = names[0]
        if len(names) > 1 or marked:
            identifier, before = await store(File(size, b"".join(names)).listed(), until)
            was_there = was_there and before
        told = {"blobId": identifier.hex(), "size": size, "pieces": len(names)}
        told |= await self.publisher.writer.kept([*names, identifier])
        told |= {"alreadyCertified": was_there}
        upload.finish(as_known(told))
        self.kept.forget(upload.folder.name)
        return told

    def state(self, upload: Upload) -> dict[str, str]:
        """Returns the headers with the progress and the limits of an upload."""
        length = length_of(upload)
        told = {"Upload-Offset": str(upload.offset), "Upload-Complete": "?1" if upload.told else "?0"}
        told |= {} if length is None else {"Upload-Length": str(length)}
        return {**told, **self.limits(), "Cache-Control": "no-store"}

    def limits(self) -> dict[str, str]:
        return {"Upload-Limit": f"max-size={self.most}, expires={IDLE}"}

    async def share(self, request: web.Request, response: web.StreamResponse) -> None:
        """Adds `Upload-Limit` to the response to OPTIONS, for clients that ask before an upload."""
        if request.method == "OPTIONS" and request.path == "/v1/uploads":
            response.headers.update(self.limits())


def hears_early(request: web.Request) -> bool:
    """Whether the client accepts an interim response (104). A proxy between may not, so none is sent through one."""
    wished = request.headers.get("Upload-Draft-Interop-Version") == VERSION
    passed_on = any(name in request.headers for name in PASSED_ON)
    return wished and request.version == aiohttp.HttpVersion11 and not passed_on


def whole(request: web.Request) -> bool:
    """Whether the file ends with this request, by `Upload-Complete`; raises `Problem` if that is missing."""
    told = request.headers.get("Upload-Complete", "")
    if told not in ("?0", "?1"):
        raise Problem(400, "send Upload-Complete: ?1 if the file ends with this request, ?0 if more follows")
    return told == "?1"


def told_length(request: web.Request) -> Optional[int]:
    """Returns the file's length by `Upload-Length`, or None without it; raises `Problem` if it is no number."""
    told = request.headers.get("Upload-Length")
    if told is not None and not re.fullmatch("[0-9]{1,15}", told):
        raise Problem(400, "Upload-Length is the number of the file's bytes")
    return None if told is None else int(told)


def length_of(upload: Upload) -> Optional[int]:
    """Returns the length of an upload's file, or None if it is not known."""
    length: Optional[int] = upload.told["size"] if upload.told else upload.about["length"]
    return length


def listed(upload: Upload) -> list[str]:
    return [name.hex() for name in upload.names]


def must_tell_nothing(request: web.Request) -> None:
    if any(name in request.headers for name in OWN):
        raise Problem(400, f"this request takes none of {', '.join(OWN)}")


def must_promise_nothing(request: web.Request) -> None:
    if digests.promised(request):
        raise Problem(400, "resumable uploads check no SHA-256: send it with PUT /v1/blobs, or compare the identifier")
