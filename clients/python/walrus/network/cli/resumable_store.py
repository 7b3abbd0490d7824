"""Sends large files to a gateway as resumable uploads, which the next command for the same file continues, too."""
import asyncio
import contextlib
import fcntl
import hashlib
import json
import os
import pathlib
import time
from typing import IO, Any, AsyncIterator, Iterator, Optional

import aiohttp


from walrus.network.files.file_list import LONGEST, PIECE
from walrus.network.files.naming import Naming, written_whole
from walrus.network.gateway.write.unfinished import IDLE
from walrus.network.service.failure import Failure

from .progress_bar import Bar
from .transfers import PART, TRIES, ask, check, json_of, must_name, naming_of, put, reason_of, sending

KIND = "application/partial-upload"
AGAIN = 408, 409, 429, 502, 503, 504  # statuses after which the gateway still has what arrived
BROKEN = aiohttp.ClientConnectionError, aiohttp.ClientPayloadError, TimeoutError


class Broken(Exception):
    """An upload broke off, and can be continued."""


class Known:
    """The file with the URLs of this user's unfinished uploads. Without it each command begins anew."""

    def __init__(self, key: list[Any]):
        try:
            home = os.environ.get("XDG_STATE_HOME") or str(pathlib.Path.home() / ".local" / "state")
        except RuntimeError:
            home = os.devnull  # this user has no home, and below this no file can be made
        self.path, self.key = pathlib.Path(home, "walrus", "uploads.json"), name_of(key)

    def read(self) -> dict[str, Any]:
        """Returns the entries of the last day, or nothing if the file cannot be read."""
        with contextlib.suppress(OSError, ValueError, TypeError, KeyError, AttributeError):
            told = json.loads(self.path.read_text())
            return {name: it for name, it in told.items() if it["time"] > time.time() - IDLE}
        return {}

    def find(self) -> str:
        place = self.read().get(self.key, {}).get("place", "")
        return place if isinstance(place, str) and place.startswith("/v1/uploads/") else ""

    def keep(self, place: str) -> None:
        """Notes the URL at which this upload continues, or forgets the upload if `place` is empty."""
        with contextlib.suppress(OSError):
            self.path.parent.mkdir(parents=True, exist_ok=True, mode=0o700)
            with self.locked(), written_whole(str(self.path)) as out:
                known = {name: it for name, it in self.read().items() if name != self.key}
                told = {self.key: {"place": place, "time": time.time()}} if place else {}
                out.write(json.dumps({**known, **told}).encode())

    @contextlib.contextmanager
    def locked(self) -> Iterator[None]:
        """Has other commands of this user wait while the file is read and written anew: else entries are lost. The lock
        is a file of its own, as this one is replaced."""
        with open(self.path.with_suffix(".lock"), "ab", opener=made) as lock:
            fcntl.flock(lock, fcntl.LOCK_EX)  # ends with the file; others hold it for milliseconds
            yield


def made(path: str, flags: int) -> int:
    return os.open(path, flags, 0o600)


def name_of(key: list[Any]) -> str:
    return hashlib.sha256(json.dumps(key).encode()).hexdigest()


async def store(session: aiohttp.ClientSession, path: str, epochs: int) -> Any:
    """Stores a file; one of several pieces as a resumable upload. Returns the gateway's answer, and raises `Failure` if
    it names another identifier than the one computed here."""
    naming, told = await naming_of(session), None
    with open(path, "rb") as file, Bar(os.path.basename(path), os.fstat(file.fileno()).st_size) as bar:
        sending, found = Sending(session, file, naming, bar), os.fstat(file.fileno())
        if found.st_size > PIECE:
            async with session.get("/livez") as said:
                origin = str(said.url.origin())
            known = Known([origin, os.path.realpath(path), found.st_size, found.st_mtime_ns, epochs])
            if told := await sending.send(known, epochs):
                await sending.name(found.st_size)
        if not told:  # it is one piece, or the gateway is older and has no resumable uploads
            sending.end = LONGEST  # up to the end of the file, whatever its length is said to be, as in /proc
            told = await put(session, sending.parts(0), epochs)
    must_name(told, await naming.identifiers(), "the file")
    return told


class Sending:
    """A file that is being sent. `start` and `end` are the span of it that is in `file`: all of it."""

    advice = "the same command goes on from there"  # what to do once all tries have failed

    def __init__(self, session: aiohttp.ClientSession, file: IO[bytes], naming: Naming, bar: Bar):
        self.session, self.file, self.naming, self.bar = session, file, naming, bar
        self.start, self.end, self.place = 0, bar.size, ""
        self.named = 0  # bytes that went into the identifier so far
        self.adding: Optional[asyncio.Task[None]] = None  # the last of them, which may still be on their way there

    async def send(self, known: Optional[Known], epochs: int) -> Any:
        """Sends what the gateway lacks of the file, with retries, until it is stored; returns the answer. None if the
        gateway has no resumable uploads. Raises `Failure` after `TRIES` breaks without progress: an offset counts as
        progress only if it is beyond all earlier ones, as a gateway that lies may go back and forth."""
        tries, last, furthest = 0, -1, -1
        while True:
            try:
                self.place = self.place or await self.place_of(known, epochs)
                if not self.place:
                    return None
                state = await self.look(self.place)
                if state is None:
                    if known:
                        known.keep("")
                    raise Failure("the gateway has dropped the upload: store the file again", 4)
                last = state["offset"]
                tries, furthest = (0, last) if last > furthest else (tries, furthest)
                told = state["file"] if state["complete"] else await self.go_on(last)
                if known:
                    known.keep("")
                return told
            except (Broken, *BROKEN) as fault:
                tries += 1
                if tries == TRIES:
                    said, where = str(fault) or type(fault).__name__, f" at byte {last}" if last >= 0 else ""
                    text = f"{said}: it broke off {TRIES} times{where}; {self.advice}"
                    raise Failure(text, 4) from fault
                await asyncio.sleep(2**tries / 2)

    async def place_of(self, known: Optional[Known], epochs: int) -> str:
        """Returns the URL of an earlier upload of this file that is kept for long enough, or else of a new one. It is
        empty if the gateway has no resumable uploads, or no place for that of a pipe: PUT has more of them."""
        if known and (place := known.find()):
            state, status = await self.look(place), await ask(self.session, "GET", "/v1/status")
            if state and state["endEpoch"] >= status["epoch"] + bool(status["moving"]) + epochs:
                return place
        headers = {"Upload-Complete": "?0"} | ({"Upload-Length": str(self.end)} if known else {})
        words: dict[str, Any] = {"params": {"epochs": epochs}, "headers": headers}
        async with self.session.post("/v1/uploads", **words) as said:
            if said.status in (404, 405) or not known and said.status in (429, 503):
                return ""
            await check(said)
            place = said.headers.get("Location", "")
        if not place.startswith("/v1/uploads/"):
            raise Failure("the gateway does not say where the upload continues: is this a gateway?", 1)
        if known:
            known.keep(place)
        return place

    async def look(self, place: str) -> Optional[dict[str, Any]]:
        """Returns the state of an upload, or None if the gateway has none there."""
        async with self.session.get(place) as said:
            if said.status == 404:
                return None
            if said.status in AGAIN:
                raise Broken(await reason_of(said))
            await check(said)
            told = await json_of(said)
        if not isinstance(told, dict) or not isinstance(told.get("offset"), int) or "complete" not in told:
            raise Failure("the gateway does not say how much it has received: is this a gateway?", 1)
        if not 0 <= told["offset"] <= self.end:
            raise Failure("the gateway says that it received more than the file has: this gateway lies", 1)
        return told

    async def go_on(self, offset: int) -> Any:
        """Sends the file from `offset` on, and returns the gateway's answer."""
        await self.name(offset)
        headers = {"Upload-Complete": "?1", "Content-Length": str(self.end - offset)}
        async with self.patch(offset, headers) as said:
            return await json_of(said)

    @contextlib.asynccontextmanager
    async def patch(self, offset: int, headers: dict[str, str]) -> AsyncIterator[aiohttp.ClientResponse]:
        """Yields the response to a request that continues the upload; raises `Broken` if another one may succeed."""
        self.bar.done = offset
        headers = {"Content-Type": KIND, "Upload-Offset": str(offset), **headers}
        async with sending(self.session, "PATCH", self.place, self.parts(offset), headers=headers) as said:
            if said.status in AGAIN:
                raise Broken(await reason_of(said))
            if said.status != 204:
                await check(said)
            yield said

    async def name(self, end: int, last: bytes = b"") -> None:
        """Continues the computation of the identifier up to byte `end` of the file; `last` are the bytes before it, if
        they are at hand: what is sent is named, even if somebody writes to the file. A part on its way there is not
        lost if the caller is cancelled, as it is when a request breaks off."""
        while self.adding or self.named < end:
            if not self.adding:
                size, place = min(PART, end - self.named), self.named - self.start
                part = last if len(last) == end - self.named else os.pread(self.file.fileno(), size, place)
                if not part:
                    raise Failure("the file has become shorter since the command began: store it again", 1)
                self.named += len(part)
                self.adding = asyncio.create_task(self.naming.add(part))
            await asyncio.shield(self.adding)
            self.adding = None

    async def parts(self, place: int) -> AsyncIterator[bytes]:
        while part := os.pread(self.file.fileno(), min(PART, self.end - place), place - self.start):
            place += len(part)
            await self.name(place, part)
            yield part
            self.bar.add(len(part))
