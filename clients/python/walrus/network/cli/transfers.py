"""Sends files to a gateway, and fetches them. The gateway is not trusted: identifiers are computed here, by the program
walrus or its library."""
import asyncio
import contextlib
import functools
import json
import os
import re
from typing import IO, Any, AsyncIterator, Awaitable, Callable, Optional

import aiohttp

from walrus import bundles, client
from walrus.client import in_process
from walrus.network.files.file_list import LONGEST, PIECE, File
from walrus.network.files.manifest import clean
from walrus.network.files.naming import Naming, is_named
from walrus.network.peers.engine import find_program
from walrus.network.service.failure import Failure

from .progress_bar import Bar

PART, TRIES = 1_048_576, 5
PATIENCE = 180  # seconds for a gateway to read a part of what is sent, or to answer
MOST_JSON = 8_388_608  # most bytes of a gateway's JSON: a page of a list has 170 KB, the largest status 4.4 MB
BY_STATUS, AWAY = {404: 4, 410: 3, 503: 4}, (429, 502, 503, 504)  # exit statuses; what to ask again after


class TooLong(Failure):
    """A gateway sends more than a file has."""


class Busy(Failure):
    """The gateway refuses a request as it has too many of this client (429)."""


async def json_of(response: aiohttp.ClientResponse) -> Any:
    """Returns the JSON of a gateway's answer; raises `Failure` if it is none, or too long: a gateway may lie."""
    text = bytearray()
    async for part in response.content.iter_any():
        text += part
        if len(text) > MOST_JSON:
            raise Failure(f"an answer from {response.url} has more than {MOST_JSON} bytes: is this a gateway?", 1)
    try:
        return json.loads(text)
    except (ValueError, RecursionError):
        raise Failure(f"an answer from {response.url} is no JSON: is this a gateway?", 1) from None


async def reason_of(response: aiohttp.ClientResponse) -> str:
    """Returns in words why a gateway refuses."""
    try:
        return clean(str((await json_of(response))["error"]["text"]))
    except (Failure, KeyError, TypeError):
        return f"status {response.status} comes from {response.url}: is this a gateway?"


async def check(response: aiohttp.ClientResponse) -> None:
    """Raises `Failure` with what a gateway says if it refuses."""
    if response.status not in (200, 201, 206):
        kind = Busy if response.status == 429 else Failure
        raise kind(await reason_of(response), BY_STATUS.get(response.status, 1))


async def listed(session: aiohttp.ClientSession, within: int) -> AsyncIterator[dict[str, Any]]:
    """Yields a gateway's JSON of each blob that ends within some epochs, in the order of their identifiers. Raises
    `Failure` if a page of the list leads to none that is further on, as the list would then never end."""
    after: Optional[str] = ""
    while after is not None:
        told = await ask(session, "GET", "/v1/blobs", params={"within": within, "after": after})
        for blob in told["blobs"]:
            yield blob
        following = told["next"] if told["next"] is None else str(told["next"])
        if following is not None and not (re.fullmatch("[0-9a-f]{64}", following) and following > after):
            place = f"after {after}" if after else "at its beginning"
            raise Failure(f"the list does not go forward {place}, and would never end: this gateway lies", 1)
        after = following


@contextlib.asynccontextmanager
async def sending(
    session: aiohttp.ClientSession, method: str, path: str, parts: AsyncIterator[bytes], **words: Any
) -> AsyncIterator[aiohttp.ClientResponse]:
    """Yields the response to a request whose body is sent in parts. Each part has a deadline of its own: aiohttp may
    begin the timeout for a response before the body is sent, which would limit all of it."""

    async def timed() -> AsyncIterator[bytes]:
        async for part in parts:
            limit.reschedule(asyncio.get_running_loop().time() + PATIENCE)
            yield part
        limit.reschedule(asyncio.get_running_loop().time() + PATIENCE)

    words["timeout"] = aiohttp.ClientTimeout(total=None, sock_connect=10)
    try:
        async with asyncio.timeout(PATIENCE) as limit, session.request(method, path, data=timed(), **words) as response:
            yield response
    except TimeoutError as fault:
        raise TimeoutError(str(fault) or f"the gateway took nothing, and did not answer, for {PATIENCE} s") from fault


async def patiently(call: Callable[[], Awaitable[Any]]) -> Any:
    """Returns what a call returns, which is made again, later, if the gateway has too many requests of this client."""
    for tries in range(1, TRIES):
        with contextlib.suppress(Busy):
            return await call()
        await asyncio.sleep(2**tries / 2)
    return await call()


async def put(session: aiohttp.ClientSession, parts: AsyncIterator[bytes], epochs: int) -> Any:
    """Stores a file that is sent in parts, and returns the gateway's answer."""
    words: dict[str, Any] = {"params": {"epochs": epochs}, "headers": {"Connection": "close"}}  # it may end half sent
    async with sending(session, "PUT", "/v1/blobs", parts, **words) as response:
        await check(response)
        return await json_of(response)


async def ask(session: aiohttp.ClientSession, method: str, path: str, **words: Any) -> Any:
    """Returns the JSON of a gateway's answer; raises `Failure` if it refuses."""
    async with session.request(method, path, **words) as response:
        await check(response)
        return await json_of(response)


def find_walrus() -> client.Walrus:
    """Returns what computes identifiers: the program, or else the library. Raises `Failure` if neither is here."""
    program = find_program()
    if not in_process.is_library(program) and os.access(program, os.X_OK):
        return client.Walrus(program)
    try:
        return in_process.find()
    except (ValueError, OSError) as fault:
        said = f"neither the program walrus nor its library is here, which compute identifiers ({fault})"
        raise Failure(f"{said}: build one with ./walrus, or name it in WALRUS", 1) from None


async def naming_of(session: aiohttp.ClientSession) -> Naming:
    """Returns what computes identifiers for a gateway's network. If it gives a false f, identifiers differ."""
    walrus = find_walrus()
    faults = (await ask(session, "GET", "/v1/status"))["faults"]
    if not isinstance(faults, int) or not 1 <= faults <= client.MOST_FAULTS:
        raise Failure("the network has no committee yet", 1)
    return Naming(walrus, faults)


def must_name(told: Any, names: list[bytes], what: str) -> None:
    """Raises `Failure` if a gateway's identifier for what was stored is none of those computed here."""
    if told["blobId"] not in [it.hex() for it in names]:
        raise Failure(f"the gateway names it {told['blobId']}, but {what} is {names[0].hex()}: this gateway lies", 1)


async def store_bundle(session: aiohttp.ClientSession, paths: list[str], epochs: int) -> Any:
    """Stores small files as one bundle."""
    naming, form = await naming_of(session), aiohttp.FormData(quote_fields=False)
    files, room = list[bytes](), client.LARGEST_BLOB
    for path in paths:
        with open(path, "rb") as file:
            files.append(file.read(room + 1))
        if (room := room - len(files[-1])) < 0:
            text = f"a bundle has at most {client.LARGEST_BLOB} bytes, and with {path} it has more"
            raise Failure(f"{text}: store large files by themselves", 1)
    for path, data in zip(paths, files):
        form.add_field("file", data, filename=os.path.basename(path))
    told = await ask(session, "POST", "/v1/bundles", params={"epochs": epochs}, data=form)
    await naming.add(await bundles.join(files, naming.faults, naming.walrus))
    must_name(told, await naming.identifiers(), "the bundle of these files")
    if [it["id"] for it in told["members"]] != [f"{told['blobId']}/{number}" for number, _ in enumerate(files)]:
        raise Failure("the gateway names the files of the bundle falsely: this gateway lies", 1)
    return told


def parts_of(name: str) -> tuple[str, str]:
    """Splits a name into its identifier and the number of a bundle's member, which is empty if it has none."""
    if not re.fullmatch("[0-9a-fA-F]{64}(/(0|[1-9][0-9]{0,3}))?", name):
        raise Failure("a name is 64 hexadecimal digits, in a bundle with / and a number behind them", 2)
    blob, _, number = name.partition("/")
    return blob, number


async def fetch(session: aiohttp.ClientSession, name: str, out: IO[bytes]) -> int:
    """Writes the file of a name, or a member of a bundle, to `out`, checks its identifier, and returns its length. What
    `out` has from before counts as its beginning; if the identifier then differs, all of it is fetched once more."""
    (blob, number), naming, size = parts_of(name), await naming_of(session), 0
    while True:
        while part := out.read(PART):
            await naming.add(part)
        before = naming.size
        longer = functools.partial(length_of, session, blob, naming)
        try:
            size = await receive(session, blob, out, naming, done=before, most=PIECE, longer=longer)
        except TooLong:
            out.truncate(0)
            raise
        if await is_named(out, bytes.fromhex(blob), naming):
            break
        out.seek(0)
        out.truncate()
        if not before:
            raise Failure("what the gateway gives is not the file of this name, and is dropped: this gateway lies", 1)
        naming = Naming(naming.walrus, naming.faults)
    if not number:
        return size
    out.seek(0)
    try:
        members = bundles.split(out.read(), naming.faults) if size <= client.LARGEST_BLOB else []
    except ValueError:
        members = []
    if not members:
        raise Failure("the blob is no bundle: leave out the number", 4)
    if int(number) >= len(members):
        raise Failure(f"the bundle has {len(members)} members, whose numbers begin with 0", 4)
    out.seek(0)
    out.truncate()
    return out.write(members[int(number)])


async def length_of(session: aiohttp.ClientSession, name: str, naming: Naming) -> int:
    """Returns the length of a file of several pieces: an identifier commits to it by the list of the pieces, which the
    gateway gives. Raises `Failure` if that has another identifier."""
    listed, lies = (
        bytearray(),
        "the gateway gives more than 16 MiB for an identifier of a shorter file: this gateway lies",
    )
    async with session.get(f"/v1/lists/{name}") as response:
        if response.status == 404:
            raise TooLong(lies, 1)
        await check(response)
        async for part in response.content.iter_any():
            listed += part
            if len(listed) > PIECE:
                raise TooLong(lies, 1)
    identifier, data = bytes.fromhex(name), bytes(listed)
    names = [await Naming(naming.walrus, naming.faults, form).name(data) for form in (1, 2)]
    file = File.of(identifier, data)
    if identifier not in names or file.names == identifier:
        raise TooLong(lies, 1)
    return file.length


async def receive(
    session: aiohttp.ClientSession,
    name: str,
    out: IO[bytes],
    naming: Naming,
    shared: Optional[Bar] = None,
    done: int = 0,
    most: int = LONGEST,
    longer: Optional[Callable[[], Awaitable[int]]] = None,
) -> int:
    """Writes what a gateway gives for a name from byte `done` on, and goes on after a broken connection. Returns the
    length of the whole file. Raises `Failure` after `TRIES` breaks without progress, and if it has more than `most`
    bytes, or those that `longer` then returns: a gateway may send without end, and would fill the disk."""
    tries, start, furthest = 0, done, done

    async def keep(part: bytes) -> None:
        out.write(part)
        await naming.add(part)
        bar.add(len(part))

    with contextlib.nullcontext(shared) if shared else Bar(name[:16]) as bar:
        bar.add(done)
        while True:
            try:
                async with session.get(f"/v1/blobs/{name}", headers={"Range": f"bytes={done}-"} if done else {}) as it:
                    if it.status == 416 and done:  # nothing follows; the identifier shows whether this is all of it
                        return done
                    if it.status in AWAY and (shared or done > start):  # it gave a part, and may give the rest soon
                        raise aiohttp.ClientConnectionError(await reason_of(it))
                    await check(it)
                    again = done if it.status == 200 else 0  # bytes that come once more if the range is ignored
                    bar.size = bar.size if shared else done - again + (it.content_length or 0)
                    async for part in it.content.iter_any():
                        part, again = part[again:], max(0, again - len(part))
                        if done + len(part) > most and longer:
                            room = max(0, most - done)  # the gateway may go meanwhile: what has come stays
                            await keep(part[:room])
                            part, done = part[room:], done + room
                            most, longer = await longer(), None
                        if done + len(part) > most:
                            raise TooLong(f"the gateway gives more than the {most} bytes that the file may have", 3)
                        await keep(part)
                        done += len(part)
                    return done
            except (aiohttp.ClientConnectionError, aiohttp.ClientPayloadError) as fault:
                tries, furthest = (1 if done > furthest else tries + 1), max(furthest, done)
                if isinstance(fault, TimeoutError):
                    raise  # the gateway hangs
                if tries == TRIES and isinstance(fault, aiohttp.ClientConnectorError):
                    raise  # it is gone
                if tries == TRIES:
                    text = f"{fault}: {TRIES} attempts in a row came no further than byte {done}: try later"
                    raise Failure(text, 4) from fault
                await asyncio.sleep(2**tries / 2)
