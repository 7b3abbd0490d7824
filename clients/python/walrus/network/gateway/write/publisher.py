"""The publisher: stores files that are sent over HTTP, and counts them towards the share of the client's token."""
import base64
import hashlib
import pathlib
import re
from typing import Any, AsyncIterator, Awaitable, Callable, Optional

import aiohttp
from aiohttp import web

from walrus import client
from walrus.network.files.file_list import LONGEST
from walrus.network.gateway.auth.shares import Charge, Shares
from walrus.network.gateway.bodies.source import HEAD
from walrus.network.gateway.http import digests
from walrus.network.gateway.http.errors import Problem, as_json, problem_of
from walrus.network.gateway.read.listing import Lister
from walrus.network.gateway.read.reader import LEAST, Pace, Reader
from walrus.network.gateway.resources.turns import Turns, owner_of
from walrus.network.ledger.calendar import calendar_of, epochs_for
from walrus.network.ledger.entries import LAST_EPOCH, LAST_UNTIL
from walrus.network.peers.network import Network
from walrus.network.settings.gateway_options import Options

from .writer import Told, Writer


Store = Callable[[AsyncIterator[bytes], int, list[bytes]], Awaitable[Told]]
LISTED = 1_000  # the most certified pieces that the error for an unfinished file names
LONGEST_FORM = client.LARGEST_BLOB + (1 + 2 * client.MOST_FAULTS) * HEAD


def named(request: web.Request) -> bytes:
    """Returns the identifier in a request's path, followed by the number of a bundle's member (two bytes) if there is
    one. Raises `Problem` if either is malformed."""
    name, number = request.match_info["name"], request.match_info.get("number", "")
    if re.fullmatch("[A-Za-z0-9_-]{43}=?", name):
        name = base64.urlsafe_b64decode(name[:43] + "=").hex()
    if not re.fullmatch("[0-9a-fA-F]{64}", name):
        raise Problem(400, "a blob's identifier is 64 hexadecimal digits, or 43 of base64url")
    if not re.fullmatch("|0|[1-9][0-9]{0,3}", number):
        raise Problem(400, "a member of a bundle has a number, beginning with 0")
    return bytes.fromhex(name) + (int(number).to_bytes(2, "big") if number else b"")


async def expected(request: web.Request) -> None:
    """Accepts `Expect: 100-continue`: `Publisher.body` sends the 100 once it is known that the file may be stored."""
    if request.headers["Expect"].lower() != "100-continue":
        raise web.HTTPExpectationFailed()


def must_be_plain(request: web.Request) -> None:
    """Raises `Problem` if a request's body is not the plain bytes of a file from its beginning on."""
    if request.headers.get("Content-Encoding", "identity").lower() != "identity":
        raise Problem(415, "a file is stored as it is sent: send it without Content-Encoding")
    if "Content-Range" in request.headers:
        raise Problem(400, "a file is stored from its first byte on: send it without Content-Range")


class Publisher:
    """Stores files. `used` is the path of the database of what tokens have used."""

    def __init__(self, network: Network, reader: Reader, lister: Lister, options: Options, used: pathlib.Path):
        self.network, self.reader, self.lister, self.options = network, reader, lister, options
        self.writer = Writer(network, reader.memory, options.turns, options.reserve)
        self.uploads = Turns(options.uploads)
        self.used, self.shares = used, None  # type: pathlib.Path, Optional[Shares]

    def close(self) -> None:
        if self.shares:
            self.shares.close()

    async def body(self, request: web.Request, most: int, charge: Charge, sum: Optional[Any]) -> AsyncIterator[bytes]:
        """Yields the parts of an upload as they arrive, charged to `charge` and hashed into `sum`. Raises `Problem` for
        more than `most` bytes, a slow or broken transfer, or another SHA-256 than promised."""
        size, pace, promised = 0, Pace(), digests.promised(request)
        if "Expect" in request.headers and request.version == aiohttp.HttpVersion11:
            await request.writer.write(b"HTTP/1.1 100 Continue\r\n\r\n")
        while True:
            try:
                async with pace.next():
                    part = await request.content.readany()
            except TimeoutError:
                raise Problem(408, f"the upload was too slow, and ended after {size} bytes: send it again") from None
            except (OSError, web.PayloadAccessError) as fault:
                raise Problem(400, f"the upload broke off after {size} bytes: {fault}") from None
            if not part:
                break
            size, pace.allowed = size + len(part), pace.allowed + len(part) / LEAST
            if size > most:
                raise Problem(413, f"an upload has at most {most} bytes here")
            self.reader.bytes['way="in"'] += len(part)
            charge.add(len(part))
            if sum:
                sum.update(part)
            await request["flow"].spend(len(part))
            yield part
        if request.content_length not in (None, size):
            raise Problem(400, f"the upload broke off after {size} bytes: send the file again")
        if sum and promised not in (None, sum.digest()):
            raise Problem(400, "the bytes that came have another SHA-256 than the request says: send the file again")

    async def put_blob(self, request: web.Request) -> web.Response:
        most = min(self.options.most, LONGEST)
        return await self.upload(request, most, self.charge(request), self.writer.store, True)

    async def post_bundle(self, request: web.Request) -> web.Response:
        kind, charge = request.headers.get("Content-Type", ""), self.charge(request)

        async def store(stream: AsyncIterator[bytes], epochs: int, stored: list[bytes]) -> Told:
            try:
                return await self.writer.store_bundle(kind, charge.replace, stream, epochs, stored)
            except BaseException:
                charge.replace(0)  # nothing of it was stored, however long the form was
                raise

        return await self.upload(request, LONGEST_FORM, charge, store)

    def rights(self, request: web.Request, refusal: str) -> dict[str, Any]:
        """Returns what the client may store: for how long, how large a file, and how much of its share is used.
        `refusal` is why it may store nothing, or empty."""
        token, epoch = request["token"], self.network.ledger.writing_epoch
        told = {"name": token.name if token else None, "store": not refusal, "why": refusal}
        told |= {"epochs": self.longest(request), "most": min(self.options.most, LONGEST), "share": {}}
        if token and not refusal:
            self.charge(request)
            used = self.shares.used(token.name, epoch) if self.shares else (0, 0)
            bounds = {it: token.bounds[it] for it in ("bytes", "blobs")}
            told["share"] = {it: {"used": count, "of": bounds[it]} for it, count in zip(bounds, used)}
        return told

    def longest(self, request: web.Request) -> int:
        """Returns the most epochs for which the client may have a file kept."""
        token = request["token"]
        bound: Optional[int] = token.bounds["epochs"] if token else None
        return self.options.epochs if bound is None else min(bound, self.options.epochs)

    def epochs(self, request: web.Request) -> int:
        """Returns for how many epochs a file is to be kept: the number in `epochs`, or by the calendar those that the
        time in `for` takes. Raises `Problem` if neither or both are given, or if it is too long."""
        told, length, longest = request.query.get("epochs"), request.query.get("for"), self.longest(request)
        if told is not None and length is not None:
            raise Problem(400, "send either epochs or for, not both")
        epochs = int(told) if told and re.fullmatch("[1-9][0-9]{0,4}", told) else 0
        if length is not None:
            epochs = self.epochs_in(length)
        if not 1 <= epochs <= longest:
            said = "" if length is None else f"; {length} are {epochs} epochs"
            asked = f"as ?epochs=N, 1 to {longest}, or for how long, as ?for=90d"
            raise Problem(400, f"say for how many epochs the file is kept, {asked}{said}")
        if self.network.ledger.writing_epoch + epochs > LAST_UNTIL:
            raise Problem(400, f"the last epoch is {LAST_EPOCH}: say fewer epochs")
        return epochs

    def epochs_in(self, length: str) -> int:
        """Returns how many epochs last at least that long by the operator's calendar. Raises `Problem` if there is no
        calendar, or `length` is malformed."""
        ledger = self.network.ledger
        told = {"calendar": calendar_of(ledger), "epoch": ledger.epoch, "moving": ledger.moving}
        try:
            return epochs_for(told, length)
        except ValueError as fault:
            raise Problem(400, str(fault)) from None

    async def extend(self, request: web.Request) -> web.Response:
        epochs, charge, name = self.epochs(request), self.charge(request), named(request)
        async with self.uploads.take(owner_of(request)):  # a folder may have many blobs, for which nodes are asked
            return as_json(await self.lister.extend(name, epochs, charge))

    def charge(self, request: web.Request) -> Charge:
        """Returns what counts the bytes and blobs of a request towards the share of its token, if it has one."""
        token = request["token"]
        if token and self.shares is None:
            self.shares = Shares(self.used)
        return Charge(self.shares, token, self.network.ledger.writing_epoch)

    async def upload(
        self,
        request: web.Request,
        most: int,
        charge: Charge,
        store: Store,
        is_file: bool = False,
    ) -> web.Response:
        """Waits for a turn, stores an upload of at most `most` bytes, and returns the response. Raises `Problem`."""
        epochs = self.epochs(request)
        must_be_plain(request)
        if (request.content_length or 0) > most:
            raise Problem(413, f"an upload has at most {most} bytes here")
        if not self.network.ledger.now:
            raise client.Failed("the network has no committee yet", {})
        told, stored = dict[str, Any](), list[bytes]()
        sum = hashlib.sha256() if digests.is_asked(request) else None
        charge.announce(request.content_length or 0)
        try:
            charge.add(0)
            async with self.uploads.take(owner_of(request)):
                told = await store(self.body(request, most, charge, sum), epochs, stored)
        except (Problem, client.Failed, client.Refused, OSError) as fault:
            raise failed_with(fault, [name.hex() for name in stored]) from None
        finally:
            charge.settle(bool(told), not told.get("alreadyCertified"))
        headers = {"Location": f"/v1/blobs/{told['blobId']}"}
        headers |= digests.fields(sum.digest()) if sum and is_file else {}
        is_new = not told["alreadyCertified"]
        return as_json(as_known(told), 201 if is_new else 200, headers)


def failed_with(fault: Exception, stored: list[str], headers: Optional[dict[str, str]] = None) -> Problem:
    """Returns the error for a file that was not stored. It lists certified pieces, which a retry skips."""
    problem = problem_of(fault)
    problem.headers = {**problem.headers, **(headers or {})}
    if stored:
        problem.more |= {"stored": stored[:LISTED], "storedPieces": len(stored)}
    return problem


def as_known(told: Told) -> Told:
    """Returns what is reported of a stored file in the form of Walrus' gateways: with `newlyCreated` if it is new, or
    else `alreadyCertified`."""
    name = base64.urlsafe_b64encode(bytes.fromhex(told["blobId"])).decode().rstrip("=")
    rest = {it: value for it, value in told.items() if it != "alreadyCertified"}
    if told["alreadyCertified"]:
        return rest | {"alreadyCertified": {"blobId": name, "endEpoch": told["endEpoch"]}}
    kept = {"size": told["size"], "certifiedEpoch": told["certificate"]["epoch"], "deletable": False}
    return rest | {"newlyCreated": {"blobObject": {"blobId": name, **kept, "storage": {"endEpoch": told["endEpoch"]}}}}
