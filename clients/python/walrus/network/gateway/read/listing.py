"""Lists blobs, and keeps files and folders for longer."""
import asyncio
import re
from typing import Mapping, Sequence

from aiohttp import web


from walrus.network.gateway.auth.shares import Charge
from walrus.network.gateway.http.errors import FRESH, JSON, Problem, as_line
from walrus.network.gateway.resources.turns import ASKING, Turns, owner_of
from walrus.network.ledger.blobs import ending_of
from walrus.network.ledger.calendar import date_of
from walrus.network.ledger.entries import LAST_UNTIL
from walrus.network.ledger.follower import Refused
from walrus.network.peers.network import Network
from walrus.network.service.task_groups import all_of

from .manifests import LISTS, MOST_BLOBS, TOGETHER, Many, Shelf
from .reader import Reader, send_text

PAGE, AT_ONCE = 1_000, 2  # blobs on a page of a list; lists that are made at once
FEW = 50  # blobs that are put on a page before other tasks run
SHORT, LONG = 1_024, 2  # most blobs of a file or folder that is extended without a turn; turns for larger ones


class Lister:
    """Answers requests that list blobs, or keep files for longer."""

    def __init__(self, network: Network, reader: Reader, shelf: Shelf):
        self.network, self.reader, self.shelf = network, reader, shelf
        self.turns, self.long = Turns(AT_ONCE), Turns(LONG)

    async def list(self, request: web.Request) -> web.StreamResponse:
        """Lists blobs that end within some epochs, in the order of their identifiers, from after one that is given."""
        ledger, after, within = (
            self.network.ledger,
            request.query.get("after", ""),
            request.query.get("within", "65536"),
        )
        if not re.fullmatch("[1-9][0-9]{0,4}", within):
            raise Problem(400, "within is a number of epochs, from 1 on")
        if not re.fullmatch("|[0-9a-f]{64}", after):
            raise Problem(400, "after is the identifier of a blob, or nothing")
        last, start = ledger.epoch + int(within), bytes.fromhex(after)
        owner = owner_of(request)
        async with self.reader.sendings.take(owner):  # a client that does not read its lists has few of them here
            async with self.turns.take(owner):
                text = await self.page(start, last)
            return await send_text(request, text, FRESH | JSON)

    async def page(self, after: bytes, last: int) -> bytes:
        """Returns the JSON of one page of a list."""
        ledger, found = self.network.ledger, list[dict[str, object]]()
        names = await ending(self.network, after, last)
        for number, name in enumerate(names[:PAGE]):
            found += [self.tell(name, blob.until)] if (blob := ledger.blobs.get(name)) else []
            if number % FEW == 0:
                await asyncio.sleep(0)
        more = names[PAGE - 1].hex() if len(names) > PAGE else None
        return as_line({"epoch": ledger.epoch, "blobs": found, "next": more})

    def tell(self, name: bytes, until: int) -> dict[str, object]:
        found = self.network.ledger.certificate(name)
        certificate = {"epoch": found[0], "count": found[1]} if found else None
        told = {"blobId": name.hex(), "endEpoch": until, "ends": date_of(self.network.ledger, until)}
        return {**told, "certificate": certificate, "invalid": self.network.ledger.invalid(name)}

    async def extend(self, name: bytes, epochs: int, charge: Charge) -> dict[str, object]:
        """Keeps a file or all of a folder, with all its blobs, for `epochs` epochs from the writing one on, or longer
        if it already is. Returns the JSON of the answer."""
        self.reader.must_stand(name)
        try:
            return await self.keep(name, epochs, charge, SHORT)
        except Many:
            async with self.long.take(ASKING.get()):  # the names of all its blobs are in memory
                return await self.keep(name, epochs, charge, MOST_BLOBS)

    async def keep(self, name: bytes, epochs: int, charge: Charge, most: int) -> dict[str, object]:
        """Does the work of `extend` for what has at most `most` blobs; raises `Many` if it has more."""
        network, until = self.network, self.network.ledger.writing_epoch + epochs
        blobs = await self.shelf.consists(name, most)
        short, end = list[bytes](), LAST_UNTIL
        for number, piece in enumerate(blobs):  # anybody may list half a million
            self.reader.must_stand(piece)
            short += [piece] if (kept := network.ledger.blobs[piece].until) < until else []
            end = min(end, max(kept, until))
            if number % TOGETHER == 0:
                await asyncio.sleep(0)
        if short:
            charge.set_to(sum(blobs[piece] for piece in short), len(short))
            await self.register(short, until, blobs, charge)
        return self.tell(name, end)

    async def register(self, short: Sequence[bytes], until: int, sizes: Mapping[bytes, int], charge: Charge) -> None:
        """Registers these blobs until an epoch, the first one last: if it lists the others, it is kept for longer only
        once they are. If that fails, gives back the charge for what is surely not kept."""
        done = size = 0

        async def register(piece: bytes) -> None:
            nonlocal done, size
            done, size = done + 1, size + sizes[piece]  # from now on it may be kept, even if no answer comes
            try:
                await self.network.register(piece, until)
                if not self.network.ledger.certificate(piece):  # its time was over: it was registered as a new blob
                    raise Problem(404, "its time ended before it was kept for longer: store it again")
            except (Refused, Problem):
                done, size = done - 1, size - sizes[piece]
                raise

        try:
            for place in range(1, len(short), PAGE):
                await all_of(map(register, short[place : place + PAGE]))  # noqa: E203
            await register(short[0])
        except BaseException:
            charge.set_to(size, done)
            raise


async def ending(network: Network, after: bytes, last: int) -> list[bytes]:
    """Returns the blobs of a page, and the one after it. If they are in a file, a thread reads it, as it may go over
    all of them."""
    state, run = network.state, asyncio.get_running_loop().run_in_executor
    if not state.name or not (state.whole or state.settle()):
        return state.blobs.ending(after, last, PAGE + 1)
    return await run(LISTS, ending_of, state.name, after, state.ledger.epoch, last, PAGE + 1)
