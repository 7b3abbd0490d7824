"""Stores files of any length, piece by piece, and small ones of a form as one bundle."""
import asyncio
import contextlib
import itertools
from typing import Any, AsyncIterator, Callable, Iterable, Optional, Sequence

from walrus import bundles, client
from walrus.engines import codes
from walrus.network.files import file_list
from walrus.network.files.file_list import MARK, File
from walrus.network.files.sealed import Blob, Data, front_of, put_away
from walrus.network.gateway.bodies.forms import files_of
from walrus.network.gateway.bodies.source import Source
from walrus.network.gateway.http.errors import Problem
from walrus.network.gateway.resources.memory import Memory, need_of
from walrus.network.gateway.resources.spool import Spool, in_memory, parts_of, split
from walrus.network.gateway.resources.turns import ASKING
from walrus.network.ledger.entries import LAST_UNTIL
from walrus.network.peers.network import Network
from walrus.network.service.threads import to_the_end
from walrus.wire.fairness import Fair

AHEAD = 3  # pieces of one file that are encoded or certified at once
SLICE = 1_000  # certificates that are looked up before other tasks run
ASKED = "send the files as multipart/form-data, as curl -F a=@FILE -F b=@FILE does"
UNFIT = "the files do not fit: each fills whole columns of a bundle, which has 16 MiB; store some of them alone"
Told = dict[str, Any]  # the JSON of an answer to a publisher


class Writer:
    """Stores files in a network. Of all files together, `turns` blobs are encoded at once if memory allows. `reserve`
    is the fraction of the disk that stays free while files arrive."""

    def __init__(self, network: Network, memory: Memory, turns: int, reserve: float = 0.0):
        self.network, self.memory, self.turns, self.reserve = network, memory, Fair(turns), reserve
        self.giving = set["asyncio.Task[None]"]()  # memory back, once late nodes do not need it any more

    async def store(self, stream: AsyncIterator[Data], epochs: int, stored: Optional[list[bytes]] = None) -> Told:
        """Stores a file for a number of epochs, and returns the JSON of the answer. One piece arrives while one is
        encoded and others are certified. Whether or not all succeed, those that are certified are added to `stored`."""
        ledger = self.network.ledger
        until, size, first = min(ledger.writing_epoch + epochs, LAST_UNTIL), 0, b""
        stored = [] if stored is None else stored
        tasks: list["asyncio.Task[tuple[bytes, bool]]"] = []
        try:
            async with contextlib.aclosing(split(stream, file_list.PIECE, self.reserve)) as parts:
                async for piece in parts:
                    first, size = first or front_of(piece, len(MARK)), size + len(piece)
                    if len(tasks) >= AHEAD:
                        await tasks[-AHEAD]
                    tasks.append(asyncio.create_task(self.store_blob(piece, until)))
                    del piece
            done = await asyncio.gather(*tasks)
            identifier, count = b"".join(name for name, _ in done), len(done)
            if count > 1 or first == MARK:
                done.append(await self.store_blob(File(size, identifier).listed(), until))
                identifier = done[-1][0]
        finally:
            stored += await self.end(tasks)
        told = {"blobId": identifier.hex(), "size": size, "pieces": count}
        told |= await self.kept(name for name, _ in done)
        return told | {"alreadyCertified": all(before for _, before in done)}

    @staticmethod
    async def end(tasks: list["asyncio.Task[tuple[bytes, bool]]"]) -> list[bytes]:
        """Ends tasks that store blobs, and returns the identifiers of those that are stored. It empties the list: an
        error that a caller raises would otherwise keep the blob of its task in memory until Python finds the cycle."""
        for task in tasks:
            task.cancel()
        said = await asyncio.gather(*tasks, return_exceptions=True)
        tasks.clear()
        return [it[0] for it in said if isinstance(it, tuple)]

    async def kept(self, names: Iterable[bytes]) -> Told:
        """Returns the first epoch in which one of these blobs is not kept, and the certificate of the last one. Raises
        `client.Failed` if one has none any more."""
        ledger, found, end = self.network.ledger, (0, 0), LAST_UNTIL
        for place, name in enumerate(names):
            if place % SLICE == 0:
                await asyncio.sleep(0)  # other tasks run
            if not (certificate := ledger.certificate(name)):
                raise client.Failed("its time ended while it was stored: store it for more epochs", {})
            found, end = certificate, min(end, ledger.blobs[name].until)
        return {"endEpoch": end, "certificate": {"epoch": found[0], "count": found[1]}}

    async def store_bundle(
        self,
        kind: str,
        count: Callable[[int], None],
        stream: AsyncIterator[bytes],
        epochs: int,
        stored: Optional[list[bytes]] = None,
    ) -> Told:
        """Stores the files of a form of media type `kind` as one bundle, which is no longer than a piece. `count` is
        called with its length first, and may refuse it."""
        bundle, members = await self.bundle(*await self.gather(kind, stream))
        count(len(bundle))

        told = await self.store(parts_of(bundle), epochs, stored)
        return told | {"members": [{"id": f"{told['blobId']}/{it}", **member} for it, member in enumerate(members)]}

    async def gather(self, kind: str, stream: AsyncIterator[bytes]) -> tuple[Blob, list[Told]]:
        """Returns the files of a form, concatenated (in a file without a name, if long), and what to tell of each."""
        most, spool, members = 2 * self.network.ledger.faults, Spool(self.reserve), list[Told]()
        try:
            async for sent in files_of(kind, Source(stream), ASKED):
                if len(members) == most:
                    raise Problem(413, f"a bundle has at most {most} files here: send the rest in further bundles")
                before = spool.end
                async for part in sent.parts:
                    await spool.add(part)
                members.append({"name": sent.name or sent.field, "size": spool.end - before})
            if not members:
                raise Problem(400, f"the form has no file: {ASKED}")
            return await spool.whole(), members
        finally:
            spool.close()

    async def bundle(self, data: Blob, members: list[Told]) -> tuple[Blob, list[Told]]:
        """Returns the bundle of these files, in a file without a name, and `members` unchanged: a caller that takes
        both from `gather` keeps no reference to `data`."""
        faults, ends = self.network.ledger.faults, itertools.accumulate(it["size"] for it in members)
        async with self.memory.share(need_of(len(data), faults)):
            whole = memoryview(await in_memory(data))
            files = [whole[end - it["size"] : end] for end, it in zip(ends, members)]  # noqa: E203
            try:
                async with self.turns.place(ASKING.get()):
                    made = await bundles.join(files, faults, self.network.walrus)
            except client.Refused as refused:
                raise Problem(413, UNFIT) if refused.code in codes.DO_NOT_FIT else refused from None
            return await to_the_end(put_away, made), members

    async def store_blob(self, blob: Blob, until: int) -> tuple[bytes, bool]:
        """Stores a blob. Returns its identifier, and whether it was certified for as long before. Its memory is given
        back once no late node needs it."""
        stack, identifier, faults = contextlib.AsyncExitStack(), b"", self.network.ledger.faults
        share = await stack.enter_async_context(self.memory.share(need_of(len(blob), faults)))
        try:
            async with self.turns.place(ASKING.get()):
                encoded = await self.network.walrus.encode(await in_memory(blob), faults)
            del blob
            share.shrink(sum(len(part) for parts in encoded.slivers for part in parts))
            identifier = encoded.identifier
            return identifier, (await self.network.ensure(encoded, until))[1]
        finally:
            if late := self.network.left(identifier):
                task = asyncio.create_task(self.give_back(late, stack))
                self.giving.add(task)
                task.add_done_callback(self.giving.discard)
            else:
                await stack.aclose()

    async def give_back(self, late: Sequence["asyncio.Task[Any]"], stack: contextlib.AsyncExitStack) -> None:
        """Gives memory back once no late node needs a blob, or others have waited for the memory."""
        async with stack:
            self.memory.late |= {*late}
            try:
                await asyncio.wait(late)
            finally:
                self.memory.late -= {*late}
