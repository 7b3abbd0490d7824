"""Shared by the tests of the ledger: etcd and two recorders in a folder, and clients of them."""
import asyncio
import atexit
import collections
import contextlib
import heapq
import pathlib
import shutil
import ssl
import tempfile
import unittest
from typing import Any, Callable, Collection, Iterator, Optional

import aiohttp

from support import harness
from walrus.network.deploy.local import Local, make_certificate
from walrus.network.ledger.blobs import Blobs, Owed
from walrus.network.ledger.checkpoint import Mark
from walrus.network.ledger.entries import ACK, ATTEST, OPERATOR, REGISTER, entry_key
from walrus.network.ledger.follower import Recorders, View
from walrus.network.ledger.live_blob import Blob
from walrus.network.ledger.state import State
from walrus.network.recorder import server
from walrus.network.recorder.compaction import Keeper
from walrus.network.recorder.etcd import Batch, Etcd, Failed, Gone
from walrus.network.settings.services import RecorderSettings

FOUR = ",".join(harness.FOUR)
FOUNDED = entry_key(OPERATOR, "begin", 0, 1, FOUR)
NODES = FOUR.split(",")


def registration(poster: str, number: int, until: int = 5) -> str:
    return entry_key(poster, REGISTER, number.to_bytes(32, "big").hex(), until)


async def found(etcd: Etcd) -> None:
    """Appends the first committee as a recorder would if its nodes, which do not exist, had told their addresses."""
    made = server.Recorder(etcd)
    while not made.ledger.now:
        with contextlib.suppress(Failed):  # etcd has just been started
            await made.catch_up()
            if not made.ledger.now:
                await made.step(Batch(made.chain, [FOUNDED]))
        await asyncio.sleep(0.05)
    made.state.close()


class Listed(Owed):
    """The blobs that are owed, from a list."""

    def __init__(self, names: list[bytes]):
        self.listed = names

    def pages(self, count: int) -> Iterator[list[bytes]]:
        return (self.listed[place : place + count] for place in range(0, len(self.listed), count))  # noqa: E203


@unittest.skipIf(shutil.which("etcd") is None, "etcd is not here")
class LedgerCase(unittest.IsolatedAsyncioTestCase):
    """A ledger that is founded, with two recorders, and no nodes. Recorders are processes if `apart`."""

    apart, members, patience = False, ["etcd"], 3600.0
    made: dict[int, pathlib.Path] = {}  # folders of ledgers that do not exist yet, by the number of members

    async def asyncSetUp(self) -> None:
        asyncio.get_running_loop().set_debug(False)
        self.folder = pathlib.Path(tempfile.mkdtemp(prefix="walrus-ledger-"))
        self.addCleanup(shutil.rmtree, self.folder, ignore_errors=True)
        self.local, self.recorders = Local(self.folder), list[server.Recorder]()
        self.services = list[server.Service]()
        self.local.members, self.local.recorders = self.members, ["recorder-0", "recorder-1"]
        self.addAsyncCleanup(self.local.close)
        await self.copy_certificates()
        if self.apart:
            await self.local.start_ledger()
        else:
            await self.local.start_etcd()
            for name in self.local.recorders:
                await self.record(RecorderSettings.read(self.folder / f"{name}.toml"))
        self.operator, self.publisher = self.user(OPERATOR), self.user("publisher")
        etcd = server.etcd_of(RecorderSettings.read(self.folder / "recorder-0.toml"))
        await found(etcd)
        await etcd.aclose()
        await self.operator.post(FOUNDED)

    async def copy_certificates(self) -> None:
        """Fills the folder of a ledger that does not exist yet; keys and certificates are made once for all tests."""
        count = len(self.members)
        if count not in self.made:
            self.made[count] = pathlib.Path(tempfile.mkdtemp(prefix="walrus-ledger-"))
            atexit.register(shutil.rmtree, self.made[count], ignore_errors=True)
            local = Local(self.made[count])
            local.members, local.recorders = self.local.members, self.local.recorders
            await local.found()
        shutil.copytree(self.made[count], self.folder, dirs_exist_ok=True)

    async def record(self, settings: RecorderSettings) -> None:
        """Runs a recorder in this process."""
        state = State.open(settings.state)
        self.addCleanup(state.close)
        service = server.Service(server.Recorder(server.etcd_of(settings), state), settings)
        self.recorders.append(service.recorder)
        self.services.append(service)
        self.addAsyncCleanup(service.recorder.etcd.aclose)
        self.addAsyncCleanup(service.end, 1)
        for work in (service.recorder.run(), Keeper(service.recorder, self.patience).run()):
            self.addCleanup(asyncio.create_task(work).cancel)
        await service.listen()

    def user(self, name: str, only: Optional[int] = None) -> Recorders:
        """Returns a client of the recorders, or of one of them only, under this name."""
        own, places = self.folder / "users" / name, self.local.told()["recorders"]
        places = places if only is None else [places[only]]
        made = Recorders(places, str(self.folder / "authority.crt"), f"{own}.crt", f"{own}.key")
        self.addAsyncCleanup(made.aclose)
        return made

    async def newcomer(self, name: str) -> Recorders:
        make_certificate(self.folder, f"users/{name}")
        return self.user(name)

    @contextlib.asynccontextmanager
    async def following(self, recorders: Recorders) -> Any:
        view = View(recorders)
        task = asyncio.create_task(view.follow())
        try:
            self.assertTrue(await view.until(lambda _: view.caught_up))
            yield view
        finally:
            task.cancel()
            await asyncio.gather(task, return_exceptions=True)

    def context(self, name: str) -> ssl.SSLContext:
        """Returns a user's TLS context that accepts any server."""
        context = ssl.create_default_context(cafile=str(self.folder / "authority.crt"))
        context.check_hostname, context.verify_mode = False, ssl.CERT_NONE
        if name:
            context.load_cert_chain(self.folder / "users" / f"{name}.crt", self.folder / "users" / f"{name}.key")
        return context

    async def ask(self, name: str, method: str, path: str, recorder: int = 0, **words: Any) -> tuple[int, Any]:
        """Makes a request to a recorder, as anybody may; returns the status and the body of the answer."""
        url = f"https://{self.local.told()['recorders'][recorder]}{path}"
        async with aiohttp.ClientSession() as session:
            async with session.request(method, url, ssl=self.context(name), **words) as said:
                return said.status, await said.json(content_type=None)


class Plain(Blobs):
    """Blobs in memory only, straight from the definitions: the database of blobs is compared with it."""

    def __init__(self) -> None:
        self.kept = {}

    def __getitem__(self, identifier: bytes) -> Blob:
        return self.kept[identifier]

    def __setitem__(self, identifier: bytes, blob: Blob) -> None:
        self.kept[identifier] = blob

    def __iter__(self) -> Iterator[bytes]:
        return iter(self.kept)

    def __reversed__(self) -> Iterator[bytes]:
        return reversed(self.kept)

    def __len__(self) -> int:
        return len(self.kept)

    def expire(self, epoch: int) -> "collections.Counter[str]":
        self.kept = {identifier: blob for identifier, blob in self.kept.items() if blob.until > epoch}
        return self.posters()

    def release(self, name: str, gone: Collection[str], last: int) -> None:
        for identifier, blob in [*self.items()]:
            if blob.poster == name and blob.until > last:
                self.kept[identifier] = blob.without(gone, last)

    def posters(self) -> "collections.Counter[str]":
        return collections.Counter(blob.poster for blob in self.values())

    def counts(self) -> dict[str, int]:
        votes = [[bool(blob.quorum(kind, self.needed)) for kind in (ACK, ATTEST)] for blob in self.values()]
        certified, invalid = map(sum, zip(*votes)) if votes else (0, 0)
        return {"registered": len(votes), "certified": certified, "invalid": invalid}

    def ending(self, after: bytes, last: int, count: int) -> list[bytes]:
        return heapq.nsmallest(count, (it for it, blob in self.items() if it > after and blob.until <= last))

    def owed(self, until: int, certified: int) -> list[bytes]:
        live = sorted((it, blob.quorum(ACK, self.needed)) for it, blob in self.items() if blob.until > until)
        return [identifier for identifier, found in live if found and found[0] <= certified]


class Memory(Etcd):
    """etcd in memory. By `plan` some calls fail, or end their caller, before or after they take effect."""

    def __init__(self) -> None:
        self.kept, self.top, self.calls, self.ended = dict[int, Batch](), b"", 0, 0  # `ended`: callers that were killed
        self.marked, self.pieces = list[Mark](), dict[tuple[int, int], bytes]()
        self.plan: dict[int, str] = {}
        self.hear = list[Callable[[bytes], None]]()  # watchers of the head
        self.all = list[str]()  # everything that was ever appended
        self.used = 0  # bytes, of its quota
        self.leading = True  # whether the member that a recorder asks leads etcd

    async def fails(self, when: str, call: int = 0) -> int:
        """Carries out the plan for a call (a new one if no number is given); returns the call's number."""
        await asyncio.sleep(0)
        self.calls += not call
        call = call or self.calls
        told = self.plan.get(call)
        if told == when:
            raise Failed(f"it is told to fail {when} call {call}")
        if told == f"killed {when}":
            task = asyncio.current_task()
            assert task, "whoever asks has a task"
            self.ended += 1
            task.cancel()
            await asyncio.sleep(0)  # the caller gets no further
        return call

    async def head(self) -> bytes:
        call = await self.fails("before")
        top = self.top
        await self.fails("behind", call)
        return top

    async def batches(self, after: int) -> list[Batch]:
        call = await self.fails("before")
        found = [it for _, it in sorted(self.kept.items()) if it.last > after][:2]
        await self.fails("behind", call)
        if not found or found[0].before.place > after:
            raise Gone("they are dropped")
        return found

    async def append(self, head: bytes, after: bytes, batch: Optional[Batch] = None) -> tuple[bytes, list[Batch]]:
        call = await self.fails("before")
        others = [it for place, it in sorted(self.kept.items()) if batch and place > batch.before.place][:2]
        if self.top == head:
            self.top, others = after, []
            for hear in self.hear:
                hear(after)
            if batch:
                assert batch.before.place + 1 not in self.kept, "a batch is written twice"
                self.kept[batch.before.place + 1] = Batch(batch.before, list(batch.entries))
                self.all += batch.entries
        top = self.top
        await self.fails("behind", call)
        return top, others if batch and others and others[0].before.place == batch.before.place else []

    async def compact(self, most: int = 0) -> None:
        pass

    async def mark(self) -> Optional[Mark]:
        await self.fails("before")
        return self.marked[-1] if self.marked else None

    async def put_mark(self, mark: Mark, before: Optional[Mark]) -> None:
        call = await self.fails("before")
        if (self.marked[-1] if self.marked else None) == before:
            self.marked.append(mark)
        await self.fails("behind", call)

    async def put_piece(self, place: int, number: int, piece: bytes) -> None:
        call = await self.fails("before")
        self.pieces[place, number] = piece
        await self.fails("behind", call)

    async def count_pieces(self, place: int) -> int:
        return sum(it > place for it, _ in self.pieces)

    async def piece(self, place: int, number: int) -> bytes:
        await self.fails("before")
        if (place, number) not in self.pieces:
            raise Gone("a later checkpoint has replaced this one")
        return self.pieces[place, number]

    async def drop(self, mark: Mark) -> None:
        call = await self.fails("before")
        self.kept = {place: it for place, it in self.kept.items() if it.last > mark.place}
        self.pieces = {key: it for key, it in self.pieces.items() if key[0] >= mark.place}
        await self.fails("behind", call)

    async def quota(self) -> float:
        return 1_000.0

    async def sizes(self, seconds: float = 10) -> tuple[int, int]:
        return self.used, self.used

    async def leads(self) -> bool:
        return self.leading

    async def watch(self, hear: Callable[[bytes], None]) -> None:
        self.hear.append(hear)
        await asyncio.Event().wait()

    def entries(self) -> list[str]:
        """Returns all entries in order; checks that no place is left out."""
        found: list[str] = []
        for place, batch in sorted(self.kept.items()):
            assert place == len(found) + 1, "a place is left out"
            found += batch.entries
        return found


__all__ = ["FOUNDED", "FOUR", "LedgerCase", "Memory", "Plain", "found", "registration"]


def turn(epoch: int) -> list[str]:
    """Returns the entries that lead to an epoch, with the same committee."""
    begin = entry_key(OPERATOR, "begin", epoch, 1, FOUR)
    return [begin, *(entry_key(it, "ready", epoch) for it in NODES[:3]), entry_key("node-0", "finish", epoch)]
