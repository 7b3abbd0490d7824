"""A client of a network: registers blobs in the ledger, stores them at nodes, and reads and verifies them."""
import asyncio
import collections
import json
import pathlib
import time
from typing import Any, Callable, NamedTuple, Optional, Sequence, Union


from walrus import bundles, client
from walrus.network.ledger.entries import entry_key
from walrus.network.ledger.follower import Recorders, Unreachable, View
from walrus.network.ledger.rules import Ledger
from walrus.network.ledger.state import State
from walrus.network.service.task_groups import all_of

from .engine import Calls
from .holders import Holders
from .parts import request_of
from .seats import Peers, Seat


GRACE, LATE = 0.1, 10.0  # least seconds for slower nodes once a blob is certified; most seconds for those left behind
BEHIND = 16_777_216  # bytes that may be under way to a node that is left behind; or one blob of any length
FEW = 3  # faults up to which a short call of the program takes little longer than starting a thread for it
# A certified blob: its identifier, the epoch and number of shards of its certificate, and until when it is kept.
Stored = NamedTuple("Stored", [("identifier", bytes), ("epoch", int), ("count", int), ("until", int)])


class Away(client.Failed):
    """A failure while the ledger is, or was meanwhile, away. `said` has what shards answered, by number."""

    def __init__(self, text: str, said: dict[int, str]) -> None:
        super().__init__(text, {})
        self.said = said


class Access(NamedTuple):
    """How a user reaches a network; `state` is the file that keeps the state of the ledger."""

    user: str
    program: str
    recorders: list[str]
    authority: str
    certificate: str
    key: str
    state: str

    @classmethod
    def within(cls, folder: pathlib.Path, user: str) -> "Access":
        """Reads it from a folder of a whole network (`users/USER.crt`) or of one user (`USER.crt`)."""
        told, own = json.loads((folder / "network.json").read_text()), folder / "users" / user
        own = own if pathlib.Path(f"{own}.crt").exists() else folder / user
        files = (f"{own}.{kind}" for kind in ("crt", "key", "ledger"))
        return cls(user, told["program"], told["recorders"], str(folder / "authority.crt"), *files)


class Network(View):
    """A user's view of a network, which follows the ledger while its context runs. A shard must answer in `seconds`;
    with `kept` the state of the ledger is kept in a file."""

    def __init__(
        self, folder: Union[pathlib.Path, Access], user: str = "publisher", seconds: float = 10, kept: bool = False
    ):
        access = folder if isinstance(folder, Access) else Access.within(folder, user)
        recorders = Recorders(access.recorders, access.authority, access.certificate, access.key)
        super().__init__(recorders, State.open(access.state) if kept else State())
        self.user, self.walrus = access.user, Calls.of(access.program)
        self.authority, self.certificate = pathlib.Path(access.authority), pathlib.Path(access.certificate)
        self.files = access.certificate, access.key  # shown to nodes
        self.peers = Peers(self.ledger, self.authority, seconds, self.files)
        self.holders = Holders(self.peers, self.ledger)
        self.task: Optional["asyncio.Task[None]"] = None
        self.late, self.behind = set["asyncio.Task[dict[int, str]]"](), collections.Counter[str]()
        self.walrus.few = lambda: self.ledger.faults <= FEW

    @property
    def come(self) -> tuple[int, int]:
        """How far the ledger was heard, and how many pieces of a later checkpoint have come."""
        return self.chain.place if self.chain else 0, len(self.recorders.pieces)

    async def __aenter__(self) -> "Network":
        self.task, come = asyncio.create_task(self.follow()), (0, 0)
        heard = await self.until(lambda _: self.caught_up, 20)
        while not heard and (self.state.entering or self.come > come):  # as long as more comes, as it may be much
            come, heard = self.come, await self.until(lambda _: self.caught_up, 60)
        if not heard:
            await self.__aexit__()
            raise Unreachable(f"no recorder tells the ledger: {self.recorders.said}")
        return self

    async def __aexit__(self, *_: object) -> None:
        if self.task:
            self.task.cancel()
            await asyncio.gather(self.task, return_exceptions=True)
        for late in self.late:
            late.cancel()
        await asyncio.gather(*self.late, return_exceptions=True)
        await self.holders.close()
        await self.peers.close()
        await self.recorders.aclose()
        self.walrus.close()
        self.state.close()

    async def begin(self, faults: int, owners: list[str], epoch: Optional[int] = None) -> None:
        """Posts the committee of an epoch, by default the next one: `owners` are the nodes of its shards. If a node has
        more than f shards, it posts first that this is intended. The entries count only if the operator posts them."""
        epoch = self.ledger.epoch + bool(self.ledger.now) if epoch is None else epoch
        await self.until(lambda it: not it.no_nodes(tuple(owners)), 20)  # a node posts its address soon after its start
        if max(collections.Counter(owners).values()) > faults:
            await self.recorders.post(entry_key(self.user, "concentrated", epoch))
        await self.recorders.post(entry_key(self.user, "begin", epoch, faults, ",".join(owners)))

    async def register(self, identifier: bytes, until: int) -> None:
        """Registers a blob until an epoch, and waits until the ledger shows it. Raises `client.Failed` otherwise."""
        begun = time.monotonic()
        await self.recorders.post(entry_key(self.user, "register", identifier.hex(), until))
        if not await self.until(lambda it: identifier in it.blobs and it.blobs[identifier].until >= until):
            causes = f"that is past, the epoch changes just now, or {self.user} has posted its share of it"
            raise self.failed(f"no registration until {until}: {causes}", {}, begun)

    def failed(self, text: str, said: dict[int, str], begun: float) -> client.Failed:
        """Returns the error for a step that began at `begun`: `Away` if the ledger was away since, else `Failed`."""
        away = self.away_since(begun)
        return Away(f"{away}, and so it is not done", said) if away else client.Failed(text, said)

    async def store(self, blob: bytes, epochs: int = 1, form: int = 1) -> Stored:
        """Encodes and stores a blob for `epochs` epochs from the writing one on; returns once it is certified."""
        encoded = await self.walrus.encode(blob, self.ledger.faults, form)
        return (await self.ensure(encoded, self.ledger.writing_epoch + epochs))[0]

    async def ensure(self, encoded: client.Encoded, until: int) -> tuple[Stored, bool]:
        """Has an encoded blob certified, held and kept until an epoch. Returns it, and whether it was certified for as
        long before. If it is certified, its bytes are sent only if too few shards say that they hold it."""
        ledger, identifier = self.ledger, encoded.identifier
        found = ledger.blobs.get(identifier) if ledger.certificate(identifier) else None
        if not found:
            return await self.publish(encoded, until), False
        if not await self.holders.have(identifier):
            return await self.publish(encoded, until, again=True), found.until >= until
        if found.until < until:
            await self.register(identifier, until)
        if not (certificate := ledger.certificate(identifier)):  # its time was over meanwhile
            return await self.publish(encoded, until), False
        return Stored(identifier, *certificate, ledger.blobs[identifier].until), found.until >= until

    async def publish(self, encoded: client.Encoded, until: int, again: bool = False) -> Stored:
        """Registers an encoded blob, stores it at the shards of the writing committee, and returns once it is certified
        and slower nodes had a short grace; transfers to them continue afterwards. With `again` it is certified already,
        and as many shards as a certificate needs must say that they have stored it now. Raises `client.Failed`."""
        identifier, said, begun = encoded.identifier, dict[int, str](), time.monotonic()
        taken = set[int]()
        for attempt in range(3):
            epoch = self.ledger.writing_epoch
            seats, taken = self.peers.seats(self.ledger.writing, self.ledger.faults), set[int]()

            def is_there(ledger: Ledger, taken: set[int] = taken) -> bool:
                return bool(ledger.certificate(identifier)) and (not again or len(taken) >= ledger.quorum)

            def is_over(ledger: Ledger, epoch: int = epoch, is_there: Callable[[Ledger], bool] = is_there) -> bool:
                return is_there(ledger) or ledger.writing_epoch != epoch

            done = asyncio.Event()
            storing = self.put_all(encoded, seats, is_over, done, taken)
            _, words = await all_of([self.registered(identifier, until, done), storing])
            said = {number: text for number, text in (words or {}).items() if text}
            pause = 2**attempt / 2 if len(seats) - len(said) < self.ledger.quorum else 10
            await self.until(is_over, pause)
            if is_there(self.ledger) and (found := self.ledger.certificate(identifier)):
                return Stored(identifier, *found, self.ledger.blobs[identifier].until)
        lost = f"certified, but only {len(taken)} shards have its bytes"
        raise self.failed(f"{identifier.hex()} is {lost if again else 'not certified'}", said, begun)

    async def registered(self, identifier: bytes, until: int, done: asyncio.Event) -> None:
        """Registers a blob unless it is registered until then already; sets `done` at the end."""
        blob = self.ledger.blobs.get(identifier)
        if blob is None or blob.until < until:
            await self.register(identifier, until)
        done.set()

    async def put_all(
        self,
        encoded: client.Encoded,
        seats: Sequence[Seat],
        is_over: Callable[[Ledger], bool],
        registered: asyncio.Event,
        taken: set[int],
    ) -> dict[int, str]:
        """Stores a blob at these shards until all have answered, or until `is_over` and nodes that are not behind had
        as much time again. Returns by shard why it is not stored, or an empty text. Slower transfers continue alone.
        The numbers of the shards that stored it are added to `taken`."""
        tasks, said, begun = dict[str, "asyncio.Task[dict[int, str]]"](), dict[int, str](), time.monotonic()
        size = sum(map(len, (encoded.metadata, *encoded.slivers[0])))

        def note(task: "asyncio.Task[dict[int, str]]") -> None:
            if not task.cancelled() and not task.exception():
                taken.update(number for number, text in task.result().items() if not text)
                self.waiting.tell()

        for name in dict.fromkeys(seat.name for seat in seats):
            own = [seat for seat in seats if seat.name == name]
            if self.behind[name] and self.behind[name] + size > BEHIND:
                said |= {seat.number: "it is behind with what was stored before" for seat in own}
            else:
                tasks[name] = asyncio.create_task(self.put_at(own, encoded, registered), name=encoded.identifier.hex())
                tasks[name].add_done_callback(note)
        over = asyncio.create_task(self.until(is_over, None))
        ends: list["asyncio.Future[Any]"] = [over, asyncio.gather(*tasks.values(), return_exceptions=True)]
        try:
            await asyncio.wait(ends, return_when=asyncio.FIRST_COMPLETED)
            if over.done():
                over.result()  # raises if the ledger is not followed any more
            if prompt := [task for name, task in tasks.items() if not (task.done() or self.behind[name])]:
                await asyncio.wait(prompt, timeout=max(GRACE, time.monotonic() - begun))
            for name, task in tasks.items():
                if task.done():
                    said |= task.result()
                else:
                    self.leave_behind(name, task, size)
            return said
        except BaseException:  # the caller was cancelled, the ledger is not followed any more, or a task has failed
            for task in tasks.values():
                task.cancel()
            raise
        finally:
            over.cancel()

    async def put_at(self, seats: Sequence[Seat], encoded: client.Encoded, registered: asyncio.Event) -> dict[int, str]:
        """Stores a blob at the shards of one node in turn. Returns by shard why it is not stored, or an empty text."""
        name, said = seats[0].name, dict[int, str]()
        await self.until(lambda it: name in it.addresses, LATE)  # the node may have just started
        for seat in seats:
            said[seat.number] = await seat.store(request_of(encoded, seat.number), registered)
        return said

    def leave_behind(self, name: str, task: "asyncio.Task[dict[int, str]]", size: int) -> None:
        """Lets the transfer of a stored blob to a slow node continue, for `LATE` seconds at most: the node recovers
        what it lacks by itself."""

        def arrived(_: object) -> None:
            self.late.discard(task)
            self.behind[name] -= size

        self.behind[name] += size
        self.late.add(task)
        task.add_done_callback(arrived)
        asyncio.get_running_loop().call_later(LATE, task.cancel)

    def left(self, identifier: bytes) -> "list[asyncio.Task[dict[int, str]]]":
        """Returns the transfers of a blob that continue to nodes left behind."""
        return [task for task in self.late if task.get_name() == identifier.hex()]

    async def fetch(
        self, identifier: bytes, seconds: float = 30, member: Optional[int] = None, calls: Optional[Calls] = None
    ) -> bytes:
        """Returns the bytes of a blob, or of a member of a bundle, which is read from its columns. Asks again for
        `seconds` while the blob is live and too little is heard. Raises `client.Refused`."""
        loop, ledger, walrus = asyncio.get_running_loop(), self.ledger, calls or self.walrus
        end, pause = loop.time() + seconds, 0.1
        while True:
            home = ledger.owners(ledger.home_epoch(identifier))
            for owners in dict.fromkeys((home, ledger.now, ledger.writing)):
                seats = self.peers.seats(owners, ledger.faults)
                try:
                    if member is None:
                        return await client.fetch(seats, identifier, walrus)
                    return await bundles.fetch_member(seats, identifier, member, walrus)
                except client.Refused as refused:
                    if not isinstance(refused, client.TooFew):
                        raise
                    lacking = refused
            if loop.time() + pause > end or identifier not in ledger.blobs:
                raise lacking
            await asyncio.sleep(pause)
            pause = min(2 * pause, 2.0)
