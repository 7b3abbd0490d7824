"""Completes a ledger that was restored from a snapshot of etcd: asks nodes for the entries that they have heard after
it, and appends those on which the nodes of f+1 shards agree. No recorder may run meanwhile, and none may have run over
the older ledger: nodes send the digest of what they have heard, up to its end at most, so that this is noticed."""
import asyncio
import collections
import contextlib
import sys
import time
from typing import Any, Optional

from aiohttp import web


from walrus.network.service.systemd import ending
from walrus.network.settings.services import RecorderSettings

from .appender import MOST_BATCH, POLL, Broken, Recorder
from .etcd import Batch, Failed, Gone
from .server import Service, etcd_of, wrong

NOTHING = "the ledger is being restored: until recorders run again, no entries are taken and none are sent"
EMPTY = "etcd has no ledger with a committee: restore the snapshot at all members of etcd first (network/OPERATING.md)"
OTHER = "etcd has other entries up to place {} than the nodes have heard, as a recorder has run over it meanwhile: "
OTHER += "stop all recorders, and restore the snapshot at all members of etcd once more (network/OPERATING.md)"
FEW = "nodes of {} shards have heard the snapshot and reported all that they have, and {} are needed: start the others "
FEW += "and restore again; if they are lost, start the recorders, and what only they had is lost (network/OPERATING.md)"
OLD = (
    "{} have kept only later entries, so the ledger had more than this snapshot has: start no recorder, and restore a "
)
OLD += "later snapshot, or start the nodes that were silent and restore again (network/OPERATING.md)"
STRANGE = "{} heard more than the snapshot has, but had no shards in it, so nothing of that is believed: "
STRANGE += "restore a later snapshot, or start the nodes that had shards then and restore again (network/OPERATING.md)"
UNBELIEVED = (
    "{} reported more, but had no shards in the snapshot: not believed, as nodes of 2f+1 shards reported all they have"
)


class Restoring(Service):
    """A service at a recorder's address, to which followers report their tails: the entries after the ledger's end."""

    def __init__(self, recorder: Recorder, settings: RecorderSettings):
        super().__init__(recorder, settings)
        self.tails: dict[str, list[str]] = {}  # the tail of each node, or its beginning
        self.short: dict[str, int] = {}  # nodes that have not kept the next entry, and the place after which they have
        self.others = set[str]()  # nodes that have heard another ledger up to the end, or up to where they are
        self.strangers = set[str]()  # names that reported a tail, and had no shards up to the end
        self.told, self.progress, self.snapshot = asyncio.Event(), 0.0, 0  # `snapshot`: the place where that ends

    def routes(self) -> list[web.RouteDef]:
        entries = "/v1/entries"
        return [web.get(entries, self.follow), web.post(entries, self.post), web.post("/v1/tail", self.hear)]

    async def post(self, request: web.Request) -> web.Response:
        return wrong(503, NOTHING)

    async def follow(self, request: web.Request) -> web.StreamResponse:
        """Asks each node that has not reported, and whoever has heard more than there is, for a digest and a tail."""
        name, after, end = request["name"], int(request.query.get("after", "0")), self.recorder.chain.place
        self.places[name] = after
        if after <= end and name not in {*self.recorder.ledger.nodes} - {*self.tails} - self.others:
            return wrong(503, NOTHING)
        return web.json_response({"error": NOTHING, "tail": min(after, end)}, status=409)

    async def hear(self, request: web.Request) -> web.Response:
        """Receives the tail of a node, unless that has heard other entries up to the ledger's end, or up to where it
        is."""
        name, told, end = request["name"], await request.json(), self.recorder.chain.place
        after, entries = told["after"], [it for it in told["entries"] if isinstance(it, str)]
        if after > end:
            self.short[name] = after
        elif after == end or not entries:  # else the end has moved since it was asked
            known = await self.digest(after, name)
            if known and told.get("digest") not in (None, "", known):
                self.others |= {name} & {*self.recorder.ledger.nodes}
                self.told.set()
            else:
                self.hears(name, entries)
        return web.json_response({})

    async def digest(self, place: int, name: str) -> str:
        """Returns the digest of all entries up to a place, in hexadecimal; an empty text if the next was dropped."""
        if place == self.recorder.chain.place:
            return self.recorder.chain.digest.hex()
        try:
            return (await self.recorder.behind(place, name))[0].before.digest.hex()
        except Gone:
            return ""

    def hears(self, name: str, tail: list[str]) -> None:
        if name in self.recorder.ledger.nodes:
            self.tails[name] = tail
            self.told.set()
        elif tail:
            self.strangers.add(name)

    def unbelieved(self) -> list[str]:
        """Returns the names that have heard more, but have no shards up to the ledger's end."""
        return sorted((self.strangers | {*self.short}) - {*self.recorder.ledger.nodes})

    def later(self) -> list[str]:
        """Returns the nodes that have kept only entries after the next one."""
        place, names = self.recorder.chain.place, {*self.recorder.ledger.nodes} - {*self.tails}
        return sorted(name for name in names if self.short.get(name, 0) > place)

    def reported(self) -> int:
        """Returns the number of shards whose nodes have heard all of the snapshot, and reported their tails."""
        return sum(it in self.tails and self.places.get(it, 0) >= self.snapshot for it in self.recorder.ledger.now)

    def is_all(self) -> bool:
        """Whether nodes of 2f+1 shards have reported all that they have."""
        return self.reported() >= self.recorder.ledger.quorum

    def enough(self, names: list[str]) -> bool:
        """Whether these nodes have more than f shards of one committee, so that at least one of them is correct."""
        ledger = self.recorder.ledger
        return any(sum(it in names for it in owners) > ledger.faults for owners in (ledger.now, ledger.next) if owners)

    def agreed(self) -> list[str]:
        """Returns the next entries, as far as enough nodes agree on them."""
        names, found, size = [*self.tails], list[str](), 0
        while size < MOST_BATCH:
            said = collections.defaultdict(list)
            for name in names:
                if len(self.tails[name]) > len(found):
                    said[self.tails[name][len(found)]].append(name)
            text = next((text for text, by in said.items() if self.enough(by)), "")
            if not text:
                break
            names, size = said[text], size + len(text)
            found.append(text)
        return found

    async def find_end(self, seconds: float, told: asyncio.Event) -> None:
        """Reads the ledger in etcd up to its end; raises `Broken` if there is none, or none with a committee. Waits up
        to `seconds` for etcd, which may have just been started, unless a signal ends this."""
        last, said = time.monotonic() + seconds, ""
        while True:
            try:
                if await self.recorder.etcd.head():
                    await self.recorder.catch_up()
                if not self.recorder.ledger.now:  # a recorder that ran over an empty etcd has founded another one
                    raise Broken(EMPTY)
                self.snapshot = self.recorder.chain.place
                return
            except Failed as fault:
                if told.is_set() or time.monotonic() > last:
                    raise
                if str(fault) != said:
                    print(f"{fault}; it is asked again for up to {seconds:g} s", file=sys.stderr, flush=True)
                said = str(fault)
            await asyncio.sleep(POLL)

    async def restore(self, seconds: float) -> int:
        """Appends agreed entries until all nodes have reported everything, or nothing was appended for `seconds`.
        Returns the number of entries."""
        recorder, count, self.progress = self.recorder, 0, time.monotonic()
        while time.monotonic() < self.progress + seconds:
            if self.enough([*self.others]):  # fewer may lie
                raise Broken(OTHER.format(recorder.chain.place))
            if entries := self.agreed():
                batch = Batch(recorder.chain, entries)
                if not await recorder.step(batch):
                    raise Broken("a recorder is running: stop all recorders first")
                count, self.progress = count + len(entries), time.monotonic()
                self.tails.clear()
                print(f"{count} entries are back so far, up to place {recorder.chain.place}", flush=True)
            elif {*recorder.ledger.nodes} <= {*self.tails, *self.others}:
                break
            self.told.clear()
            with contextlib.suppress(TimeoutError):
                async with asyncio.timeout(1):
                    await self.told.wait()
        return count


async def serve(settings: RecorderSettings, seconds: float) -> int:
    """Runs until the ledger is complete, nobody reports more, or a signal ends it; returns the exit status."""
    recorder = Recorder(etcd_of(settings))
    service, told = Restoring(recorder, settings), ending()
    tasks: "list[asyncio.Task[Any]]" = []
    try:
        await service.find_end(seconds, told)
        print(f"the ledger ends at place {recorder.chain.place}: nodes are asked for what they have", flush=True)
        await service.listen()
        tasks += [working := asyncio.create_task(service.restore(seconds)), asyncio.create_task(told.wait())]
        await asyncio.wait(tasks, return_when=asyncio.FIRST_COMPLETED)
        count: Optional[int] = working.result() if working.done() else None
        for name in recorder.ledger.nodes:
            if name in service.others:
                print(f"{name} has heard other entries than etcd has")
            elif name not in service.tails:
                first = service.short.get(name)
                print(f"{name} {f'has kept nothing before place {first}' if first else 'was silent at the end'}")
        text = "a signal ended this" if count is None else f"{count} entries are back"
        print(f"{text}; the ledger ends at place {recorder.chain.place}", flush=True)
        if not service.is_all() and service.enough(later := service.later()):
            print(OLD.format(", ".join(later)), file=sys.stderr)
        elif not count and (strangers := service.unbelieved()):
            print((UNBELIEVED if service.is_all() else STRANGE).format(", ".join(strangers)), file=sys.stderr)
        elif not service.is_all():
            print(FEW.format(service.reported(), recorder.ledger.quorum), file=sys.stderr)
        return 0 if count is not None and service.is_all() else 1
    except (Broken, Failed, OSError) as fault:
        print(f"the ledger is not restored: {fault}", file=sys.stderr)
        return 1
    finally:
        for task in tasks:
            task.cancel()
        await asyncio.gather(*tasks, return_exceptions=True)
        await service.end(1)
        await recorder.etcd.aclose()
        recorder.state.close()
