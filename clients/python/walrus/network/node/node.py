"""A node: it serves the shards that it owns on one port, keeps their parts on its disk, and follows the ledger."""
import argparse
import asyncio
import functools
import pathlib
import signal
import sqlite3
import sys
from asyncio import sslproto
from typing import Any, Coroutine, Optional


from walrus import client, loop
from walrus.format.envelopes import parts
from walrus.format.frames import answer, code_of, joined
from walrus.network.ledger.entries import ACK, ATTEST, LAST_EPOCH, REGISTER, Entry, entry_key
from walrus.network.ledger.follower import AWAY, Recorders, Refused, Unreachable, View
from walrus.network.ledger.state import State
from walrus.network.node.disk.group_commit import TORN
from walrus.network.node.disk.store import Store
from walrus.network.peers.parts import WHOLE
from walrus.network.peers.seats import Peers
from walrus.network.service import certificates, private_files
from walrus.network.service.systemd import lose_lines, ready
from walrus.network.service.task_groups import first_of
from walrus.network.settings.services import Settings
from walrus.wire.port import PIECE, Bounds
from walrus.wire.served_client import Said

from . import handover
from .figures import NodePort
from .intake import Intake
from .judge import PARTS, Busy, Clash, Judges, Room
from .progress import Progress
from .recovery import passing, settle
from .scrub import AT_ONCE, Scrub
from .shard import DECLINED, FULL, NO_MEMORY, Past, Shard


VOUCHES = {client.ACK: ACK, client.ATTEST: ATTEST}
sslproto.SSLProtocol.max_size = 65_536  # bytes of read buffer of each TLS connection, instead of four times as many
REQUEST, IDLE, COUNTED = 30.0, 60.0, 13  # two deadlines in seconds; the answer code of a vote below a quorum
BARE = 50_331_648  # bytes that an idle node takes
PAGES = 8_192  # KiB of page cache for the ledger's database
TAIL = 2  # epochs whose entries a node keeps, so that a ledger restored from a snapshot can be completed


class Node(View):
    """The shards of one node, in the present committee and, during a handover, in the next one."""

    def __init__(self, settings: Settings):
        self.settings, self.name, authority = settings, settings.name, pathlib.Path(settings.authority)
        own = settings.certificate, settings.key
        spare = max(0, settings.memory - settings.kept - BARE)  # `Judges` next: its `mallopt` must precede any thread
        self.judges, self.repairs = Judges(settings.program, 2 * spare // 3), Room(spare // 3)
        self.store = Store(pathlib.Path(settings.database), settings.recorded, self.fail)
        recorders = Recorders(settings.recorders, settings.authority, *own)
        path = self.store.path.with_suffix(".ledger")
        super().__init__(recorders, State.open(str(path), LAST_EPOCH if settings.recorded else TAIL, PAGES))
        self.certificate = certificates.read(pathlib.Path(settings.certificate))
        self.peers, self.sides = Peers(self.ledger, authority, 20, own), dict[int, dict[int, Shard]]()
        self.failed: "asyncio.Future[None]" = asyncio.get_running_loop().create_future()
        self.port = NodePort(self, Bounds(settings.connections, REQUEST, IDLE, settings.kept))
        self.scrub, self.intake, self.progress = Scrub(self), Intake(self), Progress()
        self.waits = dict[str, Any]()  # the blobs without which a handover does not go on here
        self.tasks, self.numbers = list["asyncio.Task[None]"](), None  # type: Any, Any
        self.turned: object = None  # the epoch and committees that `turn` last set up
        self.wrong: "asyncio.Queue[bytes]" = asyncio.Queue()  # blobs of which a part was found wrong on the disk
        self.unattested = set[bytes]()  # blobs with a proof here, not attested yet as the ledger was away

    async def open(self) -> int:
        """Set up the shards from the disk, follow the ledger, and listen; return the port. If it takes more than 5 s to
        catch up with the ledger, the node serves what is on its disk meanwhile."""
        settings = self.settings
        await self.turn()
        self.tasks.append(asyncio.create_task(self.watched(self.follow())))
        if not await self.until(lambda _: self.caught_up or self.failed.done(), 5):
            reads = self.silence() <= AWAY or self.state.entering or self.recorders.pieces  # a checkpoint takes long
            why = "is still being read" if reads else "is away"
            print(f"{self.name}: the ledger {why}; this serves what is on the disk", file=sys.stderr, flush=True)
        context = certificates.serving(settings.authority, settings.certificate, settings.key)
        port = await self.port.listen(settings.host, settings.port, context)
        told = handover.tell_address(self, *settings.reached(port)), handover.tell_past(self)
        owed = handover.hand_over(self), handover.heal(self), self.mend()
        watching = certificates.watch(self.name, self.certificate)
        for work in (*owed, watching, self.scrub.run(), self.scrub.sweep_always(), *told):
            self.tasks.append(asyncio.create_task(self.watched(work)))
        if settings.metrics:
            from walrus.network.service import metrics  # here, so that only nodes that need it load it

            self.numbers = await metrics.serve(settings.metrics, self.port.numbers)
        return port

    async def watched(self, work: Coroutine[Any, Any, object]) -> None:
        """Run a task that the node needs; if it fails, the node ends."""
        try:
            await work
        except Exception as fault:  # of any kind: a node that goes on without this would fall behind unnoticed
            self.fail(fault)

    def fail(self, fault: Optional[Exception]) -> None:
        """End the node: because of a fault, or normally if there is none, as after a signal."""
        if not self.failed.done():
            self.failed.set_exception(first_of(fault)) if fault else self.failed.set_result(None)

    async def mend(self) -> None:
        """Recover parts from the other nodes as soon as they are found to be wrong on the disk."""
        while True:
            wrong = {await self.wrong.get()}
            while not self.wrong.empty():
                wrong.add(self.wrong.get_nowait())
            async with passing(self.name, "parts that went wrong are recovered later"):  # `heal` finds it again
                for epoch in list(self.sides):
                    await settle(self, epoch, wrong)

    async def apply(self, entries: list[Entry]) -> None:
        """Apply entries in their order, after a checkpoint if one was just loaded. An expired blob that is registered
        again begins without parts. All such blobs are dropped from the disk before the first of them is applied, in a
        few steps, between which others are served: anybody may register many blobs again after an epoch change."""
        ledger, gone = self.ledger, set[bytes]()
        await self.turn()
        for place, entry in enumerate(entries):
            if self.begins_anew(entry) and entry.values[0] not in gone:
                names = [*(gone := {it.values[0] for it in entries[place:] if self.begins_anew(it)})]
                for first in range(0, len(names), AT_ONCE):
                    some = names[first : first + AT_ONCE]  # noqa: E203
                    await self.store.persist(functools.partial(self.store.expire, some, ledger.epoch))
            ledger.apply(entry)
            await self.turn()

    def begins_anew(self, entry: Entry) -> bool:
        """Return whether an entry registers an expired blob again, of which the disk may still have parts."""
        return entry.words[1:2] == [REGISTER] and self.ledger.blobs.is_over(entry.values[0])

    async def turn(self) -> None:
        """If the epoch or its committees have changed, write that to the disk, and then set up their shards. A shard
        that stays takes one row, and no part is touched. Earlier committees hold nothing more. Expired blobs are
        dropped later, while requests are served."""

        def stage() -> None:
            for epoch in self.epochs():
                for number in self.ledger.shards_of(self.name, epoch):
                    self.store.begin(epoch, number)
            self.store.turn(self.ledger.epoch)

        ledger = self.ledger
        if self.turned == (turned := (ledger.epoch, ledger.now, ledger.next)):
            return
        await self.store.persist(stage)
        if ledger.faults and not self.judges.least:
            self.port.shape = client.Shape(ledger.faults)
            self.judges.keep(ledger.faults)
            self.repairs.grow(self.judges.room.size // 2)
        self.sides = {epoch: self.sides.get(epoch) or self.shards(epoch) for epoch in self.epochs()}
        self.scrub.left.set()
        self.turned = turned

    def epochs(self) -> list[int]:
        """Return the epochs that have a committee: the present one, and during a handover the next one."""
        ledger = self.ledger
        return [ledger.epoch, ledger.epoch + 1][: 1 + ledger.moving] if ledger.now else []

    def shards(self, epoch: int) -> dict[int, Shard]:
        """Return the shards that this node owns in an epoch, by their numbers."""
        rest = self.ledger, self.store, self.judges, self.wrong.put_nowait, self.settings.reserve
        own = self.ledger.shards_of(self.name, epoch)
        return {number: Shard(number, epoch, self.store.begin(epoch, number), *rest) for number in own}

    async def reply(self, shard: int, request: bytes) -> Said:
        """Return the reply to a client's request to a shard, and the one to send if the disk fails to keep its data."""
        try:
            reply = await self.route(shard, request)
        except Busy:
            reply = [answer(NO_MEMORY)]  # the client may retry
        except Past:
            return await self.reply(shard, request)  # from the present committee
        except (OSError, sqlite3.OperationalError) as fault:  # from the system: only this request fails
            self.port.tell(f"{self.name}: a request fails: {fault}", "failed")
            if request[0] != WHOLE:
                raise ConnectionError(str(fault)) from fault
            reply = [answer(NO_MEMORY)]  # others that came over the same connection go on
        except (Clash, sqlite3.Error) as fault:
            self.fail(fault)
            raise ConnectionError(str(fault)) from fault
        said: list[client.Data] = [*parts(reply, shard)]
        if sum(map(len, said)) <= PIECE:  # copied, as a small reply would keep a larger buffer in memory
            said = [b"".join(said)]
        if request[0] not in (*PARTS, WHOLE, client.FORGET) or code_of(reply) not in (client.DONE, client.HELD):
            return Said(said)
        return Said(said, self.store.written(), joined([answer(FULL, len(request) // 4096 + 1)], shard))

    async def route(self, number: int, request: bytes) -> list[bytes]:
        """Return the reply of the shard that a request is for, in the committee that answers such requests."""
        ledger, kind = self.ledger, request[0]
        if kind == WHOLE:
            return await self.intake.store(number, memoryview(request))
        now, writing = (self.sides.get(epoch, {}).get(number) for epoch in (ledger.epoch, ledger.writing_epoch))
        if kind in (*PARTS, *VOUCHES) and not writing or not (shard := writing or now):
            return [answer(DECLINED)]  # no such shard here, or none in the next committee, which takes what is new
        if kind in PARTS:
            return await shard.put(request)
        if kind in VOUCHES:
            return await self.vouch(VOUCHES[kind], shard, request)
        if kind == client.READ:
            return await (self.sides.get(ledger.home_epoch(request[1:]), {}).get(number) or shard).answer(request)
        both = [it for it in dict.fromkeys((now, writing)) if it]
        if kind == client.SYMBOL:
            replies = [await it.answer(request) for it in both]
            return max(replies, key=len)  # a shard and its successor have the same opening, if they have one
        if kind == client.FORGET:
            return [await it.forget(request) for it in both][-1]
        return [answer(DECLINED)]  # entries are posted to a recorder, not to a node

    async def vouch(self, kind: str, shard: Shard, request: bytes) -> list[bytes]:
        """Post the node's vote on a blob, an acknowledgement or an attestation; return the answer: the number of
        shards that voted so, or a refusal. The judge must let this shard vote, and all others of the node must hold as
        much. Nothing is posted if the ledger has the vote already, or certified the blob in an earlier epoch."""
        ledger, identifier, losses = self.ledger, request[1:33], self.store.losses
        said = await shard.answer(request)
        if code_of(said) not in (COUNTED, COUNTED + 1):
            return said
        if not all(it.vouches(kind, identifier) for it in self.sides.get(shard.epoch, {}).values()):
            return [answer(DECLINED)]  # a vote counts for all shards of the node, and one of them cannot give it
        if not await self.store.durable() or self.store.losses != losses:
            return [answer(FULL)]
        if kind == ACK and (found := ledger.certified_before(identifier, shard.epoch)):
            return [answer(COUNTED + 1, found)]
        voted = functools.partial(ledger.voted, kind, identifier, self.name)
        if not voted():
            if not self.port.give_way():
                return [answer(*client.LEDGER_AWAY)]  # many requests wait for it already
            try:
                await self.recorders.post(entry_key(self.name, kind, shard.epoch, identifier.hex()))
                if not await self.until(lambda _: voted() or ledger.writing_epoch != shard.epoch, 20):
                    raise Unreachable("the ledger did not show the entry in time")
            except Unreachable as fault:
                self.port.tell(f"{self.name}: acknowledgement or attestation waits for the ledger: {fault}", "ledger")
                return [answer(*client.LEDGER_AWAY)]
            except Refused:  # the vote is there already, or the ledger is ahead of what this node has heard
                pass
        if not voted():
            return [answer(DECLINED)]  # the blob has expired, or the epoch has changed meanwhile
        count = ledger.blobs[identifier].votes[kind][ledger.writing_epoch].bit_count()
        return [answer(COUNTED + (count >= ledger.quorum), count)]

    async def close(self) -> None:
        await self.port.close_port()
        if self.numbers:
            await self.numbers.end(1)
        for task in self.tasks:
            task.cancel()
        await asyncio.gather(*self.tasks, return_exceptions=True)
        await self.intake.close()
        await self.peers.close()
        await self.recorders.aclose()
        self.judges.close()
        self.store.close()
        self.state.close()


def mend_of(settings: Settings, node: Optional[Node]) -> str:
    """Say what to do about a torn database: the copy of the ledger if that one is torn, else the database of parts."""
    if node:
        try:
            node.state.must_be_whole()
        except sqlite3.Error:
            return f"the copy of the ledger {node.state.name} is torn: start the node again, and it is made anew"
    return TORN.format(settings.database)


async def serve(settings: Settings, kind: type[Node] = Node) -> int:
    """Run a node until a signal ends it, or a fault; return the exit status."""
    node, end = None, "cannot start"  # type: Optional[Node], str
    try:
        private_files.begin(settings.database)
        node = kind(settings)
        port = await node.open()
        for number in (signal.SIGINT, signal.SIGTERM):
            asyncio.get_running_loop().add_signal_handler(number, node.fail, None)
        ready(f"{settings.name} {settings.host}:{port}")
        end = "must stop"
        await node.failed
        return 0
    except Exception as fault:
        known = isinstance(fault, (sqlite3.Error, UnicodeDecodeError, Clash, OSError))
        said = str(fault) if known else f"{type(fault).__name__}: {fault}"
        torn = type(fault) in (sqlite3.DatabaseError, UnicodeDecodeError) or "file format" in str(fault)
        advice = f"; {mend_of(settings, node)}" if torn else ""
        print(f"{settings.name}: {end}: {said}{advice}", file=sys.stderr, flush=True)
        return 1
    finally:
        if node:
            await node.close()


def main(kind: type[Node] = Node) -> int:
    parser = argparse.ArgumentParser(description="Runs a node of a walrus network.")
    parser.add_argument("settings", type=pathlib.Path, help="a file with the node's settings")
    lose_lines()
    return loop.run(serve(Settings.read(parser.parse_args().settings), kind))


if __name__ == "__main__":
    sys.exit(main())
