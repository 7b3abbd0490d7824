"""The gateway's view of the network: its status as JSON, for the page and programs, and metrics for Prometheus."""
import asyncio
import collections
import itertools
import json
import random
import sys
import time
from typing import Any, Iterable, Mapping, Optional


from walrus import audit, client
from walrus.client.shards import Asked
from walrus.network.gateway.http.errors import NO_BLOB, Problem, as_line
from walrus.network.gateway.resources.memory import LEAST, Memory
from walrus.network.gateway.resources.turns import ASKING, Turns
from walrus.network.ledger.calendar import calendar_of, date_of
from walrus.network.ledger.entries import ACK, ATTEST
from walrus.network.ledger.follower import AWAY
from walrus.network.ledger.live_blob import shards_in
from walrus.network.node.progress import Waits, is_figure, waits_of
from walrus.network.peers.network import Network
from walrus.network.peers.seats import FIGURES, Peers, Seat
from walrus.network.service.histograms import Times
from walrus.network.service.task_groups import all_of
from walrus.network.settings.gateway_options import Options

from . import health
from .sorter import Sorter


RECENT, FINDINGS, FRESH, LOOKED = 100, 10, 0.5, 2_000  # the most files and challenges in the status; seconds
# for which the status and metrics are reused; recent blobs among which files are looked for
DRAWS, CHALLENGES = 4, 8  # symbols that a challenge draws; challenges at once
TIMES = 3  # memory that a challenge takes, in multiples of what a node may return
FIGURE_NAMES = {  # what the status has of a node's figures, by group
    "held": ("blobs", "bytes", "wrong"),
    "ledger": ("place",),
    "disk": ("bytes", "used", "free", "reserve"),
    "memory": ("bytes", "taken"),
    "recovered": ("epoch", "of", "of_bytes", "blobs", "bytes"),
    "scrub": ("running", "begun", "ended", "blobs", "bytes", "wrong", "swept", "unnamed"),
}
DRAWN = random.SystemRandom()


Finding = dict[str, Any]  # of a challenge: `blob`, `node`, whether it `holds` a part, `said` in words, and the `time`


Figures = dict[str, dict[str, float]]  # figures of a node, by group and name


def need_of(faults: int) -> int:
    """Returns the memory that a challenge takes, for the symbols or else for a proof of bad encoding."""
    shape = client.Shape(faults)
    return LEAST + TIMES * max(DRAWS * shape.widest, shape.longest)


def numbers(told: dict[str, Any]) -> Figures:
    """Returns the known figures of a node that are valid numbers; a node may send anything."""
    named = {group: told[group] for group in FIGURE_NAMES if isinstance(told.get(group), dict)}
    return {
        group: {it: int(parts[it]) for it in FIGURE_NAMES[group] if is_figure(parts.get(it))}
        for group, parts in named.items()
    }


class Watch:
    """Checks regularly whether nodes answer, and challenges one at times to show symbols of a blob that it should hold.
    Its task (`task`) runs until `close`."""

    def __init__(self, network: Network, memory: Memory, options: Options, sorter: Optional[Sorter] = None):
        self.network, self.options, self.sorter = network, options, sorter
        self.memory, self.turns = memory, Turns(CHALLENGES)
        # Its own, so that no check waits behind a long transfer.
        self.peers = Peers(network.ledger, network.authority, 10, network.files)
        self.faults, self.figures = dict[str, str](), dict[str, Figures]()
        self.waits = dict[str, Waits]()  # what a handover waits for at a node
        self.findings: "collections.deque[Finding]" = collections.deque(maxlen=FINDINGS)
        self.held: "collections.Counter[str]" = collections.Counter()
        self.announced: Iterable[dict[str, Any]] = ()  # findings of the `Announcer`: badly encoded blobs and outcomes
        self.told: tuple[float, bytes] = (-FRESH, b"")  # when the status was made last, and its text
        self.metered: tuple[float, bytes] = (-FRESH, b"")  # the same for the metrics
        self.task = asyncio.create_task(all_of([self.probe(), self.learn(), self.challenge_some()]))

    async def close(self) -> None:
        self.task.cancel()
        await asyncio.gather(self.task, return_exceptions=True)
        await self.peers.close()

    def nodes(self) -> list[str]:
        return sorted(self.network.ledger.nodes)

    def seat(self, name: str, epoch: int) -> Optional[Seat]:
        """Returns a random one of a node's shards in the committee of an epoch; None if it has none."""
        ledger = self.network.ledger
        seats = self.peers.seats(ledger.owners(epoch), ledger.faults)
        own = [seat for seat in seats if seat.name == name]
        return DRAWN.choice(own) if own else None

    async def probe(self) -> None:
        while True:
            await all_of(map(self.ask, self.nodes()))
            await asyncio.sleep(self.options.probe)

    async def learn(self) -> None:
        """Finds out which of the last blobs are files. This runs separately, as reading one may take minutes."""
        while self.sorter:
            try:
                await self.sorter.learn(self.last())
            except Exception as fault:  # whatever a blob has, as in `challenge_some`
                print(f"a blob's length is not known: {fault}", file=sys.stderr, flush=True)
            await asyncio.sleep(self.options.probe)

    def last(self) -> list[bytes]:
        """Returns the last blobs, newest first, without pieces of files as far as they are known."""
        some = itertools.islice(reversed(self.network.ledger.blobs), LOOKED)
        return [*itertools.islice(self.sorter.files(some) if self.sorter else some, RECENT)]

    def known(self) -> health.Nodes:
        return health.Nodes(self.faults, self.figures)

    def away(self) -> dict[str, Any]:
        """Returns for how long the ledger was not heard, whether that is too long and why, and its last place."""
        seconds = self.network.silence()
        stale = seconds > self.options.stale
        said = f"no recorder tells it: {self.network.recorders.said}" if stale else ""
        told = {"away": round(seconds, 1) if seconds > AWAY else 0.0, "stale": stale, "said": said}
        return {**told, "place": self.place()}

    def place(self) -> int:
        """Returns the place of the last entry that was heard, or 0."""
        return self.network.chain.place if self.network.chain else 0

    async def ask(self, name: str) -> None:
        """Notes whether a node answers, and its figures. Any request will do, here a read of a blob that none has."""
        ledger = self.network.ledger
        seat = self.seat(name, ledger.epoch) or self.seat(name, ledger.writing_epoch)
        try:
            if seat:
                await seat.ask(Asked.of(client.write_frame(client.Read(bytes(32))), 0, 0))
                said = await self.peers.told(name, FIGURES)
                self.figures[name], self.waits[name] = (told := numbers(said)), waits_of(said)
                if "place" in told.get("ledger", {}):
                    told["ledger"]["behind"] = max(0, self.place() - told["ledger"]["place"])
            self.faults[name] = ""
        except ConnectionError as fault:
            self.faults[name] = str(fault)

    async def challenge_some(self) -> None:
        while self.options.challenge:
            await asyncio.sleep(self.options.challenge)
            ledger = self.network.ledger
            drawn = [it for it in (ledger.blobs.draw(DRAWN) for _ in range(DRAWS)) if it and ledger.certificate(it)]
            try:
                for identifier in [it for it in drawn if not ledger.invalid(it)][:1]:
                    await self.challenge(identifier, DRAWN.choice(ledger.owners(ledger.home_epoch(identifier))))
            except Exception as fault:  # whatever a node returns, checks continue and the next challenge is made
                print(f"a challenge fails: {type(fault).__name__}: {fault}", file=sys.stderr, flush=True)

    async def challenge(self, identifier: bytes, name: str) -> Finding:
        """Has a node return symbols at random places of a blob, verifies them, and returns the finding. Raises
        `Problem` (404) if the node has no shard that answers for the blob."""
        seat = self.seat(name, self.network.ledger.home_epoch(identifier))
        if seat is None:
            raise Problem(404, "no node of this name has a shard in the committee that answers for the blob")
        async with self.turns.take(ASKING.get()), self.memory.share(need_of(self.network.ledger.faults)):
            held, said = await audit.audit(seat, identifier, DRAWN.randbytes(32), DRAWS, self.network.walrus)
            said = (
                f"{DRAWS} drawn symbols of shard {seat.number} lead to the blob's root"
                if held
                else f"{DRAWS} symbols were drawn: {said}"
            )
            if not held and await self.proves(seat, identifier):
                held, said = True, "it holds a proof that the blob was badly encoded"
        found = {"blob": identifier.hex(), "node": name, "holds": held, "said": said, "time": round(time.time(), 3)}
        self.findings.appendleft(found)
        self.held["held" if held else "lacking"] += 1
        return found

    async def proves(self, seat: Seat, identifier: bytes) -> bool:
        """Whether a shard returns a valid proof of bad encoding, which it may hold in place of slivers."""
        _, kept, _ = await client.listen(seat, Asked.for_proof(client.write_frame(client.Read(identifier))))
        return await client.proves(kept, identifier, self.network.walrus)

    def blob(self, identifier: bytes) -> dict[str, Any]:
        """Returns what the ledger has about a blob, and how many of its shards are live; raises `Problem` (404)."""
        ledger = self.network.ledger
        blob, found = ledger.blobs.get(identifier), ledger.certificate(identifier)
        if blob is None:
            raise Problem(404, NO_BLOB)
        epoch = found[0] if found else ledger.writing_epoch
        owners = {ledger.epoch: ledger.now, ledger.writing_epoch: ledger.writing}
        acks = {*shards_in(blob.votes[ACK].get(epoch, 0))}
        attests = shards_in(blob.votes[ATTEST].get(ledger.writing_epoch, 0))

        def names(shards: Iterable[int], of: int) -> list[str]:
            known = owners.get(of, ())
            return list(dict.fromkeys(known[it] if known else f"shard {it}" for it in sorted(shards)))

        states = health.shards_of(ledger, identifier, self.known(), self.findings)
        return {
            **(self.sorter.told(identifier) if self.sorter else {}),
            "live": sum(it in health.LIVE for it in states),
            "blobId": identifier.hex(),
            "endEpoch": blob.until,
            "ends": date_of(ledger, blob.until),
            "certificate": {"epoch": found[0], "count": found[1]} if found else None,
            "acknowledged": names(acks, epoch),
            "lacking": names({it for it, _ in enumerate(owners.get(epoch, ()))} - acks, epoch),
            "needed": max(0, ledger.quorum - len(acks)),
            "invalid": ledger.invalid(identifier),
            "attested": names(attests, ledger.writing_epoch),
        }

    def with_shards(self, identifier: bytes) -> dict[str, Any]:
        """Returns what is known of a blob, with the state and last challenge of each of its shards."""
        ledger, told = self.network.ledger, self.blob(identifier)
        states = health.shards_of(ledger, identifier, self.known(), self.findings)
        shown = {it["node"]: it for it in reversed(self.findings) if it["blob"] == identifier.hex()}
        owners = ledger.owners(ledger.home_epoch(identifier))
        each = zip(itertools.count(), owners, states)
        shards = [{"shard": it, "node": name, "state": state, "challenge": shown.get(name)} for it, name, state in each]
        return {**told, "faults": ledger.faults, "quorum": ledger.quorum, "shards": shards}

    def status(self) -> dict[str, Any]:
        """Returns the state of the network, and of its last blobs."""
        ledger = self.network.ledger
        told = {name: getattr(ledger, name) for name in ("epoch", "moving", "faults", "quorum")}
        return told | {
            "ledger": (away := self.away()),
            "storing": health.storing(ledger, self.known(), away),
            "calendar": calendar_of(ledger),
            "shards": len(ledger.now),
            "ready": len(ledger.ready) if ledger.moving else 0,
            "nodes": [self.node(name) for name in self.nodes()],
            "blobs": ledger.blobs.counts(),
            "recent": [self.blob(it) for it in self.last()],
            "challenges": list(self.findings),
            "announced": list(self.announced),
        }

    def node(self, name: str) -> dict[str, Any]:
        ledger, fault = self.network.ledger, self.faults.get(name)
        now, later = ([at for at, it in enumerate(owners) if it == name] for owners in (ledger.now, ledger.next))
        state = "unknown" if fault is None else "silent" if fault else "answers"
        told = {"name": name, "shards": now, "next": later, "ready": bool(later) and set(later) <= ledger.ready}
        told |= {"state": state, "said": fault or "", "figures": self.figures.get(name, {})}
        waits = self.waits.get(name) if ledger.moving and not told["ready"] else None
        return told | {"waits": waits if waits and waits["epoch"] == ledger.writing_epoch else None}

    def status_text(self) -> bytes:
        """Returns the status as a line of JSON. It is made at most twice a second, however many clients ask."""
        now = time.monotonic()
        if now - self.told[0] > FRESH:
            self.told = now, as_line(self.status())
        return self.told[1]

    def metrics(self, counts: Mapping[str, Any], sizes: Mapping[str, Any], times: Mapping[str, Times]) -> bytes:
        """Returns the status and further numbers in Prometheus' text format: `counts` are counters, `sizes` gauges, and
        `times` histograms, by name. It, too, is made at most twice a second."""
        now = time.monotonic()
        if now - self.metered[0] > FRESH:
            self.metered = now, self.meter(counts, sizes, times)
        return self.metered[1]

    def meter(self, counts: Mapping[str, Any], sizes: Mapping[str, Any], times: Mapping[str, Times]) -> bytes:
        """Makes the text that `metrics` returns."""
        from walrus.network.service import metrics  # imported only here, as loading takes a while

        status = json.loads(self.status_text())
        nodes = {f'node="{it["name"]}"': int(it["state"] == "answers") for it in status["nodes"]}
        blobs = {f'state="{it}"': count for it, count in status["blobs"].items()}
        gauges = {**sizes, **{it: int(status[it]) for it in ("epoch", "moving", "ready", "shards", "faults")}}
        away = status["ledger"]
        gauges |= {"ledger_stale": int(away["stale"]), "ledger_away_seconds": away["away"]}
        gauges |= {"ledger_place": away["place"], "storing": status["storing"]["shards"]}
        counts = {**counts, "challenges": {f'found="{it}"': self.held[it] for it in ("held", "lacking")}}
        figures: dict[str, dict[str, float]] = collections.defaultdict(dict)
        for it in status["nodes"]:
            for group, parts in it["figures"].items():
                for name, value in parts.items():
                    figures[f"node_{group}_{name}"][f'node="{it["name"]}"'] = value
        return metrics.told(counts, {**gauges, "blobs": blobs, "node_answers": nodes, **figures}, times)
