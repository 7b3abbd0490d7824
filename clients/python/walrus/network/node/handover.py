"""A node's duties as the ledger goes on: what its shards of both committees must hold, and the entries it must post."""
import asyncio
import gc
import sys
from typing import TYPE_CHECKING, Any, Collection, Iterable, Optional


from walrus import client
from walrus.network.ledger.blobs import Owed
from walrus.network.ledger.entries import ACK, ADDRESS, ATTEST, PAST, entry_key
from walrus.network.ledger.follower import Refused

from .progress import MISSING, Progress, in_words
from .recovery import MANY, Lack, attest, by_lanes, passing, settle


if TYPE_CHECKING:
    from .node import Node

TOLD = 10  # missing blobs that a message names at most
SOON, LATEST = 0.5, 10.0  # seconds until lost blobs are tried again: at first, at most
LATER = 60.0  # seconds until a refused address is posted again


async def survey(node: "Node") -> tuple[dict[int, dict[bytes, bool]], list[bytes]]:
    """Return by epoch the blobs that the node owes and a shard lacks, with whether the node has vouched for each; and
    the blobs of the writing epoch that all shards hold and on which it has not voted. A node owes the blobs for which
    it has vouched, by a vote or by `ready`, and all that are certified in the present epoch, or for the next committee;
    what else that committee must hold is the work of `move` until the node is `ready`. At most MANY blobs of an epoch
    are in each."""
    ledger, lacks, unsaid = node.ledger, dict[int, dict[bytes, bool]](), list[bytes]()
    for epoch, side in list(node.sides.items()):
        ready = epoch == ledger.writing_epoch and set(side) <= ledger.ready
        after, own = b"", sum(1 << shard for shard in side)
        while side and (page := ledger.blobs.page(after)):
            first, after = page[0][0], page[-1][0]
            held = [await node.store.settled(shard.holding, epoch, first, after) for shard in side.values()]
            for identifier, blob in page:
                if blob.until <= epoch:
                    continue
                certified = (blob.quorum(ACK, ledger.quorum) or (None,))[0]
                said = any(own & blob.votes[kind].get(epoch, 0) for kind in (ACK, ATTEST))
                if all(identifier in it for it in held):
                    if epoch == ledger.writing_epoch and certified in (None, epoch) and not said and len(unsaid) < MANY:
                        unsaid.append(identifier)
                    continue
                vouched = said or ready and certified is not None and certified < epoch
                owed = vouched or certified is not None and epoch in (ledger.epoch, certified)
                if owed and len(lacks.get(epoch, ())) < MANY:
                    if any(shard.wants(identifier) for shard in side.values()):
                        lacks.setdefault(epoch, {})[identifier] = vouched
    return lacks, unsaid


async def heal(node: "Node") -> None:
    """Recover again and again what the shards lack, once the whole ledger is heard: at once the blobs for which the
    node has vouched, others if they were missing in the last round too; or all that are certified, if more are missing
    than are listed. Then vote on what was recovered, and on what it held without a vote in the last round too."""
    await node.until(lambda _: node.caught_up, None)
    clock, pause, lost = asyncio.get_running_loop().time, 0.0, None  # type: Any, float, Optional[int]
    lacked, late = dict[int, dict[bytes, bool]](), set[bytes]()
    while True:
        async with passing(node.name, "missing blobs are recovered later", LATEST):
            begun = clock()
            lacks, unsaid = await survey(node)
            taken = clock() - begun
            vouched = [*dict.fromkeys(it for blobs in lacks.values() for it, said in blobs.items() if said)]
            urgent = any(map(node.ledger.certificate, vouched))
            lost = tell_lost(node, vouched, lost, urgent, any(len(it) >= MANY for it in lacks.values()))
            for epoch, blobs in lacks.items():
                due = [it for it, said in blobs.items() if said or it in lacked.get(epoch, ())]
                steps: list[Collection[bytes] | Owed] = [due]
                moves = epoch > node.ledger.epoch and not {*node.sides.get(epoch, ())} <= node.ledger.ready
                if len(blobs) >= MANY and not moves:  # all that is certified: after urgent ones, unless all are urgent
                    steps.insert(int(len(due) < MANY), node.ledger.blobs.owed(epoch, epoch))
                for owed in steps:
                    await settle(node, epoch, owed)
            recovered = lacks.get(node.ledger.writing_epoch, {})
            await acknowledge(node, dict.fromkeys([*recovered, *late.intersection(unsaid), *node.unattested]))
            lacked, late = lacks, {*unsaid}
            gc.collect()  # frees connections whose handshake never came, which Python would keep for long
            await asyncio.sleep(max(pause if urgent else node.settings.heal, 20 * taken))
            pause = min(max(2 * pause, SOON), LATEST) if urgent else 0.0


def tell_lost(node: "Node", vouched: list[bytes], lost: Optional[int], urgent: bool, are_more: bool) -> int:
    """Report in the first round the blobs that the node has vouched for and its disk lacks, and later that these are
    recovered. Return `lost` for the next round: how many there were among those listed, or 0 once that is reported."""
    if lost is None and vouched:
        more = f" and {len(vouched) - TOLD} more" if len(vouched) > TOLD else ""
        names = " ".join(it.hex() for it in vouched[:TOLD])
        least = "at least " if are_more else ""
        words = f"{least}{len(vouched)} blobs are lacking on the disk that this node has vouched for, {names}{more}"
        said = f"{words}: the disk lost what it was asked to keep; they are recovered from the others now"
    elif lost and not urgent:
        said = f"{lost - len(vouched)} of them are recovered"
    else:
        return lost or 0
    print(f"{node.name}: {said}", file=sys.stderr, flush=True)
    return len(vouched) if lost is None else 0


async def acknowledge(node: "Node", identifiers: Iterable[bytes]) -> None:
    """Acknowledge blobs that all the node's shards of the writing committee hold, and attest those of which all hold a
    proof of bad encoding instead, unless the ledger has that vote."""
    ledger, side = node.ledger, node.sides.get(node.ledger.writing_epoch, {})

    async def vouch(lack: Lack) -> None:
        shard, identifier = lack
        node.unattested.discard(identifier)
        live = identifier in ledger.blobs and ledger.blobs[identifier].until > shard.epoch
        kinds = [it for it in (ACK, ATTEST) if live and all(own.vouches(it, identifier) for own in side.values())]
        if not kinds or ledger.voted(kinds[0], identifier, node.name):
            return
        if kinds[0] == ACK:
            await node.vouch(ACK, shard, client.write_frame(client.Ack(identifier)))
        else:
            await attest(node, shard, identifier)

    await by_lanes(node, [Lack(shard, it) for shard in [*side.values()][:1] for it in identifiers], vouch)


async def tell_address(node: "Node", host: str, port: str) -> None:
    """Post the address of this node until the ledger accepts it. A refusal, such as of a share that is used up, does
    not end a node that holds blobs: others still ask at its earlier address. A node that is expelled ends anyway, as
    it hears nothing more."""
    said = ""
    while True:
        try:
            await node.recorders.post(entry_key(node.name, ADDRESS, host, port), None)
            return
        except Refused as fault:
            if str(fault) != said:
                said = str(fault)
                text = f"the ledger does not take the address {host}:{port}, so the one that it has stays: {said}"
                print(f"{node.name}: {text}; it is posted again later", file=sys.stderr, flush=True)
        await asyncio.sleep(LATER)


async def tell_past(node: "Node") -> None:
    """Post each epoch change that this disk has (`past`), so that the ledger may drop the entries before it."""
    name, ledger = node.name, node.ledger
    while True:
        await node.until(lambda it: name in it.nodes and it.past.get(name, 0) < it.epoch, None)
        try:
            await node.recorders.post(entry_key(name, PAST, ledger.epoch), None)
        except Refused:
            await asyncio.sleep(1)  # the epoch is just changing


async def hand_over(node: "Node") -> None:
    """Do this node's part in each handover, once it is known which of its files are missing."""
    await node.scrub.compared.wait()
    while True:
        await node.until(lambda ledger: ledger.moving, None)
        await move(node)


async def move(node: "Node") -> None:
    """Do this node's part in the handover under way until it ends: recover what is missing, post ready and finish."""
    ledger, pause, said, clock = node.ledger, 0.2, 0, asyncio.get_running_loop().time
    epoch = ledger.epoch + 1
    while ledger.moving and ledger.epoch + 1 == epoch:
        begun = clock()
        own, revision = set(node.sides.get(epoch, ())), ledger.revision  # empty until `begin` is on the disk
        async with passing(node.name, f"epoch {epoch}"):
            progress = Progress(epoch)
            left = 0 if own <= ledger.ready else await settle(node, epoch, ledger.must_hold(), progress)
            node.waits = {"epoch": epoch, "blobs": left, "first": progress.first} if left else {}
            if left and left != said:
                print(f"{node.name}: epoch {epoch} {in_words(node.waits)}; {MISSING}", file=sys.stderr, flush=True)
            said = left
            if (
                own
                and not left
                and not own <= ledger.ready
                and (early := node.settings.least - node.state.begun.seconds) > 0
            ):
                text = f"epoch {epoch - 1} lasts at least {node.settings.least:g} s by this clock"
                print(f"{node.name}: epoch {epoch}: {text}, so ready in {early:.0f} s", file=sys.stderr, flush=True)
                await node.until(lambda it: not it.moving or it.epoch + 1 != epoch, early)
            elif own and not left and not own <= ledger.ready:
                await node.recorders.post(entry_key(node.name, "ready", epoch))
            if own and ledger.moving and len(ledger.ready) >= ledger.quorum:
                await node.recorders.post(entry_key(node.name, "finish", epoch))
        if said and ledger.moving:  # a pause, as each round reads all live blobs, however many entries come
            await asyncio.sleep(min(LATEST, 2 * (clock() - begun)))
        await node.until(lambda it: it.revision != revision, pause)
        pause = min(2 * pause, 5.0)
    node.waits = {}
