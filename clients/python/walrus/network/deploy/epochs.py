"""What operators do over the ledger: begin and plan epochs, set shares, expel names, and have nodes scrub their
disks."""
import argparse
import collections
import contextlib
import datetime
import json
import re
import sys
import time
from typing import Sequence


from walrus import client
from walrus.network.ledger.calendar import seconds_of
from walrus.network.ledger.entries import OPERATOR, entry_key
from walrus.network.ledger.rules import Ledger
from walrus.network.node.progress import MISSING, in_words, waits_of
from walrus.network.peers.network import Network
from walrus.network.peers.seats import FIGURES, SCRUB, Seat
from walrus.network.service.failure import Failure
from walrus.network.service.names import NAME
from walrus.network.service.task_groups import all_of


SHORT = 60  # minutes of an epoch below which a plan may be a slip, such as 1m for a month
NAMED = 20  # blobs ending with an epoch that are printed at most, before the number of the others
SNAPSHOT = "; take a snapshot of the ledger before you remove nodes without shards (network/OPERATING.md)"


def shards_of(words: list[str]) -> list[str]:
    """Returns the node of each shard from words NODE or NODE*SHARDS."""
    found = [re.fullmatch(r"([^*]+)(?:\*([1-9]\d{0,3}))?", it) for it in words]
    if not all(it and NAME.fullmatch(it[1]) for it in found):
        raise Failure("name nodes as NODE, or NODE*SHARDS", 2)
    return [it[1] for it in found if it for _ in range(int(it[2] or 1))]


def arranged(now: Sequence[str], owners: Sequence[str]) -> list[str]:
    """Returns these owners in an order in which each keeps as many of its shards as it can; other shards go to
    the remaining names in alphabetical order. What a shard holds stays with its number, and a shard that moves is
    filled from the others: so only names and counts matter in a command."""
    left, kept = collections.Counter(owners), list[str]()
    for name in now:
        kept.append(name if left[name] else "")
        left[name] -= bool(left[name])
    rest = iter(sorted(left.elements()))
    return [name or next(rest) for name in kept]


def must_be_equal(network: Network, owners: list[str], faults: int) -> None:
    """Raises `Failure` if a machine would have more than f shards; on loopback each node counts as a machine."""
    hosts = {name: network.ledger.addresses[name][0] for name in owners}
    counts = collections.Counter(name if is_loopback(hosts[name]) else hosts[name] for name in owners)
    host, count = counts.most_common(1)[0]
    if count > faults:
        raise Failure(f"{host} has {count} shards, and {faults} may be lost: --concentrated begins anyway", 1)


def is_loopback(host: str) -> bool:
    return host in ("localhost", "::1") or host.startswith("127.")


async def must_answer(network: Network, owners: list[str], faults: int, force: bool) -> None:
    """Raises `Failure` if a name is expelled or has posted no address to the ledger, or if a node does not answer with
    a certificate of its name. With `force`, nodes of up to f shards need not answer."""
    names = list(dict.fromkeys(owners))
    expelled = [name for name in names if name in network.ledger.expelled]
    if expelled:
        text = f"{' and '.join(expelled)} would hold shards, but entries of an expelled name do not count"
        raise Failure(f"{text}: give them to another node; nothing was begun", 1)
    unknown = [name for name in names if name not in network.ledger.addresses]
    if unknown:
        text = f"{' and '.join(unknown)} told the ledger no address"
        raise Failure(f"{text}: start the node, or correct the name; nothing was begun", 1)

    async def fault(name: str) -> str:
        async with Seat(network.peers, name, 0, faults) as seat:
            try:
                await seat.ask(client.write_frame(client.Read(bytes(32))))
            except ConnectionError as fault:
                return f"{name} does not answer ({fault})"
        return ""

    said = dict(zip(names, await all_of(map(fault, names))))
    lost = sum(bool(said[name]) for name in owners)
    text = "; ".join(filter(None, said.values()))
    if lost > faults:
        raise Failure(f"{text}: too few are left to finish, so nothing was begun", 1)
    if lost and not force:
        raise Failure(f"{text}: nothing was begun; --force begins all the same", 1)


def must_agree(text: str, words: argparse.Namespace, nothing: str = "nothing was begun", does: str = "begins") -> None:
    """Asks at the terminal, unless `--yes` was given; raises `Failure` if the answer is not yes."""
    if words.yes:
        return
    if not sys.stdin.isatty():
        raise Failure(f"{nothing}, as there is no terminal to ask at: --yes {does} without asking", 1)
    if input(f"{text} [y/N] ").strip().lower() not in ("y", "yes"):
        raise Failure(nothing, 1)


async def hand_over(words: argparse.Namespace) -> int:
    """Prints which blobs end with the epoch, and hands over to the next committee; returns once its epoch has begun.
    With `--epoch` it may be repeated: it begins that epoch only, and does nothing if that has begun."""
    async with Network(words.folder, OPERATOR) as network:
        ledger = network.ledger
        epoch = ledger.epoch + 1 if words.epoch is None else words.epoch  # which may be 0
        named, needed = shards_of(words.owners or list(ledger.now)), 3 * ledger.faults + 1
        if not ledger.now:
            raise Failure("there is no committee yet: walrus-net begin begins the first one", 1)
        if len(named) != needed:
            raise Failure(f"name the nodes of {needed} shards, not of {len(named)}", 2)
        if epoch > ledger.epoch + 1:
            raise Failure(f"epoch {ledger.epoch + 1} comes next, not epoch {epoch}: nothing was begun", 1)
        if epoch <= ledger.epoch:
            return has_begun(ledger, epoch, named, words.json)
        owners = arranged(ledger.writing, named)
        if owners != [*ledger.next]:  # otherwise this handover is under way, whoever does not answer now
            await must_answer(network, named, ledger.faults, words.force)
        if sorted(owners) != sorted(ledger.now) and not words.concentrated:
            must_be_equal(network, owners, ledger.faults)
        ended = [it.hex() for it in ledger.blobs.ending(b"", epoch, len(ledger.blobs))]
        leave = {*ledger.now} - {*owners}
        if not words.json:
            tell_of(network, owners, ended, owners != named)
        must_agree(f"begin epoch {epoch}?", words)
        begun = time.monotonic()
        await network.begin(ledger.faults, owners, epoch)  # not a later one, if another command began this
        if not await network.until(lambda it: it.epoch >= epoch, words.seconds):
            cause = network.away_since(begun) or await waits_for(network) or "look at its nodes' logs"
            text = f"epoch {epoch} has not begun after {words.seconds:g} s: {cause}. The handover goes on; "
            later = f"wait for it with --epoch {epoch}, as this command would later begin epoch {epoch + 1}"
            raise Failure(text + (later if words.epoch is None else "wait for it with the same command"), 1)
        told = {"epoch": epoch, "nodes": owners, "ended": ended}
        text = f"epoch {epoch} has begun" + (SNAPSHOT if leave else "")
        print(json.dumps(told) if words.json else text)
    return 0


async def waits_for(network: Network) -> str:
    """Returns for which blobs the handover under way waits, by the nodes that are not ready; empty if none says so."""
    ledger = network.ledger
    names = dict.fromkeys(name for shard, name in enumerate(ledger.next) if shard not in ledger.ready)

    async def told(name: str) -> str:
        with contextlib.suppress(ConnectionError):
            if (waits := waits_of(await network.peers.told(name, FIGURES))) and waits["epoch"] == ledger.writing_epoch:
                return f"{name} {in_words(waits)}"
        return ""

    said = [it for it in await all_of(map(told, names)) if it]
    return f"{'; '.join(said)}; {MISSING}" if said else ""


def has_begun(ledger: Ledger, epoch: int, named: list[str], as_json: bool) -> int:
    """Prints that an epoch has begun before; raises `Failure` if the committee has other nodes than those named."""
    if sorted(named) != sorted(ledger.now):
        raise Failure(f"epoch {epoch} has begun, and the committee has other nodes than these: nothing was begun", 1)
    told = {"epoch": ledger.epoch, "nodes": list(ledger.now), "ended": []}
    print(json.dumps(told) if as_json else f"epoch {epoch} has begun before: nothing was begun")
    return 0


def tell_of(network: Network, owners: list[str], ended: list[str], reordered: bool) -> None:
    """Prints what a handover changes; also which shards move if the names had another order than the shards."""
    ledger, old, new = network.ledger, {*network.ledger.now}, {*owners}
    for text, names in (("takes shards over", new - old), ("has no shards any more", old - new)):
        for name in sorted(names):
            print(f"{name} {text}")
    if reordered:
        moved = [f"{it} takes over shard {number}" for number, it in enumerate(owners) if it != ledger.now[number]]
        more = [f"{len(moved) - NAMED} more shards move"] if moved[NAMED:] else []
        print(f"the order of the names does not count: {', '.join(moved[:NAMED] + more) or 'no shard moves'}")
    for name in ended[:NAMED]:
        print(f"{name} ends with epoch {ledger.epoch}")
    if ended[NAMED:]:
        print(f"and {len(ended) - NAMED} more end with epoch {ledger.epoch}")
    sys.stdout.flush()


async def begin(words: argparse.Namespace) -> int:
    """Begins the first epoch of a network, with the nodes in its plan; those that were added since are spare ones. Does
    nothing if it has begun."""
    plan = json.loads((words.folder / "network.json").read_text())
    if "nodes" not in plan:
        raise Failure(f"{words.folder} does not say with which nodes the network was founded", 2)
    owners = [name for name, (_, _, shards) in plan["nodes"].items() for _ in range(shards)][: 3 * plan["faults"] + 1]
    async with Network(words.folder, OPERATOR) as network:
        if network.ledger.now:
            return has_begun(network.ledger, 0, list(network.ledger.now), words.json)
        await network.until(lambda it: {*owners} <= {*it.addresses}, 20)  # which a node posts soon after its start
        await must_answer(network, owners, plan["faults"], False)
        await network.begin(plan["faults"], owners, 0)
        if not await network.until(lambda it: it.now):
            raise Failure("the ledger does not show the committee", 1)
    print(json.dumps({"epoch": 0, "nodes": owners}) if words.json else "epoch 0 has begun")
    return 0


async def post(words: argparse.Namespace) -> int:
    """Sets the share of a name, or expels it; but not the operator, as no order would count any more. Asks before it
    expels a name, as that cannot be undone."""
    if words.command == "expel" and words.name == OPERATOR:
        text = "no epoch could begin any more, and that cannot be undone"
        raise Failure(f"{OPERATOR} cannot be expelled: {text} (network/OPERATING.md)", 2)
    fields = [words.name, words.blobs] if words.command == "share" else [words.name]
    text = f"{words.name} may register {words.blobs} blobs" if words.command == "share" else f"{words.name} is expelled"
    async with Network(words.folder, OPERATOR) as network:
        if words.command == "expel":
            if not words.json:
                print(known_of(network.ledger, words.name), flush=True)
            if words.yes and network.ledger.moving and (lost := lost_with(network.ledger, words.name)):
                raise Failure(f"{words.name} is not expelled: {lost}; without --yes you are asked", 1)
            must_agree(f"expel {words.name} for ever?", words, f"{words.name} is not expelled", "expels it")
        place = await network.recorders.post(entry_key(OPERATOR, words.command, *fields))
    print(json.dumps({"name": words.name, "place": place}) if words.json else f"{text}, from place {place} on")
    return 0


def lost_with(ledger: Ledger, name: str) -> str:
    """Returns what is lost if a node is expelled after others; an empty text if at most f shards are."""
    gone = {*ledger.expelled, name}
    lost = max(sum(it in gone for it in owners) for owners in (ledger.now, ledger.next))
    if lost <= ledger.faults or name not in ledger.nodes:
        return ""
    text = "this handover may never end" if ledger.moving else "nothing is stored before a handover"
    return f"in all {lost} shards of expelled nodes, so {text}"


def known_of(ledger: Ledger, name: str) -> str:
    """Returns what the ledger knows of a name, so that a misspelt one is noticed before it is expelled."""
    shards, live = max(ledger.now.count(name), ledger.next.count(name)), ledger.blobs.posters()[name]
    known = [f"{shards} shards, and {ledger.faults} may be lost"] if shards else []
    known += filter(None, [lost_with(ledger, name)])
    known += [f"{live} live blobs"] if live else []
    known += [f"a share of {ledger.shares[name]}"] if name in ledger.shares else []
    known += [f"the address {ledger.addresses[name][0]}"] if name in ledger.addresses else []
    return f"{name} has {', '.join(known)}" if known else f"the ledger knows nothing of {name}: is it spelt so?"


async def plan(words: argparse.Namespace) -> int:
    """Posts the planned length of epochs, from the present one on, or that there is no plan. Asks first if by the plan
    the present epoch is over or has not begun, or if epochs are very short: a timer might begin one in each run."""
    minutes = 0 if words.length == "off" else seconds_of(words.length) // 60
    since = datetime.datetime.fromisoformat(words.since) if words.since else datetime.datetime.now()
    begins, late = since.astimezone(datetime.timezone.utc).strftime("%Y-%m-%dT%H:%MZ"), time.time() - since.timestamp()
    async with Network(words.folder, OPERATOR) as network:
        epoch = network.ledger.epoch
        told = f"epoch {epoch} counts from {begins}, and each has {words.length} ({minutes:,} minutes)"
        if minutes and (minutes < SHORT or not 0 <= late < 60 * minutes):
            told += f": so epoch {epoch + late // 60 // minutes:.0f} is due now"
            must_agree(f"{told}: post this plan?", words, f"{told}: no plan was posted", "posts it")
        fields = [epoch, int(since.timestamp()) // 60, minutes] if minutes else [0, 0, 0]
        place = await network.recorders.post(entry_key(OPERATOR, "calendar", *fields))
    text = told if minutes else "there is no plan"
    print(json.dumps({"calendar": fields, "place": place}) if words.json else f"{text}, from place {place} on")
    return 0


async def scrub(words: argparse.Namespace) -> int:
    """Has a node begin a scrub, unless one is under way."""
    async with Network(words.folder, OPERATOR) as network:
        told = await network.peers.told(words.name, SCRUB)
    held = told.get("held", {})
    text = f"{words.name} reads what it holds: {held.get('blobs')} blobs, {held.get('bytes')} bytes"
    print(json.dumps(told) if words.json else text)
    return 0
