"""The commands of walrus-net for operators: their arguments, and the commands that need no ledger."""
import argparse
import dataclasses
from typing import Any, Awaitable, Callable


from walrus.network.deploy import epochs, up
from walrus.network.deploy.checking import check
from walrus.network.deploy.founding import GATEWAY_PORT, LEAST, Founding, found
from walrus.network.deploy.machine import Place
from walrus.network.files.naming import readable
from walrus.network.gateway import app
from walrus.network.ledger.entries import OPERATOR
from walrus.network.node import node
from walrus.network.peers.network import Access
from walrus.network.recorder import restoring, server
from walrus.network.service import systemd
from walrus.network.service.certificates import AUTHORITY_DAYS, DAYS
from walrus.network.service.failure import Failure
from walrus.network.settings import gateway_options
from walrus.network.settings.file import faults_of_values
from walrus.network.settings.gateway_options import Options
from walrus.network.settings.services import GatewaySettings, RecorderSettings, Settings

Add = Callable[..., argparse.ArgumentParser]
LEAKED = "add --user operator makes another one; the old certificate is valid until it expires, and "
LEAKED += "if its key may be known, all need certificates of new authorities (network/OPERATING.md, The ledger)"


def add_words(add: Add) -> None:
    """Adds the commands of operators to a parser; `add` adds one command with its arguments and options."""
    plain = {"json": (False, "print the result as JSON")}
    heavy = {"concentrated": (False, "let a machine have more than f shards")}
    told: dict[str, Any] = {"epochs": (Options.epochs, "the most epochs for which a file is kept")}
    told |= {"memory": (Options.memory, "bytes of memory that the gateway may use, whatever it is asked")}
    told |= {
        "stale": (Options.stale, "seconds without the ledger until the gateway answers 503")
    } | gateway_options.WORDS
    port = {"host": ("127.0.0.1", "the gateway's address"), "port": (GATEWAY_PORT, "the gateway's port")}
    hands = {"seconds": (600.0, "how long to wait until the epoch has begun"), "yes": (False, "begin without asking")}
    hands |= {"force": (False, "begin even if nodes of up to f shards do not answer")}
    sure = {"yes": (False, "do it without asking")}
    text = "begin an epoch of NODE or NODE*SHARDS, or as now"
    sub = add("handover", text, "folder", "owners*", **hands, **heavy, **plain)
    text = "begin only this epoch, and do nothing if it has begun; by default, begin the next one"
    sub.add_argument("--epoch", type=int, help=text)
    add("begin", "begin the first epoch of a network that was founded", "folder", **plain)
    since = {"since": ("", "when this epoch began, such as 2026-11-29T12:00; now, if it is left out")}
    add("calendar", "plan how long an epoch is, such as 14d, or off", "folder", "length", **since, **sure, **plain)
    sub = add("share", "set how many live blobs a name may have", "folder", "name", **plain)
    sub.add_argument("--blobs", type=int, required=True, help="registrations in an epoch, with live blobs from before")
    add("expel", "make everything void that a name posts from now on, for ever", "folder", "name", **sure, **plain)
    add("scrub", "have a node read and verify all that it holds", "folder", "name", **plain)

    sub = add("found", "make the files of all machines of a network", "folder", "nodes*", **heavy)
    sub.add_argument("--faults", type=int, required=True, metavar="F", help="shards of 3F+1 that may be lost or lie")
    sub.add_argument("--ledger", nargs="+", required=True, metavar="HOST", help="the machines of the ledger")
    sub.add_argument("--prefix", default="", help="goes before /etc/walrus and /var/lib/walrus; no units are made then")
    sub.add_argument("--program", default="/usr/bin/walrus", help="where the program is on the machines")
    sub.add_argument("--days", type=float, default=AUTHORITY_DAYS, help="for which the authorities are valid")
    sub.add_argument("--least", type=float, default=LEAST, metavar="SECONDS", help="that an epoch lasts at least")
    for sub in (sub, add("add", "make the files of further nodes, gateways and users", "folder", "nodes*")):
        sub.add_argument("--gateway", dest="gateways", action="append", default=[], metavar="NAME=HOST[:PORT]")
        sub.add_argument("--user", dest="users", action="append", default=[], metavar="NAME", help="who may post")
    ending = {"within": (30.0, "days within which they expire"), "days": (DAYS, "for which new ones are valid")}
    add("renew", "renew certificates: those named, or those that expire soon", "folder", "names*", **ending)
    add("remove", "remove nodes, gateways and users, and their keys", "folder", "names+")

    more: dict[str, Any]
    quiet = {"seconds": (60.0, "how long to wait for etcd, and while no node reports more")}
    add("restore", "complete a ledger that was restored from a snapshot", "settings", **quiet)
    add("check", "report what is wrong with files of settings", "settings+")
    more = {"metrics": ("", "where Prometheus reads its metrics: PORT, on this machine only, or HOST:PORT")}
    add("node", "run a node", "settings", **more)
    add("recorder", "run a recorder", "settings")
    add("gateway", "run a gateway over its settings, or over a network's folder", "place", **port, **told)
    more = {"faults": (1, "of a fresh network, which has 3 FAULTS + 1 nodes")}
    more |= {"nodes": ("", "NODE or NODE*SHARDS, separated by commas, beside those that are there")}
    more |= {"add": ("", "only make the settings of these nodes, separated by commas")}
    more |= {"detach": (False, "continue in the background once all is ready")}
    add("up", "run etcd, a recorder, nodes and a gateway on this machine", "folder?", **more, **port, **told)


def options_of(words: argparse.Namespace) -> Options:
    made = Options(epochs=words.epochs, stale=words.stale, memory=words.memory, **gateway_options.chosen(words))
    if faults := faults_of_values(dataclasses.asdict(made)):
        raise Failure("; ".join(faults), 2)
    return made


async def run_gateway(words: argparse.Namespace) -> int:
    """Runs a gateway with a file of its settings, or for the network in a folder on this machine."""
    if words.place.is_dir():
        return await app.serve(words.place, words.host, words.port, options_of(words), systemd.ending())
    if (words.host, words.port, options_of(words)) != ("127.0.0.1", GATEWAY_PORT, Options()):
        raise Failure(f"{words.place} has the gateway's settings: set them there, and not as options", 2)
    it = GatewaySettings.read(words.place)
    access = Access(it.name, it.program, it.recorders, it.authority, it.certificate, it.key, it.state)
    return await app.serve(access, it.host, it.port, it, systemd.ending())


async def run_node(words: argparse.Namespace) -> int:
    settings = Settings.read(words.settings)
    settings.metrics = words.metrics or settings.metrics
    return await node.serve(settings)


async def run_recorder(words: argparse.Namespace) -> int:
    return await server.serve(RecorderSettings.read(words.settings))


async def restore(words: argparse.Namespace) -> int:
    return await restoring.serve(RecorderSettings.read(words.settings), words.seconds)


async def run_up(words: argparse.Namespace) -> int:
    return await up.up(words, options_of(words))


async def found_all(words: argparse.Namespace) -> int:
    """Makes the files of all machines, and prints for which machine each folder is."""
    named = [*words.ledger, *words.nodes]
    ledger, nodes = [[it for it in named if ("=" in it) == is_node] for is_node in (False, True)]
    with readable():
        made = found(words.folder, words.faults, ledger, nodes, words)
    for host, services in made.plan["hosts"].items():
        print(f"{words.folder}/hosts/{host} is for {host}:/etc/walrus, which runs {' '.join(services)}")
    print(f"{words.folder}/users/operator is for whoever begins epochs; keep {words.folder} itself off all machines")
    return 0


async def add_more(words: argparse.Namespace) -> int:
    made = Founding(words.folder)
    gateways = [Place.read(it, port=GATEWAY_PORT) for it in words.gateways]
    with readable():
        made.add([*map(Place.read, words.nodes)], gateways, words.users)
    for host, services in made.plan["hosts"].items():
        print(f"{words.folder}/hosts/{host} is for {host}:/etc/walrus, which runs {' '.join(services)}")
    return 0


async def renew(words: argparse.Namespace) -> int:
    made = Founding(words.folder)
    made.must_have(words.names)
    with readable():
        changed = made.renew(words.names, words.within, words.days)
    for path in changed:
        print(f"{path} is new")
    text = "copy its folder to each machine, and restart what runs there, one machine after the other"
    print(text if changed else "no certificate expires so soon")
    return 0


async def remove(words: argparse.Namespace) -> int:
    made = Founding(words.folder)
    for name in words.names:
        where = made.remove(name)
        made.save()  # before the next name, which may not exist
        known = LEAKED if name == OPERATOR else "stop it there; if its key may be known, expel it"
        print(f"{name} is removed, which was at {where}: {known}")
    return 0


async def check_all(words: argparse.Namespace) -> int:
    """Prints what is wrong with files of settings; returns 0 if nothing is, and otherwise 1."""
    bad = 0
    for path in words.settings:
        role, faults, soon = check(path)
        for fault in [*faults, *soon]:
            print(f"{path}: {fault}")
        bad += bool(faults)
        if not faults:
            print(f"{path}: the settings of a {role}, with nothing {'else ' if soon else ''}wrong")
    return int(bool(bad))


RUNS: dict[str, Callable[[argparse.Namespace], Awaitable[int]]] = {
    "handover": epochs.hand_over,
    "begin": epochs.begin,
    "calendar": epochs.plan,
    "share": epochs.post,
    "expel": epochs.post,
    "scrub": epochs.scrub,
    "restore": restore,
    "found": found_all,
    "add": add_more,
    "renew": renew,
    "remove": remove,
    "check": check_all,
    "node": run_node,
    "recorder": run_recorder,
    "gateway": run_gateway,
    "up": run_up,
}
