"""The files of all machines of a network, made in the folder that has its authorities' keys, and copied from there.

FOLDER/network.json is the plan. FOLDER/hosts/HOST becomes /etc/walrus on HOST, and FOLDER/users/NAME a folder of that
user's."""
import dataclasses
import json
import pathlib
import shutil
from typing import Any, Iterable, Optional, Sequence


from walrus.network import TOP
from walrus.network.files.naming import written_whole
from walrus.network.ledger.entries import LONGEST, MOST_FAULTS, OPERATOR, entry_key
from walrus.network.service import certificates, private_files
from walrus.network.service.names import HOST

from .machine import AUTHORITY, ETCD_AUTHORITY, KEPT, Machine, Place, Unfounded, can_be_named

PLAN = "network.json"
RECORDER_PORT, GATEWAY_PORT, CLIENTS, MEMBERS = 31_416, 31_415, 2_379, 2_380
LEAST = 3_600.0  # seconds that an epoch lasts at least, unless it is founded otherwise


def owners_of(places: Iterable[Place]) -> list[str]:
    """Returns the node of each shard of a committee, by the number of shards that each place has."""
    return [place.name for place in places for _ in range(place.shards)]


def must_fit(faults: int, places: Sequence[Place], concentrated: bool) -> None:
    """Raises `Unfounded` if nodes do not make a committee, or a machine has more than f shards and `concentrated` does
    not allow that."""
    owners, needed = owners_of(places), 3 * faults + 1
    if not 0 < faults <= MOST_FAULTS:
        raise Unfounded(f"faults is a number from 1 to {MOST_FAULTS}")
    if len(owners) != needed:
        raise Unfounded(f"with {faults} faults the nodes must have {needed} shards in total, not {len(owners)}")
    if len(entry_key(OPERATOR, "begin", 0, faults, ",".join(owners))) > LONGEST:
        raise Unfounded(f"the names of {needed} shards are too long for one entry: take shorter ones")
    for host in {place.host for place in places}:
        count = sum(place.shards for place in places if place.host == host)
        if count > faults and not concentrated:
            text = f"{host} has {count} shards, and the network tolerates the loss of {faults}"
            raise Unfounded(f"{text}: use more machines, or give --concentrated")


def must_be_named(
    nodes: Sequence[Place], gateways: Sequence[Place], users: Sequence[str], known: Iterable[str] = ()
) -> None:
    """Raises `Unfounded` if one of these cannot have its name, or if two names, with those in `known`, differ at most
    by case, as TLS takes one for the other."""
    for name in users:
        if not can_be_named(name) or name.lower() in KEPT and name != OPERATOR:
            raise Unfounded(f"{name} cannot be a user's name")
    for place in nodes:
        if not HOST.fullmatch(place.host):
            raise Unfounded(f"{place.name}: the ledger does not accept an address like {place.host}")
    there, names = {*map(str.lower, known)}, [*users, *(it.name for it in [*nodes, *gateways])]
    for name in names:
        if name.lower() in there:
            raise Unfounded(f"{name} is there already")
    if len({*map(str.lower, names)}) < len(names):
        raise Unfounded("each node, gateway and user has a name of its own")


def write_plan(folder: pathlib.Path, plan: dict[str, Any]) -> None:
    """Replaces a plan; if the disk does not take the new one, the old one stays."""
    with written_whole(str(folder / PLAN)) as out:
        out.write(json.dumps(plan, indent=1).encode())


def remove_folder(folder: pathlib.Path) -> None:
    """Removes a folder if it exists."""
    if folder.exists():
        shutil.rmtree(folder)


class Founding:
    """The folder in which a network is founded; it need not be on one of the network's machines."""

    def __init__(self, folder: pathlib.Path, plan: Optional[dict[str, Any]] = None):
        self.folder = folder
        path = folder / PLAN
        if plan is None and not path.exists():
            raise Unfounded(f"{folder} has no {PLAN}: walrus-net found makes it")
        self.plan: dict[str, Any] = json.loads(path.read_text()) if plan is None else plan
        if "hosts" not in self.plan:
            raise Unfounded(
                f"{folder} is a network on one machine, which network/up renews at each start and adds to (--add)"
            )

    @classmethod
    def begin(cls, folder: pathlib.Path, plan: dict[str, Any], days: float) -> "Founding":
        """Makes a folder with the authorities. It counts as a network once the plan is saved."""
        if (folder / PLAN).exists():
            raise Unfounded(f"{folder} has a network already")
        private_files.make_folder(folder)
        for name in (AUTHORITY, ETCD_AUTHORITY):
            certificates.make_authority(folder / name, days)
        return cls(folder, {**plan, "hosts": {}})

    def save(self) -> None:
        """Writes the plan to the folders of users, and last to the network's own folder, where it counts."""
        for path in [*(self.folder / "users").glob("*"), self.folder]:
            write_plan(path, self.plan)

    def machine(self, host: str, *services: str) -> Machine:
        """Returns the machine of a host, and adds these services to those that it runs."""
        self.plan["hosts"].setdefault(host, []).extend(services)
        prefix, into = self.plan["prefix"], self.folder / "hosts" / host
        return Machine(self.folder, into, f"{prefix}/etc/walrus", f"{prefix}/var/lib/walrus", self.plan)

    def give_units(self) -> None:
        """Gives each machine the units of this version, also in place of those of an earlier one."""
        units = TOP / "network" / "units"
        for host in self.plan["hosts"] if units.is_dir() and not self.plan["prefix"] else ():
            shutil.copytree(units, self.folder / "hosts" / host / "units", dirs_exist_ok=True)

    def nodes(self) -> list[Place]:
        return [Place(name, *it) for name, it in self.plan["nodes"].items()]

    def must_have(self, named: Sequence[str]) -> None:
        """Raises `Unfounded` if the authorities here have signed no certificate of one of these names."""
        paths = [*self.folder.glob("hosts/*/*.crt"), *self.folder.glob("users/*/*.crt")]
        known = {AUTHORITY, ETCD_AUTHORITY}
        known |= {it.stem for it in paths if it.stem in {*named} - known and self.signer(it)}
        if unknown := " or ".join(sorted({*named} - known)):
            text = f"the authorities in {self.folder} have signed no certificate of {unknown}: nothing was renewed"
            raise Unfounded(text)

    def signer(self, path: pathlib.Path) -> Optional[pathlib.Path]:
        """Returns which authority here has signed a certificate; None if others did, such as one for HTTPS."""
        return certificates.signer(certificates.read(path), [self.folder / it for it in (AUTHORITY, ETCD_AUTHORITY)])

    def add(self, nodes: Sequence[Place], gateways: Sequence[Place], users: Sequence[str]) -> None:
        """Makes the files of these nodes, gateways and users if all can have their names, and saves the plan."""
        must_be_named(nodes, gateways, users, [*self.plan["nodes"], *self.plan["gateways"], *self.plan["users"]])
        for place in nodes:
            self.add_node(place)
        for place in gateways:
            self.add_gateway(place)
        for name in users:
            self.add_user(name)
        self.give_units()
        self.save()

    def add_node(self, place: Place) -> None:
        self.plan["nodes"][place.name] = [place.host, place.port, place.shards]
        self.machine(place.host, f"walrus-node@{place.name}").node(place, **self.least())

    def least(self) -> dict[str, Any]:
        """Returns the setting of the least length of an epoch; none if an earlier version founded the network."""
        return {"least": self.plan["least"]} if "least" in self.plan else {}

    def add_gateway(self, place: Place) -> None:
        self.plan["gateways"][place.name] = [place.host, place.port]
        self.machine(place.host, f"walrus-gateway@{place.name}").gateway(place)

    def add_user(self, name: str) -> None:
        self.plan["users"].append(name)
        Machine(self.folder, self.folder / "users" / name, "", "", self.plan).sign(name, name, name)

    def remove(self, name: str) -> str:
        """Removes a node, a gateway or a user with its key; returns its host, or `users`. Its files may be gone
        already, if an earlier call ended before it saved the plan."""
        if name in self.plan["users"]:
            self.plan["users"].remove(name)
            remove_folder(self.folder / "users" / name)
            return "users"
        for kind in ("nodes", "gateways"):
            if name in self.plan[kind]:
                host = str(self.plan[kind].pop(name)[0])
                self.plan["hosts"][host].remove(f"walrus-{kind.removesuffix('s')}@{name}")
                for end in ("toml", "crt", "key"):  # not every file with that prefix, as names may have dots
                    (self.folder / "hosts" / host / f"{name}.{end}").unlink(missing_ok=True)
                if not self.plan["hosts"][host]:
                    del self.plan["hosts"][host]
                    remove_folder(self.folder / "hosts" / host)
                return host
        raise Unfounded(f"{name} is no node, gateway or user of {self.folder}")

    def renew(self, named: Sequence[str], within: float, days: float) -> list[pathlib.Path]:
        """Renews the named certificates, or those that expire within some days, of those that the authorities here have
        signed; returns the paths that changed. `days` is how long new ones are valid, except those of authorities.
        Copies of an authority's certificate that differ from the one here are always replaced, as an earlier run may
        have been interrupted. Raises if an authority that is not named is not valid yet: by a slow clock nothing would
        seem to expire."""
        paths = [self.folder / f"{it}.crt" for it in (AUTHORITY, ETCD_AUTHORITY)]
        late = {it.stem: text for it in paths if (text := certificates.early(certificates.read(it)))}
        if unnamed := [it for it in late if it not in named]:
            text = (
                f"{self.folder / unnamed[0]}.crt {late[unnamed[0]]}; if it was fast when this was made, renew by name "
            )
            raise Unfounded(f"{text}(walrus-net renew {self.folder} {' '.join(late)}), and then the rest without names")
        changed = []
        for name in (AUTHORITY, ETCD_AUTHORITY):
            path = self.folder / f"{name}.crt"
            if name in named or not named and certificates.days_left(certificates.read(path)) < within:
                certificates.make_authority(path.with_suffix(""), certificates.AUTHORITY_DAYS)
                changed.append(path)
            for copy in [*self.folder.glob(f"hosts/*/{name}.crt"), *self.folder.glob(f"users/*/{name}.crt")]:
                if copy.read_bytes() != path.read_bytes():
                    with written_whole(str(copy)) as out:
                        out.write(path.read_bytes())
                    changed.append(copy)
        for path in sorted([*self.folder.glob("hosts/*/*.crt"), *self.folder.glob("users/*/*.crt")]):
            if path.stem in (AUTHORITY, ETCD_AUTHORITY):
                continue
            old, by = certificates.read(path), self.signer(path)
            ends = certificates.days_left(old) < within or certificates.early(old)
            if by and (path.stem in named or not named and ends):
                known, name = certificates.names_of(old), certificates.common_name(old)
                certificates.make(path.with_suffix(""), by, name, known, days)
                changed.append(path)
        self.give_units()
        return changed


def found(folder: pathlib.Path, faults: int, ledger: Sequence[str], nodes: Sequence[str], words: Any) -> Founding:
    """Founds a network on several machines: writes all files that each of them needs."""
    recorders = [Place.read(text, f"recorder-{number}", RECORDER_PORT) for number, text in enumerate(ledger)]
    places = [Place.read(text) for text in nodes]
    gateways = [Place.read(text, port=GATEWAY_PORT) for text in words.gateways]
    must_fit(faults, places, words.concentrated)
    if not 0 <= words.least < float("inf"):
        raise Unfounded(f"--least is a number of seconds from 0 on, and not {words.least}")
    if not recorders or len({it.host for it in recorders}) < len(recorders):
        raise Unfounded("name the machines of the ledger, each of them once; it is best to have an odd number of them")
    users = [OPERATOR, *words.users]
    must_be_named(places, gateways, users)
    urls = {
        it.host: [f"https://127.0.0.1:{CLIENTS}", f"https://{dataclasses.replace(it, port=MEMBERS).address}"]
        for it in recorders
    }
    plan: dict[str, Any] = {"program": words.program, "recorders": [it.address for it in recorders], "etcd": urls}
    plan |= {"faults": faults, "prefix": words.prefix, "nodes": {}, "gateways": {}, "users": [], "least": words.least}
    made = Founding.begin(folder, plan, words.days)
    for name, place in zip(urls, recorders):
        machine = made.machine(place.host, "walrus-etcd", "walrus-recorder")
        machine.etcd(name, place, urls)
        machine.recorder(place, urls[name][0], **made.least())
    made.add(places, gateways, users)
    return made
