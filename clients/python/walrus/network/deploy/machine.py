"""The files of one machine of a network: the settings and certificates of the services that run there."""
import dataclasses
import ipaddress
import pathlib
import re
import shutil
from typing import Any, Mapping, Sequence


from walrus.network.ledger.entries import OPERATOR
from walrus.network.ledger.follower import NAME as RECORDER
from walrus.network.service import certificates
from walrus.network.service.names import NAME
from walrus.network.settings.file import write
from walrus.network.settings.services import GatewaySettings, RecorderSettings, Settings

AUTHORITY, ETCD_AUTHORITY = "authority", "etcd-authority"
# Names that no node, gateway or user may have, in upper or lower case, as TLS ignores case; but a user may be the
# operator.
KEPT = {OPERATOR, RECORDER, AUTHORITY, ETCD_AUTHORITY, "etcd", "units"}
PLACE = re.compile(r"(?:([^=]+)=)?(\[[0-9A-Fa-f:.]+\]|[^\[\]:*=]+)(?::(\d{1,5}))?(?:\*(\d{1,4}))?")
ETCD = """ETCD_NAME={name}
ETCD_DATA_DIR={state}
ETCD_LISTEN_CLIENT_URLS={client}
ETCD_ADVERTISE_CLIENT_URLS={client}
ETCD_LISTEN_PEER_URLS={listen}
ETCD_INITIAL_ADVERTISE_PEER_URLS={peer}
ETCD_INITIAL_CLUSTER={cluster}
ETCD_INITIAL_CLUSTER_STATE=new
ETCD_CERT_FILE={etc}/etcd.crt
ETCD_PEER_CERT_FILE={etc}/etcd.crt
ETCD_TRUSTED_CA_FILE={etc}/etcd-authority.crt
ETCD_PEER_TRUSTED_CA_FILE={etc}/etcd-authority.crt
ETCD_CLIENT_CERT_AUTH=true
ETCD_PEER_CLIENT_CERT_AUTH=true
ETCD_HEARTBEAT_INTERVAL={beat}
ETCD_ELECTION_TIMEOUT={election}
ETCD_MAX_REQUEST_BYTES=1048576
ETCD_QUOTA_BACKEND_BYTES=1073741824
ETCD_LOGGER=zap
ETCD_LOG_LEVEL=error
ETCDCTL_API=3
ETCDCTL_ENDPOINTS={client}
ETCDCTL_CACERT={etc}/etcd-authority.crt
ETCDCTL_CERT={etc}/etcd.crt
ETCDCTL_KEY={etc}/etcd.key
"""


class Unfounded(ValueError):
    """The files of a network cannot be made; the message is a sentence that says why."""


def is_known_to_tls(name: str) -> bool:
    """Whether a certificate can have a name, and Python's TLS can check it: each label has 1 to 63 characters."""
    try:
        certificates.name_of(name)
        return bool(name.encode("idna"))
    except ValueError:
        return False


def can_be_named(name: str) -> bool:
    """Whether a name is possible both in the ledger and in a certificate."""
    return bool(NAME.fullmatch(name)) and is_known_to_tls(name)


@dataclasses.dataclass(frozen=True)
class Place:
    """The name of a service and the address where it runs; of a node also its number of shards."""

    name: str
    host: str
    port: int
    shards: int = 1

    @classmethod
    def read(cls, text: str, name: str = "", port: int = 0) -> "Place":
        """Parses NAME=HOST:PORT*SHARDS, where `name` and `port` replace parts that are left out."""
        found = PLACE.fullmatch(text)
        if not found or not (found[1] or name) or not int(found[3] or port):
            raise Unfounded(f"{text} is not NAME=HOST:PORT" + ("" if not name else " or HOST"))
        place = cls(found[1] or name, found[2].strip("[]"), int(found[3] or port), int(found[4] or 1))
        if place.host.lower().rstrip(".") == RECORDER:
            raise Unfounded(
                f"{text}: a machine cannot be called {RECORDER}, as certificates know recorders by that name"
            )
        named = can_be_named(place.name) and place.name.lower() not in KEPT
        if not named or not 0 < place.port < 65_536 or not place.shards:
            raise Unfounded(f"{text} is not possible: name {place.name}, port {place.port}, {place.shards} shards")
        if not is_known_to_tls(place.host):
            raise Unfounded(f"{text}: no certificate can have the name of the machine {place.host}")
        return place

    @property
    def address(self) -> str:
        return f"[{self.host}]:{self.port}" if ":" in self.host else f"{self.host}:{self.port}"

    @property
    def listens(self) -> str:
        """Where it listens: at its address, or at all of its machine's (an empty text) if only a name is known."""
        try:
            return str(ipaddress.ip_address(self.host))
        except ValueError:
            return ""


class Machine:
    """The files of one machine, which are written to `into`. On the machine they will be in the folder `etc`, and its
    services keep their data in `state`; both are empty if the files stay in `into`."""

    def __init__(self, folder: pathlib.Path, into: pathlib.Path, etc: str, state: str, plan: Mapping[str, Any]):
        self.folder, self.into, self.plan = folder, into, plan
        self.etc, self.state = etc, state
        into.mkdir(parents=True, exist_ok=True)
        for path in [] if into == folder else [folder / f"{AUTHORITY}.crt"]:
            shutil.copyfile(path, into / path.name)

    def sign(self, file: str, name: str, *known: str, by: str = AUTHORITY) -> dict[str, str]:
        """Makes a certificate and its key; returns the settings that name them."""
        certificates.make(self.into / file, self.folder / by, name, known)
        return {"certificate": self.at(f"{file}.crt"), "key": self.at(f"{file}.key")}

    def at(self, name: str) -> str:
        return str(pathlib.Path(self.etc, name))

    def kept(self, name: str, file: str) -> str:
        """Returns the path of a service's file: in a folder of its own if there are several machines."""
        return str(pathlib.Path(self.state, name, file)) if self.state else file

    def etcd(self, name: str, place: Place, urls: Mapping[str, Sequence[str]], beat: int = 250) -> None:
        """Writes the settings of a member of etcd. `urls` has two for each member: for clients, and for its peers.
        `beat` is etcd's heartbeat interval in milliseconds."""
        if self.into != self.folder:
            shutil.copyfile(self.folder / f"{ETCD_AUTHORITY}.crt", self.into / f"{ETCD_AUTHORITY}.crt")
        self.sign("etcd", name, "localhost", "127.0.0.1", place.host, by=ETCD_AUTHORITY)
        cluster = ",".join(f"{member}={peer}" for member, (_, peer) in urls.items())
        client, peer = urls[name]
        every = "0.0.0.0"  # which etcd takes for all addresses of the machine, those of IPv6 too
        listens = dataclasses.replace(place, host=place.listens or every, port=int(peer.rpartition(":")[2]))
        words = {
            "name": name,
            "client": client,
            "peer": peer,
            "listen": f"https://{listens.address}",
            "cluster": cluster,
        }
        words |= {
            "etc": self.etc or ".",
            "state": self.kept("etcd", name),
            "beat": str(beat),
            "election": str(10 * beat),
        }
        (self.into / ("etcd.env" if self.state else f"{name}.env")).write_text(ETCD.format(**words))

    def recorder(self, place: Place, etcd: str, file: str = RECORDER, **options: Any) -> None:
        told: dict[str, Any] = {"name": place.name, "etcd": etcd, "host": place.listens, "port": place.port}
        told |= {"etcd_authority": self.at(f"{ETCD_AUTHORITY}.crt"), "authority": self.at(f"{AUTHORITY}.crt")}
        told |= {"etcd_certificate": self.at("etcd.crt"), "etcd_key": self.at("etcd.key")}
        told |= self.sign(file, place.name, RECORDER, place.host)
        told |= {"state": self.kept(RECORDER, f"{file}.ledger"), **options}
        write(RecorderSettings, self.into / f"{file}.toml", told)

    def node(self, place: Place, **options: Any) -> None:
        told: dict[str, Any] = {"name": place.name, "program": self.plan["program"]}
        told |= {"database": self.kept(place.name, f"{place.name}.db"), "recorders": self.plan["recorders"]}
        told |= {"authority": self.at(f"{AUTHORITY}.crt"), **self.sign(place.name, place.name, place.name, place.host)}
        told |= {"host": place.listens, "port": place.port} | ({"announced": place.address} if self.state else {})
        write(Settings, self.into / f"{place.name}.toml", told | options)

    def gateway(self, place: Place) -> None:
        """Writes the settings of a gateway; it listens on loopback only, as anyone who reaches it may store."""
        told: dict[str, Any] = {"name": place.name, "program": self.plan["program"]}
        told |= {"recorders": self.plan["recorders"], "authority": self.at(f"{AUTHORITY}.crt")}
        told |= {**self.sign(place.name, place.name, place.name, place.host), "host": "127.0.0.1", "port": place.port}
        told |= {"state": self.kept(place.name, f"{place.name}.ledger"), "tokens": self.at("tokens.json")}
        write(GatewaySettings, self.into / f"{place.name}.toml", told | {"used": self.kept(place.name, "tokens.used")})
