"""The settings with which a node, a recorder and a gateway start."""
import dataclasses
from typing import ClassVar

from .file import ANYONE, File, Role
from .gateway_options import Options


@dataclasses.dataclass
class Settings(Role):
    """The settings of a node, read from a file with these names; paths are relative to the file."""

    role: ClassVar[str] = "node"
    name: str
    program: File
    database: File
    recorders: list[str]  # HOST:PORT of each recorder of the ledger
    authority: File
    certificate: File
    key: File
    host: str = "127.0.0.1"
    port: int = 0
    announced: str = ""  # HOST:PORT where others reach the node; if empty, host and port
    connections: int = 512
    kept: int = 33_554_432  # bytes of requests and replies that are kept in memory for all clients together
    heal: float = 30.0  # seconds for which a shard may lack a certified blob before it is recovered from the others
    memory: int = 256_000_000  # bytes of memory for the whole node, whatever it holds and is asked
    reserve: float = 0.05  # fraction of the disk that is kept free
    scrub: float = 30.0  # days in which everything held is read and judged once; 0 for never
    scrub_rate: int = 20_000_000  # bytes a second that a scrub reads at most
    grace: float = 604_800.0  # seconds for which files that nothing names are kept aside before they are deleted
    reads: str = ANYONE  # who may read blobs here: anyone, or only members, who show a certificate of the network
    least: float = 0.0  # seconds that an epoch lasts before this node says that it is ready for the next one
    metrics: str = ""  # where Prometheus reads metrics: PORT on loopback alone, or HOST:PORT
    recorded: bool = False  # keep all requests and replies, for network/trace

    def reached(self, port: int) -> tuple[str, str]:
        """Return the host and port to post to the ledger if the node listens on `port`; an IPv6 address has no brackets
        there."""
        host, _, told = (self.announced or f"{self.host}:{port}").rpartition(":")
        return host.strip("[]"), told


@dataclasses.dataclass
class RecorderSettings(Role):
    """The settings of a recorder; paths are relative to their file."""

    role: ClassVar[str] = "recorder"
    name: str
    etcd: str
    etcd_authority: File
    etcd_certificate: File
    etcd_key: File
    authority: File
    certificate: File
    key: File
    state: File  # a file with the ledger as it was read; it may be removed while the recorder does not run
    host: str = "127.0.0.1"
    port: int = 0
    patience: float = 604_800.0  # seconds for which entries of past epochs are kept for nodes that are away
    least: float = 0.0  # seconds that an epoch lasts before the next one may be begun


@dataclasses.dataclass(kw_only=True)
class GatewaySettings(Options, Role):
    """The settings of a gateway, with its limits (`Options`); paths are relative to their file."""

    role: ClassVar[str] = "gateway"
    name: str  # the name in its certificate, under which it posts
    program: File
    recorders: list[str]  # HOST:PORT of each recorder of the ledger
    authority: File
    certificate: File
    key: File
    state: File  # a file with the ledger as it was heard; it may be removed while the gateway does not run
    host: str = "127.0.0.1"
    port: int = 31_415
