"""Options of a gateway: what it may use, and who may reach it and how (names, tokens, certificates and limits)."""
import argparse
import dataclasses
from typing import Any

from .file import File


@dataclasses.dataclass
class Options:
    """What a gateway may use, and who may reach it and how. By default it stores only for its own machine."""

    tokens: File = ""  # the file of tokens; if empty, FOLDER/tokens.json
    used: File = ""  # the database of what tokens have used; if empty, one beside the tokens
    names: list[str] = dataclasses.field(default_factory=list)  # names of the gateway, beside its addresses
    proxies: list[str] = dataclasses.field(default_factory=list)  # addresses whose X-Forwarded-For is trusted
    tls_certificate: File = ""
    tls_key: File = ""
    sites: str = ""  # the host under which each folder has a host of its own; none if empty
    log: File = ""  # the file of the access log; - is standard output
    requests: float = 1_000.0  # per second, of a token and of an address; unlimited if 0
    rate: float = 0.0  # bytes per second, of a token and of an address; unlimited if 0
    memory: int = 268_435_456  # bytes of memory for the whole gateway
    room: int = 2_147_483_648  # bytes of disk for blobs that are read, sent or cached
    reserve: float = 0.05  # the fraction of the disk that uploads leave free
    most: int = 17_179_869_184  # the most bytes of a file
    uploads: int = 256  # uploads that are received at once
    turns: int = 2  # blobs that are encoded at once
    connections: int = 900
    epochs: int = 100  # the most epochs for which a file is kept
    stale: float = 30.0  # seconds for which the ledger may be away before answers that depend on it are refused
    seconds: float = 10.0  # seconds for which reads are retried if too few shards return something useful
    patience: float = 30.0  # seconds in which a shard must answer
    probe: float = 3.0  # seconds between two checks whether nodes answer
    challenge: float = 60.0  # seconds between two challenges; no challenges if 0


WORDS: dict[str, tuple[Any, str]] = {
    "tokens": ("", "a file of tokens, in place of tokens.json in the folder"),
    "names": ("", "names of the gateway beside its addresses, separated by commas"),
    "proxies": ("", "addresses of proxies before it, separated by commas, whose X-Forwarded-For is trusted"),
    "certificate": ("", "a file with the certificate for HTTPS, and those between it and its root"),
    "key": ("", "the file with the key of the certificate"),
    "sites": ("", "the host under which each folder has a host of its own, as LABEL.HOST"),
    "log": ("", "the file of the access log; - is standard output"),
    "requests": (Options.requests, "the most requests per second of a token or of an address; 0 is unlimited"),
    "rate": (Options.rate, "the most bytes per second of a token or of an address, in and out; 0 is unlimited"),
}


def chosen(words: argparse.Namespace) -> dict[str, Any]:
    """Returns the options that these words of a command line set; raises `ValueError` if they contradict."""
    if bool(words.certificate) != bool(words.key):
        raise ValueError("--certificate and --key go together")
    lists = {name: [it for it in getattr(words, name).split(",") if it] for name in ("names", "proxies")}
    files = {"tls_certificate": words.certificate, "tls_key": words.key, "tokens": words.tokens, "log": words.log}
    files["sites"] = words.sites
    return {**lists, **files, "requests": words.requests, "rate": words.rate}
