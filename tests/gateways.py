"""A gateway's gets over blobs that are known: what each comes to, and which blobs are kept behind it."""

import dataclasses
import struct
from collections.abc import Sequence

from worked import PRIMARY, Committed, envelope


def request(identifier: bytes, start: int, size: int) -> bytes:
    """The payload of 41 bytes that asks for a range."""
    return b"\x43" + identifier + struct.pack(">II", start, size)


def is_request(payload: bytes) -> bool:
    return len(payload) == 41 and payload[:1] == b"\x43"


@dataclasses.dataclass(frozen=True)
class Known:
    """What a writer committed to: the blob, or none where it encoded badly, and proofs of that."""

    committed: Committed
    blob: bytes | None
    proofs: Sequence[bytes] = ()

    def replies(self, *shards: int) -> list[bytes]:
        return [self.committed.metadata, *[self.committed.sliver(PRIMARY, shard) for shard in shards]]


def fresh(known: Known | None, payloads: Sequence[bytes]) -> tuple[bytes | None, bytes]:
    """The blob that replies give, or none and the text that tells why, where each held sliver is the committed one."""
    if known is None or known.committed.metadata not in payloads:
        return None, b"no metadata"
    needed, true = known.committed.faults + 1, [known.committed.sliver(PRIMARY, it) for it in known.committed.held]
    have = len(set(true) & set(payloads))
    if have >= needed and known.blob is not None:
        return known.blob, b""
    if have >= needed or set(known.proofs) & set(payloads):
        return None, b"reject"
    return None, b"short %d of %d" % (have, needed)


def found(blob: bytes, start: int, size: int) -> bytes:
    """A range of a blob, in words."""
    if start + size > len(blob):
        return b"out of range %d" % len(blob)
    return b"range " + (blob[start : start + size].hex().encode() or b"-")


def served(capacity: int, writers: Sequence[Known], payloads: Sequence[bytes]) -> tuple[int, bytes]:
    """How a run ends over these payloads: a line for each request."""
    by_identifier = {known.committed.id: known for known in writers}
    kept: list[tuple[bytes, bytes]] = []
    text, replies = b"", list[bytes]()
    for payload in payloads:
        if not is_request(payload):
            replies.append(payload)
            continue
        identifier, (start, size) = payload[1:33], struct.unpack(">II", payload[33:])
        hits = [pair for pair in kept if pair[0] == identifier]
        blob, cause = (hits[0][1], b"") if hits else fresh(by_identifier.get(identifier), replies)
        if blob is not None:
            kept = [(identifier, blob), *[pair for pair in kept if pair[0] != identifier]][:capacity]
            cause = found(blob, start, size)
        text += (b"hit " if hits else b"miss ") + cause + b"\n"
        replies = []
    return 0, text


def asked(*payloads: bytes) -> bytes:
    """The payloads in envelopes, from senders that differ: nobody looks at them."""
    return b"".join(envelope(number % 5, payload) for number, payload in enumerate(payloads))
