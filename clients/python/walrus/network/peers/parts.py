"""Parts of blobs as they go to shards: their names, and the request that has all of a shard's."""
from walrus import client
from walrus.client import Data
from walrus.format import shapes
from walrus.format.envelopes import parts

WHOLE = 0x62  # the kind of the request; three envelopes follow


def name_of(payload: bytes) -> bytes:
    """Return the identifier of a part's blob. That of metadata is computed; the judge decides whether it is right."""
    is_metadata = payload[0] in (client.METADATA, client.SECOND_METADATA)
    return shapes.name_of(payload) if is_metadata else bytes(payload[1:33])


def request_of(encoded: client.Encoded, shard: int) -> list[Data]:
    """Return the request that stores a blob at a shard, in parts."""
    return [bytes([WHOLE]), *parts((encoded.metadata, *encoded.slivers[shard]))]
