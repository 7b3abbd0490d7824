"""The words, inputs and answers that the tests of `challenge` and `verify` share."""
from audits import BEACON
from worked import FALSE, HONEST, PRIMARY, SECOND, SECONDARY, Committed

I, J, SECOND_ID = HONEST.id.hex(), FALSE.id.hex(), SECOND.id.hex()
B = BEACON.hex()
ACCEPTED = (0, b"accepted\n")
NO_SHARD, NO_PRIMARY, NO_SECONDARY = (4, b"no shard\n"), (4, b"no primary\n"), (4, b"no secondary\n")
HEAD = 274  # the bytes of the worked blob's metadata in an envelope


def wrong(number: int) -> tuple[int, bytes]:
    return 3, b"wrong %d\n" % number


def wrong_count(found: int, wanted: int) -> tuple[int, bytes]:
    return 4, b"wrong count %d of %d\n" % (found, wanted)


def slivers(committed: Committed, shard: int) -> list[bytes]:
    return [committed.sliver(PRIMARY, shard), committed.sliver(SECONDARY, committed.held[shard])]


def words(command: str, committed: Committed, shard: int, count: int, beacon: bytes = BEACON) -> list[str]:
    return [command, committed.id.hex(), str(shard), beacon.hex(), str(count)]
