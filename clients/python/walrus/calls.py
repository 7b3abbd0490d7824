"""The calls: each runs a command of the program, which checks the arguments; its refusals are raised as exceptions."""

from collections.abc import Iterable
from dataclasses import dataclass
from typing import Literal, NamedTuple, Optional


from walrus.engines.backends import MOST_ROOM, ROOM, Ran, engine
from walrus.engines.buffers import Buffer
from walrus.engines.codes import SHOWS_NOTHING, Code
from walrus.engines.refusals import BadlyEncoded, Lacking, refused
from walrus.format.envelopes import Payloads, split, stream, streamed

Axis = Literal["primary", "secondary"]
LARGEST_BLOB = 16_777_216
LONGEST = 17_825_792  # bytes; no sliver, proof or member is longer


@dataclass(frozen=True)
class Verdict:
    """The verdict on a proof or an answer, true if it is valid. `words` are the program's; `code` says what is wrong
    with it, or that a valid proof shows bad encoding."""

    holds: bool
    words: str
    code: Code = Code.NONE

    def __bool__(self) -> bool:
        return self.holds


class Encoded(NamedTuple):
    """A blob's identifier, its metadata, the primary and secondary sliver of each shard, and the stream of envelopes
    that contains them. Metadata and slivers are views of that stream, each a whole frame."""

    identifier: bytes
    metadata: memoryview
    slivers: list[tuple[memoryview, memoryview]]
    envelopes: memoryview


def run(*words: object, data: Buffer = b"", room: Optional[int] = None) -> Ran:
    """Run any command. `room` is the likely number of bytes of output, worth giving for a command for which the library
    reports no bound, so for any but id, encode, read, check and verify; a guess that is large enough saves a second
    run."""
    return engine().run(list(map(str, words)), data, room)


def result(*words: object, data: Buffer = b"", room: Optional[int] = None) -> memoryview:
    """Return the output of a command. Raises `Refused` for a status other than 0."""
    status, text = run(*words, data=data, room=room)
    if status:
        raise refused(str(words[0]), status, bytes(text), engine().code(status, text))
    return text


def identifier(blob: Buffer, faults: int, form: int = 1) -> bytes:
    """Return a blob's identifier, 32 bytes, for f = `faults` and the format `form` of identifiers."""
    return bytes.fromhex(str(result("id", faults, "--format", form, data=blob), "ascii"))


def encode(blob: Buffer, faults: int, form: int = 1) -> Encoded:
    """Return everything that the shards hold of a blob."""
    envelopes = result("encode", faults, "--format", form, data=blob)
    metadata, *slivers = (payload for _, payload in split(envelopes))
    pairs = list(zip(slivers[::2], slivers[1::2]))
    return Encoded(bytes(slivers[0][1:33]), metadata, pairs, envelopes)


def given(payloads: Payloads) -> tuple[Buffer, int]:
    """Return payloads as a stream, and room for a result: that consists of the stream's bytes, or is shorter."""
    data = streamed(payloads)
    return data, memoryview(data).nbytes + ROOM


def read(identifier: bytes, payloads: Payloads) -> memoryview:
    """Return a blob from its metadata and f+1 valid primary slivers; other payloads do no harm. Raises `Lacking` if
    there are fewer."""
    return result("read", identifier.hex(), data=streamed(payloads))


def recover(identifier: bytes, axis: Axis, index: int, payloads: Payloads) -> memoryview:
    """Return a sliver, as a frame, from openings of it. Raises `BadlyEncoded` with the proof if they show that."""
    data, room = given(payloads)
    text = result("recover", identifier.hex(), axis, index, data=data, room=min(room, LONGEST))
    return text[7:]


def check(identifier: bytes, payloads: Payloads) -> Verdict:
    """Judge whether the first proof among the payloads shows that the blob was badly encoded."""
    try:
        result("check", identifier.hex(), data=streamed(payloads))
    except BadlyEncoded as shown:
        return Verdict(True, shown.words, shown.code)
    except Lacking as fault:
        if fault.code in SHOWS_NOTHING:
            return Verdict(False, fault.words, fault.code)
        raise
    raise RuntimeError("check ended with status 0, which it never does: library and package do not fit")


def bundle(members: Iterable[Buffer], faults: int) -> memoryview:
    """Return one blob that contains small ones, at most 2f. Raises `Lacking` if they do not fit."""
    return result("bundle", faults, data=stream(members), room=LARGEST_BLOB)


def member(identifier: bytes, number: int, payloads: Payloads) -> memoryview:
    """Return a member of a bundle from secondary slivers or openings of them. `Lacking` names the missing column."""
    data, room = given(payloads)
    return result("member", identifier.hex(), number, data=data, room=min(room, LONGEST))


def challenge(identifier: bytes, shard: int, beacon: bytes, count: int, payloads: Payloads) -> memoryview:
    """Return the envelopes with which a shard that holds its slivers answers `count` draws by a beacon."""
    data, room = given(payloads)  # for each draw a symbol, of which the slivers have five at least, and 370 bytes
    likely = min(room + count * (370 + room // 5), MOST_ROOM)
    return result("challenge", identifier.hex(), shard, beacon.hex(), count, data=data, room=likely)


def verify(identifier: bytes, shard: int, beacon: bytes, count: int, payloads: Payloads) -> Verdict:
    """Judge whether openings answer these draws. Raises `Lacking` if their number is wrong or metadata is missing."""
    try:
        text = result("verify", identifier.hex(), shard, beacon.hex(), count, data=streamed(payloads))
    except BadlyEncoded as fault:  # it is not what was drawn
        return Verdict(False, fault.words, fault.code)
    return Verdict(True, str(text, "ascii").strip())


def serve(
    faults: int, shard: int, requests: Payloads, pages: Optional[int] = None, blobs: Optional[int] = None
) -> memoryview:
    """Return the answers of an initially empty shard to all requests in order. If it refuses one, the `text` of the
    `Refused` has the answers before it."""
    options = [
        word for name, value in (("--pages", pages), ("--blobs", blobs)) if value is not None for word in (name, value)
    ]
    data, room = given(requests)
    return result("serve", faults, shard, *options, data=data, room=room)
