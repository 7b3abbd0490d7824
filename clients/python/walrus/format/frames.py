"""Reads and writes every frame of docs/FORMATS.md. Reading reports the first fault from the left, as a shard does.

The client writes its requests with this module. Everything else is for fronts, which reject malformed requests in place
of their shard; for nodes, which keep the parts that a shard stored; and for code that makes parts of a blob by hand:
examples, and tests whose shards lie."""
import functools
from collections.abc import Callable
from typing import Any, NamedTuple, Optional

from . import kinds
from .envelopes import stream
from .kinds import LARGEST_BLOB, MALFORMED, MOST_FAULTS, MOST_UNTIL, UNVERIFIED, Answer, Fault
from .shapes import Shape

Body = NamedTuple("Body", [("cross", int), ("symbol", bytes), ("path", tuple[bytes, ...])])  # content of an opening
Pairs = tuple[tuple[bytes, bytes], ...]
Metadata = NamedTuple("Metadata", [("faults", int), ("length", int), ("roots", Pairs)])
Sliver = NamedTuple("Sliver", [("identifier", bytes), ("axis", int), ("index", int), ("data", bytes)])
Opening = NamedTuple("Opening", [("identifier", bytes), ("axis", int), ("index", int), ("body", Body)])
Proof = NamedTuple("Proof", [("identifier", bytes), ("axis", int), ("index", int), ("bodies", tuple[Body, ...])])
SecondMetadata = NamedTuple("SecondMetadata", [("version", int), ("faults", int), ("length", int), ("roots", Pairs)])
Attest = NamedTuple("Attest", [("identifier", bytes)])
Forget = NamedTuple("Forget", [("identifier", bytes)])
AttestEntry = NamedTuple("AttestEntry", [("shard", int), ("identifier", bytes)])
Texts = NamedTuple("Texts", [("left", bytes), ("right", bytes)])  # content of a clash: two texts with one digest
FRAMES: dict[int, Any] = {
    kinds.METADATA: Metadata,
    kinds.SLIVER: Sliver,
    kinds.OPENING: Opening,
    kinds.PROOF: Proof,
    kinds.SECOND_METADATA: SecondMetadata,
    kinds.READ: kinds.Read,
    kinds.SYMBOL: kinds.Symbol,
    kinds.ACK: kinds.Ack,
    kinds.ATTEST: Attest,
    kinds.FORGET: Forget,
    kinds.ANSWER: Answer,
    kinds.CLASH: Texts,
    kinds.REGISTER_ENTRY: kinds.RegisterEntry,
    kinds.ACK_ENTRY: kinds.AckEntry,
    kinds.ATTEST_ENTRY: AttestEntry,
}
KINDS = {form: kind for kind, form in FRAMES.items()}
Frame = Any  # a value of one of the types in FRAMES
METADATA, PRIMARY, SECONDARY, PROOF = range(4)  # the parts of a blob that a shard holds


class Cursor:
    """Reads bytes from the left. Raises `Fault` at the first that is missing or out of range."""

    def __init__(self, data: bytes) -> None:
        self.data, self.place = data, 0

    def take(self, size: int) -> bytes:
        start, end = self.place, self.place + size
        if end > len(self.data):
            raise Fault("truncated")
        self.place = end
        return self.data[start:end]

    def number(self, size: int, most: int, least: int = 0) -> int:
        place = self.place
        value = int.from_bytes(self.take(size), "big")
        if not least <= value <= most:
            raise Fault("bad field", place)
        return value


class Field(NamedTuple):
    """How a field is read, given the values of the fields before it, and how it is written."""

    read: Callable[[Cursor, dict[str, Any]], Any]
    write: Callable[[Any], bytes]


def number_field(size: int, most: int, least: int = 0) -> Field:
    return Field(lambda cursor, _: cursor.number(size, most, least), lambda it: int.to_bytes(it, size, "big"))


def text_field(size: int, most: int) -> Field:
    return Field(
        lambda cursor, _: cursor.take(cursor.number(size, most)),
        lambda text: b"".join((len(text).to_bytes(size, "big"), text)),
    )


def list_field(size: int, most: int, part: Field) -> Field:
    return Field(
        lambda cursor, values: tuple(part.read(cursor, values) for _ in range(cursor.number(size, most))),
        lambda parts: len(parts).to_bytes(size, "big") + b"".join(map(part.write, parts)),
    )


def read_fields(form: Any, cursor: Cursor) -> Any:
    values: dict[str, Any] = {}
    for name in form._fields:
        values[name] = FIELDS[name].read(cursor, values)
    return form(**values)


def write_fields(value: Any) -> bytes:
    return b"".join(FIELDS[name].write(field) for name, field in zip(value._fields, value))


DIGEST = Field(lambda cursor, _: cursor.take(32), bytes)
PAIRS = Field(
    lambda cursor, values: tuple((cursor.take(32), cursor.take(32)) for _ in range(3 * values["faults"] + 1)),
    lambda pairs: b"".join(primary + secondary for primary, secondary in pairs),
)
BODY = Field(lambda cursor, _: read_fields(Body, cursor), write_fields)
FIELDS = {"identifier": DIGEST, "roots": PAIRS, "body": BODY, "bodies": list_field(2, 1000, BODY)}
FIELDS |= {"version": number_field(1, 2, 2), "faults": number_field(2, MOST_FAULTS, 1)}
FIELDS |= {"length": number_field(8, LARGEST_BLOB), "axis": number_field(1, 1), "until": number_field(4, MOST_UNTIL)}
FIELDS |= dict.fromkeys(("index", "cross", "shard"), number_field(2, 999))
FIELDS |= {
    "data": text_field(4, LARGEST_BLOB),
    "symbol": text_field(4, LARGEST_BLOB),
    "path": list_field(1, 10, DIGEST),
}
FIELDS |= {"code": number_field(1, 15), **dict.fromkeys(("first", "second"), number_field(4, 2**32 - 1))}
FIELDS |= dict.fromkeys(("left", "right"), text_field(1, 65))


def read_frame(payload: bytes) -> Frame:
    """Return the frame that a payload spells. Raises `Fault` if it is not one whole frame."""
    cursor = Cursor(payload)
    form = FRAMES.get(cursor.take(1)[0])
    if form is None:
        raise Fault("bad kind")
    value = read_fields(form, cursor)
    if cursor.place < len(payload):
        raise Fault("trailing")
    return value


def write_frame(value: Frame) -> bytes:
    """Return the only spelling of a frame. Raises `ValueError` or `OverflowError` if a field is out of range."""
    payload = bytes([KINDS[type(value)]]) + write_fields(value)
    if read_frame(payload) != value:
        raise ValueError("a field has another length than it should")
    return payload


def refuse(shape: Shape, payload: Optional[bytes]) -> Optional[Answer]:
    """Return the answer to a payload that cannot be a request to a shard of this f, or is too long; otherwise None."""
    if payload is None or len(payload) > shape.longest:
        return Answer(MALFORMED, 7, 0)
    try:
        said = read_frame(payload)
    except Fault as fault:
        return Answer(MALFORMED, kinds.CAUSES.index(fault.args[0]) + 1, *fault.args[1:] or (0,))
    if isinstance(said, (Opening, Answer, Texts)):
        return Answer(MALFORMED, 5, 0)
    is_part = isinstance(said, (Metadata, SecondMetadata, Sliver, Proof))
    return Answer(UNVERIFIED, 0, 0) if is_part and not shape.allows(payload) else None


@functools.lru_cache(256)
def answer(code: int, first: int = 0, second: int = 0) -> bytes:
    """Return the payload of an answer."""
    return write_frame(Answer(code, first, second))


def code_of(reply: list[bytes]) -> int:
    """Return the code of the answer that ends a reply."""
    return reply[-1][1]


def joined(reply: list[bytes], shard: int) -> bytes:
    """Return a reply as a stream of envelopes from this shard."""
    return stream(reply, shard)


def part_of(payload: bytes) -> int:
    """Return which part of a blob a frame is, whose kind is 0x10, 0x14, 0x11 or 0x13."""
    parts = {kinds.METADATA: METADATA, kinds.SECOND_METADATA: METADATA, kinds.PROOF: PROOF}
    return parts.get(payload[0], PRIMARY + (payload[33:34] == b"\1"))


def pages_of(payload: bytes) -> int:
    """Return at least the number of pages that a shard takes for a part, and at most one more. The metadata counts one
    further page, for the blob itself."""
    return len(payload) // 4096 + 1 + (part_of(payload) == METADATA)
