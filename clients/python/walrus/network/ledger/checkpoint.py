"""A checkpoint: the state of a ledger at a place, as text in compressed pieces.

Its lines are JSON: `[NAME, VALUE]` and `[NAME, KEY, VALUE]` for the state beside blobs, and then, in the order of
identifiers, `[IDENTIFIER, NUMBER, UNTIL, POSTER, VOTES, CERTIFIED, INVALID]` for each blob. From the same ledger every
recorder makes the same pieces."""
import contextlib
import hashlib
import json
import sqlite3
import tempfile
import zlib
from typing import Any, Iterable, Iterator, NamedTuple, Optional

from .entries import Chain

LONGEST = 1_048_576  # bytes of a piece before it is compressed
MOST_PIECES = 65_536  # of a checkpoint: more than any etcd has room for
MOST_LINE = 4_194_304  # bytes of a line: some 60,000 names, such as of those who keep one blob
MOST_FIELDS = 16_777_216  # bytes of its lines beside those of blobs: all are in memory, and written with each commit
WRONG = ValueError, LookupError, TypeError, AttributeError, ArithmeticError, RecursionError  # raised by a wrong text
# Of a blob: identifier, number, until, poster, votes, and the epochs in which it was certified and declared invalid.
Row = tuple[bytes, int, int, str, str, Optional[int], Optional[int]]


class Unfit(ValueError):
    """What should be a checkpoint is none, or another one than was announced."""


class Mark(NamedTuple):
    """Describes a checkpoint: its place and epoch, the digest of the entries up to there (`digest`), the digest of the
    checkpoint itself (`state`), and the number of its pieces."""

    place: int
    epoch: int
    digest: str
    state: str
    pieces: int
    time: float  # when it was written, by the clock of the recorder that wrote it
    dropped: bool = False  # whether the entries up to its place are being dropped, or were

    @property
    def chain(self) -> Chain:
        return Chain(self.place, bytes.fromhex(self.digest))


def parted(lines: Iterable[bytes], most: int) -> Iterator[bytes]:
    """Joins lines into parts of at most `most` bytes each; a longer line is a part of its own."""
    part, size = list[bytes](), 0
    for line in lines:
        if part and size + len(line) > most:
            yield b"".join(part)
            part, size = [], 0
        part.append(line)
        size += len(line)
    yield b"".join(part)


def written(fields: dict[str, Any], rows: Iterable[Row]) -> Iterator[bytes]:
    """Yields the lines of a checkpoint."""
    for name, value in fields.items():
        keyed = [[name, key, value[key]] for key in sorted(value)] if isinstance(value, dict) else [[name, value]]
        yield from map(line_of, keyed)
    for identifier, *rest in rows:
        yield line_of([identifier.hex(), *rest])


def line_of(values: Any) -> bytes:
    return json.dumps(values, separators=(",", ":")).encode() + b"\n"


def unpacked(piece: bytes) -> bytes:
    """Decompresses a piece, up to the size of one: a few bytes could fill the memory. Raises `Unfit`."""
    packed = zlib.decompressobj()
    try:
        text = packed.decompress(piece, MOST_LINE + 1)
    except zlib.error as fault:
        raise Unfit(f"a piece of the checkpoint is damaged: {fault}") from None
    if len(text) > (LONGEST if b"\n" in text[:-1] else MOST_LINE):  # a longer line is a piece of its own
        raise Unfit(f"a piece of the checkpoint has more than {LONGEST} bytes, or a line more than {MOST_LINE}")
    if not packed.eof or packed.unused_data:
        raise Unfit("a piece of the checkpoint is damaged: it does not end where it should")
    return text


def read(pieces: Iterable[bytes], fields: dict[str, Any]) -> Iterator[Row]:
    """Yields the rows of blobs in compressed pieces, and puts the rest of the state into `fields` meanwhile. Raises
    `Unfit` if that is too much: a few bytes of pieces could fill the memory with it."""
    size = 0
    for piece in pieces:
        for line in unpacked(piece).splitlines():
            name, *values = json.loads(line)
            if len(values) == 6:
                yield bytes.fromhex(name), values[0], values[1], values[2], values[3], values[4], values[5]
                continue
            size += len(line)
            if size > MOST_FIELDS:
                raise Unfit(f"the checkpoint has more than {MOST_FIELDS} bytes beside its blobs")
            if len(values) == 2:
                fields.setdefault(name, {})[values[0]] = values[1]
            else:
                fields[name] = values[0]


@contextlib.contextmanager
def checked() -> Iterator[None]:
    """Raises `Unfit` if what is read in this block is no checkpoint. Other faults of SQLite are the disk's."""
    try:
        yield
    except Unfit:
        raise
    except (*WRONG, sqlite3.IntegrityError, sqlite3.ProgrammingError, sqlite3.InterfaceError) as fault:
        raise Unfit(f"it is no checkpoint: {fault!r}") from fault


class Pieces:
    """Compressed pieces of a checkpoint as they come: in a temporary file of a folder, as all of them may be large, or
    in memory while they are small."""

    def __init__(self, folder: Optional[str] = None):
        self.file = tempfile.SpooledTemporaryFile(LONGEST, dir=folder)
        self.sizes, self.text = list[int](), hashlib.sha256()

    def add(self, piece: bytes) -> None:
        """Adds a piece; raises `Unfit` if it cannot be one, and `OSError` if the disk does not take it."""
        self.text.update(unpacked(piece))
        self.file.write(piece)
        self.sizes.append(len(piece))

    @property
    def state(self) -> str:
        """The digest of the checkpoint."""
        return self.text.hexdigest()

    def __len__(self) -> int:
        return len(self.sizes)

    def __iter__(self) -> Iterator[bytes]:
        self.file.seek(0)
        return map(self.file.read, self.sizes)

    def clear(self) -> None:
        self.file.close()
        self.sizes.clear()
