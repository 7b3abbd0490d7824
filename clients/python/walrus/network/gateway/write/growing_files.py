"""Files of pieces that grow while they arrive, across breaks and restarts, each beside a file with its length and sum.

The sum is a CRC-32, as the process that wrote a piece may be gone, and with it any key. So it finds what a disk has
changed, but not what was changed by somebody who may write to the folder, which is its owner's alone."""
import contextlib
import pathlib
import struct
import zlib


from walrus.network.files.sealed import Away, Damaged
from walrus.network.gateway.resources.spool import must_fit, write

SUM = struct.Struct(">QI")  # the bytes of a piece that have arrived, and their CRC-32
FULL = "the gateway has too little room on its disk for this upload: try again later, what has come of it stays"


def sum_path(path: pathlib.Path) -> pathlib.Path:
    return path.with_suffix(".sum")


def sum_of(path: pathlib.Path) -> tuple[int, int]:
    """Returns how many bytes of a piece have arrived, and their sum."""
    with contextlib.suppress(FileNotFoundError, struct.error):
        size, sum = SUM.unpack(sum_path(path).read_bytes())
        return min(size, path.stat().st_size), sum
    return 0, 0


def written_at(path: pathlib.Path, place: int, data: memoryview, reserve: float) -> None:
    """Writes bytes at `place` of a piece, which is its end; at 0 it begins the piece anew. Raises `Problem` if the disk
    is too full. Also if it takes only a part, the length and the sum of what is there are kept."""
    must_fit(path.parent, len(data), reserve, FULL)
    sum = sum_of(path)[1] if place else 0
    with open(path, "r+b" if place else "wb", buffering=0) as file:
        file.seek(place)
        try:
            write(file, data)
        finally:
            end = file.tell()
            with open(sum_path(path), "r+b" if place else "wb", buffering=0) as beside:
                write(beside, memoryview(SUM.pack(end, zlib.crc32(data[: end - place], sum))))


def drop(path: pathlib.Path) -> None:
    """Removes a piece."""
    for it in (sum_path(path), path):
        it.unlink(missing_ok=True)


class Piece(Away):
    """A piece that has arrived. If it is not what was written, it counts as not arrived."""

    def __init__(self, path: pathlib.Path):
        self.path, (self.size, self.sum) = path, sum_of(path)

    def __len__(self) -> int:
        return self.size

    def read(self, start: int, end: int) -> memoryview:
        """Reads all of the piece, as it has one sum."""
        with open(self.path, "rb", buffering=0) as file:
            data, place = memoryview(bytearray(self.size)), 0
            with contextlib.suppress(OSError):
                while count := file.readinto(data[place:]):
                    place += count
        if place < self.size or zlib.crc32(data) != self.sum:
            sum_path(self.path).unlink(missing_ok=True)
            raise Damaged(f"{self.path} is not what was written, and is dropped: check its disk, and send it again")
        return data[start:end]

    def peek(self, start: int, end: int) -> bytes:
        """Reads only these bytes, which are not checked: `read` follows."""
        with open(self.path, "rb") as file:
            return file.read(end)[start:]
