"""Collects the files of a folder, in any order, until its manifest can be made. Small files share packs.

What is known about them is in a temporary SQLite database, so that a long folder takes no memory."""
import os
import sqlite3
from typing import Any, Iterator, Optional

from .file_list import LONGEST
from .manifest import MARK, MOST_BYTES, MOST_FILES, Place, TooMany, Wrong, kind_of, shown

SMALL, PACK, MANY = 524_288, 1_048_576, 1_024  # most bytes of a file in a pack; most bytes and files of a pack
WRITTEN = 131_072  # bytes of a manifest that are made at a time
MADE = """
CREATE TABLE files (path BLOB PRIMARY KEY, length INTEGER, file BLOB, digest BLOB) WITHOUT ROWID;
CREATE TABLE large (path BLOB PRIMARY KEY, length INTEGER, at) WITHOUT ROWID;
CREATE TABLE contents (digest BLOB PRIMARY KEY, length INTEGER, at, first BLOB) WITHOUT ROWID;
CREATE TABLE packed (digest BLOB PRIMARY KEY, pack INTEGER, offset INTEGER) WITHOUT ROWID;
CREATE TABLE packs (pack INTEGER PRIMARY KEY, file BLOB);
"""
SMALL_FILE = "INSERT INTO contents VALUES (?, ?, ?, ?) ON CONFLICT DO UPDATE SET first = min(first, excluded.first)"
SMALLS = """SELECT digest, contents.length, at FROM files JOIN contents USING (digest)
WHERE path = first ORDER BY path"""  # of files with equal contents only the first
LINES = """SELECT path, length, files.file, packs.file, offset FROM files
LEFT JOIN packed USING (digest) LEFT JOIN packs USING (pack) ORDER BY path"""


class Folder:
    """The files of a folder. `at` is where the caller finds a file's bytes again."""

    def __init__(self) -> None:
        self.base = sqlite3.connect("", isolation_level=None)
        self.base.executescript(
            f"PRAGMA journal_mode=OFF; PRAGMA synchronous=OFF; PRAGMA cache_size=-1000; {MADE} BEGIN;"
        )
        self.count = self.bytes = self.room = 0  # files, their bytes, and bytes that suffice for their lines

    def close(self) -> None:
        self.base.close()

    def begin(self, path: str) -> None:
        """Adds the path of a file whose contents follow later. Raises `Wrong` if it clashes with an earlier path, and
        `TooMany` if the folder is full."""
        key = path.encode()
        if self.base.execute("SELECT 1 FROM files WHERE path = ?", (key,)).fetchone():
            raise Wrong(f"{shown(path)} comes twice")
        is_folder = self.base.execute("SELECT 1 FROM files WHERE path > ? AND path < ?", (key + b"/", key + b"0"))
        if is_folder.fetchone() or self.is_within_file(key):
            raise Wrong(f"{shown(path)} cannot be there: it is a folder as well as a file, or is in a file")
        self.room += len(Place(path, kind_of(path), LONGEST, bytes(32), PACK).line())
        if self.count == MOST_FILES or len(MARK) + self.room > MOST_BYTES:
            raise TooMany(f"these are too many files for one folder: {self.count} came before; store it in parts")
        self.base.execute("INSERT INTO files VALUES (?, 0, x'', NULL)", (key,))
        self.count += 1

    def is_within_file(self, key: bytes) -> bool:
        """Whether a folder in a path is also a file. Only the longest prefix that it has in common with the path just
        before it can be one: shorter folders were checked with that path. So the cost does not grow with depth."""
        rows = self.base.execute("SELECT path FROM files WHERE path < ? ORDER BY path DESC LIMIT 1", (key,))
        common = os.path.commonprefix([key, *(row[0] for row in rows)])
        if common == key or key[len(common) : len(common) + 1] != b"/":  # noqa: E203
            return False
        return bool(self.base.execute("SELECT 1 FROM files WHERE path = ?", (common,)).fetchone())

    def add(self, path: str, length: int, file: bytes) -> None:
        """Records a file that is stored on its own, or is empty."""
        self.tell(path, length, file, None)

    def add_large(self, path: str, length: int, at: object) -> None:
        """Records where the bytes of a file are that will be stored on its own."""
        self.base.execute("INSERT INTO large VALUES (?, ?, ?)", (path.encode(), length, at))

    def large(self) -> Iterator[tuple[str, int, Any]]:
        """Yields path, length and `at` of the files that `add_large` recorded."""
        for path, length, at in self.base.execute("SELECT * FROM large ORDER BY path"):
            yield path.decode(), length, at

    def add_small(self, path: str, length: int, digest: bytes, at: object) -> None:
        """Records a file that will be in a pack; `digest` is the SHA-256 of its bytes."""
        self.base.execute(SMALL_FILE, (digest, length, at, path.encode()))
        self.tell(path, length, None, digest)

    def tell(self, path: str, length: int, file: Optional[bytes], digest: Optional[bytes]) -> None:
        row = length, file, digest, path.encode()
        self.base.execute("UPDATE files SET length = ?, file = ?, digest = ? WHERE path = ?", row)
        self.bytes += length

    def knows(self, digest: bytes) -> bool:
        """Whether a small file with the same contents was added before."""
        return bool(self.base.execute("SELECT 1 FROM contents WHERE digest = ?", (digest,)).fetchone())

    def packs(self) -> Iterator[list[tuple[bytes, int, object]]]:
        """Yields for each pack the digest, length and `at` of each file in it. Packs are numbered from 0."""
        pack, size, number = list[tuple[bytes, int, object]](), 0, 0
        for digest, length, at in self.base.execute(SMALLS):
            if size + length > PACK or len(pack) == MANY:
                yield pack
                pack, size, number = [], 0, number + 1
            self.base.execute("INSERT INTO packed VALUES (?, ?, ?)", (digest, number, size))
            pack.append((digest, length, at))
            size += length
            if ends_pack(digest, length):
                yield pack
                pack, size, number = [], 0, number + 1
        if pack:
            yield pack

    def place(self, pack: int, file: bytes) -> None:
        """Records the identifier under which a pack is stored."""
        self.base.execute("INSERT INTO packs VALUES (?, ?)", (pack, file))

    def places(self) -> Iterator[Place]:
        """Yields the files in the order of the manifest; `place` must have been called for each pack."""
        for key, length, own, packed, offset in self.base.execute(LINES):
            path = key.decode()
            yield Place(path, kind_of(path), length, packed if own is None else own, offset)

    def manifest(self) -> Iterator[bytes]:
        """Yields the bytes of the manifest in parts."""
        part = bytearray(MARK)
        for place in self.places():
            part += place.line()
            if len(part) > WRITTEN:
                yield bytes(part)
                part.clear()
        yield bytes(part)


def ends_pack(digest: bytes, length: int) -> bool:
    """Whether a pack ends after a file with this SHA-256. This depends on that file alone, and is the likelier the
    longer it is. So a change of one file leaves most packs as they were."""
    return int.from_bytes(digest[:8], "big") % SMALL < length
