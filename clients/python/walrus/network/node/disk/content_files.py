"""Large contents, each in a file of its own, which has its final name only once all of it is on the disk.

A sweep removes files that a crash leaves half written, and puts others without a row in the database aside. No file is
written twice or changed."""
import contextlib
import errno
import itertools
import os
import pathlib
import secrets
import tempfile
import time
from typing import Iterable


from walrus import client
from walrus.wire import connection

HALF = ".half"  # suffix of a file that is being written
ASIDE = "unnamed"  # the folder for files that nothing names, until they are deleted
PASSING = errno.EMFILE, errno.ENFILE, errno.ENOMEM, errno.EAGAIN  # temporary faults of the system, not of a file


class Files:
    """A folder with 256 folders of files, by the first two digits of their blobs' identifiers, and one for those that
    nothing names. All calls block."""

    def __init__(self, folder: pathlib.Path):
        self.folder, self.own, self.numbers = folder, secrets.token_hex(8), itertools.count()
        for place in (folder, *(folder / f"{number:02x}" for number in range(256)), folder / ASIDE):
            place.mkdir(exist_ok=True)
        self.sync(folder)

    def path(self, name: str) -> pathlib.Path:
        return self.folder / name[:2] / name

    def must_take(self, name: str) -> None:
        """Raise `OSError` unless the folder for this name can be read and takes a file."""
        folder = self.path(name).parent
        with os.scandir(folder) as names, tempfile.TemporaryFile(dir=folder):
            next(names, None)

    def write(self, identifier: bytes, *payloads: client.Data) -> list[str]:
        """Write contents of a blob to files and sync them; return their names. If a write fails, none of them stays."""
        paths = [self.path(f"{identifier.hex()}-{self.own}-{next(self.numbers)}") for _ in payloads]
        halves = [path.with_name(path.name + HALF) for path in paths]
        try:
            for path, half, payload in zip(paths, halves, payloads):
                with open(half, "xb", buffering=0) as file:
                    view = memoryview(payload)
                    while view:
                        view = view[file.write(view) :]  # noqa: E203
                    os.fsync(file.fileno())
                half.rename(path)
            for folder in {path.parent for path in paths}:
                self.sync(folder)
        except BaseException:
            self.remove(path.name for path in (*halves, *paths))
            raise
        return [path.name for path in paths]

    @staticmethod
    def sync(folder: pathlib.Path) -> None:
        opened = os.open(folder, os.O_RDONLY | os.O_DIRECTORY)
        try:
            os.fsync(opened)
        finally:
            os.close(opened)

    def read(self, name: str, size: int) -> client.Data:
        """Return a content of a known size; empty if the file is gone, cannot be read or has another size. Raises
        `OSError` for a temporary fault of the system."""
        try:
            with open(self.path(name), "rb", buffering=0) as file:
                if os.fstat(file.fileno()).st_size != size:
                    return b""
                place = left = connection.filling(connection.memory(size))
                while left and (count := file.readinto(left)):
                    left = left[count:]
                return b"" if left else place
        except OSError as fault:
            if fault.errno in PASSING:
                raise
            return b""

    def has(self, name: str, size: int) -> bool:
        """Return whether a content of a known size is there; raises `OSError` for a temporary fault of the system."""
        try:
            return self.path(name).stat().st_size == size
        except OSError as fault:
            if fault.errno in PASSING:
                raise
            return False

    def remove(self, names: Iterable[str]) -> None:
        for name in names:
            with contextlib.suppress(OSError):  # what stays is swept after the next start
                self.path(name).unlink()

    def sweep(self, digits: str, named: set[str]) -> tuple[int, set[str]]:
        """Put files aside that nothing names from the folder for two digits, and back those that are named again;
        return how many were put aside, and the names without a file: all of them if the folder cannot be read, as none
        of its files can be then. Files that this process wrote stay, as it names or removes them itself, and those that
        are half written are removed."""
        found = set[str]()
        try:
            found.update(it.name for it in os.scandir(self.folder / digits))
        except OSError as fault:
            if fault.errno in PASSING:
                raise
        strays = {it for it in found - named if self.own not in it}
        for name in strays:
            with contextlib.suppress(OSError):
                if name.endswith(HALF):
                    os.unlink(self.folder / digits / name)
                else:
                    self.put_aside(self.folder / digits / name)
        return len(strays), {it for it in named - found if not self.put_back(it)}

    def put_aside(self, path: pathlib.Path) -> None:
        os.utime(path)  # it is kept for a while from now on
        path.rename(self.folder / ASIDE / path.name)

    def put_back(self, name: str) -> bool:
        """Return whether a file was aside; it has its place again."""
        with contextlib.suppress(OSError):
            (self.folder / ASIDE / name).rename(self.path(name))
            return True
        return False

    def clear(self, grace: float) -> int:
        """Remove files that have been aside for `grace` seconds; return how many stay. The clock may have been ahead
        when one was put aside: it counts from now on."""
        found, left, now = list["os.DirEntry[str]"](), 0, time.time()
        with contextlib.suppress(OSError):  # the folder may be on a disk that is away
            found += os.scandir(self.folder / ASIDE)
        for it in found:
            with contextlib.suppress(OSError):
                since = it.stat().st_mtime
                if since > now:
                    os.utime(it.path)
                if now >= since + grace:
                    os.unlink(it.path)
                else:
                    left += 1
        return left
