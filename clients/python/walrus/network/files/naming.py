"""Computes the identifiers of files with the program walrus, and writes a file only if it has the one asked for."""
import contextlib
import errno
import os
import shutil
import tempfile
from typing import IO, Iterator, Optional


from walrus import client

from . import partial
from .file_list import MARK, NAME, PIECE, File


class Naming:
    """Computes the identifier of a file that comes in parts, piece by piece, in one of the two formats."""

    def __init__(self, walrus: client.Walrus, faults: int, form: int = 1):
        self.walrus, self.faults, self.form = walrus, faults, form
        self.kept, self.names, self.size, self.first = bytearray(), b"", 0, b""

    async def name(self, blob: client.Data) -> bytes:
        """Returns the identifier of a blob."""
        return bytes.fromhex((await self.walrus.output("id", self.faults, "--format", self.form, data=blob)).decode())

    async def add(self, part: bytes) -> None:
        view, self.size = memoryview(part), self.size + len(part)
        while len(self.kept) + len(view) > PIECE:  # a piece is named once something follows it
            room = PIECE - len(self.kept)
            self.kept += view[:room]
            view, piece, self.kept = view[room:], self.kept, bytearray()
            await self.add_piece(piece)
        self.kept += view

    async def add_piece(self, piece: bytearray) -> None:
        """Computes the identifier of a piece. While it goes to the program's pipe, asyncio has another copy of it."""
        self.first = self.first or bytes(piece[: len(MARK)])
        self.names += await self.name(piece)

    async def identifiers(self) -> list[bytes]:
        """Ends the file, and returns the identifiers that name it: that of its list first, if a gateway makes one."""
        last = self.kept
        await self.add_piece(last)
        if len(self.names) == NAME and self.first != MARK:
            return [self.names]
        names = [await self.name(File(self.size, self.names).listed())]
        if len(self.names) == NAME and File.of(self.names, last).names == self.names:
            names.append(self.names)  # it has the mark, but is no list: it may be stored without one
        return names


async def is_named(file: IO[bytes], identifier: bytes, naming: Naming) -> bool:
    """Whether an identifier names a file, all of which `naming` was given; for the other format the file is read again.
    It may be that of a list of one piece: a gateway makes none for most files, but anybody else may."""
    if identifier in await naming.identifiers():
        return True
    file.seek(0)
    other = Naming(naming.walrus, naming.faults, 3 - naming.form)  # there are formats 1 and 2
    while part := file.read(PIECE):
        await other.add(part)
    if identifier in await other.identifiers():
        return True
    if not naming.size or len(naming.names) > NAME:
        return False
    return identifier in [await it.name(File(it.size, it.names).listed()) for it in (naming, other)]


@contextlib.contextmanager
def written_whole(output: str, identifier: str = "") -> Iterator[IO[bytes]]:
    """Yields a file beside the one at a path, which takes its place at the end, or is deleted if anything fails. With
    an identifier, it begins with what an earlier fetch left, and leaves what has come for the next one.

    For standard output (-), or what is no regular file, a temporary file is copied there at the end."""
    target: Optional[str] = None if output == "-" else os.path.realpath(output)
    beside = target if target and (os.path.isfile(target) or not os.path.exists(target)) else None
    folder, name = os.path.split(beside or "")
    before = partial.opened(partial.beside(beside, identifier)) if beside and identifier else None
    prefix, is_left = f".{name}." if name else None, False
    with before or tempfile.NamedTemporaryFile(dir=folder or None, prefix=prefix, delete=False) as file:
        try:
            try:
                yield file
            except BaseException as fault:
                is_left = bool(before) and partial.goes_on(file, fault)
                raise
            file.flush()
            if beside:
                os.fsync(file.fileno())
                os.fchmod(file.fileno(), mode_of(beside))
                if not partial.is_there(file):
                    raise FileNotFoundError(errno.ENOENT, "it was removed meanwhile: try again", file.name)
                os.replace(file.name, beside)
            else:
                file.seek(0)
                with open(target or 1, "wb", closefd=bool(target)) as out:
                    shutil.copyfileobj(file, out)
        finally:
            if not is_left:
                partial.remove(file)  # while it is locked, and never another file that has its name by now


def mode_of(path: str) -> int:
    """Returns the mode of a file, or that of a new one if there is none."""
    if os.path.exists(path):
        return os.stat(path).st_mode & 0o777
    mask = os.umask(0)
    os.umask(mask)
    return 0o666 & ~mask


@contextlib.contextmanager
def readable() -> Iterator[None]:
    """Lets everybody read what is written meanwhile, as services have users of their own; keys have their own mode."""
    before = os.umask(0o022)
    try:
        yield
    finally:
        os.umask(before)
