"""Fetches folders from a gateway, which is not trusted: all is checked by its identifier before it takes its place."""
import errno
import os
import pathlib
import tempfile
from typing import IO, Any, Coroutine, Iterator

import aiohttp


from walrus.network.files.file_list import PIECE
from walrus.network.files.manifest import MARK, MOST_BYTES, Manifest, Place, Wrong, shown
from walrus.network.files.naming import Naming, is_named, written_whole
from walrus.network.files.partial import beside
from walrus.network.files.safe_paths import Root, is_equal
from walrus.network.service.failure import Failure
from walrus.network.service.task_groups import several

from .folder_store import WIDTH
from .progress_bar import Bar
from .transfers import BY_STATUS, PART, fetch, naming_of, parts_of, receive


class Fetching:
    """Fetches a folder into one of this machine."""

    def __init__(self, session: aiohttp.ClientSession, naming: Naming, root: Root, bar: Bar):
        self.session, self.root, self.bar = session, root, bar
        self.walrus, self.faults, self.written = naming.walrus, naming.faults, 0

    async def named(self, file: IO[bytes], name: bytes) -> bool:
        """Whether an identifier names the contents of a file."""
        naming = Naming(self.walrus, self.faults)
        file.seek(0)
        while part := file.read(PART):
            await naming.add(part)
        return await is_named(file, name, naming)

    async def receive(self, name: bytes, most: int, out: IO[bytes]) -> int:
        """Writes the file of an identifier, of at most `most` bytes, and returns its length."""
        naming = Naming(self.walrus, self.faults)
        size = await receive(self.session, name.hex(), out, naming, self.bar, most=most)
        if not await is_named(out, name, naming):
            raise Failure(f"what the gateway gives is not {name.hex()}, and is dropped: this gateway lies", 1)
        return size

    async def fetch_whole(self, place: Place) -> None:
        """Fetches a file that is stored on its own, unless it is here."""
        with self.root.opened(place.path, place.length) as there:
            if there and await self.named(there, place.file):
                return
        with self.root.written(place.path) as out:
            if await self.receive(place.file, place.length, out) != place.length:
                raise Failure(f"{shown(place.path)} has another length than the folder's manifest says", 3)
        self.written += 1

    async def fetch_pack(self, name: bytes, places: list[Place]) -> None:
        """Fetches the files of a pack, unless all of the pack is here."""
        if await self.is_there(name, places):
            return
        with tempfile.TemporaryFile() as pack:
            size = await self.receive(name, PIECE, pack)
            pack.flush()
            for place in places:
                start = place.offset or 0
                if start + place.length > size:
                    raise Failure(f"{shown(place.path)} has another length than the folder's manifest says", 3)
                self.write(place.path, os.pread(pack.fileno(), place.length, start))

    async def is_there(self, name: bytes, places: list[Place]) -> bool:
        """Whether the files that are here make up the pack with this identifier."""
        with tempfile.TemporaryFile() as made:
            end = 0
            for place in sorted(places, key=lambda it: it.offset or 0):
                start = place.offset or 0
                with self.root.opened(place.path, place.length) as there:
                    if not there or start > end:
                        return False
                    if start == end:
                        end += made.write(there.read())
                    elif not is_equal(made, start, there.read()):
                        return False
            return await self.named(made, name)

    def write(self, path: str, data: bytes) -> None:
        """Writes a file, unless an equal one is here."""
        with self.root.opened(path, len(data)) as there:
            if there and there.read() == data:
                return
        with self.root.written(path) as out:
            out.write(data)
        self.written += 1

    def works(self, places: list[Place]) -> Iterator[Coroutine[Any, Any, None]]:
        """Yields the coroutines that fetch each large file, and each pack; writes empty files meanwhile."""
        packs = dict[bytes, list[Place]]()
        for place in places:
            if not place.length:
                self.write(place.path, b"")
            elif place.offset is None:
                yield self.fetch_whole(place)
            else:
                packs.setdefault(place.file, []).append(place)
        yield from (self.fetch_pack(*it) for it in packs.items())


def wanted(manifest: Manifest, only: str) -> list[Place]:
    """Returns the files that are asked for: `only` itself, those in the folder `only`, or all if it is empty."""
    only = only.strip("/")
    front = f"{only}/" if only else ""
    found = [it for it in manifest if it.path == only or it.path.startswith(front)]
    if not found and only:
        raise Failure(f"the folder has no {shown(only)}", 4)
    return found


async def fetch_folder(session: aiohttp.ClientSession, data: bytes, output: str, only: str) -> dict[str, Any]:
    """Fetches the folder of this manifest, or the part `only` of it, into the folder `output` of this machine."""
    try:
        manifest = Manifest(data)
    except Wrong as fault:
        raise Failure(f"the folder's manifest is malformed: {fault}; --output - gives its bytes", 3) from None
    places = wanted(manifest, only)
    size = sum(it.length for it in places)
    try:
        pathlib.Path(output).mkdir(parents=True, exist_ok=True)
        with Root(output) as root, Bar(os.path.basename(output.rstrip("/")), size) as bar:
            root.must_keep_apart([it.path for it in places])
            fetching = Fetching(session, await naming_of(session), root, bar)
            await several(fetching.works(places), WIDTH)
    except OSError as fault:
        if fault.errno not in (errno.ELOOP, errno.ENOTDIR, errno.EISDIR, errno.EEXIST):
            raise
        raise Failure(f"{fault.filename or output} is in the way in {output}: move it away", 1) from None
    return {"files": len(places), "bytes": size, "written": fetching.written}


class IsFolder(Exception):
    """What was fetched is the manifest of a folder."""


async def fetch_any(session: aiohttp.ClientSession, name: str, output: str, only: str) -> dict[str, Any]:
    """Fetches a file or a folder. For a folder, only the manifest goes to standard output."""
    if only and output == "-":
        raise Failure("--only is for a folder, which goes into a folder: name it with --output", 2)
    (blob, number), data = parts_of(name), b""
    try:
        with written_whole(output, "" if number else blob) as out:
            size = await fetch_file(session, name, out)
            out.seek(0)
            if output != "-" and not number and size <= MOST_BYTES and out.read(len(MARK)) == MARK:
                data = MARK + out.read()
                out.truncate(0)
                raise IsFolder()
            if only:
                out.truncate(0)
                raise Failure(f"{name} is no folder: leave out --only", 4)
            out.seek(0, os.SEEK_END)
    except IsFolder:
        return await fetch_folder(session, data, output, only)
    except Failure as fault:
        text, status = fault.args
        part = beside(os.path.realpath(output), blob)
        if number or output == "-" or not os.path.exists(part):
            raise
        raise Failure(f"{text}; what has come stays in {part}", status) from None
    return {"size": size}


async def fetch_file(session: aiohttp.ClientSession, name: str, out: IO[bytes]) -> int:
    """Fetches a file; drops what has come of it if nobody can read it any more."""
    try:
        return await fetch(session, name, out)
    except Failure as fault:
        if fault.args[1] == BY_STATUS[410]:
            out.truncate(0)
        raise
