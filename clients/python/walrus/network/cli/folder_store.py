"""Sends folders of this machine to a gateway, which is not trusted: identifiers are computed here as well."""
import hashlib
import os
import stat
from typing import Any, AsyncIterator, Callable, Iterator

import aiohttp


from walrus.network.files.manifest import Wrong, as_path, label_of, shown
from walrus.network.files.naming import Naming
from walrus.network.files.packing import SMALL, Folder
from walrus.network.ledger.entries import LAST_UNTIL
from walrus.network.service.failure import Failure
from walrus.network.service.task_groups import several

from .progress_bar import Bar
from .transfers import PART, Busy, ask, must_name, naming_of, patiently, put

WIDTH = 4  # parts of a folder that are sent or fetched at once
KINDS = {stat.S_IFLNK: "a link", stat.S_IFSOCK: "a socket", stat.S_IFIFO: "a pipe"}


def files_below(top: bytes, front: bytes = b"") -> Iterator[tuple[str, bytes]]:
    """Yields the path of each file in a folder, and where it is; raises `Failure` for what no folder may have."""
    with os.scandir(os.path.join(top, front)) as found:
        entries = sorted(found, key=lambda it: it.name)
    for entry in entries:
        name, kind = front + entry.name, stat.S_IFMT(entry.stat(follow_symlinks=False).st_mode)
        if kind == stat.S_IFDIR:
            yield from files_below(top, name + b"/")
        elif kind == stat.S_IFREG:
            try:
                yield as_path(name), entry.path
            except Wrong as fault:
                raise Failure(f"{fault}; nothing is stored", 1) from None
        else:
            text = KINDS.get(kind, "a device")
            raise Failure(f"{shown(name)} is {text}, and a folder has only files; nothing is stored", 1)


class Sending:
    """Stores a folder: sends those parts that the gateway's network lacks."""

    def __init__(self, session: aiohttp.ClientSession, naming: Naming, epochs: int, until: int, bar: Bar):
        self.session, self.epochs, self.until, self.bar = session, epochs, until, bar
        self.walrus, self.faults, self.folder, self.sent = naming.walrus, naming.faults, Folder(), 0
        self.end = LAST_UNTIL  # the first epoch in which a part of it is not kept

    async def send(self, parts: Callable[[], Iterator[bytes]], what: str, always: bool = False) -> tuple[bytes, Any]:
        """Sends a file, unless it is kept for long enough already. Returns its identifier, and the gateway's answer if
        it was sent. Raises `Failure` if the gateway names it otherwise."""
        naming = Naming(self.walrus, self.faults)
        for part in parts():
            await naming.add(part)
        names = await naming.identifiers()
        pieces = [naming.names[at : at + 32] for at in range(0, len(naming.names), 32)]  # noqa: E203
        if not always and all([await self.is_kept(it) for it in dict.fromkeys([names[0], *pieces])]):
            self.bar.add(naming.size)
            return names[0], None

        async def stream() -> AsyncIterator[bytes]:
            for part in parts():
                yield part
                self.bar.add(len(part))

        told = await patiently(lambda: put(self.session, stream(), self.epochs))
        self.sent, self.end = self.sent + naming.size, min(self.end, told["endEpoch"])
        must_name(told, names, what)
        return names[0], told

    async def is_kept(self, name: bytes) -> bool:
        """Whether a blob is certified, held, and kept for long enough; False if the gateway does not tell."""
        try:
            told = await patiently(lambda: ask(self.session, "GET", f"/v1/status/{name.hex()}", params={"held": "1"}))
        except Failure as fault:
            if isinstance(fault, Busy):
                raise  # each further piece would be asked for as patiently
            return False
        is_held = bool(told["certificate"]) and not told["invalid"] and bool(told.get("held"))
        is_kept = is_held and told["endEpoch"] >= self.until
        self.end = min(self.end, told["endEpoch"]) if is_kept else self.end
        return is_kept

    def look(self, top: bytes) -> list[tuple[str, bytes]]:
        """Checks the names of all files, and reads the small ones. Returns the path and place of the large ones."""
        large = list[tuple[str, bytes]]()
        for path, place in [*files_below(top)]:
            try:
                self.folder.begin(path)
            except Wrong as fault:
                raise Failure(f"{fault}; nothing is stored", 1) from None
            with open(place, "rb") as file:
                data = file.read(SMALL + 1)
                self.bar.size += os.fstat(file.fileno()).st_size
            if len(data) > SMALL:
                large.append((path, place))
            elif data:
                self.folder.add_small(path, len(data), hashlib.sha256(data).digest(), place)
        return large

    async def send_large(self, path: str, place: bytes) -> None:
        size = 0

        def parts() -> Iterator[bytes]:
            nonlocal size
            size = 0
            with open(place, "rb") as file:
                while part := file.read(PART):
                    size += len(part)
                    yield part

        name, _ = await self.send(parts, f"{shown(path)}, unless it changed meanwhile,")
        self.folder.add(path, size, name)

    async def send_pack(self, number: int, pack: list[tuple[bytes, int, Any]]) -> None:
        data = b""
        for digest, _, place in pack:
            with open(place, "rb") as file:
                found = file.read(SMALL + 1)
            if hashlib.sha256(found).digest() != digest:
                raise Failure(f"{shown(place)} changed while it was stored: store the folder again", 1)
            data += found
        name, _ = await self.send(lambda: iter([data]), "a pack of small files")
        self.folder.place(number, name)

    async def send_all(self, top: bytes) -> Any:
        large = self.look(top)
        await several((self.send_large(*it) for it in large), WIDTH, ends=False)
        await several((self.send_pack(*it) for it in enumerate(self.folder.packs())), WIDTH, ends=False)
        lines = b"".join(self.folder.manifest())
        name, told = await self.send(lambda: iter([lines]), "the folder", always=True)
        found = {"files": self.folder.count, "bytes": self.folder.bytes, "sent": self.sent, "label": label_of(name)}
        for it in (told.get("alreadyCertified"), told.get("newlyCreated", {}).get("blobObject", {}).get("storage")):
            if isinstance(it, dict):  # in the form of Walrus' gateways
                it["endEpoch"] = self.end
        return {**told, "endEpoch": self.end, "folder": found}


async def store_folder(session: aiohttp.ClientSession, path: str, epochs: int) -> Any:
    """Stores a folder, its manifest last. Returns the gateway's answer, with the figures of the folder."""
    naming, status = await naming_of(session), await ask(session, "GET", "/v1/status")
    with Bar(os.path.basename(os.path.abspath(path))) as bar:
        sending = Sending(session, naming, epochs, status["epoch"] + bool(status["moving"]) + epochs, bar)
        try:
            return await sending.send_all(os.fsencode(path))
        finally:
            sending.folder.close()
