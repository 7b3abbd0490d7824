"""Publishes a file or a folder at shards, or fetches it: the command python3 -m walrus.client.

    python3 -m walrus.client publish [--bundle] FILE|FOLDER HOST:PORT..
    python3 -m walrus.client fetch [--folder FOLDER | --file NAME] ID HOST:PORT..

The addresses are those of all n = 3f+1 shards, in the order of their numbers. Each file is one blob. A folder has one
more blob, its manifest, which lists the names and identifiers of its files; the manifest's identifier is that of the
folder. With --bundle, one blob contains up to 2f small files, and the manifest has its identifier and each file's
number in it.
"""
import argparse
import asyncio
import json
import pathlib
import sys
from collections.abc import Sequence
from typing import NamedTuple, Optional


from walrus.client import LARGEST_BLOB, MOST_FAULTS, in_process as walrus_library

from . import bundles as walrus_bundles, client, loop


def read_address(text: str) -> tuple[str, int]:
    host, _, port = text.rpartition(":")
    if not host or not port.isdigit() or int(port) > 65_535:
        raise argparse.ArgumentTypeError(f"{text} is not HOST:PORT")
    return host.strip("[]"), int(port)


def read_identifier(text: str) -> bytes:
    if len(text) != 64 or not set(text) <= set("0123456789abcdefABCDEF"):
        raise argparse.ArgumentTypeError("an identifier is 64 hexadecimal digits")
    return bytes.fromhex(text)


def read_words(words: Sequence[str] | None = None) -> argparse.Namespace:
    shape = {"description": __doc__, "formatter_class": argparse.RawDescriptionHelpFormatter}
    parser = argparse.ArgumentParser(prog="python3 -m walrus.client", **shape)  # type: ignore[arg-type]
    commands = parser.add_subparsers(dest="command", required=True)
    publish = commands.add_parser("publish", help="store a file or a folder, and print its identifier")
    publish.add_argument("path", metavar="FILE|FOLDER", type=pathlib.Path)
    publish.add_argument("--bundle", action="store_true", help="put small files of a folder into bundles, 2f into each")
    publish.add_argument("--until", type=int, default=1, help="the epoch until which it is kept, by default 1")
    publish.add_argument("--format", type=int, default=1, choices=(1, 2), help="the format of identifiers")
    fetch = commands.add_parser("fetch", help="write a blob to standard output, or the files of a folder")
    fetch.add_argument("identifier", metavar="ID", type=read_identifier)
    parts = fetch.add_mutually_exclusive_group()
    parts.add_argument("--folder", type=pathlib.Path, help="the new folder into which the files of a manifest go")
    parts.add_argument("--file", metavar="NAME", help="the one file of a manifest that goes to standard output")
    for command in (publish, fetch):
        command.add_argument("addresses", metavar="HOST:PORT", nargs="+", type=read_address)
        command.add_argument("--walrus", default="", help="program or library; default: that of WALRUS, or one found")
        command.add_argument("--seconds", type=float, default=client.SECONDS, help="a shard's deadline for a reply")
    given = parser.parse_args(words)
    given.faults, rest = divmod(len(given.addresses) - 1, 3)
    if rest or not 1 <= given.faults <= MOST_FAULTS:
        parser.error(f"{len(given.addresses)} addresses; give those of all 3f+1 shards: 4, 7, 10 and so on")
    return given


def show(text: str) -> None:
    """Show progress on one line, if standard error is a terminal."""
    if sys.stderr.isatty():
        shown = "".join(letter if letter.isprintable() else "?" for letter in text)
        print(f"\r\033[K{shown}", end="", file=sys.stderr, flush=True)


def list_files(path: pathlib.Path) -> list[pathlib.Path]:
    """Return the file, or the files of a folder in the order of their names, without symbolic links. Raises
    `ValueError` if there are none, or one has more than 16 MiB."""
    files = [path] if path.is_file() else sorted(it for it in path.rglob("*") if it.is_file() and not it.is_symlink())
    if not path.exists() or not files:
        raise ValueError(f"{path}: there is no such file, or no file in it")
    for file in files:
        if file.stat().st_size > LARGEST_BLOB:
            raise ValueError(f"{file} has more than 16 MiB, and a blob has no more: cut it (split -b 16M FILE PART.)")
    return files


class Place(NamedTuple):
    """Where a file is: the identifier of its blob, or the identifier of a bundle and the file's number in it."""

    identifier: bytes
    member: Optional[int] = None

    @classmethod
    def read(cls, text: str) -> "Place":
        identifier, colon, number = text.partition(":")
        return cls(read_identifier(identifier), int(number) if colon else None)

    def write(self) -> str:
        return self.identifier.hex() + ("" if self.member is None else f":{self.member}")


def write_manifest(places: dict[str, Place]) -> bytes:
    return json.dumps({"files": {name: place.write() for name, place in places.items()}}, indent=1).encode()


def read_manifest(blob: bytes) -> dict[str, Place]:
    """Return where each file is. Raises `ValueError` for no manifest, or a name that leads out of the folder."""
    try:
        places = {name: Place.read(text) for name, text in json.loads(blob)["files"].items()}
    except (ValueError, KeyError, TypeError, AttributeError, RecursionError, argparse.ArgumentTypeError):
        text = "this blob is no manifest of a folder; without --folder and --file it goes to standard output"
        raise ValueError(text) from None
    for name, place in places.items():
        if "\0" in name or not {"", ".", ".."}.isdisjoint(name.split("/")):
            raise ValueError(f"the manifest has a name that is refused: {name!r}")
        if place.member is not None and not 0 <= place.member < 2 * MOST_FAULTS:
            raise ValueError(f"the manifest has a number that no file of a bundle has, at {name!r}")
    return places


async def publish(given: argparse.Namespace, shards: client.Shards, walrus: client.Walrus) -> bytes:
    """Publish a file, or all files of a folder and then their manifest; return the identifier of the file or manifest.
    Raises `client.NoQuorum` if too few shards acknowledge a blob."""

    async def store(blob: bytes) -> bytes:
        encoded = await walrus.encode(blob, given.faults, given.format)
        await client.publish(shards, encoded, given.until)
        return encoded.identifier

    files, places = list_files(given.path), dict[str, Place]()
    names = [file.relative_to(given.path).as_posix() for file in files]
    groups = [range(count, count + 1) for count in range(len(files))]
    if given.bundle:
        groups = walrus_bundles.pack([file.stat().st_size for file in files], given.faults)
    for group in groups:
        show(f"{group.stop} of {len(files)}: {files[group.stop - 1]}")
        blobs = [files[it].read_bytes() for it in group]
        is_alone = len(blobs) == 1
        name = await store(blobs[0] if is_alone else await walrus_bundles.join(blobs, given.faults, walrus))
        places |= {names[it]: Place(name, None if is_alone else count) for count, it in enumerate(group)}
    return places["."].identifier if given.path.is_file() else await store(write_manifest(places))


async def fetch_file(place: Place, shards: client.Shards, walrus: client.Walrus) -> bytes:
    """Return one file; of a bundle, only the index and the columns that the file fills are read."""
    if place.member is None:
        return await client.fetch(shards, place.identifier, walrus)
    return await walrus_bundles.fetch_member(shards, place.identifier, place.member, walrus)


async def fetch_folder(
    folder: pathlib.Path, places: dict[str, Place], faults: int, shards: client.Shards, walrus: client.Walrus
) -> None:
    """Fetch the files of a manifest into a new folder; a bundle is read whole, and once if its files are in a row."""
    folder.mkdir()
    last, members = b"", list[bytes]()
    for count, (name, place) in enumerate(places.items(), 1):
        show(f"{count} of {len(places)}: {name}")
        if place.member is not None and place.identifier != last:
            last, members = place.identifier, walrus_bundles.split(
                await fetch_file(Place(place[0]), shards, walrus), faults
            )
        if place.member is not None and place.member >= len(members):
            raise ValueError(f"its bundle has no file of the number that the manifest has for {name!r}")
        data = await fetch_file(place, shards, walrus) if place.member is None else members[place.member]
        path = folder / name
        path.parent.mkdir(parents=True, exist_ok=True)
        with path.open("xb") as file:
            file.write(data)


async def fetch(given: argparse.Namespace, shards: client.Shards, walrus: client.Walrus) -> bytes:
    """Fetch a blob, or one file of a manifest, and return it; or fetch all files of a manifest into a new folder."""
    blob = await client.fetch(shards, given.identifier, walrus)
    if given.folder is None and given.file is None:
        return blob
    places = read_manifest(blob)
    if given.folder is not None:
        await fetch_folder(given.folder, places, given.faults, shards, walrus)
        return b""
    if given.file not in places:
        raise ValueError(f"the manifest has no file {given.file!r}; without --file it goes to standard output")
    return await fetch_file(places[given.file], shards, walrus)


async def run(given: argparse.Namespace) -> bytes:
    """Run the command that was given; return what is to be written to standard output."""
    walrus, addresses = walrus_library.find(given.walrus), enumerate(given.addresses)
    shards = [client.SocketShard(number, given.faults, place, given.seconds) for number, place in addresses]
    try:
        if given.command == "fetch":
            return await fetch(given, shards, walrus)
        return (await publish(given, shards, walrus)).hex().encode() + b"\n"
    finally:
        show("")
        await asyncio.gather(*[shard.close() for shard in shards])


def main() -> None:
    try:
        sys.stdout.buffer.write(loop.run(run(read_words())))
    except (client.Failed, OSError, ValueError) as error:
        sys.exit(f"walrus.client: {error}")
    except KeyboardInterrupt:
        sys.exit(130)
