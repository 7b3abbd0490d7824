"""Manifests: which files a folder has, and where the bytes of each file are. Equal folders have equal manifests.

A manifest is a mark, then a line for each file: path, media type, length and place, separated by tabs. The lines are in
ascending order of their bytes. docs: network/HTTP.md, "Folders"."""
import array
import base64
import bisect
import re
from typing import Iterable, Iterator, NamedTuple, Optional, Union

from .file_list import LONGEST, PIECE
from .sealed import Away, Blob, Sealed, front_of

MARK = b"\x00walrus folder\x00\x01"
MOST_FILES, MOST_BYTES = 262_144, 67_108_864  # most files of a folder; most bytes of a manifest
PATH, PART = 1_024, 255  # most bytes of a path, and of a name in it
OTHER = "application/octet-stream"
SILENT = "", OTHER, "application/x-www-form-urlencoded"  # what clients send by default, whatever the file is
KINDS = {
    "text/html": "html htm",
    "text/css": "css",
    "text/javascript": "js mjs",
    "text/plain": "txt md log",
    "text/csv": "csv",
    "text/vtt": "vtt",
    "text/xml": "xml",
    "application/json": "json map",
    "application/ld+json": "jsonld",
    "application/manifest+json": "webmanifest",
    "application/pdf": "pdf",
    "application/wasm": "wasm",
    "application/rss+xml": "rss",
    "application/atom+xml": "atom",
    "application/epub+zip": "epub",
    "application/zip": "zip",
    "application/gzip": "gz tgz",
    "application/x-tar": "tar",
    "image/svg+xml": "svg",
    "image/png": "png",
    "image/jpeg": "jpg jpeg",
    "image/gif": "gif",
    "image/webp": "webp",
    "image/avif": "avif",
    "image/x-icon": "ico",
    "image/bmp": "bmp",
    "image/tiff": "tif tiff",
    "audio/mpeg": "mp3",
    "audio/ogg": "ogg oga opus",
    "audio/wav": "wav",
    "audio/flac": "flac",
    "audio/mp4": "m4a",
    "video/mp4": "mp4 m4v",
    "video/webm": "webm",
    "video/ogg": "ogv",
    "video/quicktime": "mov",
    "font/woff": "woff",
    "font/woff2": "woff2",
    "font/ttf": "ttf",
    "font/otf": "otf",
}
BY_ENDING = {ending: kind for kind, endings in KINDS.items() for ending in endings.split()}

NAME = rb"(?!\.{1,2}[/\t])[^\x00-\x1f\x7f/\\]{1,%d}" % PART
TYPE = rb"[a-z0-9][a-z0-9!#$&^_.+-]{0,63}/[a-z0-9][a-z0-9!#$&^_.+-]{0,63}"
NUMBER = rb"0|[1-9][0-9]{0,12}"
LINE = re.compile(rb"((?:%s/)*%s)\t(%s)\t(%s)\t(?:-|([0-9a-f]{64})(?:@(%s))?)\n" % (NAME, NAME, TYPE, NUMBER, NUMBER))
MOST_LINE = 1_400  # most bytes of a line: without a bound, the match would run through an endless path
WINDOW = 1_048_576  # bytes of a manifest that are read at once while it is checked
CONTROLS = re.compile("[\x00-\x1f\x7f-\x9f]")  # LINE excludes those of one byte already


class Wrong(ValueError):
    """A path that no folder may have, or a malformed manifest. The text says what is wrong."""


class TooMany(Wrong):
    """More files than one folder may have."""


class Foreign(Wrong):
    """Data that does not begin with the mark of a manifest."""


class Place(NamedTuple):
    """A file of a folder. `file` is the identifier, as `PUT /v1/blobs` returns it, of what holds its bytes; it is empty
    for an empty file. They begin at `offset` there, among others; without `offset` they are all of it."""

    path: str
    kind: str
    length: int
    file: bytes
    offset: Optional[int] = None

    def line(self) -> bytes:
        at = "" if self.offset is None else f"@{self.offset}"
        return f"{self.path}\t{self.kind}\t{self.length}\t{self.file.hex() + at or '-'}\n".encode()


def as_path(name: Union[str, bytes]) -> str:
    """Returns a tool's name for a file as a path in a folder; raises `Wrong` if no folder may have this path."""
    try:
        path = name.decode() if isinstance(name, bytes) else name.encode().decode()
    except UnicodeError:
        raise Wrong(f"{shown(name)} is no UTF-8: rename the file") from None
    path = re.sub(r"\A(?:\./+)+", "", path)
    if path.startswith("/"):
        raise Wrong(f"{shown(path)} is no path within the folder: it begins with a slash")
    if CONTROLS.search(path) or "\\" in path:
        raise Wrong(f"{shown(path)} has a control character or a backslash: rename the file")
    parts = path.split("/")
    if not {"", ".", ".."}.isdisjoint(parts):
        raise Wrong(f"{shown(path)} is no path within the folder: it has an empty name, . or ..")
    if len(path.encode()) > PATH or max(len(part.encode()) for part in parts) > PART:
        raise Wrong(f"{shown(path)} is too long: a path has at most {PATH} bytes, and a name in it {PART}")
    return path


def shown(name: Union[str, bytes]) -> str:
    """Returns a path for an error message: at most 100 characters, escaped if some cannot be printed."""
    text = name.decode("utf-8", "backslashreplace") if isinstance(name, bytes) else name
    return ascii(text[:100]) if CONTROLS.search(text) or not text.isprintable() else repr(text[:100])


def clean(text: str) -> str:
    """Returns somebody else's text with unprintable characters escaped, as they may be commands to a terminal."""
    return "".join(it if it.isprintable() else ascii(it)[1:-1] for it in text)


def kind_of(path: str) -> str:
    """Returns the media type of a file, by the ending of its name."""
    name = path.rpartition("/")[2]
    return BY_ENDING.get(name.rpartition(".")[2].lower(), OTHER) if "." in name[1:] else OTHER


def kind_told(told: str, path: str) -> str:
    """Returns the media type that a client gives for a file, or that of the file's name if the client gives none or a
    default. Raises `Wrong` if a manifest cannot have it."""
    kind, _, parameter = (it.strip() for it in told.lower().partition(";"))
    if kind in SILENT and not parameter:
        return kind_of(path)
    if not re.fullmatch(TYPE.decode(), kind) or parameter not in ("", "charset=utf-8", 'charset="utf-8"'):
        raise Wrong(f"{shown(told)} is no media type that can be kept: send TYPE/SUBTYPE, at most with charset=utf-8")
    return kind


def label_of(name: bytes) -> str:
    """Returns a folder's label in DNS, which begins the name of its own host: its identifier in base32."""
    return base64.b32encode(name).decode().lower().rstrip("=")


class Manifest:
    """A manifest that was read and checked. `data` is its bytes, which may be in a file."""

    def __init__(self, data: Blob):
        """Checks all lines; raises `Wrong` for the first fault."""
        self.data, self.starts = data, array.array("I")
        if front_of(data, len(MARK)) != MARK:
            raise Foreign("it does not begin as a manifest does")
        if len(data) > MOST_BYTES:
            raise Wrong(f"it has more than {MOST_BYTES} bytes")
        before, above, end = b"", dict[bytes, None](), len(MARK)  # the previous path; files that are its prefixes
        at, window = 0, b""  # bytes that are in memory, and where they begin
        while end < len(data):
            if end + MOST_LINE > at + len(window) < len(data):
                at, window = end, self.window(end, min(end + WINDOW, len(data)))
            found = LINE.match(window, end - at, end - at + MOST_LINE)
            if not found or len(self.starts) == MOST_FILES:
                raise Wrong(f"line {len(self.starts) + 1} is malformed, or one too many")
            path = found[1]
            while above and not path.startswith(next(reversed(above))):
                above.popitem()
            check(before, path, above, found)
            above[path] = None
            self.starts.append(end)
            before, end = path, at + found.end()

    def window(self, start: int, end: int) -> bytes:
        """Returns a long part of the bytes, of which nothing stays in memory."""
        return bytes(self.data.read(start, end) if isinstance(self.data, Away) else self.data[start:end])

    def span(self, start: int, end: int) -> bytes:
        """Returns a part of the bytes, up to the last one."""
        end = min(end, len(self.data))
        return self.data.peek(start, end) if isinstance(self.data, Away) else bytes(self.data[start:end])

    def is_damaged(self) -> bool:
        """Whether the disk has given back something else than was read."""
        return isinstance(self.data, Sealed) and self.data.is_damaged

    def __len__(self) -> int:
        return len(self.starts)

    def __iter__(self) -> Iterator[Place]:
        return map(self.at, range(len(self)))

    def at(self, number: int) -> Place:
        found = LINE.match(self.span(self.starts[number], self.starts[number] + MOST_LINE))
        assert found
        path, kind, length, file, offset = found.groups()
        name = bytes.fromhex((file or b"").decode())
        return Place(path.decode(), kind.decode(), int(length), name, None if offset is None else int(offset))

    def first(self, text: bytes) -> int:
        """Returns the number of the first line that does not sort before a text."""

        def front(start: int) -> bytes:
            return self.span(start, start + len(text))

        return bisect.bisect_left(self.starts, text, key=front)

    def starts_with(self, number: int, text: bytes) -> bool:
        start = self.starts[number] if number < len(self) else len(self.data)
        return self.span(start, start + len(text)) == text

    def find(self, path: str) -> Optional[Place]:
        """Returns the file at a path, or None."""
        text = path.encode() + b"\t"
        number = self.first(text)
        return self.at(number) if self.starts_with(number, text) else None

    def has(self, folder: str) -> bool:
        """Whether there is a folder of this path, which ends with a slash, or is empty for the whole folder."""
        return not folder or self.starts_with(self.first(folder.encode()), folder.encode())

    def within(self, folder: str) -> Iterator[Union[str, Place]]:
        """Yields what is directly in a folder, in the order of the manifest: files, and the names of folders."""
        front = folder.encode()
        number = self.first(front)
        while self.starts_with(number, front) and number < len(self):
            place = self.at(number)
            name, slash, _ = place.path[len(folder) :].partition("/")  # noqa: E203
            yield name if slash else place
            number = self.first(f"{folder}{name}0".encode()) if slash else number + 1  # in ASCII, 0 follows the slash


def check(before: bytes, path: bytes, above: Iterable[bytes], found: "re.Match[bytes]") -> None:
    """Raises `Wrong` if a line may not follow the previous one. Each of `above` is a prefix of its path."""
    try:
        text = path.decode()
    except UnicodeError:
        text = "\x7f"
    length, file, offset = int(found[3]), found[4], int(found[5] or 0)
    is_beside = before.startswith(path[: path.rfind(b"/") + 1] or b"/")  # the previous path's folders were checked
    if path + b"\t" <= before + b"\t" and before:
        raise Wrong(f"{shown(path)} is out of order, or occurs twice")
    if CONTROLS.search(text) or len(path) > PATH:
        raise Wrong(f"{shown(path)} is too long, is no UTF-8 or has a control character")
    if not is_beside and any(path[len(it) : len(it) + 1] == b"/" for it in above):  # noqa: E203
        raise Wrong(f"{shown(path)} is in a folder that is also a file")
    most = LONGEST if found[5] is None else PIECE
    if (length == 0) != (file is None) or offset + length > most:
        raise Wrong(f"{shown(path)} has a length that does not fit its place")
