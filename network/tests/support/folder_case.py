"""What the tests of folders share: folders as tars and forms, correct and hostile ones."""
import io
import random
import tarfile
from typing import Iterable, Union

from walrus.network.files.manifest import MARK, Place

Files = dict[str, bytes]
HOSTILE: dict[str, tuple[str, str]] = {  # what cannot be in a folder: its name in a tar, and a part of the error
    "leaves": ("../out", "no path within the folder"),
    "leaves later": ("a/../../out", "no path within the folder"),
    "absolute": ("/etc/passwd", "begins with a slash"),
    "empty": ("a//b", "no path within the folder"),
    "dot": ("a/./b", "no path within the folder"),
    "control": ("a\r\nSet-Cookie: b", "control character"),
    "second controls": ("a\x9b", "control character"),
    "backslash": ("a\\..\\b", "backslash"),
    "long": ("a" * 256, "too long"),
    "deep": ("/".join(["abc"] * 300), "too long"),
    "no UTF-8": ("a\udcff", "no UTF-8"),
}


def tar_of(files: Union[Files, Iterable[tuple[str, bytes]]], form: int = tarfile.PAX_FORMAT) -> bytes:
    """Returns a tar of these files."""
    out = io.BytesIO()
    with tarfile.open(fileobj=out, mode="w", format=form, errors="surrogateescape") as made:
        for path, data in files.items() if isinstance(files, dict) else files:
            told = tarfile.TarInfo(path)
            told.size = len(data)
            made.addfile(told, io.BytesIO(data))
    return out.getvalue()


def odd_tar(kind: bytes, name: str = "odd", link: str = "", size: int = 0, before: bytes = b"") -> bytes:
    """Returns a tar of a file, and of an entry of another kind."""
    out = io.BytesIO()
    with tarfile.open(fileobj=out, mode="w") as made:
        file = tarfile.TarInfo("before")
        file.size = len(before)
        made.addfile(file, io.BytesIO(before))
        told = tarfile.TarInfo(name)
        told.type, told.linkname, told.size = kind, link, size
        made.addfile(told)
    return out.getvalue()


def form_of(files: Files) -> tuple[str, bytes]:
    """Returns the media type and the bytes of a form of these files."""
    bound = "folder-boundary"
    parts = [
        f'--{bound}\r\nContent-Disposition: form-data; name="f"; filename="{path}"\r\n'
        "Content-Type: application/x-evil\r\n\r\n".encode() + data + b"\r\n"
        for path, data in files.items()
    ]
    return f"multipart/form-data; boundary={bound}", b"".join(parts) + f"--{bound}--\r\n".encode()


def manifest_of(*places: Place) -> bytes:
    return MARK + b"".join(place.line() for place in places)


def site() -> Files:
    """Returns a small site: pages, a picture, an empty file, and a film that is too long for a pack."""
    page = '<!DOCTYPE html><title>A site</title><link rel=stylesheet href="style.css"><h1>Here</h1>'
    return {
        "index.html": page.encode(),
        "style.css": b"h1 { color: rgb(1, 2, 3) }",
        "pictures/one.svg": b'<svg xmlns="http://www.w3.org/2000/svg" width="40" height="30"></svg>',
        "pictures/\u00fc ber.txt": "\u00fcber\n".encode(),
        "film.webm": random.Random(53).randbytes(700_000),
        "empty": b"",
        "sub/index.html": b"<p>below",
        "copy of one.svg": b'<svg xmlns="http://www.w3.org/2000/svg" width="40" height="30"></svg>',
    }
