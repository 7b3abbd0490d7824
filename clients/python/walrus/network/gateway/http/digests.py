"""SHA-256 of files in headers: `Repr-Digest`, `Want-Repr-Digest` (RFC 9530), and the older `Digest` (RFC 3230)."""
import base64
import binascii
import hashlib
import re
from typing import Optional

from aiohttp import web


from walrus.network.files.sealed import Away, Blob

from .errors import Problem

READ = 262_144  # bytes of a file that are read at once
FORMS = {"Repr-Digest": r"sha-256=:([A-Za-z0-9+/=]{44}):", "Digest": r"sha-256=([A-Za-z0-9+/=]{44})"}

WANTED = "Want-Repr-Digest", "Want-Digest"


def promised(request: web.Request) -> Optional[bytes]:
    """Returns the SHA-256 that a request promises for its file, or None. Raises `Problem` if it is malformed, or if two
    different ones are promised."""
    found = set[bytes]()
    for name, form in FORMS.items():
        for part in ",".join(request.headers.getall(name, [])).split(","):
            if part.strip().lower().startswith("sha-256="):
                told = re.fullmatch(form, part.strip(), re.IGNORECASE)
                try:
                    found.add(base64.b64decode(told[1] if told else "?", validate=True))
                except binascii.Error:
                    raise Problem(400, f"{name} has no SHA-256 in base64: {part.strip()[:80]}") from None
    if len(found) > 1:
        raise Problem(400, "the request gives two different SHA-256 of the file: send one")
    return found.pop() if found else None


def wanted(request: web.Request) -> bool:
    """Whether a request asks for the SHA-256 of the file, with a weight other than 0."""
    asked = ",".join(request.headers.get(name, "") for name in WANTED)
    for part in asked.lower().replace(" ", "").replace(";q", "").split(","):
        name, _, weight = part.partition("=")
        if name == "sha-256" and (weight.strip("0.") or not weight):
            return True
    return False


def is_asked(request: web.Request) -> bool:
    """Whether a request promises or asks for digests. Others are spared the SHA-256, which takes 40 ms for 16 MiB."""
    return any(name in request.headers for name in (*FORMS, *WANTED))


def fields(digest: bytes) -> dict[str, str]:
    """Returns the headers with a digest."""
    text = base64.b64encode(digest).decode()
    return {"Repr-Digest": f"sha-256=:{text}:", "Digest": f"sha-256={text}"}


def sum_of(blob: Blob) -> bytes:
    """Returns the SHA-256 of a blob; blocks. Raises `Damaged` if it is in a file, which cannot be read."""
    if not isinstance(blob, Away):
        return hashlib.sha256(blob).digest()
    found = hashlib.sha256()
    for place in range(0, len(blob), READ):
        found.update(blob.read(place, min(place + READ, len(blob))))
    return found.digest()
