"""Reads the files of a folder from a tar (ustar, with pax and GNU headers) or from a form, while it arrives.

Anybody may send one: what is read ahead is bounded, names are checked, and entries that are no files are refused."""
import array
import email
import functools
import re
from typing import AsyncGenerator, Callable, NamedTuple, Optional


from walrus.network.files.manifest import Wrong, as_path, shown
from walrus.network.gateway.http.errors import Problem

from .forms import files_of
from .source import BROKEN, Parts, Source

BLOCK, MOST_FIELDS = 512, 65_536  # bytes of a block of a tar; most bytes of one pax or GNU header
SPARSE = "GNU.sparse."  # the prefix of a sparse file's pax fields
OTHERS = {b"1": "a link", b"2": "a link", b"3": "a device", b"4": "a device", b"6": "a pipe", b"S": "a sparse file"}
ASKED = "send a tar, or the files as multipart/form-data with a path as file name, as curl -F 'a=@FILE;filename=PATH'"
# A file that arrives: its path, its length if known in advance, and its bytes, which are read before the next file.
Coming = NamedTuple("Coming", [("path", str), ("length", Optional[int]), ("parts", Parts)])


def opened(kind: str) -> Callable[[Source], AsyncGenerator[Coming, None]]:
    """Returns the function that reads the files of a body of media type `kind`."""
    told = email.message_from_string(f"Content-Type: {kind}\n\n")
    if not kind or told.get_content_type() in ("application/x-tar", "application/tar", "application/octet-stream"):
        return files_of_tar
    return functools.partial(files_of_form, kind)


def checked(name: bytes) -> str:
    """Returns a name as a path in the folder; raises 400 if no file of a folder may have it."""
    try:
        return as_path(name)
    except Wrong as fault:
        raise Problem(400, f"{fault}; no folder is stored") from None


async def files_of_tar(source: Source) -> AsyncGenerator[Coming, None]:
    """Yields the files of a tar. The names of its folders are checked, but an empty folder is not kept."""
    long, told = b"", dict[str, bytes]()  # of the headers before a file: GNU's long name, fields of pax
    while (head := await source.exactly(BLOCK)).strip(b"\0"):
        if len(head) < BLOCK or not is_sum(head):
            raise Problem(400, BROKEN)
        kind, size, name = head[156:157], number_of(head[124:136]), name_in(head)
        if kind in (b"x", b"g", b"L", b"K"):
            if size > MOST_FIELDS:
                raise Problem(400, f"a pax or GNU header of the tar has more than {MOST_FIELDS} bytes")
            data = (await source.exactly(size + -size % BLOCK))[:size]
            if kind == b"L":
                long = data.rstrip(b"\0")
            elif kind in (b"x", b"g"):
                fields = fields_of(data)
                if kind == b"g" and {"path", "size"} & {*fields}:
                    raise Problem(400, "the tar gives all files one name or length: make it with tar --create")
                told |= counting(fields) if kind == b"x" else {}
            continue
        name, size = told.get("path", long or name), decimal(told["size"]) if "size" in told else size
        is_sparse = SPARSE in told
        long, told = b"", {}
        if kind == b"5" or kind in (b"0", b"\0") and name.endswith(b"/"):
            if name.rstrip(b"/") not in (b"", b"."):
                checked(name.rstrip(b"/"))
        elif kind in (b"0", b"\0", b"7") and not is_sparse:
            path, parts = checked(name), source.parts(size)
            yield Coming(path, size, parts)
        else:
            text = "a sparse file" if is_sparse else OTHERS.get(kind, "no file")
            raise Problem(400, f"{shown(name)} is {text}: a folder has only files; leave it out, or use tar -h")
        if len(await source.exactly(-size % BLOCK)) != -size % BLOCK:
            raise Problem(400, BROKEN)
    if len(head) < BLOCK:
        raise Problem(400, BROKEN)
    await source.zeros()


def counting(fields: dict[str, bytes]) -> dict[str, bytes]:
    """Returns the fields that are used here. No others are kept, as a tar may have endless headers and no file."""
    found = {name: fields[name] for name in ("path", "size") if name in fields}
    return found | ({SPARSE: b""} if any(name.startswith(SPARSE) for name in fields) else {})


def is_sum(head: bytes) -> bool:
    """Whether a header's checksum is right, with its bytes taken as unsigned or as signed."""
    text, blank = head[148:156].strip(b" \0"), head[:148] + 8 * b" " + head[156:]
    return bool(re.fullmatch(b"[0-7]{1,7}", text)) and int(text, 8) in (sum(blank), sum(array.array("b", blank)))


def name_in(head: bytes) -> bytes:
    """Returns the name in a header itself, with the prefix that ustar may have for it."""
    name, prefix = (text.partition(b"\0")[0] for text in (head[:100], head[345:500]))
    return prefix + b"/" + name if head[257:263] == b"ustar\0" and prefix else name


def number_of(text: bytes) -> int:
    """Returns a length that is written in octal digits, or in binary, as GNU does for long files; else raises 400."""
    if text[:1] == b"\x80":
        return int.from_bytes(text[1:], "big")
    text = text.strip(b" \0")
    if not re.fullmatch(b"[0-7]{0,12}", text):
        raise Problem(400, BROKEN)
    return int(text or b"0", 8)


def decimal(text: bytes) -> int:
    if not re.fullmatch(b"[0-9]{1,20}", text):
        raise Problem(400, BROKEN)
    return int(text)


def fields_of(text: bytes) -> dict[str, bytes]:
    """Returns the fields of a pax header, each of which begins with its length; raises 400 if one is malformed."""
    found, start = dict[str, bytes](), 0
    while start < len(text):
        size, end = text[start : start + 8].partition(b" ")[0], start  # noqa: E203
        end += int(size) if re.fullmatch(b"[1-9][0-9]{0,5}", size) else 0
        line = text[start:end]
        key, equals, value = line[len(size) + 1 : -1].partition(b"=")  # noqa: E203
        if not equals or line[-1:] != b"\n" or len(line) != int(size):
            raise Problem(400, BROKEN)
        found[key.decode("utf-8", "replace")], start = value, end
    return found


async def files_of_form(kind: str, source: Source) -> AsyncGenerator[Coming, None]:
    """Yields the files of a form; raises 400 for a part without a file name."""
    async for sent in files_of(kind, source, ASKED):
        if not sent.name:
            raise Problem(400, f"a part of the form is no file: {ASKED}")
        yield Coming(checked(sent.name.encode()), None, sent.parts)
