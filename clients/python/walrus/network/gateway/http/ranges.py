"""Byte ranges of RFC 9110: which parts of a file a header asks for, and how several are sent together."""
import re
from typing import Optional

MOST = 32  # ranges in one request; if there are more, the whole file is sent
Span = tuple[int, int]  # the place of the first byte, and that after the last


def spans(header: str, length: int) -> Optional[list[Span]]:
    """Returns the spans of a file that a Range header asks for: none if the file has no byte of them (416), and `None`
    if the header is to be ignored."""
    unit, _, text = header.partition("=")
    parts, found = [part.strip(" \t") for part in text.split(",")], list[Span]()
    for part in filter(None, parts):
        match = re.fullmatch("([0-9]{1,30})-([0-9]{0,30})|-([0-9]{1,30})", part)
        first, last, final = (int(it) if it else None for it in match.groups()) if match else (1, 0, None)
        if first is not None and last is not None and first > last or final and not length:
            return None  # malformed, or the end of an empty file
        start = max(0, length - (final or 0)) if first is None else first
        end = length if last is None else min(length, last + 1)
        if start < end:
            found.append((start, end))
    return joined(found) if unit.strip().lower() == "bytes" and any(parts) and len(found) <= MOST else None


def joined(found: list[Span]) -> list[Span]:
    """Returns the same spans in the order in which they were asked for, with those merged that overlap or meet."""
    kept: list[Span] = []
    for start, end in found:
        for other in [it for it in kept if it[0] <= end and start <= it[1]]:
            kept.remove(other)
            start, end = min(start, other[0]), max(end, other[1])
        kept.append((start, end))
    return kept


def heads(asked: list[Span], length: int, kind: str, bound: str) -> list[bytes]:
    """Returns what precedes each part of a reply with several ranges, and then what follows the last one."""
    lines = f"--{bound}\r\nContent-Type: {kind}\r\nContent-Range: bytes"
    each = [f"\r\n{lines} {start}-{end - 1}/{length}\r\n\r\n" for start, end in asked]
    return [text.encode() for text in [*each, f"\r\n--{bound}--\r\n"]]
