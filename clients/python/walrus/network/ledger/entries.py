"""The form of a ledger entry, a text `POSTER/KIND/FIELDS`, and the chain of digests over the entries."""
import dataclasses
import functools
import hashlib
import itertools
import re
from typing import Any, Callable, Iterable, Optional

from walrus.network.service.names import HOST, NAME

OPERATOR = "operator"
REGISTER = "register"
ACK = "ack"
ATTEST = "attest"
ADDRESS = "address"
PAST = "past"
LAST_EPOCH, LAST_UNTIL, MOST_FAULTS, MOST_SHARE = 65_535, 65_536, 333, 16_777_216
LONGEST = 16_384  # bytes of an entry
DIGITS = 12  # of a number at most; a place always has that many in etcd's keys
LAST_MINUTE = 99_999_999  # of a calendar at most: a minute since 1970, or the minutes of an epoch
IDENTIFIER = re.compile("[0-9a-f]{64}")


def number(text: str, most: int) -> Optional[int]:
    """Parses a decimal number without sign or leading zeros; returns None if it is malformed or above `most`."""
    fit = text.isascii() and text.isdigit() and len(text) <= DIGITS and text == str(int(text)) and int(text) <= most
    return int(text) if fit else None


def as_identifier(digits: str) -> Optional[bytes]:
    """Parses an identifier of 64 lower-case hexadecimal digits; returns None if it is malformed."""
    return bytes.fromhex(digits) if IDENTIFIER.fullmatch(digits) else None


def as_name(text: str) -> Optional[str]:
    return text if NAME.fullmatch(text) else None


def as_committee(text: str) -> Optional[tuple[str, ...]]:
    """Parses the node of each shard, separated by commas; returns None if a name is malformed or there are too many."""
    names = tuple(text.split(","))
    return names if len(names) <= 3 * MOST_FAULTS + 1 and all(map(NAME.fullmatch, names)) else None


EPOCH = functools.partial(number, most=LAST_EPOCH)
BEHIND = functools.partial(number, most=LAST_EPOCH + 1)  # an epoch, or the number that follows the last one
MINUTES = functools.partial(number, most=LAST_MINUTE)
FIELDS: dict[str, tuple[Callable[[str], object], ...]] = {
    REGISTER: (as_identifier, functools.partial(number, most=LAST_UNTIL)),
    ACK: (EPOCH, as_identifier),
    ATTEST: (EPOCH, as_identifier),
    "begin": (BEHIND, functools.partial(number, most=MOST_FAULTS), as_committee),
    "ready": (EPOCH,),
    "finish": (EPOCH,),
    PAST: (EPOCH,),
    ADDRESS: (lambda text: text if HOST.fullmatch(text) else None, lambda text: number(text, 65_535) or None),
    "share": (as_name, functools.partial(number, most=MOST_SHARE)),
    "expel": (as_name,),
    "concentrated": (BEHIND,),
    "calendar": (EPOCH, MINUTES, MINUTES),
}


@dataclasses.dataclass
class Entry:
    """An entry: its place and its text. `words` are the poster, kind and fields, and `values` are the parsed fields;
    both are empty if the text is malformed."""

    place: int
    text: str

    def __post_init__(self) -> None:
        self.words, self.values = read(self.text)


def read(text: str) -> tuple[list[str], list[Any]]:
    """Splits the text of an entry into words and parses its fields; returns two empty lists if it is malformed."""
    words = text.split("/") if len(text) <= LONGEST else []
    if len(words) > 1 and NAME.fullmatch(words[0]) and len(words) - 2 == len(FIELDS.get(words[1], words)):
        values = [form(text) for form, text in zip(FIELDS[words[1]], words[2:])]
        if None not in values:
            return words, values
    return [], []


def entry_key(poster: str, kind: str, *fields: object) -> str:
    """Returns the text of an entry of this poster."""
    return "/".join([poster, kind, *map(str, fields)])


def fitting(texts: Iterable[str], most: int) -> list[str]:
    """Returns the longest prefix of the texts with at most `most` characters in total, but never less than one text."""
    found = [*texts]
    count = sum(size <= most for size in itertools.accumulate(map(len, found)))
    return found[: max(1, count)]


@dataclasses.dataclass(frozen=True)
class Chain:
    """How far a ledger was read: the place of the last entry, and the digest of all entries up to it.

    The digest at place 0 is drawn at random when a ledger is created, and distinguishes it from any other."""

    place: int
    digest: bytes

    def behind(self, entries: Iterable[str]) -> "Chain":  # the chain after these further entries
        place, digest = self.place, self.digest
        for place, text in enumerate(entries, place + 1):
            digest = hashlib.sha256(digest + text.encode()).digest()
        return Chain(place, digest)

    def followed(self, texts: Iterable[str]) -> list[Entry]:
        """Parses the entries that follow this chain, and numbers their places."""
        return [Entry(place, text) for place, text in enumerate(texts, self.place + 1)]
