"""How far a recovery of blobs is, for figures and log lines."""
import dataclasses
import re
from typing import TYPE_CHECKING, Any, Iterable, Optional

if TYPE_CHECKING:
    from .recovery import Lack

NAMED = 5  # missing blobs that are named, before their number


@dataclasses.dataclass
class Progress:
    """Progress of a recovery: `blobs` of the `of` that shards lack, bytes of their slivers, of the `of_bytes` that are
    measured so far, and in `first` some that were missing at its end."""

    epoch: int = 0
    of: int = 0
    of_bytes: int = 0
    blobs: int = 0
    bytes: int = 0
    first: list[str] = dataclasses.field(default_factory=list)

    def name(self, missing: Iterable["Lack"]) -> None:
        names = dict.fromkeys([*self.first, *(it.identifier.hex() for it in missing)])
        self.first = [*names][:NAMED]


MISSING = "they are still missing, and whoever has their bytes can store them again"
Waits = Optional[dict[str, Any]]  # the next epoch, the number of blobs that a node still lacks, and the `first` of them


def is_figure(value: Any) -> bool:
    return isinstance(value, (int, float)) and 0 <= value < 2**63


def waits_of(told: dict[str, Any]) -> Waits:
    """Returns for which blobs a handover waits at a node, by its figures; a node may send anything."""
    said = told.get("waits")
    if not isinstance(said, dict) or not all(is_figure(said.get(it)) for it in ("epoch", "blobs")):
        return None
    first: Any = said.get("first")
    names = [
        it
        for it in (first if isinstance(first, list) else ())
        if isinstance(it, str) and re.fullmatch("[0-9a-f]{64}", it)
    ]
    return {"epoch": int(said["epoch"]), "blobs": int(said["blobs"]), "first": names[:NAMED]}


def in_words(waits: dict[str, Any]) -> str:
    """Returns for which blobs a handover waits at a node."""
    more = waits["blobs"] - len(waits["first"])
    names = " ".join(waits["first"]) + (f" and {more} more" if more > 0 and waits["first"] else "")
    return f"waits for {waits['blobs']} blobs" + (f": {names}" if names else "")
