"""A client that is connected to a port, and the replies that wait to be sent to it."""
import asyncio
import dataclasses
import time
from collections.abc import Sequence
from typing import Any, NamedTuple, Optional

from .connection import Data
from .fairness import key_of

AHEAD, SMALL = 64, 1_024  # the most replies that wait; the most bytes of a reply that is sent together with others


class Said(NamedTuple):
    """A reply in parts. If it depends on a write to a disk, `written` tells whether that succeeded, and `lost` is the
    reply if it failed."""

    parts: Sequence[Data]
    written: Optional["asyncio.Future[bool]"] = None
    lost: bytes = b""

    @property
    def size(self) -> int:
        return sum(map(len, self.parts))

    @property
    def is_due(self) -> bool:
        """Whether it is decided which of the two replies is sent."""
        return self.written is None or self.written.done()

    @property
    def known(self) -> Sequence[Data]:
        """The reply to send, once it is due."""
        return self.parts if self.written is None or self.written.result() else [self.lost]


@dataclasses.dataclass(eq=False)
class Connection:
    """A client: when its present step began, whether a request of it reached a shard, the bytes kept for it, and its
    replies to send."""

    task: "asyncio.Task[None]"
    address: tuple[Any, ...]
    whom: str = dataclasses.field(init=False)  # the address or network under which its turns are counted
    since: float = dataclasses.field(default_factory=lambda: time.monotonic())  # read at the call, not at the import
    had_reply: bool = False
    certificate: Any = None  # the client's, as `SSLSocket.getpeercert` has it; None without one
    kept: int = 0
    replies: "asyncio.Queue[Optional[Said]]" = dataclasses.field(default_factory=lambda: asyncio.Queue(AHEAD))

    def __post_init__(self) -> None:
        self.whom = key_of(str(self.address[0]))

    def __str__(self) -> str:
        return ":".join(map(str, self.address[:2]))
