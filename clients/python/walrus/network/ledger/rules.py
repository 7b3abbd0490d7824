"""The rules of the ledger: the state that results from its entries in their order.

Places of entries are consecutive and begin with 1. An entry that names another epoch than the one at its place is void:
an epoch change came first, and its poster may post it anew. Entries beyond a poster's share are void too, and so are
entries posted under a name that the operator has expelled. An entry *counts* if it is not void, and its outcome is not
in `REFUSED`."""
import collections
import copy
import functools
from typing import Collection, Iterable, Optional

from .blobs import Blobs, Over, Owed
from .entries import ACK, ADDRESS, ATTEST, LAST_EPOCH, LAST_UNTIL, OPERATOR, PAST, REGISTER, Entry, entry_key
from .live_blob import Blob, shards_in

__all__ = ["ACK", "ADDRESS", "ATTEST", "LAST_UNTIL", "OPERATOR", "PAST", "REGISTER", "Entry", "Ledger", "entry_key"]
ORDERS = "begin", "share", "expel", "concentrated", "calendar"  # kinds that only the operator may post
ROOM = 1_048_576  # entries that a poster's registrations in an epoch may cause, counting each node's acknowledgement
AHEAD = 1_000  # epochs after the writing one for which a recorder lets anybody but the operator keep a blob
ADDRESSES = 64  # of a name that count in an epoch: a node posts one at each start, if it differs from the last one
FORMLESS = "it does not have the form of an entry"
REFUSED = {  # entries that change nothing: their outcome, or its first word, and the reason for their poster
    "refused past": "that epoch is past",
    "refused moving": "the epoch is changing: post it again after the change",
    "refused last-epoch": "there is no later epoch",
    "unregistered": "the blob is not registered",
    "expires": "the blob ends with this epoch",
    "waiting": "too few shards of the next committee are ready",
    "already": "the same was posted before",
}


def refusal(word: str) -> str:
    """Returns why an entry with this outcome changes nothing; an empty text if it changes something."""
    return REFUSED.get(word) or REFUSED.get(word.partition(" ")[0]) or ""


@functools.lru_cache(4_096)
def owned(owners: tuple[str, ...], node: str) -> int:
    """Returns the shards of a node in a committee, as the bits of a number."""
    return sum(1 << shard for shard, owner in enumerate(owners) if owner == node)


class Void(Exception):
    """An entry is void; the message is a sentence for its poster."""


class Ledger:
    """The state after the entries so far. `now` and `next` list the node of each shard in the present committee and in
    the next one; `next` is empty unless the epoch is changing. An *outcome* is an entry's line in a report of `walrus
    replay`."""

    def __init__(self, blobs: Optional[Blobs] = None) -> None:
        self.faults = self.epoch = self.revision = 0
        self.now, self.next = (), ()  # type: tuple[str, ...], tuple[str, ...]
        self.ready, self.blobs = frozenset[int](), Blobs() if blobs is None else blobs
        self.posted, self.shares = collections.Counter[str](), dict[str, int]()  # used of each share; shares if ordered
        self.expelled, self.addresses = frozenset[str](), dict[str, tuple[str, int]]()
        self.addressed = collections.Counter[str]()  # the number of addresses of each name that counted in this epoch
        self.past, self.concentrated = dict[str, int](), -1  # which epoch each node is past; which one may be uneven
        self.calendar = 0, 0, 0  # an epoch, the minute since 1970 in which it begins, and minutes per epoch; 0: no plan

    @property
    def moving(self) -> bool:
        return bool(self.next)

    @property
    def writing_epoch(self) -> int:
        return self.epoch + self.moving

    @property
    def writing(self) -> tuple[str, ...]:
        return self.next or self.now

    @property
    def nodes(self) -> list[str]:
        """The nodes of both committees."""
        return [*dict.fromkeys(self.now + self.next)]

    @property
    def quorum(self) -> int:
        return 2 * self.faults + 1

    def owners(self, epoch: int) -> tuple[str, ...]:
        """Returns the node of each shard in the committee of an epoch: the present one or the next one."""
        return (self.now, self.next)[epoch - self.epoch]

    def shards_of(self, node: str, epoch: Optional[int] = None) -> list[int]:
        """Returns the shards of a node in the committee of an epoch, or in the writing committee if none is named."""
        return shards_in(owned(self.writing if epoch is None else self.owners(epoch), node))

    def certificate(self, identifier: bytes) -> Optional[tuple[int, int]]:
        blob = self.blobs.get(identifier)
        return blob.quorum(ACK, self.quorum) if blob else None

    def certified_before(self, identifier: bytes, epoch: int) -> int:
        """Returns the number of shards in a blob's certificate if that is from before an epoch, so that nobody need
        acknowledge the blob in that epoch; otherwise 0."""
        first, count = self.certificate(identifier) or (epoch, 0)
        return count if first < epoch else 0

    def invalid(self, identifier: bytes) -> bool:
        blob = self.blobs.get(identifier)
        return bool(blob and blob.quorum(ATTEST, self.quorum))

    def home_epoch(self, identifier: bytes) -> int:
        """Returns the epoch of the committee that answers for a blob."""
        blob = self.blobs.get(identifier)
        moved = self.moving and blob and blob.votes[ACK].get(self.writing_epoch, 0).bit_count() >= self.quorum
        return self.epoch + bool(moved)

    def homes(self, identifiers: Iterable[bytes]) -> dict[bytes, int]:
        """Returns the home epoch of each blob; none is looked up unless the committee changes."""
        return {it: self.home_epoch(it) if self.moving else self.epoch for it in identifiers}

    def must_hold(self) -> Collection[bytes] | Owed:
        """Returns the blobs for which each shard of the next committee must be settled: those that were certified
        before the epoch change began and do not end with it."""
        return self.blobs.owed(self.writing_epoch, self.epoch) if self.moving else []

    def voted(self, kind: str, identifier: bytes, node: str) -> bool:
        """Whether all shards of a node have acknowledged or attested (`kind`) a blob in the writing epoch."""
        blob, shards = self.blobs.get(identifier), owned(self.writing, node)
        return bool(blob and shards and not shards & ~blob.votes[kind].get(self.writing_epoch, 0))

    def share(self, poster: str) -> int:
        """Returns how many registrations and addresses of a poster count in an epoch, with its live older blobs."""
        return self.shares.get(poster, ROOM // (len(self.now) + 1))

    def planned(self, epoch: int) -> Optional[int]:
        """Returns the minute since 1970 in which an epoch is planned to begin, if there is a plan; it binds nobody."""
        known, since, length = self.calendar
        return since + (epoch - known) * length if length else None

    def fork(self) -> "Ledger":
        """Returns a copy of this ledger on which to try entries, up to the next epoch change."""
        made = copy.copy(self)
        made.blobs = Over(self.blobs)
        made.posted, made.shares, made.addresses = self.posted.copy(), {**self.shares}, {**self.addresses}
        made.past, made.addressed = {**self.past}, self.addressed.copy()
        return made

    def apply(self, entry: Entry) -> Optional[str]:
        """Applies an entry and returns its outcome, or None if it is void or malformed."""
        try:
            word = self.enter(entry)
        except Void:
            return None
        self.revision = entry.place
        return word

    def refused(self, entry: Entry) -> str:
        """Applies an entry and returns why it changes nothing, or an empty text if it counts. Recorders append none
        that change nothing, so these take nothing of their poster's share; nor what followers take from an earlier
        version: votes that no correct node posts, committees with names of no nodes, and what keeps a blob too long."""
        poster, kind = entry.words[:2] or ("", "")
        if kind == ACK and self.certified_before(entry.values[1], entry.values[0]):
            return "the blob was certified in an earlier epoch"
        if (poster, kind) == (OPERATOR, "begin") and (names := self.no_nodes(entry.values[2])):
            return f"{' and '.join(names)} can hold no shard: start the node, or correct the name"
        last = self.writing_epoch + AHEAD
        if kind == REGISTER and poster != OPERATOR and entry.values[1] > last:
            return f"a blob is kept for at most {AHEAD} epochs, so now until epoch {last}"
        try:
            why = refusal(self.enter(entry))
        except Void as void:
            return str(void)
        if why and kind == REGISTER:
            self.posted[poster] -= 1
        return why

    def no_nodes(self, owners: tuple[str, ...]) -> list[str]:
        """Returns which of these names have neither an address nor a shard, or are expelled, or the operator's."""
        known = {*self.addresses, *self.now} - self.expelled - {OPERATOR}
        return [name for name in dict.fromkeys(owners) if name not in known]

    def stands(self, entry: Entry) -> bool:
        """Whether an entry that counted is still in force: what it says has not ended, and no later one differs."""
        match [*entry.words[:2], *entry.values]:
            case _, "register", _, until:
                return bool(until > self.epoch)
            case poster, "address", host, port:
                return self.addresses.get(poster) == (host, port)
            case _, "share", name, count:
                return bool(self.shares.get(name) == count)
            case _, "calendar", *plan:
                return self.calendar == tuple(plan)
        return True

    def enter(self, entry: Entry) -> str:
        """Applies an entry and returns its outcome; raises `Void` if the entry is void."""
        poster, kind = entry.words[:2] or ("", "")
        if not kind:
            raise Void(FORMLESS)
        if poster in self.expelled:
            raise Void(f"{poster} is expelled")
        if kind in (REGISTER, ADDRESS) and self.posted[poster] >= self.share(poster):
            raise Void(f"{poster} has used its share of {self.share(poster)} registrations in this epoch")
        if kind == ADDRESS and self.addressed[poster] >= ADDRESSES:
            raise Void(f"{poster} has posted {ADDRESSES} addresses in this epoch")
        if kind in ORDERS and poster != OPERATOR:
            raise Void(f"only {OPERATOR} may post that")
        if not self.now and kind not in (*ORDERS, ADDRESS):
            raise Void("there is no committee yet")
        if kind in (ACK, ATTEST, "ready", "finish"):
            if entry.values[0] != self.writing_epoch:
                raise Void(f"it names another epoch than {self.writing_epoch}, the writing epoch")
            if not owned(self.writing, poster):
                raise Void(f"{poster} has no shard in the committee of epoch {self.writing_epoch}")
        if kind in ("ready", "finish") and not self.moving:
            raise Void("no epoch change is under way")
        self.posted[poster] += kind in (REGISTER, ADDRESS)
        match kind, *entry.values:
            case "register", identifier, until:
                return self._register(poster, identifier, until)
            case "ack" | "attest", epoch, identifier:
                return self._vote(poster, kind, epoch, identifier)
            case "begin", epoch, faults, owners:
                return self._begin(epoch, faults, owners)
            case "ready", _:
                return self._ready(poster)
            case "finish", _:
                return self._finish()
            case "past", epoch:
                if epoch != self.epoch or poster not in self.nodes:
                    raise Void(f"epoch {self.epoch} is the present one, and {poster} has no shards or named another")
                if self.past.get(poster) == epoch:
                    return "already"
                self.past[poster] = epoch
            case "address", host, port:
                self.addresses[poster] = host, port
                self.addressed[poster] += 1
            case "share", name, count:
                self.shares[name] = count
            case "calendar", epoch, since, length:
                self.calendar = epoch, since, length
            case "expel", name:
                self.expelled |= {name}
                self.blobs.release(name, self.expelled, self.writing_epoch + 1)
                self.posted.pop(name, None)
                self.shares.pop(name, None)
            case "concentrated", epoch:
                self.concentrated = epoch
        return "entered"

    def _register(self, poster: str, identifier: bytes, until: int) -> str:
        blob = self.blobs.get(identifier)
        if until <= self.writing_epoch:
            return "refused past"
        if self.moving and blob:
            return "refused moving"
        # From the next epoch change on it counts towards the share of the poster that keeps it for longest.
        kept = blob.kept(poster, until, self.epoch) if blob else Blob(until, poster)
        if kept != blob:
            self.blobs[identifier] = kept
        return f"until {kept.until}"

    def _vote(self, poster: str, kind: str, epoch: int, identifier: bytes) -> str:
        blob, own = self.blobs.get(identifier), owned(self.writing, poster)
        if blob is None:
            return "unregistered"
        if blob.until <= epoch:
            return "expires"
        if not own & ~blob.votes[kind].get(epoch, 0):
            return "already"
        self.blobs[identifier] = blob = blob.voted(kind, epoch, own, self.quorum)
        count = blob.votes[kind][epoch].bit_count()
        return f"{('certified' if kind == ACK else 'invalid') if count >= self.quorum else 'counted'} {count}"

    def _begin(self, epoch: int, faults: int, owners: tuple[str, ...]) -> str:
        if not faults or len(owners) != 3 * faults + 1 or self.now and faults != self.faults:
            raise Void(f"a committee has 3f+1 shards, with f = {self.faults or faults or 1}")
        if max(collections.Counter(owners).values()) > faults and self.concentrated != epoch:
            raise Void(f"a node has more than f = {faults} shards, and {OPERATOR} has not allowed that (concentrated)")
        if not self.now:
            self.faults, self.now = faults, owners
            self.blobs.needed = self.quorum
            return "founded"
        if epoch != self.epoch + 1:
            raise Void(f"epoch {self.epoch + 1} comes next")
        if self.moving:
            return "refused moving"
        if epoch > LAST_EPOCH:
            return "refused last-epoch"
        self.next, self.ready = owners, frozenset()
        return f"epoch {epoch}"

    def _ready(self, poster: str) -> str:
        own = {*shards_in(owned(self.next, poster))}
        if own <= self.ready:
            return "already"
        self.ready |= own
        return f"counted {len(self.ready)}"

    def _finish(self) -> str:
        if len(self.ready) < self.quorum:
            return f"waiting {len(self.ready)}"
        self.epoch, self.now, self.next = self.epoch + 1, self.next, ()
        self.past = {name: epoch for name, epoch in self.past.items() if name in self.now}
        live = self.blobs.expire(self.epoch).items()
        self.posted = collections.Counter({name: count for name, count in live if name not in self.expelled})
        self.addressed.clear()
        return f"epoch {self.epoch}"
