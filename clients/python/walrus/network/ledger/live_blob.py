"""A live blob of a ledger: who keeps it until when, and which shards acknowledged or attested it."""
import dataclasses
import json
from typing import Collection, Mapping, Optional

from .checkpoint import Row
from .entries import ACK, ATTEST

Votes = Mapping[int, int]  # by epoch, the shards that voted, as the bits of a number: for a thousand a set takes 33 kB


@dataclasses.dataclass(frozen=True)
class Blob:
    """A live blob: the epoch until which it is kept, the poster that keeps it for so long, by kind and epoch the shards
    that acknowledged it or attested that it is badly encoded, and other posters, with the epoch until which each keeps
    it."""

    until: int
    poster: str
    votes: Mapping[str, Votes] = dataclasses.field(default_factory=lambda: {ACK: {}, ATTEST: {}})
    others: Mapping[str, int] = dataclasses.field(default_factory=dict)

    def kept(self, poster: str, until: int, epoch: int) -> "Blob":
        """Returns this blob as it is once a poster keeps it until an epoch too. `epoch` is the present one."""
        known = {name: it for name, it in {**self.others, self.poster: self.until}.items() if it > epoch}
        known[poster] = max(until, known.get(poster, 0))
        first = poster if until > self.until else self.poster
        return Blob(known.pop(first), first, self.votes, known)

    def without(self, gone: Collection[str], last: int) -> "Blob":
        """Returns this blob as it is without these posters, one of which keeps it for longest; but it never ends before
        epoch `last`, unless it did so anyway."""
        staying = {name: it for name, it in self.others.items() if name not in gone}
        until, first = max(((it, name) for name, it in staying.items()), default=(0, ""))
        if until < min(self.until, last):
            return Blob(min(self.until, last), self.poster, self.votes, staying)
        return Blob(staying.pop(first), first, self.votes, staying)

    def quorum(self, kind: str, needed: int) -> Optional[tuple[int, int]]:
        """Returns the first epoch in which `needed` shards or more voted so, and their number; or None."""
        for epoch, shards in sorted(self.votes[kind].items()):
            if (count := shards.bit_count()) >= needed:
                return epoch, count
        return None

    def voted(self, kind: str, epoch: int, shards: int, needed: int) -> "Blob":
        """Returns this blob with the votes of these shards added and those dropped that no longer count. `needed`
        shards are a quorum."""
        votes = {**self.votes[kind], epoch: self.votes[kind].get(epoch, 0) | shards}
        first = min((it for it, said in votes.items() if said.bit_count() >= needed), default=None)
        return dataclasses.replace(self, votes={**self.votes, kind: counting(votes, first)})


def counting(votes: Votes, first: Optional[int]) -> Votes:
    """Returns those votes of a kind that the rules may still ask for: the ones of `first`, the first epoch with a
    quorum, and of the last epoch with votes and the one before, which may be those of both committees. Earlier epochs
    get no more votes, and so no quorum. The result depends on the votes alone: whether the others are dropped with each
    vote or all at the end, it is the same."""
    return {epoch: said for epoch, said in votes.items() if epoch == first or epoch >= max(votes) - 1}


def shards_in(bits: int) -> list[int]:
    """Returns the shards that are the bits of a number, in order."""
    return [shard for shard in range(bits.bit_length()) if bits >> shard & 1]


def blob_of(until: int, poster: str, votes: str) -> Blob:
    *said, others = [*json.loads(votes), {}][:3]
    acks, attests = ({int(epoch): bits for epoch, bits in it.items()} for it in said)
    return Blob(until, poster, {ACK: acks, ATTEST: attests}, others)


def text_of(votes: Mapping[str, Votes], others: Mapping[str, int]) -> str:
    told = [dict(sorted(votes[kind].items())) for kind in (ACK, ATTEST)]
    return json.dumps([*told, *([dict(sorted(others.items()))] if others else [])], separators=(",", ":"))


def without_past(row: Row) -> Row:
    """Returns a row of a checkpoint without votes that no longer count, which earlier versions wrote too."""
    identifier, number, until, poster, votes, certified, invalid = row
    if votes.count(":") < 2:  # all are of one epoch, as nearly always
        return row
    blob = blob_of(until, poster, votes)
    said = {ACK: counting(blob.votes[ACK], certified), ATTEST: counting(blob.votes[ATTEST], invalid)}
    votes = text_of(said, blob.others)
    return identifier, number, until, poster, votes, certified, invalid
