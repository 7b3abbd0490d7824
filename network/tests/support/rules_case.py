"""Shared by the tests of the ledger's rules: random entries, epoch changes, and a comparison of two ledgers."""
import random
import unittest

from walrus.network.ledger.entries import OPERATOR, Entry, entry_key
from walrus.network.ledger.rules import Ledger

NAMES = ["a", "b", "c", "d"]
COMMITTEES = [list("abcd"), list("abce"), list("aabb"), list("dcba"), list("abbb")]


def random_entries(drawn: random.Random, owners: list[list[str]]) -> list[Entry]:
    """Returns random entries of a network of four shards, most of which name the epoch in which they come."""
    ids = [bytes([shard]).hex() * 32 for shard in range(4)]
    ledger, entries = Ledger(), []
    for revision in range(1, 400):
        kinds = "register", "ack", "attest", "begin", "ready", "finish", "past", "address", "share", "calendar", "expel"
        kind = drawn.choices(kinds, (6, 16, 8, 2, 5, 3, 2, 1, 1, 1, 0.1))[0]
        epoch = ledger.writing_epoch + (drawn.random() < 0.1)
        poster, identifier = drawn.choice(NAMES + ["e"]), drawn.choice(ids)
        if drawn.random() < 0.03:
            key = entry_key(OPERATOR, "concentrated", ledger.epoch + bool(ledger.now))
        elif revision == 1 or kind == "begin":
            begun = 0 if revision == 1 else ledger.epoch + 1
            key = entry_key(OPERATOR, "begin", begun, 1, ",".join(drawn.choice(owners)))
        elif kind == "register":
            key = entry_key(poster, kind, identifier, max(0, epoch + drawn.randrange(4)))
        elif kind in ("ack", "attest"):
            key = entry_key(poster, kind, epoch, identifier)
        elif kind == "address":
            key = entry_key(poster, kind, "host", drawn.randrange(1, 9))
        elif kind == "share":
            key = entry_key(OPERATOR, kind, poster, drawn.randrange(100, 1_000))
        elif kind == "calendar":
            key = entry_key(OPERATOR, kind, epoch, drawn.randrange(3), drawn.randrange(3))
        elif kind == "expel":
            key = entry_key(OPERATOR, kind, poster)
        elif kind == "past":
            key = entry_key(poster, kind, ledger.epoch)
        else:
            key = entry_key(poster, kind, epoch)
        entries.append(Entry(revision, key))
        ledger.apply(entries[-1])
    return entries


class RulesCase(unittest.TestCase):
    """Ledgers that are compared."""

    def turn(self, ledger: Ledger, epoch: int) -> None:
        """Begins and finishes the next epoch with the same committee."""
        entries = [entry_key(OPERATOR, "begin", epoch, 1, "a,b,c,d"), *(entry_key(it, "ready", epoch) for it in "abc")]
        for key in [*entries, entry_key("a", "finish", epoch)]:
            word = ledger.apply(Entry(ledger.revision + 1, key))
        self.assertEqual(word, f"epoch {epoch}")

    def same(self, one: Ledger, other: Ledger) -> None:
        """Checks that both ledgers answer every question in the same way."""
        names = ["faults", "epoch", "revision", "now", "next", "ready", "posted", "shares", "expelled", "addresses"]
        names += ["past", "concentrated", "calendar", "addressed"]
        self.assertEqual([getattr(one, it) for it in names], [getattr(other, it) for it in names])
        for it in (dict, len, list, lambda kept: [*reversed(kept)], lambda kept: kept.posters()):
            self.assertEqual(it(one.blobs), it(other.blobs))
        self.assertEqual(one.blobs.counts(), other.blobs.counts())
        self.assertEqual([*one.must_hold()], [*other.must_hold()])
        ends = [(b"", 9, 9), (b"", one.epoch + 1, 9), (b"\1" * 32, 9, 1)]
        self.assertEqual([one.blobs.ending(*it) for it in ends], [other.blobs.ending(*it) for it in ends])
        self.assertEqual(other.blobs.draw(random.Random(1)) in one.blobs, bool(one.blobs))
