"""A second implementation of a shard's draws and of the verdict on its answer, to judge `challenge` and `verify`."""
from dataclasses import dataclass

import forms

DRAW = 4  # the first byte of a draw's text


def draw(beacon, identifier, shards, shard, number):
    """Return the axis and the place of a draw."""
    text = bytes([DRAW]) + beacon + identifier + forms.number(shard, 2) + forms.number(number, 2)
    drawn = forms.digest(text)
    return drawn[0] & 1, forms.value_of(drawn[3:5]) % shards


@dataclass
class Committed:
    """What a frame of metadata commits to."""
    shards: int
    size: int      # of a symbol
    second: bool   # whether it is of format two
    pairs: list

    def held(self, axis, shard):
        """Return the index of the sliver of this axis that a shard holds, or the shard that holds an index."""
        return self.shards - 1 - shard if axis == forms.SECONDARY and self.second else shard

    def root(self, axis, index):
        return self.pairs[self.held(axis, index)][32 * axis:32 * axis + 32]


def committed_by(metadata):
    """Return what a frame of metadata commits to."""
    place = forms.numbers_at(metadata)
    faults, length = forms.value_of(metadata[place:place + 2]), forms.value_of(metadata[place + 2:place + 10])
    cells = 2 * (faults + 1) * (2 * faults + 1)
    pairs = [metadata[start:start + 64] for start in range(place + 10, len(metadata), 64)]
    return Committed(3 * faults + 1, 2 * max(1, -(-length // cells)), metadata[0] == forms.METADATA_TWO, pairs)


def read_claim(payload, identifier):
    """Return axis and index of the target, cross, symbol and path, if the payload is an opening of this blob."""
    if payload[:33] != bytes([forms.OPENING]) + identifier or len(payload) < 43:
        return None
    axis, index, cross, size = (forms.value_of(payload[place:place + width])
                                for place, width in [(33, 1), (34, 2), (36, 2), (38, 4)])
    symbol, behind = payload[42:42 + size], payload[42 + size:]
    fits = axis <= 1 and index <= 999 and cross <= 999 and size <= 16777216 and len(symbol) == size and behind
    if not fits or behind[0] > 10 or len(behind) != 1 + 32 * behind[0]:
        return None
    return axis, index, cross, symbol, behind[1:]


def is_held(committed, axis, index, cross, symbol, path):
    """Return whether an opening is valid."""
    levels = (committed.shards - 1).bit_length()
    if max(index, cross) >= committed.shards or len(symbol) != committed.size or len(path) != 32 * levels:
        return False
    node = forms.digest(b"\0" + symbol)
    for level in range(levels):
        sibling = path[32 * level:32 * level + 32]
        node = forms.digest(b"\1" + (sibling + node if index >> level & 1 else node + sibling))
    return node == committed.root(1 - axis, cross)


def verdict_of(metadata, identifier, shard, beacon, count, payloads):
    """Return the status and text of `verify`; this must be the first metadata of the identifier."""
    committed = committed_by(metadata)
    if shard >= committed.shards:
        return 4, b"no shard\n"
    claims = [claim for claim in (read_claim(payload, identifier) for payload in payloads) if claim]
    if len(claims) != count:
        return 4, b"wrong count %d of %d\n" % (len(claims), count)
    for number, claim in enumerate(claims):
        axis, place = draw(beacon, identifier, committed.shards, shard, number)
        if claim[:3] != (1 - axis, place, committed.held(axis, shard)) or not is_held(committed, *claim):
            return 3, b"wrong %d\n" % number
    return 0, b"accepted\n"


def answer_fault(metadata, identifier, shard, beacon, count, outcome, payloads, subject):
    """Return what is wrong with an answer of `challenge`. What a shard holds is known only if the writer is known, the
    subject."""
    if outcome.status == 0:
        envelopes, end = forms.split(outcome.text)
        if end != len(outcome.text) or any(sender != shard for sender, _ in envelopes):
            return "no envelopes from the shard"
        shown = [payload for _, payload in envelopes]
        told = verdict_of(metadata, identifier, shard, beacon, count, shown)
        return None if told == (0, b"accepted\n") else f"an answer on which {told[1].decode().strip()} is the verdict"
    texts = [b"no primary\n", b"no secondary\n"]
    if shard >= committed_by(metadata).shards:
        texts = [b"no shard\n"]
    if outcome.status != 4 or outcome.text not in texts:
        return "an answer that the command does not have"
    if subject is None or len(texts) == 1:
        return None
    missing = [text for axis, text in enumerate(texts)
               if subject.sliver(axis, subject.held(axis, shard)) not in payloads]
    return None if missing[:1] == [outcome.text] else "a wrong answer about the slivers"
