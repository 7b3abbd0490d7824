"""The material of hostile inputs: blobs as the program itself encodes them, and those of false writers."""
from dataclasses import dataclass, field, replace

import forms
from forms import PRIMARY, SECONDARY

# f, the format and the number of bytes of each blob. Two blobs with the same f, format and size of symbols make a false
# writer. The slivers of the longest take several pages.
BLOBS = [(1, 1, 12), (1, 1, 9), (1, 1, 0), (1, 1, 40), (1, 1, 30000), (1, 2, 12), (1, 2, 11), (2, 1, 30), (2, 1, 25),
         (2, 1, 64), (2, 2, 30), (2, 2, 29), (2, 2, 40000)]
# f, the format and the lengths of the members of each bundle.
BUNDLES = [(1, 1, [2, 1]), (1, 1, [1, 2]), (1, 2, [16, 16]), (1, 1, [300]), (1, 1, [0, 5]), (1, 1, []),
           (2, 1, [3, 0, 9, 4]), (2, 2, [70, 1]), (2, 1, [0, 0, 0, 0]), (3, 1, [5, 4, 3, 2, 1, 0])]


class Refused(Exception):
    """The program did not give a result that the corpus needs."""


@dataclass
class Subject:
    """A blob with its metadata, slivers and codewords; or those of a false writer, which are of no blob."""
    faults: int
    format: int
    identifier: bytes
    metadata: bytes
    primary: list        # slivers by their indices
    secondary: list
    rows: list           # the codewords of the first rows, each a list of symbols
    columns: list        # those of the first columns
    blob: bytes = None   # None if the writer is false
    proofs: list = field(default_factory=list)
    bodies: dict = field(default_factory=dict, init=False)  # those of openings, once they were made

    @property
    def shards(self):
        return 3 * self.faults + 1

    @property
    def length(self):
        """The blob's length according to the metadata."""
        place = forms.numbers_at(self.metadata) + 2
        return forms.value_of(self.metadata[place:place + 8])

    def held(self, axis, shard):
        """Return the index of the sliver of this axis that a shard holds."""
        return self.shards - 1 - shard if axis == SECONDARY and self.format == 2 else shard

    def content(self, axis, index):
        return (self.primary, self.secondary)[axis][index]

    def sliver(self, axis, index):
        return forms.sliver(self.identifier, axis, index, self.content(axis, index))

    def slivers(self):
        return [self.sliver(axis, index) for axis in (PRIMARY, SECONDARY) for index in range(self.shards)]

    def needed(self, axis):
        """Return the number of openings that recover a sliver."""
        return 2 * self.faults + 1 if axis == PRIMARY else self.faults + 1

    def body(self, axis, index, cross):
        key = axis, index, cross
        if key not in self.bodies:
            self.bodies[key] = forms.opening_body(cross, (self.columns, self.rows)[axis][cross], index)
        return self.bodies[key]

    def opening(self, axis, index, cross):
        return forms.target(forms.OPENING, self.identifier, axis, index) + self.body(axis, index, cross)

    def openings(self, axis, index):
        return [self.opening(axis, index, cross) for cross in range(self.needed(axis))]


def pieces(content, size):
    return [content[start:start + size] for start in range(0, len(content), size)]


def nonzero(random, size):
    return bytes(random.randrange(1, 256) for _ in range(size))


def subject_of(faults, format_number, blob, identifier, envelopes):
    """Return the subject of a blob whose envelopes `encode` wrote."""
    shards, columns = 3 * faults + 1, 2 * faults + 1
    slivers = {PRIMARY: [None] * shards, SECONDARY: [None] * shards}
    for _, payload in envelopes[1:]:
        slivers[payload[33]][forms.value_of(payload[34:36])] = payload[40:]
    primary, secondary = slivers[PRIMARY], slivers[SECONDARY]
    size = len(primary[0]) // columns
    primary_symbols = [pieces(content, size) for content in primary]
    secondary_symbols = [pieces(content, size) for content in secondary]
    row_codewords = [[symbols[row] for symbols in secondary_symbols] for row in range(faults + 1)]
    column_codewords = [[symbols[column] for symbols in primary_symbols] for column in range(columns)]
    return Subject(faults, format_number, identifier, envelopes[0][1], primary, secondary, row_codewords,
                   column_codewords, blob)


def root_place(subject, axis, index):
    """Return the place of this root in the frame of the metadata."""
    shard = subject.held(axis, index)  # `held` is its own inverse: this is the shard that holds the sliver
    return forms.numbers_at(subject.metadata) + 10 + 64 * shard + 32 * axis


def with_metadata(subject, metadata):
    """Return a false writer, with the same slivers and openings under other metadata."""
    return replace(subject, metadata=metadata, identifier=forms.identifier_of(metadata), blob=None, proofs=[])


def mixed(subject, other, axis, index):
    """Return a false writer that commits to one sliver of another blob."""
    place, other_place = root_place(subject, axis, index), root_place(other, axis, index)
    metadata = bytearray(subject.metadata)
    metadata[place:place + 32] = other.metadata[other_place:other_place + 32]
    mix = with_metadata(subject, bytes(metadata))
    name, codewords = ("primary", "rows") if axis == PRIMARY else ("secondary", "columns")
    for part in (name, codewords):
        items = list(getattr(subject, part))
        items[index] = getattr(other, part)[index]
        setattr(mix, part, items)
    return mix


def with_length(subject, length):
    """Return a false writer that gives another length."""
    place = forms.numbers_at(subject.metadata) + 2
    metadata = subject.metadata[:place] + forms.number(length, 8) + subject.metadata[place + 8:]
    return with_metadata(subject, metadata)


class Corpus:
    """All subjects, made with the program."""

    def __init__(self, ask, random):
        """`ask(words, content)` returns the program's answer, a status and a text."""
        self.ask = ask
        self.honest = [self._blob(random, faults, number, nonzero(random, size)) for faults, number, size in BLOBS]
        self.bundles = [self._bundle(random, *row) for row in BUNDLES]
        self.forged = [self._forged(random, bundle) for bundle in self.bundles]
        self.honest += self.bundles + self.forged
        self.false = [writer for writer in self._false_writers() if writer.proofs]
        self.false += [with_length(subject, subject.length - 1) for subject in self.honest if subject.blob[-1:] > b"\0"]
        self.subjects = self.honest + self.false
        shapes = {(bundle.faults, bundle.format, bundle.length) for bundle in self.bundles}
        self.forged += [writer for writer in self.false if (writer.faults, writer.format, writer.length) in shapes]
        self._look_at_all()
        self.by_identifier = {subject.identifier: subject for subject in self.subjects}
        self.payloads = [payload for subject in self.subjects for payload in
                         [subject.metadata] + subject.slivers() + subject.openings(SECONDARY, 1) + subject.proofs]

    def _must(self, words, content, status):
        found, text = self.ask(words, content)
        if found != status:
            raise Refused(f"{' '.join(words)} on {content.hex()}: status {found} and not {status}")
        return text

    def _bundle(self, random, faults, format_number, lengths):
        """Return a bundle as the program makes it."""
        stream = forms.join([(0, nonzero(random, length)) for length in lengths])
        return self._blob(random, faults, format_number, self._must(["bundle", str(faults)], stream, 0))

    def _forged(self, random, bundle):
        """Return an honest writer's blob that differs from a bundle at the beginning of its index."""
        size = 2 * max(1, -(-bundle.length // (2 * (bundle.faults + 1) * (2 * bundle.faults + 1))))
        place = random.randrange(min(size, 14))
        changed = bytes([bundle.blob[place] ^ random.choice([1, 1, 2, 3, 255])])
        return self._blob(random, bundle.faults, bundle.format, bundle.blob[:place] + changed + bundle.blob[place + 1:])

    def _blob(self, random, faults, format_number, blob):
        options = ["--format", str(format_number)]
        envelopes, _ = forms.split(self._must(["encode", str(faults)] + options, blob, 0))
        identifier = bytes.fromhex(self._must(["id", str(faults)] + options, blob, 0).decode())
        if forms.identifier_of(envelopes[0][1]) != identifier:
            raise Refused(f"id {faults} of {blob.hex()}: another identifier than that of the metadata")
        return subject_of(faults, format_number, blob, identifier, envelopes)

    def _false_writers(self):
        for subject in self.honest:
            for other in self.honest:
                alike = (subject.faults, subject.format, len(subject.primary[0])) == (
                    other.faults, other.format, len(other.primary[0]))
                if subject is not other and alike and subject.primary != other.primary:
                    for axis in (PRIMARY, SECONDARY):
                        yield self._with_proof(mixed(subject, other, axis, 1), 1 - axis)

    def _look_at_all(self):
        """Check that each honest blob is read back, and that each false writer is detected."""
        for subject in self.subjects:
            text = b"reject\n" if subject.blob is None else subject.blob
            told = [subject.metadata] + (subject.proofs or subject.slivers())
            stream = forms.join([(0, payload) for payload in told])
            if self._must(["read", subject.identifier.hex()], stream, 3 if subject.blob is None else 0) != text:
                raise Refused(f"read of {stream.hex()}: another text")
        for subject in self.false:
            for proof in subject.proofs:
                stream = forms.join([(0, subject.metadata), (0, proof)])
                self._must(["check", subject.identifier.hex()], stream, 3)

    def _with_proof(self, writer, axis):
        """Return the false writer with the proofs of this axis that the program makes, if there are any."""
        for index in range(writer.shards):
            stream = forms.join([(0, payload) for payload in [writer.metadata] + writer.openings(axis, index)])
            status, text = self.ask(["recover", writer.identifier.hex(), forms.AXES[axis], str(index)], stream)
            if status == 3:
                writer.proofs.append(forms.split(text)[0][0][1])
        return writer
