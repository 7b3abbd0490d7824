"""Finds what is wrong with an answer, without doing the program's work again.

Status and text must be among those of the command. What depends on a digest is judged by the identifier's writer: an
honest writer's blob is read as that blob or not at all, and a false writer's blob is never read.
"""
import hashlib
import re
from dataclasses import dataclass

import bundles
import challenges
import forms
import gets
import images
from forms import AXES
from reports import NO_JSON, events_in, line_fault, read_json, refusal_fault
from serving import serve_fault
from words import COMMANDS, is_row, is_text, without_options

USAGE = f"usage: walrus {' | '.join(COMMANDS)}\n".encode()
SUMMARY = b"events 841\ncertified 32\nreads 64\nbytes 8448\nrecovered 384\nleast holders 6\n"
LIMITS = {"id": 16777216, "encode": 16777216, "replay": 16777216, "read": 134217728, "recover": 134217728,
          "check": 134217728, "serve": 1073741824, "sample": 0, "image": 134217728, "unpack": 134217728,
          "bundle": 134217728, "member": 134217728, "challenge": 134217728, "verify": 134217728, "gateway": 134217728}

COLLISION = re.compile(rb"collision ([0-9a-f]+) ([0-9a-f]+)\n")
SHORT = re.compile(rb"short (0|[1-9][0-9]*) of ([1-9][0-9]*)\n")
CHECKED = re.compile(rb"no proof\n|wrong count\n|repeated\n|bad opening (?:0|[1-9][0-9]{0,2})\n|consistent\n")


def collision_fault(text):
    """Return what is wrong with the line of a collision. A true one is reported, too: none has ever been found."""
    found = COLLISION.fullmatch(text)
    if not found:
        return "the line of a collision has another form"
    left, right = (bytes.fromhex(part.decode()) for part in found.groups())
    if left == right or hashlib.sha256(left).digest() != hashlib.sha256(right).digest():
        return "a collision of two texts that are equal or have two digests"
    return "a collision of SHA-256, which nobody has found: look twice"


def short_fault(text, needed):
    found = SHORT.fullmatch(text)
    if not found or int(found[1]) >= int(found[2]):
        return "the line of a short answer has another form"
    return None if needed is None or int(found[2]) == needed else f"{needed} are needed"


def long_fault(command, outcome):
    """Return what is wrong with the answer to an input that is too long."""
    if outcome.status != 9 or outcome.took_other(LIMITS[command] + 1):
        return f"a wrong answer to a long input, of which {outcome.taken} bytes were read"
    return None if command == "serve" or outcome.text == b"too long\n" else "too long, with another text"


def told(answer):
    return f"{answer[1][:60]!r} of {len(answer[1])} bytes, with status {answer[0]}"


def exact_fault(content, outcome, answer):
    """Return what is wrong with an answer if the right one is `answer(payloads)`."""
    envelopes, end = forms.split(content)
    wanted = answer([payload for _, payload in envelopes]) if end == len(content) else (8, b"malformed at %d\n" % end)
    return None if (outcome.status, outcome.text) == wanted else f"another answer than {told(wanted)}"


LOOK = object()


def is_metadata(payload, identifier):
    """Return whether the payload is a frame of metadata with this identifier."""
    if not payload[:1] or payload[0] not in (forms.METADATA, forms.METADATA_TWO):
        return False
    place = forms.numbers_at(payload)
    faults, length = forms.value_of(payload[place:place + 2]), forms.value_of(payload[place + 2:place + 10])
    fits = 1 <= faults <= 333 and length <= 16777216 and len(payload) == place + 10 + 64 * (3 * faults + 1)
    return fits and (place == 1 or payload[1] == 2) and forms.identifier_of(payload) == identifier


@dataclass
class View:
    """What is known about an identifier: its writer, and its first metadata in the input."""
    identifier: bytes
    subject: object
    metadata: bytes

    @property
    def is_honest(self):
        return self.subject is not None and self.subject.blob is not None

    @property
    def faults(self):
        place = forms.numbers_at(self.metadata)
        return forms.value_of(self.metadata[place:place + 2])


class Judge:
    """Judges the whole answers of the program."""

    def __init__(self, corpus):
        self.corpus = corpus

    def fault(self, words, content, outcome):
        """Return what is wrong with a run that had all the memory, input and output that it needed."""
        if outcome.late:
            return "it takes too long"
        if outcome.errors:
            return "it writes to standard error"
        if outcome.status < 0:
            return f"signal {-outcome.status} ends it"
        if not is_text(words):
            return None if (outcome.status, outcome.text) == (11, b"") else "words that are not UTF-8 are not refused"
        values, options = without_options(words)
        if outcome.status == 2:
            if outcome.text != USAGE or outcome.took_other(0):
                return "usage with another text, or after input was read"
            return "words that match a command are refused" if values is not None and is_row(values, options) else None
        if values is None:
            return None if outcome.status in (0, 3, 4, 8, 9, 10) else "another status than the command has"
        if not is_row(values, options):
            return "words that match no command are not refused"
        return self._answer_fault(values, options, content, outcome)

    def _answer_fault(self, values, options, content, outcome):
        command = values[0].decode()
        if len(content) > LIMITS[command] and command != "sample":
            return long_fault(command, outcome)
        if outcome.status == 9:
            return "an input that is not too long is refused as too long"
        if command not in ("sample", "serve") and outcome.took_other(len(content)):
            return f"{outcome.taken} bytes of {len(content)} were read"
        return getattr(self, f"_{command}_fault")(values[1:], options, bytes(content), outcome)

    def _id_fault(self, values, options, content, outcome):
        return None if outcome.status == 0 and re.fullmatch(rb"[0-9a-f]{64}\n", outcome.text) else "no identifier"

    def _encode_fault(self, values, options, content, outcome):
        faults, second = int(values[0]), options.get(b"--format") == b"2"
        envelopes, end = forms.split(outcome.text)
        shards = 3 * faults + 1
        if outcome.status != 0 or end != len(outcome.text) or len(envelopes) != 1 + 2 * shards:
            return "no metadata and slivers"
        sender, metadata = envelopes[0]
        if (sender, metadata[0]) != (0, forms.METADATA_TWO if second else forms.METADATA):
            return "no metadata in front"
        identifier = forms.identifier_of(metadata)
        for place, (sender, payload) in enumerate(envelopes[1:]):
            shard, axis = divmod(place, 2)
            index = shards - 1 - shard if second and axis else shard
            if sender != shard or payload != forms.sliver(identifier, axis, index, payload[40:]):
                return f"no sliver in envelope {place + 1}"
        return None

    def _view(self, word, content):
        """Return the writer of an identifier, and the first metadata that the input has for it."""
        identifier = bytes.fromhex(word.decode())
        found = [payload for _, payload in forms.split(content)[0] if is_metadata(payload, identifier)]
        return View(identifier, self.corpus.by_identifier.get(identifier), found[0] if found else None)

    def _stream_fault(self, view, content, outcome):
        """Return what is wrong with an answer that any command may give that reads envelopes, or `LOOK` for others."""
        _, end = forms.split(content)
        malformed = b"malformed at %d\n" % end if end < len(content) else None
        if malformed or outcome.status == 8:
            return None if (outcome.status, outcome.text) == (8, malformed) else "a wrong answer about the input's form"
        if outcome.status == 10:
            return collision_fault(outcome.text)
        missing = (outcome.status, outcome.text) == (4, b"no metadata\n")
        if missing or view.metadata is None:
            return None if missing and view.metadata is None else "a wrong answer about the metadata"
        return LOOK

    def _read_fault(self, values, options, content, outcome):
        view = self._view(values[0], content)
        fault = self._stream_fault(view, content, outcome)
        if fault is not LOOK:
            return fault
        if outcome.status == 4:
            return short_fault(outcome.text, view.faults + 1)
        if outcome.status == 3:
            if view.is_honest:
                return "an honest writer's blob is rejected"
            return None if outcome.text == b"reject\n" else "a rejection with another text"
        if outcome.status != 0:
            return "another status than the command has"
        return self._blob_fault(view, outcome.text)

    def _blob_fault(self, view, blob):
        if view.subject:
            return None if view.subject.blob == blob else "another blob than the writer's"
        format_number = "2" if view.metadata[0] == forms.METADATA_TWO else "1"
        answer = self.corpus.ask(["id", str(view.faults), "--format", format_number], blob)
        return None if answer == (0, view.identifier.hex().encode() + b"\n") else "a blob that has another identifier"

    def _recover_fault(self, values, options, content, outcome):
        view = self._view(values[0], content)
        fault = self._stream_fault(view, content, outcome)
        if fault is not LOOK:
            return fault
        axis, index = AXES.index(values[1].decode()), int(values[2])
        needed = 2 * view.faults + 1 if axis == forms.PRIMARY else view.faults + 1
        if outcome.status == 4:
            return short_fault(outcome.text, needed)
        envelopes, end = forms.split(outcome.text)
        if outcome.status not in (0, 3) or end != len(outcome.text) or len(envelopes) != 1 or envelopes[0][0] != index:
            return "no one envelope from its index"
        if outcome.status == 3:
            front = forms.target(forms.PROOF, view.identifier, axis, index) + forms.number(needed, 2)
            return self._proof_fault(view, envelopes[0][1], front)
        payload = envelopes[0][1]
        if payload != forms.sliver(view.identifier, axis, index, payload[40:]):
            return "no sliver"
        if view.is_honest and payload != view.subject.sliver(axis, index):
            return "another sliver than the writer's"
        return None

    def _proof_fault(self, view, proof, front):
        """Return what is wrong with a proof that the program made."""
        if view.is_honest:
            return "a proof against an honest writer"
        if not proof.startswith(front):
            return "no proof"
        answer = self.corpus.ask(["check", view.identifier.hex()], forms.join([(0, view.metadata), (0, proof)]))
        return None if answer == (3, b"inconsistent\n") else "a proof that shows nothing"

    def _check_fault(self, values, options, content, outcome):
        view = self._view(values[0], content)
        fault = self._stream_fault(view, content, outcome)
        if fault is not LOOK:
            return fault
        if outcome.status == 3:
            if view.is_honest:
                return "a proof against an honest writer"
            return None if outcome.text == b"inconsistent\n" else "a verdict with another text"
        return None if outcome.status == 4 and CHECKED.fullmatch(outcome.text) else "no verdict"

    def _image_fault(self, values, options, content, outcome):
        return exact_fault(content, outcome, lambda payloads: images.image_of(int(values[0]), payloads))

    def _unpack_fault(self, values, options, content, outcome):
        wanted = images.unpacked(content)
        return None if (outcome.status, outcome.text) == wanted else f"another answer than {told(wanted)}"

    def _bundle_fault(self, values, options, content, outcome):
        return exact_fault(content, outcome, lambda payloads: bundles.bundle_of(int(values[0]), payloads))

    def _member_fault(self, values, options, content, outcome):
        identifier, number = bytes.fromhex(values[0].decode()), int(values[1])
        if outcome.status == 10:
            return collision_fault(outcome.text)
        return exact_fault(content, outcome, lambda payloads: bundles.member_of(identifier, number, payloads))

    def _replay_fault(self, values, options, content, outcome):
        schedule, sure = read_json(content)
        if outcome.status == 8:
            return refusal_fault(schedule, sure, outcome.text)
        if schedule is NO_JSON:
            return "a text that is no JSON was replayed"
        lines = outcome.text.split(b"\n")
        if lines.pop():
            return "the last line has no end"
        last = lines.pop() + b"\n" if outcome.status == 10 and lines else None
        for line in lines:
            fault = line_fault(line, self.corpus)
            if fault:
                return f"{fault}: {line[:100].decode(errors='replace')}"
        if outcome.status == 10:
            return collision_fault(last)
        fits = outcome.status == 0 and len(lines) == len(events_in(schedule))
        return None if fits else "another status, or not a line for each event"

    def _sample_fault(self, values, options, content, outcome):
        if outcome.took_other(0):
            return "input was read"
        return None if (outcome.status, outcome.text) == (0, SUMMARY) else "another summary than that of each sample"

    def _serve_fault(self, values, options, content, outcome):
        return serve_fault(int(values[0]), int(values[1]), content, outcome, self.corpus)

    def _challenge_fault(self, values, options, content, outcome):
        view = self._view(values[0], content)
        fault = self._stream_fault(view, content, outcome)
        if fault is not LOOK:
            return fault
        shard, beacon, count = int(values[1]), bytes.fromhex(values[2].decode()), int(values[3])
        payloads = [payload for _, payload in forms.split(content)[0]]
        asked = view.metadata, view.identifier, shard, beacon, count
        return challenges.answer_fault(*asked, outcome, payloads, view.subject)

    def _verify_fault(self, values, options, content, outcome):
        view = self._view(values[0], content)
        fault = self._stream_fault(view, content, outcome)
        if fault is not LOOK:
            return fault
        shard, beacon, count = int(values[1]), bytes.fromhex(values[2].decode()), int(values[3])
        payloads = [payload for _, payload in forms.split(content)[0]]
        told = challenges.verdict_of(view.metadata, view.identifier, shard, beacon, count, payloads)
        return None if (outcome.status, outcome.text) == told else f"another verdict than {told[1].decode().strip()}"

    def _gateway_fault(self, values, options, content, outcome):
        envelopes, end = forms.split(content)
        if end < len(content) or outcome.status == 8:
            malformed = 8, b"malformed at %d\n" % end
            fits = end < len(content) and (outcome.status, outcome.text) == malformed
            return None if fits else "a wrong answer about the input's form"
        status, text = gets.run_of(int(values[0]), [payload for _, payload in envelopes], self.corpus.ask)
        if status == 10:
            return collision_fault(outcome.text.split(b"\n")[-2] + b"\n")
        return None if (outcome.status, outcome.text) == (status, text) else "other lines than the gets have"
