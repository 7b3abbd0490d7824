"""Checks that answers about a blob depend on that blob alone: on its requests, and on what was kept of it."""
import forms
from running import Zeros
from serving import answers_of
from words import without_options

PARTS = (forms.METADATA, forms.METADATA_TWO, forms.SLIVER, forms.PROOF)
CLAIMS = {forms.ACK: forms.ACK_ENTRY, forms.ATTEST: forms.ATTEST_ENTRY}
ENTRIES = (forms.REGISTER_ENTRY, forms.ACK_ENTRY, forms.ATTEST_ENTRY)
WANTS = (6, 7, 10)  # codes for a lack of pages, of memory, of entries


def named(payload):
    """Return the identifier that a payload names, or that its metadata has; for a malformed frame, any bytes do."""
    kind = payload[0] if payload else None
    if kind in (forms.METADATA, forms.METADATA_TWO):
        return forms.identifier_of(payload) if len(payload) > 12 else None
    if kind in (forms.ACK_ENTRY, forms.ATTEST_ENTRY):
        return payload[3:35]
    return payload[1:33] if kind in forms.KINDS and kind not in (forms.ANSWER, forms.CLASH) else None


def code_of(frames):
    """Return the code of an answer that is one frame, or None."""
    return frames[0][1] if len(frames) == 1 and frames[0][0] == forms.ANSWER else None


def kept(turns, identifier, shard):
    """Return the entries that were made, in order, and then what is held: metadata, slivers, and the proof."""
    entries, held = [], {}
    for payload, frames in turns:
        kind, code = payload[0] if payload else None, code_of(frames)
        if kind in PARTS and code == 0:
            held[PARTS.index(kind), payload[33] if kind == forms.SLIVER else 0] = payload
        elif kind in CLAIMS and code in (13, 14):
            entries.append(bytes([CLAIMS[kind]]) + forms.number(shard, 2) + identifier)
        elif kind in ENTRIES and code in (0, 13, 14):
            entries.append(payload)
        elif kind == forms.FORGET and code == 0:
            held = {place: part for place, part in held.items() if PARTS[place[0]] != forms.SLIVER}
    return entries + [held[place] for place in sorted(held)]


def served(trial, payloads):
    """Return the answers to these payloads, or None if serving does not end as it should."""
    outcome = trial.run(trial.words, forms.join([(7, payload) for payload in payloads]), trial.limits)
    answers, rest = answers_of(forms.split(outcome.text)[0])
    return answers if (outcome.status, outcome.errors, rest) == (0, b"", []) else None


def by_blob(trial, random):
    """A blob's requests have the same answers without those about other blobs; and so has its last request, if it
    follows only what is kept of the blob."""
    if trial.command != "serve" or trial.whole.status not in (0, 8) or isinstance(trial.content, Zeros):
        return None
    payloads = [payload for _, payload in forms.split(trial.content)[0]]
    turns = list(zip(payloads, answers_of(forms.split(trial.whole.text)[0])[0]))
    names = sorted({name for name in map(named, payloads) if name})
    if not names:
        return None
    identifier = random.choice(names)
    chosen = [(payload, frames) for payload, frames in turns if named(payload) == identifier]
    if any(code_of(frames) in WANTS for _, frames in chosen):
        return None  # the room that is left depends on all blobs
    if served(trial, [payload for payload, _ in chosen]) != [frames for _, frames in chosen]:
        return "other answers without the requests about other blobs"
    shard = int(without_options(trial.words)[0][2])
    payload, frames = chosen[-1]
    last = served(trial, kept(chosen[:-1], identifier, shard) + [payload])
    return None if last and last[-1] == frames else "another answer after what is kept of the blob"
