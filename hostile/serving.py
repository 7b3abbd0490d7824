"""Finds what is wrong with a shard's answers: the kinds of frames, and the codes that each request may have."""
from dataclasses import dataclass

import forms

# The codes that requests may have.
PUT = {0, 1, 2, 3, 6, 9, 11}
VOUCHED = {1, 5, 8, 9, 10, 12, 13, 14}
CODES = {forms.METADATA: PUT - {3}, forms.METADATA_TWO: PUT - {3}, forms.SLIVER: PUT, forms.PROOF: PUT,
         forms.READ: {0, 9}, forms.SYMBOL: {0, 9}, forms.ACK: VOUCHED, forms.ATTEST: VOUCHED, forms.FORGET: {0, 5, 9},
         forms.REGISTER_ENTRY: {0, 9, 10, 15}, forms.ACK_ENTRY: VOUCHED - {5}, forms.ATTEST_ENTRY: VOUCHED - {5}}
REPLIED = {forms.READ: [forms.METADATA, forms.METADATA_TWO, forms.SLIVER, forms.PROOF],
           forms.SYMBOL: [forms.METADATA, forms.METADATA_TWO, forms.OPENING, forms.PROOF]}


@dataclass
class Desk:
    """The shard that serves."""
    faults: int
    shard: int
    room: int
    corpus: object

    def honest(self, identifier):
        """Return the honest writer of this blob, if there is one."""
        subject = self.corpus.by_identifier.get(identifier)
        return subject if subject and subject.blob is not None else None


def answers_of(envelopes):
    """Return the frames that answer each request, and the frames after the last whole answer."""
    answers, frames = [], []
    for _, payload in envelopes:
        frames.append(payload)
        if payload[:1] and payload[0] in (forms.ANSWER, forms.CLASH):
            answers.append(frames)
            frames = []
    return answers, frames


def code_fault(payload, desk_room, code, a, b):
    """Return what is wrong with a code and its numbers for this request."""
    kind = payload[0] if payload else None
    if code not in CODES.get(kind, {9}):
        return f"the code {code} for a request of kind {kind}"
    if code not in (6, 9) and b:
        return f"a second number with the code {code}"
    if code in (1, 2, 3, 5, 8, 10, 11, 12, 15) and a:
        return f"a number with the code {code}"
    if code == 6 and not a > b:
        return "it is full, and needs no more than is free"
    if len(payload) > desk_room or (code, a) == (9, 7):
        return None if (code, a, b, len(payload) > desk_room) == (9, 7, 0, True) else "a wrong answer to a long payload"
    if code != 9:
        return None
    if kind is None or kind not in forms.KINDS:
        return None if a == (1 if kind is None else 2) and b == 0 else "a wrong answer to an unknown kind"
    further = [5] if kind not in CODES else [6] if kind in (forms.ACK_ENTRY, forms.ATTEST_ENTRY) else []
    fits = a in [1, 3, 4] + further and (0 < b < len(payload) if a == 3 else b == 0)
    return None if fits else f"the cause {a} and the place {b} for a request of kind {kind}"


def frame_fault(frame, subject, shard):
    """Return what is wrong with a frame of an honest writer's blob that a shard replies."""
    if frame[0] == forms.PROOF:
        return "a proof against an honest writer"
    if frame[0] == forms.SLIVER:
        fits = frame == subject.sliver(forms.PRIMARY, shard)
        return None if fits else "another sliver than the writer's"
    if frame[0] == forms.OPENING:
        axis, index = frame[33], forms.value_of(frame[34:36])
        cross = subject.held(1 - axis, shard)
        if cross >= subject.needed(axis):
            return None  # the corpus has only the codewords of the first crosses
        own = index < subject.shards and frame == subject.opening(axis, index, cross)
        return None if own else "another opening than the writer's"
    return None if frame == subject.metadata else "another metadata than the writer's"


def put_fault(payload, code, desk):
    """Return what is wrong with a code for a sliver or a proof of an honest writer's blob."""
    subject = desk.honest(payload[1:33])
    if subject is None or code not in (0, 2, 11) or payload[0] not in (forms.SLIVER, forms.PROOF):
        return None
    if subject.faults != desk.faults:
        return "a sliver or a proof was looked at without metadata"
    if payload[0] == forms.PROOF:
        return None if code == 2 else "a proof against an honest writer was stored"
    axis = payload[33]
    own = payload == subject.sliver(axis, subject.held(axis, desk.shard))
    if code == 0 and not own:
        return "another sliver than the writer's was stored"
    return "the writer's sliver does not verify" if code == 2 and own else None


def replies_fault(payload, frames, count, desk):
    """Return what is wrong with the frames of a blob in a shard's reply."""
    kinds, identifier = REPLIED[payload[0]], payload[1:33]
    places = [kinds.index(frame[0]) if frame[:1] and frame[0] in kinds else None for frame in frames]
    if count != len(frames) or None in places or places != sorted(set(places)):
        return "other frames than the request asks for"
    for frame, place in zip(frames, places):
        if (frame[1:33] if place > 1 else forms.identifier_of(frame)) != identifier:
            return "a frame of another blob"
        if frame[0] == forms.OPENING and frame[33:36] != payload[33:36]:
            return "an opening of another sliver"
    subject = desk.honest(identifier)
    faults = (frame_fault(frame, subject, desk.shard) for frame in frames if subject)
    return next(filter(None, faults), None)


def answer_fault(payload, frames, desk):
    """Return what is wrong with the frames that answer one request."""
    end = frames[-1]
    if len(end) != 10 or end[0] != forms.ANSWER:
        return "an answer of another form"
    code, a, b = end[1], forms.value_of(end[2:6]), forms.value_of(end[6:10])
    fault = code_fault(payload, desk.room, code, a, b) or put_fault(payload, code, desk)
    if fault:
        return fault
    before = frames[:-1]
    replied = payload[:1] and payload[0] in REPLIED and code == 0
    if before and not replied:
        return "frames before an answer that has none"
    return replies_fault(payload, before, a, desk) if replied else None


def serve_fault(faults, shard, content, outcome, corpus):
    """Return what is wrong with a run of `serve`."""
    requests, end = forms.split(content)
    envelopes, written = forms.split(outcome.text)
    if written != len(outcome.text):
        return "the answers are no whole envelopes"
    if any(sender != shard for sender, _ in envelopes):
        return "an answer from another shard"
    answers, rest = answers_of(envelopes)
    if rest:
        return "frames without an answer"
    if outcome.status == 10 or any(frames[-1][0] == forms.CLASH for frames in answers):
        return "a collision of SHA-256, which nobody has found: look twice"
    if outcome.status != (0 if end == len(content) else 8):
        return "another status than the input has"
    if len(answers) != len(requests):
        return f"{len(answers)} answers to {len(requests)} requests"
    if outcome.status == 0 and outcome.took_other(len(content)):
        return f"{outcome.taken} bytes of {len(content)} were read"
    desk = Desk(faults, shard, forms.desk_room(faults), corpus)
    for (_, payload), frames in zip(requests, answers):
        fault = answer_fault(payload, frames, desk)
        if fault:
            return fault
    return None
