"""Schedules: plausible stories of a network, into which hostile keys, numbers, brackets and digits are put."""
import copy
import json

import mutation
from forms import AXES, PRIMARY, SECONDARY

SIDES = ["now", "now", "now", "next"]


def shards_of(random, count):
    return sorted(random.sample(range(count), random.randrange(count + 1)))


def shard(random, count):
    return random.randrange(count)


def replies(random, subject, count):
    """Return replies of shards, true and false."""
    said = [{"true": member, "at": random.choice(SIDES)} for member in shards_of(random, count)]
    for _ in range(random.choice([0, 0, 0, 1, 2])):
        said.insert(random.randrange(len(said) + 1), {"bytes": sent_bytes(random, subject).hex()})
    return said


def sent_bytes(random, subject):
    """Return a frame about the blob, as a shard or writer sends it; some are changed."""
    axis, index = random.choice([PRIMARY, SECONDARY]), random.randrange(subject.shards)
    opening = subject.opening(axis, index, random.randrange(subject.needed(axis)))
    payload = random.choice([subject.metadata, subject.sliver(axis, index), opening] + subject.proofs * 2)
    return mutation.change_payload(random, payload) if random.random() < 0.3 else payload


def register(random, subject, count):
    return {"do": "register", "id": subject.identifier.hex(), "until": random.choice([5, 5, 5, 1, 0, 2, 65536])}


def write(random, subject, count):
    blob = random.randbytes(12) if subject.blob is None else subject.blob
    return {"do": "write", "blob": blob.hex(), "to": random.choice([shards_of(random, count), list(range(count))])}


def send(random, subject, count):
    return {"do": "send", "at": random.choice(SIDES), "shard": shard(random, count),
            "bytes": sent_bytes(random, subject).hex()}


def ack(random, subject, count):
    return {"do": "ack", "shard": shard(random, count), "id": subject.identifier.hex()}


def attest(random, subject, count):
    return ack(random, subject, count) | {"do": "attest"}


def read(random, subject, count):
    return {"do": "read", "id": subject.identifier.hex(), "replies": replies(random, subject, count)}


def recover(random, subject, count):
    return {"do": "recover", "at": random.choice(SIDES), "shard": shard(random, count), "axis": random.choice(AXES),
            "id": subject.identifier.hex(), "replies": replies(random, subject, count)}


def forget(random, subject, count):
    return {"do": "forget", "at": random.choice(SIDES), "shard": shard(random, count), "id": subject.identifier.hex()}


def begin(random, subject, count):
    return {"do": "begin", "faulty": shards_of(random, count)[:1], "stays": shards_of(random, count)}


def ready(random, subject, count):
    return {"do": "ready", "shard": shard(random, count)}


def finish(random, subject, count):
    return {"do": "finish"}


def certificate(random, subject, count):
    return {"do": "certificate", "id": subject.identifier.hex()}


def holders(random, subject, count):
    return {"do": "holders", "id": subject.identifier.hex()}


EVENTS = [register, register, write, write, send, send, ack, ack, ack, attest, read, read, recover, recover, forget,
          begin, ready, ready, finish, certificate, holders]


def stored(random, subject, count):
    """Return events that register, store and acknowledge a blob; that of a false writer is sent and attested."""
    members = list(range(count))
    story = [register(random, subject, count)]
    if subject.blob is None:
        for member in members:
            story += [{"do": "send", "at": "now", "shard": member, "bytes": payload.hex()}
                      for payload in [subject.metadata] + subject.proofs]
        return story + [attest(random, subject, count) | {"shard": member} for member in members]
    story.append({"do": "write", "blob": subject.blob.hex(), "to": members})
    return story + [ack(random, subject, count) | {"shard": member} for member in members]


def handover(random, subject, count):
    """Return events of an epoch change, in which shards recover and are ready."""
    fresh = random.randrange(count)
    heard = [{"true": member, "at": "now"} for member in range(count)]
    story = [{"do": "begin", "faulty": [], "stays": [member for member in range(count) if member != fresh]}]
    story += [{"do": "recover", "at": "next", "shard": fresh, "axis": axis, "id": subject.identifier.hex(),
               "replies": heard} for axis in AXES]
    return story + [{"do": "ready", "shard": member} for member in range(count)] + [{"do": "finish"}]


def honest_schedule(random, corpus):
    """Return a schedule with all values in range."""
    faults = random.choice([1, 1, 1, 2])
    count = 3 * faults + 1
    subjects = random.sample([subject for subject in corpus.subjects if subject.faults == faults], 2)
    events = []
    for part in random.choice([[], [stored], [stored, handover], [stored, handover, handover]]):
        events += part(random, subjects[0], count)
    for _ in range(random.randrange(20)):
        place = random.randrange(len(events) + 1) if random.random() < 0.3 else len(events)
        events.insert(place, random.choice(EVENTS)(random, random.choice(subjects), count))
    schedule = {"f": faults, "epoch": random.choice([0, 0, 0, 1, 65534, 65535]),
                "faulty": shards_of(random, count)[:random.choice([0, 0, 1, count])], "events": events}
    if random.random() < 0.3:
        schedule["format"] = random.choice([1, 2])
    return schedule


# Changes of the values of a schedule.

HOSTILE_VALUES = [None, True, False, 0, 1, -1, 1.0, 1.5, 1e300, "", "now", "next", "1", "x" * 64, "f" * 63, "F" * 64,
                  "f" * 64, "0g", "00", [], [[]], {}, {"do": "finish"}, "\u0000", "\ud7ff", "\U0001f600", [0, 0],
                  [1, 0]]
HOSTILE_VALUES += mutation.LIMITS
HOSTILE_KEYS = ["f", "epoch", "faulty", "events", "format", "owners", "do", "id", "until", "blob", "to", "at", "shard",
                "bytes", "replies", "axis", "true", "stays", "", "F", "ids"]


def places_in(value, found):
    """Return every object and list in a value."""
    if isinstance(value, (dict, list)):
        found.append(value)
        for item in value.values() if isinstance(value, dict) else value:
            places_in(item, found)
    return found


def any_value(random):
    return copy.deepcopy(random.choice(HOSTILE_VALUES))


def hostile_value(random, old):
    if isinstance(old, int) and not isinstance(old, bool) and random.random() < 0.5:
        return random.choice([old + 1, old - 1, -old, old + 2**16, old + 2**32, old + 2**64])
    if isinstance(old, list) and random.random() < 0.6:
        return random.choice([old[::-1], old * 2, old[1:], old + old[-1:], old[:-1], [0, 1, 2, 3], [3, 0, 1, 2]])
    if isinstance(old, str) and random.random() < 0.6:
        return random.choice([old.upper(), old[1:], old + "0", old * 2, old[::-1], old[:-2], old + "00"])
    return any_value(random)


def change_values(random, schedule):
    """Exchange one value; or remove, add or rename one key."""
    place = random.choice(places_in(schedule, []))
    if isinstance(place, list):
        if place and random.random() < 0.7:
            index = random.randrange(len(place))
            place[index] = hostile_value(random, place[index])
        else:
            place.insert(random.randrange(len(place) + 1), random.choice([any_value(random)] + place))
        return
    key = random.choice(list(place)) if place else ""
    change = random.randrange(6)
    if change == 0 and place:
        del place[key]
    elif change == 1:
        place[random.choice(HOSTILE_KEYS)] = any_value(random)
    elif change == 2 and place:
        place[random.choice(HOSTILE_KEYS)] = place.pop(key)
    elif place:
        place[key] = hostile_value(random, place[key])


# Changes of the text of a schedule.

TOKENS = [
    b"{", b"}", b"[", b"]", b",", b":", b'"', b"\\", b"0", b"9", b"-", b".", b"e", b"E9", b" ", b"\n", b"\t", b"\r",
    b"\x00", b"\x0b", b"\x1f", b"\x7f", b"\x80", b"\xc0\x80", b"\xed\xa0\x80", b"\xf4\x90\x80\x80", b"\xef\xbb\xbf",
    b"\\u0030", b"\\ud800", b"\\udc00", b"\\ud83d\\ude00", b"\\x", b"\\/", b"NaN", b"Infinity", b"null", b"true",
    b"//", b"/* */", b"1e400", b"1E-400", b"-0", b"00", b"1.", b".1", b"1e", b'"f":1,', b'"do":"finish",',
    b'"id":"",', b",,", b"18446744073709551616", b"9" * 400, b'{"do":"finish"},']


def change_tokens(random, text):
    place = random.randrange(len(text) + 1)
    chance = random.random()
    if chance < 0.5:
        return text[:place] + random.choice(TOKENS) + text[place:]
    if chance < 0.9:
        old = random.choice([token for token in TOKENS[:14] if token in text] or [b""])
        start = text.find(old, place) if old else place
        return text if start < 0 else text[:start] + random.choice(TOKENS + [b""] * 10) + text[start + len(old):]
    depth = random.choice([100, 126, 127, 128, 129, 5000])
    return text[:place] + random.choice([b"[" * depth, b"[" * depth + b"]" * depth, b'{"":' * depth]) + text[place:]


def long_texts(corpus):
    """Yield schedules with the largest number of events or replies that is allowed, and with one more."""
    for count in (65536, 65537):
        yield b'{"f":1,"epoch":0,"faulty":[],"events":[' + b",".join([b'{"do":"finish"}'] * count) + b"]}"
    for count in (4096, 4097):
        replies = b",".join([b'{"true":0,"at":"now"}'] * count)
        read = b'{"do":"read","id":"%s","replies":[%s]}' % (corpus.honest[0].identifier.hex().encode(), replies)
        yield b'{"f":1,"epoch":0,"faulty":[],"events":[' + read + b"]}"


SPELLINGS = [{"separators": (",", ":")}, {}, {"indent": 1}, {"sort_keys": True}]


def schedule_text(random, corpus):
    schedule = honest_schedule(random, corpus)
    chance = random.random()
    if 0.3 < chance < 0.7:
        for _ in range(random.choice([1, 1, 1, 2, 4])):
            change_values(random, schedule)
    text = json.dumps(schedule, **random.choice(SPELLINGS)).encode()
    if chance > 0.7:
        for _ in range(random.choice([1, 1, 2])):
            text = (change_tokens if random.random() < 0.7 else mutation.change_text)(random, text)
    return text
