"""Draws the words and the input of each trial from random numbers of its own."""

import forms
import images
import mutation
import schedules
import small_blobs
from corpus import with_metadata
from forms import AXES, PRIMARY, SECONDARY
from running import Zeros

def foreign_writer(random, subject):
    """Return a false writer with changed metadata and the identifier that commits to it, if it still is a frame."""
    metadata = mutation.change_payload(random, subject.metadata)
    place = forms.numbers_at(metadata) if metadata else 0
    if len(metadata) < place + 10 or metadata[0] not in (forms.METADATA, forms.METADATA_TWO):
        return subject
    shards = 3 * forms.value_of(metadata[place:place + 2]) + 1
    if shards > 1000:
        return subject
    roots = metadata[place + 10:] + subject.metadata[place + 10:] * shards
    return with_metadata(subject, metadata[:place + 10] + roots[:64 * shards])


def writer_of(random, corpus):
    subject = random.choice(corpus.honest if random.random() < 0.5 else corpus.subjects)
    return foreign_writer(random, subject) if random.random() < 0.15 else subject


def some(random, items):
    return random.sample(items, random.randrange(len(items) + 1))


def enveloped(random, payloads):
    return [(random.randrange(4), payload) for payload in payloads]


def read_stream(random, corpus, subject):
    """Return metadata, slivers and proofs in any order."""
    payloads = [subject.metadata] * random.choice([0, 1, 1, 1, 1, 1, 1, 2])
    payloads += some(random, subject.slivers()) + some(random, subject.proofs)
    random.shuffle(payloads)
    return ["read", subject.identifier.hex()], enveloped(random, payloads)


def recover_stream(random, corpus, subject):
    """Return metadata and openings of one sliver, and a few openings of others."""
    axis, index = random.choice([PRIMARY, SECONDARY]), random.randrange(subject.shards)
    payloads = [subject.metadata] * random.choice([0, 1, 1, 1, 1, 1, 1, 2])
    payloads += subject.openings(axis, index) if random.random() < 0.7 else some(random, subject.openings(axis, index))
    payloads += some(random, subject.openings(random.choice([PRIMARY, SECONDARY]), random.randrange(subject.shards)))
    random.shuffle(payloads)
    return ["recover", subject.identifier.hex(), AXES[axis], str(index)], enveloped(random, payloads)


def proof_of(random, subject):
    """Return a frame in the form of a proof of bad encoding, which may show nothing."""
    axis, index = random.choice([PRIMARY, SECONDARY]), random.randrange(subject.shards)
    crosses = list(range(subject.needed(axis)))
    if random.random() < 0.3:
        crosses = [random.choice(crosses) for _ in range(random.randrange(len(crosses) + 2))]
    bodies = [subject.body(axis, index, cross) for cross in crosses]
    front = forms.target(forms.PROOF, subject.identifier, axis, index)
    return front + forms.number(len(bodies), 2) + b"".join(bodies)


def check_stream(random, corpus, subject):
    """Return metadata and proofs."""
    if not subject.proofs and random.random() < 0.5:
        subject = random.choice([writer for writer in corpus.false if writer.proofs])
    payloads = [subject.metadata] * random.choice([0, 1, 1, 1, 1, 1, 1, 2])
    payloads += some(random, subject.proofs) + [proof_of(random, subject) for _ in range(random.randrange(2))]
    random.shuffle(payloads)
    return ["check", subject.identifier.hex()], enveloped(random, payloads)


def register(random, subject):
    until = random.choice([9, 9, 9, 9, 1, 0, 65536, 65537])
    return bytes([forms.REGISTER_ENTRY]) + subject.identifier + forms.number(until, 4)


def lie(random, sliver):
    """Return a sliver of the same form with another content."""
    return sliver[:40] + mutation.change_byte(random, sliver[40:])


def request(random, subject, shard):
    """Return any request that names this blob."""
    kind = random.choice(forms.KINDS)
    if kind in (forms.METADATA, forms.METADATA_TWO):
        return subject.metadata
    if kind == forms.SLIVER:
        sliver = random.choice(subject.slivers())
        return random.choice([sliver, lie(random, sliver)])
    if kind == forms.OPENING:
        return subject.opening(SECONDARY, random.randrange(subject.shards), 0)
    if kind == forms.PROOF:
        return random.choice(subject.proofs + [proof_of(random, subject)])
    if kind == forms.SYMBOL:
        axis = random.choice([PRIMARY, SECONDARY])
        return forms.target(kind, subject.identifier, axis, random.randrange(subject.shards))
    if kind == forms.ANSWER:
        return bytes([kind]) + random.randbytes(9)
    if kind == forms.CLASH:
        return bytes([kind, 1, 7, 1, 8])
    if kind == forms.REGISTER_ENTRY:
        return register(random, subject)
    if kind in (forms.ACK_ENTRY, forms.ATTEST_ENTRY):
        return bytes([kind]) + forms.number(random.randrange(subject.shards + 1), 2) + subject.identifier
    return bytes([kind]) + subject.identifier


def story(random, subject, shard):
    """Return the requests of an honest client to a shard, and then any others."""
    stored = [subject.metadata] + [subject.sliver(axis, subject.held(axis, shard)) for axis in (PRIMARY, SECONDARY)]
    stored[1:1] = [lie(random, sliver) for sliver in stored[1:] if random.random() < 0.3]
    kind = random.choice([forms.ACK_ENTRY, forms.ATTEST_ENTRY])
    entries = [bytes([kind]) + forms.number(other, 2) + subject.identifier for other in range(subject.shards)]
    requests = [register(random, subject)] + stored[:random.choice([0, 1, 5, 5, 5, 5])] + some(random, subject.proofs)
    requests += entries if random.random() < 0.5 else some(random, entries)
    requests += [bytes([forms.FORGET]) + subject.identifier] * (kind == forms.ATTEST_ENTRY)
    requests += [request(random, subject, shard) for _ in range(random.randrange(8))]
    return requests + [bytes([forms.READ]) + subject.identifier] * random.choice([0, 1])


def serve_stream(random, corpus, subject):
    """Return requests about one blob, or two."""
    shard = random.randrange(subject.shards)
    requests = story(random, subject, shard)
    if random.random() < 0.3:
        other = random.choice(corpus.subjects)
        requests += story(random, other, shard % other.shards)
    if random.random() < 0.3:
        random.shuffle(requests)
    words = ["serve", str(subject.faults), str(shard)]
    words += ["--pages", str(random.choice([1, 2, 3, 4, 5, 8, 12, 64]))] if random.random() < 0.95 else []
    words += ["--blobs", str(random.choice([1, 2, 3, 65536]))] if random.random() < 0.3 else []
    return words, enveloped(random, requests)


# Only few beacons, so that an answer to one of them is sometimes verified against another.
BEACONS = [bytes(32), b"\xff" * 32, bytes(range(32))]


def audit_words(random, command, subject, shard, beacon, count):
    """Return the words for a shard; sometimes those for another shard or beacon, or another number of draws."""
    shard = random.choice([shard] * 20 + [subject.shards, subject.shards - 1, 0, 999])
    beacon = random.choice([beacon] * 20 + BEACONS)
    count = random.choice([count] * 20 + [count + 1, max(1, count - 1), 1, 1000])
    return [command, subject.identifier.hex(), str(shard), beacon.hex(), str(count)]


def challenge_stream(random, corpus, subject):
    """Return metadata, the slivers of a shard, false ones and others."""
    shard, count = random.randrange(subject.shards), random.choice([1, 1, 2, 3, 9, 40])
    own = [subject.sliver(axis, subject.held(axis, shard)) for axis in (PRIMARY, SECONDARY)]
    payloads = [subject.metadata] * random.choice([0, 1, 1, 1, 1, 1, 1, 2])
    payloads += own * random.choice([1, 1, 1, 2]) if random.random() < 0.8 else some(random, own)
    payloads += [lie(random, sliver) for sliver in own if random.random() < 0.3] + some(random, subject.slivers())[:3]
    random.shuffle(payloads)
    return audit_words(random, "challenge", subject, shard, random.choice(BEACONS), count), enveloped(random, payloads)


def answer_to(corpus, subject, shard, beacon, count):
    """Return the claims with which a shard that holds everything answers, made by the program; none if it refuses."""
    payloads = [subject.metadata] + [subject.sliver(axis, subject.held(axis, shard)) for axis in (PRIMARY, SECONDARY)]
    words = ["challenge", subject.identifier.hex(), str(shard), beacon.hex(), str(count)]
    status, text = corpus.ask(words, forms.join([(shard, payload) for payload in payloads]))
    return [payload for _, payload in forms.split(text)[0]] if status == 0 else []


def false_claims(random, corpus, subject, shard, beacon, claims):
    """Return an answer that is not quite this one."""
    other, place = random.randrange(subject.shards), random.randrange(len(claims))
    axis = random.choice([PRIMARY, SECONDARY])
    opening = subject.opening(axis, other, random.randrange(subject.needed(axis)))
    change = random.randrange(6)
    if change == 0:
        return answer_to(corpus, subject, other, beacon, len(claims))
    if change == 1:
        return answer_to(corpus, subject, shard, random.choice(BEACONS), len(claims))
    if change == 2:
        return random.sample(claims, len(claims))
    if change == 3:
        return claims[:place] + [opening] + claims[place + 1:]
    if change == 4:
        return claims[:place] + [mutation.change_byte(random, claims[place])] + claims[place + 1:]
    return claims[:place] + random.choice([[], [opening, claims[place]]]) + claims[place + 1:]


def verify_stream(random, corpus, subject):
    """Return metadata and claims, true or nearly so, among other frames."""
    shard, beacon, count = random.randrange(subject.shards), random.choice(BEACONS), random.choice([1, 1, 2, 3, 9, 40])
    claims = answer_to(corpus, subject, shard, beacon, count)
    if claims and random.random() < 0.6:
        claims = false_claims(random, corpus, subject, shard, beacon, claims)
    for payload in [subject.metadata] * random.choice([0, 1, 1, 1, 1, 1, 1, 2]) + some(random, subject.slivers())[:2]:
        claims.insert(random.randrange(len(claims) + 1), payload)
    return audit_words(random, "verify", subject, shard, beacon, count), enveloped(random, claims)


def get(random, subject):
    """Return a request to a gateway for a range of this blob."""
    size = len(subject.blob or bytes(12))
    numbers = [0, 0, 1, 2, max(0, size - 1), size, size + 1, 2**32 - 1, random.randrange(size + 1)]
    return forms.get(subject.identifier, random.choice(numbers), random.choice(numbers))


def gateway_stream(random, corpus, subject):
    """Return requests for ranges of a few blobs, with shards' replies to a read, with less, or with those of others."""
    subjects, payloads = [subject] + random.sample(corpus.subjects, 2), []
    for _ in range(random.choice([1, 2, 3, 6, 9])):
        asked, heard = random.choice(subjects), random.choice(subjects)
        heard = asked if random.random() < 0.8 else heard
        replies = [heard.metadata] * random.choice([0, 1, 1, 1, 1, 2])
        replies += random.sample(heard.slivers()[:heard.shards], random.choice([0, 1, heard.faults + 1, heard.shards]))
        replies += some(random, heard.proofs) + [lie(random, heard.sliver(PRIMARY, 0))] * random.choice([0, 0, 1])
        random.shuffle(replies)
        payloads += replies * random.choice([0, 1, 1, 1]) + [get(random, asked)]
    return ["gateway", str(random.choice([1, 1, 2, 3, 64]))], enveloped(random, payloads)


STREAMS = {"read": read_stream, "recover": recover_stream, "check": check_stream, "serve": serve_stream,
           "challenge": challenge_stream, "verify": verify_stream, "gateway": gateway_stream}


def stream_trial(random, corpus, command):
    words, envelopes = STREAMS[command](random, corpus, writer_of(random, corpus))
    envelopes = mutation.change_envelopes(random, envelopes, corpus)
    return words, mutation.change_stream(random, forms.join(envelopes))


def blob_trial(random, corpus, command):
    faults = random.choice([1, 1, 1, 2, 2, 3, 4, 5, 11] + [33] * (random.random() < 0.05))
    size = random.choice([0, 1, 2, 11, 12, 13, 24, 25, random.randrange(100), random.randrange(3000)])
    size = random.randrange(200000) if random.random() < 0.02 else size
    blob = random.choice([bytes(size), random.randbytes(size), b"\xff" * size])
    words = [command, str(faults)] + random.choice([[], ["--format", "1"], ["--format", "2"], ["--format=2"]])
    return words, blob


def schedule_trial(random, corpus, command):
    return ["replay"], schedules.schedule_text(random, corpus)


def false_number(random, number):
    """Return a text that is close to a number in range, but no such number."""
    return random.choice([
        f"0{number}", f"00{number}", f"+{number}", f"-{number}", f" {number}", f"{number} ", f"{number}\n", f"{number}.0",
        f"{number}e0", f"{number:#x}", f"{number:#b}", f"{number}_0", f"1,{number}", f"{number}L", f"{number}\u0661",
        str(2**64 + number), str(2**128 + number), f"{number}" * 40, ""])


def sample_trial(random, corpus, command):
    """Return a trial of `sample`. Each run replays a whole schedule, so most words have no valid number."""
    number = random.choice([0, 1, 2**32, 2**63, 2**64 - 1, random.randrange(2**64), random.randrange(1000)])
    text = str(number) if random.random() < 0.05 else false_number(random, number)
    return ["sample", text], random.choice([b"", b"W", random.randbytes(20)])


TRIALS = {"id": blob_trial, "encode": blob_trial, "read": stream_trial, "recover": stream_trial,
          "check": stream_trial, "serve": stream_trial, "replay": schedule_trial, "sample": sample_trial,
          "challenge": stream_trial, "verify": stream_trial, "gateway": stream_trial,
          **small_blobs.TRIALS}


# Words that match another command, or none.

HOSTILE_WORDS = [
    b"", b"0", b"00", b"01", b"+1", b"-1", b"1 ", b" 1", b"1.0", b"1e0", b"0x1", b"333", b"334", b"999", b"1000",
    b"65536", b"4294967296", b"18446744073709551615", b"18446744073709551616", b"99999999999999999999999", b"primary",
    b"secondary", b"Primary", b"id", b"read", b"serve", b"replay", b"image", b"unpack", b"bundle", b"member",
    b"134217728", b"134217729", b"65535", b"help", b"ID", b"--", b"-", b"-h", b"--help",
    b"-V", b"--version", b"--format", b"--format=", b"--format=2", b"--format=3", b"--pages", b"--pages=0",
    b"--pages=262145", b"--blobs=65537", b"--blobs", b"64", b"65", b"--formats=1", b"--form=1", b"\xff", b"\xc3\xa9",
    "\u0661".encode(), b"f" * 64, b"F" * 64, b"f" * 63, b"f" * 65, b"g" * 64, b"f" * 5000]


def change_words(random, words):
    words = list(words)
    for _ in range(random.choice([1, 1, 1, 2])):
        place = random.randrange(len(words) + 1)
        change = random.randrange(5)
        if change == 0:
            words.insert(place, random.choice(HOSTILE_WORDS))
        elif words and place < len(words):
            word = words[place]
            if change == 1:
                del words[place]
            elif change == 2:
                words[place] = mutation.change_text(random, word).replace(b"\0", b"0")
            elif change == 3:
                words[place] = random.choice([word.upper(), word * 2, word[:-1]])
            else:
                words[place] = random.choice(HOSTILE_WORDS)
    return words


# Inputs at their limits. They take long, so there is one in this many trials.
RARE = 1000
STREAM_WORDS = {"read": ["ID"], "recover": ["ID", "primary", "0"], "check": ["ID"], "image": ["134217728"],
                "bundle": ["1"], "member": ["ID", "0"], "challenge": ["ID", "0", "0" * 64, "1"],
                "verify": ["ID", "0", "0" * 64, "1"], "gateway": ["1"]}
LONG_PUT = images.HEAD.pack(1, images.PUT, bytes(32), 1, images.LARGEST)


def long_inputs(corpus, command):
    """Return words and inputs about as long as the longest that a command accepts."""
    identifier = corpus.honest[0].identifier.hex()
    if command in ("id", "encode"):
        return [([command, "1"], Zeros(b"", size)) for size in (16777216, 16777217)]
    if command == "unpack":
        return [(["unpack"], Zeros(front, size)) for front in (b"", LONG_PUT) for size in (134217728, 134217729)]
    if command in STREAM_WORDS:
        words = [command] + [identifier if word == "ID" else word for word in STREAM_WORDS[command]]
        front = forms.envelope(0, corpus.honest[0].metadata)
        envelopes = front + b"\x57\0\0" + forms.number(134217728 - len(front) - 7, 4)
        sizes = [(b"", 134217729), (envelopes, 134217728), (envelopes, 134217729)]
        return [(words, Zeros(begin, size)) for begin, size in sizes]
    if command == "serve":
        room = forms.desk_room(1)
        sizes = [(room, room + 7), (room + 1, room + 8), (room + 1, room + 7), (1073741817, 1073741825)]
        return [(["serve", "1", "0", "--pages", "1"], Zeros(b"\x57\0\0" + forms.number(size, 4), length))
                for size, length in sizes]
    if command == "replay":
        return [(["replay"], text) for text in schedules.long_texts(corpus)] + [(["replay"], Zeros(b"", 16777217))]
    return [(["sample", "1"], Zeros(b"", 134217729))]


def trial(random, corpus, command, number):
    """Return the words, as bytes, and the input of one trial."""
    if number % RARE == RARE - 1:
        inputs = long_inputs(corpus, command)
        words, content = inputs[number // RARE % len(inputs)]
        return [word.encode() for word in words], content
    words, content = TRIALS[command](random, corpus, command)
    words = [word.encode() for word in words]
    if random.random() < 0.1:
        words = change_words(random, words)
    return words, content
