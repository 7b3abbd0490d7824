"""Trials of images and bundles: parts for a journal, changed images, members, and payloads about their columns."""
import forms
import images
import mutation
from forms import PRIMARY, SECONDARY

MOST = 134217728  # bytes of a disk


def some(random, items):
    return random.sample(items, random.randrange(len(items) + 1))


def enveloped(random, payloads):
    return [(random.randrange(4), payload) for payload in payloads]


def hostile_stream(random, corpus, payloads):
    """Return a stream of these payloads, some of them changed."""
    envelopes = mutation.change_envelopes(random, enveloped(random, payloads), corpus)
    return mutation.change_stream(random, forms.join(envelopes))


# Images.

def parts(random, corpus):
    """Return payloads, many of which have a part to store, of one blob or several."""
    subject = random.choice(corpus.subjects)
    payloads = [subject.metadata] + some(random, subject.slivers()) + some(random, subject.proofs)
    payloads += some(random, random.sample(corpus.payloads, 12)) if random.random() < 0.5 else []
    axis, content = random.choice([PRIMARY, SECONDARY]), random.randbytes(random.randrange(9))
    payloads.append(forms.sliver(subject.identifier, axis, 0, content))
    random.shuffle(payloads)
    return payloads


def image_trial(random, corpus, command):
    """Return a trial with a disk that has the needed room, a little more or less, or any."""
    content = hostile_stream(random, corpus, parts(random, corpus))
    _, whole = images.image_of(MOST, [payload for _, payload in forms.split(content)[0]])
    size = len(whole)
    room = random.choice([size, size, size - 1, size + 1, size - random.randrange(99), 1, 40])
    room = random.randrange(1, size + 1) if random.random() < 0.3 else room
    return ["image", str(MOST if random.random() < 0.01 else max(1, room))], content


def any_record(random, names):
    """Return a record of any kind; most are lawful by themselves."""
    kind = random.choice([images.PUT] * 4 + [images.DROP_PART] * 2 + [images.DROP_ALL])
    size = random.choice([1, 1, 2, 3, 7, 39, random.randrange(1, 300)]) if kind == images.PUT else 0
    part = 0 if kind == images.DROP_ALL else random.randrange(4)
    if random.random() < 0.03:
        kind, part, size = random.choice([0, 1, 2, 3, 4, 255]), random.randrange(6), random.randrange(3)
    return images.record(kind, random.choice(names), part, random.randbytes(size))


def unpack_trial(random, corpus, command):
    """Return a trial with an image as the program writes it, or of any records, or of bytes; then it is changed."""
    chance = random.random()
    if chance < 0.1:
        return ["unpack"], random.choice([b"", b"\0", b"\1"]) + random.randbytes(random.randrange(90))
    if chance < 0.5:
        _, image = images.image_of(MOST, parts(random, corpus))
    else:
        names = [random.randbytes(32) for _ in range(random.randrange(1, 5))] + [bytes(32), b"\xff" * 32]
        image = b"".join(any_record(random, names) for _ in range(random.randrange(12))) + b"\0"
    for _ in range(random.choice([0, 0, 1, 1, 2])):
        image = random.choice([mutation.change_text, cut_record, set_number])(random, image)
    return ["unpack"], image + random.choice([b"", b"", b"\0", b"\1", random.randbytes(50)])


def cut_record(random, image):
    """Return the image after a crash: only a prefix of the last record was written, and its gate is closed."""
    starts = places(image)
    place = random.choice(starts)
    return image[:place] + b"\0" + image[place + 1:random.randrange(place, len(image) + 1)]


def places(image):
    """Return the places at which records begin, as far as they are whole."""
    found = [0]
    while len(image) >= found[-1] + 39 and image[found[-1]] == 1:
        found.append(found[-1] + 39 + forms.value_of(image[found[-1] + 35:found[-1] + 39]))
    return [place for place in found if place < len(image)] or [0]


def set_number(random, image):
    """Set a gate, kind, part or size of a record to a limit."""
    place = random.choice(places(image))
    at, size = random.choice([(0, 1), (1, 1), (34, 1), (35, 4)])
    old = forms.value_of(image[place + at:place + at + size])
    return image[:place + at] + mutation.limit_number(random, size, old) + image[place + at + size:]


# Bundles.

def lengths_of(random, faults):
    count = random.choice([0, 1, 2, 2 * faults - 1, 2 * faults, 2 * faults + 1, random.randrange(2 * faults + 2)])
    most = random.choice([1, 2, 9, 40, 40, 400, 3000])
    return [random.randrange(most + 1) for _ in range(count)]


def bundle_trial(random, corpus, command):
    faults = random.choice([1, 1, 1, 2, 2, 3, 4, 11] + [333] * (random.random() < 0.1))
    members = [random.randbytes(length) for length in lengths_of(random, faults)]
    if random.random() < 0.01:
        members += [bytes(random.choice([16777216, 11184808, 11184809, 5592404, 5592405]))]
    envelopes = enveloped(random, members)
    changed = mutation.change_envelopes(random, envelopes, corpus) if random.random() < 0.3 else envelopes
    return ["bundle", str(faults)], mutation.change_stream(random, forms.join(changed))


def lie(random, payload):
    return payload[:40] + mutation.change_byte(random, payload[40:])


def column_of(random, subject, index):
    """Return payloads about a column: its sliver, a false one, openings, too few or some of them false, or nothing."""
    sliver, opened = subject.sliver(SECONDARY, index), subject.openings(SECONDARY, index)
    false = [lie(random, opening) for opening in some(random, opened)]
    return random.choice([[sliver], [sliver], [lie(random, sliver)], [lie(random, sliver), sliver], opened, opened[1:],
                          false + opened, opened + [lie(random, sliver)], some(random, opened), []])


def bundle_of(random, corpus):
    """Return mostly a bundle, or else one with a false index or writer, or a blob that is no bundle."""
    chance = random.random()
    return random.choice(corpus.bundles if chance < 0.7 else corpus.forged if chance < 0.9 else corpus.subjects)


def member_trial(random, corpus, command):
    """Return a trial with the metadata, and payloads about the columns."""
    subject = bundle_of(random, corpus)
    payloads = [subject.metadata] * random.choice([0] + [1] * 10 + [2])
    for index in range(subject.shards):
        payloads += [subject.sliver(SECONDARY, index)] if random.random() < 0.6 else column_of(random, subject, index)
    payloads += some(random, random.choice(corpus.subjects).slivers()) if random.random() < 0.1 else []
    random.shuffle(payloads)
    count = forms.value_of(subject.blob[:2]) if subject.blob else 2
    number = random.choice([0, 1, 65535]) if random.random() < 0.1 else random.randrange(min(count, 9) + 1)
    return ["member", subject.identifier.hex(), str(number)], hostile_stream(random, corpus, payloads)


TRIALS = {"image": image_trial, "unpack": unpack_trial, "bundle": bundle_trial, "member": member_trial}
