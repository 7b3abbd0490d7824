"""Makes inputs hostile: changed bytes, truncations, wrong lengths and kinds, numbers at their limits."""
import forms

LIMITS = [0, 1, 2, 3, 4, 5, 9, 10, 11, 15, 16, 64, 65, 66, 127, 128, 255, 256, 332, 333, 334, 998, 999, 1000, 1001,
          32767, 32768, 65535, 65536, 65537, 16777215, 16777216, 16777217, 2**31 - 1, 2**31, 2**32 - 1, 2**32,
          2**63 - 1, 2**63, 2**64 - 1]


def limit_number(random, size, old):
    """Return a number of `size` bytes, at a limit or next to the old one."""
    chosen = random.choice([limit for limit in LIMITS if limit < 256**size] + [old + 1, old - 1] * 4)
    return forms.number(chosen % 256**size, size)


# Changes of one text of bytes.

def change_byte(random, text):
    if not text:
        return text
    place = random.randrange(len(text))
    return text[:place] + bytes([text[place] ^ random.choice([1, 2, 128, random.randrange(1, 256)])]) + text[place + 1:]


def set_byte(random, text):
    if not text:
        return text
    place = random.randrange(len(text))
    return text[:place] + bytes([random.choice([0, 1, 0x57, 0x7F, 0x80, 0xFF])]) + text[place + 1:]


def cut(random, text):
    return text[:random.randrange(len(text) + 1)]


def cut_front(random, text):
    return text[random.randrange(len(text) + 1):]


def cut_little(random, text):
    return text[:max(0, len(text) - random.randrange(1, 5))]


def remove(random, text):
    start = random.randrange(len(text) + 1)
    return text[:start] + text[start + random.randrange(1, 9):]


def insert(random, text):
    place = random.randrange(len(text) + 1)
    return text[:place] + random.randbytes(random.randrange(1, 9)) + text[place:]


def append(random, text):
    return text + random.randbytes(random.randrange(1, 9))


def repeat_part(random, text):
    start = random.randrange(len(text) + 1)
    end = min(len(text), start + random.randrange(1, 80))
    place = random.randrange(len(text) + 1)
    return text[:place] + text[start:end] + text[place:]


TEXT_CHANGES = [change_byte, set_byte, cut, cut_front, cut_little, remove, insert, append, repeat_part]


def change_text(random, text):
    return random.choice(TEXT_CHANGES)(random, text)


# Changes of one payload.

def exchange_kind(random, payload):
    return bytes([random.choice(forms.KINDS + [0, 0x0F, 0x15, 0x25, 0x43, 0xFF])]) + payload[1:]


def set_field(random, payload):
    """Set a number of the frame to a limit."""
    fields = [(place, size) for place, size in forms.FIELDS.get(payload[:1] and payload[0], [])
              if place + size <= len(payload)]
    if not fields:
        return change_text(random, payload)
    place, size = random.choice(fields)
    old = forms.value_of(payload[place:place + size])
    return payload[:place] + limit_number(random, size, old) + payload[place + size:]


def set_any_field(random, payload):
    """Set any bytes of the frame, as a number, to a limit."""
    size = random.choice([1, 2, 4, 8])
    if len(payload) < size:
        return payload
    place = random.randrange(len(payload) - size + 1)
    old = forms.value_of(payload[place:place + size])
    return payload[:place] + limit_number(random, size, old) + payload[place + size:]


PAYLOAD_CHANGES = [exchange_kind, set_field, set_field, set_field, set_any_field, change_text, change_text]


def change_payload(random, payload):
    return random.choice(PAYLOAD_CHANGES)(random, payload)


# Changes of a list of envelopes.

def drop(random, envelopes, corpus):
    place = random.randrange(len(envelopes))
    return envelopes[:place] + envelopes[place + 1:]


def repeat(random, envelopes, corpus):
    place = random.randrange(len(envelopes) + 1)
    return envelopes[:place] + [random.choice(envelopes)] * random.choice([1, 1, 1, 2, 40]) + envelopes[place:]


def swap(random, envelopes, corpus):
    changed = list(envelopes)
    left, right = random.randrange(len(changed)), random.randrange(len(changed))
    changed[left], changed[right] = changed[right], changed[left]
    return changed


def change_one(random, envelopes, corpus):
    changed = list(envelopes)
    place = random.randrange(len(changed))
    sender, payload = changed[place]
    changed[place] = sender, change_payload(random, payload)
    return changed


def change_sender(random, envelopes, corpus):
    changed = list(envelopes)
    place = random.randrange(len(changed))
    changed[place] = random.choice([0, 1, 3, 4, 999, 1000, 65535]), changed[place][1]
    return changed


def add_foreign(random, envelopes, corpus):
    """Add a payload from somewhere else."""
    payload = random.choice([random.choice(corpus.payloads), random.randbytes(random.randrange(60)), b""])
    place = random.randrange(len(envelopes) + 1)
    return envelopes[:place] + [(random.randrange(4), payload)] + envelopes[place:]


def exchange_identifier(random, envelopes, corpus):
    """Give one frame the identifier of another blob."""
    changed = list(envelopes)
    place = random.randrange(len(changed))
    sender, payload = changed[place]
    identifier = random.choice(corpus.subjects).identifier
    at = 3 if payload[:1] and payload[0] in (forms.ACK_ENTRY, forms.ATTEST_ENTRY) else 1
    changed[place] = sender, payload[:at] + identifier + payload[at + 32:]
    return changed


ENVELOPE_CHANGES = [drop, repeat, swap, change_one, change_one, change_one, change_one, change_sender, add_foreign,
                    exchange_identifier]


def change_envelopes(random, envelopes, corpus):
    for _ in range(random.choice([0, 1, 1, 1, 2, 3])):
        if envelopes:
            envelopes = random.choice(ENVELOPE_CHANGES)(random, envelopes, corpus)
    return envelopes


# Changes of a stream.

def change_length(random, stream):
    """Change the length of one envelope, but not its payload."""
    envelopes, _ = forms.split(stream)
    if not envelopes:
        return change_text(random, stream)
    chosen = random.randrange(len(envelopes))
    place = sum(7 + len(payload) for _, payload in envelopes[:chosen])
    old = forms.value_of(stream[place + 3:place + 7])
    return stream[:place + 3] + limit_number(random, 4, old) + stream[place + 7:]


def change_stream(random, stream):
    """Change some streams. Most stay whole, so that the program looks at their contents."""
    chance = random.random()
    if chance < 0.75:
        return stream
    return change_length(random, stream) if chance < 0.83 else change_text(random, stream)
