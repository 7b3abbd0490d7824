"""A second implementation of `gateway`: a list of kept blobs, the last used first; on a miss the answer of `read`."""
import forms


def is_get(payload):
    return len(payload) == 41 and payload[0] == forms.GET


def found(blob, start, size):
    if start + size > len(blob):
        return b"out of range %d\n" % len(blob)
    return b"range " + (blob[start:start + size].hex().encode() or b"-") + b"\n"


def run_of(capacity, payloads, ask):
    """Return status and text of a run over these payloads. `ask(words, content)` returns the program's answer."""
    kept, text, replies = [], b"", []
    for payload in payloads:
        if not is_get(payload):
            replies.append((0, payload))
            continue
        identifier, start, size = payload[1:33], forms.value_of(payload[33:37]), forms.value_of(payload[37:])
        hits = [blob for name, blob in kept if name == identifier]
        status, said = (0, hits[0]) if hits else ask(["read", identifier.hex()], forms.join(replies))
        text += b"hit " if hits else b"miss "
        if status == 0:
            kept = ([(identifier, said)] + [pair for pair in kept if pair[0] != identifier])[:capacity]
            said = found(said, start, size)
        elif status == 10:
            return 10, said
        text, replies = text + said, []
    return 0, text
