"""Tells which command lines match a command."""
import re

def is_number(word, least, most):
    return bool(re.fullmatch(rb"0|[1-9][0-9]*", word)) and least <= int(word) <= most


def is_identifier(word):
    return bool(re.fullmatch(rb"[0-9A-Fa-f]{64}", word))


COMMANDS = [
    "id F",
    "encode F",
    "read ID",
    "recover ID AXIS INDEX",
    "check ID",
    "serve F SHARD",
    "replay",
    "sample NUMBER",
    "image BYTES",
    "unpack",
    "bundle F",
    "member ID K",
    "challenge ID SHARD BEACON COUNT",
    "verify ID SHARD BEACON COUNT",
    "gateway CAPACITY",
]
AUDIT = [is_identifier, lambda word: is_number(word, 0, 999), is_identifier, lambda word: is_number(word, 1, 1000)]
ROWS = {
    b"id": [lambda word: is_number(word, 1, 333)],
    b"encode": [lambda word: is_number(word, 1, 333)],
    b"read": [is_identifier],
    b"check": [is_identifier],
    b"recover": [is_identifier, lambda word: word in (b"primary", b"secondary"), lambda word: is_number(word, 0, 999)],
    b"serve": [lambda word: is_number(word, 1, 333), lambda word: is_number(word, 0, 999)],
    b"replay": [],
    b"sample": [lambda word: is_number(word, 0, 2**64 - 1)],
    b"image": [lambda word: is_number(word, 1, 134217728)],
    b"unpack": [],
    b"bundle": [lambda word: is_number(word, 1, 333)],
    b"member": [is_identifier, lambda word: is_number(word, 0, 65535)],
    b"challenge": AUDIT,
    b"verify": AUDIT,
    b"gateway": [lambda word: is_number(word, 1, 64)],
}
OPTIONS = {b"--format": lambda word: word in (b"1", b"2"), b"--pages": lambda word: is_number(word, 1, 262144),
           b"--blobs": lambda word: is_number(word, 1, 65536)}


def without_options(words):
    """Return the words that are no options, and the options; None for both if the options are not plainly valid."""
    values, options, place = [], {}, 0
    while place < len(words):
        name, equals, value = words[place].partition(b"=")
        if not name.startswith(b"-"):
            values.append(words[place])
        elif name not in OPTIONS or name in options or not (equals or place + 1 < len(words)):
            return None, None
        else:
            place += not equals
            options[name] = value if equals else words[place]
            if options[name].startswith(b"-") or not options[name]:
                return None, None
        place += 1
    return values, options


def is_row(values, options):
    if not values or values[0] not in ROWS or len(values) != 1 + len(ROWS[values[0]]):
        return False
    fits = all(test(value) for test, value in zip(ROWS[values[0]], values[1:]))
    if fits and values[0] == b"serve":
        fits = int(values[2]) <= 3 * int(values[1])
    return fits and all(OPTIONS[name](value) for name, value in options.items())


def is_text(words):
    try:
        b"\n".join(words).decode()
        return True
    except UnicodeDecodeError:
        return False
