"""Reads a schedule as `walrus replay` does, and tells which key on which line is at fault where it is none."""

import json
import math
import re
from typing import Any

DEEPEST, MOST_EVENTS, MOST_REPLIES = 127, 65536, 4096
STRING = r'"(?:[^"\\\x00-\x1f]++|\\(?:["\\/bfnrt]|u[0-9a-fA-F]{4}))*+"'
NUMBER = r"-?(?:0|[1-9][0-9]*+)(?:\.[0-9]++)?(?:[eE][+-]?[0-9]++)?"
TOKEN = re.compile(rf"[ \t\n\r]*+([][{{}},:]|{STRING}|{NUMBER}|true|false|null|\Z)?")
VALUE, HALVES, DECODER = '[{"-0123456789tfn', re.compile("[\ud800-\udfff]"), json.JSONDecoder(parse_int=float)
RANGES = {"f": (1, 333), "epoch": (0, 65535), "format": (1, 2), "until": (0, 65536)}
DIGITS = {"id": (64, 64), "blob": (0, 1 << 25), "bytes": (0, math.inf)}
SIZES = {"id": "64 hexadecimal digits", "blob": "digits of 16 MiB at most", "bytes": "pairs of hexadecimal digits"}
LACKS = "absent|ignored|unregistered|no-metadata"
# The letter of each kind of event, its keys besides `do`, and how its lines end: N is a number, HEX bytes or -.
KINDS = {
    "register": ("R", "id until", "until N|refused past|refused moving"),
    "write": ("W", "blob to", "stored N bytes HEX"),
    "send": ("S", "at shard bytes", f"{LACKS}|malformed|unverified|held|stored"),
    "ack": ("A", "shard id", "unregistered|expires|declined|already|counted N|certified N"),
    "attest": ("T", "shard id", "unregistered|expires|declined|already|counted N|invalid N"),
    "read": ("D", "id replies", "bytes HEX|reject|short N of N|no-metadata"),
    "recover": ("V", "at shard axis id replies", f"{LACKS}|sliver HEX|inconsistent|proof|short N of N"),
    "forget": ("F", "at shard id", "absent|ignored|declined|done"),
    "begin": ("B", "faulty stays owners", "epoch N|refused moving|refused last-epoch"),
    "ready": ("Y", "shard", "refused not-moving|declined|already|counted N"),
    "finish": ("N", "", "epoch N|waiting N|refused not-moving"),
    "certificate": ("C", "id", "epoch N count N|pending N"),
    "holders": ("H", "id", "N"),
}
TEXTS = {"at": ["now", "next"], "axis": ["primary", "secondary"], "do": list(KINDS)}
HEAD, SPARE = "f epoch faulty events format owners", ("format", "owners")  # the keys of a schedule; what may be missing


class Object(dict[str, Any]):
    """An object, and where it and its keys begin in the text."""

    def __init__(self, start: int):
        self.start, self.places = start, dict[str, int]()


class Fault(Exception):
    """The place or the line where a text is at fault, and why."""


class Reader:
    """Reads JSON; `twice` has the place and the name of each key that its object had already."""

    def __init__(self, text: str):
        self.text, self.place, self.twice = text, 0, list[tuple[int, str]]()

    def token(self, begins: str, name: str = "a value") -> str:
        """The next token, which is to begin with one of these characters, or the end; `place` is behind it."""
        found = TOKEN.match(self.text, self.place)
        token, self.place = (found[1], found.end()) if found else (None, 0)
        if token is None or not (token[0] in begins if token else not begins):
            place = self.place - len(token or "")
            there = json.dumps(self.text[place]) if place < len(self.text) else "the end"
            raise Fault(place, f"{there} stands where {name} should")
        return token

    def value(self, token: str, depth: int = DEEPEST) -> Any:
        start = self.place - len(token)
        if token in "[{" and not depth:
            raise Fault(start, f"values nest more than {DEEPEST} deep")
        if token in "[{":
            return self.items(depth - 1) if token == "[" else self.members(Object(start), depth - 1)
        if token.isdigit() and len(token) <= 20 and int(token) < 2**64:
            return int(token)
        if token[0] == '"' and "\\" not in token:
            return token[1:-1]
        value = DECODER.decode(token)  # a number that is negative, has more than 64 bits or a point is a float
        if value in (math.inf, -math.inf) or isinstance(value, str) and HALVES.search(value):
            raise Fault(start, "a number is too large" if token[0] != '"' else "a text has half of a surrogate pair")
        return value

    def items(self, depth: int) -> list[Any]:
        items, token = [], self.token(VALUE + "]", "a value or ]")
        while token != "]":
            items.append(self.value(token, depth))
            token = self.token(",]", ", or ]") == "," and self.token(VALUE) or "]"
        return items

    def members(self, found: Object, depth: int) -> Object:
        token = self.token('"}', "a key or }")
        while token != "}":
            start, key = self.place - len(token), self.value(token)
            self.twice += [(start, key)] * (key in found)
            self.token(":", ":")
            found[key], found.places[key] = self.value(self.token(VALUE), depth), start
            token = self.token(",}", ", or }") == "," and self.token('"', "a key") or "}"
        return found


def is_whole(value: Any, least: float, most: float) -> bool:
    return type(value) is int and least <= value <= most


def what_is_wrong(key: str, value: Any, count: int) -> str:
    """What the value of a key is not, for so many shards; nothing where it is what it should be."""
    least, most = RANGES.get(key, DIGITS.get(key, (0, count - 1)))
    if key in TEXTS:
        fits, name = value in TEXTS[key], f"one of {', '.join(TEXTS[key])}"
    elif key in DIGITS:
        fits = isinstance(value, str) and least <= len(value) <= most and len(value) % 2 == 0
        fits, name = fits and not re.search("[^0-9a-fA-F]", value), SIZES[key]
    elif key in ("replies", "events"):
        fits = isinstance(value, list) and (len(value) <= MOST_REPLIES or key == "events")
        name = f"a list of objects, at most {MOST_REPLIES if key == 'replies' else MOST_EVENTS}"
        fits = fits and all(isinstance(item, Object) for item in value)
    elif key in ("faulty", "stays", "to", "owners"):
        fits = isinstance(value, list) and all(is_whole(shard, 0, most) for shard in value)
        fits = fits and (len(value) == count if key == "owners" else all(map(int.__lt__, value, value[1:])))
        name = f"numbers from 0 to {most}" + (f", {count} of them" if key == "owners" else " that ascend")
    else:
        fits, name = is_whole(value, least, most), f"a number from {least} to {most}"
    return "" if fits else f'key "{key}" is not {name}'


def check(found: Object, keys: list[str], count: int, front: str = "") -> None:
    """Raises `Fault` where an object has not exactly these keys, spare ones aside, each with what it should be."""
    for key in [*found, *keys]:
        if key not in keys:
            raise Fault(found.places[key], f"{front}key {json.dumps(key)} is not one of {', '.join(keys)}")
        if key not in found and key not in SPARE:
            raise Fault(found.start, f'{front}key "{key}" is missing')
        if key in found and (wrong := what_is_wrong(key, found[key], count)):
            raise Fault(found.places[key], front + wrong)
    for number, reply in enumerate(found.get("replies", []), 1):
        check(reply, ["true", "at"] if "true" in reply else ["bytes"], count, f"reply {number}: ")
    nodes, faulty = found.get("owners", range(count)), set(found.get("faulty", []))
    bad = {nodes[shard] for shard in faulty}
    for shard in range(count) if bad else ():
        if nodes[shard] in bad and shard not in faulty:
            why = f"lacks shard {shard} of node {nodes[shard]}, which is faulty"
            raise Fault(found.places["faulty"], f'key "faulty" {why}')


def read_schedule(content: bytes) -> tuple[Any, list[str]]:
    """The schedule that a text is, and a warning for each key that stands twice; or raises `Fault`."""
    reader, said = Reader(content.decode(errors="surrogateescape")), "not json"
    try:
        if bad_byte := HALVES.search(reader.text):
            raise Fault(bad_byte.start(), "a byte is not UTF-8")
        schedule = reader.value(reader.token(VALUE))
        reader.token("", "the end")
        said = "bad schedule"
        if not isinstance(schedule, Object):
            raise Fault(0, "the text is not an object")
        count = 3 * schedule["f"] + 1 if is_whole(schedule.get("f"), 1, 333) else 1000
        check(schedule, HEAD.split(), count)
        if len(schedule["events"]) > MOST_EVENTS:
            said = "too many events"
            raise Fault(schedule["events"][MOST_EVENTS].start, f"event {MOST_EVENTS + 1} begins here")
        for number, event in enumerate(schedule["events"], 1):
            said, kind = f"bad event {number}", event.get("do")
            if wrong := what_is_wrong("do", kind, count):
                raise Fault(event.places.get("do", event.start), wrong if "do" in event else 'key "do" is missing')
            check(event, ["do", *KINDS[kind][1].split()], count)
    except Fault as fault:
        raise Fault(reader.text.count("\n", 0, fault.args[0]) + 1, f"{said}: {fault.args[1]}") from None
    twice = [(reader.text.count("\n", 0, place) + 1, json.dumps(key)) for place, key in reader.twice]
    return schedule, [f"{line}: warning: key {key} stands twice, and its last value counts" for line, key in twice]
