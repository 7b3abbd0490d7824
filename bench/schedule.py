#!/usr/bin/env python3
"""Writes a schedule as JSON on standard output.

    schedule.py KIND COUNT [REPORT]

KIND is words, writes, recoveries, handovers, expire-none, expire-half, expire-all or epochs: at most COUNT events, for
f = 1. Or it is blobs: a write to no shard of each of COUNT blobs that these use; the report of its replay is the REPORT
from which the other kinds take the blobs' identifiers. Or it is large: a blob of COUNT bytes is written to 1,000 shards
and read from them, or written to none if there is no REPORT.
"""
import json
import sys

SHARDS = [0, 1, 2, 3]
TRUE_REPLIES = [{"true": shard, "at": "now"} for shard in SHARDS]


def blob(number):
    return number.to_bytes(12, "big").hex()


def register(identifier, until=65536):
    return {"do": "register", "id": identifier, "until": until}


def write(number, to):
    return {"do": "write", "blob": blob(number), "to": to}


def ack(shard, identifier):
    return {"do": "ack", "shard": shard, "id": identifier}


def recover(at, shard, axis, identifier):
    replies = [reply for reply in TRUE_REPLIES if reply["true"] != shard]
    return {"do": "recover", "at": at, "shard": shard, "axis": axis, "id": identifier, "replies": replies}


def blobs(count):
    return [write(number, []) for number in range(count)]


def words(count):
    """Return registrations, each with acknowledgements by four faulty shards."""
    events = []
    for number in range(count // 5):
        identifier = (number * 2654435761 % 2**32).to_bytes(32, "little").hex()
        events += [register(identifier)] + [ack(shard, identifier) for shard in SHARDS]
    return events


def writes(count, identifiers):
    events = []
    for number in range(count // 3):
        identifier = identifiers[number]
        events += [register(identifier), write(number, SHARDS), {"do": "read", "id": identifier, "replies": TRUE_REPLIES}]
    return events


def recoveries(count, identifiers):
    """Return events for blobs that three shards store, and of which the fourth recovers both slivers."""
    events = []
    for number in range(count // 4):
        identifier = identifiers[number]
        events += [register(identifier), write(number, SHARDS[:3])]
        events += [recover("now", 3, axis, identifier) for axis in ("secondary", "primary")]
    return events


def handovers(count, identifiers):
    """Return events for certified blobs and 16 epoch changes, in each of which one shard begins empty and recovers."""
    changes = 16
    kept = (count - changes * 6) // (2 * changes + 6)
    events = []
    for number in range(kept):
        identifier = identifiers[number]
        events += [register(identifier), write(number, SHARDS)] + [ack(shard, identifier) for shard in SHARDS]
    for change in range(changes):
        new = change % 4
        events.append({"do": "begin", "faulty": [], "stays": [shard for shard in SHARDS if shard != new]})
        for axis in ("secondary", "primary"):
            events += [recover("next", new, axis, identifiers[number]) for number in range(kept)]
        events += [{"do": "ready", "shard": shard} for shard in SHARDS] + [{"do": "finish"}]
    return events


def expiring(count, identifiers, until, changes):
    """Return events that store blobs and then change the epoch, with all shards staying. `until` gives the epoch in
    which a blob expires, by its number and the number of blobs."""
    kept = (count - 6 * changes) // 2
    events = []
    for number in range(kept):
        events += [register(identifiers[number], until(number, kept)), write(number, SHARDS)]
    for _ in range(changes):
        events.append({"do": "begin", "faulty": [], "stays": SHARDS})
        events += [{"do": "ready", "shard": shard} for shard in SHARDS] + [{"do": "finish"}]
    return events


EXPIRING = {  # the epoch in which a blob expires, by its number, and the number of epoch changes
    "expire-none": (lambda number, kept: 65536, 2),
    "expire-half": (lambda number, kept: 2 if number < kept // 2 else 65536, 2),
    "expire-all": (lambda number, kept: 2, 2),
    "epochs": (lambda number, kept: 1 + number % 64, 64),
}


def large(size, identifiers):
    """Return events for one blob at 1,000 shards; without its identifier, only a write to no shard."""
    shards = list(range(1000))
    content = bytes(number * 37 % 251 for number in range(size)).hex()
    if not identifiers:
        return [{"do": "write", "blob": content, "to": []}]
    replies = [{"true": shard, "at": "now"} for shard in shards]
    return [
        register(identifiers[0]),
        {"do": "write", "blob": content, "to": shards},
        {"do": "read", "id": identifiers[0], "replies": replies},
    ]


def identifiers_of(path):
    with open(path, encoding="ascii") as report:
        return [line.split()[1] for line in report if line.startswith("write ")]


def main():
    kind, count = sys.argv[1], int(sys.argv[2])
    identifiers = identifiers_of(sys.argv[3]) if len(sys.argv) > 3 else []
    if kind in ("blobs", "words"):
        events = {"blobs": blobs, "words": words}[kind](count)
    elif kind in EXPIRING:
        events = expiring(count, identifiers, *EXPIRING[kind])
    else:
        kinds = {"writes": writes, "recoveries": recoveries, "handovers": handovers, "large": large}
        events = kinds[kind](count, identifiers)
    schedule = {
        "f": 333 if kind == "large" else 1,
        "epoch": 0,
        "faulty": SHARDS if kind == "words" else [],
        "events": events,
    }
    json.dump(schedule, sys.stdout, separators=(",", ":"))


if __name__ == "__main__":
    main()
