"""Finds what is wrong with the report of a schedule, or with the refusal of a text that is no schedule."""
import json
import re

from forms import AXES

NUMBER = r"(?:0|[1-9][0-9]*)"
ID = r"[0-9a-f]{64}"
HEX = r"(?:-|(?:[0-9a-f]{2})+)"
AXIS = r"(?:primary|secondary)"
COUNTS = rf"counted {NUMBER}|"
LINES = re.compile("|".join([
    rf"register {ID} (?:until {NUMBER}|refused past|refused moving)",
    rf"write {ID} stored {NUMBER} bytes {HEX}",
    rf"send {NUMBER} (?:absent|ignored|malformed|unregistered|no-metadata|unverified|held|stored)",
    rf"ack {NUMBER} {ID} (?:unregistered|expires|declined|already|{COUNTS}certified {NUMBER})",
    rf"attest {NUMBER} {ID} (?:unregistered|expires|declined|already|{COUNTS}invalid {NUMBER})",
    rf"read {ID} (?:bytes {HEX}|reject|short {NUMBER} of {NUMBER}|no-metadata)",
    rf"recover {NUMBER} {AXIS} {ID} (?:absent|ignored|unregistered|no-metadata|sliver {HEX}|inconsistent|proof"
    rf"|short {NUMBER} of {NUMBER})",
    rf"forget {NUMBER} {ID} (?:absent|ignored|declined|done)",
    rf"begin (?:epoch {NUMBER}|refused moving|refused last-epoch)",
    rf"ready {NUMBER} (?:refused not-moving|declined|already|{COUNTS[:-1]})",
    rf"finish (?:epoch {NUMBER}|waiting {NUMBER}|refused not-moving)",
    rf"certificate {ID} (?:epoch {NUMBER} count {NUMBER}|pending {NUMBER})",
    rf"holders {ID} {NUMBER}"]).encode())
REFUSED_SCHEDULE = re.compile(rb"not json\n|bad schedule\n|too many events\n|bad event ([1-9][0-9]*)\n")


NO_JSON = object()


def line_fault(line, corpus):
    """Return what is wrong with a line: its form, or a content that is not the blob of the honest writer."""
    if not LINES.fullmatch(line):
        return "a line of another form"
    words = line.decode().split(" ")
    subject = next((corpus.by_identifier[bytes.fromhex(word)] for word in words
                    if len(word) == 64 and bytes.fromhex(word) in corpus.by_identifier), None)
    if subject is None:
        return None
    if words[0] in ("read", "write") and "bytes" in words:
        told = "" if words[-1] == "-" else words[-1]
        return None if subject.blob is not None and subject.blob.hex() == told else "another blob than the writer's"
    if subject.blob is None:
        return None
    if words[-1] in ("reject", "inconsistent", "proof"):
        return "an honest writer is found to be false"
    if words[0] == "recover" and words[-2] == "sliver":
        axis = AXES.index(words[2])
        sliver = subject.content(axis, subject.held(axis, int(words[1])))
        return None if sliver.hex() == words[-1] else "another sliver than the writer's"
    return None


def events_in(schedule):
    events = schedule.get("events") if isinstance(schedule, dict) else None
    return events if isinstance(events, list) else []


def refusal_fault(schedule, sure, text):
    found = REFUSED_SCHEDULE.fullmatch(text)
    if not found:
        return "a refusal of another form"
    if schedule is NO_JSON:
        return None if text == b"not json\n" else "a text that is no JSON was read on"
    if text == b"not json\n":
        return "JSON is refused as no JSON" if sure else None
    if found[1] and not 1 <= int(found[1]) <= len(events_in(schedule)):
        return "no event has this number"
    return None


def no_constant(name):
    raise ValueError(name)


def read_json(content):
    """Return the value, or `NO_JSON` if this surely is no JSON; and whether the verdict is sure."""
    try:
        text = content.decode()
        value = json.loads(text, parse_constant=no_constant)
    except (ValueError, RecursionError):
        return NO_JSON, True
    plain = not re.search(r"\\u[dD][89a-fA-F]|[0-9][eE]|[0-9]{300}", text)
    return value, bool(plain) and depth_of(text) <= 127


def depth_of(text):
    """Return how deep brackets nest at most; those in strings count too."""
    depth = most = 0
    for character in text:
        if character in "[{":
            depth += 1
            most = max(most, depth)
        elif character in "]}":
            depth -= 1
    return most
