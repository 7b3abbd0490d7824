"""The kinds of frames by their numbers, the fields of requests and answers, and answers in words."""

from typing import NamedTuple, Union

METADATA = 0x10  # parts of a blob, which a writer stores and a shard may return
SLIVER = 0x11
OPENING = 0x12
PROOF = 0x13
SECOND_METADATA = 0x14  # the metadata of format two
READ = 0x20  # requests to a shard
SYMBOL = 0x21
ACK = 0x22
ATTEST = 0x23
FORGET = 0x24
ANSWER = 0x30  # the ends of a reply
CLASH = 0x31
REGISTER_ENTRY = 0x40  # entries of a ledger
ACK_ENTRY = 0x41
ATTEST_ENTRY = 0x42
KINDS = {METADATA: "metadata", SLIVER: "sliver", OPENING: "opening", PROOF: "proof"}  # the parts of a reply

PRIMARY = 0  # the axes of slivers
SECONDARY = 1
AXES = ("primary", "secondary")
SLIVERS = [f"{axis} sliver" for axis in AXES]

DONE = 0  # codes of answers
UNVERIFIED = 2
MALFORMED = 9
HELD = 11
COUNTS = (12, 13, 14)  # the codes for an acknowledgement or attestation that counts
LEDGER_AWAY = 10, 1  # the code and the first number if a node's ledger is away

LARGEST_BLOB = 16_777_216
MOST_FAULTS = 333
MOST_UNTIL = 65_536
CAUSES = ("truncated", "bad kind", "bad field", "trailing", "no request", "no shard of this f", "too long for this f")
WORDS = "done/unregistered/unverified/no metadata/clash/declined/full, {0} pages needed, {1} free/no memory/expires/"
WORDS += "malformed/no room in the ledger/held/already/counted {0}/quorum of {0}/past"

Read = NamedTuple("Read", [("identifier", bytes)])
Symbol = NamedTuple("Symbol", [("identifier", bytes), ("axis", int), ("index", int)])
Ack = NamedTuple("Ack", [("identifier", bytes)])
RegisterEntry = NamedTuple("RegisterEntry", [("identifier", bytes), ("until", int)])
AckEntry = NamedTuple("AckEntry", [("shard", int), ("identifier", bytes)])
Answer = NamedTuple("Answer", [("code", int), ("first", int), ("second", int)])
Clash = NamedTuple("Clash", [("payload", bytes)])  # in place of an answer: a hash collision, two texts with one digest


class Fault(ValueError):
    """The first fault in bytes, from the left: its name, and its place if that is known."""


def in_words(end: Union[Answer, Clash]) -> str:
    """Returns in words what the end of a reply says."""
    code, first, second = end if isinstance(end, Answer) else (4, 0, 0)  # 4 stands for a clash: no answer has that code
    if (code, first) == LEDGER_AWAY:
        return "the ledger is away"
    cause = f": {CAUSES[first - 1]}" if code == MALFORMED and 1 <= first <= len(CAUSES) else ""
    return WORDS.split("/")[code].format(first, second) + cause
