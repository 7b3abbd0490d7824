"""Tries what the program writes for schedules: python3 -m unittest.

What is expected is worked by hand or computed by tests/worked.py over hashlib.
"""

import json
import pathlib
import unittest

from rows import Row, Rows, run
from test_pages import needs_program
from worked import AXES, HONEST, PRIMARY, SECOND, SECONDARY, SIX_WORDS

DATA = pathlib.Path(__file__).resolve().parent / "data"
I, SECOND_ID = HONEST.id.hex(), SECOND.id.hex()


def now(*shards: int) -> list[dict[str, object]]:
    return [{"true": shard, "at": "now"} for shard in shards]


def event(name: str, **fields: object) -> dict[str, object]:
    return {"do": name, **fields}


def schedule(*events: dict[str, object], **fields: object) -> bytes:
    return json.dumps({"f": 1, "epoch": 0, "faulty": [], "events": events} | fields).encode()


REGISTERED = event("register", id=I, until=5)
WRITTEN = event("write", blob=SIX_WORDS.hex(), to=[0, 1, 2])
NODES = [0, 0, 1, 2]  # shards 0 and 1 run on one node


def recover(shard: int, axis: int, *shards: int) -> dict[str, object]:
    return event("recover", at="next", shard=shard, axis=AXES[axis], id=I, replies=now(*shards))


# What happens, and the line of each event.
CERTIFIED_BY_NODES = [
    (REGISTERED, f"register {I} until 5"),
    (WRITTEN, f"write {I} stored 3 bytes {SIX_WORDS.hex()}"),
    (event("ack", shard=1, id=I), f"ack 1 {I} counted 2"),
    (event("ack", shard=0, id=I), f"ack 0 {I} already"),
    (event("ack", shard=2, id=I), f"ack 2 {I} certified 3"),
    (event("holders", id=I), f"holders {I} 3"),
]
NODES_HANDED_OVER = [
    *CERTIFIED_BY_NODES,
    (event("begin", owners=[0, 1, 1, 2], faulty=[], stays=[0, 1, 2]), "begin epoch 1"),
    (event("ready", shard=2), "ready 2 declined"),
    (recover(1, SECONDARY, 0, 2), f"recover 1 secondary {I} sliver 00020005"),
    (recover(1, PRIMARY, 0, 1, 2), f"recover 1 primary {I} sliver 000400050006"),
    (event("ready", shard=2), "ready 2 counted 2"),
    (event("finish"), "finish waiting 2"),
    (event("ready", shard=0), "ready 0 counted 3"),
    (event("finish"), "finish epoch 1"),
]
NODE_LACKS_SLIVERS = [
    (REGISTERED, f"register {I} until 5"),
    (event("write", blob=SIX_WORDS.hex(), to=[1, 2, 3]), f"write {I} stored 3 bytes {SIX_WORDS.hex()}"),
    (event("ack", shard=1, id=I), f"ack 1 {I} declined"),
    (event("ack", shard=2, id=I), f"ack 2 {I} counted 1"),
]
IN_SECOND_FORMAT = [
    (event("register", id=SECOND_ID, until=5), f"register {SECOND_ID} until 5"),
    (WRITTEN, f"write {SECOND_ID} stored 3 bytes {SIX_WORDS.hex()}"),
    (event("begin", faulty=[], stays=[]), "begin epoch 1"),
    (
        event("recover", at="next", shard=3, axis="secondary", id=SECOND_ID, replies=now(1, 2)),
        f"recover 3 secondary {SECOND_ID} sliver 00010004",
    ),
]
# One event of a schedule whose f is 1, and whether it is one.
FINISH = '{"do":"finish"}'
EVENTS = [
    ('{"do":"ready","shard":3}', True),
    ('{"do":"ready","shard":4}', False),
    ('{"do":"ready","shard":65536}', False),
    ('{"do":"ready","shard":-1}', False),
    ('{"do":"ready","shard":1e0}', False),
    ('{"do":"ready"}', False),
    ('{"do":"finish","more":0}', False),
    ('{"do":"start","do":"finish"}', True),
    ('{"do":"finish","do":"start"}', False),
    ('{"do":"write","blob":"","to":[]}', True),
    ('{"do":"write","blob":"","to":[1,1]}', False),
    ('{"do":"write","blob":"","to":[2,1]}', False),
    ('{"do":"write","blob":"0g","to":[]}', False),
    ('{"do":"write","blob":"abc","to":[]}', False),
    ('{"do":"send","at":"now","shard":0,"bytes":"000"}', False),
    ('{"do":"begin","owners":[0,0,1,2],"faulty":[0],"stays":[]}', False),
    ('{"do":"begin","owners":[0,0,1],"faulty":[],"stays":[]}', False),
    ('{"do":"register","id":"%s","until":65536}' % I, True),
    ('{"do":"register","id":"%s","until":65537}' % I, False),
    ('{"do":"register","id":"%s","until":4294967296}' % I, False),
    ('{"do":"holders","id":"%s"}' % I[2:], False),
]
# Texts that are no schedules.
BAD_SCHEDULES = [
    "{}",
    '{"f":1.0,"epoch":0,"faulty":[],"events":[]}',
    '{"f":1,"epoch":65536,"faulty":[],"events":[]}',
    '{"f":0,"epoch":0,"faulty":[],"events":[]}',
    '{"f":334,"epoch":0,"faulty":[],"events":[]}',
    '{"f":1,"epoch":0,"faulty":[4],"events":[]}',
    '{"f":1,"epoch":0,"faulty":[1,1],"events":[]}',
    '{"f":1,"epoch":0,"owners":[0,1,2,4],"faulty":[],"events":[]}',
    '{"f":1,"epoch":0,"owners":[0,0,1,2],"faulty":[0],"events":[]}',
    '{"f":1,"epoch":0,"format":3,"faulty":[],"events":[]}',
    '{"f":1,"epoch":0,"faulty":[],"events":[1]}',
    '{"f":1,"epoch":0,"faulty":[],"events":[],"more":0}',
    '{"f":1,"epoch":0,"faulty":[],"events":[],"f":0}',
]
HEAD = '{"f":1,"epoch":0,"faulty":[],"events":['
READS = HEAD + '{"do":"read","id":"%s","replies":[' % I
LONG_WRITE = HEAD + '{"do":"write","blob":"' + "00112233445566778899aAbBcCdDeEfF" * 1048576
# Texts at their limits, and what is told of them where they are refused.
LIMITS = [
    ("[" * 200, "not json"),
    (HEAD + (FINISH + ",") * 65536 + FINISH + "]}", "too many events"),
    (HEAD + (FINISH + ",") * 65536 + "{}]}", "too many events"),
    (HEAD + FINISH + ',{"do":"start"}]}', "bad event 2"),
    (READS + '{"bytes":""},' * 4096 + '{"bytes":""}]}]}', "bad event 1"),
    (LONG_WRITE, "too long"),
    ('{"f":333,"epoch":0,"faulty":[],"events":[{"do":"ready","shard":1000}]}', "bad event 1"),
]
TAKEN = [
    ('{"f":0,"epoch":0,"faulty":[],"events":[],"f":1}', ""),
    ('{"f":333,"epoch":65535,"faulty":[999],"events":[{"do":"ready","shard":999}]}', "ready 999 refused not-moving\n"),
    ('{"f":1,"epoch":0,"owners":[3,3,3,3],"faulty":[0,1,2,3],"events":[]}', ""),
    (HEAD + (FINISH + ",") * 65535 + FINISH + "]}", "finish refused not-moving\n" * 65536),
    (READS + '{"bytes":""},' * 4095 + '{"bytes":""}]}]}', f"read {I} no-metadata\n"),
]
# Each word of each event, as it stands behind the event's name in a line.
EVERY_WORD = {
    "register": ["until N", "refused past", "refused moving"],
    "write": ["stored N bytes HEX"],
    "send": ["absent", "ignored", "malformed", "unregistered", "no-metadata", "unverified", "held", "stored"],
    "ack": ["unregistered", "expires", "declined", "already", "counted N", "certified N"],
    "attest": ["unregistered", "expires", "declined", "already", "counted N", "invalid N"],
    "read": ["bytes HEX", "reject", "short N of N", "no-metadata"],
    "recover": [
        "absent",
        "ignored",
        "unregistered",
        "no-metadata",
        "sliver HEX",
        "inconsistent",
        "proof",
        "short N of N",
    ],
    "forget": ["absent", "ignored", "declined", "done"],
    "begin": ["epoch N", "refused moving", "refused last-epoch"],
    "ready": ["refused not-moving", "declined", "already", "counted N"],
    "finish": ["epoch N", "waiting N", "refused not-moving"],
    "certificate": ["epoch N count N", "pending N"],
    "holders": ["N"],
}
NAMED = {"send": 1, "ack": 2, "attest": 2, "recover": 3, "forget": 2, "ready": 1, "begin": 0, "finish": 0}


def word_of(line: str) -> tuple[str, str]:
    """The event of a line, and its word with N for each number and HEX for bytes."""
    name, *rest = line.split(" ")
    first = NAMED.get(name, 1)
    rest = rest[first:]
    hexadecimal = [place for place, part in enumerate(rest) if place and rest[place - 1] in ("bytes", "sliver")]
    plain = ["HEX" if place in hexadecimal else "N" if part.isdigit() else part for place, part in enumerate(rest)]
    return name, " ".join(plain)


@needs_program
class Replaying(Rows):
    def check_story(self, name: str, story: list[tuple[dict[str, object], str]], **fields: object) -> None:
        text = "".join(f"{line}\n" for _, line in story).encode()
        self.check(name, Row(["replay"], schedule(*[happens for happens, _ in story], **fields), (0, text)))

    def test_every_word(self) -> None:
        """One schedule whose lines have each word of each event."""
        report = (DATA / "every_word.report").read_bytes()
        self.check("every word", Row(["replay"], (DATA / "every_word.json").read_bytes(), (0, report)))
        words = {word_of(line) for line in report.decode().splitlines()}
        self.assertEqual(words, {(name, word) for name, words in EVERY_WORD.items() for word in words})

    def test_texts_in_the_gate(self) -> None:
        """The test of the same schedule in Rattle has its text and its report."""
        source = (DATA.parents[1] / "crates" / "test_program" / "src" / "replays.rt").read_text()
        for name in ("every_word.json", "every_word.report"):
            self.assertIn((DATA / name).read_text(), source)

    def test_nodes_with_several_shards(self) -> None:
        self.check_story("handover", NODES_HANDED_OVER, owners=NODES)
        self.check_story("a node lacks slivers", NODE_LACKS_SLIVERS, owners=NODES)
        self.check_story("second format", IN_SECOND_FORMAT, format=2)
        self.check("half", Row(["replay"], schedule(owners=NODES, faulty=[0]), (8, b"bad schedule\n")))

    def test_the_last_epoch(self) -> None:
        self.check_story("last", [(event("begin", faulty=[], stays=[]), "begin refused last-epoch")], epoch=65535)

    def test_schedules_that_are_refused(self) -> None:
        self.check("not JSON", Row(["replay"], b"{", (8, b"not json\n")))
        self.check("bad", *[Row(["replay"], text.encode(), (8, b"bad schedule\n")) for text in BAD_SCHEDULES])
        for text, is_event in EVENTS:
            with self.subTest(event=text):
                status, told = run(["replay"], f"{HEAD}{text}]}}".encode())
                self.assertEqual((status, told == b"bad event 1\n"), (0, False) if is_event else (8, True))

    def test_schedules_at_their_limits(self) -> None:
        refused = [
            Row(["replay"], text.encode(), (9 if told == "too long" else 8, f"{told}\n".encode()))
            for text, told in LIMITS
        ]
        self.check("refused", *refused)
        self.check("taken", *[Row(["replay"], text.encode(), (0, told.encode())) for text, told in TAKEN])


if __name__ == "__main__":
    unittest.main()
