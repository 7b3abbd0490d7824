"""Tests of schedules and reports as the pictures read them: python3 -m unittest, in this folder.

Those on the program use the variable WALRUS, or crates/walrus/out/walrus."""
import json
import unittest
from typing import Any

from timeline_case import (
    ACK,
    BEGIN,
    BLOB,
    FINISH,
    NAMES,
    READ,
    READY,
    content,
    needs_program,
    report,
    run_replay,
    schedule_of,
    story,
    tell,
)
import walrus_timeline as timeline
from walrus_timeline_report import Span
from walrus_timeline_schedule import Fault, read_schedule

# A text that is no schedule, with what the program says, the line at fault and words that say why.
REFUSED = [
    (b"", "not json", 1, "the end stands where a value should"),
    (b'{"f": 1,\n"epoch": 0,\n}', "not json", 3, '"}" stands where a key should'),
    (b'{"f": 1,\n"epoch" 0}', "not json", 2, "stands where : should"),
    (b'{"f": 01}', "not json", 1, '"1" stands where , or } should'),
    (b'{"f": 1}\n\n]', "not json", 3, '"]" stands where the end should'),
    (b'\n{"f": "a\tb"}', "not json", 2, "stands where a value should"),
    (b'{"f": "\\ud800"}', "not json", 1, "half of a surrogate pair"),
    (b'{"f":\n\n"\xff"}', "not json", 3, "not UTF-8"),
    (b"{}\n@", "not json", 2, '"@" stands where the end should'),
    (b'{"f": NaN}', "not json", 1, '"N" stands where a value should'),
    (b'{"f": 1e400}', "not json", 1, "too large"),
    (b"\n" + b"[" * 128 + b"]" * 128, "not json", 2, "more than 127 deep"),
    (b"[" * 127 + b"]" * 127, "bad schedule", 1, "not an object"),
    (b'\n{"f": 1}', "bad schedule", 2, 'key "epoch" is missing'),
    (schedule_of(f=0), "bad schedule", 1, 'key "f" is not a number from 1 to 333'),
    (schedule_of(f=1.0), "bad schedule", 1, 'key "f" is not'),
    (schedule_of(f=True), "bad schedule", 1, 'key "f" is not'),
    (schedule_of(epoch=65536), "bad schedule", 1, 'key "epoch" is not a number from 0 to 65535'),
    (schedule_of(faulty=[1, 1]), "bad schedule", 1, 'key "faulty" is not numbers from 0 to 3 that ascend'),
    (schedule_of(format=3), "bad schedule", 1, 'key "format" is not a number from 1 to 2'),
    (schedule_of(owners=[0, 1, 2]), "bad schedule", 1, 'key "owners" is not numbers from 0 to 3, 4 of them'),
    (schedule_of(owners=[0, 0, 1, 1]), "bad schedule", 1, 'key "faulty" lacks shard 2 of node 1'),
    (schedule_of(seed=1), "bad schedule", 1, 'key "seed" is not one of f, epoch'),
    (b'{"f": 1, "epoch": 0, "faulty": [],\n"events": [1]}', "bad schedule", 2, 'key "events" is not a list of objects'),
    (schedule_of(*[FINISH] * 65537), "too many events", 65538, "event 65537 begins here"),
    (schedule_of(FINISH, {}), "bad event 2", 3, 'key "do" is missing'),
    (schedule_of(FINISH, {"do": "end"}), "bad event 2", 3, 'key "do" is not one of register'),
    (schedule_of(ACK, {**ACK, "shard": 4}), "bad event 2", 3, 'key "shard" is not a number from 0 to 3'),
    (schedule_of(ACK, {**ACK, "id": BLOB[1:]}), "bad event 2", 3, 'key "id" is not 64 hexadecimal digits'),
    (schedule_of(ACK, {**ACK, "at": "now"}), "bad event 2", 3, 'key "at" is not one of do, shard, id'),
    (schedule_of({"do": "ready"}), "bad event 1", 2, 'key "shard" is missing'),
    (schedule_of({**READY, "shard": -1}), "bad event 1", 2, 'key "shard" is not'),
    (schedule_of({**READ, "replies": [{"bytes": ""}, {"true": 0}]}), "bad event 1", 2, 'reply 2: key "at" is missing'),
    (
        schedule_of({**READ, "replies": [{"bytes": "f"}]}),
        "bad event 1",
        2,
        'reply 1: key "bytes" is not pairs of hexadecimal',
    ),
    (schedule_of({**READ, "replies": [{"bytes": ""}] * 4097}), "bad event 1", 2, 'key "replies" is not a list'),
    (schedule_of({"do": "write", "blob": "00", "to": [1, 0]}), "bad event 1", 2, 'key "to" is not numbers'),
    (schedule_of({"do": "register", "id": BLOB, "until": 65537}), "bad event 1", 2, 'key "until" is not'),
    (schedule_of({**BEGIN, "faulty": [0], "owners": [0, 0, 0, 0]}), "bad event 1", 2, 'key "faulty" lacks shard 1'),
]
FITTING = [
    schedule_of(),
    schedule_of(format=2, owners=[3, 3, 3, 0], faulty=[3]),
    schedule_of({**READ, "id": BLOB.upper()}, {**READ, "replies": []}, {**BEGIN, "owners": [0, 0, 0, 0]}),
    schedule_of({"do": "write", "blob": "", "to": []}, {"do": "register", "id": BLOB, "until": 65536}),
    b'{"\\u0066": 1, "epoch": -0, "epoch": 0, "faulty": [], "events": [{"do": "holders", "do": "finish"}]}',
]


class Schedules(unittest.TestCase):
    def test_the_key_and_the_line_at_fault(self) -> None:
        for text, said, line, why in REFUSED:
            with self.subTest(said=said, why=why):
                with self.assertRaises(Fault) as caught:
                    read_schedule(text)
                self.assertEqual(caught.exception.args[0], line)
                self.assertTrue(caught.exception.args[1].startswith(f"{said}: "), caught.exception.args)
                self.assertIn(why, caught.exception.args[1])

    def test_what_fits_is_read(self) -> None:
        for text in FITTING + list(map(content, NAMES)):
            schedule, _ = read_schedule(text)
            self.assertEqual(schedule, json.loads(text))

    def test_a_key_that_stands_twice_is_told(self) -> None:
        text = b'{"f": 2, "epoch": 0, "faulty": [],\n"f": 1, "events": [\n{"do": "ready",\n"shard": 9, "shard": 1}]}'
        schedule, warnings = read_schedule(text)
        self.assertEqual((schedule["f"], schedule["events"][0]["shard"]), (1, 1))
        told = "warning: key {} stands twice, and its last value counts"
        self.assertEqual(warnings, [f"2: {told.format(json.dumps('f'))}", f"4: {told.format(json.dumps('shard'))}"])

    @needs_program
    def test_the_program_says_the_same(self) -> None:
        for text, said, _, _ in REFUSED:
            self.assertEqual(run_replay(text), (8, f"{said}\n"))
        for text in FITTING:
            status, told = run_replay(text)
            self.assertEqual(status, 0, text)
            tell(text, told)


# A change of a line of a report, the line where it parts from the schedule, and words that say why.
PARTED = [
    ("handover", "ack 1 ", "ack 2 ", 4, "event 4 is to be ack 1 e02b"),
    ("handover", "ack 2 e0", "ack 2 e1", 5, "event 5 is to be ack 2 e02b"),
    ("handover", "ready 2 declined", "ready 2 stored", 8, "event 8 is to be ready 2 refused"),
    ("handover", "recover 3 secondary", "recover 3 primary", 10, "event 10 is to be recover 3 secondary"),
    ("handover", "begin epoch 1", "begin epoch 2", 7, "event 7 cannot come to epoch 2"),
    ("handover", "begin epoch 1", "begin refused moving", 7, "event 7 cannot come to refused moving"),
    ("handover", "begin epoch 1", "begin refused last-epoch", 7, "event 7 cannot come to refused last-epoch"),
    ("handover", "finish waiting 2", "finish refused not-moving", 15, "event 15 cannot come to"),
    ("handover", "finish waiting 2", "finish waiting", 15, "event 15 is to be finish epoch N"),
    ("handover", " until 5", " until 4", 1, "event 1 cannot come to until 4"),
    ("handover", " until 5", " refused past", 1, "event 1 cannot come to refused past"),
    ("handover", " until 5", " refused moving", 1, "event 1 cannot come to refused moving"),
    ("handover", "finish epoch 1", "finish epoch 2", 17, "event 17 cannot come to epoch 2"),
    ("expiry", "refused past", "until 1", 15, "event 15 cannot come to until 1"),
    ("handover", " 000100020003000400050006", " 000100020003000400050007", 2, "event 2 writes other bytes, 0001"),
    ("handover", "holders e", "holders  e", 6, "event 6 is to be holders e02b"),
    ("handover", "holders e", "holders -e", 6, "event 6 is to be holders e02b"),
    ("handover", "finish waiting 2\n", "", 15, "event 15 is to be finish"),
    ("handover", "finish waiting 2\n", "finish waiting 2\n\n", 16, "event 16 is to be ready 3"),
    ("handover", "sliver 00030006", "ignored", 9, "event 9 cannot come to ignored"),
    ("handover", "sliver 00030006", "absent", 9, "event 9 cannot come to absent"),
    ("handover", "sliver 00030006", "sliver 0003000", 9, "event 9 is to be recover 2 secondary"),
    ("handover", "begin epoch 1", "collision 00 01", 7, "event 7 is to be begin"),
    ("handover", "finish epoch 1\n", "finish epoch 1", 17, "event 17 is to be finish"),
    ("honest", "bytes 000100020003000400050006\nack", "bytes 000100020003000400050006\r\nack", 2, "event 2 is to be"),
    ("bad_encoding", "send 2 stored\n", "collision 00 01\n", 9, "the run has ended before this line"),
]


class Reports(unittest.TestCase):
    def assert_parts(self, name: str, text: str, line: int, why: str) -> None:
        with self.assertRaises(Fault) as caught:
            tell(content(name), text)
        self.assertEqual(caught.exception.args[0], line)
        self.assertIn(why, caught.exception.args[1])

    def test_a_report_is_refused_where_it_parts(self) -> None:
        for name, old, new, line, why in PARTED:
            with self.subTest(new=new):
                self.assertIn(old, report(name))
                self.assert_parts(name, report(name).replace(old, new, 1), line, why)

    def test_a_report_of_another_length_is_refused(self) -> None:
        for name in NAMES:
            lines = report(name).splitlines(keepends=True)
            count = len(lines)
            self.assert_parts(name, "".join(lines[:-1]), count, "the report ends too early")
            self.assert_parts(name, "".join(lines + lines[-1:]), count + 1, "the run has ended before this line")
            self.assert_parts(name, "".join(lines)[:-1], count, "the report ends too early")
        self.assert_parts("honest", "", 1, "the report ends too early")

    def test_a_report_of_another_schedule_is_refused(self) -> None:
        for name in NAMES:
            for other in NAMES:
                with self.subTest(name=name, other=other):
                    if name == other:
                        self.assertEqual(len(story(name).steps), len(report(name).splitlines()))
                    else:
                        self.assertRaises(Fault, tell, content(name), report(other))

    def test_a_run_ends_in_a_collision(self) -> None:
        front = report("honest").rsplit("read", 1)[0]
        told = tell(content("honest"), f"{front}collision 00ff 01\n")
        self.assertEqual([told.steps[-1].outcome, told.steps[-1].blob], ["collision", BLOB])
        lines = report("honest").splitlines(keepends=True)
        told = tell(content("honest"), f"{lines[0]}collision 00 01\n")
        self.assertEqual([step.outcome for step in told.steps], ["done", "collision"])
        self.assertIn("#collision", timeline.picture(told, 0, 2, "honest"))

    def test_what_came_of_the_handover(self) -> None:
        told = story("handover")
        self.assertEqual(
            told.spans,
            [
                Span(0, 0, False, {"now": {3}, "next": set()}),
                Span(6, 0, True, {"now": {3}, "next": {0}}),
                Span(16, 1, False, {"now": {0}, "next": set()}),
            ],
        )
        outcomes = {step.number: step.outcome for step in told.steps if step.outcome != "done"}
        self.assertEqual(outcomes, {8: "refused", 15: "short"})
        self.assertEqual(told.phases(BLOB), [(0, 4, "registered"), (4, 19, "certified")])
        self.assertEqual(told.summary(BLOB, 4), "until 5")
        self.assertEqual(told.summary(BLOB, 19), "until 5, certified by 3, 3 hold it, 1 read")
        self.assertEqual(told.steps[1].others, [("now", 0), ("now", 1), ("now", 2)])
        self.assertEqual(told.steps[6].others, [("next", 1)])
        self.assertEqual((told.steps[9].lane, told.steps[9].others), (("next", 3), [("now", 1), ("now", 2)]))

    def test_what_came_of_the_others(self) -> None:
        told = {name: story(name) for name in NAMES}
        outcomes = {
            name: {step.number: step.outcome for step in told[name].steps if step.outcome != "done"} for name in told
        }
        self.assertEqual(outcomes["honest"], {})
        self.assertEqual(outcomes["expiry"], {7: "refused", 8: "refused", 13: "short", 15: "refused"})
        self.assertEqual(outcomes["bad_encoding"], {2: "refused", 12: "rejected", 13: "refused", 16: "rejected"})
        self.assertEqual(outcomes["too_many_faults"], {7: "short"})
        self.assertEqual(told["expiry"].phases(BLOB), [(0, 4, "registered"), (4, 11, "certified")])
        [blob] = told["bad_encoding"].blobs
        self.assertEqual(told["bad_encoding"].phases(blob), [(0, 11, "registered"), (11, 16, "invalid")])

    def test_a_blob_is_registered_anew(self) -> None:
        register: dict[str, Any] = {"do": "register", "id": BLOB}
        ready = [{**READY, "shard": shard} for shard in (0, 1, 2)]
        events = [{**register, "until": 1}, {**register, "until": 2}, BEGIN, *ready, FINISH, BEGIN, *ready, FINISH]
        schedule = schedule_of(*events, {**register, "until": 9}, faulty=[])
        change = "begin epoch {0}\nready 0 counted 1\nready 1 counted 2\nready 2 counted 3\nfinish epoch {0}\n"
        lines = [f"register {BLOB} until {epoch}\n" for epoch in (1, 2, 9)]
        told = tell(schedule, lines[0] + lines[1] + change.format(1) + change.format(2) + lines[2])
        self.assertEqual(told.phases(BLOB), [(0, 11, "registered"), (12, 13, "registered")])

    def test_a_shard_on_another_node_is_not_carried(self) -> None:
        stays = {"do": "begin", "faulty": [1], "stays": [0, 1, 2, 3], "owners": [0, 1, 3, 3]}
        told = tell(schedule_of(stays, faulty=[]), "begin epoch 1\n")
        self.assertEqual(told.steps[0].others, [("next", 0), ("next", 3)])


if __name__ == "__main__":
    unittest.main()
