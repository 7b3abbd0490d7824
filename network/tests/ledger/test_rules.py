"""The rules of the ledger, compared with the lines that the proved core prints for the same entries."""
import asyncio
import contextlib
import json
import os
import random
import subprocess
import tempfile
import tracemalloc
import unittest
import zlib
from typing import Optional
from unittest import mock

from support import harness
from support.rules_case import COMMITTEES, RulesCase, random_entries
from walrus.network.ledger import rules
from walrus.network.ledger.entries import OPERATOR, Chain, Entry, entry_key, fitting, number
from walrus.network.ledger.rules import Ledger
from walrus.network.ledger.state import State
from walrus.network.peers.engine import find_program


class Rules(RulesCase):
    @unittest.skipUnless(os.access(find_program(), os.X_OK), "the program is not built")
    def test_random_entries_have_the_lines_of_the_core(self) -> None:
        seen = set()
        for seed in range(30):
            steps = harness.trace_run.Trace({}, faulty="abcde")  # their word counts, whatever they hold
            drawn = random_entries(random.Random(seed), COMMITTEES)
            known = [
                it for it in drawn if it.words[1] != "expel"
            ]  # after which blobs end, which the core does not know
            found = [step for it in known for step in steps.enter(it)]
            text = json.dumps({**steps.head, "events": [step.event for step in found]}).encode()
            ran = subprocess.run([find_program(), "replay"], input=text, stdout=subprocess.PIPE)
            self.assertEqual((ran.returncode, ran.stdout.decode().splitlines()), (0, [step.line for step in found]))
            seen |= {tuple(word for word in step.line.split() if word.isalpha()) for step in found}
        words = {word for line in seen for word in line}
        wanted = {"certified", "invalid", "already", "expires", "unregistered", "moving", "past", "waiting", "counted"}
        self.assertLessEqual(wanted, words)

    def test_as_many_as_fit_are_taken_and_one_at_least(self) -> None:
        for texts, most, taken in (
            ("aa bb cc", 4, "aa bb"),
            ("aa bb cc", 5, "aa bb"),
            ("aaaa b", 3, "aaaa"),
            ("", 3, ""),
        ):
            self.assertEqual(fitting(texts.split(), most), taken.split())

    def test_what_is_no_entry_is_void(self) -> None:
        ledger = Ledger()
        founded = entry_key(OPERATOR, "begin", 0, 1, "a,b,c,d")
        self.assertIsNone(ledger.apply(Entry(1, entry_key("a", "begin", 0, 1, "a,b,c,d"))))
        self.assertIsNone(ledger.apply(Entry(2, entry_key(OPERATOR, "begin", 0, 1, "a,b,c"))))
        self.assertEqual(ledger.apply(Entry(3, founded)), "founded")
        for key in (
            "a/ack/0",
            "a/ack/00/" + "00" * 32,
            "a/ack/0/" + "0G" * 32,
            "/ack/0",
            "//",
            "x",
            "",
            "a/finish/0/1",
        ):
            self.assertIsNone(ledger.apply(Entry(4, key)))
        for text in ("65537", "-1", "01", "", "1 ", "٣"):
            self.assertIsNone(ledger.apply(Entry(5, f"a/register/{'00' * 32}/{text}")))
        self.assertEqual([number(text, 9) for text in ("0", "9", "10", "x")], [0, 9, None, None])
        self.assertEqual([number(text, 10**12) for text in ("9" * 12, "9" * 5_000)], [10**12 - 1, None])
        for key in ("a/address/::1/7", "a/address/host.example/65535", f"{OPERATOR}/share/b/9", f"{OPERATOR}/expel/a"):
            self.assertEqual(ledger.apply(Entry(6, key)), "entered", key)
        self.assertEqual((ledger.addresses, ledger.shares), ({"a": ("host.example", 65_535)}, {"b": 9}))

    def test_nobody_but_the_operator_keeps_a_blob_for_more_than_a_thousand_epochs(self) -> None:
        """A recorder takes no such entry; those that are in a ledger count."""
        ledger = Ledger()
        ledger.apply(Entry(1, entry_key(OPERATOR, "begin", 0, 1, "a,b,c,d")))
        entry = [
            Entry(2, f"{name}/register/{'00' * 32}/{until}") for name in ("x", OPERATOR) for until in (1_000, 1_001)
        ]
        said = [ledger.fork().refused(it) for it in entry]
        self.assertEqual(said, ["", "a blob is kept for at most 1000 epochs, so now until epoch 1000", "", ""])
        self.turn(ledger, 1)
        self.assertEqual([ledger.fork().refused(it) for it in entry], [""] * 4)
        self.assertEqual(ledger.apply(Entry(9, f"x/register/{'00' * 32}/65536")), "until 65536")

    def test_what_only_expelled_names_keep_ends_with_the_next_epoch(self) -> None:
        """What others keep too stays for as long as they want, in whatever order they came, and for nobody longer."""
        for moving in (False, True):
            with self.subTest(moving=moving), contextlib.closing(State()) as kept:
                ledger, names = kept.ledger, [f"{number:064x}" for number in range(6)]
                texts = [entry_key(OPERATOR, "begin", 0, 1, "a,b,c,d")]
                for name, keepers in zip(names, ("x900", "x900 y5", "y5 x900", "x2 y900", "x900 z800 y5", "x1")):
                    texts += [entry_key(it[0], "register", name, it[1:]) for it in keepers.split()]
                texts += [entry_key(OPERATOR, "begin", 1, 1, "a,b,c,d")] * moving
                texts += [entry_key(OPERATOR, "expel", name) for name in "zx"]
                for place, text in enumerate(texts, 1):
                    self.assertTrue(ledger.apply(Entry(place, text)), text)
                last = 1 + moving
                known = [(it.until, it.poster) for it in map(ledger.blobs.__getitem__, map(bytes.fromhex, names))]
                wanted = [(last, "x"), (5, "y"), (5, "y"), (900, "y"), (5, "y"), (1, "x")]
                self.assertEqual(known, wanted)
                kept.save(Chain(len(texts), bytes(32)))
                with contextlib.closing(State()) as taken:
                    asyncio.run(taken.take([zlib.compress(it) for it in kept.written()]))
                    self.same(ledger, taken.ledger)
                for epoch in range(1, last + 1):
                    if epoch == 1 and moving:
                        for text in [*(entry_key(it, "ready", 1) for it in "abc"), entry_key("a", "finish", 1)]:
                            ledger.apply(Entry(ledger.revision + 1, text))
                    else:
                        self.turn(ledger, epoch)
                self.assertEqual(sorted(it.hex() for it in ledger.blobs), names[1:5])
                self.assertEqual(ledger.posted, {"y": 4})

    @mock.patch.object(rules, "ROOM", 1_000)
    def test_a_poster_has_its_share_and_no_more(self) -> None:
        ledger = Ledger()
        ledger.apply(Entry(1, entry_key(OPERATOR, "begin", 0, 1, "a,b,c,d")))
        share = ledger.share("x")
        self.assertEqual((share, ledger.share("a"), ledger.share(OPERATOR)), (200,) * 3)
        names = [number.to_bytes(32, "big").hex() for number in range(share + 1)]
        for place, name in enumerate(names[:-1]):
            until = 2 + place % 2  # half of them expire with the epoch
            self.assertEqual(ledger.apply(Entry(2 + place, entry_key("x", "register", name, until))), f"until {until}")
        self.assertIsNone(ledger.apply(Entry(2 + share, entry_key("x", "register", names[-1], 9))))
        self.assertIsNone(ledger.apply(Entry(2 + share, entry_key("x", "register", names[0], 9))))
        self.assertEqual((len(ledger.blobs), ledger.revision), (share, 1 + share))
        self.assertEqual(ledger.apply(Entry(3 + share, entry_key("y", "register", names[-1], 9))), "until 9")
        self.turn(ledger, 1)
        self.assertEqual((ledger.epoch, ledger.posted["x"]), (1, share))
        self.turn(ledger, 2)
        self.assertEqual((ledger.epoch, ledger.posted["x"]), (2, share // 2))
        ledger.apply(Entry(9 + share, entry_key(OPERATOR, "share", "x", share // 2)))
        self.assertIsNone(ledger.apply(Entry(9 + share, entry_key("x", "register", names[-1], 10))))
        ledger.apply(Entry(9 + share, entry_key(OPERATOR, "share", "x", share // 2 + 1)))
        self.assertEqual(ledger.apply(Entry(9 + share, entry_key("x", "register", names[-1], 10))), "until 10")
        self.assertEqual(ledger.shares, {"x": share // 2 + 1})
        ledger.apply(Entry(9 + share, entry_key(OPERATOR, "expel", "x")))
        self.assertEqual(ledger.shares, {})
        self.assertIsNone(ledger.apply(Entry(9 + share, entry_key("x", "register", names[-1], 11))))
        self.assertEqual((ledger.posted["x"], len(ledger.blobs)), (0, share // 2 + 1))

    def test_a_longer_time_counts_on_the_share_of_who_asked_for_it(self) -> None:
        with tempfile.TemporaryDirectory() as folder:
            kept = State(f"{folder}/kept")
            for ledger in (Ledger(), kept.ledger):
                ledger.apply(Entry(1, entry_key(OPERATOR, "begin", 0, 1, "a,b,c,d")))
                blob = "11" * 32
                for poster, until in (("x", 2), ("y", 9), ("z", 9), ("x", 5)):
                    self.assertIsNotNone(ledger.apply(Entry(2, entry_key(poster, "register", blob, until))))
                    ledger.blobs.posters()  # it is in the database
                self.assertEqual(+ledger.posted, {"x": 2, "y": 1, "z": 1})
                self.turn(ledger, 1)
                self.assertEqual(+ledger.posted, {"y": 1})
            kept.save(Chain(1, bytes(32)))
            taken = State()
            asyncio.run(taken.take([zlib.compress(it) for it in kept.written()]))
            self.same(kept.ledger, taken.ledger)
            self.assertEqual(taken.ledger.blobs.posters(), {"y": 1})
            kept.close()

    def test_an_entry_has_a_greatest_length(self) -> None:
        for last, count in ((17, 5), (18, 0)):
            key = entry_key(OPERATOR, "begin", 0, 1, ",".join(["x" * 60] * 268 + ["x" * last]))
            self.assertEqual((len(key), len(Entry(1, key).words)), (16_367 + last, count))

    def test_long_entries_are_not_kept_as_they_were_read(self) -> None:
        tracemalloc.start()
        self.addCleanup(tracemalloc.stop)
        before = tracemalloc.get_traced_memory()[0]
        for count in range(1_000):
            self.assertEqual(Entry(1, f"{count}/" + "x" * 16_000).words, [])
        self.assertLess(tracemalloc.get_traced_memory()[0] - before, 2**21)

    def test_a_fork_says_what_the_ledger_will_say_and_leaves_it_as_it_is(self) -> None:
        owners, words = [list("abcd"), list("abce"), list("aabb")], set[Optional[str]]()
        for seed in range(20):
            drawn, ledger, waiting = random.Random(seed), Ledger(), list[tuple[Entry, Optional[str]]]()
            fork, before = ledger.fork(), repr(vars(ledger))
            for entry in random_entries(drawn, owners):
                word = fork.apply(entry)
                waiting.append((entry, word))
                if fork.epoch != ledger.epoch or drawn.random() < 0.1:
                    self.assertEqual(repr(vars(ledger)), before)
                    self.assertEqual([ledger.apply(it) for it, _ in waiting], [word for _, word in waiting])
                    words |= {word for _, word in waiting}
                    fork, before, waiting = ledger.fork(), repr(vars(ledger)), []
        self.assertGreater(len(words), 20)

    def test_a_node_has_more_than_f_shards_only_if_the_operator_says_so(self) -> None:
        ledger, concentrated = Ledger(), entry_key(OPERATOR, "begin", 0, 2, "a,a,a,b,c,d,e")
        self.assertIsNone(ledger.apply(Entry(1, concentrated)))
        self.assertIsNone(ledger.apply(Entry(2, entry_key("a", "concentrated", 0))))
        self.assertEqual(ledger.apply(Entry(3, entry_key(OPERATOR, "concentrated", 1))), "entered")
        self.assertIsNone(ledger.apply(Entry(4, concentrated)))
        self.assertEqual(ledger.apply(Entry(5, entry_key(OPERATOR, "begin", 0, 2, "a,a,b,b,c,d,e"))), "founded")
        self.assertEqual(ledger.apply(Entry(6, entry_key(OPERATOR, "begin", 1, 2, "a,a,a,b,c,d,e"))), "epoch 1")

    def test_who_is_past_an_epoch_says_so_once_while_it_has_shards(self) -> None:
        ledger = Ledger()
        ledger.apply(Entry(1, entry_key(OPERATOR, "begin", 0, 1, "a,b,c,d")))
        self.turn(ledger, 1)
        for key, word in (("a/past/0", None), ("a/past/2", None), ("e/past/1", None), ("a/past/1", "entered")):
            self.assertEqual(ledger.apply(Entry(9, key)), word, key)
        self.assertEqual(ledger.apply(Entry(9, "a/past/1")), "already")
        ledger.apply(Entry(9, entry_key(OPERATOR, "begin", 2, 1, "b,c,d,e")))
        self.assertEqual(ledger.apply(Entry(9, "e/past/1")), "entered")
        for key in [*(entry_key(it, "ready", 2) for it in "bcd"), entry_key("b", "finish", 2)]:
            ledger.apply(Entry(9, key))
        self.assertEqual((ledger.epoch, ledger.past), (2, {"e": 1}))

    def test_a_calendar_is_kept_and_binds_nobody(self) -> None:
        with tempfile.TemporaryDirectory() as folder:
            kept = State.open(f"{folder}/ledger")
            ledger = kept.ledger
            ledger.apply(Entry(1, entry_key(OPERATOR, "begin", 0, 1, "a,b,c,d")))
            self.assertIsNone(ledger.planned(3))
            self.assertIsNone(ledger.apply(Entry(2, "a/calendar/0/1/1")))
            self.assertIsNone(ledger.apply(Entry(2, f"{OPERATOR}/calendar/0/100000000/1")))
            self.assertEqual(ledger.apply(Entry(2, f"{OPERATOR}/calendar/2/29000000/60")), "entered")
            kept.save(Chain(2, bytes(32)))
            kept.close()
            kept = State.open(f"{folder}/ledger")
            ledger = kept.ledger
            self.assertEqual([ledger.planned(epoch) for epoch in (0, 2, 5)], [28_999_880, 29_000_000, 29_000_180])
            ledger.apply(Entry(3, entry_key(OPERATOR, "begin", 1, 1, "a,b,c,d")))
            for name in "abc":
                ledger.apply(Entry(4, entry_key(name, "ready", 1)))
            self.assertEqual(ledger.apply(Entry(5, entry_key("a", "finish", 1))), "epoch 1")
            self.assertEqual(ledger.apply(Entry(6, f"{OPERATOR}/calendar/0/0/0")), "entered")
            self.assertIsNone(ledger.planned(2))
            kept.close()

    def test_who_is_not_in_the_committee_has_no_word(self) -> None:
        ledger = Ledger()
        ledger.apply(Entry(1, entry_key(OPERATOR, "begin", 0, 1, "a,b,c,d")))
        ledger.apply(Entry(2, entry_key("x", "register", "00" * 32, 2)))
        self.assertIsNone(ledger.apply(Entry(3, entry_key("x", "ack", 0, "00" * 32))))
        self.assertEqual(ledger.apply(Entry(4, entry_key("a", "ack", 0, "00" * 32))), "counted 1")
        self.assertEqual(ledger.apply(Entry(5, entry_key("a", "ack", 0, "00" * 32))), "already")
