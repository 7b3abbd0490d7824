"""The state of a ledger in a database: at each place, start and checkpoint, and with a disk that is full or damaged."""
import asyncio
import contextlib
import hashlib
import io
import json
import pathlib
import random
import sqlite3
import tempfile
import time
import tracemalloc
import zlib
from typing import Any, Optional
from unittest import mock

from support.ledger_case import Plain
from support.rules_case import COMMITTEES, RulesCase, random_entries
from walrus.network.ledger import blobs, checkpoint, state
from walrus.network.ledger.entries import OPERATOR, Chain, Entry, entry_key
from walrus.network.ledger.rules import Ledger
from walrus.network.ledger.state import State


class States(RulesCase):
    def test_a_ledger_in_a_database_is_the_same_at_each_place_and_each_start(self) -> None:
        with tempfile.TemporaryDirectory() as folder, mock.patch.object(blobs, "CACHED", 2):
            for seed in range(8):
                drawn, ledger, chain = random.Random(seed), Ledger(Plain()), Chain(0, bytes(32))
                path = f"{folder}/{seed}"
                kept = State.open(path)
                for entry in random_entries(drawn, [list("abcd"), list("abce"), list("aabb")]):
                    self.assertEqual(kept.ledger.apply(entry), ledger.apply(entry), entry)
                    chain = chain.behind([entry.text])
                    if drawn.random() < 0.1:
                        kept.save(chain)
                        kept.close()
                        kept = State.open(path)
                        self.assertEqual(kept.chain, chain)
                    self.same(ledger, kept.ledger)
                kept.close()

    def test_a_checkpoint_at_each_place_leads_to_what_all_entries_lead_to(self) -> None:
        """A follower that loads it and hears what follows has the same ledger, and would write the same checkpoint."""
        with mock.patch.object(blobs, "CACHED", 3), mock.patch.object(checkpoint, "LONGEST", 200):
            for seed in range(3):
                drawn, whole, chain = random.Random(seed), State(), Chain(0, bytes(32))
                entries, others = random_entries(drawn, COMMITTEES)[:150], list[State]()
                for place, entry in enumerate(entries):
                    for each in (whole, *others):
                        each.ledger.apply(entry)
                    chain = chain.behind([entry.text])
                    for each in (whole, *others):
                        each.save(chain)
                    others.append(State())
                    pieces = [zlib.compress(it) for it in whole.written()]
                    asyncio.run(others[-1].take(pieces))
                    self.assertGreater(len(pieces), 1)
                    if place % 10 == 9:
                        for each in others:
                            self.same(whole.ledger, each.ledger)
                            self.assertEqual((each.chain, [*each.written()]), (chain, [*whole.written()]))
                for each in (whole, *others):
                    each.close()

    def test_pieces_that_come_are_on_the_disk_and_not_in_memory(self) -> None:
        pieces, gathered = [zlib.compress(random.randbytes(1_000_000)) for _ in range(30)], checkpoint.Pieces()
        self.addCleanup(gathered.clear)
        tracemalloc.start()
        self.addCleanup(tracemalloc.stop)
        for piece in pieces:
            gathered.add(piece)
        for piece, found in zip(pieces, gathered, strict=True):
            self.assertEqual(found, piece)
        self.assertLess(tracemalloc.get_traced_memory()[1], 6_000_000)

    def test_what_is_taken_replaces_all_and_tells_what_is_no_more(self) -> None:
        one, other, chain = State(tail=2), State(), Chain(0, bytes(32))
        names = [number.to_bytes(32, "big").hex() for number in range(3)]
        for each, kept in ((one, names[:2]), (other, names[1:])):
            each.ledger.apply(Entry(1, entry_key(OPERATOR, "begin", 0, 1, "a,b,c,d")))
            for place, name in enumerate(kept, 2):
                each.ledger.apply(Entry(place, entry_key("x", "register", name, 2)))
            each.save(chain.behind(kept))
        pieces = [zlib.compress(it) for it in other.written()]
        gathered = checkpoint.Pieces()
        self.addCleanup(gathered.clear)
        for piece in pieces * 2:
            for wrong in (piece[:-9], piece + b"\0", b"?" + piece):
                with self.assertRaisesRegex(checkpoint.Unfit, "a piece of the checkpoint is damaged"):
                    gathered.add(wrong)
            gathered.add(piece)
            self.assertEqual(len([*gathered]), len(gathered))
        text = b"".join(map(zlib.decompress, pieces))
        self.assertEqual(([*gathered], gathered.state), (pieces * 2, hashlib.sha256(text * 2).hexdigest()))
        asyncio.run(one.take(pieces))
        self.assertEqual(one.blobs.over(9), [])  # its time is not over, so its parts are not dropped before that
        self.assertNotIn(bytes.fromhex(names[0]), one.blobs)
        one.blobs.epoch = 2
        self.assertIn(bytes.fromhex(names[0]), one.blobs.over(9))
        one.blobs.epoch = 0
        self.same(one.ledger, other.ledger)

    def test_the_tail_reaches_back_behind_the_turn_before_the_last_one(self) -> None:
        with tempfile.TemporaryDirectory() as folder:
            kept, chain, entries, turns = State(f"{folder}/kept", 2), Chain(0, bytes(32)), list[Entry](), [0, 0]
            for entry in random_entries(random.Random(5), COMMITTEES):
                epoch = kept.ledger.epoch
                kept.ledger.apply(entry)
                chain = chain.behind([entry.text])
                turns += [chain.place] * (kept.ledger.epoch != epoch)
                entries.append(entry)
                kept.save(chain, [entry])
                self.assertEqual(kept.entries(), [it for it in entries if it.place > turns[-2]])
            self.assertGreater(len(turns), 4)
            kept.close()
            kept = State(f"{folder}/kept", 2)
            kept.ledger.apply(Entry(chain.place + 1, "x"))
            kept.save(chain.behind(["x"]), [Entry(chain.place + 1, "x")])
            self.assertEqual(
                kept.entries(), [*(it for it in entries if it.place > turns[-2]), Entry(chain.place + 1, "x")]
            )
            self.assertEqual(kept.entries(chain.place - 3, 3), entries[-3:])
            kept.close()

    def test_a_state_that_is_torn_or_another_s_is_not_believed(self) -> None:
        with tempfile.TemporaryDirectory() as folder:
            path = pathlib.Path(folder) / "kept"
            kept = State.open(str(path))
            kept.ledger.apply(Entry(1, entry_key(OPERATOR, "begin", 0, 1, "a,b,c,d")))
            kept.save(Chain(1, bytes(32)))
            other = State.open(str(path))  # as long as another process has it
            self.assertEqual((other.name, other.chain), ("", None))
            kept.close()
            whole = path.read_bytes()
            garbage, older = whole[:4096] + b"\xa5" * (len(whole) - 4096), whole[:60] + bytes(4) + whole[64:]
            with contextlib.closing(sqlite3.connect(path)) as base:  # a page that no start reads for its rows
                [(page,)] = base.execute("SELECT rootpage FROM sqlite_master WHERE name = 'blobs'")
            front, rest = whole[: 4096 * (page - 1)], whole[4096 * page :]  # noqa: E203
            for torn in (b"no database" * 500, garbage, older, front + b"\xa5" * 4096 + rest):
                path.write_bytes(torn)
                kept = State.open(str(path))
                self.assertEqual((kept.name, kept.chain, kept.ledger.now), (str(path), None, ()))
                kept.close()
            path.write_bytes(whole)
            kept = State.open(str(path))
            self.assertEqual((kept.chain, kept.ledger.now), (Chain(1, bytes(32)), ("a", "b", "c", "d")))
            kept.close()

    def test_a_state_stays_where_the_disk_is_full_at_a_start(self) -> None:
        """Or if it cannot be read or opened: only a damaged file is made anew."""
        with tempfile.TemporaryDirectory() as folder:
            path = pathlib.Path(folder) / "kept"
            kept = State.open(str(path))
            kept.ledger.apply(Entry(1, entry_key(OPERATOR, "begin", 0, 1, "a,b,c,d")))
            kept.save(Chain(1, bytes(32)))
            kept.close()
            whole = path.read_bytes()
            base = sqlite3.connect(path)  # another connection's lock, in place of a disk that takes nothing
            base.execute("BEGIN EXCLUSIVE")
            connect = sqlite3.connect
            with mock.patch.object(state.sqlite3, "connect", lambda *it, **to: connect(*it, **{**to, "timeout": 0})):
                with self.assertRaisesRegex(OSError, "kept cannot be opened: database is locked"):
                    State.open(str(path))
            base.close()
            path.with_name("kept-wal").mkdir()  # so that it cannot be opened
            with self.assertRaisesRegex(OSError, "kept cannot be opened: unable to open database file"):
                State.open(str(path))
            path.with_name("kept-wal").rmdir()
            self.assertEqual(path.read_bytes(), whole)
            kept = State.open(str(path))
            self.assertEqual(kept.chain, Chain(1, bytes(32)))
            kept.close()

    def test_what_is_kept_soon_is_kept_with_what_comes_meanwhile(self) -> None:
        with tempfile.TemporaryDirectory() as folder, mock.patch.object(state, "EACH", 3600.0):
            kept, chain = State(f"{folder}/kept", 2), Chain(0, bytes(32))

            def enter(*texts: str) -> int:
                """Applies these entries, and returns the place up to which another process then reads the state."""
                nonlocal chain
                for text in texts:
                    kept.ledger.apply(Entry(chain.place + 1, text))
                    chain = chain.behind([text])
                    kept.save(chain, [Entry(chain.place, text)], soon=True)
                with contextlib.closing(sqlite3.connect(f"{folder}/kept")) as base:
                    return int(json.loads(base.execute("SELECT value FROM told").fetchone()[0])["place"])

            owners, blobs = ",".join("abcd"), [entry_key("x", "register", f"{it:064}", 5) for it in range(3)]
            self.assertEqual(enter(entry_key(OPERATOR, "begin", 0, 1, owners)), 1)
            self.assertEqual((enter(*blobs), kept.whole), (1, False))
            self.assertEqual([it.text for it in kept.entries(1)], blobs)  # and can be asked for
            self.assertEqual((enter(), kept.whole), (4, True))
            turn = [entry_key(OPERATOR, "begin", 1, 1, owners), *(entry_key(it, "ready", 1) for it in "abc")]
            self.assertEqual(enter(*turn), 4)
            self.assertEqual((enter(entry_key("a", "finish", 1)), kept.ledger.epoch), (9, 1))
            enter(entry_key("a", "past", 1))
            kept.close()
            kept = State(f"{folder}/kept", 2)
            self.assertEqual((kept.chain, kept.ledger.past), (chain, {"a": 1}))
            kept.close()

    def test_a_full_disk_keeps_nobody_from_hearing_the_ledger(self) -> None:
        class Full(sqlite3.Connection):
            def execute(self, words: str, *values: Any) -> sqlite3.Cursor:
                if words == "COMMIT" and full:
                    super().execute("ROLLBACK")
                    raise sqlite3.OperationalError("database or disk is full")
                return super().execute(words, *values)

        full, connect = False, sqlite3.connect
        self.enterContext(mock.patch.object(blobs, "CACHED", 3))
        self.enterContext(mock.patch.multiple(state, LATER=0, REST=0))
        with tempfile.TemporaryDirectory() as folder:
            with mock.patch.object(state.sqlite3, "connect", lambda *it, **to: connect(*it, **to, factory=Full)):
                kept = State(f"{folder}/kept", 2)
            ledger, chain = Ledger(Plain()), Chain(0, bytes(32))
            for place, entry in enumerate(random_entries(random.Random(7), COMMITTEES)):
                full = place % 50 > 20
                self.assertEqual(kept.ledger.apply(entry), ledger.apply(entry))
                chain = chain.behind([entry.text])
                with contextlib.redirect_stderr(io.StringIO()):
                    kept.save(chain, [entry])
                self.same(ledger, kept.ledger)
                self.assertEqual((kept.whole, kept.chain), (not full, chain))
            full = False
            kept.save(chain)
            kept.close()
            kept = State(f"{folder}/kept", 2)
            self.same(ledger, kept.ledger)
            self.assertEqual(kept.entries()[-1].place, chain.place)
            kept.close()

    def test_what_a_disk_did_not_take_at_first_is_entered_once(self) -> None:
        texts = [entry_key("x", "register", f"{it:064}", 5) for it in range(200)]
        with tempfile.TemporaryDirectory() as folder, contextlib.redirect_stderr(io.StringIO()):
            kept, chain = State(f"{folder}/kept"), Chain(0, bytes(32))
            entries = chain.followed([entry_key(OPERATOR, "begin", 0, 1, "a,b,c,d"), *texts])
            for entry in entries:
                kept.ledger.apply(entry)
            kept.base.execute("PRAGMA max_page_count = 1")  # no more than it has
            for _ in range(2):
                kept.again, kept.identity = 0.0, "ab"
                kept.save(chain.behind(it.text for it in entries), [] if kept.fresh else entries)
                self.assertEqual((kept.whole, kept.identity), (False, "ab"))
            kept.base.execute("PRAGMA max_page_count = 100000")
            kept.again = 0.0
            self.assertTrue(kept.settle())
            for _ in range(2):
                self.assertEqual((len(kept.blobs), len([*kept.blobs]), kept.ledger.posted["x"]), (200, 200, 200))
                self.assertEqual((kept.identity, kept.chain and kept.chain.place), ("ab", 201))
                kept.close()
                kept = State(f"{folder}/kept")
            kept.close()

    def test_a_full_disk_is_tried_again_the_later_the_more_is_entered_again(self) -> None:
        def slow(entry: Entry) -> Optional[str]:
            time.sleep(0.005)
            return None

        entries = Chain(0, bytes(32)).followed(f"x/register/{it:064}/5" for it in range(200))
        with tempfile.TemporaryDirectory() as folder, contextlib.redirect_stderr(io.StringIO()):
            kept = State(f"{folder}/kept")
            self.addCleanup(kept.close)
            kept.base.execute("PRAGMA max_page_count = 1")  # no more than it has
            for entry in entries:
                kept.blobs[entry.values[0]] = blobs.Blob(5, "x")
            kept.apply, begun = slow, time.monotonic()
            kept.save(Chain(200, bytes(32)), entries)
            self.assertFalse(kept.whole)
            self.assertGreater(kept.again - begun, 200 * 0.005 * 10)
