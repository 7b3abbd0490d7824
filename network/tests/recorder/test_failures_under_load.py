"""Recorders under load while etcd, its members or recorders end, and when etcd is full."""
import asyncio
import contextlib
import dataclasses
import pathlib
import re
import sys
import unittest
from typing import Any

from support import harness
from support.ledger_case import LedgerCase, registration
from walrus.network.ledger.entries import OPERATOR, Chain, entry_key
from walrus.network.ledger.follower import Parted, Recorders, Unreachable, View
from walrus.network.recorder import appender, server
from walrus.network.recorder.etcd import Failed
from walrus.network.settings.services import RecorderSettings


class Loaded(LedgerCase):
    """Recorders under load."""

    apart = True

    async def load(self, recorders: Recorders, base: int, acknowledged: dict[str, int]) -> None:
        """Posts one entry after the other until it is cancelled."""
        for number in range(base, base + 10**6):
            text = registration("publisher", number)
            acknowledged[text] = await recorders.post(text, None)

    @contextlib.asynccontextmanager
    async def loaded(self):  # type: ignore[no-untyped-def]
        """Has eight posters post over both recorders, with two followers; at the end each entry is there once."""
        acknowledged: dict[str, int] = {}
        users = [self.user("publisher", number % 2 if number < 4 else None) for number in range(8)]
        async with self.following(self.user("publisher")) as one, self.following(self.user(OPERATOR)) as two:
            tasks = [asyncio.create_task(self.load(it, 10**7 * at, acknowledged)) for at, it in enumerate(users)]
            yield acknowledged
            before = len(acknowledged)
            async with asyncio.timeout(60):
                while len(acknowledged) < before + 20:
                    await asyncio.sleep(0.05)
            for task in tasks:
                task.cancel()
            await asyncio.gather(*tasks, return_exceptions=True)
            last = max(acknowledged.values())
            for view in (one, two):
                self.assertTrue(await view.until(lambda _: view.chain.place >= last))
        self.assertEqual(len(set(acknowledged.values())), len(acknowledged))
        async with self.following(self.user("publisher")) as late:
            self.assertTrue(await late.until(lambda _: late.chain.place >= last))
            for text in acknowledged:
                self.assertIn(bytes.fromhex(text.split("/")[2]), late.ledger.blobs)
            self.assertEqual(len(late.ledger.blobs), late.chain.place - 1)  # nothing is there twice, or void
        if one.chain.place == late.chain.place:
            self.assertEqual(one.chain, late.chain)


class Trouble(Loaded):
    """Acknowledged entries survive failures, and followers learn of those."""

    async def test_etcd_ends_in_every_way(self) -> None:
        async with self.loaded() as acknowledged:
            for way in ("TERM", "KILL", "TERM at once", "STOP"):
                before = len(acknowledged)
                if way == "STOP":
                    self.local.processes["etcd"].send_signal(19)
                    await asyncio.sleep(7)
                    self.local.processes["etcd"].send_signal(18)
                else:
                    await self.local.end("etcd", kill=way == "KILL")
                    await asyncio.sleep(0 if way == "TERM at once" else 1)
                    await self.local.start_etcd()
                async with asyncio.timeout(40):
                    while len(acknowledged) < before + 20:
                        await asyncio.sleep(0.05)

    async def test_a_recorder_is_killed_and_the_other_goes_on(self) -> None:
        async with self.loaded() as acknowledged:
            for name in ("recorder-0", "recorder-1", "recorder-0"):
                before = len(acknowledged)
                await self.local.end(name, kill=True)
                async with asyncio.timeout(40):
                    while len(acknowledged) < before + 20:
                        await asyncio.sleep(0.05)
                await self.local.start_recorder(name)

    @unittest.skipIf(not [*pathlib.Path("/usr/lib").glob("*/faketime/libfaketime.so.1")], "faketime is not here")
    async def test_a_clock_that_jumps_loses_nothing(self) -> None:
        async with self.loaded() as acknowledged:
            await self.local.end("recorder-1")
            clock, words = self.folder / "clock", [sys.executable, "-m", "walrus.network", "recorder"]
            await self.local.start("recorder-1", words, harness.faked_clock(clock))
            for jump in ("+30d", "-1d", "+0"):
                clock.write_text(jump)
                before = len(acknowledged)
                await asyncio.sleep(2)
                async with asyncio.timeout(40):
                    while len(acknowledged) < before + 20:
                        await asyncio.sleep(0.05)

    async def test_a_ledger_that_is_away_is_told_as_such(self) -> None:
        async with self.following(self.user("publisher")) as view:
            self.local.processes["etcd"].send_signal(19)
            await asyncio.sleep(appender.FRESH + 2 * appender.BEAT + 1)
            self.assertGreater(view.silence(), 2)
            with self.assertRaises(Unreachable) as caught:
                await self.publisher.post(registration("publisher", 1), 1)
            self.assertIn("no recorder took publisher/register/", str(caught.exception))
            self.local.processes["etcd"].send_signal(18)
            self.assertTrue(await view.until(lambda _: view.silence() < 1, 20))

    async def test_an_older_ledger_is_not_followed(self) -> None:
        for number in range(3):
            await self.publisher.post(registration("publisher", number))
        async with self.following(self.user("publisher")) as view:
            pass
        ahead = view.chain.behind(["publisher/register/beyond"])
        with self.assertRaises(Parted) as caught:
            await anext(self.user("publisher").follow(ahead))
        self.assertRegex(
            str(caught.exception), "the ledger ends at place 4, but 5 entries were heard before: it is another"
        )
        other = Chain(2, bytes(32))
        with self.assertRaises(Parted) as caught:
            await anext(self.user("publisher").follow(other))
        self.assertIn("first 2 entries are others than were heard before", str(caught.exception))
        news = [it async for it in self.first(view.chain.place - 2)]
        self.assertEqual(news[-1].chain, view.chain)

    async def first(self, place: int):  # type: ignore[no-untyped-def]
        """Returns what is sent after a place in the midst of a batch, up to the end."""
        async with self.following(self.user("publisher")) as view:
            pass
        everything = [entry async for entry in self.told(view)]
        chain = Chain(0, self.birth).behind(everything[:place])
        async for news in self.user("publisher").follow(chain):
            yield news
            if news.chain == view.chain:
                return

    async def told(self, view: View):  # type: ignore[no-untyped-def]
        async for news in self.user("publisher").follow(None):
            if not hasattr(self, "birth"):
                self.birth = news.chain.digest
            for entry in news.entries:
                yield entry.text
            if news.chain == view.chain:
                return


class ThreeMembers(Loaded):
    """Three members of etcd, and a recorder at two of them; each is lost in turn, and the leader of etcd twice."""

    members = ["etcd-0", "etcd-1", "etcd-2"]

    async def leader(self) -> str:
        """Returns the present leader of etcd's members."""
        settings = RecorderSettings.read(self.folder / "recorder-0.toml")
        for _ in range(300):
            for name, (url, _) in self.local.told()["etcd"].items():
                etcd = server.etcd_of(dataclasses.replace(settings, etcd=url))
                with contextlib.suppress(Failed):
                    told = await etcd.call("maintenance/status", {}, 1)
                    if told["leader"] == told["header"]["member_id"]:
                        return str(name)
                await etcd.aclose()
            await asyncio.sleep(0.1)
        self.fail("etcd has no leader")

    async def test_any_of_them_is_lost_under_load(self) -> None:
        async with self.loaded() as acknowledged:
            for name in ("leader", "recorder-1", "etcd-0", "leader", "etcd-1", "etcd-2", "recorder-0"):
                name = await self.leader() if name == "leader" else name
                before = len(acknowledged)
                await self.local.end(name, kill=True)
                async with asyncio.timeout(60):
                    while len(acknowledged) < before + 20:
                        await asyncio.sleep(0.05)
                await (self.local.start_etcd(name) if "etcd" in name else self.local.start_recorder(name))


class Quota(LedgerCase):
    """An etcd with room for few entries."""

    async def copy_certificates(self) -> None:
        await super().copy_certificates()
        self.allow(3_000_000)

    def allow(self, size: int) -> None:
        path = self.folder / "etcd.env"
        text, count = re.subn("(?m)^ETCD_QUOTA_BACKEND_BYTES=.*$", f"ETCD_QUOTA_BACKEND_BYTES={size}", path.read_text())
        self.assertEqual(count, 1)
        path.write_text(text)

    async def disarm(self) -> None:
        """Clears etcd's alarm, as `etcdctl alarm disarm` does, once etcd answers."""
        call, alarms = self.recorders[0].etcd.call, list[dict[str, Any]]()
        while not alarms:
            with contextlib.suppress(Failed):
                alarms = (await call("maintenance/alarm", {"action": "GET"})).get("alarms", [])
            await asyncio.sleep(0.2)
        for alarm in alarms:
            await call("maintenance/alarm", {"action": "DEACTIVATE", **alarm})

    async def test_where_etcd_is_full_posts_are_refused_and_the_ledger_is_told_still(self) -> None:
        await self.operator.post(entry_key(OPERATOR, "share", "publisher", 10**6))
        said, number = list[object](), 0
        async with asyncio.timeout(120):
            while not said or isinstance(said[-1], int):
                texts = [registration("publisher", number + it) for it in range(1_000)]
                number += 1_000
                said += await asyncio.gather(*(self.publisher.post(it, 12) for it in texts), return_exceptions=True)
        self.assertRegex(str(said[-1]), "no recorder took .*: it is not appended yet: .*space exceeded; post it again")
        waits = asyncio.create_task(self.publisher.post(registration("publisher", 10**7), None))
        async with self.following(self.user(OPERATOR)) as view:
            self.assertEqual(len(view.ledger.blobs), sum(isinstance(it, int) for it in said))
            await asyncio.sleep(appender.FRESH + 2)
            self.assertEqual([it.fresh for it in self.recorders], [True, True])
            self.assertLess(view.silence(), 5)
            self.assertIn("space exceeded", "".join(it.fault for it in self.recorders))
            self.assertFalse(waits.done())
            await self.local.end("etcd")
            self.allow(10**9)
            await self.local.start_etcd()
            await self.disarm()
            place = await asyncio.wait_for(waits, 60)
            self.assertTrue(await view.until(lambda _: view.chain.place >= place, 20))
