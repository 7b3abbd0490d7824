"""What nodes and others report to a restore: whether they heard the same ledger, and whether it is complete then."""
import asyncio
import contextlib
import io
import json
import unittest
from typing import Mapping, Sequence
from unittest import mock

from support.ledger_case import FOUNDED, FOUR, Memory, registration
from walrus.network.ledger.entries import Chain
from walrus.network.recorder import restoring
from walrus.network.recorder.appender import Broken, Recorder
from walrus.network.recorder.etcd import Batch
from walrus.network.recorder.restoring import Restoring

NODES = FOUR.split(",")


class Reports(unittest.IsolatedAsyncioTestCase):
    async def asyncSetUp(self) -> None:
        asyncio.get_running_loop().set_debug(False)

    async def begun(self, *texts: str) -> tuple[Memory, Chain]:
        """Returns an etcd whose ledger has these entries, and the ledger's chain."""
        memory = Memory()
        founder = Recorder(memory)
        self.addCleanup(founder.state.close)
        await founder.catch_up()
        self.assertTrue(await founder.step(Batch(founder.chain, [*texts])))
        return memory, founder.chain

    async def tell(self, service: Restoring, name: str, heard: Chain) -> None:
        """Has a follower connect that has heard this much, and report what it is asked for."""
        request = mock.MagicMock(query={"after": str(heard.place)})
        request.__getitem__.return_value = name
        told = json.loads((await service.follow(request)).text or "")
        if "tail" in told:
            body = {"after": told["tail"], "digest": heard.digest.hex() * (told["tail"] == heard.place), "entries": []}
            request.json = mock.AsyncMock(return_value=body)
            await service.hear(request)

    async def test_who_has_heard_less_than_etcd_has_tells_whether_it_is_the_same(self) -> None:
        """This reveals a recorder that ran over the older ledger and appended more to it than nodes had heard."""
        memory, _ = await self.begun(FOUNDED, *(registration("stray", number) for number in range(9)))
        service = Restoring(Recorder(memory), mock.Mock())
        self.addCleanup(service.recorder.state.close)
        await service.recorder.catch_up()
        start = Chain(0, bytes.fromhex(service.recorder.state.identity)).behind([FOUNDED])
        other = start.behind([registration("publisher", number) for number in range(5)])
        await self.tell(service, NODES[0], start)
        await self.tell(service, NODES[1], other)
        await self.tell(service, "stranger", other)
        self.assertEqual((service.tails, service.others), ({NODES[0]: []}, {NODES[1]}))
        service.recorder.recent.clear()  # so that etcd is asked
        await self.tell(service, NODES[2], other)
        with self.assertRaisesRegex(Broken, "other entries up to place 10 than"):
            await service.restore(60)

    async def restored(
        self, memory: Memory, names: Sequence[str], heard: Chain, short: Mapping[str, int], seconds: float = 0.1
    ) -> tuple[int, str]:
        """Runs a restore to which these nodes report that they have heard this much; returns its status and output."""
        memory.aclose, said = mock.AsyncMock(), io.StringIO()

        async def listen(service: Restoring) -> int:
            for name in names:
                await self.tell(service, name, heard)
            service.short.update(short)
            return 0

        with mock.patch.object(restoring, "etcd_of", lambda _: memory), mock.patch.object(Restoring, "listen", listen):
            with contextlib.redirect_stderr(said), contextlib.redirect_stdout(io.StringIO()):
                status = await restoring.serve(mock.Mock(), seconds)
        self.assertEqual(asyncio.all_tasks(), {asyncio.current_task()})  # else asyncio would complain of what was left
        return status, said.getvalue()

    async def test_somebody_without_shards_makes_no_restore_fail_that_is_complete(self) -> None:
        memory, end = await self.begun(FOUNDED, registration("publisher", 1))
        for heard, chain, status in ((4, end, 0), (3, end, 0), (2, end, 1), (4, Chain(0, b""), 1)):
            found, said = await self.restored(memory, NODES[:heard], chain, {"publisher": 10**9})
            self.assertEqual(found, status)
            self.assertIn("publisher heard more than the" if status else "publisher reported more", said)

    async def test_a_restore_that_a_signal_ends_leaves_nothing_unfinished(self) -> None:
        memory, end = await self.begun(FOUNDED, registration("publisher", 1))
        ended = asyncio.Event()
        with mock.patch.object(restoring, "ending", lambda: ended):
            asyncio.get_running_loop().call_later(1.2, ended.set)
            found, said = await self.restored(memory, NODES[:2], end, {}, 60)
        self.assertEqual((found, "nodes of 2 shards have heard" in said), (1, True))

    async def test_a_restore_fails_if_nodes_of_fewer_than_2f_1_shards_have_reported_all(self) -> None:
        """The others may have more; nodes that have not kept the next entries even say so."""
        memory, end = await self.begun(FOUNDED, registration("publisher", 1))
        for heard, status in ((4, 0), (3, 0), (2, 1), (0, 1)):
            found, said = await self.restored(memory, NODES[:heard], end, {})
            few = f"nodes of {heard} shards have heard the snapshot and reported all that they have, and 3 are needed"
            self.assertEqual((found, few in said), (status, status == 1))

    async def test_if_more_than_f_shards_have_kept_only_later_entries_no_recorder_is_to_be_started(self) -> None:
        memory, end = await self.begun(FOUNDED, registration("publisher", 1))
        for heard, late in (([], NODES), (NODES[:2], NODES[2:]), (NODES[:1], NODES[3:]), ([], NODES[3:])):
            texts = f"{', '.join(late)} have kept only later entries", "start the recorders", "publisher heard more"
            for stranger in ({}, {"publisher": 10**9}):
                found, said = await self.restored(memory, heard, end, dict.fromkeys(late, 300) | stranger)
                wanted = [bool(late[1:]), not late[1:] and not stranger, not late[1:] and bool(stranger)]
                self.assertEqual((found, [it in said for it in texts]), (1, wanted), said)
                self.assertEqual("start no recorder, and restore a later snapshot" in said, wanted[0])
        found, said = await self.restored(memory, NODES[:3], end, {NODES[3]: 300})
        self.assertEqual((found, "later entries" in said), (0, False))
        found, said = await self.restored(memory, [], end, dict.fromkeys(NODES, end.place))  # nothing is lacking there
        self.assertEqual((found, "start no recorder" in said), (1, False))

    async def test_a_ledger_that_a_recorder_founded_over_an_empty_etcd_is_not_restored(self) -> None:
        memory = Memory()
        founder = Recorder(memory)
        self.addCleanup(founder.state.close)
        await founder.catch_up()
        status, said = await self.restored(memory, NODES, founder.chain, {})
        self.assertEqual((status, "etcd has no ledger with a committee: restore the snapshot" in said), (1, True))

    async def test_nodes_that_had_heard_less_than_others_report_all_that_they_have_too(self) -> None:
        """They cannot hear the rest while no recorder runs."""
        memory, end = await self.begun(FOUNDED, registration("publisher", 1))
        service = Restoring(Recorder(memory), mock.Mock())
        self.addCleanup(service.recorder.state.close)
        await service.find_end(60, asyncio.Event())
        more = [registration("publisher", 2)]
        service.tails = dict.fromkeys(NODES[:2], more)
        working = asyncio.create_task(service.restore(5))
        async with asyncio.timeout(30):
            while service.recorder.chain != end.behind(more) or service.tails:
                await asyncio.sleep(0.01)
        self.assertFalse(service.is_all())
        for name, heard in zip(NODES, (end.behind(more), end.behind(more), end, end)):
            await self.tell(service, name, heard)
        self.assertEqual((await working, service.is_all()), (1, True))
