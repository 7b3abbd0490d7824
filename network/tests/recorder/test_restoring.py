"""etcd is restored from a snapshot older than what the network has heard, and then the ledger is completed."""
import asyncio
import contextlib
import io
import os
import shutil
import subprocess
import sys
import unittest
from typing import Any
from unittest import mock

from support.ledger_case import FOUNDED, FOUR, LedgerCase, Memory, registration
from walrus.network.ledger.entries import ACK, ADDRESS, OPERATOR, Chain, Entry, entry_key
from walrus.network.ledger.follower import View
from walrus.network.ledger.state import State
from walrus.network.recorder import restoring
from walrus.network.recorder.appender import Broken, Recorder
from walrus.network.recorder.etcd import Batch, Failed
from walrus.network.recorder.restoring import Restoring
from walrus.network.recorder.server import etcd_of
from walrus.network.settings.services import RecorderSettings

NODES = FOUR.split(",")


class Liar(State):
    """The state of a node that reports an invented tail."""

    def entries(self, after: int = -1, count: int = -1) -> Any:
        found = super().entries(after, count)
        return [type(it)(it.place, registration("liar", it.place)) for it in found]


class Agreed(unittest.IsolatedAsyncioTestCase):
    async def test_what_too_few_have_heard_is_not_believed(self) -> None:
        made = Recorder(Memory())
        made.ledger.apply(Entry(1, FOUNDED))
        service = Restoring(made, mock.Mock())
        for told, agreed in (
            (["abc", "ab", "ax", ""], "ab"),
            (["abc", "", "", ""], ""),
            (["xyz", "abc", "abcd", ""], "abc"),
            (["ab", "ab", "xb", "xb"], "ab"),  # which f lying nodes cannot bring about
            (["abc", "xbc"], ""),
        ):
            service.tails = {name: list(tail) for name, tail in zip(NODES, told)}
            self.assertEqual("".join(service.agreed()), agreed, told)
        service.hears("publisher", [])
        service.hears("stranger", ["a"])
        self.assertNotIn("stranger", service.tails)
        service.short = {"node-0": 9, "late": 9}
        self.assertEqual(service.unbelieved(), ["late", "stranger"])
        service.tails.clear()
        made.state.chain = Chain(1, b"all up to there")
        told = {"after": 1, "entries": ["a"]}
        for name, digest in zip([*NODES, "stranger"], (b"all up to there", b"another one", None, b"another one", b"x")):
            body = told | ({} if digest is None else {"digest": digest.hex()})
            request = mock.MagicMock(json=mock.AsyncMock(return_value=body))
            request.__getitem__.return_value = name
            await service.hear(request)
        self.assertEqual((service.tails, service.others), ({NODES[0]: ["a"], NODES[2]: ["a"]}, {NODES[1], NODES[3]}))
        with self.assertRaisesRegex(Broken, "other entries up to place 1 than"):
            await service.restore(60)
        service.others.remove(NODES[1])
        self.assertFalse(service.enough([*service.others]))  # one that lies
        made.ledger.now = ("a", "a", "a", "b")  # a node of more than f shards is believed alone
        service.tails = {"a": ["x"], "b": ["y"]}
        self.assertEqual(service.agreed(), ["x"])
        made.state.close()

    async def test_no_ledger_is_founded_where_the_snapshot_was_not_restored(self) -> None:
        memory = Memory()
        service = Restoring(Recorder(memory), mock.Mock())
        self.addCleanup(service.recorder.state.close)
        with self.assertRaisesRegex(Broken, "etcd has no ledger"):
            await service.find_end(60, asyncio.Event())
        self.assertEqual(await memory.head(), b"")

    async def test_etcd_that_has_just_been_started_is_waited_for_but_not_for_ever(self) -> None:
        self.enterContext(mock.patch.object(restoring, "POLL", 0.01))
        said = self.enterContext(contextlib.redirect_stderr(io.StringIO()))
        memory, told = Memory(), asyncio.Event()
        founder, service = Recorder(memory), Restoring(Recorder(memory), mock.Mock())
        self.addCleanup(founder.state.close)
        await founder.catch_up()
        self.assertTrue(await founder.step(Batch(founder.chain, [FOUNDED])))
        self.addCleanup(service.recorder.state.close)
        memory.plan = {memory.calls + 1: "before", memory.calls + 2: "before"}
        await service.find_end(60, told)
        self.assertIn("fail before call 5; it is asked again for up to 60 s\n", said.getvalue())
        self.assertNotEqual(service.recorder.state.identity, "")
        memory.plan = dict.fromkeys(range(10_000), "before")
        with self.assertRaises(Failed):
            await service.find_end(0.05, told)
        told.set()
        with self.assertRaises(Failed):
            await service.find_end(60, told)


@unittest.skipIf(shutil.which("etcdctl") is None, "etcdctl is not here")
class Restored(LedgerCase):
    apart = True

    async def asyncSetUp(self) -> None:
        await super().asyncSetUp()
        self.views, self.tasks = dict[str, View](), dict[str, "asyncio.Task[None]"]()
        for name in NODES:
            await self.newcomer(name)
            self.follow(name)

    def follow(self, name: str) -> None:
        """Has a node follow the ledger, continuing from its disk."""
        state = (Liar if name == "node-3" else State)(str(self.folder / f"{name}.ledger"), 2)
        self.views[name] = view = View(self.user(name), state)
        self.tasks[name] = task = asyncio.create_task(view.follow())
        self.addCleanup(state.close)
        self.addCleanup(task.cancel)

    async def upload(self, first: int, last: int) -> None:
        """Registers blobs that three nodes then acknowledge."""
        texts = [registration("publisher", number) for number in range(first, last)]
        await asyncio.gather(*map(self.publisher.post, texts))
        for name in NODES[:3]:
            words = [entry_key(name, ACK, 0, text.split("/")[2]) for text in texts]
            last = max(await asyncio.gather(*map(self.views[name].recorders.post, words)))
        for view in self.views.values():
            self.assertTrue(await view.until(lambda _: view.chain and view.chain.place >= last))

    def etcdctl(self, *words: str) -> None:
        told = self.local.told()["etcd"]["etcd"]
        tls = ["--cacert=etcd-authority.crt", "--cert=etcd.crt", "--key=etcd.key", f"--endpoints={told[0]}"]
        environment = {**os.environ, "ETCDCTL_API": "3"}
        ran = subprocess.run(["etcdctl", *tls, *words], cwd=self.folder, env=environment, capture_output=True)
        self.assertEqual(ran.returncode, 0, ran.stderr)

    async def fall_back(self) -> None:
        """Kills all recorders and etcd, and starts etcd again from the snapshot."""
        for name in ("recorder-0", "recorder-1", "etcd"):
            await self.local.end(name, kill=True)
        shutil.rmtree(self.folder / "etcd")
        peer = self.local.told()["etcd"]["etcd"][1]
        words = ["--name=etcd", "--data-dir=etcd", f"--initial-cluster=etcd={peer}"]
        self.etcdctl("snapshot", "restore", "snapshot", *words, f"--initial-advertise-peer-urls={peer}")
        await self.local.start_etcd()

    async def restore(self, status: int = 0) -> str:
        words = [sys.executable, "-m", "walrus.network", "restore", str(self.folder / "recorder-0.toml")]
        path = os.pathsep.join(sys.path)
        pipe: dict[str, Any] = {"stdout": subprocess.PIPE, "stderr": subprocess.STDOUT}
        environment = {**os.environ, "PYTHONPATH": path}
        ran = await asyncio.create_subprocess_exec(*words, "--seconds", "10", **pipe, env=environment)
        said, _ = await asyncio.wait_for(ran.communicate(), 60)
        self.assertEqual(ran.returncode, status, said)
        return said.decode()

    async def test_all_that_was_uploaded_behind_a_snapshot_is_back(self) -> None:
        await self.upload(0, 30)
        self.etcdctl("snapshot", "save", "snapshot")
        await self.upload(30, 1_300)
        chain, written = self.views["node-0"].chain, [*self.views["node-0"].state.written()]
        await self.fall_back()
        said = await self.restore()
        self.assertRegex(said, "the ledger ends at place 121: nodes are asked")
        self.assertRegex(said, f"{chain.place - 121} entries are back; the ledger ends at place {chain.place}")
        for name in ("recorder-0", "recorder-1"):
            await self.local.start_recorder(name)
        async with self.following(self.user("publisher")) as view:
            self.assertEqual((view.chain, [*view.state.written()]), (chain, written))
            self.assertEqual(view.ledger.blobs.counts()["certified"], 1_300)
        await self.upload(1_300, 1_301)
        self.assertEqual([it.lost for it in self.views.values()], [None] * 4)

    async def test_behind_what_a_recorder_has_appended_to_the_snapshot_nothing_is_appended(self) -> None:
        await self.nothing_is_appended_behind([registration("stray", 99)])

    async def test_that_a_recorder_has_appended_more_than_nodes_had_heard_is_found(self) -> None:
        await self.nothing_is_appended_behind([registration("stray", number) for number in range(99)])

    async def nothing_is_appended_behind(self, texts: list[str]) -> None:
        await self.upload(0, 3)
        self.etcdctl("snapshot", "save", "snapshot")
        await self.upload(3, 9)
        await self.fall_back()
        settings = RecorderSettings.read(self.folder / "recorder-0.toml")
        stray = Recorder(etcd_of(settings))  # it has no state, and so adopts what it finds
        self.addAsyncCleanup(stray.etcd.aclose)
        self.addCleanup(stray.state.close)
        async with asyncio.timeout(60):
            while not stray.chain.place:
                with contextlib.suppress(Failed):  # etcd has just been started
                    await stray.catch_up()
                await asyncio.sleep(0.1)
        self.assertTrue(await stray.step(Batch(stray.chain, texts)))
        said = await self.restore(1)
        self.assertRegex(said, f"not restored: etcd has other entries up to place {stray.chain.place} than the nodes")
        self.assertTrue(await stray.step())  # it ends there still
        self.assertEqual([it.lost for it in self.views.values()], [None] * 4)

    async def test_where_all_nodes_are_others_than_at_the_snapshot_that_is_said(self) -> None:
        self.etcdctl("snapshot", "save", "snapshot")
        later = [f"node-{number}" for number in range(4, 8)]
        for name in later:
            await self.newcomer(name)
            self.follow(name)
            await self.views[name].recorders.post(entry_key(name, ADDRESS, "127.0.0.1", 1))
        await self.operator.post(entry_key(OPERATOR, "begin", 1, 1, ",".join(later)))
        for text in [*(entry_key(it, "ready", 1) for it in later[:3]), entry_key(later[0], "finish", 1)]:
            await self.views[text.partition("/")[0]].recorders.post(text)
        for name in later:
            self.assertTrue(await self.views[name].until(lambda it: it.epoch == 1))
        for name in NODES:  # they are removed
            self.tasks[name].cancel()
        await self.fall_back()
        said = await self.restore(1)
        self.assertIn("node-0 was silent at the end\n", said)
        self.assertRegex(said, f"0 entries are back; .*\n{', '.join(later)} heard more than the snapshot has, ")
