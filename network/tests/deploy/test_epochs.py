"""Commands of operators over a ledger, and what a handover checks first, with fake nodes that only answer."""
import argparse
import asyncio
import contextlib
import io
import os
import shutil
import ssl
import unittest
from typing import Any, Sequence
from unittest import mock

from support import harness
from support.ledger_case import FOUR, LedgerCase, registration
from walrus import client
from walrus.format import frames
from walrus.network.cli import commands
from walrus.network.deploy import epochs
from walrus.network.deploy.local import Local
from walrus.network.ledger.entries import ADDRESS, OPERATOR, entry_key
from walrus.network.ledger.follower import Recorders, Refused, Unreachable
from walrus.network.peers.network import Network
from walrus.network.service.failure import Failure

NODES = ["node-0", "node-1", "node-2", "node-3"]


@unittest.skipUnless(os.access(harness.find_program(), os.X_OK), "the program is not built")
class Handover(LedgerCase):
    async def node(self, name: str, certificate: str = "", host: str = "127.0.0.1") -> asyncio.AbstractServer:
        """Starts a fake node that answers that any blob is unregistered, with a certificate of this name or another."""
        recorders = await self.newcomer(name)
        context = ssl.create_default_context(ssl.Purpose.CLIENT_AUTH)
        path = self.folder / "users" / (certificate or name)
        context.load_cert_chain(f"{path}.crt", f"{path}.key")

        async def serve(reader: asyncio.StreamReader, writer: asyncio.StreamWriter) -> None:
            with contextlib.suppress(OSError, EOFError), contextlib.closing(writer):
                while True:
                    sender, _ = await client.take_envelope(reader, 99)
                    writer.write(client.envelope(frames.answer(1), sender))

        server = await asyncio.start_server(serve, host, 0, ssl=context)
        self.addCleanup(server.close)
        await recorders.post(entry_key(name, ADDRESS, host, server.sockets[0].getsockname()[1]))
        return server

    async def hand_over(self, *owners: str, **options: Any) -> str:
        """Runs the command, which must fail, and returns its output and the failure's text."""
        said = io.StringIO()
        with contextlib.redirect_stdout(said), self.assertRaises(Failure) as caught:
            await epochs.hand_over(self.words_of(owners, **options))
        return f"{said.getvalue()}{caught.exception.args[0]}"

    def words_of(self, owners: Sequence[str], **options: Any) -> argparse.Namespace:
        words = {"json": False, "force": False, "yes": True, "concentrated": False, "seconds": 0.1, "epoch": None}
        return argparse.Namespace(folder=self.folder, owners=owners, **{**words, **options})

    async def done(self, *owners: str, **options: Any) -> str:
        """Runs the command, which must succeed, and returns its output."""
        with contextlib.redirect_stdout(io.StringIO()) as said:
            self.assertEqual(await epochs.hand_over(self.words_of(owners, **options)), 0)
        return said.getvalue()

    async def epoch_begins(self) -> bool:
        async with self.following(self.user("publisher")) as view:
            return bool(view.ledger.moving)

    async def test_what_would_not_finish_is_not_begun(self) -> None:
        servers = [await self.node(name) for name in NODES[:3]]
        said = await self.hand_over(*NODES, force=True)
        self.assertIn("node-3 told the ledger no address", said)
        self.assertIn(
            "node-3 and nobody told", await self.hand_over("node-0", "node-1", "node-3", "nobody", force=True)
        )
        stray = await self.newcomer("node-3")
        for host in ("a" * 100, "a..b", "::::"):  # some of which the system does not resolve
            await stray.post(entry_key("node-3", ADDRESS, host, 1))
            self.assertRegex(await self.hand_over(*NODES), r"node-3 does not answer \(.*nothing was begun", host)
        await self.node("node-3", certificate="node-0")
        self.assertRegex(await self.hand_over(*NODES), r"node-3 does not answer \(.*certificate.*nothing was begun")
        servers[2].close()
        self.assertIn("too few are left to finish", await self.hand_over(*NODES, force=True))
        self.assertIn("name the nodes of 4 shards, not of 3", await self.hand_over(*NODES[:3]))
        self.assertIn("NODE*SHARDS", await self.hand_over("a,b", *NODES[:3]))
        self.assertFalse(await self.epoch_begins())

    async def test_a_node_that_was_expelled_gets_no_shard_though_it_answers(self) -> None:
        for name in NODES:
            await self.node(name)
        await self.operator.post(entry_key(OPERATOR, "expel", "node-3"))
        for owners in ((), NODES):  # it has a shard by now
            said = await self.hand_over(*owners, force=True)
            self.assertRegex(said, "^node-3 would hold shards, but .* expelled name.*; nothing was begun$")
        self.assertFalse(await self.epoch_begins())

    async def test_a_machine_with_more_than_f_shards_needs_a_word(self) -> None:
        for name in NODES:
            await self.node(name)
        self.assertIn("node-1 has 2 shards, and 1 may be lost", await self.hand_over("node-0", "node-1*2", "node-2"))
        await self.operator.post(entry_key("operator", "share", "x", 1))
        with mock.patch.object(epochs, "is_loopback", lambda host: False):
            said = await self.hand_over("node-3", "node-2", "node-1", "node-1")
        self.assertIn("127.0.0.1 has 4 shards, and 1 may be lost", said)
        self.assertFalse(await self.epoch_begins())

    async def test_whoever_is_at_the_terminal_is_asked(self) -> None:
        for name in (*NODES, "node-4"):
            await self.node(name)
        publisher = await self.newcomer("writer")
        name = "07" * 32
        await publisher.post(entry_key("writer", "register", name, 1))
        said = await self.hand_over(*NODES[:3], "node-4", yes=False)
        lines = ["node-4 takes shards over", "node-3 has no shards any more", f"{name} ends with epoch 0"]
        self.assertEqual(said.splitlines()[:3], lines)
        self.assertIn("--yes begins without", said)
        for answer, begins in (("n", False), ("", False), ("y", True)):
            terminal = mock.Mock(isatty=lambda: True)
            with mock.patch("sys.stdin", terminal), mock.patch("builtins.input", lambda text, it=answer: it):
                said = await self.hand_over(*NODES[:3], "node-4", yes=False)
            self.assertIn("epoch 1 has not begun after" if begins else "nothing was begun", said)
            self.assertEqual(await self.epoch_begins(), begins)

    async def finish(self, epoch: int, names: Sequence[str] = NODES[:3]) -> None:
        """Posts what nodes post for a handover that has begun."""
        async with self.following(self.user("publisher")) as view:
            self.assertTrue(await view.until(lambda it: it.moving))
        for text in [*(entry_key(it, "ready", epoch) for it in names), entry_key(names[0], "finish", epoch)]:
            await self.user(text.partition("/")[0]).post(text)

    async def test_no_epoch_begins_but_the_one_that_was_asked_about(self) -> None:
        """Even if another handover is completed while this one waits for the nodes' answers."""
        for name in NODES:
            await self.newcomer(name)
        other = ["node-1*2", "node-2", "node-3"]
        for epoch, owners, refused in ((1, [], ""), (2, other, "epoch 3 comes next")):

            async def meanwhile(network: Network, *_: object, epoch: int = epoch) -> None:
                await self.operator.post(entry_key(OPERATOR, "begin", epoch, 1, FOUR))
                await self.finish(epoch)
                self.assertTrue(await network.until(lambda it: it.epoch == epoch))

            told = self.words_of(owners, concentrated=True, seconds=9)
            with contextlib.ExitStack() as stack:
                stack.enter_context(mock.patch.object(epochs, "must_answer", meanwhile))
                said = stack.enter_context(contextlib.redirect_stdout(io.StringIO()))
                if refused:
                    stack.enter_context(self.assertRaisesRegex(Refused, refused))
                self.assertEqual(await epochs.hand_over(told), 0)
            self.assertEqual(f"epoch {epoch} has begun\n" in said.getvalue(), not refused)
            self.assertFalse(await self.epoch_begins())

    async def test_before_nodes_without_shards_are_removed_a_snapshot_is_asked_for(self) -> None:
        for name in (*NODES, "node-4"):
            await self.node(name)
        snapshot = "; take a snapshot of the ledger before you remove nodes without shards (network/OPERATING.md)"
        for epoch, owners, more in ((1, NODES, ""), (2, [*NODES[:3], "node-4"], snapshot)):
            async with asyncio.TaskGroup() as group:
                group.create_task(self.finish(epoch))
                said = await self.done(*owners, seconds=30)
            self.assertEqual(said.splitlines()[-1], f"epoch {epoch} has begun{more}")

    async def test_a_handover_that_takes_long_is_waited_for_by_its_epoch_and_begun_once(self) -> None:
        for name in NODES:
            await self.node(name)
        said = await self.hand_over(*NODES)
        self.assertRegex(said, "epoch 1 has not begun after 0.1 s: .* wait for it with --epoch 1, .* begin epoch 2$")
        async with asyncio.TaskGroup() as group:
            group.create_task(self.finish(1))
            self.assertEqual(await self.done(*NODES, epoch=1, seconds=30), "epoch 1 has begun\n")
        for owners in ((), NODES, NODES[::-1]):
            self.assertEqual(await self.done(*owners, epoch=1), "epoch 1 has begun before: nothing was begun\n")
        told = {"epoch": 1, "nodes": NODES, "ended": []}
        self.assertEqual(epochs.json.loads(await self.done(*NODES, epoch=1, json=True)), told)
        self.assertIn("has other nodes than these", await self.hand_over(*NODES[:3], "node-4", epoch=1))
        for epoch in (0, -1):  # a plan may have begun long ago, or begin later
            self.assertIn(f"epoch {epoch} has begun before: nothing", await self.done(epoch=epoch))
        self.assertIn("epoch 2 comes next, not epoch 3", await self.hand_over(*NODES, epoch=3))
        self.assertFalse(await self.epoch_begins())

    async def test_a_handover_under_way_is_waited_for_even_if_its_nodes_do_not_answer(self) -> None:
        servers = [await self.node(name) for name in (*NODES[:3], "node-4")]
        names = [*NODES[:3], "node-4"]
        await self.hand_over(*names)
        for server in servers:
            server.close()
        for epoch, how in ((1, "with the same command"), (None, "with --epoch 1, .* would later begin epoch 2")):
            said = await self.hand_over(*names, epoch=epoch)
            self.assertRegex(said, f"epoch 1 has not begun after 0.1 s: .* The handover goes on; wait for it {how}$")
        self.assertIn("node-3 told the ledger no address", await self.hand_over(*NODES, epoch=1))
        async with asyncio.TaskGroup() as group:
            group.create_task(self.finish(1))
            self.assertIn("epoch 1 has begun", await self.done(*names, epoch=1, seconds=30))
        self.assertIn("too few are left to finish, so nothing was begun", await self.hand_over(*names, epoch=2))
        self.assertFalse(await self.epoch_begins())

    async def test_nodes_keep_their_shards_in_whatever_order_they_are_named(self) -> None:
        for name in (*NODES, "node-4"):
            await self.node(name)
        said = await self.hand_over("node-2", "node-3", "node-1", "node-4")
        self.assertIn("the order of the names does not count: node-4 takes over shard 0\n", said)
        async with self.following(self.user("publisher")) as view:
            self.assertEqual(view.ledger.next, ("node-4", "node-1", "node-2", "node-3"))
        await self.finish(1, NODES[1:])
        said = await self.done("node-3", "node-1", "node-4", "node-2", epoch=1)  # it is the same committee
        self.assertIn("has begun before", said)

    async def test_who_is_to_be_expelled_is_shown_and_asked_about(self) -> None:
        publisher = await self.newcomer("writer")
        for number in (1, 2):
            await publisher.post(registration("writer", number))

        async def expel(name: str, **options: Any) -> str:
            words = argparse.Namespace(command="expel", folder=self.folder, name=name, json=False, **options)
            with contextlib.redirect_stdout(io.StringIO()) as said:
                try:
                    await epochs.post(words)
                except Failure as fault:
                    return f"{said.getvalue()}{fault.args[0]}"
            return said.getvalue()

        for name, known in (
            ("node-1", "node-1 has 1 shards, and 1 may be lost\n"),
            ("writer", "writer has 2 live blobs\n"),
            ("Writer", "the ledger knows nothing of Writer: is it spelt so?\n"),
        ):
            said = await expel(name, yes=False)
            self.assertEqual(said.partition(f"{name} is not")[0], known)
            self.assertRegex(said, "is not expelled, as there is no terminal to ask at: --yes expels it without asking")
            with mock.patch("sys.stdin", mock.Mock(isatty=lambda: True)), mock.patch("builtins.input", lambda _: ""):
                self.assertEqual(await expel(name, yes=False), f"{known}{name} is not expelled")
        async with self.following(self.user("publisher")) as view:
            self.assertEqual(view.ledger.expelled, frozenset())
        with mock.patch("sys.stdin", mock.Mock(isatty=lambda: True)), mock.patch("builtins.input", lambda _: "y"):
            self.assertIn("writer is expelled, from place", await expel("writer", yes=False))
        self.assertIn("Writer is expelled, from place", await expel("Writer", yes=True))
        async with self.following(self.user("publisher")) as view:
            self.assertEqual(view.ledger.expelled, {"writer", "Writer"})


class Arranged(unittest.TestCase):
    def test_a_node_keeps_as_many_of_its_shards_as_it_can(self) -> None:
        for now, named, wanted in (
            ("a b c d", "b c d e", "e b c d"),
            ("a b c d", "d c b a", "a b c d"),
            ("a a b c", "b a a d", "a a b d"),
            ("a a a b", "c b a c", "a c c b"),
            ("a b c d", "e f g h", "e f g h"),
            ("a b c d", "e f c d", "e f c d"),
            ("a b c d", "f e c d", "e f c d"),
        ):
            self.assertEqual(epochs.arranged(now.split(), named.split()), wanted.split())

    def test_epoch_0_is_an_epoch_like_any_other(self) -> None:
        for words, epoch in (([], None), (["--epoch", "0"], 0), (["--epoch", "-1"], -1), (["--epoch", "2"], 2)):
            with mock.patch("sys.argv", ["walrus-net", "handover", "folder", *words]):
                self.assertEqual(commands.parse().epoch, epoch)


class Anew(LedgerCase):
    apart = True

    async def test_certificates_of_other_authorities_void_all_that_were_signed_before(self) -> None:
        """These are the manual's steps for an operator's key that may be known to others."""
        other, known = Local(self.folder / "other"), self.folder / "known"
        other.members, other.recorders = self.local.members, self.local.recorders
        other.folder.mkdir()
        await other.found()
        shutil.copytree(self.folder / "users", known)
        for name in ("recorder-0", "recorder-1", "etcd"):
            await self.local.end(name)
        for path in [*other.folder.rglob("*.crt"), *other.folder.rglob("*.key")]:
            shutil.copyfile(path, self.folder / path.relative_to(other.folder))
        await self.local.start_etcd()
        for name in ("recorder-0", "recorder-1"):
            await self.local.start_recorder(name)
        words = str(self.folder / "authority.crt"), str(known / "operator.crt"), str(known / "operator.key")
        thief = Recorders(self.local.told()["recorders"], *words)
        self.addAsyncCleanup(thief.aclose)
        with self.assertRaisesRegex(Unreachable, "does not accept the certificate"):
            await thief.post(entry_key(OPERATOR, "share", "thief", 1), 5)
        await self.user(OPERATOR).post(entry_key(OPERATOR, "share", "printer", 2))
        async with self.following(self.user("publisher")) as view:
            self.assertEqual((view.ledger.shares, view.ledger.now), ({"printer": 2}, tuple(NODES)))
