"""The address that a node posts to the ledger, such as an IPv6 address, and what it does if that is refused."""
import asyncio
import contextlib
import io
import unittest
from unittest import mock

from support.harness import FOUR, NetworkCase
from walrus.network.ledger.entries import ADDRESS, OPERATOR, Entry, entry_key
from walrus.network.ledger.follower import Refused
from walrus.network.node import handover
from walrus.network.settings import file
from walrus.network.settings.services import Settings


class Addresses(unittest.IsolatedAsyncioTestCase):
    async def asyncSetUp(self) -> None:
        asyncio.get_running_loop().set_debug(False)  # it would say on standard error what is slow on a busy machine

    def test_an_address_of_ipv6_has_the_form_of_an_entry(self) -> None:
        rest = dict.fromkeys(("program", "database", "authority", "certificate", "key"), "")
        for host, announced, wanted in (
            ("fd00::1", "[fd00::1]:31500", ["fd00::1", 31_500]),
            ("0.0.0.0", "alpha:31500", ["alpha", 31_500]),
            ("::1", "", ["::1", 7]),
        ):
            settings = Settings(name="a", recorders=[], host=host, announced=announced, **rest)
            self.assertEqual(Entry(1, entry_key("a", ADDRESS, *settings.reached(7))).values, wanted)

    async def test_an_address_that_is_refused_is_told_again_and_why_it_is_said_once(self) -> None:
        post = mock.AsyncMock(side_effect=[Refused("a has used its share"), Refused("a has used its share"), 9])
        node, said = mock.Mock(recorders=mock.Mock(post=post)), io.StringIO()
        node.name = "a"
        with mock.patch.object(handover, "LATER", 0.0), contextlib.redirect_stderr(said):
            await handover.tell_address(node, "alpha", "31500")
        self.assertEqual([it.args for it in post.call_args_list], [("a/address/alpha/31500", None)] * 3)
        self.assertRegex(
            said.getvalue(), r"\Aa: the ledger does not take the address alpha:31500, .* a has used its share; .*\n\Z"
        )


class Shareless(NetworkCase):
    async def test_a_node_whose_address_is_refused_serves_what_it_holds(self) -> None:
        await self.local.up(FOUR)
        async with self.local.network() as network, self.local.network(OPERATOR) as operator:
            name = await self.store(network)
            self.assertTrue(await network.until(lambda it: it.certificate(name) == (0, 4)), self.logs())
            await operator.recorders.post(entry_key(OPERATOR, "share", "node-0", 0))
            before = network.ledger.addresses["node-0"]
            for node, host in (("node-0", "localhost"), ("node-1", "[::1]")):  # node-0 may not post it
                path, port = self.folder / f"{node}.toml", network.ledger.addresses[node][1]
                await self.local.end(node)
                file.write(Settings, path, file.values_of(path) | {"announced": f"{host}:{port}"})
                await self.local.start_node(node)
            self.assertTrue(await network.until(lambda it: it.addresses["node-1"][0] == "::1"), self.logs())
            async with asyncio.timeout(30):
                while "node-0: the ledger does not take the address localhost:" not in self.log("node-0"):
                    await asyncio.sleep(0.1)
            self.assertEqual(network.ledger.addresses["node-0"], before)
            for node in ("node-1", "node-2"):
                await self.local.end(node)
            await self.reads_all(network)  # from node-0 and node-3
            for node in ("node-1", "node-2"):
                await self.local.start_node(node)
        await self.check()
