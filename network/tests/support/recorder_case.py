"""Shared by the tests of recorders: recorders over an etcd in memory."""
import asyncio
import unittest

from support.ledger_case import Memory
from walrus.network.recorder.appender import Recorder
from walrus.network.recorder.etcd import Batch


class RecorderCase(unittest.IsolatedAsyncioTestCase):
    """An etcd in memory, and recorders over it."""

    async def asyncSetUp(self) -> None:
        asyncio.get_running_loop().set_debug(False)
        self.etcd = Memory()

    async def recorder(self, *texts: str) -> Recorder:
        """Returns a recorder that has read all of etcd's ledger and appended these entries, each in its own batch."""
        made = Recorder(self.etcd)
        self.addCleanup(made.state.close)
        await made.catch_up()
        for text in texts:
            self.assertTrue(await made.step(Batch(made.chain, [text])))
        return made
