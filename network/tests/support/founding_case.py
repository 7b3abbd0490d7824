"""Shared by the tests of founding: an empty folder, and how to found a network there."""
import asyncio
import contextlib
import io
import pathlib
import tempfile
import unittest
from unittest import mock

from walrus.network.cli import commands, operators

THREE = ["alpha=alpha:31500*2", "beta=beta:31500", "gamma=gamma:31500"]


class FoundingCase(unittest.IsolatedAsyncioTestCase):
    """A folder in which nothing is founded yet."""

    def setUp(self) -> None:
        made = tempfile.TemporaryDirectory()
        self.addCleanup(made.cleanup)
        self.folder = pathlib.Path(made.name) / "net"

    async def asyncSetUp(self) -> None:
        asyncio.get_running_loop().set_debug(False)

    async def says(self, *words: object, status: int = 0) -> str:
        """Runs a command of walrus-net that needs no ledger, and returns its output."""
        out = io.StringIO()
        with mock.patch("sys.argv", ["walrus-net", *map(str, words)]), contextlib.redirect_stdout(out):
            parsed = commands.parse()
            self.assertEqual(await operators.RUNS[parsed.command](parsed), status)
        return out.getvalue()

    async def found(self, *more: object) -> None:
        words = ["--faults", 1, "--ledger", "alpha", "beta", "gamma", *THREE, "--concentrated"]
        await self.says("found", self.folder, *words, "--gateway", "gate=office", "--user", "printer", *more)
