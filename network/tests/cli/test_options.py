"""Options on the command lines of a gateway and of tokens reach the code that uses them."""
import contextlib
import hashlib
import io
import json
import pathlib
import secrets
import sys
import tempfile
import time
import unittest
from concurrent import futures
from unittest import mock

from walrus.network.cli import commands, operators
from walrus.network.gateway.auth import tokens
from walrus.network.settings.gateway_options import Options
from walrus.network.settings.services import Settings

EXPOSED = "--epochs 7 --stale 2.5 --memory 99 --tokens T --names a.example,b.example --proxies 192.0.2.1,192.0.2.2"
EXPOSED += " --certificate C --key K --sites sites.example --log - --requests 5 --rate 6"


class Words(unittest.IsolatedAsyncioTestCase):
    def setUp(self) -> None:
        made = tempfile.TemporaryDirectory(prefix="walrus-words-")
        self.addCleanup(made.cleanup)
        self.folder = pathlib.Path(made.name)

    def said(self, *words: object, status: int = 0) -> str:
        """Returns the output of walrus-net, and checks its exit status."""
        out, error = io.StringIO(), io.StringIO()
        with contextlib.redirect_stdout(out), contextlib.redirect_stderr(error):
            with mock.patch.object(sys, "argv", ["walrus-net", *map(str, words)]):
                self.assertEqual(commands.main(), status, error.getvalue())
        return out.getvalue()

    async def test_a_gateway_is_exposed_as_it_is_told(self) -> None:
        wanted = Options(epochs=7, stale=2.5, memory=99, tokens="T", names=["a.example", "b.example"])
        wanted.proxies, wanted.tls_certificate, wanted.tls_key = ["192.0.2.1", "192.0.2.2"], "C", "K"
        wanted.sites, wanted.log, wanted.requests, wanted.rate = "sites.example", "-", 5.0, 6.0
        for command, more, place in (("gateway", ["--port", "8"], "gateway.app.serve"), ("up", [], "deploy.up.up")):
            for words, options in ((EXPOSED.split(), wanted), ([], Options())):
                line = ["walrus-net", command, str(self.folder), *more, *words]
                with mock.patch.object(sys, "argv", line), mock.patch(f"walrus.network.{place}") as ran:
                    ran.side_effect = mock.AsyncMock(return_value=0)
                    self.assertEqual(await operators.RUNS[command](commands.parse()), 0)
                self.assertIn(options, ran.call_args.args, command)
            self.assertEqual((Options().epochs, Options().requests), (100, 1_000.0))

    async def test_a_certificate_and_its_key_go_together(self) -> None:
        for alone in ("--certificate", "--key"):
            with mock.patch.object(sys, "argv", ["walrus-net", "gateway", str(self.folder), alone, "C"]):
                with self.assertRaisesRegex(ValueError, "--certificate and --key go together"):
                    await operators.run_gateway(commands.parse())

    async def test_a_node_tells_its_numbers_where_it_is_told(self) -> None:
        for words, place in ((["--metrics", "9100"], "9100"), ([], "127.0.0.1:7")):
            with mock.patch.object(sys, "argv", ["walrus-net", "node", "settings", *words]):
                with mock.patch.object(Settings, "read", return_value=mock.Mock(metrics="127.0.0.1:7")):
                    with mock.patch("walrus.network.node.node.serve", mock.AsyncMock(return_value=0)) as ran:
                        await operators.run_node(commands.parse())
            self.assertEqual(ran.call_args.args[0].metrics, place)

    def test_a_token_has_the_rights_and_the_share_that_are_said(self) -> None:
        folder = ("--folder", self.folder)
        words = ("--rights", "store,read", "--bytes", 10**9, "--blobs", 70, "--epochs", 3)
        token = self.said("token", "alice", *words, *folder).strip()
        known = json.loads((self.folder / "tokens.json").read_text())
        digest = hashlib.sha256(token.encode()).hexdigest()
        told = {"sha256": digest, "rights": ["store", "read"], "bytes": 10**9, "blobs": 70, "epochs": 3}
        self.assertEqual(known, {"anyone": {"rights": ["read"]}, "alice": told})
        again = json.loads(self.said("token", "bob", "--rights", "read", "--json", *folder))
        self.assertEqual((again["name"], again["removed"]), ("bob", False))
        known = json.loads((self.folder / "tokens.json").read_text())
        self.assertEqual(
            known["bob"], {"sha256": hashlib.sha256(again["token"].encode()).hexdigest(), "rights": ["read"]}
        )
        self.assertEqual(known["alice"], told)
        self.assertNotIn(token, (self.folder / "tokens.json").read_text())

    def test_anyone_may_store_only_if_that_is_said(self) -> None:
        self.said("token", "anyone", "--folder", self.folder, status=1)
        self.assertEqual([*self.folder.iterdir()], [])
        self.said("token", "anyone", "--folder", self.folder, "--rights", "read,store")
        self.said("token", "alice", "--folder", self.folder)
        found = tokens.read_tokens(self.folder / "tokens.json")
        self.assertEqual([found[it].rights for it in ("anyone", "alice")], [{"read", "store"}] * 2)
        self.said("token", "anyone", "--folder", self.folder, "--remove")

    def test_tokens_that_are_made_at_once_are_all_known(self) -> None:
        path, drawn = self.folder / "tokens.json", secrets.token_urlsafe

        def slow(size: int) -> str:
            time.sleep(0.1)  # the file was read by then
            return drawn(size)

        tokens.change_token(path, "mallory", {"rights": ["read"]})
        names = [f"user-{it}" for it in range(4)]
        with mock.patch.object(secrets, "token_urlsafe", slow), futures.ThreadPoolExecutor() as pool:
            made = [pool.submit(tokens.change_token, path, it, {"rights": ["read"]}) for it in names]
            pool.submit(tokens.change_token, path, "mallory", None).result()
        self.assertEqual(len({it.result() for it in made}), 4)
        self.assertEqual({*tokens.read_tokens(path)}, {"anyone", *names})
