"""Faults of settings in their values and for the user who runs them, and names that nothing can have."""
import asyncio
import contextlib
import io
import os
import pathlib
import shutil
import tempfile
import unittest
from typing import Any
from unittest import mock

from walrus.network.cli import commands, operators
from walrus.network.deploy import units
from walrus.network.deploy.checking import check
from walrus.network.deploy.machine import Machine, Place, Unfounded
from walrus.network.gateway.auth import tokens
from walrus.network.service import certificates
from walrus.network.service.failure import Failure
from walrus.network.settings.file import Wrong
from walrus.network.settings.services import GatewaySettings, RecorderSettings, Settings

NODES = ["alpha=alpha:1", "beta=beta:1", "gamma=gamma:1", "delta=delta:1"]
SHOWN = "LoadState=loaded\nMemoryMax=4294967296\nReadWritePaths=/mnt/disk\nStateDirectory=walrus/alpha\n"


class SettingsCase(unittest.IsolatedAsyncioTestCase):
    """Settings of a node, a recorder and a gateway in a folder, without faults."""

    async def asyncSetUp(self) -> None:
        asyncio.get_running_loop().set_debug(False)
        made = tempfile.TemporaryDirectory(prefix="walrus-settings-")
        self.addCleanup(made.cleanup)
        self.folder = pathlib.Path(made.name).resolve()
        for name in ("authority", "etcd-authority"):
            certificates.make_authority(self.folder / name)
        certificates.make(self.folder / "etcd", self.folder / "etcd-authority", "alpha", ["alpha"])
        machine = Machine(self.folder, self.folder, "", "", {"program": "/bin/true", "recorders": ["alpha:1"]})
        machine.node(Place("alpha", "127.0.0.1", 31_500))
        machine.recorder(Place("recorder-0", "127.0.0.1", 31_416), "https://127.0.0.1:2379")
        machine.gateway(Place("gate", "127.0.0.1", 31_415))

    def change(self, file: str, **values: Any) -> pathlib.Path:
        """Write these settings to a file, in place of what it has or as new ones, and return its path."""
        path = self.folder / f"{file}.toml"
        lines = [it for it in path.read_text().splitlines() if it.partition(" = ")[0] not in values]
        path.write_text("\n".join([*lines, *(f"{name} = {it}" for name, it in values.items()), ""]))
        return path

    async def says(self, *words: object) -> str:
        """Return the output of a command of walrus-net that needs no ledger."""
        out = io.StringIO()
        with mock.patch("sys.argv", ["walrus-net", *map(str, words)]), contextlib.redirect_stdout(out):
            parsed = commands.parse()
            await operators.RUNS[parsed.command](parsed)
        return out.getvalue()


class Values(SettingsCase):
    async def test_numbers_without_a_meaning_are_refused_by_check_and_by_a_start(self) -> None:
        kinds: dict[str, Any] = {"alpha": Settings, "recorder": RecorderSettings, "gate": GatewaySettings}
        for name, setting, value, wanted in (
            ("alpha", "scrub_rate", "0", "scrub_rate must be at least 1, not 0"),
            ("alpha", "heal", "-1.0", "heal must be at least 0, not -1.0"),
            ("alpha", "scrub", "nan", "scrub must be at least 0, not nan"),
            ("alpha", "reserve", "5", "reserve is a fraction of the disk, at most 1, and not 5"),
            ("alpha", "reserve", "-0.5", "reserve must be at least 0"),
            ("alpha", "database", '"a.ledger"', "database must not end with .ledger: the node keeps its ledger"),
            ("alpha", "database", '"/srv/a.parts"', "database must not end with .parts"),
            ("alpha", "connections", "0", "connections must be at least 1"),
            ("alpha", "memory", "-1", "memory must be at least 0"),
            ("recorder", "patience", "-1", "patience must be at least 0"),
            ("gate", "probe", "0", "probe must be at least 0.1, not 0"),
            ("gate", "turns", "0", "turns must be at least 1"),
            ("gate", "uploads", "0", "uploads must be at least 1"),
            ("gate", "epochs", "0", "epochs must be at least 1"),
            ("gate", "stale", "1", "stale must be at least 2"),
            ("gate", "proxies", '["10.0.0.0/8"]', "proxies are addresses, .* and not 10.0.0.0/8"),
            ("gate", "proxies", '["::1", "0::1"]', "and not 0::1"),
            ("gate", "state", '""', "state is missing"),
        ):
            text = (self.folder / f"{name}.toml").read_text()
            with self.subTest(setting=setting, value=value):
                path = self.change(name, **{setting: value})
                self.assertRegex("; ".join(check(path)[1]), wanted)
                with self.assertRaisesRegex(Wrong, wanted):
                    kinds[name].read(path)
            path.write_text(text)

    async def test_a_node_at_all_addresses_says_where_others_reach_it(self) -> None:
        [fault] = check(self.change("alpha", host='""'))[1]
        self.assertIn("announced is missing", fault)
        self.assertEqual(check(self.change("alpha", announced='"alpha:31500"'))[1], [])
        self.assertEqual(check(self.change("recorder", host='""'))[1], [])

    async def test_what_a_setting_leaves_out_or_shuts_off_is_taken(self) -> None:
        for name, values, told in (
            ("alpha", {"scrub": "0", "heal": "0", "reserve": "0.0", "kept": "0"}, []),
            ("alpha", {"reserve": "1.0"}, []),
            ("gate", {"challenge": "0", "requests": "0", "rate": "0.0"}, []),
            ("gate", {"proxies": '["10.0.0.1", "fd00::1"]'}, ["anyone who reaches it may read"]),
        ):
            faults, soon = check(self.change(name, **values))[1:]
            self.assertEqual((faults, [it.partition(",")[0] for it in soon]), ([], told))

    async def test_options_of_a_command_line_have_the_same_bounds(self) -> None:
        for words, wanted in (
            (["--requests", "-1"], "requests must be at least 0"),
            (["--stale", "0"], "stale must be at least 2"),
            (["--proxies", "127.0.0.1,localhost"], "proxies are addresses, .* and not localhost"),
        ):
            for command in ("gateway", "up"):
                with self.subTest(words=words), self.assertRaisesRegex(Failure, wanted):
                    await self.says(command, self.folder, *words)

    async def test_a_log_is_beside_the_settings_or_on_standard_output(self) -> None:
        told = GatewaySettings.read(self.change("gate", log='"a.log"'))
        self.assertEqual(told.log, str(self.folder / "a.log"))
        self.assertEqual(GatewaySettings.read(self.change("gate", log='"-"')).log, "-")

    async def test_a_file_of_tokens_that_is_named_must_be_there(self) -> None:
        self.assertEqual(check(self.change("gate", tokens='"tokens.json"'))[1], [])  # the default one
        for name, values in (("tokens.used", dict[str, str]()), ("kept.used", {"used": '"kept.used"'})):
            (self.folder / name).touch()
            [fault] = check(self.change("gate", **values))[1]
            self.assertIn(f"tokens.json is not there, but {self.folder / name} is, so there have been tokens", fault)
            (self.folder / name).unlink()
        [fault] = check(path := self.change("gate", tokens='"tokns.json"'))[1]
        self.assertIn(f"tokens: {self.folder}/tokns.json is not there", fault)
        (self.folder / "tokns.json").write_text("{}")
        self.assertEqual(check(path)[1], [])

    async def test_the_pair_for_https_is_opened(self) -> None:
        own = {"tls_certificate": '"web.crt"', "tls_key": '"web.key"'}
        path = self.change("gate", **own)
        self.assertIn("No such file", "".join(check(path)[1]))
        certificates.make(self.folder / "web", self.folder / "authority", "web", ["web.example"])
        self.assertEqual(check(path)[1:], ([], []))
        self.assertIn("is not the key of", check(self.change("gate", **own | {"tls_key": '"gate.key"'}))[1][0])
        self.assertEqual(check(self.change("gate", tls_key='""'))[1], ["tls_certificate and tls_key go together"])
        certificates.make(self.folder / "web", self.folder / "authority", "web", ["web.example"], -0.01)
        self.assertIn("web.crt has expired on", check(self.change("gate", **own))[1][0])


class Root(SettingsCase):
    """Settings with which a unit runs, checked by root."""

    async def asyncSetUp(self) -> None:
        await super().asyncSetUp()
        self.folder.chmod(0o755)
        said = {"show": SHOWN, "cat": "LoadCredential=%i.key:/etc/walrus/%i.key\n"}
        for name, it in (("ETC", self.folder), ("systemctl", lambda *words: said[words[0]])):
            self.enterContext(mock.patch.object(units, name, it))
        self.enterContext(mock.patch.object(os, "geteuid", lambda: 0))
        self.path = self.change("alpha", database='"/var/lib/walrus/alpha/alpha.db"')

    def warned(self, path: pathlib.Path) -> list[str]:
        return [it for it in check(path)[2] if it.startswith("walrus-node@alpha.service")]

    async def test_nothing_is_said_of_what_a_unit_can_do(self) -> None:
        self.assertEqual(self.warned(self.path), [])
        self.assertEqual(self.warned(self.change("alpha", database='"/mnt/disk/alpha.db"')), [])

    @unittest.skipIf(os.getuid(), "needs files of root")
    async def test_what_root_alone_can_read_is_told(self) -> None:
        for name in ("alpha.toml", "alpha.crt", "authority.crt"):
            (self.folder / name).chmod(0o640)
            said = self.warned(self.path)
            self.assertEqual(len(said), 1, said)
            self.assertIn(f"cannot read {self.folder / name}, as {self.folder / name} is for root alone", said[0])
            (self.folder / name).chmod(0o644)
        self.folder.chmod(0o750)
        said = self.warned(self.path)
        self.assertEqual(len(said), 1, said)
        self.assertIn(f"as {self.folder} is for root alone: chmod go+rX {self.folder}", said[0])
        self.folder.chmod(0o755)
        shutil.copyfile(self.folder / "alpha.key", self.folder / "other.key")
        (self.folder / "other.key").chmod(0o600)
        self.assertIn("hand it over by LoadCredential", self.warned(self.change("alpha", key='"other.key"'))[0])

    async def test_what_a_unit_cannot_write_or_take_is_told(self) -> None:
        path = self.change("alpha", database='"/srv/alpha.db"', memory="6000000000")
        said = self.warned(path)
        self.assertIn(
            "cannot write database to /srv/alpha.db, but only below /var/lib/walrus/alpha and /mnt/d", said[0]
        )
        self.assertIn("is ended above 4294967296 bytes (MemoryMax), and memory is 6000000000", said[1])

    async def test_so_is_what_a_gateway_writes_without_being_told(self) -> None:
        path = self.change("gate", tokens='""', used='""', state='"/var/lib/walrus/alpha/a.ledger"')
        said = [it for it in check(path)[2] if "cannot write" in it]
        self.assertEqual(len(said), 1, said)
        self.assertIn(f"cannot write used to {self.folder}/tokens.used, but only below /var/lib/walrus/alpha", said[0])


class Names(SettingsCase):
    async def found(self, *more: object) -> str:
        return await self.says("found", self.folder / "net", "--faults", 1, "--ledger", "alpha", *NODES, *more)

    async def test_a_name_that_cannot_be_leaves_nothing_behind(self) -> None:
        for words, wanted in (
            (["--user", "Alice Smith"], "Alice Smith cannot be a user's name"),
            (["--user", "Authority"], "Authority cannot be a user's name"),
            (["--user", "Alpha"], "a name of its own"),
            (["--gateway", f"{'g' * 64}=office"], "is not possible: name g"),
            (["--gateway", "a..b=office"], r"is not possible: name a\.\.b"),
            (["--gateway", "gate=älpha"], "no certificate can have the name of the machine älpha"),
        ):
            with self.subTest(words=words), self.assertRaisesRegex(Unfounded, wanted):
                await self.found(*words)
            self.assertFalse((self.folder / "net").exists())
        await self.found("--user", "alice")

    async def test_nothing_is_added_if_one_name_cannot_be(self) -> None:
        await self.found()
        plan = (self.folder / "net" / "network.json").read_text()
        for words in (["zeta=alpha:2", "--user", "a b"], ["zeta=alpha:2", "beta=beta:2"], ["zeta=alpha:2", "y=a_b:2"]):
            with self.subTest(words=words), self.assertRaises(Unfounded):
                await self.says("add", self.folder / "net", *words)
            self.assertEqual((self.folder / "net" / "network.json").read_text(), plan)
            self.assertEqual([*self.folder.glob("net/**/zeta.*")], [])

    async def test_a_founding_that_was_broken_off_is_done_again(self) -> None:
        with mock.patch.object(Machine, "gateway", side_effect=OSError("no room")), self.assertRaises(OSError):
            await self.found("--gateway", "gate=office")
        self.assertIn("hosts/office is for office", await self.found("--gateway", "gate=office"))

    async def test_a_node_that_nobody_would_reach_is_told(self) -> None:
        self.assertIn("nobody reaches a node called a..b", check(self.change("alpha", name='"a..b"'))[1][0])

    async def test_under_any_umask_all_may_read_what_services_read(self) -> None:
        before, office = os.umask(0o077), self.folder / "net" / "hosts" / "office"
        self.enterContext(contextlib.redirect_stdout(io.StringIO()))
        try:
            await self.found("--gateway", "gate=office")
            with mock.patch("sys.argv", ["walrus-net", "token", "alice", "--folder", str(office), "--json"]):
                tokens.run(commands.parse())
            self.assertEqual(os.umask(0o077), 0o077)
        finally:
            os.umask(before)
        self.assertTrue((office / "tokens.json").exists())
        for path in (self.folder / "net" / "hosts").rglob("*"):
            wanted = 0o755 if path.is_dir() else 0o600 if path.suffix == ".key" else 0o644
            self.assertEqual(path.stat().st_mode & 0o777, wanted, path)
