"""Checks of a machine before its services start, and what a service tells its manager."""
import asyncio
import contextlib
import datetime
import io
import os
import pathlib
import shutil
import socket
import tempfile
import unittest
from unittest import mock

from support.founding_case import FoundingCase
from walrus.network.deploy.checking import check, faults_of_https
from walrus.network.deploy.local import Local
from walrus.network.gateway import app
from walrus.network.peers.network import Access
from walrus.network.service import certificates, systemd
from walrus.network.settings import file
from walrus.network.settings.services import Settings


class Check(FoundingCase):
    async def asyncSetUp(self) -> None:
        """A node whose files are all where its settings say."""
        await super().asyncSetUp()
        await self.found("--prefix", str(self.folder / "root"), "--program", "/bin/true")
        self.etc = self.folder / "root" / "etc" / "walrus"
        shutil.copytree(self.folder / "hosts" / "alpha", self.etc)
        self.path = self.etc / "alpha.toml"
        self.text = self.path.read_text()

    async def test_what_is_in_order_is_said_to_be(self) -> None:
        said = await self.says("check", self.path, self.etc / "recorder.toml")
        lines = [f"{self.path}: the settings of a node", f"{self.etc}/recorder.toml: the settings of a recorder"]
        self.assertEqual(said, "".join(f"{line}, with nothing wrong\n" for line in lines))

    async def test_what_is_wrong_is_said_in_words(self) -> None:
        for change, wanted in (
            (("port = 31500", 'port = "31500"'), 'port must be a whole number, not "31500"'),
            (("port = 31500", "prot = 31500"), "prot is no setting of a node"),
            (('name = "alpha"\n', ""), "name is missing"),
            (('role = "node"', 'role = "nod"'), "it has no role, which is node or recorder or gateway"),
            (('role = "node"', 'role = "recorder"'), "database is no setting of a recorder"),
            (('role = "node"', "role = node"), "cannot be read: Invalid value (at line 1"),
            (('name = "alpha"', 'name = "beta"'), "has the name alpha, not beta"),
            (("alpha.key", "etcd.key"), "etcd.key is not the key of"),
            (("authority.crt", "etcd-authority.crt"), "was not signed by"),
            (("alpha.crt", "none.crt"), "No such file"),
            (("/bin/true", "/bin/none"), "program: /bin/none is not there"),
            (('"beta:31416"', '"beta"'), "beta is not HOST:PORT"),
        ):
            with self.subTest(wanted=wanted):
                self.assertIn(change[0], self.text)
                self.path.write_text(self.text.replace(*change))
                self.assertIn(wanted, await self.says("check", self.path, status=1))

    async def test_a_gateway_that_others_reach_without_tokens_is_told_before(self) -> None:
        """Such as one whose machine was replaced: it would start, and anyone could read."""
        office = self.folder / "hosts" / "office"
        shutil.copytree(office, self.etc, dirs_exist_ok=True)
        path, tokens = self.etc / "gate.toml", self.etc / "tokens.json"
        text, here = path.read_text(), 'host = "127.0.0.1"\n'
        self.assertIn(here, text)
        for change, warnings in ((here, 0), ('host = "0.0.0.0"\n', 1), (here + 'proxies = ["127.0.0.1"]\n', 1)):
            with self.subTest(change=change):
                path.write_text(text.replace(here, change))
                _, wrong, later = check(path)
                self.assertEqual((wrong, len(later)), ([], warnings), later)
                self.assertTrue(all(f"anyone who reaches it may read, as {tokens} is not there" in it for it in later))
                tokens.write_text("{}")
                self.assertEqual(check(path)[1:], ([], []))
                tokens.unlink()

    async def test_a_certificate_that_ends_is_told_before_and_wrong_behind(self) -> None:
        for days, faults, soon in ((5.0, 0, 1), (-0.01, 1, 0)):
            certificates.make(self.etc / "alpha", self.folder / "authority", "alpha", ["alpha"], days)
            _, wrong, later = check(self.path)
            self.assertEqual((len(wrong), len(later)), (faults, soon), (wrong, later))
            self.assertIn("renew it", [*wrong, *later][0])

    async def test_a_certificate_that_is_not_valid_yet_is_wrong(self) -> None:
        """The clock was two hours fast where it was made."""
        fast = mock.patch.object(certificates, "EARLIER", certificates.EARLIER - datetime.timedelta(hours=2))
        for name in ("alpha", "authority"):
            with self.subTest(name=name):
                with fast:
                    if name == "authority":
                        certificates.make_authority(self.folder / name)
                        shutil.copyfile(self.folder / f"{name}.crt", self.etc / f"{name}.crt")
                    else:
                        certificates.make(self.etc / name, self.folder / "authority", name, [name])
                _, wrong, later = check(self.path)
                self.assertEqual((len(wrong), later), (1, []), wrong)
                self.assertRegex(wrong[0], f"{name}.crt is not valid before .* UTC: set the clock here if it is slow; ")
                certificates.make(self.etc / "alpha", self.folder / "authority", "alpha", ["alpha"])
        with fast:
            certificates.make(self.folder / "own", self.folder / "authority", "gate", ["gate"])
        told = {"tls_certificate": str(self.folder / "own.crt"), "tls_key": str(self.folder / "own.key")}
        self.assertRegex(*faults_of_https(told), "own.crt is not valid before .* UTC: set the clock")

    async def test_a_service_reads_keys_where_its_manager_puts_them(self) -> None:
        given = self.folder / "given"
        given.mkdir()
        shutil.move(self.etc / "alpha.key", given / "alpha.key")
        with mock.patch.dict(os.environ, {"CREDENTIALS_DIRECTORY": str(given)}):
            self.assertEqual(Settings.read(self.path).key, str(given / "alpha.key"))
            self.assertEqual(Settings.read(self.path).certificate, str(self.etc / "alpha.crt"))

    async def test_an_unknown_setting_starts_nothing(self) -> None:
        self.path.write_text(self.text + "memroy = 7\n")
        with self.assertRaisesRegex(file.Wrong, "memroy is no setting of a node"):
            Settings.read(self.path)


class Loaded(unittest.IsolatedAsyncioTestCase):
    async def asyncSetUp(self) -> None:
        asyncio.get_running_loop().set_debug(False)
        self.folder = pathlib.Path(self.enterContext(tempfile.TemporaryDirectory()))

    async def test_a_service_says_each_day_that_its_certificate_expires_soon(self) -> None:
        certificates.make_authority(self.folder / "authority")
        self.enterContext(mock.patch.object(certificates, "DAY", 0.01))
        for days, lines in ((31.0, 0), (29.0, 3), (-0.01, 3)):
            certificates.make(self.folder / "own", self.folder / "authority", "alpha", ["alpha"], days)
            found = certificates.read(self.folder / "own.crt")
            left = mock.patch.object(certificates, "days_left", return_value=days)
            with contextlib.redirect_stderr(io.StringIO()) as said, contextlib.suppress(TimeoutError), left:
                async with asyncio.timeout(0.2):
                    await certificates.watch("node alpha", found)
            told = said.getvalue().splitlines()
            self.assertEqual(min(len(told), 3), lines, told)
            for line in told:
                self.assertRegex(line, f"^node alpha: .* alpha .* {found.not_valid_after:%Y-%m-%d}: renew it .*restart")

    async def test_each_service_looks_at_what_it_has_loaded(self) -> None:
        """Not at the files, which are newer if it was not started again after they were renewed."""
        local = Local(self.folder)
        self.addAsyncCleanup(local.close)
        await local.found()
        await local.add_node("node-0")
        names = ["node-0", "recorder-0", "etcd", "users/publisher"]
        for path in map(self.folder.joinpath, names):
            by, known = "etcd-authority" if path.name == "etcd" else "authority", certificates.read(
                path.with_suffix(".crt")
            )
            words = certificates.common_name(known), certificates.names_of(known), 9.0
            certificates.make(path, self.folder / by, *words)
        with mock.patch.object(local, "renew"):  # it would at a start
            await local.start_ledger()
        await local.start_node("node-0")
        access = Access.within(self.folder, "publisher")
        with contextlib.redirect_stderr(io.StringIO()) as said, contextlib.redirect_stdout(io.StringIO()) as ready:
            told = asyncio.Event()
            task = asyncio.create_task(app.serve(access, "127.0.0.1", 0, app.Options(), told))
            while "ready" not in ready.getvalue() and not task.done():
                await asyncio.sleep(0.01)
            await asyncio.sleep(0.1)
            told.set()
            self.assertEqual(await task, 0)
        for name, by in (("node-0", "node-0"), ("recorder-0", "recorder-0"), ("etcd", "recorder-0")):
            text = (self.folder / f"{by}.log").read_text()
            self.assertIn(f"{by}: the certificate of {name} that is loaded expires on", text)
        self.assertIn("publisher: the certificate of publisher that is loaded expires on", said.getvalue())


class Manager(unittest.IsolatedAsyncioTestCase):
    async def test_a_service_manager_hears_that_a_service_is_ready_and_lives(self) -> None:
        with tempfile.TemporaryDirectory() as folder, socket.socket(socket.AF_UNIX, socket.SOCK_DGRAM) as manager:
            manager.bind(f"{folder}/notify")
            manager.settimeout(5)
            told = {"NOTIFY_SOCKET": f"{folder}/notify", "WATCHDOG_USEC": "300000"}
            with mock.patch.dict(os.environ, told), contextlib.redirect_stdout(io.StringIO()):
                systemd.ready("here")
                self.assertEqual(manager.recv(99), b"READY=1")
                self.assertEqual(manager.recv(99), b"WATCHDOG=1")
                manager.setblocking(False)
                await asyncio.sleep(0.25)
                self.assertEqual(manager.recv(99), b"WATCHDOG=1")
