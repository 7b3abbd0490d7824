"""The files of a network's machines as nodes come and go and certificates are renewed."""
import contextlib
import datetime
import json
import pathlib
from unittest import mock

from support.founding_case import FoundingCase
from walrus.network import TOP
from walrus.network.deploy.founding import Founding
from walrus.network.deploy.local import Local
from walrus.network.deploy.machine import Unfounded
from walrus.network.service import certificates
from walrus.network.service.failure import Failure


class Changed(FoundingCase):
    async def test_nodes_come_and_go(self) -> None:
        await self.found()
        said = await self.says("add", self.folder, "delta=delta:31500", "--user", "reader")
        self.assertIn(f"{self.folder}/hosts/delta is for delta:/etc/walrus, which runs walrus-node@delta\n", said)
        self.assertIn("delta", json.loads((self.folder / "users" / "reader" / "network.json").read_text())["nodes"])
        with self.assertRaisesRegex(Unfounded, "delta is there already"):
            await self.says("add", self.folder, "delta=other:31500")
        await self.says("remove", self.folder, "gamma", "gate", "printer")
        self.assertFalse([*self.folder.rglob("gamma.*"), *self.folder.rglob("gate.*"), *self.folder.rglob("printer*")])
        self.assertTrue((self.folder / "hosts" / "gamma" / "etcd.key").exists())  # gamma still belongs to the ledger
        self.assertFalse((self.folder / "hosts" / "office").exists())
        with self.assertRaisesRegex(Unfounded, "gamma is no node"):
            await self.says("remove", self.folder, "gamma")

    async def test_a_node_goes_alone_whose_name_begins_that_of_another_one(self) -> None:
        await self.found()
        await self.says("add", self.folder, "delta=delta:31500", "delta.b=delta:31501")
        await self.says("remove", self.folder, "delta")
        left = {path.name for path in (self.folder / "hosts" / "delta").glob("delta*")}
        self.assertEqual(left, {f"delta.b.{end}" for end in ("toml", "crt", "key")})

    async def test_settings_that_were_changed_in_the_founder_s_folder_stay(self) -> None:
        """A machine that is replaced gets them; with a smaller quota than before it would stop the ledger."""
        await self.found()
        changed = {
            path: path.read_text() + "\n" for path in self.folder.glob("hosts/*/*") if path.suffix in (".env", ".toml")
        }
        for path, text in changed.items():
            path.write_text(text)
        await self.says("add", self.folder, "delta=delta:31500", "epsilon=alpha:31501")
        await self.says("renew", self.folder, "alpha", "etcd")
        self.assertEqual({path: path.read_text() for path in changed}, changed)
        page = (TOP / "network" / "OPERATING.md").read_text()
        self.assertIn("Change the quota in `net/hosts/*/etcd.env` on desk too", page)
        self.assertGreater(len(changed), 7)

    async def test_each_machine_has_the_units_of_the_version_that_changed_its_files_last(self) -> None:
        await self.found()
        unit = "units/walrus-etcd.service"
        new = (TOP / "network" / unit).read_text()
        for words in (["add", self.folder, "delta=delta:31500"], ["renew", self.folder]):
            for host in ("alpha", "gamma"):
                (self.folder / "hosts" / host / unit).write_text("[Service]\n")  # as an earlier version had it
            await self.says(*words)
            self.assertEqual({path.read_text() for path in self.folder.glob(f"hosts/*/{unit}")}, {new})

    async def test_on_one_machine_too_no_node_takes_a_name_whose_files_are_others(self) -> None:
        local = Local(self.folder)
        await local.found()
        before = {path: path.read_bytes() for path in self.folder.rglob("*") if path.is_file()}
        for name in ("etcd", "Authority", "etcd-authority", "recorder", "operator", "a b", "../x", "a=b", ""):
            with self.assertRaises(Unfounded, msg=name):
                await local.add_node(name)
        there = {path: path.read_bytes() for path in self.folder.parent.rglob("*") if path.is_file()}
        self.assertEqual(there, before)
        await local.add_node("node-4")
        self.assertTrue((self.folder / "node-4.toml").exists())

    async def test_nobody_is_told_to_expel_the_operator_and_nobody_can(self) -> None:
        await self.found()
        self.assertIn("; if its key may be known, expel it", await self.says("remove", self.folder, "gate"))
        said = await self.says("remove", self.folder, "operator")
        self.assertRegex(said, "^operator is removed, which was at users: add --user operator makes another one; ")
        self.assertNotIn("expel", said)
        await self.says("add", self.folder, "--user", "operator")
        with self.assertRaisesRegex(Failure, "operator cannot be expelled: no epoch could begin any more"):
            await self.says("expel", self.folder / "users" / "operator", "operator")

    async def test_an_authority_that_ends_soon_is_renewed_and_what_it_signed_stays_signed(self) -> None:
        await self.found("--days", 20)
        alpha, authority = self.folder / "hosts" / "alpha", self.folder / "authority.crt"
        before, leaf = certificates.read(authority), certificates.read(alpha / "alpha.crt")
        said = await self.says("renew", self.folder)
        self.assertIn(f"{alpha}/authority.crt is new", said)
        self.assertNotIn("alpha.crt", said)
        after = certificates.read(alpha / "authority.crt")
        self.assertGreater(after.not_valid_after, before.not_valid_after + datetime.timedelta(days=3_000))
        self.assertEqual(certificates.read(alpha / "alpha.crt"), leaf)
        self.assertTrue(certificates.is_signed(leaf, after))
        self.assertIn("no certificate expires so soon", await self.says("renew", self.folder))

    async def test_a_renewal_that_was_interrupted_is_completed_by_the_next_one(self) -> None:
        """The first one ended between two copies of the authority, and a full disk left one of them empty."""
        await self.found("--days", 20)
        authority = self.folder / "authority.crt"
        late, empty = self.folder / "hosts/gamma/authority.crt", self.folder / "users/operator/authority.crt"
        before = authority.read_bytes()
        await self.says("renew", self.folder)
        late.write_bytes(before)
        empty.write_bytes(b"")
        with mock.patch.object(Founding, "renew", return_value=[]):
            await self.says("renew", self.folder, "authority", "etcd-authority")  # reads no copy of theirs
        said = await self.says("renew", self.folder)
        self.assertEqual([path for path in (authority, late, empty) if f"{path} is new\n" in said], [late, empty])
        copies = {path.read_bytes() for path in self.folder.rglob("authority.crt")}
        self.assertEqual((copies, before in copies), ({authority.read_bytes()}, False))
        self.assertIn("no certificate expires so soon", await self.says("renew", self.folder))

    async def test_a_certificate_is_renewed_by_name_with_all_its_names(self) -> None:
        await self.found()
        path = self.folder / "hosts" / "alpha" / "recorder.crt"
        before = certificates.read(path)
        await self.says("renew", self.folder, "recorder", "--days", 9)
        after = certificates.read(path)
        self.assertEqual(certificates.names_of(after), certificates.names_of(before))
        self.assertEqual(certificates.names_of(after), ["recorder", "alpha"])
        self.assertNotEqual(after.public_key().public_numbers(), before.public_key().public_numbers())  # type: ignore
        self.assertLess(certificates.days_left(after), 9)
        self.assertEqual(self.faults_of(path), [])

    async def test_with_a_slow_clock_nothing_is_renewed_and_with_a_right_one_what_a_fast_one_made(self) -> None:
        with mock.patch.object(certificates, "EARLIER", datetime.timedelta(hours=-1)):
            await self.found()
        before = {path: path.read_bytes() for path in self.folder.rglob("*.crt")}
        for named, late in (([], "authority"), (["alpha"], "authority"), (["authority"], "etcd-authority")):
            text = f"/{late}.crt is not valid before .* UTC: set the clock here if it is slow; "
            text += "if it was fast .*/net authority etcd-authority\\), and then .*$"  # both are always made together
            with self.subTest(named=named), self.assertRaisesRegex(Unfounded, text):
                await self.says("renew", self.folder, *named)
            self.assertEqual({path: path.read_bytes() for path in before}, before)
        await self.says("renew", self.folder, "authority", "etcd-authority")
        await self.says("renew", self.folder)
        self.assertEqual([path for path in before if certificates.early(certificates.read(path))], [])
        self.assertIn("no certificate expires so soon", await self.says("renew", self.folder))

    async def test_what_others_have_signed_is_not_renewed(self) -> None:
        """A gateway's certificate for HTTPS is beside its settings, and is of another authority."""
        await self.found()
        office = self.folder / "hosts" / "office"
        certificates.make_authority(self.folder.parent / "foreign")
        certificates.make(office / "web", self.folder.parent / "foreign", "blobs.example", ["blobs.example"], 20)
        own = [office / "web.crt", office / "web.key"]
        before = [it.read_bytes() for it in own]
        self.assertIn("no certificate expires so soon", await self.says("renew", self.folder))
        with self.assertRaisesRegex(Unfounded, "have signed no certificate of web: nothing was renewed$"):
            await self.says("renew", self.folder, "gate", "web")
        said = await self.says("renew", self.folder, "--within", 9_999)
        self.assertEqual((said.count("gate.crt"), said.count("web.crt")), (1, 0))
        self.assertEqual([it.read_bytes() for it in own], before)

    async def test_a_network_on_one_machine_renews_at_a_start_what_its_authorities_have_signed(self) -> None:
        local, web, foreign = Local(self.folder), self.folder / "web", self.folder.parent / "foreign"
        await local.found()
        await local.add_node("node-0")
        certificates.make_authority(foreign)
        certificates.make(web, foreign, "blobs.example", ["blobs.example"], 9)
        authorities = [self.folder / it for it in ("authority", "etcd-authority")]
        own = [self.folder / it for it in ("node-0", "recorder-0", "etcd", "users/operator", "users/publisher")]
        known = {it: certificates.read(it.with_suffix(".crt")) for it in own}
        fast = mock.patch.object(certificates, "EARLIER", datetime.timedelta(days=-9_999))
        for ends, days in ((contextlib.nullcontext(), 9.0), (contextlib.nullcontext(), -0.01), (fast, 19_999.0)):
            with self.subTest(days=days), ends:
                for path in authorities:
                    certificates.make_authority(path, days)
                for path, it in known.items():
                    by = authorities[path.name == "etcd"]
                    certificates.make(path, by, certificates.common_name(it), certificates.names_of(it), days)
            before = [web.with_suffix(it).read_bytes() for it in (".crt", ".key")]
            await local.found()
            for path, it in known.items():
                by, name = authorities[path.name == "etcd"].with_suffix(".crt"), certificates.common_name(it)
                files = path.with_suffix(".crt"), path.with_suffix(".key")
                self.assertEqual(certificates.faults_of(*files, by, name), [])
                made = certificates.read(files[0])
                self.assertEqual(
                    (certificates.names_of(made), certificates.days_left(made) > 800), (certificates.names_of(it), True)
                )
            self.assertTrue(
                all(certificates.days_left(certificates.read(it.with_suffix(".crt"))) > 3_000 for it in authorities)
            )
            self.assertEqual([web.with_suffix(it).read_bytes() for it in (".crt", ".key")], before)
            all_files = {it: it.read_bytes() for it in self.folder.rglob("*.*")}
            await local.found()
            self.assertEqual({it: it.read_bytes() for it in all_files}, all_files)

    def faults_of(self, path: pathlib.Path) -> list[str]:
        return certificates.faults_of(path, path.with_suffix(".key"), self.folder / "authority.crt", None)
