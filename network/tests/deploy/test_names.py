"""Names of nodes, gateways and users: adding and removing them, the plan that lists them, and the modes of keys."""
import contextlib
import json
import resource
import shutil
from typing import Iterator

from support.founding_case import FoundingCase
from walrus.network.deploy.machine import Unfounded


@contextlib.contextmanager
def full_disk() -> Iterator[None]:
    """Lets this process write no file of more than a few bytes."""
    before = resource.getrlimit(resource.RLIMIT_FSIZE)
    resource.setrlimit(resource.RLIMIT_FSIZE, (9, before[1]))
    try:
        yield
    finally:
        resource.setrlimit(resource.RLIMIT_FSIZE, before)


class Names(FoundingCase):
    async def asyncSetUp(self) -> None:
        await super().asyncSetUp()
        await self.found()

    async def test_a_certificate_that_nobody_has_is_not_renewed_nor_is_another_one(self) -> None:
        before = {path: path.read_bytes() for path in self.folder.rglob("*.crt")}
        for named in (["nobody"], ["alpha", "gama", "nobody"]):
            text = f"no certificate of {' or '.join(named[-2:])}: nothing was renewed$"
            with self.assertRaisesRegex(Unfounded, text):
                await self.says("renew", self.folder, *named)
        self.assertEqual({path: path.read_bytes() for path in self.folder.rglob("*.crt")}, before)

    async def test_no_name_is_that_of_another_one_in_upper_case(self) -> None:
        """TLS takes one for the other: a user called Recorder could answer as a recorder does."""
        for words, why in (
            (["--user", "Recorder"], "Recorder cannot be a user's name"),
            (["--user", "OPERATOR"], "OPERATOR cannot be a user's name"),
            (["RECORDER=delta:1"], "is not possible: name RECORDER"),
            (["--gateway", "recordeR=delta"], "is not possible: name recordeR"),
            (["--user", "Alpha"], "Alpha is there already"),
            (["--user", "GATE"], "GATE is there already"),
            (["Printer=delta:1"], "Printer is there already"),
        ):
            with self.subTest(words=words), self.assertRaisesRegex(Unfounded, why):
                await self.says("add", self.folder, *words)
        places = ["--faults", 1, "--ledger", "h", "a=h:1", "A=i:1", "b=j:1", "c=k:1"]
        with self.assertRaisesRegex(Unfounded, "has a name of its own"):
            await self.says("found", self.folder / "other", *places)

    async def test_what_was_removed_before_a_misspelt_name_is_forgotten(self) -> None:
        with self.assertRaisesRegex(Unfounded, "alpah is no node, gateway or user"):
            await self.says("remove", self.folder, "printer", "gate", "alpah", "alpha")
        for name in ("printer", "gate"):
            with self.assertRaisesRegex(Unfounded, f"{name} is no node"):
                await self.says("remove", self.folder, name)
        await self.says("add", self.folder, "--user", "printer", "--gateway", "gate=office")
        await self.says("remove", self.folder, "alpha")

    async def test_a_full_disk_leaves_the_plan_whole_and_what_failed_is_done_again(self) -> None:
        plan = (self.folder / "network.json").read_text()
        for name in ("printer", "gate"):
            with full_disk(), self.assertRaises(OSError):
                await self.says("remove", self.folder, name)
            self.assertEqual((self.folder / "network.json").read_text(), plan)
        await self.says("remove", self.folder, "printer", "gate")
        left = json.loads((self.folder / "network.json").read_text())
        self.assertEqual((left["users"], left["gateways"]), (["operator"], {}))
        self.assertEqual([*self.folder.glob(".network.json*")], [])


class Keys(FoundingCase):
    async def test_a_key_that_anyone_may_read_is_a_fault(self) -> None:
        await self.found("--prefix", self.folder / "root", "--program", "/bin/true")
        etc = self.folder / "root" / "etc" / "walrus"
        for host in ("alpha", "office"):
            shutil.copytree(self.folder / "hosts" / host, etc, dirs_exist_ok=True)
        for end in ("crt", "key"):
            shutil.copy(etc / f"gate.{end}", etc / f"https.{end}")
        with open(etc / "gate.toml", "a") as settings:
            settings.write('tls_certificate = "https.crt"\ntls_key = "https.key"\n')
        for name, key in (("alpha", "alpha"), ("recorder", "recorder"), ("recorder", "etcd"), ("gate", "https")):
            path = etc / f"{key}.key"
            path.chmod(0o755)
            said = await self.says("check", etc / f"{name}.toml", status=1)
            self.assertEqual(said, f"{etc}/{name}.toml: anyone on this machine may read {path}: chmod 600 {path}\n")
            path.chmod(0o640)
            await self.says("check", etc / f"{name}.toml")
