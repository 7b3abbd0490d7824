"""The files of a network's machines as it is founded."""
import contextlib
import errno
import fnmatch
import json
import pathlib
import re
import shlex
import socket
import ssl
import threading
from unittest import mock

from support.founding_case import THREE, FoundingCase
from walrus.network import TOP
from walrus.network.deploy.founding import must_fit, owners_of
from walrus.network.deploy.machine import Place, Unfounded
from walrus.network.ledger import entries
from walrus.network.ledger.entries import Entry
from walrus.network.ledger.rules import Ledger
from walrus.network.settings.services import GatewaySettings, RecorderSettings, Settings
from walrus.wire.connection import bound


class Found(FoundingCase):
    async def test_each_machine_has_what_it_runs_and_no_key_of_an_authority(self) -> None:
        await self.found()
        hosts = {it.name: {path.name for path in it.rglob("*")} for it in (self.folder / "hosts").iterdir()}
        self.assertEqual({*hosts}, {"alpha", "beta", "gamma", "office"})
        for name in ("alpha", "beta", "gamma"):
            needed = {f"{it}.{end}" for it in ("etcd", "recorder", name) for end in ("crt", "key")}
            needed |= {"etcd.env", "recorder.toml", f"{name}.toml", "authority.crt", "etcd-authority.crt"}
            self.assertEqual(needed - hosts[name], set())
        self.assertNotIn("etcd.key", hosts["office"])
        self.assertFalse(any("authority.key" in it or "etcd-authority.key" in it for it in hosts.values()))
        for path in self.folder.rglob("*.key"):
            self.assertEqual(path.stat().st_mode & 0o777, 0o600, path)
        told = Settings.read(self.folder / "hosts" / "alpha" / "alpha.toml")
        self.assertEqual((told.database, told.announced), ("/var/lib/walrus/alpha/alpha.db", "alpha:31500"))
        self.assertEqual((told.host, told.recorders), ("", ["alpha:31416", "beta:31416", "gamma:31416"]))
        self.assertIn("PEER_URLS=https://0.0.0.0:2380\n", (self.folder / "hosts" / "alpha" / "etcd.env").read_text())
        gate = GatewaySettings.read(self.folder / "hosts" / "office" / "gate.toml")
        self.assertEqual((gate.host, gate.port, gate.key), ("127.0.0.1", 31415, "/etc/walrus/gate.key"))
        self.assertTrue(json.loads((self.folder / "users" / "operator" / "network.json").read_text())["nodes"])

    async def test_certificates_are_taken_by_tls_for_their_names_and_no_others(self) -> None:
        await self.found()
        own = self.folder / "hosts" / "alpha"
        for file, name, by, known in (
            ("alpha", "alpha", "authority", True),
            ("recorder", "recorder", "authority", True),
            ("alpha", "recorder", "authority", False),
            ("etcd", "127.0.0.1", "etcd-authority", True),
            ("etcd", "alpha", "authority", False),
        ):
            with self.subTest(file=file, name=name, by=by):
                self.assertEqual(self.is_taken(own / file, self.folder / f"{by}.crt", name), known)

    def is_taken(self, own: pathlib.Path, authority: pathlib.Path, name: str) -> bool:
        """Whether a client that trusts an authority accepts a server with a certificate for this name."""
        server, client = ssl.create_default_context(ssl.Purpose.CLIENT_AUTH), ssl.create_default_context()
        server.load_cert_chain(f"{own}.crt", f"{own}.key")
        client.load_verify_locations(authority)
        here, there = socket.socketpair()

        def serve() -> None:
            with contextlib.suppress(OSError), there, server.wrap_socket(there, server_side=True) as made:
                made.recv(1)

        thread = threading.Thread(target=serve)
        thread.start()
        try:
            with here, client.wrap_socket(here, server_hostname=name):
                return True
        except ssl.SSLCertVerificationError:
            return False
        finally:
            thread.join()

    async def test_each_unit_that_the_manual_names_is_one_that_is_made(self) -> None:
        await self.found()
        plan = json.loads((self.folder / "network.json").read_text())
        services = {re.sub("@.*", "@NAME", it) for services in plan["hosts"].values() for it in services}
        made = {it.name.replace("@", "@NAME").removesuffix(".service") for it in self.folder.glob("hosts/*/units/*")}
        self.assertEqual(services, made)
        text = (TOP / "network" / "OPERATING.md").read_text()
        words = [it for line in re.findall(r"systemctl ([^`&;\n]+)", text) for it in shlex.split(line)]
        named = [re.sub("@[^*]+", "@NAME", it) for it in words if it.startswith("walrus-")]
        self.assertGreater(len(named), 10)
        self.assertEqual([it for it in named if not fnmatch.filter(made, it)], [])

    async def test_what_makes_no_network_is_refused_and_leaves_nothing(self) -> None:
        faults = {"--faults": 1, "--ledger": "alpha"}
        for nodes, text in (
            (THREE, "alpha has 2 shards, and the network tolerates the loss of 1"),
            (THREE[1:], "the nodes must have 4 shards in total, not 2"),
            (["a=x:1", "a=y:1", "b=z:1", "c=w:1"], "a name of its own"),
            (["operator=x:1", "a=y:1", "b=z:1", "c=w:1"], "operator"),
            (["a=x:70000", "a=y:1", "b=z:1", "c=w:1"], "port 70000"),
            (["a=x", "b=y:1", "c=z:1", "d=w:1"], "a=x is not NAME=HOST:PORT"),
            (["a=recorder:1", "b=y:1", "c=z:1", "d=w:1"], "a machine cannot be called recorder"),
            (["a=Recorder.:1", "b=y:1", "c=z:1", "d=w:1"], "a machine cannot be called recorder"),
        ):
            words = [str(it) for pair in faults.items() for it in pair]
            with self.subTest(nodes=nodes), self.assertRaisesRegex(Unfounded, text):
                await self.says("found", self.folder, *words, *nodes)
            self.assertFalse(self.folder.exists())
        for words in (["recorder", *THREE], ["alpha", *THREE, "--gateway", "gate=RECORDER"]):
            with self.subTest(words=words), self.assertRaisesRegex(Unfounded, "a machine cannot be called recorder"):
                await self.says("found", self.folder, "--faults", 1, "--concentrated", "--ledger", *words)
            self.assertFalse(self.folder.exists())
        long = [f"{it * 32}.{it * 31}=h{it}:1*100" for it in "abcdefghij"]
        with self.assertRaisesRegex(Unfounded, "the names of 1000 shards are too long"):
            await self.says("found", self.folder, "--faults", 333, "--ledger", "alpha", *long)
        await self.found()
        with self.assertRaisesRegex(Unfounded, "has a network already"):
            await self.found()

    async def test_a_thousand_shards_on_ten_machines(self) -> None:
        nodes = [f"n{number}=host-{number}:31500*100" for number in range(10)]
        await self.says("found", self.folder, "--faults", 333, "--ledger", "host-0", *nodes)
        plan = json.loads((self.folder / "network.json").read_text())
        self.assertEqual(sum(shards for _, _, shards in plan["nodes"].values()), 1_000)

    def test_every_f_has_its_committee_by_weights_too(self) -> None:
        for faults in range(1, 334):
            count = 3 * faults + 1
            weights = [faults, faults, faults, 1]  # as few nodes as there may be
            few = [Place(f"n{at}", f"h{at}", 1, shards) for at, shards in enumerate(weights)]
            many = [Place(f"n{at}", f"h{at}", 1) for at in range(count)]
            for places in (few, many):
                must_fit(faults, places, False)
                begin = entries.entry_key("operator", "begin", 0, faults, ",".join(owners_of(places)))
                self.assertEqual(Ledger().apply(Entry(1, begin)), "founded", faults)
            for wrong in ([faults + 1, faults, faults, 0], [faults, faults, faults, 2]):
                with self.assertRaises(Unfounded):
                    must_fit(faults, [Place(f"n{at}", f"h{at}", 1, it) for at, it in enumerate(wrong)], False)
        for faults in (0, 334):
            with self.assertRaisesRegex(Unfounded, "faults is a number from 1 to 333"):
                must_fit(faults, [Place("n", "h", 1, 3 * faults + 1)], True)

    async def test_places_are_read_as_they_are_written(self) -> None:
        self.assertEqual(Place.read("a=[fd00::1]:7*3"), Place("a", "fd00::1", 7, 3))
        self.assertEqual(
            (Place.read("[fd00::1]", "r", 9).address, Place.read("[fd00::1]", "r", 9).listens),
            ("[fd00::1]:9", "fd00::1"),
        )

    async def test_a_machine_that_has_a_name_listens_at_all_its_addresses(self) -> None:
        await self.found()
        own = self.folder / "hosts" / "alpha"
        for kinds in ({socket.AF_INET, socket.AF_INET6}, {socket.AF_INET}):  # of a system that lacks IPv6

            def listen(_: object, family: int, kinds: set[int] = {*kinds}, **words: int) -> mock.Mock:
                if family not in kinds:
                    raise OSError(errno.EAFNOSUPPORT, "the system lacks it")
                return mock.Mock(family=family)

            for told in (Settings.read(own / "alpha.toml"), RecorderSettings.read(own / "recorder.toml")):
                with mock.patch.object(socket, "create_server", listen):
                    self.assertEqual({it.family for it in bound(told.host, told.port)}, kinds)

    async def test_with_a_prefix_all_lies_behind_it(self) -> None:
        await self.found("--prefix", "/srv/one")
        told = Settings.read(self.folder / "hosts" / "beta" / "beta.toml")
        self.assertEqual(
            (told.key, told.database), ("/srv/one/etc/walrus/beta.key", "/srv/one/var/lib/walrus/beta/beta.db")
        )
        self.assertFalse((self.folder / "hosts" / "beta" / "units").exists())
