"""What etcd's unit starts, without a systemd: it takes connections while its files change, and new ones at a start."""
import collections
import pathlib
import shlex
import shutil
import socket
import ssl
import subprocess
import tempfile
import time
import unittest

from walrus.network import TOP
from walrus.network.deploy.local import free_port
from walrus.network.deploy.machine import ETCD_AUTHORITY, Machine, Place
from walrus.network.service import certificates

UNIT = TOP / "network" / "units" / "walrus-etcd.service"


@unittest.skipIf(shutil.which("etcd") is None, "etcd is not here (network/install)")
class Etcd(unittest.TestCase):
    def setUp(self) -> None:
        made = tempfile.TemporaryDirectory(prefix="walrus-units-")
        self.addCleanup(made.cleanup)
        self.folder = pathlib.Path(made.name)
        self.etc, self.given = self.folder / "etc", self.folder / "given"
        self.given.mkdir()
        for name in ("authority", ETCD_AUTHORITY):
            certificates.make_authority(self.folder / name)
        self.ports = free_port(), free_port()
        machine = Machine(self.folder, self.etc, str(self.etc), str(self.folder / "state"), {})
        machine.etcd(
            "alpha", Place("alpha", "127.0.0.1", 0), {"alpha": [f"https://127.0.0.1:{it}" for it in self.ports]}
        )

    def start(self) -> "subprocess.Popen[bytes]":
        """Starts etcd as the unit does."""
        told = collections.defaultdict[str, list[str]](list)
        for line in UNIT.read_text().replace("\\\n", " ").splitlines():
            name, _, value = line.partition("=")
            told[name].append(value)
        for name, path in (it.split(":") for it in told["LoadCredential"]):
            shutil.copyfile(self.etc / pathlib.Path(path).name, self.given / name)
        variables = dict(line.split("=", 1) for line in (self.etc / "etcd.env").read_text().splitlines())
        for name in " ".join(told["UnsetEnvironment"]).split():
            del variables[name]
        words = [it.replace("${CREDENTIALS_DIRECTORY}", str(self.given)) for it in shlex.split(told["ExecStart"][0])]
        words[0] = str(shutil.which(words[0]))
        ran = subprocess.Popen(words, env=variables, stderr=subprocess.DEVNULL)
        self.addCleanup(ran.wait)
        self.addCleanup(ran.kill)
        return ran

    def shown(self, ran: "subprocess.Popen[bytes]", port: int) -> bytes:
        """The certificate that etcd shows at a port, once it listens."""
        context = ssl.create_default_context(cafile=str(self.etc / f"{ETCD_AUTHORITY}.crt"))
        context.load_cert_chain(self.etc / "etcd.crt", self.etc / "etcd.key")
        end = time.monotonic() + 60
        while True:
            try:
                there = socket.create_connection(("127.0.0.1", port), 20)
            except ConnectionRefusedError:
                self.assertIsNone(ran.poll(), "etcd has ended")
                self.assertLess(time.monotonic(), end, "etcd does not listen")
                time.sleep(0.1)
                continue
            with there, context.wrap_socket(there, server_hostname="127.0.0.1") as known:
                return known.getpeercert(True) or b""

    def test_a_member_takes_connections_while_its_certificate_is_replaced(self) -> None:
        def own() -> bytes:
            return ssl.PEM_cert_to_DER_cert((self.etc / "etcd.crt").read_text())

        ran, old = self.start(), own()
        self.assertEqual([self.shown(ran, it) for it in self.ports], [old, old])
        names = "localhost", "127.0.0.1", "alpha"
        certificates.make(self.etc / "etcd", self.folder / ETCD_AUTHORITY, "alpha", names)
        self.assertNotEqual(own(), old)
        self.assertEqual([self.shown(ran, it) for it in self.ports], [old, old])
        ran.terminate()
        ran.wait(30)
        ran = self.start()
        self.assertEqual([self.shown(ran, it) for it in self.ports], [own(), own()])
