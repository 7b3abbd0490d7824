"""Three members of etcd on loopback, by the lines of OPERATING.md: restored while one is absent, and given new keys."""
import fnmatch
import json
import os
import pathlib
import re
import shutil
import subprocess
import tempfile
import time
import unittest
from typing import Callable, Iterator

from support import harness
from walrus.network.deploy.local import free_port
from walrus.network.deploy.machine import ETCD_AUTHORITY, Machine, Place
from walrus.network.service import certificates

NAMES = ["alpha", "beta", "gamma"]
PAGE = harness.HERE.parent / "OPERATING.md"


def lines_of(title: str) -> Iterator[tuple[list[str], str]]:
    """The lines of a section of the page, with the machines that they name."""
    text = PAGE.read_text().partition(f"# {title}\n")[2].partition("\n#")[0].replace("\\\n", "")
    for names, command in re.findall(r"(?m)^(\w+(?:, \w+)*)# (.*)", text):
        yield [it for it in names.split(", ") if it in NAMES], command


@unittest.skipIf(shutil.which("etcd") is None or shutil.which("etcdctl") is None, "etcd or etcdctl is not here")
class Members(unittest.TestCase):
    def setUp(self) -> None:
        made = tempfile.TemporaryDirectory(prefix="walrus-members-")
        self.addCleanup(made.cleanup)
        self.folder, self.stick = pathlib.Path(made.name), pathlib.Path(made.name, "stick")
        self.stick.mkdir()
        self.running: dict[str, "subprocess.Popen[bytes]"] = {}
        self.urls = {name: [f"https://127.0.0.1:{free_port()}" for _ in range(2)] for name in NAMES}
        self.found(self.folder)
        for name in NAMES:
            self.addCleanup(self.stop, name)
            self.start(name)
        self.assertEqual([name for name in NAMES if not self.answers(name)], [])

    def found(self, folder: pathlib.Path) -> None:
        """Makes authorities, and what each machine has as /etc/walrus."""
        folder.mkdir(exist_ok=True)
        for name in ("authority", ETCD_AUTHORITY):
            certificates.make_authority(folder / name)
        for name in NAMES:
            etc, state = self.folder / name / "etc", str(self.folder / name / "state")
            machine = Machine(folder, folder / name / "etc", str(etc), state, {})
            machine.etcd(name, Place(name, "127.0.0.1", 0), self.urls, 100)

    def variables(self, name: str) -> dict[str, str]:
        lines = (self.folder / name / "etc" / "etcd.env").read_text().splitlines()
        return dict(line.split("=", 1) for line in lines)

    def start(self, name: str) -> None:
        """Starts a member as its unit does, with copies of its certificate and its key."""
        given, variables = self.folder / name / "given", self.variables(name)
        given.mkdir(exist_ok=True)
        words = ["etcd"]
        for end in ("cert", "key"):
            copy = given / f"etcd.{'crt' if end == 'cert' else end}"
            shutil.copyfile(self.folder / name / "etc" / copy.name, copy)
            words += [f"--{end}-file={copy}", f"--peer-{end}-file={copy}"]
            variables.pop(f"ETCD_{end.upper()}_FILE", None)
            variables.pop(f"ETCD_PEER_{end.upper()}_FILE", None)
        with open(self.folder / f"{name}.log", "ab") as log:
            self.running[name] = subprocess.Popen(words, env={**os.environ, **variables}, stderr=log)

    def stop(self, name: str) -> None:
        if process := self.running.pop(name, None):
            process.kill()
            process.wait()

    def log(self, name: str) -> str:
        return (self.folder / f"{name}.log").read_text(errors="replace")

    def etcdctl(self, name: str, *words: str, **variables: str) -> "subprocess.CompletedProcess[str]":
        """Asks a member; fails after three seconds without an answer."""
        environment = {**os.environ, **self.variables(name), **variables}
        line = ["etcdctl", "--command-timeout=3s", *words]
        return subprocess.run(line, env=environment, capture_output=True, text=True)

    def answers(self, name: str, seconds: float = 60) -> bool:
        """Whether a member answers with what a majority confirms, at some time within a deadline."""
        return self.until(lambda: self.etcdctl(name, "get", "x").returncode == 0, seconds)

    def until(self, holds: Callable[[], bool], seconds: float = 60) -> bool:
        end = time.monotonic() + seconds
        while not holds():
            if time.monotonic() > end:
                return False
            time.sleep(0.2)
        return True

    def put(self, key: str) -> None:
        """Writes a key with itself as its value."""
        ran = self.etcdctl("alpha", "put", key, key)
        self.assertEqual(ran.returncode, 0, ran.stderr)

    def get(self, name: str, key: str) -> str:
        ran = self.etcdctl(name, "get", key, "--print-value-only")
        self.assertEqual(ran.returncode, 0, ran.stderr)
        return ran.stdout.strip()

    def cluster(self, name: str) -> int:
        """The identity of the etcd of which a member is one."""
        told = json.loads(self.etcdctl(name, "get", "x", "--write-out=json").stdout)
        return int(told["header"]["cluster_id"])

    def run_line(self, name: str, command: str) -> str:
        """Runs a line of the page on a machine; returns what it prints."""
        if command.startswith("systemctl "):
            return self.systemctl(name, *command.replace("'", "").split()[1:])
        text = command.replace("/etc/walrus", str(self.folder / name / "etc")).replace("/media/stick", str(self.stick))
        text = text.replace("$(hostname)", name)
        for other, (_, peer) in self.urls.items():
            text = text.replace(f"https://{other}:2380", peer).replace(f"//{other}:2380", peer.removeprefix("https:"))
        ran = subprocess.run(["bash", "-c", text], capture_output=True, text=True, timeout=60)
        if "unhealthy cluster" in ran.stderr:  # the page says that this is to be repeated
            time.sleep(1)
            return self.run_line(name, command)
        self.assertEqual(ran.returncode, 0, f"{name}# {text}: {ran.stderr}")
        return ran.stdout + ran.stderr

    def systemctl(self, name: str, verb: str, *words: str) -> str:
        """Does with etcd what systemd would; a start is complete once etcd answers."""
        units = [it for it in words if not it.startswith("--")]
        if any(fnmatch.fnmatch("walrus-etcd", it) for it in units):
            if verb in ("stop", "restart"):
                self.stop(name)
            if verb in ("start", "restart"):
                self.start(name)
                self.assertTrue("--no-block" in words or self.answers(name, 40), f"{name}# systemctl {verb} hangs")
        return ""

    def restore(self, names: list[str]) -> None:
        """Restores etcd by the page's lines on some machines, from a snapshot after which entries came; others are off
        by then."""
        for told, command in lines_of("Restore the ledger"):
            for name in [it for it in told if it in names]:
                if not command.startswith("walrus-net"):
                    self.run_line(name, command)
                if "snapshot save" in command:
                    self.put("lost")
                    for other in {*NAMES} - {*names}:
                        self.stop(other)
        self.assertEqual([name for name in names if not self.answers(name)], [])

    def test_a_member_that_was_absent_during_a_restore_is_refused_and_joins_anew(self) -> None:
        self.put("kept")
        self.restore(["alpha", "beta"])
        self.put("new")
        self.start("gamma")  # over what it has kept
        self.assertTrue(self.until(lambda: "cluster ID mismatch" in self.log("gamma")), self.log("gamma")[-900:])
        self.put("newer")
        self.assertFalse(self.answers("gamma", 5))
        for name in ("alpha", "beta"):
            self.assertEqual([self.get(name, it) for it in ("kept", "lost", "newer")], ["kept", "", "newer"])
        for told, command in lines_of("A ledger that is lost"):
            for name in told:
                self.run_line(name, command)
        self.assertEqual([self.get("gamma", it) for it in ("kept", "lost", "newer")], ["kept", "", "newer"])
        for name in NAMES:  # which settings that name no token start again
            self.stop(name)
            self.start(name)
        self.assertEqual([self.answers(name) for name in NAMES], [True] * 3)

    def test_each_restore_has_an_identity_of_its_own_however_often_it_is_begun_again(self) -> None:
        """Without the token etcd gives each the identity of the one that was lost, and its members theirs."""
        lost = self.cluster("alpha")
        lines = [*lines_of("Restore the ledger")]
        self.run_line(*next((names[0], command) for names, command in lines if "snapshot save" in command))
        made = []
        for without in (r" --initial-cluster-token=\$\([^)]*\)", "$^", "$^", "$^"):
            time.sleep(1.1)  # the page tells restores apart by the second
            for told, command in lines:
                if "snapshot save" not in command and command.split()[0] not in ("systemctl", "walrus-net"):
                    said = [self.run_line(name, re.sub(without, "", command)) for name in told]
                    made += [{*re.findall(r'"cluster-id":"(\w+)"', it)} for it in said if "cluster-id" in it]
        self.assertEqual(made[:3], [{f"{lost:x}"}] * 3)
        tries = [made[at : at + 3] for at in (3, 6, 9)]  # noqa: E203
        self.assertEqual([[it[0]] * 3 for it in tries], tries)
        self.assertEqual([len(set().union(*made)), *map(len, made)], [4] + [1] * 12)
        self.assertEqual(len([*(self.folder / "alpha" / "state" / "etcd").iterdir()]), 5)

    def test_new_authorities_are_given_to_one_machine_after_the_other(self) -> None:
        self.put("kept")
        shutil.copytree(self.folder / "alpha" / "etc", self.folder / "old")
        self.found(self.folder / "net2")
        for name in NAMES:
            shutil.copytree(self.folder / "net2" / name / "etc", self.stick / "hosts" / name)
        for told, command in lines_of("Replace the authorities"):
            for name in told:
                self.run_line(name, command)
        self.assertEqual([self.answers(name) for name in NAMES], [True] * 3)
        self.assertEqual([self.get(name, "kept") for name in NAMES], ["kept"] * 3)
        old = {"ETCDCTL_CERT": f"{self.folder}/old/etcd.crt", "ETCDCTL_KEY": f"{self.folder}/old/etcd.key"}
        self.assertNotEqual(self.etcdctl("alpha", "get", "x", **old).returncode, 0)
