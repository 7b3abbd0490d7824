"""What the pages and the units of the network say, compared with the package."""
import dataclasses
import json
import os
import pathlib
import re
import shutil
import subprocess
import tempfile
import time
import unittest
from typing import Any

from support import harness
from walrus.network.deploy.checking import KINDS
from walrus.network.node import intake, node
from walrus.network.service import certificates
from walrus.wire import port

PIPE: Any = {"capture_output": True, "text": True}


class Pages(unittest.TestCase):
    def test_the_settings_of_each_role_stand_in_the_page(self) -> None:
        page = (harness.HERE.parent / "OPERATING.md").read_text()
        for kind in KINDS:
            table = page.partition(f"### Settings of a {kind.role}\n")[2].partition("\n#")[0]
            rows = re.findall(r"^\| (`.*?) \|", table, re.MULTILINE)
            told = {name for row in rows for name in re.findall(r"`(\w+)`", row)}
            self.assertEqual(told, {field.name for field in dataclasses.fields(kind)}, kind.role)

    def test_the_bounds_stand_in_the_page(self) -> None:
        page = (harness.HERE.parent / "README.md").read_text()
        bounds = [f"{it:g} s" for it in (node.REQUEST, node.IDLE, port.HANDSHAKE)]
        self.assertIn("; ".join(bounds), page)
        self.assertIn(f"| {intake.HEARD:g} s; {port.ASIDE} |", page)
        unit, page = ((harness.HERE.parent / it).read_text() for it in ("units/walrus-node@.service", "OPERATING.md"))
        [most] = re.findall(r"^LimitNOFILE=(\d+)$", unit, re.MULTILINE)
        self.assertIn(f"(`LimitNOFILE` of the unit is {int(most):,})", page)

    def test_the_page_does_not_promise_what_is_lost_with_more_than_f_shards(self) -> None:
        page = (harness.HERE.parent / "OPERATING.md").read_text()
        self.assertIn("only what both others hold is still read: a blob that one of them lacked then", page)
        self.assertIn("If fewer than f+1 shards hold one of these", page)

    def test_the_page_says_for_how_long_certificates_are_valid_and_what_warns(self) -> None:
        page = (harness.HERE.parent / "OPERATING.md").read_text()
        self.assertIn(f"A certificate is valid for {certificates.DAYS:g} days, ", page)
        self.assertIn(f"From {certificates.SOON:g} days before, each service says so", page)
        self.assertRegex(page, f"Useful alarms: .*`walrus_certificate_days < {certificates.SOON:g}`")

    @unittest.skipUnless(
        shutil.which("systemd-analyze") and shutil.which("etcd"), "systemd-analyze or etcd is not here"
    )
    def test_systemd_takes_the_units(self) -> None:
        command = f"ExecStart={harness.HERE.parent / 'walrus-net'}"
        with tempfile.TemporaryDirectory() as folder:
            for path in (harness.HERE.parent / "units").glob("*.service"):
                pathlib.Path(folder, path.name).write_text(path.read_text().replace("ExecStart=walrus-net", command))
            units = sorted(map(str, pathlib.Path(folder).iterdir()))
            ran = subprocess.run(["systemd-analyze", "verify", "--man=no", *units], capture_output=True, text=True)
            self.assertEqual((ran.returncode, ran.stdout + ran.stderr), (0, ""))
            for unit in units:
                words = ["systemd-analyze", "security", "--offline=yes", "--threshold=15", unit]  # 1.5 of 10
                self.assertEqual(subprocess.run(words, capture_output=True).returncode, 0, unit)

    def test_an_install_leaves_no_service_of_debian_enabled_or_running(self) -> None:
        with tempfile.TemporaryDirectory() as made:
            folder = pathlib.Path(made)
            for name, text in (
                ("dpkg-query", "echo installed"),
                ("apt-get", f"touch {folder}/enabled"),
                (
                    "systemctl",
                    f"cd {folder}\ncase $1 in is-enabled) ls | grep -x enabled;; is-active) test -e running;;"
                    " disable) rm enabled;; stop) rm running;; esac",
                ),
            ):
                (folder / name).write_text(f"#!/bin/sh\n{text}\n")
                (folder / name).chmod(0o755)
            words, variables = [str(harness.HERE.parent / "install")], {"PATH": f"{folder}:/usr/bin:/bin"}
            for installed, was in ((True, True), (True, False), (False, False)):
                if not installed and os.getuid():
                    break  # it would say that the package's services are not to be started
                if was:
                    (folder / "enabled").touch()
                    (folder / "running").touch()
                if not installed:
                    (folder / "dpkg-query").write_text("#!/bin/sh\n")
                ran = subprocess.run(words, capture_output=True, text=True, env=variables)
                self.assertEqual((ran.returncode, ran.stderr), (0, ""))
                self.assertEqual("etcd.service of Debian is disabled" in ran.stdout, was or not installed)
                self.assertEqual([it for it in ("enabled", "running") if (folder / it).exists()], [])

    def test_systemd_starts_a_service_again_however_often_it_failed(self) -> None:
        for path in (harness.HERE.parent / "units").glob("*.service"):
            self.assertRegex(path.read_text(), r"(?m)^StartLimitIntervalSec=0$", path.name)
            self.assertRegex(path.read_text(), r"(?m)^Restart=(always|on-failure)$", path.name)

    @unittest.skipUnless(shutil.which("jq"), "jq is not here")
    def test_the_line_for_a_timer_names_the_epoch_that_is_due_and_the_next_one_at_most(self) -> None:
        page = (harness.HERE.parent / "OPERATING.md").read_text()
        [line] = re.findall(r"--epoch \$\(walrus-net status --json \| jq '(.*?)'\)", page)
        self.assertRegex(
            page, r"NTPSynchronized .*\)\" = yes \] && walrus-net handover FOLDER --yes --force --epoch \$"
        )
        cases = [(0, 0.1, 0), (0, 13.9, 0), (0, 14.1, 1), (1, 14.1, 1), (0, 99, 1), (5, 99, 6), (8, 99, 7), (0, -1, -1)]
        for epoch, days, due in cases:  # days since the plan began, which may be in the future
            plan = {"epoch": 0, "since": int(time.time() - 86_400 * days), "seconds": 14 * 86_400, "next": None}
            ran = subprocess.run(["jq", line], input=json.dumps({"epoch": epoch, "calendar": plan}), **PIPE)
            self.assertEqual((ran.returncode, ran.stdout), (0, f"{due}\n"), (epoch, days))
        for told in (json.dumps({"epoch": 3, "calendar": None}), ""):
            self.assertEqual(subprocess.run(["jq", line], input=told, **PIPE).stdout, "")  # so nothing begins

    def test_systemd_waits_for_a_start_however_long_pages_are_checked(self) -> None:
        """Otherwise it ends a start in the middle of many pages, and the next one too."""
        for unit in (harness.HERE.parent / "units").glob("*.service"):
            self.assertIn("\nTimeoutStartSec=infinity\n", unit.read_text(), unit.name)

    def test_a_disk_for_which_linux_waits_costs_no_node(self) -> None:
        """It gives a command up after 30 s and five retries; the last beat may be a third of the time ago."""
        unit = (harness.HERE.parent / "units" / "walrus-node@.service").read_text()
        [seconds] = re.findall(r"(?m)^WatchdogSec=(\d+)$", unit)
        self.assertGreater(int(seconds) * 2 / 3, 6 * 30)

    def test_no_page_ends_processes_by_a_broad_name(self) -> None:
        pages = [*harness.HERE.parent.glob("*.md"), *(harness.HERE.parents[1] / "docs").glob("*.md")]
        self.assertEqual([it.name for it in pages if re.search("pkill|killall", it.read_text())], [])

    def test_the_code_has_one_form_and_its_types_fit(self) -> None:
        package, tests = str(harness.HERE.parents[1] / "clients" / "python" / "walrus" / "network"), str(
            harness.HERE.parent
        )
        checks = [["black", "-q", "-l", "120", "--check", package, tests]]
        checks += [["flake8", "--max-line-length", "120", package, tests], ["mypy", "--no-error-summary", package]]
        here = [words for words in checks if shutil.which(words[0])]
        if not here:
            self.skipTest("black, flake8 and mypy are not here (network/install --check)")
        for words in here:
            ran = subprocess.run(words, capture_output=True, text=True, cwd=harness.HERE.parent)
            self.assertEqual((ran.returncode, ran.stdout + ran.stderr), (0, ""), words[0])
