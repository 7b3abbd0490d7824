"""Tests of the script that draws schedules, and of random ones: python3 -m unittest, in this folder.

They use the variable WALRUS, or crates/walrus/out/walrus."""
import json
import pathlib
import random
import shutil
import subprocess
import sys
import tempfile
import unittest
import unittest.mock
from typing import Any
from xml.etree import ElementTree

from timeline_case import (
    FINISH,
    HOSTILE,
    NAMES,
    PROGRAM,
    READY,
    SCHEDULES,
    needs_program,
    run_replay,
    run_script,
    schedule_of,
    story,
    tell,
)
import walrus_timeline as timeline
from walrus_timeline_schedule import Fault, read_schedule


class Commands(unittest.TestCase):
    def setUp(self) -> None:
        folder = tempfile.TemporaryDirectory()
        self.addCleanup(folder.cleanup)
        self.folder = pathlib.Path(folder.name)

    def check_script(self, words: list[object], status: int, out: str, errors: str) -> None:
        ran = run_script(*words, WALRUS=PROGRAM)
        self.assertEqual((ran.returncode, ran.stdout, ran.stderr), (status, out, errors))

    def test_each_form_of_a_picture(self) -> None:
        told = story("honest")
        files: list[object] = [SCHEDULES / "honest.json", SCHEDULES / "honest.report"]
        self.check_script(files, 0, timeline.page(told, 0, 10, "honest"), "")
        self.check_script([*files, "--svg"], 0, timeline.picture(told, 0, 10, "honest"), "")
        self.check_script([*files, "--text", "--from", 3], 0, timeline.letters(told, 2, 10, "honest"), "")
        self.check_script([*files, "--from", 3, "--to", 5], 0, timeline.page(told, 2, 5, "honest"), "")
        wrong = "there are events 1 to 10, and --from and --to name none of them\n"
        self.check_script([*files, "--from", 11], 1, "", wrong)
        self.check_script([*files, "--from", 0], 1, "", wrong)
        self.check_script([*files, "--to", -1], 1, "", wrong)

    def test_what_is_at_fault(self) -> None:
        path = self.folder / "run.json"
        path.write_bytes(schedule_of(FINISH, {**READY, "shard": 4}))
        fault = f'{path}:3: bad event 2: key "shard" is not a number from 0 to 3\n'
        for words in ("--check", "--svg", "--text"):
            self.check_script([path, words], 1, "", fault)
        path.write_bytes(b'{"f": 1, "epoch": 0, "faulty": [],\n"faulty": [], "events": []}')
        warning = f'{path}:2: warning: key "faulty" stands twice, and its last value counts\n'
        self.check_script([path, "--check"], 0, "", warning)
        missing = self.folder / "none.json"
        self.assertIn(str(missing), run_script(missing).stderr)

    def test_a_report_of_another_schedule(self) -> None:
        told = SCHEDULES / "expiry.report"
        fault = f"{told}:1: event 1 cannot come to until 1 here\n"
        self.check_script([SCHEDULES / "honest.json", told], 1, "", fault)

    @needs_program
    def test_the_program_makes_the_report(self) -> None:
        for name in NAMES:
            self.check_script(
                [SCHEDULES / f"{name}.json", "--text"],
                0,
                timeline.letters(story(name), 0, len(story(name).steps), name),
                "",
            )

    def test_a_program_that_is_missing_or_fails(self) -> None:
        missing = run_script(SCHEDULES / "honest.json", WALRUS=str(self.folder / "none"))
        self.assertEqual((missing.returncode, missing.stdout), (1, ""))
        self.assertIn("WALRUS is to name the program", missing.stderr)
        failing = run_script(SCHEDULES / "honest.json", WALRUS=shutil.which("false") or "")
        self.assertEqual((failing.returncode, failing.stdout), (1, ""))
        self.assertIn("replay ended with status 1", failing.stderr)


@needs_program
class RandomSchedules(unittest.TestCase):
    """Schedules of the hostile inputs: what the program takes is drawn, and what it refuses is refused alike."""

    corpus: Any
    schedules: Any

    @classmethod
    def setUpClass(cls) -> None:
        sys.path.insert(0, str(HOSTILE))
        try:
            import corpus  # type: ignore[import]
            import schedules  # type: ignore[import]
        finally:
            sys.path.remove(str(HOSTILE))
        cls.schedules = schedules
        small = [blob for blob in corpus.BLOBS if blob[2] < 100]
        with unittest.mock.patch.multiple(corpus, BLOBS=small, BUNDLES=[]):
            cls.corpus = corpus.Corpus(cls.ask, random.Random("corpus"))

    @staticmethod
    def ask(words: list[str], data: bytes) -> tuple[int, bytes]:
        ran = subprocess.run([PROGRAM, *words], input=data, stdout=subprocess.PIPE, timeout=60)
        return ran.returncode, ran.stdout

    def check_drawn(self, text: bytes, told: str) -> None:
        story = tell(text, told)
        count = len(story.steps)
        for first, last in ((0, count), (count // 3, count - count // 3)):
            ElementTree.fromstring(timeline.picture(story, first, last, "random"))
            self.assertLessEqual(max(map(len, timeline.letters(story, first, last, "random").splitlines())), 100)

    def test_random_schedules(self) -> None:
        came = {0: 0, 8: 0}
        for number in range(150):
            text = self.schedules.schedule_text(random.Random(f"{number}"), self.corpus)
            with self.subTest(number=number, text=text):
                status, told = run_replay(text)
                came[status] += 1
                if status == 0:
                    self.check_drawn(text, told)
                    continue
                with self.assertRaises(Fault) as caught:
                    read_schedule(text)
                self.assertEqual(caught.exception.args[1].split(":")[0], told.strip())
        self.assertGreater(min(came.values()), 30)

    def test_a_report_parts_from_a_schedule_that_was_changed(self) -> None:
        for number in range(30):
            schedule = self.schedules.honest_schedule(random.Random(f"{number}"), self.corpus)
            text = json.dumps(schedule).encode()
            _, told = run_replay(text)
            shorter = {**schedule, "events": schedule["events"][1:]}
            if schedule["events"]:
                self.assertRaises(Fault, tell, json.dumps(shorter).encode(), told)


if __name__ == "__main__":
    unittest.main()
