"""Stories of a network in a bottle (network/tests/bottle): some that were drawn once, and fresh ones each time."""
import os
import pathlib
import re
import subprocess
import unittest

from walrus.engines.backends import Library, NotFound, find

RUN = pathlib.Path(__file__).resolve().parent / "run"
SEEDS, FRESH, SECONDS = range(1, 6), 2, 120


def library() -> str:
    """The library that tests use, or an empty text."""
    if os.environ.get("WALRUS_LIBRARY"):
        return os.environ["WALRUS_LIBRARY"]
    try:
        engine = find()
    except NotFound:
        return ""
    return engine.path if isinstance(engine, Library) else ""


@unittest.skipIf(not library(), "the library libwalrus.so is not here (./walrus --library)")
class Bottle(unittest.TestCase):
    def told(self, *words: object) -> str:
        """What the runs say; a story that breaks fails the test, with its seed and how to run it again."""
        command = [RUN, "--seconds", str(SECONDS), *map(str, words)]
        known = {**os.environ, "WALRUS_LIBRARY": library()}
        ran = subprocess.run(command, capture_output=True, text=True, env=known, timeout=600)
        self.assertEqual(ran.returncode, 0, f"{ran.stdout[-12_000:]}\n{ran.stderr[-2_000:]}")
        return ran.stdout

    def test_stories_that_were_drawn_once(self) -> None:
        self.assertIn(f"{len(SEEDS)} passed, 0 failed", self.told(*SEEDS))

    def test_fresh_stories(self) -> None:
        said = self.told("--fresh", FRESH)
        print(said)
        self.assertEqual(len(re.findall(r"^seed \d+: ", said, re.MULTILINE)), FRESH)

    def test_a_seed_gives_the_same_story_again(self) -> None:
        one, other = (re.sub(r"in [0-9.]+ s", "", self.told(1)) for _ in range(2))
        self.assertEqual(one, other)
