"""Paths below a folder that somebody else chose."""
import os
import pathlib
import tempfile
import tracemalloc
import unittest
import unittest.mock

from walrus.network.files import safe_paths
from walrus.network.service.failure import Failure


class Places(unittest.TestCase):
    """Paths that somebody else chose do not lead out of a folder."""

    def setUp(self) -> None:
        made = tempfile.TemporaryDirectory(prefix="walrus-places-")
        self.addCleanup(made.cleanup)
        self.out, self.root = pathlib.Path(made.name, "out"), pathlib.Path(made.name, "root")
        self.out.mkdir()
        self.root.mkdir()

    def test_nothing_is_written_outside_of_the_folder(self) -> None:
        (self.root / "link").symlink_to(self.out)
        (self.root / "file").symlink_to(self.out / "file")
        (self.out / "file").write_bytes(b"before")
        (self.root / "pipe").parent.mkdir(exist_ok=True)
        os.mkfifo(self.root / "pipe")
        with safe_paths.Root(str(self.root)) as root:
            for path in ("../out/x", "/etc/x", "a/../../out/x", "..", "", "a//b", "link/x", "link/a/b"):
                with self.assertRaises((Failure, OSError), msg=path):
                    with root.written(path) as file:
                        file.write(b"after")
            for path in ("file", "link", "pipe", "none", "link/file"):  # none of which is read
                with root.opened(path, 6) as found:
                    self.assertIsNone(found)
            for path in ("file", "a/b/c", "pipe", "link"):  # what is there is replaced, and not followed
                with root.written(path) as file:
                    file.write(b"after")
                self.assertEqual((self.root / path).read_bytes(), b"after")
                self.assertFalse((self.root / path).is_symlink())
        self.assertEqual([it.name for it in self.out.iterdir()], ["file"])
        self.assertEqual((self.out / "file").read_bytes(), b"before")

    def test_what_fails_leaves_nothing(self) -> None:
        (self.root / "a").write_bytes(b"before")
        with safe_paths.Root(str(self.root)) as root:
            with self.assertRaises(ZeroDivisionError):
                with root.written("a") as file:
                    file.write(b"after")
                    raise ZeroDivisionError
        self.assertEqual([(it.name, it.read_bytes()) for it in self.root.iterdir()], [("a", b"before")])

    def test_names_that_a_disk_takes_for_one(self) -> None:
        pairs = [["a/b", "A/b"], ["a", "A"], ["\u00e5", "a\u030a"], ["stra\u00dfe", "STRASSE"], ["x/a", "X/b"]]
        pairs += [["A", "a!", "a/x"], ["A/x/0", "A/x/1", "B", "a/y", "c"], ["x/y/A/1", "x/y/B", "x/y/a/0"]]
        with safe_paths.Root(str(self.root)) as root:
            for pair in pairs:
                root.must_keep_apart(pair)  # this disk keeps them apart
            with unittest.mock.patch.object(root, "folds", return_value=True):
                for pair in pairs:
                    with self.assertRaises(Failure):
                        root.must_keep_apart(pair)
                root.must_keep_apart(["a/b", "a/c", "b"])
                root.must_keep_apart(["A/x", "a!", "b/a", "c/A", "x/a/b", "y/A/c"])
                tracemalloc.start()
                self.addCleanup(tracemalloc.stop)
                root.must_keep_apart([f"{number}{'/a' * 500}" for number in range(200)])
                self.assertLess(tracemalloc.get_traced_memory()[1], 3_000_000)  # not for each folder of each path
            with unittest.mock.patch.object(safe_paths.os, "access", return_value=True):
                self.assertTrue(root.folds())
            self.assertEqual([*self.root.iterdir()], [])
