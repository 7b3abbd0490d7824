"""Manifests of folders: their form, and what those of a liar cost."""
import re
import resource
import time
import unittest

import pytest
from support.folder_case import manifest_of
from support.harness import HERE
from walrus.network.files import manifest
from walrus.network.files.manifest import MARK, Manifest, Place, Wrong

pytestmark = pytest.mark.alone


class Manifests(unittest.TestCase):
    """The form of manifests, without a network."""

    def test_lines_ascend_and_have_one_form(self) -> None:
        good = [
            Place("a-b", "text/plain", 1, bytes(32)),
            Place("a/b", "text/html", 9, bytes(32), 0),
            Place("a/c/d", "image/png", 2**42, bytes(32)),
            Place("e", "a/b", 0, b""),
        ]
        made = Manifest(manifest_of(*good))
        self.assertEqual([*made], good)
        self.assertEqual([made.find(it.path) for it in good], good)
        self.assertEqual([made.find(it) for it in ("", "a", "a/", "a/c", "e\t", "f")], [None] * 6)
        self.assertEqual([made.has(it) for it in ("", "a/", "a/c/", "a/b/", "b/")], [True, True, True, False, False])
        self.assertEqual([*made.within("")], [good[0], "a", good[3]])
        self.assertEqual([*made.within("a/")], [good[1], "c"])
        line = good[0].line()
        for bad in (
            line[:-1],
            line + line,
            good[1].line() + line,
            line.replace(b"\t1\t", b"\t01\t"),
            line.replace(b"\t1\t", b"\t0\t"),
            line.replace(b"\t1\t", b"\t99999999999999\t"),
            line.replace(b"\t1\t", b"\t9999999999999\t"),
            line.replace(b"text/plain", b"text/plain; x=y"),
            line.replace(b"text/plain", b"Text/plain"),
            line.replace(b"text/plain", b"text"),
            line.replace(b"text/plain", b"a/" + b"b" * 65),
            line.replace(b"0" * 64, b"-"),
            line.replace(b"0" * 64, b"A" * 64),
            line.replace(b"0" * 64, b"0" * 64 + b"@01"),
            line.replace(b"0" * 64, b"0" * 64 + b"@9999999999999"),
            *(
                line.replace(b"a-b", it)
                for it in (b"a/../b", b"..", b"/a", b"a/", b"a//b", b"a\rb", b"\xff", b"\xc2\x85")
            ),
            *(line.replace(b"a-b", it) for it in (b"a\\b", b"a" * 256, b"/".join([b"a" * 99] * 11))),
            b"".join(Place(it, "a/b", 0, b"").line() for it in ("a", "a b", "a!", "a/b")),
            b"".join(Place(it, "a/b", 0, b"").line() for it in ("a/b", "a/b/c/d")),
        ):
            with self.assertRaises(Wrong, msg=bad):
                Manifest(MARK + bad)
        self.assertEqual(len(Manifest(MARK)), 0)

    def test_a_manifest_of_a_liar_takes_bounded_time_and_memory(self) -> None:
        for text in (
            b"a\ta/b\t0\t-\n" * 1_600_000,  # one name
            b"".join(b"%07d\ta/b\t0\t-\n" % it for it in range(600_000)),  # too many
            b"".join(b"a/" * 400 + b"%06d\ta/b\t0\t-\n" % it for it in range(20_000)),  # deep, and lawful
            b"/" * 16_000_000,
            b"a/" * 30_000_000,  # one path, each step of which would take memory
            b"a" * 16_000_000,
        ):
            begun, before = time.process_time(), resource.getrusage(resource.RUSAGE_SELF).ru_maxrss
            try:
                made = Manifest(MARK + text)
                self.assertLess(made.starts.itemsize * len(made.starts), len(text))
            except Wrong:
                pass
            self.assertLess(time.process_time() - begun, 20)
            self.assertLess(resource.getrusage(resource.RUSAGE_SELF).ru_maxrss - before, 200_000)  # KiB

    def test_a_deep_path_in_a_folder_of_its_own_costs_little_more_than_another_one(self) -> None:
        """Otherwise a malicious folder of 64 MiB keeps half of a processor busy for 20 s at each request."""
        used = list[float]()
        for rest in (b"/".join([b"b" * 244] * 4), b"/".join([b"b"] * 490)):
            text = b"".join(b"%06d/%b\ta/b\t0\t-\n" % (it, rest) for it in range(1_000))
            begun = time.process_time()
            self.assertEqual(len(Manifest(MARK + text)), 1_000)
            used.append(time.process_time() - begun)
        self.assertLess(used[1], 6 * used[0])

    def test_what_stands_before_a_path_is_dropped_at_once(self) -> None:
        used = dict[int, float]()
        for count in (2_000, 64_000):
            used[count] = 9.0
            for _ in range(5):
                begun = time.process_time()
                self.assertEqual(manifest.as_path("./" * count + ".//./.a/b"), ".a/b")
                used[count] = min(used[count], time.process_time() - begun)
        self.assertLess(used[64_000], 70 * used[2_000])

    def test_types_come_from_endings_by_the_table_of_the_page(self) -> None:
        kinds = {"a.html": "text/html", "b/A.PNG": "image/png", "c.tar.gz": "application/gzip", "d": manifest.OTHER}
        kinds |= {".html": manifest.OTHER, "a.b/c": manifest.OTHER, "e.exe": manifest.OTHER, "f.webm": "video/webm"}
        self.assertEqual({path: manifest.kind_of(path) for path in kinds}, kinds)
        table = (HERE.parent / "HTTP.md").read_text().partition("| Type | Endings |\n")[2].partition("\n\n")[0]
        rows = [re.findall("`([^`]+)`", row) for row in table.splitlines()[1:]]
        self.assertEqual({row[0]: " ".join(row[1:]) for row in rows}, manifest.KINDS)
