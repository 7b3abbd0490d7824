"""What a folder that arrives costs the gateway: memory, and time in one step."""
import hashlib
import pathlib
import resource
import unittest

import pytest
from walrus.network.files.packing import Folder

pytestmark = pytest.mark.alone
MANY = """INSERT INTO files WITH RECURSIVE counted(it) AS (SELECT 1 UNION ALL SELECT it + 1 FROM counted
WHERE it < 60000)
SELECT CAST(printf('%0156d', it) AS BLOB), 0, x'', NULL FROM counted"""


def resident() -> int:
    return int(pathlib.Path("/proc/self/statm").read_text().split()[1]) * resource.getpagesize()


class Packing(unittest.TestCase):
    def folder(self) -> Folder:
        made = Folder()
        self.addCleanup(made.close)
        return made

    def test_the_names_of_many_folders_take_little_memory(self) -> None:
        self.folder().base.execute(MANY)
        before = resident()
        for _ in range(8):
            self.folder().base.execute(MANY)
        self.assertLess(resident() - before, 24_000_000)

    def test_of_equal_files_the_first_is_packed_and_the_others_cost_nothing(self) -> None:
        folder, asked = self.folder(), list[str]()
        for path in ("z", "b", *(f"c{it}" for it in range(500)), "a", "y"):
            folder.begin(path)
            data = b"other" if path in ("b", "z") else b"equal"
            folder.add_small(path, len(data), hashlib.sha256(data).digest(), path)
        folder.base.set_trace_callback(asked.append)
        expected = [(hashlib.sha256(data).digest(), 5, at) for data, at in ((b"equal", "c0"), (b"other", "z"))]
        self.assertEqual([it for pack in folder.packs() for it in pack], expected)
        self.assertLess(len(asked), 10)
        for number in range(2):
            folder.place(number, bytes([number]) * 32)
        self.assertEqual({it.path: it.offset for it in folder.places() if it.path in "abyz"}, dict(a=0, b=5, y=0, z=5))
