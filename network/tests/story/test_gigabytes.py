"""`network/bench-large` at a small size: what it says of bytes and memory holds, however busy the machine is."""
import re
import subprocess
import unittest

from bench import NODES
from bench_large import MOST_GATEWAY, MOST_MEMORY, files_of
from support.harness import HERE, lacking


class Gigabytes(unittest.TestCase):
    def test_files_have_all_bytes_together_and_are_of_several_sizes(self) -> None:
        sizes = [it.size for it in files_of(20_000_000_000)]
        self.assertEqual(sum(sizes), 20_000_000_000)
        self.assertLessEqual({64 * 2**20, 2**30}, {*sizes})
        self.assertEqual(max(sizes), 2**30)

    @unittest.skipIf(lacking(), f"{lacking()} is not here (network/install)")
    def test_files_go_in_and_out_while_one_node_is_killed_and_one_is_replaced(self) -> None:
        words = [str(HERE.parent / "bench-large"), "--gigabytes", "0.2", "--minutes", "15"]
        ran = subprocess.run(words, capture_output=True, text=True, timeout=1_000)
        for row in (
            r"0\.20 GB in",
            r"0\.20 GB out",
            "out while a node is filled",
            "node-4 was filled",
            "node-0 was stopped.*",
        ):
            self.assertRegex(ran.stdout, f"{row}: ", ran.stderr)
        most = {name: float(size) for name, size in re.findall(r"^([a-z0-9-]+) at most: ([\d.]+) MB", ran.stdout, re.M)}
        self.assertEqual({*most}, {*NODES, "node-4", "gateway"})
        self.assertLess(most.pop("gateway"), MOST_GATEWAY)
        self.assertLess(max(most.values()), MOST_MEMORY)
