"""Metrics of a gateway, and of a node with a port for them, as Prometheus' library parses them."""
import asyncio
import os
import unittest

import aiohttp
from support.guard_case import GuardCase
from support.harness import FOUR, NetworkCase
from walrus.network.deploy import checking
from walrus.network.deploy.local import free_port
from walrus.network.service import certificates
from walrus.network.service.histograms import BOUNDS, Times

try:
    from prometheus_client.parser import text_string_to_metric_families
except ImportError:
    text_string_to_metric_families = None
needs_client = unittest.skipIf(
    text_string_to_metric_families is None, "python3-prometheus-client is not here (network/install)"
)

Samples = dict[tuple[str, tuple[tuple[str, str], ...]], float]


def samples(text: str) -> Samples:
    found: Samples = {}
    for family in text_string_to_metric_families(text):
        for it in family.samples:
            key = it.name, tuple(sorted(it.labels.items()))
            assert key not in found, f"{key} stands twice"
            found[key] = it.value
    return found


class Gateway(GuardCase):
    @needs_client
    async def test_requests_bytes_and_times_are_counted(self) -> None:
        await self.start()
        self.assertEqual(await self.put(b"12345"), 201)
        [name] = self.files
        for _ in range(3):
            await self.ask("GET", f"/v1/blobs/{name}")
        await self.ask("GET", "/nowhere")
        _, headers, body = await self.ask("GET", "/metrics")
        self.assertEqual(headers["content-type"], "text/plain; version=0.0.4; charset=utf-8")
        found = samples(body.decode())
        for key, value in {
            ("walrus_http_requests_total", (("method", "GET"), ("status", "200"))): 3,
            ("walrus_http_requests_total", (("method", "PUT"), ("status", "201"))): 1,
            ("walrus_http_requests_total", (("method", "GET"), ("status", "404"))): 1,
            ("walrus_http_bytes_total", (("way", "in"),)): 5,
            ("walrus_http_bytes_total", (("way", "out"),)): 15,
            ("walrus_blobs_read_total", ()): 1,
            ("walrus_ledger_stale", ()): 0,
            ("walrus_node_answers", (("node", "node-1"),)): 0,
            ("walrus_node_answers", (("node", "node-0"),)): 0,
            ("walrus_bad_encodings_total", (("came", "declared"),)): 0,
        }.items():
            self.assertEqual(found.get(key), value, key)
        where = ("method", "GET"), ("path", "/v1/blobs/{name}")
        self.assertEqual(found["walrus_http_seconds_count", where], 3)
        self.assertEqual(found["walrus_http_seconds_bucket", (("le", "+Inf"), *where)], 3)
        self.assertEqual(found["walrus_http_seconds_count", (("method", "GET"), ("path", "other"))], 1)
        self.assertGreater(found["walrus_ledger_place", ()], 0)
        self.assertLessEqual(found["walrus_storing", ()], 4)
        self.assertAlmostEqual(found["walrus_certificate_days", ()], certificates.DAYS, delta=1)
        self.assertGreater(found["process_resident_memory_bytes", ()], 1_000_000)

    def test_times_fall_into_their_buckets(self) -> None:
        times = Times()
        for seconds in (0.0005, 0.001, 0.3, 0.5, 1_000):
            times.add("x", seconds)
        told = dict(times.buckets("x"))
        self.assertEqual([told["0.001"], told["0.1"], told["0.5"], told["60.0"], told["+Inf"]], [2, 2, 4, 4, 5])
        self.assertEqual(list(told), [*map(str, BOUNDS), "+Inf"])
        self.assertAlmostEqual(times.sums["x"], 1000.8015)
        with self.assertRaises(ValueError), times.taking("y"):
            raise ValueError
        self.assertEqual(dict(times.buckets("y"))["+Inf"], 1)


class Settings(unittest.TestCase):
    def test_a_place_for_numbers_is_checked(self) -> None:
        for good in ("", "9100", "0.0.0.0:9100", "[::1]:9100"):
            self.assertEqual(checking.faults_of_places({"recorders": ["a:1"], "metrics": good}), [], good)
        for bad in ("x", "host", "host:", "9100 ", "1234567"):
            [fault] = checking.faults_of_places({"recorders": ["a:1"], "metrics": bad})
            self.assertIn(f"metrics {bad} is no PORT", fault)


@needs_client
class Node(NetworkCase):
    async def test_a_node_tells_its_own(self) -> None:
        port = free_port()
        await self.local.start_ledger()
        await self.local.add_node("node-0")
        with open(self.folder / "node-0.toml", "a") as out:
            out.write(f'metrics = "{port}"\n')
        await self.local.up(FOUR)
        async with self.local.network() as network:
            identifier = await self.store(network, 200_000)
            await network.fetch(identifier)
        async with aiohttp.ClientSession() as session:
            async with asyncio.timeout(120):
                while True:
                    async with session.get(f"http://127.0.0.1:{port}/metrics") as said:
                        self.assertEqual(said.status, 200, self.log("node-0"))
                        found = samples(await said.text())
                    if found.get(("walrus_held_blobs", ())):
                        break
                    await asyncio.sleep(1)
            async with session.get(f"http://127.0.0.1:{port}/") as said:
                self.assertEqual(said.status, 404)
        disk = os.statvfs(self.folder)
        self.assertEqual(found["walrus_held_blobs", ()], 1)
        self.assertGreater(found["walrus_held_bytes", ()], 150_000)
        self.assertEqual(found["walrus_disk_bytes", ()], disk.f_blocks * disk.f_frsize)
        self.assertEqual(found["walrus_request_seconds_count", (("kind", "store"),)], 1)
        self.assertGreater(found["walrus_request_bytes_total", (("way", "in"),)], 150_000)
        self.assertGreater(found["walrus_ledger_place", ()], 0)
        self.assertAlmostEqual(found["walrus_certificate_days", ()], certificates.DAYS, delta=1)
        await self.check()
