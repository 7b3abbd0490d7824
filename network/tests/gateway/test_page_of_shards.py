"""The page of a gateway: the progress of a file, how many shards of each are live, and each shard of one."""
import asyncio
from typing import Any
from unittest import mock

from support.page_case import PIECE, SENT, PageCase

BLOB = "ab" * 32


class Shards(PageCase):
    async def test_how_far_a_file_is_and_where_it_is_then(self) -> None:
        held, first = asyncio.Event(), bytes(PIECE)
        true = self.store_blob

        async def store_blob(blob: bytes, until: int) -> tuple[bytes, bool]:
            if len(blob) < PIECE:
                await held.wait()
            return await true(blob, until)

        self.enterContext(mock.patch.object(self.gateway.publisher.writer, "store_blob", store_blob))
        await self.open()
        await self.fill("epochs", "2")
        await self.browser.choose("files", self.file("film", first + b"the end"))
        place, told = "document.querySelector('#sending progress')", "[it.value, it.max, it.getAttribute('aria-label')]"
        bar = f"(it => it && {told})({place})"
        size = PIECE + 7
        whole = f"({bar} || [])[0] === {size}"
        self.assertTrue(await self.browser.until(whole), await self.browser.evaluate(bar))
        self.assertEqual(await self.browser.evaluate(bar), [size, size, "film is stored"])
        self.assertIn("film:  is being certified", await self.browser.evaluate(SENT))
        held.set()
        name = self.name_of(first + b"the end")
        self.assertTrue(await self.browser.until(f"{SENT}.includes('{name}')"))
        self.assertIsNone(await self.browser.evaluate(bar))
        link = "(it => [it.href, it.download])(document.querySelector('#sending a'))"
        self.assertEqual(await self.browser.evaluate(link), [f"{self.url}/v1/blobs/{name}", name])
        label = "document.querySelector('#sending button').getAttribute('aria-label')"
        self.assertEqual(await self.browser.evaluate(label), f"Copy {name}")

    async def test_a_file_on_its_last_shards_is_red(self) -> None:
        """Of seven shards, two may fail: three suffice to read the file, and five stored it."""
        true = self.gateway.watch.status

        def status() -> dict[str, Any]:
            one = {"endEpoch": 5, "ends": None, "certificate": {"epoch": 0, "count": 7}, "invalid": False}
            one |= {"needed": 0, "lacking": [], "acknowledged": [], "attested": [], "size": 7, "pieces": 1}
            recent = [{**one, "blobId": f"{live:064}", "live": live} for live in range(8)]
            recent += [{**recent[7], "blobId": BLOB, "size": 40_000_000, "pieces": 3}]
            return true() | {"faults": 2, "quorum": 5, "shards": 7, "recent": recent}

        self.enterContext(mock.patch.object(self.gateway.watch, "status", status))
        await self.open()
        cells = "[...document.querySelectorAll('#blobs tr')].map(it => [...it.cells].map(it => it.textContent))"
        self.assertTrue(await self.browser.until(f"{cells}.length === 9"))
        marks = "[...document.querySelectorAll('#blobs tr')].map(it => it.cells[3].firstChild.className)"
        self.assertEqual(await self.browser.evaluate(marks), ["bad"] * 4 + ["wait"] + ["good"] * 4)
        found = await self.browser.evaluate(cells)
        lost = [f"{live} of 7: cannot be read now" for live in range(3)]
        self.assertEqual([it[3] for it in found[:4]], [*lost, "3 of 7: on its last 3"])
        self.assertEqual([it[3] for it in found[4:]], ["4 of 7", "5 of 7", "6 of 7", "7 of 7", "7 of 7"])
        self.assertRegex(found[8][1], r"^40[.0]* MB in 3 pieces$")

    async def test_each_shard_is_held_lacking_or_challenged(self) -> None:
        true, (name, _) = self.gateway.watch.with_shards, await self.store_blob(b"blob", 7)
        states = ("held", "carried", "lacking", "silent")

        def with_shards(identifier: bytes) -> dict[str, Any]:
            told = true(identifier)
            for shard, state in zip(told["shards"], states):
                shard["state"] = state
            challenge = {"blob": name.hex(), "node": "x", "time": 1.0, "said": "4 symbols were drawn: no sliver"}
            told["shards"][0]["challenge"] = {**challenge, "holds": True}
            told["shards"][2]["challenge"] = {**challenge, "holds": False}
            return told

        self.enterContext(mock.patch.object(self.gateway.watch, "with_shards", with_shards))
        await self.open()
        await self.fill("look-id", name.hex())
        await self.browser.press("Enter")
        grid = "[...document.querySelectorAll('#grid li')].map(it => [it.className, it.textContent])"
        self.assertTrue(await self.browser.until(f"{grid}.length === 4"))
        kinds, texts = zip(*await self.browser.evaluate(grid))
        self.assertEqual(kinds, ("good", "good", "bad", "bad"))
        self.assertRegex(texts[0], "^0: node-0acknowledged, and its node answers; challenged at .*: held$")
        self.assertEqual(texts[1], "1: node-1taken over from the committee before")
        self.assertRegex(texts[2], "^2: node-2lacking; challenged at .*: 4 symbols were drawn: no sliver$")
        self.assertEqual(texts[3], "3: node-3its node does not answer")
