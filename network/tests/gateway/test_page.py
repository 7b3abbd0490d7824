"""The page of a gateway in a browser, by which people store files, over a store in memory."""
import asyncio
import json
import os
import pathlib
import re
from typing import Any
from unittest import mock

from support.page_case import PIECE, SENT, PageCase
from walrus.network.gateway import app

NAME = "<img src=x onerror=document.title='bad'>.txt"


class Page(PageCase):
    async def test_files_are_dropped_and_chosen(self) -> None:
        await self.open()
        browser, small, large = self.browser, b"small", os.urandom(2 * PIECE + 5)
        dropped = self.file(NAME, small)
        await browser.drop("document.getElementById('drop')", dropped)
        await asyncio.sleep(0.5)
        self.assertEqual(self.blobs, [])  # the number of epochs must be given
        await self.fill("epochs", "7")
        await browser.drop("document.querySelector('h1')", dropped)  # what is dropped beside the field is not stored
        await browser.drop("document.getElementById('drop')", dropped)
        name = self.name_of(small)
        self.assertTrue(await browser.until(f"{SENT}.includes('{name}')"), await browser.evaluate(SENT))
        text = await browser.evaluate(SENT)
        self.assertEqual((NAME in text, text.endswith(", until epoch 7")), (True, True), text)
        self.assertEqual(await browser.evaluate("document.title"), "walrus network")
        await browser.choose("files", self.file("large", large))
        self.assertTrue(await browser.until(f"{SENT}.includes('{self.name_of(large)}')"), await browser.evaluate(SENT))
        self.assertEqual([len(it) for it in self.blobs[:4]], [5, PIECE, PIECE, 5])
        self.assertLessEqual(await browser.evaluate("document.documentElement.scrollWidth"), 320)
        self.assertEqual(len(list(self.folder.glob("tokens.uploads/*/told"))), 2)

    async def test_what_was_stored_from_here_stays_known(self) -> None:
        await self.open()
        browser = self.browser
        await self.fill("epochs", "2")
        await browser.choose("files", self.file("one", b"1"), self.file("two", b"2"))
        names = [self.name_of(it) for it in (b"2", b"1")]
        self.assertTrue(await browser.until(f"{SENT}.includes('{names[0]}')"))
        await self.open()
        rows = "[...document.querySelectorAll('#own tr')].map(it => [...it.cells].map(it => it.textContent))"
        self.assertTrue(await browser.until(f"{rows}.length === 2"))
        found = await browser.evaluate(rows)
        self.assertEqual(
            [[it[0], it[1], it[2].split()[0], it[3]] for it in found],
            [["two", "1 B", names[0], "2"]] + [["one", "1 B", names[1], "2"]],
        )
        link = "document.querySelector('#own a').href"
        self.assertEqual(await browser.evaluate(link), f"{self.url}/v1/blobs/{names[0]}")
        await browser.call("Browser.grantPermissions", permissions=["clipboardReadWrite", "clipboardSanitizedWrite"])
        await browser.call("Page.bringToFront")
        await browser.evaluate("document.querySelector('#own button').click()")
        self.assertTrue(await browser.until("document.querySelector('#own button').textContent === 'copied'"))
        self.assertEqual(await browser.evaluate("navigator.clipboard.readText()"), names[0])
        await browser.evaluate("document.getElementById('forget').click()")
        self.assertTrue(await browser.until("document.getElementById('own-table').hidden"))
        await browser.evaluate("localStorage.setItem('stored', '[{\"id\": \"javascript:1\"}, 5]'); drawOwn()")
        self.assertEqual(await browser.evaluate(rows), [])  # whatever the storage has

    async def test_a_break_costs_a_piece(self) -> None:
        await self.open()
        browser, data = self.browser, os.urandom(3 * PIECE)
        await self.fill("epochs", "2")
        self.away = "no shard acknowledges it"
        await browser.choose("files", self.file("file", data))
        self.assertTrue(await browser.until(f"{SENT}.includes('no shard acknowledges it')"))
        self.away = ""
        self.assertTrue(await browser.until(f"{SENT}.includes('{self.name_of(data)}')"), await browser.evaluate(SENT))
        self.assertLess(self.gateway.reader.bytes['way="in"'], len(data) + PIECE)

    async def test_who_may_not_store_sees_why(self) -> None:
        alice = self.token("alice", bytes=10, epochs=3)["Authorization"].removeprefix("Bearer ")
        self.token("anyone", "none")
        browser = self.browser
        await self.open("token")
        self.assertTrue(await browser.evaluate("document.getElementById('store').hidden"))
        self.token("anyone", "read")
        await self.open()
        self.assertTrue(await browser.until("document.getElementById('store-form').hidden"))
        self.assertTrue(await browser.until("!document.getElementById('token').hidden"))
        self.assertIn("may not store here", await browser.evaluate("document.getElementById('store-may').textContent"))
        await self.fill("token-text", alice)
        await browser.press("Enter")
        self.assertTrue(await browser.until("!document.getElementById('store-form').hidden"))
        self.assertTrue(await browser.until("document.getElementById('token').hidden"))
        self.assertIn("0 of 10 bytes", await browser.evaluate("document.getElementById('store-may').textContent"))
        await self.fill("epochs", "4")
        await browser.choose("files", self.file("file", b"data"))
        await asyncio.sleep(0.5)
        self.assertEqual(self.blobs, [])  # the token may store for three epochs
        await browser.evaluate("document.getElementById('epochs').value = '3'")
        await browser.choose("files", self.file("long", bytes(11)), self.file("file", b"data"))
        self.assertTrue(await browser.until(f"{SENT}.includes('{self.name_of(b'data')}')"))
        self.assertIn("long is not stored: alice has used 0 of 10 bytes", await browser.evaluate(SENT))

    async def test_what_is_wrong_is_told(self) -> None:
        found = {"blob": "ab" * 32, "invalid": True, "said": "shards 1 2 3 attest it", "time": 1.0}
        self.gateway.announcer.findings.appendleft(found)
        await self.open()
        text = "document.getElementById('{}').textContent"
        silent = "0 of 4 shards take files, and 3 must: node-0 node-1 node-2 node-3 do not answer"
        self.assertTrue(
            await self.browser.until(f"{text.format('storing')} === 'Nothing can be stored now: {silent}.'")
        )
        self.assertIn(
            "abababababababab… was badly encoded: the ledger", await self.browser.evaluate(text.format("announced"))
        )
        name = (await self.store_blob(b"blob", 7))[0]
        button = f"document.querySelector('#blobs button[title$=\"{name.hex()}\"]')"
        self.assertTrue(await self.browser.until(button))
        row = await self.browser.evaluate(f"{button}.closest('tr').textContent")
        self.assertIn("0 of 4: cannot be read now", row)
        await self.browser.evaluate(f"{button}.focus()")
        await self.browser.press("Enter")
        grid = "[...document.querySelectorAll('#grid li')].map(it => it.textContent)"
        self.assertTrue(await self.browser.until(f"{grid}.length === 4"))
        each = [f"{number}: node-{number}its node does not answer" for number in range(4)]
        self.assertEqual(await self.browser.evaluate(grid), each)
        await self.browser.evaluate("document.getElementById('look-id').value = ''")
        await self.fill("look-id", "0" * 64)
        await self.browser.press("Enter")
        self.assertTrue(await self.browser.until(f"{text.format('blob-said')}.includes('no such blob')"))

    async def test_what_nodes_do_and_a_handover_are_shown(self) -> None:
        figures = {"held": {"blobs": 5, "bytes": 7_000_000, "wrong": 2}, "ledger": {"place": 9, "behind": 1_234}}
        figures |= {"disk": {"bytes": 9e9, "used": 8e9, "free": 1e9, "reserve": 2e9}}
        figures |= {"recovered": {"epoch": 0, "of": 10, "of_bytes": 40, "blobs": 4, "bytes": 16}}
        figures |= {
            "scrub": {"running": 1, "begun": 0, "ended": 0, "blobs": 0, "bytes": 3_000_000, "wrong": 0, "swept": 0}
        }
        true = self.gateway.watch.status

        def status() -> dict[str, Any]:
            told = true()
            for node in told["nodes"]:
                node |= {"state": "answers", "figures": figures if node["name"] == "node-1" else {}}
            return told | {"moving": True, "ready": 2}

        self.enterContext(mock.patch.object(self.gateway.watch, "status", status))
        await self.open()
        row = "[...document.querySelectorAll('#nodes tr')].find(it => it.textContent.startsWith('node-1'))"
        self.assertTrue(await self.browser.until(f"{row}.textContent.includes('entries behind')"))
        cells = await self.browser.evaluate(f"[...{row}.cells].map(it => it.textContent)")
        for words in (
            "5 blobs, 7[.0]* MB$",
            "2 parts",
            "^1[.0]* GB free of 9[.0]* GB: takes nothing",
            "1.?234 entries",
        ):
            self.assertEqual(sum(bool(re.search(words, it)) for it in cells), 1, (words, cells))
        work = "4 of 10 blobs .*a scrub has read 3[.0]* MB"
        self.assertEqual(sum(bool(re.search(work, it)) for it in cells), 1, cells)
        bars = "[...document.querySelectorAll('#nodes progress, #move progress')].map(it => [it.value, it.max])"
        self.assertEqual(await self.browser.evaluate(bars), [[2, 3], [4, 10]])
        said = "Handover to epoch 1: 2 of 3 needed shards are ready"
        self.assertEqual(await self.browser.evaluate("document.getElementById('move-text').textContent"), said)

    async def test_no_script_but_its_own_runs(self) -> None:
        await self.open()
        for path in ("/", "/page.js", "/store.js", "/page.css"):
            _, headers, body = await self.ask("GET", path)
            policy = dict(it.split(" ", 1) for it in headers["content-security-policy"].split("; "))
            self.assertEqual((policy["default-src"], policy["script-src"]), ("'none'", "'self'"), path)
            self.assertEqual({policy[it] for it in ("form-action", "base-uri", "frame-ancestors")}, {"'none'"})
            self.assertNotIn("unsafe", headers["content-security-policy"])
        page = (pathlib.Path(app.__file__).parent / "page" / "page.html").read_text()
        for word in ("<style", "style=", "onclick", "http://", "https://", "javascript:"):
            self.assertNotIn(word, page)
        await self.browser.evaluate(
            "document.body.append(Object.assign(document.createElement('script'), {text: 'document.title = 1'}))"
        )
        self.assertEqual(await self.browser.evaluate("document.title"), "walrus network")

    async def test_all_of_it_is_reached_by_keyboard(self) -> None:
        await self.open()
        await self.fill("epochs", "2")
        await self.browser.choose("files", self.file("file", b"data"))
        self.assertTrue(await self.browser.until("document.querySelector('#own a')"))
        seen, here = set[str](), "(it => it.id || it.textContent || it.tagName)(document.activeElement)"
        await self.browser.evaluate("document.activeElement.blur(); scrollTo(0, 0)")
        for _ in range(40):
            await self.browser.press("Tab")
            seen.add(await self.browser.evaluate(here))
            ring = "(it => it === document.body || getComputedStyle(it).outlineStyle)(document.activeElement)"
            self.assertNotEqual(await self.browser.evaluate(ring), "none", seen)
        self.assertLessEqual({"files", "epochs", "copy", "forget", "look-id", "Metrics", self.name_of(b"data")}, seen)

    async def test_colours_stand_out_in_light_and_dark(self) -> None:
        await self.open()
        text = pathlib.Path(pathlib.Path(app.__file__).parent, "page", "page.css").read_text()
        for dark in (False, True):
            await self.browser.look(320, 900, dark)
            names = "fore", "soft", "link", "good", "bad", "wait"
            read = "name => getComputedStyle(document.documentElement).getPropertyValue('--' + name).trim()"
            found = await self.browser.evaluate(f"{json.dumps(['back', 'field', *names])}.map({read})")
            for colour in found[2:]:
                for ground in found[:2]:
                    self.assertGreaterEqual(contrast(colour, ground), 4.5, (dark, colour, ground))  # WCAG 2, AA
        self.assertIn("prefers-color-scheme: dark", text)


def contrast(one: str, other: str) -> float:
    """Returns the contrast of two colours by WCAG 2."""

    def light(colour: str) -> float:
        parts = [int(colour[place:][:2], 16) / 255 for place in (1, 3, 5)]
        linear = [it / 12.92 if it <= 0.04045 else ((it + 0.055) / 1.055) ** 2.4 for it in parts]
        return 0.2126 * linear[0] + 0.7152 * linear[1] + 0.0722 * linear[2]

    low, high = sorted((light(one), light(other)))
    return (high + 0.05) / (low + 0.05)
