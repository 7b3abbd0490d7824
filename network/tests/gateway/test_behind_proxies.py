"""A gateway behind nginx and haproxy as OPERATING.md sets them up, and in a browser that a page has led to it."""
import asyncio
import unittest
from unittest import mock

from aiohttp import web

from support.browser import PROGRAM, Browser
from support.guard_case import GuardCase, other_address
from support.proxy_case import HAPROXY, BehindNginx, Proxied
from walrus.network.deploy.local import free_port


class Nginx(BehindNginx):
    async def test_strangers_and_customers(self) -> None:
        await self.strangers_and_customers()

    async def test_slow_clients(self) -> None:
        await self.slow_clients()

    async def test_who_goes_round_it_is_a_stranger(self) -> None:
        """A request that comes through a proxy unknown to the gateway does not count as from this machine."""
        self.gateway.guard.proxies.clear()
        self.assertEqual((await self.put(), self.stored), (403, []))


@unittest.skipUnless(HAPROXY and other_address(), "haproxy, or an address that others reach, is not here")
class Haproxy(Proxied):
    def line(self) -> list[str]:
        self.must_be_patient(text := self.told("haproxy"), "timeout server")
        text = text.replace("bind :443", f"bind {self.place[0]}:{self.place[1]}")
        (self.folder / "haproxy.cfg").write_text(text)
        return [str(HAPROXY), "-db", "-f", str(self.folder / "haproxy.cfg")]

    async def test_strangers_and_customers(self) -> None:
        await self.strangers_and_customers()

    async def test_slow_clients(self) -> None:
        await self.slow_clients()


@unittest.skipUnless(PROGRAM, "chromium is not here (apt-get install chromium)")
class InABrowser(GuardCase):
    async def test_a_page_from_elsewhere(self) -> None:
        await self.start()
        self.files["0" * 64] = b"there"
        runner = await self.serve("127.0.0.1", 0)
        async with Browser() as browser:
            await browser.open(f"http://127.0.0.1:{runner.addresses[0][1]}/")
            self.assertTrue(await browser.until("document.querySelector('form')"))
            put = f"fetch('{self.url}/v1/blobs?epochs=1', {{method: 'PUT', body: 'x'}})"
            put += ".then(it => it.status, () => 'refused')"
            self.assertEqual(await browser.evaluate(put), "refused")
            read = "fetch('{}').then(it => it.text(), () => 'refused')"
            self.assertEqual(await browser.evaluate(read.format(f"{self.url}/v1/blobs/{'0' * 64}")), "there")
            for path in ("/v1/blobs", "/v1/status", "/metrics"):
                self.assertEqual(await browser.evaluate(read.format(self.url + path)), "refused")
            await browser.evaluate(
                f"""(() => {{ const form = document.querySelector('form'), action = '{self.url}/v1/bundles?epochs=1';
                Object.assign(form, {{method: 'POST', enctype: 'multipart/form-data', action}});
                form.innerHTML = '<input name="a" value="1">'; form.submit(); }})()"""
            )
            self.assertTrue(await browser.until("document.body.innerText.includes('a page from elsewhere')"))
            self.assertEqual(self.stored, [])
            alice = self.token("alice")["Authorization"]
            await browser.open(f"http://127.0.0.1:{runner.addresses[0][1]}/")
            self.assertTrue(await browser.until("document.querySelector('form')"))
            shown = put.replace("body:", f"headers: {{Authorization: '{alice}'}}, body:")
            self.assertEqual((await browser.evaluate(shown), self.stored), (201, [b"x"]))

    async def serve(self, host: str, port: int) -> web.AppRunner:
        """Starts a server of somebody else, with an empty page."""
        app = web.Application()
        app.router.add_get("/", lambda _: web.Response(text="<form></form>", content_type="text/html"))
        runner = web.AppRunner(app)
        await runner.setup()
        self.addAsyncCleanup(runner.cleanup)
        await web.TCPSite(runner, host, port, shutdown_timeout=0.1).start()
        return runner

    async def test_what_asks_without_hearing_the_answer_changes_nothing(self) -> None:
        """Requests of a page from elsewhere that browsers send without asking the gateway first."""
        await self.start()
        self.files["0" * 64] = b"there"
        registered = self.enterContext(mock.patch.object(self.network, "register", mock.AsyncMock()))
        self.enterContext(mock.patch.object(self.network.ledger, "blobs", {bytes(32): mock.Mock(until=1)}))
        paths = ["/v1/bundles?epochs=1", f"/v1/extend/{'0' * 64}?epochs=9", "/v1/uploads?epochs=1"]
        runner = await self.serve("127.0.0.1", 0)
        async with Browser() as browser:
            for path in paths:
                await browser.open(f"http://127.0.0.1:{runner.addresses[0][1]}/")
                self.assertTrue(await browser.until("document.querySelector('form')"))
                asks = f"fetch('{self.url}{path}', {{method: 'POST', mode: 'no-cors', body: %s}}).then(it => it.type)"
                for body in (
                    "'x'",
                    "new URLSearchParams('a=b')",
                    "(() => { let it = new FormData(); " "it.append('a', new Blob(['x']), 'x'); return it })()",
                ):
                    self.assertEqual(await browser.evaluate(asks % body), "opaque")
                self.assertTrue(await browser.evaluate(f"navigator.sendBeacon('{self.url}{path}', 'x')"))
                words = f"{{method: 'POST', enctype: 'text/plain', action: '{self.url}{path}'}}"
                fill = "form.innerHTML = '<input name=a>'; form.submit()"
                await browser.evaluate(f"form = Object.assign(document.forms[0], {words}); {fill}")
                self.assertTrue(await browser.until("document.body.innerText.includes('a page from elsewhere')"), path)
        await asyncio.sleep(0.5)
        asked = sum(count for it, count in self.gateway.requests.items() if 'method="POST"' in it)
        self.assertEqual(asked, self.gateway.requests['method="POST",status="403"'])
        self.assertGreaterEqual(asked, 5 * len(paths))
        self.assertEqual((self.stored, registered.call_count), ([], 0))
        self.assertEqual(list(self.folder.glob("tokens.uploads/*")), [])

    async def test_a_name_that_comes_to_lead_here_reads_no_lists(self) -> None:
        """The page of evil.example is loaded from elsewhere, and then its name leads to the gateway (DNS rebinding)."""
        for host in filter(None, ("127.0.0.1", other_address())):
            port = free_port()
            runner = await self.serve(host, port)
            async with Browser(f"--host-resolver-rules=MAP evil.example {host}") as browser:
                await browser.open(f"http://evil.example:{port}/")
                self.assertTrue(await browser.until("document.querySelector('form')"))
                await runner.cleanup()
                await self.start(host, port)
                self.files["0" * 64] = b"there"
                asks = "fetch('{}', {{method: '{}', body: {}}}).then(it => it.status)"
                self.assertTrue(await browser.until(f"({asks.format('/livez', 'GET', 'null')})"))
                for path in ("/v1/blobs", "/v1/status", f"/v1/status/{'0' * 64}", "/metrics"):
                    self.assertEqual(await browser.evaluate(asks.format(path, "GET", "null")), 421, (host, path))
                for method, path in (("PUT", "/v1/blobs?epochs=1"), ("POST", f"/v1/extend/{'0' * 64}?epochs=9")):
                    self.assertEqual(await browser.evaluate(asks.format(path, method, "'x'")), 421, (host, path))
                self.assertEqual(await browser.evaluate(asks.format(f"/v1/blobs/{'0' * 64}", "GET", "null")), 200)
            self.assertEqual(self.stored, [])
            await self.gateway.close()

    async def test_the_page_asks_for_a_token(self) -> None:
        self.token("anyone", "none")
        alice = self.token("alice")["Authorization"].removeprefix("Bearer ")
        await self.start()
        async with Browser() as browser:
            await browser.open(self.url + "/")
            self.assertTrue(await browser.until("document.querySelector('#token:not([hidden])')"))
            said = "document.getElementById('fault').textContent"
            self.assertEqual(await browser.evaluate(said), "a client without a token may not read here")
            await browser.evaluate(f"document.getElementById('token-text').value = '{alice}'")
            await browser.evaluate("document.querySelector('#token button').click()")
            self.assertTrue(await browser.until("document.getElementById('summary').textContent.startsWith('Epoch 0')"))
            self.assertTrue(await browser.until("document.getElementById('token').hidden"))
            self.assertEqual(await browser.evaluate("location.search"), "")  # the token is in no address
