"""What the tests of the page share: a browser that shows it, over a store in memory."""
import pathlib
import unittest

from support.browser import PROGRAM, Browser
from support.upload_case import UploadCase

PIECE = 16_777_216
SENT = "document.getElementById('sending').textContent"


@unittest.skipUnless(PROGRAM, "chromium is not here (apt-get install chromium)")
class PageCase(UploadCase):
    """The page in a browser, 320 pixels wide and in dark mode."""

    size = PIECE

    async def asyncSetUp(self) -> None:
        await super().asyncSetUp()
        await self.start()
        self.browser = await self.enterAsyncContext(Browser())
        await self.browser.look(320, 900, True)

    async def open(self, shown: str = "store") -> None:
        await self.browser.open(self.url + "/")
        self.assertTrue(await self.browser.until(f"document.getElementById('{shown}')?.offsetHeight > 0"))

    def file(self, name: str, data: bytes) -> pathlib.Path:
        path = self.folder / name
        path.write_bytes(data)
        return path

    async def fill(self, name: str, text: str) -> None:
        await self.browser.evaluate(f"document.getElementById('{name}').focus()")
        await self.browser.type(text)


__all__ = ["PIECE", "SENT", "PageCase"]
