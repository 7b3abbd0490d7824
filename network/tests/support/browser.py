"""A page in a headless Chromium, spoken to over its debugging socket."""
import asyncio
import base64
import contextlib
import pathlib
import shutil
import tempfile
from typing import Any

import aiohttp

PROGRAM = shutil.which("chromium") or shutil.which("chromium-browser") or ""


class Browser(contextlib.AbstractAsyncContextManager["Browser"]):
    """One page; what goes wrong in it is raised. It may be given words for Chromium."""

    def __init__(self, *words: str):
        self.words = words

    async def __aenter__(self) -> "Browser":
        self.folder = tempfile.mkdtemp(prefix="walrus-browser-")
        words = ["--headless", "--no-sandbox", "--disable-gpu", "--disable-dev-shm-usage", "--no-first-run"]
        words += ["--remote-debugging-port=0", "--remote-allow-origins=*", f"--user-data-dir={self.folder}"]
        words += self.words
        quiet = {"stdin": asyncio.subprocess.DEVNULL, "stdout": asyncio.subprocess.DEVNULL}
        self.process = await asyncio.create_subprocess_exec(PROGRAM, *words, "about:blank", stderr=-3, **quiet)
        self.session, self.number = aiohttp.ClientSession(), 0
        try:
            async with asyncio.timeout(120):
                told, pages = pathlib.Path(self.folder) / "DevToolsActivePort", list[dict[str, Any]]()
                while not told.exists() or "\n" not in told.read_text():
                    await asyncio.sleep(0.1)
                port = told.read_text().split()[0]
                while not pages:  # it listens before it has one
                    await asyncio.sleep(0.1)
                    async with self.session.get(f"http://127.0.0.1:{port}/json/list") as said:
                        pages = [it for it in await said.json(content_type=None) if it["type"] == "page"]
                self.socket = await self.session.ws_connect(pages[0]["webSocketDebuggerUrl"], max_msg_size=2**26)
        except BaseException:
            await self.__aexit__()
            raise
        return self

    async def __aexit__(self, *_: object) -> None:
        await self.session.close()
        with contextlib.suppress(ProcessLookupError):
            self.process.terminate()
        try:
            await asyncio.wait_for(self.process.wait(), 10)
        except TimeoutError:
            self.process.kill()
            await self.process.wait()
        shutil.rmtree(self.folder, ignore_errors=True)

    async def call(self, method: str, **words: object) -> Any:
        """What the browser answers to a command of its protocol."""
        self.number += 1
        async with asyncio.timeout(30):
            await self.socket.send_json({"id": self.number, "method": method, "params": words})
            while True:
                said = await self.socket.receive_json()
                if said.get("id") == self.number:
                    if "error" in said:
                        raise RuntimeError(f"{method}: {said['error']}")
                    return said["result"]

    async def open(self, url: str) -> None:
        await self.call("Page.enable")
        await self.call("Page.navigate", url=url)

    async def evaluate(self, text: str) -> Any:
        said = await self.call("Runtime.evaluate", expression=text, returnByValue=True, awaitPromise=True)
        if "exceptionDetails" in said:
            raise RuntimeError(str(said["exceptionDetails"]))
        return said["result"].get("value")

    async def until(self, text: str, seconds: float = 60) -> bool:
        """Whether an expression comes to hold in time."""
        with contextlib.suppress(TimeoutError):
            async with asyncio.timeout(seconds):
                while not await self.evaluate(f"Boolean({text})"):
                    await asyncio.sleep(0.2)
                return True
        return False

    async def look(self, width: int, height: int, dark: bool) -> None:
        """Sets the size of the window, and whether its user likes it dark."""
        size = {"width": width, "height": height, "deviceScaleFactor": 1, "mobile": width < 600}
        await self.call("Emulation.setDeviceMetricsOverride", **size)
        scheme = {"name": "prefers-color-scheme", "value": "dark" if dark else "light"}
        await self.call("Emulation.setEmulatedMedia", features=[scheme])

    async def picture(self, path: pathlib.Path) -> None:
        path.write_bytes(base64.b64decode((await self.call("Page.captureScreenshot"))["data"]))

    async def press(self, key: str) -> None:
        words: dict[str, object] = {"key": key, "windowsVirtualKeyCode": {"Tab": 9, "Enter": 13}[key]}
        words |= {"text": "\r"} if key == "Enter" else {}
        for kind in ("keyDown", "keyUp"):
            await self.call("Input.dispatchKeyEvent", type=kind, **words)

    async def type(self, text: str) -> None:
        await self.call("Input.insertText", text=text)

    async def choose(self, name: str, *paths: pathlib.Path) -> None:
        """Has a field take files."""
        said = await self.call("Runtime.evaluate", expression=f"document.getElementById('{name}')")
        place = said["result"]["objectId"]
        await self.call("DOM.setFileInputFiles", files=[str(it) for it in paths], objectId=place)

    async def drop(self, name: str, *paths: pathlib.Path) -> None:
        """Drags files over an element, and lets them go there."""
        middle = f"(it => [it.x + it.width / 2, it.y + it.height / 2])({name}.getBoundingClientRect())"
        x, y = await self.evaluate(middle)
        data = {"items": [], "files": [str(it) for it in paths], "dragOperationsMask": 1}
        for kind in ("dragEnter", "dragOver", "drop"):
            await self.call("Input.dispatchDragEvent", type=kind, x=x, y=y, data=data)
