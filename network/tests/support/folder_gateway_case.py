"""What the tests of folders at a gateway share: a gateway that stores folders and serves them."""
from typing import Any

from support.folder_case import Files
from support.guard_case import GuardCase
from walrus.network.files import manifest

TAR = {"Content-Type": "application/x-tar"}


class FolderGatewayCase(GuardCase):
    """A gateway whose blobs are in memory. Their identifiers are their SHA-256 here."""

    async def put_folder(self, data: bytes, status: int = 201, kind: str = TAR["Content-Type"], **words: Any) -> Any:
        words["headers"] = {"Content-Type": kind, **words.get("headers", {})}
        found, headers, told = await self.ask("PUT", "/v1/folders?epochs=5", data=data, **words)
        self.assertEqual(found, status, told)
        if status in (200, 201):
            self.assertEqual(headers["location"], f"/v1/folders/{told['blobId']}/")
        return told

    async def get(self, path: str, **words: Any) -> tuple[int, dict[str, str], Any]:
        return await self.ask("GET", path, allow_redirects=False, **words)

    async def holds(self, name: str, files: Files) -> None:
        for path, data in files.items():
            status, headers, body = await self.get(f"/v1/folders/{name}/{path}")
            self.assertEqual((status, body), (200, data), path)
            self.assertEqual(headers["content-type"].partition(";")[0], manifest.kind_of(path))

    def used(self, name: str) -> tuple[int, int]:
        assert self.gateway.publisher.shares
        return self.gateway.publisher.shares.used(name, 0)
