"""openapi.yaml and HTTP.md agree with the gateway's code: paths, parameters, headers, statuses and replies."""
import os
import pathlib
import re
import unittest
from typing import Any

from support.folder_case import tar_of
from support.harness import HERE
from support.upload_case import UploadCase
from walrus.network.gateway import app

try:
    import yaml
except ImportError:
    yaml = None

PACKAGE = pathlib.Path(app.__file__).parent
OWN = """app auth/guard auth/shares bodies/archives bodies/forms bodies/source folders http/access_log
http/digests http/errors http/ranges read/listing read/manifests read/reader status/watch
write/folder_upload write/publisher write/resumable"""
NAME = "[A-Z][A-Za-z]*(?:-[A-Z][A-Za-z]*)+"  # the name of a header, with a hyphen
READ = [rf'headers\.get(?:all)?\("({NAME}|[A-Z][a-z]+)"', rf'"({NAME}|[A-Z][a-z]+)" in request\.headers']
GENERAL = {"Accept", "Host", "Authorization", "Content-Type", "Content-Length"}  # headers of HTTP itself


def code() -> str:
    return "".join((PACKAGE / f"{name}.py").read_text() for name in OWN.split())


@unittest.skipIf(yaml is None, "python3-yaml is not here (network/install --tests)")
class Told(UploadCase):
    async def asyncSetUp(self) -> None:
        await super().asyncSetUp()
        self.api = yaml.safe_load((PACKAGE / "openapi.yaml").read_text())
        self.page = (HERE.parent / "HTTP.md").read_text()

    def found(self, it: Any) -> Any:
        """Returns what a reference refers to."""
        while "$ref" in it:
            place = it["$ref"].removeprefix("#/").split("/")
            it = self.api
            for step in place:
                it = it[step]
        return it

    def asked(self, kind: str) -> dict[tuple[str, str], set[str]]:
        """Returns the parameters of this kind of each request, by method and path."""
        told = dict[tuple[str, str], set[str]]()
        for path, methods in self.api["paths"].items():
            shared = methods.get("parameters", [])
            for method, it in methods.items():
                if method != "parameters":
                    each = map(self.found, [*shared, *it.get("parameters", [])])
                    told[method.upper(), path] = {one["name"] for one in each if one["in"] == kind}
        return told

    async def test_each_path_has_its_methods_and_words(self) -> None:
        await self.start()
        assert self.gateway.runner and self.gateway.runner.app
        routes = set[tuple[str, str]]()
        for it in self.gateway.runner.app.router.routes():
            assert it.resource
            path = re.sub(r"\{(\w+)[^}]*\}", r"{\1}", it.resource.canonical).replace("{name}", "{id}")
            routes.add((it.method, path))
        pages = {(method, f"/{it}") for it in app.PARTS for method in ("GET", "HEAD")}
        told = self.asked("query")
        heads = {("HEAD", path) for method, path in routes if method == "GET"}
        self.assertEqual({*told} | heads - pages, routes - pages)
        for method, path in told:
            words = app.TAKEN.get((method, path.replace("{id}", "{name}")), [])
            self.assertEqual(told[method, path], {*words}, (method, path))
            rows = [rf"`{method} {path.replace('{id}', 'ID')}\?[^`]*{word}=" for word in words]
            plain = re.escape(re.sub(r"\{(\w+)\}", lambda it: it[1].upper(), path))
            rows += [rf"`[A-Z, `]*{method}[A-Z, `]* {plain}[?`]"] if method != "HEAD" else []
            self.assertEqual([it for it in rows if not re.search(it, self.page)], [], "no row of the page tells of it")

    def paths(self) -> dict[str, set[str]]:
        """Yields each path with its parameters filled in, and the methods that the page has for it."""
        found = dict[str, set[str]]()
        for path, methods in self.api["paths"].items():
            place = path.replace("{id}", "0" * 64).replace("{number}", "0").replace("{node}", "node-0")
            named = {it.upper() for it in methods if it != "parameters"}
            found[re.sub(r"\{\w+\}", "a", place)] = named | ({"HEAD"} if "GET" in named else set())
        return found

    async def test_each_path_says_its_methods(self) -> None:
        await self.start()
        for path, methods in self.paths().items():
            status, headers, _ = await self.ask("OPTIONS", path)
            self.assertEqual((status, {*headers["allow"].split(", ")}), (204, methods | {"OPTIONS"}), path)
            for method in {"GET", "PUT", "POST", "PATCH", "DELETE"} - methods:
                status, headers, told = await self.ask(method, path)
                self.assertEqual((status, {*headers["allow"].split(",")}), (405, methods), (method, path))
                self.assertIn("nothing is deleted" if method == "DELETE" else "GET /v1/api", told["error"]["text"])
        self.assertEqual((await self.ask("OPTIONS", "/v2"))[0], 404)

    async def test_no_request_takes_a_word_that_is_not_told(self) -> None:
        await self.start()
        self.files["0" * 64] = b"no folder"
        for path, methods in self.paths().items():
            for method in methods - {"HEAD"}:
                status, _, told = await self.ask(method, f"{path}?epohcs=1", data=b"x" if method[0] == "P" else None)
                if method == "GET" and path.startswith("/v1/folders/"):  # pages in folders use parameters of their own
                    self.assertEqual((status, told["error"]["text"][:21]), (404, "the blob is no folder"), path)
                else:
                    self.assertEqual(status, 400, (method, path, told))
                    self.assertIn("'epohcs' is not a query parameter", told["error"]["text"], (method, path))
        self.assertEqual(self.stored, [])

    async def test_each_header_is_told(self) -> None:
        text = self.page + (HERE.parent / "OPERATING.md").read_text() + (PACKAGE / "openapi.yaml").read_text()
        read = {name for form in READ for name in re.findall(form, code())}
        made = {*re.findall(rf'"({NAME})"\]? ?[:=] ', code()), *re.findall(rf'"({NAME})": ', code())}
        self.assertGreater(len(read), 15)
        self.assertGreater(len(made), 10)
        lacking = [it for it in sorted({*read, *made} - GENERAL) if not re.search(rf"\b{it}\b", text)]
        self.assertEqual(lacking, [])

    async def test_each_status_is_told(self) -> None:
        used = {*re.findall(r"Problem\(\s*(\d{3})", code()), *re.findall(r"status=(\d{3})", code())}
        rows = {*re.findall(r"^\| (\d{3}) \|", self.page, re.MULTILINE)}
        self.assertLessEqual({it for it in used if it >= "400"}, rows)
        text = (PACKAGE / "openapi.yaml").read_text()
        general = {*re.findall(r"\b(4\d\d)\b", self.api["info"]["description"])}
        self.assertEqual(general, {"405", "431"})  # of methods that no path has, and of heads
        self.assertLessEqual({*used, *rows} - general, {*re.findall(r'"(\d{3})":', text)})

    def fits(self, schema: Any, value: Any, place: str) -> None:
        """Checks that a reply has what the schema says, and nothing else."""
        known, needed = dict[str, Any](), set[str]()
        for part in [schema, *schema.get("allOf", [])]:
            whole = self.found(part)
            for it in [whole, *map(self.found, whole.get("allOf", []))]:
                known |= it.get("properties", {})
                needed |= {*it.get("required", [])}
        schema = {**self.found(schema), **{it: schema[it] for it in schema if it != "$ref"}}
        if value is None:
            self.assertTrue(schema.get("nullable"), place)
        elif isinstance(value, dict):
            self.assertLessEqual(needed, value.keys(), place)
            more = schema.get("additionalProperties")
            for name, it in value.items():
                self.assertTrue(name in known or more, f"{place}.{name} is not told")
                self.fits(known.get(name, more), it, f"{place}.{name}")
        elif isinstance(value, list):
            self.assertEqual(schema["type"], "array", place)
            for it in value:
                self.fits(schema["items"], it, f"{place}[]")
        else:
            kinds = {bool: ["boolean"], int: ["integer", "number"], float: ["number"], str: ["string"]}
            self.assertIn(schema["type"], kinds[type(value)], place)
            self.assertIn(value, schema.get("enum", [value]), place)

    async def replies(self, method: str, path: str, status: int, told: str = "", **words: Any) -> Any:
        """Checks that a request has this status, and a reply as the page describes it."""
        found, _, body = await self.ask(method, path, **words)
        self.assertEqual(found, status, body)
        said = self.found(self.api["paths"][told or path.partition("?")[0]][method.lower()]["responses"][str(status)])
        self.fits(said["content"]["application/json"]["schema"], body, f"{method} {path[:40]}")
        return body

    async def test_each_reply_is_as_it_is_told(self) -> None:
        self.token("anyone", "read,store", bytes=100_000)
        await self.start(sites="sites.example")
        put = await self.replies("PUT", "/v1/blobs?epochs=5&filename=a.txt", 201, data=b"data")
        self.was_there = True
        await self.replies("PUT", "/v1/blobs?epochs=5", 200, data=b"data")
        self.was_there = False
        tar = {"Content-Type": "application/x-tar"}
        folder = await self.replies(
            "PUT", "/v1/folders?epochs=5", 201, data=tar_of({"a": b"1", "b/c": b""}), headers=tar
        )
        self.assertIn("site", folder["folder"])
        asked = {"Accept": "application/json"}
        path = f"/v1/folders/{folder['blobId']}/"
        await self.replies("GET", path, 200, "/v1/folders/{id}/{path}", headers=asked)
        await self.replies("GET", path + "none", 404, "/v1/folders/{id}/{path}")
        for names in ({"Upload-Complete": "?1"}, {"Upload-Complete": "?0"}):
            _, headers, _ = await self.ask("POST", "/v1/uploads?epochs=5", data=os.urandom(9), headers=names)
            if names["Upload-Complete"] == "?0":
                await self.replies("GET", headers["location"], 200, "/v1/uploads/{upload}")
        told = await self.replies("POST", "/v1/uploads?epochs=5", 201, data=b"9", headers={"Upload-Complete": "?1"})
        known = bytes.fromhex(told["blobId"]).hex()
        await self.replies("GET", "/v1/blobs", 200)
        await self.replies("GET", "/v1/rights", 200)
        await self.replies("GET", f"/v1/status/{known}", 200, "/v1/status/{id}")
        self.gateway.watch.findings.appendleft({"blob": known, "node": "a", "holds": True, "said": "", "time": 1.5})
        self.gateway.announcer.findings.appendleft({"blob": known, "invalid": True, "said": "", "time": 1.5})
        await self.replies("GET", "/v1/status", 200)
        await self.replies("POST", f"/v1/extend/{put['blobId']}?epochs=101", 400, "/v1/extend/{id}")
        await self.replies("GET", f"/v1/status/{'0' * 64}", 404, "/v1/status/{id}")
        await self.replies("PUT", "/v1/blobs?epochs=5", 403, data=bytes(100_001))
        self.away = "no shard acknowledges it"
        headers = {"Upload-Complete": "?1"}
        await self.replies("POST", "/v1/uploads?epochs=5", 503, data=b"8", headers=headers)
