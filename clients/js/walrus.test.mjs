// node --test clients/js: the vectors of all clients, and a gateway that lies.
import assert from "node:assert/strict";
import { createHash } from "node:crypto";
import { readFileSync } from "node:fs";
import { createServer } from "node:http";
import { test } from "node:test";
import { encode, fetchFile, fileIdentifier, hex, identifier, isList, leadsTo, listOf, LARGEST_BLOB } from "./walrus.mjs";

const VECTORS = JSON.parse(readFileSync(new URL("../vectors.json", import.meta.url)));
const sha256 = (...parts) => parts.reduce((hash, part) => hash.update(new Uint8Array(part)), createHash("sha256")).digest("hex");
const bytes = (digits) => Uint8Array.from(Buffer.from(digits, "hex"));

function made({ hex: digits, generator, length }) {
  if (digits !== undefined) return bytes(digits);
  const input = new Uint8Array(length);
  if (generator === "counting") for (let at = 0; at < length; at++) input[at] = at % 251;
  return input;
}

const described = ({ input, faults }) => `f = ${faults}, ${input.length ?? input.hex.length / 2} bytes`;

test("blobs: metadata, slivers, identifiers and openings", async (suite) => {
  assert.ok(VECTORS.blobs.length > 50);
  for (const vector of VECTORS.blobs) {
    await suite.test(described(vector), async () => {
      const blob = made(vector.input), one = await encode(blob, vector.faults);
      assert.equal(one.identifier, vector.formats[1].identifier);
      assert.equal(sha256([0x10], one.metadata), vector.formats[1].metadata);
      assert.deepEqual(one.primary.map((it) => sha256(it)), vector.slivers.primary);
      assert.deepEqual(one.secondary.map((it) => sha256(it)), vector.slivers.secondary);
      for (const { axis, index, cross, symbol, path } of vector.openings.filter((it) => it.symbol !== undefined)) {
        const root = [one.roots.secondary, one.roots.primary][axis][cross], siblings = path.map(bytes);
        const count = one.primary.length;
        assert.ok(await leadsTo(root, bytes(symbol), index, count, siblings));
        const isAlike = sha256([0], bytes(symbol)) === path[0]; // then both places have the same path
        assert.equal(await leadsTo(root, bytes(symbol), index ^ 1, count, siblings), isAlike);
        assert.ok(!(await leadsTo(root, bytes(symbol), index, count, siblings.slice(1))));
        assert.ok(!(await leadsTo(root, bytes(symbol).map((byte) => byte ^ 1), index, count, siblings)));
      }
      if (blob.length < (vector.faults < 33 ? 2 ** 20 : 1)) { // the matrix is the same
        const two = await encode(blob, vector.faults, 2);
        assert.equal(two.identifier, vector.formats[2].identifier);
        assert.equal(sha256([0x14], two.metadata), vector.formats[2].metadata);
      }
    });
  }
});

test("lists of files that are no blob", async () => {
  for (const vector of VECTORS.lists) {
    const file = made(vector.input), [format, told] = [1, vector.formats[1]], names = [];
    for (let at = 0; at < file.length; at += LARGEST_BLOB) {
      names.push(await identifier(file.subarray(at, at + LARGEST_BLOB), vector.faults, format));
    }
    assert.equal(hex(listOf(file.length, names)), told.list);
    assert.ok(isList(bytes(told.list)) && !isList(file));
    assert.equal(await fileIdentifier(file, vector.faults, format), told.identifier);
  }
});

test("words that are none", async () => {
  await assert.rejects(identifier(new Uint8Array(1), 0), RangeError);
  await assert.rejects(identifier(new Uint8Array(1), 334), RangeError);
  await assert.rejects(identifier(new Uint8Array(1), 1, 3), RangeError);
  await assert.rejects(identifier(new Uint8Array(LARGEST_BLOB + 1), 1), RangeError);
});

/** Asks a gateway that sends these bodies by name, with f = 1 in its status, for one of them. */
async function fetched(bodies, name, options) {
  const server = createServer((request, reply) => {
    const body = bodies[request.url.slice("/v1/blobs/".length)];
    if (request.url === "/v1/status") reply.end(JSON.stringify({ faults: 1 }));
    else if (body !== undefined) reply.end(body);
    else reply.writeHead(404).end(JSON.stringify({ error: { status: 404, text: "it is not registered" } }));
  });
  await new Promise((resolve) => server.listen(0, "127.0.0.1", resolve));
  try {
    return new Uint8Array(await (await fetchFile(`http://127.0.0.1:${server.address().port}`, name, options)).arrayBuffer());
  } finally {
    server.close();
  }
}

test("fetching gives the file of the name, or nothing", async () => {
  const file = bytes("77616c727573"), other = bytes("77616c727574"), name = await identifier(file, 1);
  assert.deepEqual(await fetched({ [name]: file }, name), file);
  assert.deepEqual(await fetched({ [name]: file }, name, { faults: 1 }), file);
  await assert.rejects(fetched({ [name]: other }, name), /does not name/);
  await assert.rejects(fetched({ [name]: "" }, name), /does not name/);
  await assert.rejects(fetched({ [name]: file }, name, { faults: 2 }), /does not name/);
  await assert.rejects(fetched({ [name]: file }, name, { most: 5 }), /more than 5 bytes/);
  await assert.rejects(fetched({}, name), /status 404: it is not registered/);
  const empty = await identifier(new Uint8Array(), 1);
  assert.deepEqual(await fetched({ [empty]: "" }, empty), new Uint8Array());
});

test("fetching a file that a list names", async () => {
  for (const vector of VECTORS.lists.filter((it) => it.faults === 1)) {
    const file = made(vector.input), { list, identifier: name } = vector.formats[1];
    assert.ok(Buffer.compare(await fetched({ [name]: file }, name), file) === 0);
    await assert.rejects(fetched({ [name]: bytes(list) }, name), /does not name/, "the list is not the file");
  }
});
