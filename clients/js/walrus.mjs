/**
 * Names blobs and checks what a gateway sends, without the program walrus and without trust in the gateway.
 *
 * It runs in browsers and in Node, on WebCrypto. The rules are those of docs/FORMATS.md, and of network/HTTP.md for lists.
 */
export const LARGEST_BLOB = 16_777_216, MOST_FAULTS = 333;
const MARK = new TextEncoder().encode("\0walrus list \0\0\x01");
const PATIENCE = 600_000; // milliseconds for a whole file

/** What was asked for did not come, or is not what its identifier names. */
export class WalrusError extends Error {}

/** For each exponent the power of x, twice over, and for each word but 0 its exponent. */
const [POWERS, EXPONENTS] = (() => {
  const powers = new Uint16Array(131_070), exponents = new Uint16Array(65_536);
  for (let exponent = 0, word = 1; exponent < 65_535; exponent++) {
    powers[exponent] = powers[exponent + 65_535] = word;
    exponents[word] = exponent;
    word = word & 0x8000 ? (word << 1) ^ 0x1100b : word << 1;
  }
  return [powers, exponents];
})();

const through = (count, entry) => Array.from({ length: count }, (_, place) => entry(place));
const times = (left, right) => (left && right ? POWERS[EXPONENTS[left] + EXPONENTS[right]] : 0);
const over = (left, right) => (left ? POWERS[EXPONENTS[left] + 65_535 - EXPONENTS[right]] : 0);
const swapped = (word) => (word >> 8) | ((word & 0xff) << 8); // typed arrays have the least significant byte first

/** By how much the symbol at each place below `count` counts in that at another point. */
function coefficients(count, point) {
  const places = through(count, (place) => place);
  const factor = (place, other) => (other === place ? 1 : over(point ^ other, place ^ other));
  return places.map((place) => places.reduce((product, other) => times(product, factor(place, other)), 1));
}

/** Adds a multiple of each word of a symbol to those of another one: of long ones by a table for each byte of a word. */
function addScaled(sum, scale, symbol) {
  if (sum.length < 512) {
    return sum.forEach((word, at) => (sum[at] = word ^ swapped(times(scale, swapped(symbol[at])))));
  }
  const first = new Uint16Array(256), second = new Uint16Array(256);
  for (let byte = 1; byte < 256; byte++) {
    first[byte] = swapped(times(scale, byte << 8));
    second[byte] = swapped(times(scale, byte));
  }
  for (let at = 0; at < sum.length; at++) sum[at] ^= first[symbol[at] & 0xff] ^ second[symbol[at] >> 8];
}

/** Fills codewords, lists of symbols of which the first so many are there. */
function extend(codewords, count) {
  for (let point = count; point < codewords[0].length; point++) {
    const scales = coefficients(count, point);
    for (const word of codewords) scales.forEach((scale, place) => addScaled(word[point], scale, word[place]));
  }
}

/** The extended matrix of a blob: rows of symbols, each an array of words. */
function matrixOf(blob, faults) {
  const rows = faults + 1, columns = 2 * faults + 1, shards = 3 * faults + 1;
  const size = 2 * Math.max(1, Math.ceil(blob.length / (2 * rows * columns)));
  const bytes = new Uint8Array(shards * shards * size);
  for (let row = 0; row < rows; row++) {
    bytes.set(blob.subarray(row * columns * size, (row + 1) * columns * size), row * shards * size);
  }
  const symbol = (place) => new Uint16Array(bytes.buffer, place * size, size / 2);
  const matrix = through(shards, (row) => through(shards, (column) => symbol(row * shards + column)));
  extend(matrix.slice(0, rows), columns);
  extend(matrix[0].map((_, column) => matrix.map((row) => row[column])), rows);
  return matrix;
}

const bytesOf = (array) => new Uint8Array(array.buffer, array.byteOffset, array.byteLength);

function joined(parts) {
  const whole = new Uint8Array(parts.reduce((size, part) => size + part.length, 0));
  parts.reduce((place, part) => (whole.set(part, place), place + part.length), 0);
  return whole;
}

const digest = async (...parts) => new Uint8Array(await crypto.subtle.digest("SHA-256", joined(parts)));
const leaf = (content) => digest([0], content);

/** The levels of a tree over the digests of its leaves, each filled up with its zero entry; the root is the last. */
async function levelsOver(leaves) {
  const levels = [leaves];
  while (levels.at(-1).length > 1) {
    const below = levels.at(-1);
    if (below.length % 2) below.push(new Uint8Array(32));
    levels.push(await Promise.all(through(below.length / 2, (at) => digest([1], below[2 * at], below[2 * at + 1]))));
  }
  return levels;
}

const rootOver = async (leaves) => (await levelsOver([...leaves])).at(-1)[0];

/** Whether a path leads from a symbol, at a place among so many leaves, to a root: what makes an opening hold. */
export async function leadsTo(root, symbol, place, count, path) {
  if (place >= count || path.length !== Math.ceil(Math.log2(count))) return false;
  let reached = await leaf(symbol);
  for (const sibling of path) {
    reached = await (place % 2 ? digest([1], sibling, reached) : digest([1], reached, sibling));
    place = Math.floor(place / 2);
  }
  return hex(reached) === hex(root);
}

export const hex = (bytes) => Array.from(bytes, (byte) => byte.toString(16).padStart(2, "0")).join("");

function number(value, size) {
  const bytes = new Uint8Array(size);
  for (let at = size - 1; at >= 0; at--, value = Math.floor(value / 256)) bytes[at] = value % 256;
  return bytes;
}

/** A blob's identifier, in digits; its metadata without the kind; the roots; and the slivers of both axes. */
export async function encode(blob, faults, format = 1) {
  if (!Number.isInteger(faults) || faults < 1 || faults > MOST_FAULTS) throw new RangeError("f is 1 to 333");
  if (blob.length > LARGEST_BLOB) throw new RangeError("a blob has at most 16,777,216 bytes");
  if (format !== 1 && format !== 2) throw new RangeError("a format is 1 or 2");
  const matrix = matrixOf(blob, faults), shards = matrix.length;
  const leaves = [];
  for (const row of matrix) leaves.push(await Promise.all(row.map((symbol) => leaf(bytesOf(symbol)))));
  const primary = await Promise.all(leaves.map(rootOver));
  const secondary = await Promise.all(leaves[0].map((_, column) => rootOver(leaves.map((row) => row[column]))));
  const pairs = primary.map((root, shard) => joined([root, secondary[format === 1 ? shard : shards - 1 - shard]]));
  const head = joined([format === 1 ? [] : [2], number(faults, 2), number(blob.length, 8)]);
  const pairRoot = await rootOver(await Promise.all(pairs.map(leaf)));
  return {
    identifier: hex(await digest([format + 1], head, pairRoot)),
    metadata: joined([head, ...pairs]),
    roots: { primary, secondary },
    primary: matrix.map((row) => joined(row.slice(0, 2 * faults + 1).map(bytesOf))),
    secondary: matrix[0].map((_, column) => joined(matrix.slice(0, faults + 1).map((row) => bytesOf(row[column])))),
  };
}

export const identifier = async (blob, faults, format = 1) => (await encode(blob, faults, format)).identifier;

/** The blob that lists a file of this length by the identifiers of its pieces, in digits. */
export const listOf = (length, names) =>
  joined([MARK, number(length, 8), ...names.map((name) => Uint8Array.from(name.match(/../g), (at) => parseInt(at, 16)))]);

const begins = (blob) => MARK.every((byte, at) => blob[at] === byte);

/** Whether a gateway takes a blob for a list: it then names a file, and is none. */
export function isList(blob) {
  const length = blob.slice(16, 24).reduce((value, byte) => value * 256 + byte, 0);
  return begins(blob) && length > 0 && blob.length === 24 + 32 * Math.ceil(length / LARGEST_BLOB);
}

/** The names that a file may have, in digits, first the one that a gateway gives it; each piece but the last is full. */
async function namesOf(pieces, faults, format) {
  const names = [], length = pieces.reduce((size, piece) => size + piece.length, 0);
  for (const piece of pieces) names.push(await identifier(piece, faults, format));
  const own = pieces.length === 1 && !isList(pieces[0]) ? names : [];
  const listed = await identifier(listOf(length, names), faults, format);
  if (length === 0) return own; // no list has that length
  return own.length && !begins(pieces[0]) ? [...own, listed] : [listed, ...own];
}

/** What a gateway names a file of any length, in digits. */
export async function fileIdentifier(file, faults, format = 1) {
  const count = Math.max(1, Math.ceil(file.length / LARGEST_BLOB));
  const pieces = through(count, (at) => file.subarray(at * LARGEST_BLOB, (at + 1) * LARGEST_BLOB));
  return (await namesOf(pieces, faults, format))[0];
}

/**
 * A file from a gateway, as a Blob, or `WalrusError`: no byte is given out before the whole has this name.
 * Options: `faults` (else the gateway's status says it: a false one only makes the check fail), `format`, `most` bytes,
 * and a `signal`, by default a deadline of ten minutes.
 */
export async function fetchFile(gateway, name, options = {}) {
  const { format = 1, most = 2 ** 30, signal = AbortSignal.timeout(PATIENCE) } = options;
  const ask = async (path) => {
    const reply = await fetch(new URL(path, gateway), { signal });
    const said = reply.ok ? "" : await reply.json().then((told) => told.error.text, () => reply.statusText);
    if (!reply.ok) throw new WalrusError(`${gateway}: ${path} was refused with status ${reply.status}: ${said}`);
    return reply;
  };
  const faults = options.faults ?? (await (await ask("/v1/status")).json()).faults;
  const reader = (await ask(`/v1/blobs/${name}`)).body.getReader(), pieces = [];
  let parts = [], size = 0;
  for (let { done, value } = await reader.read(); !done; ({ done, value } = await reader.read())) {
    for (let room; (room = LARGEST_BLOB - size) < value.length; value = value.subarray(room), parts = [], size = 0) {
      pieces.push(joined([...parts, value.subarray(0, room)]));
    }
    parts.push(value);
    size += value.length;
    if (pieces.length * LARGEST_BLOB + size > most) throw new WalrusError(`${name} has more than ${most} bytes`);
  }
  pieces.push(joined(parts));
  const names = await namesOf(pieces, faults, format);
  if (!names.includes(name.toLowerCase())) {
    throw new WalrusError(`${gateway} sent bytes that ${name} does not name (f = ${faults}): ask another gateway`);
  }
  return new Blob(pieces);
}
