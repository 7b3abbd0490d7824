/*
 * The openings that shards send to recover a sliver: `openings AXIS INDEX` reads the output of `walrus encode`, and
 * writes its metadata and then the openings of the primary (AXIS 0) or secondary (AXIS 1) sliver INDEX. They come from
 * the last shards, whose slivers are redundant, as many as recovery needs. It has its own code for GF(2^16) and trees.
 *
 * Build: gcc -O3 -march=native -o openings openings.c -lcrypto
 */
#define OPENSSL_API_COMPAT 0x10100000L
#include <openssl/sha.h>
#include <stdint.h>
#include <stdio.h>
#include <stdlib.h>
#include <string.h>

enum {
    WORDS = 65536,
    DIGEST = 32,
    PAIR = 2 * DIGEST,
    MOST_LEVELS = 11,
    HEAD = 7,    /* bytes of an envelope before its payload */
    FIELDS = 40, /* bytes of a sliver's frame before its bytes, the kind first */
};

/* The polynomial of the field: x^16 + x^12 + x^3 + x + 1. Its powers of 2 are all words but 0. */
static const uint32_t POLYNOMIAL = 0x1100b;

static uint16_t power[2 * WORDS];
static uint32_t exponent[WORDS];

/* The envelopes of an encoding with its shape, and the target. */
struct blob {
    uint8_t *bytes; /* the envelopes */
    size_t metadata; /* bytes of the first envelope, which is the metadata */
    size_t faults, shards, rows, columns, symbol;
    size_t axis, index;
};

static void fail(const char *why)
{
    fprintf(stderr, "openings: %s\n", why);
    exit(1);
}

static void *memory(size_t size)
{
    void *made = calloc(size, 1);
    if (made == NULL)
        fail("no memory");
    return made;
}

static size_t number(const uint8_t *at, size_t size)
{
    size_t value = 0;
    for (size_t i = 0; i < size; i++)
        value = value << 8 | at[i];
    return value;
}

static void make_powers(void)
{
    uint32_t value = 1;
    for (uint32_t i = 0; i < WORDS - 1; i++) {
        power[i] = power[i + WORDS - 1] = (uint16_t)value;
        exponent[value] = i;
        value <<= 1;
        if (value >= WORDS)
            value ^= POLYNOMIAL;
    }
}

static uint16_t times(uint16_t a, uint16_t b)
{
    return a == 0 || b == 0 ? 0 : power[exponent[a] + exponent[b]];
}

/* b is not 0. */
static uint16_t divided(uint16_t a, uint16_t b)
{
    return a == 0 ? 0 : power[exponent[a] + WORDS - 1 - exponent[b]];
}

/* The number by which the value at place p enters that at place w, where the values at all places before `known` are
 * given: the product of (w - q) / (p - q) over the other known places q. The difference is exclusive or. */
static uint16_t coefficient(size_t known, size_t p, size_t w)
{
    uint16_t above = 1, below = 1;
    for (size_t q = 0; q < known; q++)
        if (q != p) {
            above = times(above, (uint16_t)(w ^ q));
            below = times(below, (uint16_t)(p ^ q));
        }
    return divided(above, below);
}

/* The multiples of a word, which is the sum of its two bytes' words. */
struct multiples {
    uint16_t high[256], low[256];
};

static void make_multiples(uint16_t by, struct multiples *made)
{
    for (uint32_t byte = 0; byte < 256; byte++) {
        made->high[byte] = times(by, (uint16_t)(byte << 8));
        made->low[byte] = times(by, (uint16_t)byte);
    }
}

/* Adds the multiple of the symbol at `from` to that at `to`. */
static void add_multiple(uint8_t *to, const uint8_t *from, size_t size, const struct multiples *by)
{
    for (size_t i = 0; i < size; i += 2) {
        uint16_t product = by->high[from[i]] ^ by->low[from[i + 1]];
        to[i] ^= (uint8_t)(product >> 8);
        to[i + 1] ^= (uint8_t)product;
    }
}

/* The number of symbols of a sliver of this axis. */
static size_t sliver_symbols(const struct blob *blob, size_t axis)
{
    return axis == 0 ? blob->columns : blob->rows;
}

/* The sliver of this axis and index, in the envelopes of format one: its shard's secondary sliver follows the primary. */
static const uint8_t *sliver_of(const struct blob *blob, size_t axis, size_t index)
{
    size_t primary = HEAD + FIELDS + blob->columns * blob->symbol;
    size_t secondary = HEAD + FIELDS + blob->rows * blob->symbol;
    return blob->bytes + blob->metadata + index * (primary + secondary) + axis * primary + HEAD + FIELDS;
}

static void digest(uint8_t mark, const uint8_t *content, size_t length, uint8_t out[DIGEST])
{
    SHA256_CTX context;
    SHA256_Init(&context);
    SHA256_Update(&context, &mark, 1);
    SHA256_Update(&context, content, length);
    SHA256_Final(out, &context);
}

/* Writes the siblings on the way from a leaf up to the root, and gives their number. */
static size_t path_of(const struct blob *blob, const uint8_t *line, uint8_t *siblings)
{
    uint8_t *level = memory((blob->shards + 1) * DIGEST);
    size_t place = blob->index, levels = 0;
    for (size_t i = 0; i < blob->shards; i++)
        digest(0, line + i * blob->symbol, blob->symbol, level + DIGEST * i);
    for (size_t count = blob->shards; count > 1; count /= 2, place /= 2, levels++) {
        if (count % 2 == 1)
            memset(level + DIGEST * count++, 0, DIGEST);
        memcpy(siblings + DIGEST * levels, level + DIGEST * (place ^ 1), DIGEST);
        for (size_t i = 0; i < count / 2; i++)
            digest(1, level + PAIR * i, PAIR, level + DIGEST * i);
    }
    free(level);
    return levels;
}

static void write_all(const void *bytes, size_t size)
{
    if (fwrite(bytes, 1, size, stdout) != size)
        fail("the output cannot be written");
}

static void write_number(size_t value, size_t size)
{
    for (size_t i = size; i-- > 0;)
        putchar((int)(value >> 8 * i & 255));
}

/* Writes the envelope of the opening that the holder of this line sends. */
static void write_opening(const struct blob *blob, size_t cross, const uint8_t *line)
{
    uint8_t siblings[MOST_LEVELS * DIGEST];
    size_t levels = path_of(blob, line, siblings);
    write_number(0x57, 1);
    write_number(cross, 2);
    write_number(1 + DIGEST + 3 + 7 + blob->symbol + DIGEST * levels, 4);
    write_number(0x12, 1);
    write_all(sliver_of(blob, 0, 0) - FIELDS + 1, DIGEST);
    write_number(blob->axis, 1);
    write_number(blob->index, 2);
    write_number(cross, 2);
    write_number(blob->symbol, 4);
    write_all(line + blob->index * blob->symbol, blob->symbol);
    write_number(levels, 1);
    write_all(siblings, DIGEST * levels);
}

/* The crossing lines of the last shards, as many as there are symbols in the target, one after the other. */
static uint8_t *crossing_lines(const struct blob *blob, size_t count)
{
    size_t known = sliver_symbols(blob, 1 - blob->axis), size = blob->symbol;
    size_t length = blob->shards * size;
    uint8_t *lines = memory(count * length);
    for (size_t i = 0; i < count; i++)
        memcpy(lines + i * length, sliver_of(blob, 1 - blob->axis, blob->shards - count + i), known * size);
    for (size_t w = known; w < blob->shards; w++)
        for (size_t p = 0; p < known; p++) {
            struct multiples by;
            make_multiples(coefficient(known, p, w), &by);
            for (size_t i = 0; i < count; i++)
                add_multiple(lines + i * length + w * size, lines + i * length + p * size, size, &by);
        }
    return lines;
}

static struct blob read_blob(size_t axis, size_t index)
{
    size_t most = 134217728;
    struct blob blob = {.bytes = memory(most), .axis = axis, .index = index};
    size_t length = fread(blob.bytes, 1, most, stdin);
    if (length < HEAD + 11 || blob.bytes[HEAD] != 0x10)
        fail("the input does not begin with metadata of the first format");
    blob.metadata = HEAD + number(blob.bytes + 3, 4);
    blob.faults = number(blob.bytes + HEAD + 1, 2);
    blob.shards = 3 * blob.faults + 1;
    blob.rows = blob.faults + 1;
    blob.columns = 2 * blob.faults + 1;
    blob.symbol = number(blob.bytes + blob.metadata + HEAD + FIELDS - 4, 4) / blob.columns;
    if (length != blob.metadata + blob.shards * (2 * (HEAD + FIELDS) + (blob.rows + blob.columns) * blob.symbol))
        fail("the input is not what `walrus encode` writes");
    if (axis > 1 || index >= blob.shards)
        fail("there is no such sliver");
    return blob;
}

int main(int count, char **words)
{
    if (count != 3) {
        fputs("usage: openings AXIS INDEX\n", stderr);
        return 2;
    }
    make_powers();
    struct blob blob = read_blob((size_t)atol(words[1]), (size_t)atol(words[2]));
    size_t needed = sliver_symbols(&blob, blob.axis);
    uint8_t *lines = crossing_lines(&blob, needed);
    write_all(blob.bytes, blob.metadata);
    for (size_t i = 0; i < needed; i++)
        write_opening(&blob, blob.shards - needed + i, lines + i * blob.shards * blob.symbol);
    if (fflush(stdout) != 0)
        fail("the output cannot be written");
    return 0;
}
