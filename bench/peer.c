/*
 * The work of `walrus id F`, `walrus encode F` and `walrus read ID`, done with well-known parts: gf-complete multiplies
 * regions of words of GF(2^16), and OpenSSL makes the SHA-256 digests. It reads the same standard input and writes the
 * same standard output. `read` needs the metadata and then exactly f + 1 valid primary slivers of any shards; it fails
 * if one is false, while walrus ignores that.
 *
 * Build: gcc -O3 -march=native -o peer peer.c -lgf_complete -lcrypto
 */
#define OPENSSL_API_COMPAT 0x10100000L
#include <gf_complete.h>
#include <openssl/sha.h>
#include <stdint.h>
#include <stdio.h>
#include <stdlib.h>
#include <string.h>

enum {
    MOST_BYTES = 16777216, /* of a blob */
    MOST_INPUT = 33554432, /* of a blob's metadata and primary slivers */
    MOST_FAULTS = 333,
    MOST_SHARDS = 3 * MOST_FAULTS + 1,
    DIGEST = 32,
    PAIR = 2 * DIGEST,
    WORD = 2 * DIGEST + 1, /* the bytes of an identifier in hexadecimal digits */
    NUMBERS = 10,  /* the bytes of the number of faults and of the blob's length */
    METADATA = 18, /* the bytes of an envelope before the pairs of roots */
    SLIVER = 47,   /* the bytes of an envelope before those of the sliver */
    LINE = 64,     /* lines begin at multiples of a cache line, as wide loads want it */
    STRIP = 65536, /* bytes of a region that are worked on at a time, few enough that some stay in the cache */
    BLOCK = 8,     /* sources that are worked on at a time, for the same reason */
};

/* GF(2^16), of the polynomial x^16 + x^12 + x^3 + x + 1. */
static gf_t field;

struct shape {
    size_t faults, length;
    size_t shards, rows, columns, symbol;
};

/* Lines of the same number of bytes, one after the other, which are zero at first. */
struct matrix {
    uint8_t *bytes;
    size_t lines, stride;
};

/* Some of the points of a codeword, each the number of a line. */
struct places {
    size_t count;
    uint16_t list[MOST_SHARDS];
};

static void fail(const char *why)
{
    fprintf(stderr, "peer: %s\n", why);
    exit(1);
}

/* Memory of zeros; if it is large, the system provides it without writing to it. */
static void *memory(size_t size)
{
    void *made = calloc(size, 1);
    if (made == NULL)
        fail("no memory");
    return made;
}

static struct shape shape_of(size_t faults, size_t length)
{
    struct shape shape = {faults, length, 3 * faults + 1, faults + 1, 2 * faults + 1, 2};
    size_t least = shape.rows * shape.columns * shape.symbol;
    shape.symbol *= length > least ? (length + least - 1) / least : 1;
    return shape;
}

static struct matrix matrix_of(size_t lines, size_t length)
{
    struct matrix made = {.lines = lines, .stride = (length + LINE - 1) / LINE * LINE};
    uint8_t *bytes = memory(lines * made.stride + LINE);
    made.bytes = bytes + (LINE - (uintptr_t)bytes % LINE) % LINE;
    return made;
}

static uint8_t *line(const struct matrix *matrix, size_t index)
{
    return matrix->bytes + index * matrix->stride;
}

/* Turns words from most significant byte first into the machine's order, or back. */
static void turn_words(uint8_t *bytes, size_t size)
{
    uint16_t *words = (uint16_t *)bytes;
    for (size_t i = 0; i < size / 2; i++)
        words[i] = (uint16_t)(words[i] << 8 | words[i] >> 8);
}

static struct places places_from(size_t first, size_t end)
{
    struct places made = {.count = end - first};
    for (size_t i = first; i < end; i++)
        made.list[i - first] = (uint16_t)i;
    return made;
}

static int among(const struct places *places, size_t place)
{
    size_t i = 0;
    while (i < places->count && places->list[i] != place)
        i++;
    return i < places->count;
}

/* The product of the differences, which are exclusive or, of a point and each of these places but itself. */
static uint32_t differences(const struct places *places, uint32_t point)
{
    uint32_t product = 1;
    for (size_t q = 0; q < places->count; q++)
        if (places->list[q] != point)
            product = field.multiply.w32(&field, product, places->list[q] ^ point);
    return product;
}

/*
 * The coefficients that give the value at each wanted place from those at the known ones, a row for each wanted place.
 * In Lagrange's form the coefficient of place p for place w is N(w) / ((w - p) D(p)), where N(w) is the product of
 * w - q over all known q, and D(p) that of p - q over all others: two products and a quotient for each coefficient.
 */
static uint16_t *coefficients(const struct places *known, const struct places *wanted)
{
    uint32_t weights[MOST_SHARDS];
    uint16_t *table = memory(wanted->count * known->count * sizeof *table);
    for (size_t p = 0; p < known->count; p++)
        weights[p] = differences(known, known->list[p]);
    for (size_t w = 0; w < wanted->count; w++) {
        uint32_t whole = differences(known, wanted->list[w]);
        for (size_t p = 0; p < known->count; p++) {
            uint32_t part = field.multiply.w32(&field, weights[p], wanted->list[w] ^ known->list[p]);
            table[w * known->count + p] = (uint16_t)field.divide.w32(&field, whole, part);
        }
    }
    return table;
}

/* Adds to a line, in one strip of it, the contributions of the known lines from `first` to before `end`. */
static void add_lines(const struct matrix *matrix, const struct places *known, size_t first, size_t end,
                      const uint16_t *scales, size_t target, size_t from)
{
    int size = matrix->stride - from < STRIP ? (int)(matrix->stride - from) : STRIP;
    for (size_t p = first; p < end; p++)
        field.multiply_region.w32(&field, line(matrix, known->list[p]) + from, line(matrix, target) + from, scales[p],
                                  size, 1);
}

/* Fills the wanted lines strip by strip, a few sources at a time, which stay in the cache while all lines use them. */
static void fill_lines(const struct matrix *matrix, const struct places *known, const struct places *wanted)
{
    uint16_t *table = coefficients(known, wanted);
    for (size_t from = 0; from < matrix->stride; from += STRIP)
        for (size_t first = 0; first < known->count; first += BLOCK) {
            size_t end = known->count - first < BLOCK ? known->count : first + BLOCK;
            for (size_t w = 0; w < wanted->count; w++)
                add_lines(matrix, known, first, end, table + w * known->count, wanted->list[w], from);
        }
    free(table);
}

/*
 * Fills the matrix from the beginnings of the known rows, as many as a codeword has sources. These are fewer than all
 * rows, so they are lengthened first; for that they are laid out by columns, so that a region is long. Gives these
 * columns, which have the symbols of the known rows alone.
 */
static struct matrix complete(const struct shape *shape, const struct matrix *rows, const struct places *known)
{
    size_t size = shape->symbol;
    struct matrix columns = matrix_of(shape->shards, known->count * size);
    struct places given = places_from(0, shape->columns), added = places_from(shape->columns, shape->shards);
    struct places unknown = {0};
    for (size_t r = 0; r < shape->shards; r++)
        if (!among(known, r))
            unknown.list[unknown.count++] = (uint16_t)r;
    for (size_t k = 0; k < known->count; k++)
        for (size_t c = 0; c < shape->columns; c++)
            memcpy(line(&columns, c) + k * size, line(rows, known->list[k]) + c * size, size);
    fill_lines(&columns, &given, &added);
    for (size_t k = 0; k < known->count; k++)
        for (size_t c = shape->columns; c < shape->shards; c++)
            memcpy(line(rows, known->list[k]) + c * size, line(&columns, c) + k * size, size);
    fill_lines(rows, known, &unknown);
    return columns;
}

/* The digest of a leaf (mark 0), of a node (mark 1) or of an identifier (mark 2). */
static void digest(uint8_t mark, const uint8_t *content, size_t length, uint8_t out[DIGEST])
{
    SHA256_CTX context;
    SHA256_Init(&context);
    SHA256_Update(&context, &mark, 1);
    SHA256_Update(&context, content, length);
    SHA256_Final(out, &context);
}

/* Computes the root over digests of leaves, in the first place. There must be room for one more digest. */
static void root(uint8_t *level, size_t count)
{
    while (count > 1) {
        if (count % 2 == 1)
            memset(level + DIGEST * count++, 0, DIGEST);
        for (size_t i = 0; i < count / 2; i++)
            digest(1, level + PAIR * i, PAIR, level + DIGEST * i);
        count /= 2;
    }
}

/* For each shard the root of its row and that of its column. A symbol's leaf digest is computed once for both. */
static uint8_t *pairs_of(const struct shape *shape, const struct matrix *rows)
{
    size_t shards = shape->shards, size = shape->symbol;
    uint8_t *leaves = memory(shards * shards * DIGEST), *level = memory((shards + 1) * DIGEST);
    uint8_t *pairs = memory(shards * PAIR);
    for (size_t r = 0; r < shards; r++) {
        for (size_t c = 0; c < shards; c++)
            digest(0, line(rows, r) + c * size, size, leaves + DIGEST * (r * shards + c));
        memcpy(level, leaves + DIGEST * r * shards, DIGEST * shards);
        root(level, shards);
        memcpy(pairs + PAIR * r, level, DIGEST);
    }
    for (size_t c = 0; c < shards; c++) {
        for (size_t r = 0; r < shards; r++)
            memcpy(level + DIGEST * r, leaves + DIGEST * (r * shards + c), DIGEST);
        root(level, shards);
        memcpy(pairs + PAIR * c + DIGEST, level, DIGEST);
    }
    free(level);
    free(leaves);
    return pairs;
}

/* Spells a number, most significant byte first. */
static void put_number(uint8_t *out, size_t size, uint64_t number)
{
    for (size_t i = 0; i < size; i++)
        out[i] = (uint8_t)(number >> 8 * (size - 1 - i));
}

static uint64_t number_at(const uint8_t *bytes, size_t size)
{
    uint64_t number = 0;
    for (size_t i = 0; i < size; i++)
        number = number << 8 | bytes[i];
    return number;
}

/* The number of faults and the blob's length, as in metadata and in the text of the identifier. */
static void put_numbers(const struct shape *shape, uint8_t out[NUMBERS])
{
    put_number(out, 2, shape->faults);
    put_number(out + 2, 8, shape->length);
}

/* The identifier, and as a word. */
static void identify(const struct shape *shape, const uint8_t *pairs, uint8_t id[DIGEST], char word[WORD])
{
    uint8_t content[NUMBERS + DIGEST], *level = memory((shape->shards + 1) * DIGEST);
    for (size_t i = 0; i < shape->shards; i++)
        digest(0, pairs + PAIR * i, PAIR, level + DIGEST * i);
    root(level, shape->shards);
    put_numbers(shape, content);
    memcpy(content + NUMBERS, level, DIGEST);
    digest(2, content, sizeof content, id);
    for (size_t i = 0; i < DIGEST; i++)
        sprintf(word + 2 * i, "%02x", id[i]);
    free(level);
}

/* Begins an envelope: a mark, the sender, the payload's size and the frame's kind. */
static void put_head(uint8_t head[8], size_t sender, size_t payload, uint8_t kind)
{
    head[0] = 0x57;
    put_number(head + 1, 2, sender);
    put_number(head + 3, 4, payload);
    head[7] = kind;
}

static void put_metadata(uint8_t head[METADATA], const struct shape *shape)
{
    put_head(head, 0, 1 + NUMBERS + PAIR * shape->shards, 0x10);
    put_numbers(shape, head + 8);
}

static void put_sliver(uint8_t head[SLIVER], const uint8_t id[DIGEST], uint8_t axis, size_t shard, size_t size)
{
    put_head(head, shard, SLIVER - 7 + size, 0x11);
    memcpy(head + 8, id, DIGEST);
    head[40] = axis;
    put_number(head + 41, 2, shard);
    put_number(head + 43, 4, size);
}

static void write_sliver(const uint8_t id[DIGEST], uint8_t axis, size_t shard, const uint8_t *sliver, size_t size)
{
    uint8_t head[SLIVER];
    put_sliver(head, id, axis, shard, size);
    fwrite(head, sizeof head, 1, stdout);
    fwrite(sliver, size, 1, stdout);
}

static void write_envelopes(const struct shape *shape, const struct matrix *rows, const struct matrix *columns,
                            const uint8_t *pairs, const uint8_t id[DIGEST])
{
    uint8_t head[METADATA];
    put_metadata(head, shape);
    fwrite(head, sizeof head, 1, stdout);
    fwrite(pairs, PAIR, shape->shards, stdout);
    for (size_t i = 0; i < shape->shards; i++) {
        write_sliver(id, 0, i, line(rows, i), shape->columns * shape->symbol);
        write_sliver(id, 1, i, line(columns, i), shape->rows * shape->symbol);
    }
}

/* The standard input, of at most so many bytes, and zeros after it. */
static uint8_t *read_input(size_t most, size_t *size)
{
    uint8_t *bytes = memory(most + 1);
    *size = fread(bytes, 1, most + 1, stdin);
    if (ferror(stdin) || *size > most)
        fail("the input cannot be read or is too long");
    return bytes;
}

/* The blob's symbols at their places in a matrix for all. */
static struct matrix rows_of(const struct shape *shape, const uint8_t *blob)
{
    size_t width = shape->columns * shape->symbol;
    struct matrix rows = matrix_of(shape->shards, shape->shards * shape->symbol);
    for (size_t r = 0; r < shape->rows && r * width < shape->length; r++) {
        size_t left = shape->length - r * width;
        memcpy(line(&rows, r), blob + r * width, left < width ? left : width);
        turn_words(line(&rows, r), width);
    }
    return rows;
}

static void encode_blob(size_t faults, int envelopes)
{
    size_t length;
    uint8_t *blob = read_input(MOST_BYTES, &length), id[DIGEST];
    char word[WORD];
    struct shape shape = shape_of(faults, length);
    struct matrix rows = rows_of(&shape, blob);
    struct places known = places_from(0, shape.rows);
    struct matrix columns = complete(&shape, &rows, &known);
    turn_words(rows.bytes, rows.lines * rows.stride);
    uint8_t *pairs = pairs_of(&shape, &rows);
    identify(&shape, pairs, id, word);
    if (envelopes) {
        turn_words(columns.bytes, columns.lines * columns.stride);
        write_envelopes(&shape, &rows, &columns, pairs, id);
    } else {
        puts(word);
    }
}

/* The shape in the metadata at the beginning of the input; fails if the input does not continue as it should. */
static struct shape shape_in(const uint8_t *input, size_t size)
{
    uint8_t head[METADATA];
    size_t faults = number_at(input + 8, 2), length = number_at(input + 10, 8);
    if (faults < 1 || faults > MOST_FAULTS || length > MOST_BYTES)
        fail("the input has no metadata");
    struct shape shape = shape_of(faults, length);
    size_t slivers = shape.rows * (SLIVER + shape.columns * shape.symbol);
    put_metadata(head, &shape);
    if (size != METADATA + PAIR * shape.shards + slivers || memcmp(head, input, METADATA) != 0)
        fail("the input is not metadata and f + 1 primary slivers");
    return shape;
}

/* Copies primary slivers from their envelopes into their rows, which are known then. */
static struct places take_slivers(const struct shape *shape, const struct matrix *rows, const uint8_t *envelopes,
                                  const uint8_t id[DIGEST])
{
    size_t width = shape->columns * shape->symbol;
    struct places known = {0};
    for (size_t k = 0; k < shape->rows; k++) {
        const uint8_t *envelope = envelopes + k * (SLIVER + width);
        size_t shard = number_at(envelope + 1, 2);
        uint8_t head[SLIVER];
        put_sliver(head, id, 0, shard, width);
        if (shard >= shape->shards || among(&known, shard) || memcmp(head, envelope, SLIVER) != 0)
            fail("the input has something else than a further primary sliver");
        known.list[known.count++] = (uint16_t)shard;
        memcpy(line(rows, shard), envelope + SLIVER, width);
        turn_words(line(rows, shard), width);
    }
    return known;
}

/* Writes the blob from the first rows, which must have zeros after it. */
static void write_blob(const struct shape *shape, const struct matrix *rows)
{
    size_t width = shape->columns * shape->symbol;
    uint8_t *blob = memory(shape->rows * width);
    for (size_t r = 0; r < shape->rows; r++)
        memcpy(blob + r * width, line(rows, r), width);
    for (size_t i = shape->length; i < shape->rows * width; i++)
        if (blob[i] != 0)
            fail("the blob is inconsistent");
    fwrite(blob, 1, shape->length, stdout);
}

/* All roots are computed: a false sliver gives another root for its row, and slivers of no blob for some other row. */
static void read_blob(const char *identifier)
{
    size_t size;
    uint8_t *input = read_input(MOST_INPUT, &size), *pairs = input + METADATA, id[DIGEST];
    char word[WORD];
    struct shape shape = shape_in(input, size);
    identify(&shape, pairs, id, word);
    if (strcmp(word, identifier) != 0)
        fail("the metadata are of another blob");
    struct matrix rows = matrix_of(shape.shards, shape.shards * shape.symbol);
    struct places known = take_slivers(&shape, &rows, pairs + PAIR * shape.shards, id);
    complete(&shape, &rows, &known);
    turn_words(rows.bytes, rows.lines * rows.stride);
    if (memcmp(pairs_of(&shape, &rows), pairs, PAIR * shape.shards) != 0)
        fail("the slivers have other roots");
    write_blob(&shape, &rows);
}

int main(int count, char **words)
{
    const char *command = count == 3 ? words[1] : "";
    long faults = count == 3 ? strtol(words[2], NULL, 10) : 0;
    int reads = strcmp(command, "read") == 0, envelopes = strcmp(command, "encode") == 0;
    int encodes = (envelopes || strcmp(command, "id") == 0) && faults >= 1 && faults <= MOST_FAULTS;
    if (!reads && !encodes) {
        fputs("usage: peer id F | encode F | read ID\n", stderr);
        return 2;
    }
    if (!gf_init_hard(&field, 16, GF_MULT_DEFAULT, GF_REGION_DEFAULT, GF_DIVIDE_DEFAULT, 0x1100b, 0, 0, NULL, NULL))
        fail("gf-complete refuses the field");
    if (reads)
        read_blob(words[2]);
    else
        encode_blob((size_t)faults, envelopes);
    if (fflush(stdout) != 0 || ferror(stdout))
        fail("the output cannot be written");
    return 0;
}
