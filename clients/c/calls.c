/* Calls the library as C does: calls rooms|threads|memory CASES.

   The file of cases has, one after the other: the status that is wanted, how many words' bytes and how many bytes of
   input follow, each in 8 bytes, and then these. It ends with a line that says how many calls there were; a call that
   is not as it should be ends it with status 1. */
#include <pthread.h>
#include <stdatomic.h>
#include <stdio.h>
#include <stdlib.h>
#include <string.h>
#include <walrus.h>

#define THREADS 8
#define ROUNDS 3
#define SPARE 64
#define MARK 0xa5
#define MOST_REFUSED 600 /* where a call asks for memory more often, so many requests of it are refused, evenly spread */

struct one {
    uint64_t status, words_len, input_len, length;
    const uint8_t *words, *input;
    uint8_t *text;
};

static struct one *cases;
static size_t count;
static uint8_t *all; /* the bytes of the cases */
static atomic_ulong calls;

static void fail(size_t number, const char *what, uint64_t got, uint64_t wanted)
{
    printf("case %zu (%s): %s: %llu and not %llu\n", number, (const char *)cases[number].words, what,
           (unsigned long long)got, (unsigned long long)wanted);
    exit(1);
}

static void expect(size_t number, const char *what, uint64_t got, uint64_t wanted)
{
    if (got != wanted)
        fail(number, what, got, wanted);
}

static uint8_t *room_of(uint64_t size)
{
    uint8_t *room = malloc(size + SPARE);
    if (room == NULL)
        exit(2);
    return memset(room, MARK, size + SPARE);
}

static uint8_t call(const struct one *it, uint8_t *room, uint64_t size, uint64_t *written, uint64_t *needed)
{
    *written = *needed = UINT64_MAX;
    atomic_fetch_add(&calls, 1);
    return walrus_run(it->words, it->words_len, it->input, it->input_len, room, size, written, needed);
}

/* The front of the text stands in the room, and behind it what stood there. */
static void expect_front(size_t number, const uint8_t *room, uint64_t size, uint64_t written)
{
    if (memcmp(room, cases[number].text, written) != 0)
        fail(number, "the text differs in a room of", size, written);
    for (uint64_t i = written; i < size + SPARE; i++)
        if (room[i] != MARK)
            fail(number, "a byte behind the text was written, at", i, written);
}

/* Calls with no room for what it takes, and then with room for the whole text. */
static void learn(size_t number)
{
    struct one *it = cases + number;
    uint8_t none[SPARE], status;
    uint64_t written, needed;
    memset(none, MARK, SPARE);
    it->text = none;
    status = call(it, none, 0, &written, &it->length);
    expect(number, "the status with no room", status, it->length ? WALRUS_NO_ROOM : it->status);
    expect(number, "written with no room", written, 0);
    expect_front(number, none, 0, 0);
    it->text = room_of(it->length);
    status = call(it, it->text, it->length, &written, &needed);
    expect(number, "the status", status, it->status);
    expect(number, "written", written, it->length);
    expect(number, "needed", needed, it->length);
    expect_front(number, it->text, it->length, it->length);
}

static void try_room(size_t number, uint64_t size)
{
    const struct one *it = cases + number;
    uint8_t *room = room_of(size);
    uint64_t written, needed;
    uint8_t status = call(it, room, size, &written, &needed);
    expect(number, "the status in a smaller or larger room", status, size < it->length ? WALRUS_NO_ROOM : it->status);
    expect(number, "needed there", needed, it->length);
    expect(number, "written there", written, size < it->length ? size : it->length);
    expect_front(number, room, size, written);
    free(room);
}

static void try_rooms(size_t number)
{
    uint64_t length = cases[number].length;
    uint64_t sizes[] = {1, length / 2, length - 1, length, length + 1, 2 * length + 100};
    for (size_t i = 0; i < sizeof sizes / sizeof *sizes; i++)
        if (length > 0 || i > 2)
            try_room(number, sizes[i]);
}

static void *try_all(void *first)
{
    for (size_t round = 0; round < ROUNDS; round++)
        for (size_t i = 0; i < count; i++) {
            size_t number = (*(size_t *)first + i) % count;
            try_room(number, cases[number].length);
        }
    return NULL;
}

static void try_threads(void)
{
    pthread_t threads[THREADS];
    size_t firsts[THREADS];
    for (size_t i = 0; i < THREADS; i++) {
        firsts[i] = i * count / THREADS;
        if (pthread_create(threads + i, NULL, try_all, firsts + i) != 0)
            exit(2);
    }
    for (size_t i = 0; i < THREADS; i++)
        pthread_join(threads[i], NULL);
}

#ifdef REFUSES
/* The linker has the library call these (--wrap): the request of number `refused` is answered as if none were left. */
static int watched;
static unsigned long asked, refused, held;

void *__real_malloc(size_t size);
void *__real_realloc(void *old, size_t size);
void __real_free(void *old);

static int refuses(void)
{
    return watched && ++asked == refused;
}

void *__wrap_malloc(size_t size)
{
    void *made = refuses() ? NULL : __real_malloc(size);
    held += watched && made != NULL;
    return made;
}

void *__wrap_realloc(void *old, size_t size)
{
    void *made = refuses() ? NULL : __real_realloc(old, size);
    held += watched && made != NULL && old == NULL;
    return made;
}

void __wrap_free(void *old)
{
    held -= watched && old != NULL;
    __real_free(old);
}

/* One call, of which one request is refused where there are so many. */
static void refuse(size_t number, unsigned long request)
{
    const struct one *it = cases + number;
    uint8_t *room = room_of(it->length), status;
    uint64_t written, needed;
    asked = held = 0, refused = request, watched = 1;
    status = call(it, room, it->length, &written, &needed);
    watched = 0;
    expect(number, "blocks that are still held", held, 0);
    if (asked < request || request == 0) {
        expect(number, "the status with memory", status, it->status);
        expect(number, "written with memory", written, it->length);
    } else {
        expect(number, "the status where a request is refused", status, WALRUS_NO_MEMORY);
        if (needed > it->length)
            fail(number, "where a request is refused, needed is", needed, it->length);
        expect(number, "written where a request is refused", written, needed);
    }
    expect_front(number, room, it->length, written);
    free(room);
}

static void try_memory(size_t number)
{
    refuse(number, 0);
    unsigned long all = asked, step = all / MOST_REFUSED + 1;
    for (unsigned long request = 1; request <= all; request += step)
        refuse(number, request);
    refuse(number, all + 1);
}
#else
static void try_memory(size_t number)
{
    fail(number, "it was not built for that", 0, 1);
}
#endif

static void read_cases(const char *path)
{
    FILE *file = fopen(path, "rb");
    if (file == NULL || fseek(file, 0, SEEK_END) != 0)
        exit(2);
    long size = ftell(file);
    all = malloc(size);
    rewind(file);
    if (all == NULL || fread(all, 1, size, file) != (size_t)size)
        exit(2);
    fclose(file);
    for (uint8_t *next = all; next < all + size; count++) {
        struct one it = {0};
        cases = realloc(cases, (count + 1) * sizeof *cases);
        memcpy(&it.status, next, 8), memcpy(&it.words_len, next + 8, 8), memcpy(&it.input_len, next + 16, 8);
        it.words = next + 24, it.input = it.words + it.words_len;
        next += 24 + it.words_len + it.input_len;
        cases[count] = it;
    }
}

int main(int words, char **word)
{
    if (words != 3)
        return 2;
    read_cases(word[2]);
    for (size_t i = 0; i < count; i++)
        learn(i);
    if (strcmp(word[1], "threads") == 0)
        try_threads();
    else
        for (size_t i = 0; i < count; i++)
            if (strcmp(word[1], "memory") == 0)
                try_memory(i);
            else
                try_rooms(i);
    for (size_t i = 0; i < count; i++)
        free(cases[i].text);
    free(cases), free(all);
    printf("%lu calls of %zu cases are as they should be\n", calls, count);
    return 0;
}
