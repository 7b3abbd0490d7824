/* Prints the times of calls of libwalrus in one process: by one thread, and by several threads at once.
 *
 *     calls THREADS ROUNDS TIMES FILE WORD..
 *
 * A round has two parts: first one thread makes TIMES calls one after the other, then each of THREADS threads makes as
 * many. Four numbers are printed: the microseconds a call of one thread in its best and in its median round, those of a
 * call in all threads at once in the median round, and, as the median over the rounds, how many times the work of one
 * thread they all do in the same time. The input is FILE, which is read before the clock starts. Unless all calls give
 * the same status and bytes, it fails. */
#include <pthread.h>
#include <stdio.h>
#include <stdlib.h>
#include <string.h>
#include <time.h>

#include "walrus.h"

struct text {
    uint8_t *bytes;
    size_t length;
};

struct call {
    struct text room;
    uint64_t written;
    uint8_t status;
};

static struct text words, input;
static int times;

static void fail(const char *what) {
    fprintf(stderr, "calls: %s\n", what);
    exit(1);
}

static void *taken(size_t size) {
    void *memory = malloc(size ? size : 1);
    if (!memory) fail("there is too little memory");
    return memory;
}

static void read_input(const char *path) {
    FILE *file = fopen(path, "rb");
    if (!file || fseek(file, 0, SEEK_END)) fail("the file cannot be read");
    input.length = ftell(file);
    input.bytes = taken(input.length);
    rewind(file);
    if (fread(input.bytes, 1, input.length, file) != input.length) fail("the file cannot be read");
    fclose(file);
}

static void read_words(int count, char **given) {
    for (int each = 0; each < count; each++) words.length += strlen(given[each]) + 1;
    words.bytes = taken(words.length);
    uint8_t *place = words.bytes;
    for (int each = 0; each < count; each++) place = (uint8_t *)stpcpy((char *)place, given[each]) + 1;
}

static void make(struct call *call) {
    uint64_t needed;
    call->status = walrus_run(words.bytes, words.length, input.bytes, input.length, call->room.bytes, call->room.length,
                              &call->written, &needed);
    if (call->status == WALRUS_NO_ROOM) call->room.length = needed;
}

static void *make_all(void *given) {
    for (int time = 0; time < times; time++) make(given);
    return NULL;
}

static double now(void) {
    struct timespec time;
    clock_gettime(CLOCK_MONOTONIC, &time);
    return time.tv_sec * 1e6 + time.tv_nsec / 1e3;
}

/* The microseconds a call while each of these threads makes all of its calls. */
static double timed(struct call *calls, int threads) {
    pthread_t running[threads];
    double start = now();
    for (int each = 1; each < threads; each++)
        if (pthread_create(&running[each], NULL, make_all, &calls[each])) fail("no thread can be started");
    make_all(&calls[0]);
    for (int each = 1; each < threads; each++) pthread_join(running[each], NULL);
    return (now() - start) / times;
}

static int compare(const void *left, const void *right) {
    double a = *(const double *)left, b = *(const double *)right;
    return (a > b) - (a < b);
}

static double median(double *figures, int count) {
    qsort(figures, count, sizeof *figures, compare);
    return (figures[(count - 1) / 2] + figures[count / 2]) / 2;
}

int main(int count, char **given) {
    if (count < 6) fail("usage: calls THREADS ROUNDS TIMES FILE WORD..");
    int threads = atoi(given[1]), rounds = atoi(given[2]);
    times = atoi(given[3]);
    if (threads < 1 || threads > 64 || rounds < 1 || rounds > 1000 || times < 1)
        fail("there are 1 to 64 threads, 1 to 1000 rounds, and one call at least");
    read_input(given[4]);
    read_words(count - 5, given + 5);
    struct call *calls = taken(threads * sizeof *calls);
    struct call first = {{taken(1), 0}, 0, 0};
    make(&first); /* sets how much room it needs */
    for (int each = 0; each < threads; each++)
        calls[each] = (struct call){{memset(taken(first.room.length), 1, first.room.length), first.room.length}, 0, 0};
    double alone[rounds], together[rounds], work[rounds];
    for (int round = 0; round < rounds; round++) {
        alone[round] = timed(calls, 1);
        together[round] = timed(calls, threads);
        work[round] = threads * alone[round] / together[round];
    }
    for (int each = 0; each < threads; each++)
        if (calls[each].status || calls[each].written != first.room.length ||
            memcmp(calls[each].room.bytes, calls[0].room.bytes, first.room.length))
            fail("a call did not give the whole text, or another one than a call beside it");
    double middle = median(alone, rounds); /* sorts, so that the best round is first */
    printf("%.1f %.1f %.1f %.2f\n", alone[0], middle, median(together, rounds), median(work, rounds));
    return 0;
}
