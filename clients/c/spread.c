/* Spreads a file over four shards and reads it back: spread FILE. */
#include <stdio.h>
#include <stdlib.h>
#include <string.h>
#include <walrus.h>

/* Runs a command, and gives what it writes in memory that is the caller's. */
static uint8_t *run(const char *words, size_t size, const uint8_t *input, size_t length, uint64_t *written)
{
    uint64_t needed = 4096, room;
    uint8_t *output = NULL, status;
    do {
        room = needed;
        if ((output = realloc(output, room)) == NULL)
            exit(WALRUS_NO_MEMORY);
        status = walrus_run((const uint8_t *)words, size, input, length, output, room, written, &needed);
    } while (status == WALRUS_NO_ROOM);
    if (status != WALRUS_OK) {
        fprintf(stderr, "%s: status %d: %.*s", words, status, (int)*written, (char *)output);
        exit(status);
    }
    return output;
}

int main(int count, char **words)
{
    FILE *file = count == 2 ? fopen(words[1], "rb") : NULL;
    uint8_t *blob = malloc(1 << 24), *name, *spread, *back;
    uint64_t length, size;
    char ask[] = "read\0................................................................";

    if (file == NULL || blob == NULL)
        return 1;
    size_t bytes = fread(blob, 1, 1 << 24, file);
    fclose(file);
    name = run("id\0" "1", 5, blob, bytes, &length);
    memcpy(ask + 5, name, 64);
    spread = run("encode\0" "1", 9, blob, bytes, &size);
    back = run(ask, sizeof ask, spread, size, &length);
    printf("%.64s: %zu bytes in %llu of envelopes, %s\n", ask + 5, bytes, (unsigned long long)size,
           length == bytes && memcmp(back, blob, bytes) == 0 ? "read back" : "NOT read back");
    free(name), free(spread), free(back), free(blob);
    return 0;
}
