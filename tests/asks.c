/* Asks for memory once in each way, and writes for each whether it was given: 1, or else 0. */
#define _GNU_SOURCE
#include <malloc.h>
#include <stdint.h>
#include <stdlib.h>
#include <sys/mman.h>
#include <unistd.h>

static char told[16];
static int count;

static void tell(int given)
{
    told[count++] = given ? '1' : '0';
}

static int maps(void *(*map)(void *, size_t, int, int, int, off_t))
{
    return map(NULL, 4096, PROT_READ, MAP_PRIVATE | MAP_ANONYMOUS, -1, 0) != MAP_FAILED;
}

int main(void)
{
    void *place = NULL;
    tell(malloc(100) != NULL);
    tell(calloc(3, 100) != NULL);
    tell(realloc(NULL, 100) != NULL);
    tell(reallocarray(NULL, 3, 100) != NULL);
    tell(memalign(64, 128) != NULL);
    tell(aligned_alloc(64, 128) != NULL);
    tell(posix_memalign(&place, 64, 128) == 0 && place != NULL);
    tell(maps(mmap));
    tell(maps(mmap64));
    tell(sbrk(4096) != (void *)-1);
    return write(1, told, count) != count;
}
