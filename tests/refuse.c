/* Refuses memory to a program that it is loaded into (LD_PRELOAD): the request whose number stands in the variable
   REFUSE, counted from 1, of those that the program itself makes, is answered as if none were left. With REFUSE=0 none
   is. At the end the number of requests is written to the file descriptor that the variable COUNT names. A request is
   a call of one of the functions below; what the C library asks of the system to answer it is none. */
#define _GNU_SOURCE
#include <dlfcn.h>
#include <errno.h>
#include <malloc.h>
#include <stdint.h>
#include <stdio.h>
#include <stdlib.h>
#include <sys/mman.h>
#include <unistd.h>

static unsigned long asked, refused;
static int looks;
static __typeof__(malloc) *next_malloc;
static __typeof__(calloc) *next_calloc;
static __typeof__(realloc) *next_realloc;
static __typeof__(memalign) *next_memalign;
static __typeof__(aligned_alloc) *next_aligned_alloc;
static __typeof__(posix_memalign) *next_posix_memalign;
static __typeof__(mmap) *next_mmap;
static __typeof__(sbrk) *next_sbrk;

static void look(void)
{
    looks = 1;
    next_malloc = (__typeof__(malloc) *)dlsym(RTLD_NEXT, "malloc");
    next_calloc = (__typeof__(calloc) *)dlsym(RTLD_NEXT, "calloc");
    next_realloc = (__typeof__(realloc) *)dlsym(RTLD_NEXT, "realloc");
    next_memalign = (__typeof__(memalign) *)dlsym(RTLD_NEXT, "memalign");
    next_aligned_alloc = (__typeof__(aligned_alloc) *)dlsym(RTLD_NEXT, "aligned_alloc");
    next_posix_memalign = (__typeof__(posix_memalign) *)dlsym(RTLD_NEXT, "posix_memalign");
    next_mmap = (__typeof__(mmap) *)dlsym(RTLD_NEXT, "mmap");
    next_sbrk = (__typeof__(sbrk) *)dlsym(RTLD_NEXT, "sbrk");
    looks = 0;
}

/* Whether a request is refused. The loader may make some before `begin`, and `dlsym` one, which it can do without. */
static int refuses(void)
{
    if (next_sbrk == NULL && !looks)
        look();
    if (!looks && ++asked != refused)
        return 0;
    errno = ENOMEM;
    return 1;
}

__attribute__((constructor)) static void begin(void)
{
    const char *number = getenv("REFUSE");
    look();
    refused = number ? strtoul(number, NULL, 10) : 0;
    asked = 0;
}

__attribute__((destructor)) static void end(void)
{
    const char *descriptor = getenv("COUNT");
    if (descriptor != NULL)
        dprintf(atoi(descriptor), "%lu\n", asked);
}

void *malloc(size_t size)
{
    return refuses() ? NULL : next_malloc(size);
}

void *calloc(size_t count, size_t size)
{
    return refuses() ? NULL : next_calloc(count, size);
}

void *realloc(void *place, size_t size)
{
    return refuses() ? NULL : next_realloc(place, size);
}

void *memalign(size_t alignment, size_t size)
{
    return refuses() ? NULL : next_memalign(alignment, size);
}

void *aligned_alloc(size_t alignment, size_t size)
{
    return refuses() ? NULL : next_aligned_alloc(alignment, size);
}

int posix_memalign(void **place, size_t alignment, size_t size)
{
    return refuses() ? ENOMEM : next_posix_memalign(place, alignment, size);
}

/* A file that is mapped is no request. */
void *mmap(void *place, size_t size, int access, int flags, int file, off_t offset)
{
    if (next_mmap == NULL)
        look();
    if ((flags & MAP_ANONYMOUS) && refuses())
        return MAP_FAILED;
    return next_mmap(place, size, access, flags, file, offset);
}

void *mmap64(void *place, size_t size, int access, int flags, int file, off64_t offset)
{
    return mmap(place, size, access, flags, file, offset);
}

/* Where the heap grows by nothing, or back, nothing is asked for. */
void *sbrk(intptr_t growth)
{
    if (next_sbrk == NULL)
        look();
    return growth > 0 && refuses() ? (void *)-1 : next_sbrk(growth);
}
