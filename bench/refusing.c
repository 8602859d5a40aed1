/* Refuses one request for memory. Loaded before the C library by `bench/no_memory` (LD_PRELOAD).

   REFUSED_REQUEST is the number of the request that is refused, from 1. When it is refused, one byte is written to the open file of
   the number REFUSAL_TOLD. */

#define _GNU_SOURCE
#include <dlfcn.h>
#include <errno.h>
#include <stdatomic.h>
#include <stddef.h>
#include <stdlib.h>
#include <unistd.h>

static atomic_long requests;
static long refused;
static int told;
static void *(*next_malloc)(size_t);
static void *(*next_calloc)(size_t, size_t);
static void *(*next_realloc)(void *, size_t);
static void *(*next_aligned_alloc)(size_t, size_t);
static int (*next_posix_memalign)(void **, size_t, size_t);

/* What dlsym asks for before the functions are found. */
static _Alignas(16) char early[4096];
static size_t early_used;

static void *take_early(size_t size) {
    size_t at = (early_used + 15) & ~(size_t)15;
    if (size > sizeof early - at) return NULL;
    early_used = at + size;
    return early + at;
}

__attribute__((constructor)) static void begin(void) {
    const char *number = getenv("REFUSED_REQUEST");
    next_calloc = (void *(*)(size_t, size_t))dlsym(RTLD_NEXT, "calloc");
    next_realloc = (void *(*)(void *, size_t))dlsym(RTLD_NEXT, "realloc");
    next_aligned_alloc = (void *(*)(size_t, size_t))dlsym(RTLD_NEXT, "aligned_alloc");
    next_posix_memalign = (int (*)(void **, size_t, size_t))dlsym(RTLD_NEXT, "posix_memalign");
    next_malloc = (void *(*)(size_t))dlsym(RTLD_NEXT, "malloc");
    const char *file = getenv("REFUSAL_TOLD");
    told = file ? atoi(file) : -1;
    refused = number ? atol(number) : 0;
    atomic_store(&requests, 0);
}

static int is_refused(void) {
    if (atomic_fetch_add(&requests, 1) + 1 != refused) return 0;
    return write(told, "x", 1) >= 0;
}

void *malloc(size_t size) {
    if (!next_malloc) return take_early(size);
    if (is_refused()) { errno = ENOMEM; return NULL; }
    return next_malloc(size);
}

void *calloc(size_t count, size_t size) {
    if (!next_malloc) return take_early(count * size);
    if (is_refused()) { errno = ENOMEM; return NULL; }
    return next_calloc(count, size);
}

void *realloc(void *old, size_t size) {
    if (is_refused()) { errno = ENOMEM; return NULL; }
    return next_realloc(old, size);
}

void *aligned_alloc(size_t alignment, size_t size) {
    if (is_refused()) { errno = ENOMEM; return NULL; }
    return next_aligned_alloc(alignment, size);
}

int posix_memalign(void **at, size_t alignment, size_t size) {
    if (is_refused()) return ENOMEM;
    return next_posix_memalign(at, alignment, size);
}
