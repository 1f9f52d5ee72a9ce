/* Stands in front of the C library and refuses one request for memory of a program: the one whose number, from 1, is in REFUSE.
   Where COUNT names a file of eight bytes, the number of requests is kept in it, however the program ends. */
#define _GNU_SOURCE
#include <dlfcn.h>
#include <errno.h>
#include <fcntl.h>
#include <stdatomic.h>
#include <stdlib.h>
#include <sys/mman.h>
#include <unistd.h>

static atomic_long own;
static atomic_long *seen = &own;
static long refused;

__attribute__((constructor)) static void begin(void) {
    const char *number = getenv("REFUSE"), *name = getenv("COUNT");
    int file = name ? open(name, O_RDWR) : -1;
    refused = number ? atol(number) : 0;
    if (file >= 0) {
        void *page = mmap(0, sizeof own, PROT_READ | PROT_WRITE, MAP_SHARED, file, 0);
        close(file);
        if (page != MAP_FAILED) seen = page;
    }
    atomic_store(seen, 0);
}

static int is_refused(void) {
    return atomic_fetch_add(seen, 1) + 1 == refused;
}

void *malloc(size_t size) {
    static void *(*next)(size_t);
    if (!next) next = dlsym(RTLD_NEXT, "malloc");
    if (is_refused()) { errno = ENOMEM; return 0; }
    return next(size);
}

void *realloc(void *old, size_t size) {
    static void *(*next)(void *, size_t);
    if (!next) next = dlsym(RTLD_NEXT, "realloc");
    if (is_refused()) { errno = ENOMEM; return 0; }
    return next(old, size);
}

int posix_memalign(void **to, size_t align, size_t size) {
    static int (*next)(void **, size_t, size_t);
    if (!next) next = dlsym(RTLD_NEXT, "posix_memalign");
    return is_refused() ? ENOMEM : next(to, align, size);
}

void *aligned_alloc(size_t align, size_t size) {
    static void *(*next)(size_t, size_t);
    if (!next) next = dlsym(RTLD_NEXT, "aligned_alloc");
    if (is_refused()) { errno = ENOMEM; return 0; }
    return next(align, size);
}

/* dlsym asks for zeroed memory itself, so that a few bytes of our own serve it. */
void *calloc(size_t count, size_t size) {
    static void *(*next)(size_t, size_t);
    static char early[4096];
    static size_t used;
    static int is_looking;
    if (!next && is_looking) {
        size_t wanted = (count * size + 15) & ~(size_t)15;
        if (used + wanted > sizeof early) return 0;
        used += wanted;
        return early + used - wanted;
    }
    if (!next) {
        is_looking = 1;
        next = dlsym(RTLD_NEXT, "calloc");
        is_looking = 0;
    }
    if (is_refused()) { errno = ENOMEM; return 0; }
    return next(count, size);
}
