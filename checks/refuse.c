/* Loaded before the C library, refuses one request for memory: that of number REFUSE, counted from 1. It then makes the file that
 * REFUSED names, so that who counts upwards sees when a run meets no refusal. A request is a call of malloc, calloc, realloc,
 * aligned_alloc, memalign or posix_memalign, by whichever thread, in the order in which the calls come here; memory that is had in
 * another way, as by mmap, is not seen. */
#define _GNU_SOURCE
#include <dlfcn.h>
#include <errno.h>
#include <fcntl.h>
#include <stdatomic.h>
#include <stdlib.h>
#include <unistd.h>

static atomic_long requests;

static int is_refused(void) {
    static atomic_long wanted = -1;
    if (wanted < 0) {
        const char *word = getenv("REFUSE");
        wanted = word ? atol(word) : 0;
    }
    if (atomic_fetch_add(&requests, 1) + 1 != wanted)
        return 0;
    int mark = open(getenv("REFUSED"), O_CREAT | O_WRONLY, 0600);
    if (mark >= 0)
        close(mark);
    errno = ENOMEM;
    return 1;
}

void *malloc(size_t size) {
    static void *(*real)(size_t);
    if (!real)
        real = (void *(*)(size_t))dlsym(RTLD_NEXT, "malloc");
    return is_refused() ? NULL : real(size);
}

void *calloc(size_t count, size_t size) {
    static void *(*real)(size_t, size_t);
    static atomic_int asked;
    if (!real) {
        /* dlsym may ask for memory itself, and does without. */
        if (atomic_exchange(&asked, 1) && !real)
            return NULL;
        real = (void *(*)(size_t, size_t))dlsym(RTLD_NEXT, "calloc");
    }
    return is_refused() ? NULL : real(count, size);
}

void *realloc(void *old, size_t size) {
    static void *(*real)(void *, size_t);
    if (!real)
        real = (void *(*)(void *, size_t))dlsym(RTLD_NEXT, "realloc");
    return is_refused() ? NULL : real(old, size);
}

void *aligned_alloc(size_t alignment, size_t size) {
    static void *(*real)(size_t, size_t);
    if (!real)
        real = (void *(*)(size_t, size_t))dlsym(RTLD_NEXT, "aligned_alloc");
    return is_refused() ? NULL : real(alignment, size);
}

void *memalign(size_t alignment, size_t size) {
    static void *(*real)(size_t, size_t);
    if (!real)
        real = (void *(*)(size_t, size_t))dlsym(RTLD_NEXT, "memalign");
    return is_refused() ? NULL : real(alignment, size);
}

int posix_memalign(void **place, size_t alignment, size_t size) {
    static int (*real)(void **, size_t, size_t);
    if (!real)
        real = (int (*)(void **, size_t, size_t))dlsym(RTLD_NEXT, "posix_memalign");
    return is_refused() ? ENOMEM : real(place, alignment, size);
}
