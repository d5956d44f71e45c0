/* Loaded before the C library, lets one read fail: that of number REFUSE, counted from 1 over all threads. It then makes the file that REFUSED
 * names, so that who counts upwards sees when a run has no such read. */
#define _GNU_SOURCE
#include <dlfcn.h>
#include <errno.h>
#include <fcntl.h>
#include <stdatomic.h>
#include <stdlib.h>
#include <unistd.h>

static atomic_long reads;

static int is_refused(void) {
    const char *word = getenv("REFUSE");
    if (!word || atomic_fetch_add(&reads, 1) + 1 != atol(word))
        return 0;
    int mark = open(getenv("REFUSED"), O_CREAT | O_WRONLY, 0600);
    if (mark >= 0)
        close(mark);
    errno = EIO;
    return 1;
}

ssize_t pread64(int file, void *bytes, size_t count, off64_t at) {
    static ssize_t (*real)(int, void *, size_t, off64_t);
    if (!real)
        real = (ssize_t(*)(int, void *, size_t, off64_t))dlsym(RTLD_NEXT, "pread64");
    return is_refused() ? -1 : real(file, bytes, count, at);
}

ssize_t pread(int file, void *bytes, size_t count, off_t at) {
    return pread64(file, bytes, count, at);
}

ssize_t read(int file, void *bytes, size_t count) {
    static ssize_t (*real)(int, void *, size_t);
    if (!real)
        real = (ssize_t(*)(int, void *, size_t))dlsym(RTLD_NEXT, "read");
    return is_refused() ? -1 : real(file, bytes, count);
}
