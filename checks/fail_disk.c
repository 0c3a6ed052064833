/* Loaded before the C library, it lets calls of pread, pwrite and fsync fail, as those that a disk refuses: of all of them,
   counted from 1, the one that FAIL_DISK numbers, and those after it too where a `-` stands behind the number. */
#define _GNU_SOURCE
#include <dlfcn.h>
#include <errno.h>
#include <stdlib.h>
#include <unistd.h>

static unsigned long count;

static int refuse(void) {
    const char *wanted = getenv("FAIL_DISK");
    if (!wanted) return 0;
    char *end;
    unsigned long first = strtoul(wanted, &end, 10);
    unsigned long number = __atomic_add_fetch(&count, 1, __ATOMIC_RELAXED);
    if (*end == '-' ? number < first : number != first) return 0;
    errno = EIO;
    return 1;
}

ssize_t pread(int file, void *into, size_t size, off_t at) {
    static ssize_t (*real)(int, void *, size_t, off_t);
    if (!real) real = dlsym(RTLD_NEXT, "pread");
    return refuse() ? -1 : real(file, into, size, at);
}

ssize_t pwrite(int file, const void *bytes, size_t size, off_t at) {
    static ssize_t (*real)(int, const void *, size_t, off_t);
    if (!real) real = dlsym(RTLD_NEXT, "pwrite");
    return refuse() ? -1 : real(file, bytes, size, at);
}

int fsync(int file) {
    static int (*real)(int);
    if (!real) real = dlsym(RTLD_NEXT, "fsync");
    return refuse() ? -1 : real(file);
}
