/* Loaded before the C library, it lets one allocation of each process fail: the one that FAIL_ALLOC numbers, counted
   from 1. Where it does, it writes the line `refused` on standard error. Where FAIL_ALLOC is 0 none fails, and the last
   line on standard error is how many there were. */
#define _GNU_SOURCE
#include <dlfcn.h>
#include <errno.h>
#include <stdio.h>
#include <stdlib.h>
#include <string.h>
#include <unistd.h>

static unsigned long count;

static int refuse(void) {
    const char *wanted = getenv("FAIL_ALLOC");
    if (!wanted || __atomic_add_fetch(&count, 1, __ATOMIC_RELAXED) != strtoul(wanted, NULL, 10)) return 0;
    static const char line[] = "refused\n";
    if (write(2, line, sizeof line - 1) < 0) _exit(99);
    errno = ENOMEM;
    return 1;
}

__attribute__((destructor)) static void tell(void) {
    const char *wanted = getenv("FAIL_ALLOC");
    if (!wanted || strcmp(wanted, "0") != 0) return;
    char line[32];
    int len = snprintf(line, sizeof line, "%lu\n", count);
    if (write(2, line, (size_t)len) < 0) _exit(99);
}

void *malloc(size_t size) {
    static void *(*real)(size_t);
    if (!real) real = dlsym(RTLD_NEXT, "malloc");
    return refuse() ? NULL : real(size);
}

void *realloc(void *old, size_t size) {
    static void *(*real)(void *, size_t);
    if (!real) real = dlsym(RTLD_NEXT, "realloc");
    return refuse() ? NULL : real(old, size);
}

void *aligned_alloc(size_t align, size_t size) {
    static void *(*real)(size_t, size_t);
    if (!real) real = dlsym(RTLD_NEXT, "aligned_alloc");
    return refuse() ? NULL : real(align, size);
}
