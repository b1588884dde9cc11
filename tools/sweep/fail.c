/* Loaded before the C library: the allocation of the number in FAIL_AT, from 1 on, answers that there is no memory. COUNT_TO names a file
   that gets the number of allocations. */
#define _GNU_SOURCE
#include <dlfcn.h>
#include <errno.h>
#include <stdio.h>
#include <stdlib.h>

static long count;

static int fails(void) {
    const char *at = getenv("FAIL_AT");
    return ++count == (at ? atol(at) : 0);
}

void *malloc(size_t size) {
    static void *(*real)(size_t);
    if (!real) real = (void *(*)(size_t))dlsym(RTLD_NEXT, "malloc");
    if (fails()) {
        errno = ENOMEM;
        return NULL;
    }
    return real(size);
}

void *realloc(void *old, size_t size) {
    static void *(*real)(void *, size_t);
    if (!real) real = (void *(*)(void *, size_t))dlsym(RTLD_NEXT, "realloc");
    if (fails()) {
        errno = ENOMEM;
        return NULL;
    }
    return real(old, size);
}

__attribute__((destructor)) static void tell(void) {
    const char *name = getenv("COUNT_TO");
    FILE *file = name ? fopen(name, "w") : NULL;
    if (file) {
        fprintf(file, "%ld\n", count);
        fclose(file);
    }
}
