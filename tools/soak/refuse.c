// What refuses allocations, put between a program and the C library by tools/soak/refuse. The one
// with the number REFUSE_AT, from 1, is refused, and if there is a REFUSE_ON, so is each one after
// it. How many there were is written to the file REFUSE_COUNT, if there is one.
#define _GNU_SOURCE
#include <dlfcn.h>
#include <errno.h>
#include <stdio.h>
#include <stdlib.h>
static long count;
static int is_refused(void) {
    static long at = -1;
    if (at < 0) {
        char *text = getenv("REFUSE_AT");
        at = text ? atol(text) : 0;
    }
    ++count;
    if (!at || count < at || (count > at && !getenv("REFUSE_ON"))) return 0;
    errno = ENOMEM;
    return 1;
}
void *malloc(size_t size) {
    static void *(*next)(size_t);
    if (!next) next = dlsym(RTLD_NEXT, "malloc");
    return is_refused() ? NULL : next(size);
}
void *realloc(void *block, size_t size) {
    static void *(*next)(void *, size_t);
    if (!next) next = dlsym(RTLD_NEXT, "realloc");
    return is_refused() ? NULL : next(block, size);
}
__attribute__((destructor)) static void tell(void) {
    char *file = getenv("REFUSE_COUNT");
    long counted = count;
    FILE *out = file ? fopen(file, "w") : NULL;
    if (out) {
        fprintf(out, "%ld", counted);
        fclose(out);
    }
}
