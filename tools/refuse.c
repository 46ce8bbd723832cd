/* Refuses one allocation of a program, by number from 1 on, and says at the end how many it asked for.
   REFUSE is the number (0: none), COUNT the file to which the count goes. */
#define _GNU_SOURCE
#include <dlfcn.h>
#include <stdio.h>
#include <stdlib.h>

static long asked;

static int is_refused(void) {
    const char *number = getenv("REFUSE");
    asked++;
    return number && atol(number) == asked;
}

void *malloc(size_t size) {
    static void *(*real)(size_t);
    if (!real) real = (void *(*)(size_t))dlsym(RTLD_NEXT, "malloc");
    return is_refused() ? NULL : real(size);
}

void *realloc(void *block, size_t size) {
    static void *(*real)(void *, size_t);
    if (!real) real = (void *(*)(void *, size_t))dlsym(RTLD_NEXT, "realloc");
    return is_refused() ? NULL : real(block, size);
}

__attribute__((destructor)) static void tell(void) {
    const char *path = getenv("COUNT");
    long count = asked;
    FILE *file = path ? fopen(path, "w") : NULL;
    if (file) {
        fprintf(file, "%ld\n", count);
        fclose(file);
    }
}
