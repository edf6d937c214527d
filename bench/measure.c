#include "measure.h"

#include <malloc.h>
#include <stdio.h>
#include <stdlib.h>
#include <time.h>

double thread_time(void) {
    struct timespec now;
    clock_gettime(CLOCK_THREAD_CPUTIME_ID, &now);
    return 1e9 * (double)now.tv_sec + (double)now.tv_nsec;
}

/* The linker sends malloc, realloc and free here (--wrap). */
void *__real_malloc(size_t size);
void *__real_realloc(void *block, size_t size);
void __real_free(void *block);

static int watched;
static size_t live;
static size_t most;

static void grow(void *block) {
    live += malloc_usable_size(block);
    most = live > most ? live : most;
}

void *__wrap_malloc(size_t size) {
    void *block = __real_malloc(size);
    if (watched && block) {
        grow(block);
    }
    return block;
}

void *__wrap_realloc(void *block, size_t size) {
    if (!watched) {
        return __real_realloc(block, size);
    }
    size_t before = block ? malloc_usable_size(block) : 0;
    void *moved = __real_realloc(block, size);
    if (moved) {
        live -= before;
        grow(moved);
    }
    return moved;
}

void __wrap_free(void *block) {
    if (watched && block) {
        live -= malloc_usable_size(block);
    }
    __real_free(block);
}

void watch_memory(void) {
    watched = 1;
    live = 0;
    most = 0;
}

size_t most_memory(void) {
    watched = 0;
    return most;
}

void row(const char *what, double value, const char *unit) {
    printf("%-72s %12.2f %s\n", what, value, unit);
    fflush(stdout);
}

void pair(const char *what, double ours, double theirs, const char *unit) {
    printf("%-64s %12.2f %12.2f %-3s %8.2f\n", what, ours, theirs, unit, ours / theirs);
    fflush(stdout);
}

void expect(uint64_t found, uint64_t wanted, const char *what) {
    if (found != wanted) {
        fprintf(stderr, "%s: found %llu, not %llu\n", what, (unsigned long long)found, (unsigned long long)wanted);
        exit(1);
    }
}
