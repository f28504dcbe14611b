// What the programs share. `return told();` is their last line: 0, or 1 if a check failed. A failed check says what is wrong.
#pragma once
#include <limits.h>
#include <omp.h>
#include <sched.h>
#include <stdbool.h>
#include <stdio.h>
#include <stdlib.h>
#include <string.h>
#include <unistd.h>

static int failures;

#define CHECK(holds, ...) \
    do { \
        if (!(holds) && __atomic_fetch_add(&failures, 1, __ATOMIC_RELAXED) < 5) { \
            flockfile(stdout); \
            printf("line %d: not %s: ", __LINE__, #holds); \
            printf(__VA_ARGS__); \
            puts(""); \
            funlockfile(stdout); \
        } \
    } while (0)

// Counts an iteration, a section or whatever else is done.
#define COUNT(count) ((void)__atomic_add_fetch(&(count), 1, __ATOMIC_RELAXED))

// The threads that OMP_NUM_THREADS asks for.
static inline int asked(void) {
    const char *value = getenv("OMP_NUM_THREADS");
    return value ? atoi(value) : 4;
}

// Each of the counts has to be `times`; they are 0 then.
static inline void check_each(int *counts, long size, int times, const char *of) {
    for (long k = 0; k < size; k++) {
        CHECK(counts[k] == times, "%s: number %ld was done %d times, not %d", of, k, counts[k], times);
        counts[k] = 0;
    }
}

static inline int told(void) {
    return failures > 0;
}
