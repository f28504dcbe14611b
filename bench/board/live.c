/* Counts what malloc has given out and nobody has given back. When the program first writes to its standard output, it prints
 * `live TOTAL LARGEST SECOND` to standard error: all bytes in use, and those of the two largest blocks; then `taken COUNT`: how many
 * blocks were given out so far. For bench/board.py and bench/regions.py, by LD_PRELOAD. Threads may call it at once. */
#define _GNU_SOURCE
#include <dlfcn.h>
#include <malloc.h>
#include <stdatomic.h>
#include <stdio.h>
#include <stdlib.h>
#include <unistd.h>

enum { SLOTS = 1 << 22 };

static struct {
    void *block;
    size_t size;
} slots[SLOTS];

static size_t taken;
static atomic_flag busy = ATOMIC_FLAG_INIT;

static void lock(void) {
    while (atomic_flag_test_and_set(&busy))
        ;
}

/* The place of a block, or of nothing, in the table. */
static size_t place_of(void *block) {
    size_t place = ((size_t)block >> 4) * 0x9E3779B97F4A7C15u >> 42;
    while (slots[place].block != NULL && slots[place].block != block)
        place = (place + 1) % SLOTS;
    return place;
}

static void note(void *block, size_t size) {
    if (block == NULL)
        return;
    lock();
    size_t place = place_of(block);
    slots[place].block = block;
    slots[place].size = size;
    taken++;
    atomic_flag_clear(&busy);
}

/* A block that is given back keeps its place, with no bytes: those that it had. It is asked before the block is given back, since
 * another thread may have it then. */
static size_t forget(void *block) {
    if (block == NULL)
        return 0;
    lock();
    size_t place = place_of(block), size = slots[place].size;
    slots[place].size = 0;
    atomic_flag_clear(&busy);
    return size;
}

static void *next(const char *name) {
    return dlsym(RTLD_NEXT, name);
}

void *malloc(size_t size) {
    static void *(*real)(size_t);
    if (real == NULL)
        real = next("malloc");
    void *block = real(size);
    note(block, size);
    return block;
}

void free(void *block) {
    static void (*real)(void *);
    if (real == NULL)
        real = next("free");
    forget(block);
    real(block);
}

void *realloc(void *block, size_t size) {
    static void *(*real)(void *, size_t);
    if (real == NULL)
        real = next("realloc");
    size_t before = forget(block);
    void *moved = real(block, size);
    if (moved != NULL)
        note(moved, size);
    else
        note(block, before);
    return moved;
}

void *aligned_alloc(size_t alignment, size_t size) {
    static void *(*real)(size_t, size_t);
    if (real == NULL)
        real = next("aligned_alloc");
    void *block = real(alignment, size);
    note(block, size);
    return block;
}

int posix_memalign(void **block, size_t alignment, size_t size) {
    static int (*real)(void **, size_t, size_t);
    if (real == NULL)
        real = next("posix_memalign");
    int failed = real(block, alignment, size);
    if (failed == 0)
        note(*block, size);
    return failed;
}

ssize_t write(int file, const void *bytes, size_t count) {
    static ssize_t (*real)(int, const void *, size_t);
    static int told;
    if (real == NULL)
        real = next("write");
    if (file == STDOUT_FILENO && !told) {
        size_t total = 0, largest = 0, second = 0;
        told = 1;
        for (size_t place = 0; place < SLOTS; place++) {
            size_t size = slots[place].size;
            total += size;
            if (size > largest) {
                second = largest;
                largest = size;
            } else if (size > second) {
                second = size;
            }
        }
        dprintf(STDERR_FILENO, "live %zu %zu %zu\ntaken %zu\n", total, largest, second, taken);
    }
    return real(file, bytes, count);
}
