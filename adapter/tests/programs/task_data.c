// What a task is given: copies of 0, 8, 100 and 5000 bytes, of a size known at run time, and at an address of its own alignment.
// steps: task, task_end
#include "../check.h"
#include <stdint.h>

struct part {
    unsigned char bytes[100];
};
struct large {
    int numbers[1250];
};
struct aligned {
    _Alignas(128) long number;
};

static int counts[5];

static void none(void) {
    COUNT(counts[0]);
}

static void check_large(const struct large *large, int k) {
    int wrong = 0;
    for (int i = 0; i < 1250; i++)
        wrong += large->numbers[i] != k * 10000 + i;
    CHECK(wrong == 0, "%d of the numbers of task %d", wrong, k);
}

static void create(int k) {
    long word = 3000000000L + k;
    struct part part;
    struct large large;
    struct aligned aligned = {.number = k};
    int size = 3 + k % 5, numbers[size];
    memset(part.bytes, k, sizeof part.bytes);
    for (int i = 0; i < 1250; i++)
        large.numbers[i] = k * 10000 + i;
    for (int i = 0; i < size; i++)
        numbers[i] = k + i;
#pragma omp task
    none();
#pragma omp task firstprivate(word)
    {
        CHECK(word >= 3000000000L && word < 3000000040L, "%ld", word);
        word = 0;
        COUNT(counts[1]);
    }
#pragma omp task firstprivate(part, k)
    {
        CHECK(part.bytes[0] == k && part.bytes[99] == k, "%d, not %d", part.bytes[99], k);
        COUNT(counts[2]);
    }
#pragma omp task firstprivate(large, k)
    {
        check_large(&large, k);
        memset(&large, 0, sizeof large);
        COUNT(counts[3]);
    }
#pragma omp task firstprivate(aligned, numbers, k)
    {
        CHECK((uintptr_t)&aligned % 128 == 0 && aligned.number == k, "%p, %ld", (void *)&aligned, aligned.number);
        CHECK(numbers[0] == k && numbers[2] == k + 2, "%d %d", numbers[0], numbers[2]);
        COUNT(counts[4]);
    }
    memset(&large, 1, sizeof large);
    memset(numbers, 1, sizeof numbers);
}

int main(void) {
#pragma omp parallel
    {
#pragma omp single
        for (int k = 0; k < 40; k++)
            create(k);
    }
    check_each(counts, 5, 40, "size");
    return told();
}
