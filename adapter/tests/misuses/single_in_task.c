// E6 InsideTask: a single in a task, reached through a function.
// words: #pragma omp single, executing #pragma omp task
#include "../check.h"

static int count;

__attribute__((noinline)) static void once(void) {
#pragma omp single nowait
    COUNT(count);
}

int main(void) {
#pragma omp parallel
    {
#pragma omp task
        once();
    }
    CHECK(count == asked(), "%d", count);
    return told();
}
