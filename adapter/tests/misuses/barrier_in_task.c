// E6 InsideTask: a barrier in a task, reached through a function.
// words: #pragma omp barrier, executing #pragma omp task
#include "../check.h"

static int parts;

__attribute__((noinline)) static void meet(void) {
    COUNT(parts);
#pragma omp barrier
    COUNT(parts);
}

int main(void) {
#pragma omp parallel
    {
#pragma omp single nowait
#pragma omp task
        meet();
    }
    CHECK(parts == 2, "%d", parts);
    return told();
}
