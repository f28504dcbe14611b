// E6 InsideTask: sections in a task that is executed at the second barrier, reached through a function.
// threads: 1
// words: #pragma omp sections (2 sections), after 0 work-shares and 1 barrier, executing #pragma omp task
#include "../check.h"

static int count, behind;

__attribute__((noinline)) static void parts(void) {
#pragma omp sections nowait
    {
#pragma omp section
        COUNT(count);
#pragma omp section
        COUNT(count);
    }
}

int main(void) {
#pragma omp parallel
    {
#pragma omp barrier
#pragma omp task
        parts();
#pragma omp barrier
        COUNT(behind);
    }
    CHECK(count == 2 && behind == asked(), "%d", count);
    return told();
}
