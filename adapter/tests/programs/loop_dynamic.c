// Dynamic loops: no chunk, small ones, one of a variable, one above the number of iterations; each chunk is one member's.
// steps: loop dynamic 1, loop dynamic 3, loop dynamic 7, next, end_nowait, barrier
#include "../check.h"

#define ITERATIONS 300

int main(void) {
    int done[ITERATIONS] = {0}, owner[ITERATIONS], few[5] = {0}, chunk = asked() % 9 + 7;
#pragma omp parallel
    {
#pragma omp for schedule(dynamic)
        for (int i = 0; i < ITERATIONS; i++)
            COUNT(done[i]);
#pragma omp for schedule(dynamic, 3)
        for (int i = 0; i < ITERATIONS; i++) {
            COUNT(done[i]);
            owner[i] = omp_get_thread_num();
        }
#pragma omp for schedule(dynamic, 7) nowait
        for (int i = 3; i < ITERATIONS; i++)
            COUNT(done[i]);
#pragma omp for schedule(dynamic, chunk)
        for (int i = 0; i < ITERATIONS; i += 4)
            COUNT(done[i]);
#pragma omp for schedule(dynamic, 100)
        for (int i = 0; i < 5; i++)
            COUNT(few[i]);
    }
    for (int i = 0; i < ITERATIONS; i++) {
        int times = 2 + (i >= 3) + (i % 4 == 0);
        CHECK(done[i] == times, "iteration %d was done %d times, not %d", i, done[i], times);
        CHECK(owner[i] == owner[i / 3 * 3], "iteration %d is not of its chunk's member", i);
    }
    check_each(few, 5, 1, "iteration of few");
    return told();
}
