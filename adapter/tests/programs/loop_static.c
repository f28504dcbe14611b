// Static loops, which gcc cuts by itself: Dillbeam sees their barriers alone.
// steps: barrier, region_end
#include "../check.h"

#define ITERATIONS 500

int main(void) {
    int done[ITERATIONS] = {0}, owner[ITERATIONS], n = asked();
#pragma omp parallel
    {
#pragma omp for
        for (int i = 0; i < ITERATIONS; i++)
            COUNT(done[i]);
#pragma omp for schedule(static, 7)
        for (int i = 0; i < ITERATIONS; i++)
            owner[i] = omp_get_thread_num();
#pragma omp for schedule(static) nowait
        for (int i = 0; i < ITERATIONS; i++)
            COUNT(done[i]);
#pragma omp barrier
    }
    check_each(done, ITERATIONS, 2, "iteration");
    for (int i = 0; i < ITERATIONS; i++)
        CHECK(owner[i] == i / 7 % n, "iteration %d is member %d's", i, owner[i]);
    return told();
}
