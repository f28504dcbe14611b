// monotonic and nonmonotonic loops of each schedule; of a monotonic one a member's iterations rise.
// steps: loop dynamic 2, loop guided 2, next
#include "../check.h"

#define ITERATIONS 120

int main(void) {
    int done[ITERATIONS] = {0};
#pragma omp parallel
    {
        int last = -1;
#pragma omp for schedule(monotonic : dynamic, 2)
        for (int i = 0; i < ITERATIONS; i++) {
            CHECK(i > last, "iteration %d behind %d", i, last);
            last = i;
            COUNT(done[i]);
        }
#pragma omp for schedule(nonmonotonic : dynamic, 2)
        for (int i = 0; i < ITERATIONS; i++)
            COUNT(done[i]);
        last = -1;
#pragma omp for schedule(monotonic : guided, 2)
        for (int i = 0; i < ITERATIONS; i++) {
            CHECK(i > last, "iteration %d behind %d", i, last);
            last = i;
            COUNT(done[i]);
        }
#pragma omp for schedule(nonmonotonic : guided, 2)
        for (int i = 0; i < ITERATIONS; i++)
            COUNT(done[i]);
#pragma omp for schedule(monotonic : runtime)
        for (int i = 0; i < ITERATIONS; i++)
            COUNT(done[i]);
#pragma omp for schedule(nonmonotonic : runtime)
        for (int i = 0; i < ITERATIONS; i++)
            COUNT(done[i]);
#pragma omp for schedule(monotonic : static, 2)
        for (int i = 0; i < ITERATIONS; i++)
            COUNT(done[i]);
    }
#pragma omp parallel for schedule(monotonic : dynamic)
    for (int i = 0; i < ITERATIONS; i++)
        COUNT(done[i]);
#pragma omp parallel for schedule(monotonic : guided)
    for (int i = 0; i < ITERATIONS; i++)
        COUNT(done[i]);
#pragma omp parallel for schedule(nonmonotonic : runtime)
    for (int i = 0; i < ITERATIONS; i++)
        COUNT(done[i]);
    check_each(done, ITERATIONS, 10, "iteration");
    return told();
}
