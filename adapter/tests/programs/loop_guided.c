// Guided loops: no chunk, one, one of a variable; a member's iterations rise.
// steps: loop guided 1, loop guided 5, next
#include "../check.h"

#define ITERATIONS 2000

int main(void) {
    static int done[ITERATIONS];
    int chunk = asked() + 2;
#pragma omp parallel
    {
        int last = -1;
#pragma omp for schedule(guided)
        for (int i = 0; i < ITERATIONS; i++) {
            CHECK(i > last, "iteration %d behind %d", i, last);
            last = i;
            COUNT(done[i]);
        }
#pragma omp for schedule(guided, 5) nowait
        for (int i = 0; i < ITERATIONS; i++)
            COUNT(done[i]);
#pragma omp for schedule(guided, chunk)
        for (int i = 0; i < ITERATIONS; i++)
            COUNT(done[i]);
    }
    check_each(done, ITERATIONS, 3, "iteration");
    return told();
}
