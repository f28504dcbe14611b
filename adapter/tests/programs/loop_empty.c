// Loops without an iteration: none is done, and the members go on.
// steps: loop dynamic, loop guided, end_nowait, barrier
#include "../check.h"

int main(void) {
    int done = 0, zero = 0, down = -5;
    unsigned long long above = ULLONG_MAX;
#pragma omp parallel
    {
#pragma omp for schedule(dynamic)
        for (int i = 0; i < zero; i++)
            COUNT(done);
#pragma omp for schedule(guided, 3) nowait
        for (int i = 10; i < down; i += 2)
            COUNT(done);
#pragma omp for schedule(dynamic, 2) nowait
        for (int i = -10; i > zero; i--)
            COUNT(done);
#pragma omp for schedule(runtime)
        for (long i = LONG_MAX; i < LONG_MAX - zero; i++)
            COUNT(done);
#pragma omp for schedule(dynamic)
        for (unsigned long long i = above; i < ULLONG_MAX; i++)
            COUNT(done);
#pragma omp for schedule(guided)
        for (unsigned long long i = zero; i > above; i--)
            COUNT(done);
#pragma omp for schedule(dynamic)
        for (int i = 0; i < zero; i++)
            COUNT(done);
#pragma omp for schedule(static, 2) ordered
        for (int i = 0; i < zero; i++)
#pragma omp ordered
            COUNT(done);
#pragma omp for schedule(dynamic) collapse(2)
        for (int i = 0; i < 5; i++)
            for (int k = 0; k < zero; k++)
                COUNT(done);
    }
#pragma omp parallel for schedule(dynamic)
    for (int i = 0; i < zero; i++)
        COUNT(done);
#pragma omp parallel for schedule(guided, 4)
    for (unsigned i = 5; i < (unsigned)zero; i++)
        COUNT(done);
    CHECK(done == 0, "%d iterations", done);
    return told();
}
