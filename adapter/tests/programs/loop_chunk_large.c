// Chunks above the number of iterations, up to LONG_MAX: one member does all.
// steps: loop dynamic, loop guided
#include "../check.h"

int main(void) {
    int done[100] = {0}, owner[100];
    long most = LONG_MAX, above = 1L << 40;
#pragma omp parallel
    {
#pragma omp for schedule(dynamic, most)
        for (int i = 0; i < 100; i++) {
            COUNT(done[i]);
            owner[i] = omp_get_thread_num();
        }
#pragma omp for schedule(guided, above)
        for (long i = 0; i < 100; i++)
            COUNT(done[i]);
#pragma omp for schedule(dynamic, most)
        for (unsigned long long i = 0; i < 100; i++)
            COUNT(done[i]);
#pragma omp for schedule(dynamic, most)
        for (int i = 99; i >= 0; i--)
            COUNT(done[i]);
#pragma omp for schedule(guided, most)
        for (unsigned long long i = ULLONG_MAX - 100; i < ULLONG_MAX; i++)
            COUNT(done[i - (ULLONG_MAX - 100)]);
    }
#pragma omp parallel for schedule(dynamic, above)
    for (int i = 0; i < 100; i++)
        COUNT(done[i]);
    check_each(done, 100, 6, "iteration");
    for (int i = 0; i < 100; i++)
        CHECK(owner[i] == owner[0], "iteration %d", i);
    return told();
}
