// Locks and critical regions in the bodies of loops, sections, singles and ordered parts.
// steps: set 0, critical sum, loop dynamic 2, ordered, sections 2
#include "../check.h"

int main(void) {
    int sum = 0, n = asked();
    omp_lock_t lock;
    omp_init_lock(&lock);
#pragma omp parallel
    {
#pragma omp for schedule(dynamic, 2)
        for (int i = 0; i < 40; i++) {
            omp_set_lock(&lock);
            sum += i;
            omp_unset_lock(&lock);
        }
#pragma omp for schedule(dynamic) ordered
        for (int i = 0; i < 20; i++) {
#pragma omp ordered
#pragma omp critical(sum)
            sum++;
        }
#pragma omp sections
        {
#pragma omp section
#pragma omp critical(sum)
            sum++;
#pragma omp section
#pragma omp critical(sum)
            sum++;
        }
#pragma omp single
        {
#pragma omp critical(sum)
            sum++;
        }
#pragma omp critical(sum)
        sum++;
    }
    CHECK(sum == 780 + 20 + 2 + 1 + n, "%d", sum);
    omp_destroy_lock(&lock);
    return told();
}
