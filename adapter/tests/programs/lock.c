// A lock that main makes before its regions: it guards a sum in each of them, and between them.
// steps: lock_init, set 0, unset 0, lock_destroy 0
#include "../check.h"

int main(void) {
    int count = 0, n = asked();
    omp_lock_t lock;
    omp_init_lock(&lock);
    for (int round = 1; round <= 3; round++) {
#pragma omp parallel
        for (int k = 0; k < 10; k++) {
            omp_set_lock(&lock);
            int before = count;
            sched_yield();
            count = before + 1;
            omp_unset_lock(&lock);
        }
        omp_set_lock(&lock);
        CHECK(count == round * n * 10 + round - 1, "%d in round %d", count, round);
        count++;
        omp_unset_lock(&lock);
#pragma omp single
        count += 0;
    }
    omp_destroy_lock(&lock);
    return told();
}
