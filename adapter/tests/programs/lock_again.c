// Locks that are destroyed, and others made in their place, by main and in regions: each serves.
// steps: lock_init, set, unset, lock_destroy
#include "../check.h"

int main(void) {
    int by_lock = 0, by_kept = 0;
    omp_lock_t lock, kept;
    omp_nest_lock_t nest;
    omp_init_lock(&kept);
    for (int round = 1; round <= 4; round++) {
        omp_init_lock(&lock);
        omp_init_nest_lock(&nest);
#pragma omp parallel
        {
            omp_set_lock(&lock);
            by_lock++;
            omp_unset_lock(&lock);
            omp_set_nest_lock(&nest);
            omp_set_lock(&kept);
            by_kept++;
            omp_unset_lock(&kept);
            omp_unset_nest_lock(&nest);
#pragma omp barrier
#pragma omp single
            {
                omp_destroy_lock(&lock);
                omp_init_lock(&lock);
            }
            omp_set_lock(&lock);
            by_lock++;
            omp_unset_lock(&lock);
        }
        omp_destroy_nest_lock(&nest);
        omp_destroy_lock(&lock);
        CHECK(by_lock == 2 * round * asked() && by_kept == round * asked(), "%d, %d in round %d", by_lock, by_kept, round);
    }
    omp_destroy_lock(&kept);
    return told();
}
