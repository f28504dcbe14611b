// omp_set_lock of lock 0: a lock that is set in a nested region.
// environment: OMP_MAX_ACTIVE_LEVELS=2
#include "../check.h"

int main(void) {
    int count = 0;
    omp_lock_t lock;
    omp_init_lock(&lock);
#pragma omp parallel
    {
#pragma omp parallel num_threads(2)
        {
            omp_set_lock(&lock);
            count++;
            omp_unset_lock(&lock);
        }
    }
    CHECK(count == 2 * asked(), "%d", count);
    return told();
}
