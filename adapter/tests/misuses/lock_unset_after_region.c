// E31 NotHolder: a lock that a thread set in a region is unset behind the region.
// words: omp_unset_lock of lock 0
#include "../check.h"

int main(void) {
    omp_lock_t lock;
    omp_init_lock(&lock);
#pragma omp parallel
    {
        if (omp_get_thread_num() == 0)
            omp_set_lock(&lock);
    }
    omp_unset_lock(&lock);
    return told();
}
