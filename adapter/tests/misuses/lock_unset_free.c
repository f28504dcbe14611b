// E31 NotHolder: a lock is unset that nobody holds.
// words: omp_unset_lock of lock 0
#include "../check.h"

int main(void) {
    omp_lock_t lock;
    omp_init_lock(&lock);
#pragma omp parallel
    {
        omp_set_lock(&lock);
        omp_unset_lock(&lock);
        omp_unset_lock(&lock);
    }
    return told();
}
