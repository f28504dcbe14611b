// E31 NotHolder: a lock is unset by another thread than the one that holds it.
// words: omp_unset_lock of lock 0, holding lock 0
#include "../check.h"

int main(void) {
    omp_lock_t lock;
    omp_init_lock(&lock);
#pragma omp parallel
    {
        if (omp_get_thread_num() == 0)
            omp_set_lock(&lock);
#pragma omp barrier
        if (omp_get_thread_num() == 1)
            omp_unset_lock(&lock);
    }
    return told();
}
