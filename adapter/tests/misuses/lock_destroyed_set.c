// E30 AlreadyHeld: a lock is destroyed that a thread holds.
// words: omp_destroy_lock of lock 0, holding lock 0
#include "../check.h"

int main(void) {
    omp_lock_t lock;
    omp_init_lock(&lock);
#pragma omp parallel
    {
        if (omp_get_thread_num() == 0)
            omp_set_lock(&lock);
#pragma omp barrier
        if (omp_get_thread_num() == 1)
            omp_destroy_lock(&lock);
    }
    return told();
}
