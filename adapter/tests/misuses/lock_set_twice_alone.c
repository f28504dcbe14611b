// E30 AlreadyHeld: a simple lock is set twice outside of every region.
// words: omp_set_lock of lock 1, holding lock 1
#include "../check.h"

int main(void) {
    omp_lock_t locks[2];
    omp_init_lock(&locks[0]);
    omp_init_lock(&locks[1]);
#pragma omp parallel
    {
        omp_set_lock(&locks[0]);
        omp_unset_lock(&locks[0]);
    }
    omp_set_lock(&locks[1]);
    omp_set_lock(&locks[1]);
    return told();
}
