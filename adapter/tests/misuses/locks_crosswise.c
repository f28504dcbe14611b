// 75: two members hold a lock each, and each sets the other's.
// threads: 2
// words: deadlock, omp_set_lock of lock 0, omp_set_lock of lock 1, holding lock 0, holding lock 1
#include "../check.h"

int main(void) {
    int held = 0, count = 0;
    omp_lock_t locks[2];
    omp_init_lock(&locks[0]);
    omp_init_lock(&locks[1]);
#pragma omp parallel
    {
        int me = omp_get_thread_num();
        omp_set_lock(&locks[me]);
        COUNT(held);
        while (__atomic_load_n(&held, __ATOMIC_SEQ_CST) < 2)
            usleep(100);
        omp_set_lock(&locks[1 - me]);
        count++;
        omp_unset_lock(&locks[1 - me]);
        omp_unset_lock(&locks[me]);
    }
    CHECK(count == 2, "%d", count);
    return told();
}
