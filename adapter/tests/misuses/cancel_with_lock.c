// 75: a member that holds a lock leaves a cancelled region, and another waits for the lock.
// environment: OMP_CANCELLATION=true
// words: cancelled, omp_set_lock of lock 0, end of the parallel region, holding lock 0
#include "../check.h"

static omp_lock_t lock;

int main(void) {
    int is_set = 0, owners = 0;
    omp_init_lock(&lock);
#pragma omp parallel
    {
        if (omp_get_thread_num() == 0) {
            omp_set_lock(&lock);
            __atomic_store_n(&is_set, 1, __ATOMIC_SEQ_CST);
#pragma omp cancel parallel
        }
        while (!__atomic_load_n(&is_set, __ATOMIC_SEQ_CST))
            sched_yield();
        omp_set_lock(&lock);
        COUNT(owners);
        omp_unset_lock(&lock);
    }
    CHECK(owners == 0, "%d", owners);
    return told();
}
