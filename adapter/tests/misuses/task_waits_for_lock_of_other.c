// 75: a member waits with a lock for a task that another member executes, and the task waits for the lock.
// threads: 2
// words: deadlock, lock 0 is held by member 0, which waits for this task, executing #pragma omp task, holding lock 0
#include "../check.h"

int main(void) {
    int count = 0, is_begun = 0;
    omp_lock_t lock;
    omp_init_lock(&lock);
#pragma omp parallel
    {
        if (omp_get_thread_num() == 0) {
            omp_set_lock(&lock);
#pragma omp task
            {
                __atomic_store_n(&is_begun, 1, __ATOMIC_SEQ_CST);
                omp_set_lock(&lock);
                count++;
                omp_unset_lock(&lock);
            }
            while (!__atomic_load_n(&is_begun, __ATOMIC_SEQ_CST))
                sched_yield();
#pragma omp taskwait
            omp_unset_lock(&lock);
        }
    }
    CHECK(count == 1, "%d", count);
    return told();
}
