// 75: a member goes out of a taskgroup in a cancelled region, with a lock that a task of the taskgroup waits for.
// environment: OMP_CANCELLATION=true
// threads: 3
// words: cancelled, the end of #pragma omp taskgroup, holding lock 0, omp_set_lock of lock 0, executing #pragma omp task
#include "../check.h"

static omp_lock_t lock;
static int is_begun, owners;

static void await_task(void) {
    while (!__atomic_load_n(&is_begun, __ATOMIC_SEQ_CST))
        sched_yield();
}

static void create(void) {
#pragma omp task
    {
        __atomic_store_n(&is_begun, 1, __ATOMIC_SEQ_CST);
        omp_set_lock(&lock);
        COUNT(owners);
        omp_unset_lock(&lock);
    }
}

int main(void) {
    omp_init_lock(&lock);
#pragma omp parallel
    {
        if (omp_get_thread_num() == 0) {
            await_task();
#pragma omp cancel parallel
        }
#pragma omp taskgroup
        {
            if (omp_get_thread_num() == 1) {
                omp_set_lock(&lock);
                create();
                await_task();
            }
#pragma omp for
            for (int i = 0; i < 64; i++)
                ;
        }
    }
    CHECK(owners == 0, "%d", owners);
    return told();
}
