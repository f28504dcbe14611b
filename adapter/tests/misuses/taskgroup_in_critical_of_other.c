// 75: a member waits in a critical region at a taskgroup's end, and another executes a task of it that wants the region.
// threads: 2
// words: deadlock, member 0 is in #pragma omp critical, waits there for this task, the end of #pragma omp taskgroup
#include "../check.h"

static int count, is_begun;

__attribute__((noinline)) static void add(void) {
    __atomic_store_n(&is_begun, 1, __ATOMIC_SEQ_CST);
#pragma omp critical
    count++;
}

int main(void) {
#pragma omp parallel
    {
        if (omp_get_thread_num() == 0) {
#pragma omp critical
#pragma omp taskgroup
            {
#pragma omp task
                add();
                while (!__atomic_load_n(&is_begun, __ATOMIC_SEQ_CST))
                    sched_yield();
            }
        }
    }
    CHECK(count == 1, "%d", count);
    return told();
}
